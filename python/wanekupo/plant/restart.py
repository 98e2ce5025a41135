"""Restarts the server at a moment that a plant chose, if something asks for it, and waits until it answers again.

    station-restart          asks, and restarts only if it has to be
    station-restart --check  asks, says what it would do and how long the server would be away, and changes nothing
    station-restart --now    restarts also where nothing asks for it

station-restart.timer runs it in a break. What may ask for a restart, each with an option for another number:
  --connections 200000         fewer connections than these are left of the server's --connections
  --log 64                     the store's log has more megabytes; it has two at the most, so something holds it
  --memory 50                  the server holds more of what it may have, in per cent

It reads the first and the third from the file of `wanekupo metrics`, not older than 20 minutes. A stop joins the log
with the file (ExecStopPost= of the unit), which is a start by itself; then the server starts. So it is away for two
starts, and says beforehand how long that is: it starts a copy of the last backup, as the store's user, and doubles
the time. Where that backup is encrypted, its key is elsewhere: then it starts a copy of the store as it is now, made by
a snapshot as the last backup's, or of the kind that --snapshot names. The copy lies in a folder of root's, in /var/tmp
or in that of --room, and is gone at the end. Where there is no copy, no memory for one start beside the server, or no
room for the copy, it reckons by the bytes, and says that no start was tried.
Stations wait meanwhile, and say so; each request is done once.

It restarts nothing, with a line and status 1, where the server was stopped, as for a restore, where the copy doesn't
start, where a start needs more memory than the server may have, and where the metrics are missing or old. Where
/health doesn't answer in time the status is 1 too, and 2 where the words are wrong. The metrics are the store user's:
whoever writes them can have the server restarted at the timer's moments, and no more. The last line says what was done.
As root, with Python 3.11; it needs curl, setpriv and wanekupo-metrics.timer.
"""

import argparse
import math
import os
import signal
import sys
import time
from dataclasses import dataclass
from pathlib import Path

from wanekupo.common.process import end_tool, run_command, succeeds
from wanekupo.common.errors import PlantError
from wanekupo.plant.trial_copy import Backup, copy_files, copy_running, newest_backup
from wanekupo.common.rooms import ROOMS, clear_rooms, room
from wanekupo.common.store_user import LONGEST, MINUTE, STOPS, StoreFolder, UserError, read_small, shown

# Bytes a second that a start reads, at the least (docs/reference/program.md). How old metrics may be, and how far ahead
# their clock, in seconds.
SLOWEST, OLDEST, AHEAD = 20_000_000, 1200, 60
TRIED_BY_BYTES = "reckoned by its bytes, as no start was tried"
# The folder is the store user's, so that user writes the file, whole.
WRITTEN = 'umask 022; rm -f "$1.new"; cat > "$1.new"; mv "$1.new" "$1"'


class NoRestartError(PlantError):
    """Why nothing was restarted, or why it wasn't seen to be up again."""


@dataclass(frozen=True)
class Metrics:
    """What the metrics say, in whole numbers: when they were written, the connections that are left, the bytes that the
    server holds, those that it may have, and those that a start needs."""

    written: int
    left: int
    held: int
    may_have: int
    needs: int


NAMES = ("metrics_timestamp_seconds", "connections_left", "server_memory_bytes", "start_memory_limit_bytes",
         "start_memory_bytes")  # fmt: skip


def tell_restart(text: str) -> None:
    print(f"restart: {text}", flush=True)


def megabytes(size: int) -> int:
    return (size + 500_000) // 1_000_000


# ---- What asks for it.


def whole_number(value: str) -> int | None:
    """A metric's value as a whole number; none where it is no amount."""
    try:
        found = float(value)
    except ValueError:
        return None
    return round(found) if math.isfinite(found) and 0 <= found < 2**53 else None


def metrics_in(text: str, title: str, now: float) -> Metrics:
    """The metrics of a text, which the store's user wrote."""
    rows = dict(line.split(" ", 1) for line in text.splitlines() if " " in line)
    found = [whole_number(rows.get(f"wanekupo_{name}", "")) for name in NAMES]
    age = int(now) - (found[0] or 0)
    if not -AHEAD <= age <= OLDEST:
        raise NoRestartError(f"the metrics in {title} are {age} s old: look at wanekupo-metrics.timer")
    if None in found:
        told = f"wanekupo_metrics_success of {title} says which part failed"
        raise NoRestartError(f"the metrics lack what this asks for: {told}")
    return Metrics(*(it or 0 for it in found))


def read_metrics(path: Path) -> Metrics:
    try:
        text = read_small(path).decode(errors="replace")
    except OSError as error:
        told = f"{error.strerror}: look at wanekupo-metrics.timer"
        raise NoRestartError(f"there are no metrics in {path}: {told}") from None
    return metrics_in(text, str(path), time.time())


def reasons_of(args: argparse.Namespace, metrics: Metrics, log: int) -> list[str]:
    """What asks for a restart."""
    asks = [
        (metrics.left < args.connections, f"{metrics.left} connections are left"),
        (log > args.log * 1_000_000, f"the log has {megabytes(log)} MB"),
        (100 * metrics.held > args.memory * metrics.may_have, f"the server holds {megabytes(metrics.held)} MB"),
    ]
    return [told for is_asked, told in asks if is_asked]


# ---- How long it will be away.


def free_memory() -> int:
    """The bytes that a start may have beside the server."""
    lines = Path("/proc/meminfo").read_text(encoding="ascii").splitlines()
    return next(1024 * int(line.split()[1]) for line in lines if line.startswith("MemAvailable:"))


def trial(args: argparse.Namespace, store: StoreFolder, backup: Backup | None, needed: int) -> float:
    """Starts a copy as the store's user, since a file may bring a program to do things; gives the seconds."""
    what = f"the copy in {backup.path}" if backup else "a copy of the store as it is now"
    with room(store.user, needed, args.room) as own:
        made = own / "store"
        if backup:
            copy = copy_files(store.user, backup.path / "books.db", made)
        else:
            copy = copy_running(store.db, args.backups, args.snapshot, made)
        words = (args.program, "replay", "--site", str(args.site), "--db", str(copy), "--existing")
        begun = time.monotonic()
        done = store.user.run(*words)
        if done.returncode:
            print(shown(done.stderr).strip(), file=sys.stderr)
            told = "Look at that first: the store may not start either"
            raise NoRestartError(f"no restart: {what} doesn't start. {told}")
        return time.monotonic() - begun


def seconds_away(args: argparse.Namespace, store: StoreFolder, metrics: Metrics) -> tuple[int, str]:
    """How long a restart takes, and how that is known."""
    newest = newest_backup(store.user, args.backups)
    took, by = store.size() / SLOWEST, TRIED_BY_BYTES
    if (newest or args.snapshot) and metrics.needs < free_memory():
        backup = newest if newest and not newest.is_encrypted else None
        needed = backup.size if backup else store.size() + store.size("-wal")
        try:
            took = trial(args, store, backup, needed)
            by = f"by a start of {f'the copy in {backup.path}' if backup else 'a copy of the store as it is now'}"
        except UserError as error:
            print(f"restart: no start is tried: {error}", file=sys.stderr)
    return 2 * min(round(took), LONGEST) + 3, by


# ---- The restart.


def planned_until(args: argparse.Namespace, store: StoreFolder, moment: float) -> None:
    """No alarm until then: the rule of ServerIsAway looks at it."""
    name = "wanekupo_restart_end_timestamp_seconds"
    text = f"# HELP {name} When the last restart that was planned is over at the latest.\n# TYPE {name} gauge\n"
    path = args.metrics.parent / "restart.prom"
    given = f"{text}{name} {int(moment)}\n"
    done = store.user.run("sh", "-c", WRITTEN, "sh", str(path), given=given, seconds=MINUTE)
    if done.returncode:
        raise NoRestartError(f"{path} can't be written as {store.user.name}: {shown(done.stderr).strip()}")


def service(*words: str) -> bool:
    return succeeds("systemctl", *words)


def is_healthy(args: argparse.Namespace) -> bool:
    words = ["curl", *"-q -s -m 5 -o /dev/null -w %{http_code}".split(), "--cacert", str(args.ca), args.health]
    return run_command(words).stdout == "200"


def restart(args: argparse.Namespace, store: StoreFolder, wait: int) -> float:
    """Restarts, and waits until it answers; gives the seconds."""
    begun, look = time.monotonic(), f"systemctl status {args.unit}; journalctl -u {args.unit}"
    if not service("try-restart", args.unit):
        raise NoRestartError(f"systemctl couldn't restart {args.unit}: {look}")
    end = time.monotonic() + wait
    time.sleep(3)  # for two seconds nginx gives the answer from before
    while not is_healthy(args):
        if time.monotonic() > end:
            raise NoRestartError(f"restarted, and {args.health} didn't answer within {wait} s: {look}")
        time.sleep(0.5)
    return time.monotonic() - begun


def run_restart(args: argparse.Namespace) -> None:
    store = StoreFolder(args.db)
    store.size()
    clear_rooms(args.room)
    # Who stopped it had a reason, and nobody else starts it again.
    if not service("is-active", "--quiet", args.unit):
        raise NoRestartError(f"nothing was done: {args.unit} doesn't run, and whoever stopped it starts it again")
    metrics, log = read_metrics(args.metrics), store.size("-wal")
    reasons = reasons_of(args, metrics, log)
    if not reasons and not args.check and not args.now:
        held = f"the log has {megabytes(log)} MB, the server holds {megabytes(metrics.held)} MB"
        tell_restart(f"nothing asks for it, nothing was done: {metrics.left} connections are left, {held}")
        return
    why = "; ".join(reasons) or ("it was asked for by --now" if args.now else "nothing asks for it")
    if metrics.needs > metrics.may_have:
        needs = f"a start needs {megabytes(metrics.needs)} MB, and the server may have {megabytes(metrics.may_have)}"
        raise NoRestartError(f"no restart: {needs}: raise MemoryMax= first")
    told, by = seconds_away(args, store, metrics)
    if args.check:
        tell_restart(f"{why}; it would be away for {told} s, {by}; nothing was done")
        return
    wait = 3 * told + 60
    planned_until(args, store, time.time() + wait)
    tell_restart(f"the server will be away for {told} s, {by}, because: {why}")
    away = restart(args, store, wait)
    planned_until(args, store, time.time())
    log = store.size("-wal")
    done = f"the server was away for {round(away)} s at the most, and {told} were told; the log has {log} bytes"
    tell_restart(f"done: {done}")


def absolute_path(path: str) -> Path:
    """A path as it is named from anywhere."""
    return Path(os.path.abspath(path))


def restart_parser() -> argparse.ArgumentParser:
    made = argparse.ArgumentParser(
        prog="station-restart", description=__doc__, allow_abbrev=False,
        formatter_class=argparse.RawDescriptionHelpFormatter,
    )
    kind = made.add_mutually_exclusive_group()
    kind.add_argument("--check", action="store_true", help="change nothing")
    kind.add_argument("--now", action="store_true", help="restart also where nothing asks for it")
    made.add_argument("--unit", default="station", help="the server's (%(default)s)")
    made.add_argument("--db", type=absolute_path, default="/var/lib/station/books.db", help="the store (%(default)s)")
    made.add_argument("--site", type=absolute_path, default="/etc/station/site.toml", help="(%(default)s)")
    made.add_argument("--program", default="station", help="(%(default)s)")
    metrics = "/var/lib/wanekupo-metrics/wanekupo.prom"
    made.add_argument("--metrics", type=absolute_path, default=metrics, help="(%(default)s)")
    made.add_argument("--backups", type=absolute_path, default="/var/backups/station", help="(%(default)s)")
    made.add_argument("--snapshot", default="", metavar="KIND", help="lvm, btrfs or zfs (as the last backup's)")
    made.add_argument("--room", type=absolute_path, default=str(ROOMS), metavar="FOLDER",
                      help="of root's, where a copy is tried (%(default)s)")  # fmt: skip
    made.add_argument("--health", default="https://station.example:8443/health", metavar="URL", help="(%(default)s)")
    made.add_argument("--ca", type=absolute_path, default="/etc/station/cert.pem", metavar="FILE", help="(%(default)s)")
    made.add_argument("--connections", type=int, default=200_000, metavar="N", help="(%(default)s)")
    made.add_argument("--log", type=int, default=64, metavar="MB", help="(%(default)s)")
    made.add_argument("--memory", type=int, default=50, metavar="PERCENT", help="(%(default)s)")
    return made


def stop_restart(_: int, __: object) -> None:
    raise NoRestartError("stopped by a signal")


def main() -> int:
    args = restart_parser().parse_args()
    os.umask(0o077)
    for number in STOPS:
        signal.signal(number, stop_restart)
    return end_tool("restart", lambda: run_restart(args))
