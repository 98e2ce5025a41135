"""What asks for a restart, for how long the server will be away, and that nothing is restarted where it may not be."""

import argparse
import contextlib
import os
import subprocess
import sys
from pathlib import Path
from types import SimpleNamespace

import pytest
from scripts import script
from wanekupo.plant.trial_copy import Backup
from wanekupo.common.store_user import UserError

restart = script("restart")
NOW = 1_800_000_000
# As `wanekupo metrics` writes them (docs/operate/watch.md).
ROWS = {"metrics_timestamp_seconds": NOW - 60, "connections_left": "5e5", "server_memory_bytes": 100_000_000,
        "start_memory_limit_bytes": 1_000_000_000, "start_memory_bytes": 200_000_000}  # fmt: skip


def text_of(**changes):
    rows = {**ROWS, **changes}
    return "# HELP wanekupo_x y\n" + "".join(f"wanekupo_{name} {value}\n" for name,
        value in rows.items() if value is not None)


def args_of(**more):
    return argparse.Namespace(**{**vars(restart.restart_parser().parse_args([])), **more})


def test_no_metrics(tmp_path, monkeypatch):
    with pytest.raises(restart.NoRestartError, match="there are no metrics in .*wanekupo-metrics.timer"):
        restart.read_metrics(tmp_path / "none")
    (tmp_path / "f").write_text(text_of())
    (tmp_path / "link").symlink_to(tmp_path / "f")
    monkeypatch.setattr(restart.time, "time", lambda: NOW)
    assert restart.read_metrics(tmp_path / "f").left == 500000
    with pytest.raises(restart.NoRestartError):
        restart.read_metrics(tmp_path / "link")


def test_free_memory(monkeypatch):
    text = "MemTotal:  9 kB\nMemFree: 8 kB\nMemAvailable:    7 kB\n"
    monkeypatch.setattr(restart, "Path", lambda name: SimpleNamespace(read_text=lambda encoding: text))
    assert restart.free_memory() == 7 * 1024


# ---- how long


class FakeStore:
    """A store of 200 MB, whose user's commands are noted."""

    def __init__(self, status=0):
        self.calls, self.status, self.db, self.given = [], status, Path("/db/books.db"), ""
        self.user = SimpleNamespace(run=self.run, name="station")

    def run(self, *words, given="", seconds=0):
        self.calls.append(words)
        self.given = given
        return subprocess.CompletedProcess(words, self.status, "", "why\n" if self.status else "")

    def size(self, ending=""):
        return 1_000_000 if ending else 200_000_000


PLAIN, SECRET = Backup(Path("/b/2026"), 5, False), Backup(Path("/b/2026.tar.age"), 0, True)


def away(monkeypatch, newest, snapshot="", needs=10, free=11, took=30.0):
    asked = []

    def trial(args, store, backup, needed):
        asked.append((backup, needed))
        if isinstance(took, Exception):
            raise took
        return took

    monkeypatch.setattr(restart, "newest_backup", lambda user, folder: newest)
    monkeypatch.setattr(restart, "free_memory", lambda: free)
    monkeypatch.setattr(restart, "trial", trial)
    metrics = restart.Metrics(NOW, 1, 1, 1, needs)
    return *restart.seconds_away(args_of(snapshot=snapshot), FakeStore(), metrics), asked


BY_BYTES = (2 * 10 + 3, restart.TRIED_BY_BYTES)


@pytest.mark.parametrize("newest, more, expected, asked", [
    (PLAIN, {}, (63, "by a start of the copy in /b/2026"), [(PLAIN, 5)]),
    (SECRET, {}, (63, "by a start of a copy of the store as it is now"), [(None, 201_000_000)]),
    (None, {"snapshot": "lvm"}, (63, "by a start of a copy of the store as it is now"), [(None, 201_000_000)]),
    (None, {}, BY_BYTES, []), (PLAIN, {"needs": 11}, BY_BYTES, []),
    (PLAIN, {"took": UserError("no room")}, BY_BYTES, [(PLAIN, 5)]),
])  # fmt: skip
def test_seconds_away(monkeypatch, newest, more, expected, asked):
    """Two starts and three seconds; without a copy, or without memory for a start beside the server, by the bytes."""
    seconds, by, tried = away(monkeypatch, newest, **more)
    assert ((seconds, by), tried) == (expected, asked)


def test_a_copy_that_does_not_start_is_no_guess(monkeypatch):
    with pytest.raises(restart.NoRestartError):
        away(monkeypatch, PLAIN, took=restart.NoRestartError("no restart"))


def trial(monkeypatch, backup, store):
    @contextlib.contextmanager
    def room(user, needed, folder):
        store.calls.append(("room", needed))
        yield Path("/room")
        store.calls.append(("gone",))

    monkeypatch.setattr(restart, "room", room)
    monkeypatch.setattr(restart, "copy_files", lambda user, db,
        made: store.calls.append(("copy", db)) or made / db.name)
    monkeypatch.setattr(restart, "copy_running", lambda db,
        *words: store.calls.append(("running", db)) or Path("/room/store/books.db"))
    return restart.trial(args_of(), store, backup, 9)


@pytest.mark.parametrize("backup, copied", [(PLAIN, ("copy", Path("/b/2026/books.db"))), (None, ("running",
    Path("/db/books.db")))])
def test_a_trial(monkeypatch, backup, copied):
    store = FakeStore()
    assert trial(monkeypatch, backup, store) >= 0
    start = ("station", "replay", "--site", "/etc/station/site.toml", "--db", "/room/store/books.db", "--existing")
    assert store.calls == [("room", 9), copied, start, ("gone",)]
    with pytest.raises(restart.NoRestartError, match="doesn't start"):
        trial(monkeypatch, backup, FakeStore(status=-9))


# ---- the restart


def test_no_alarm_until(monkeypatch):
    store = FakeStore()
    restart.planned_until(args_of(), store, NOW + 0.7)
    ((*shell, path),) = store.calls
    assert path == "/var/lib/wanekupo-metrics/restart.prom" and shell[0] == "sh"
    assert store.given.splitlines()[1:] == ["# TYPE wanekupo_restart_end_timestamp_seconds gauge",
                                            f"wanekupo_restart_end_timestamp_seconds {NOW}"]  # fmt: skip
    with pytest.raises(restart.NoRestartError, match="why"):
        restart.planned_until(args_of(), FakeStore(1), NOW)


def test_a_pipe_in_the_place_of_what_is_written_is_waited_for_by_nobody(tmp_path):
    """The folder is the store user's, who may have put it there."""
    os.mkfifo(tmp_path / "restart.prom.new")
    words = ["sh", "-c", restart.WRITTEN, "sh", str(tmp_path / "restart.prom")]
    subprocess.run(words, input=b"text", timeout=20, check=True)
    assert (tmp_path / "restart.prom").read_bytes() == b"text" and len(list(tmp_path.iterdir())) == 1


@pytest.mark.parametrize("out, is_healthy", [("200", True), ("503", False), ("", False), ("2000", False)])
def test_is_healthy(monkeypatch, out, is_healthy):
    calls = []
    monkeypatch.setattr(subprocess, "run", lambda words,
        **more: calls.append(words) or SimpleNamespace(stdout=out))
    assert restart.is_healthy(args_of(health="https://h/health")) is is_healthy
    ((*words,),) = calls
    assert words[-1] == "https://h/health" and words[words.index("--cacert") + 1] == "/etc/station/cert.pem"
    assert "-k" not in words


def restarted(monkeypatch, is_done, answers):
    calls, left, moments = [], iter(answers), iter(range(100))
    monkeypatch.setattr(restart, "service", lambda *words: calls.append(words) or is_done)
    monkeypatch.setattr(restart, "is_healthy", lambda args: next(left, answers[-1]))
    monkeypatch.setattr(restart.time, "monotonic", lambda: next(moments))
    monkeypatch.setattr(restart.time, "sleep", lambda seconds: calls.append(seconds))
    return restart.restart(args_of(), FakeStore(), 9), calls


def test_restart(monkeypatch):
    seconds, calls = restarted(monkeypatch, True, [False, True])
    assert calls == [("try-restart", "station"), 3, 0.5] and seconds > 0
    with pytest.raises(restart.NoRestartError, match="couldn't restart station"):
        restarted(monkeypatch, False, [True])
    with pytest.raises(restart.NoRestartError, match="didn't answer within 9 s"):
        restarted(monkeypatch, True, [False])


@pytest.mark.parametrize("status", [0, 3])
def test_service(monkeypatch, status):
    calls = []
    monkeypatch.setattr(subprocess, "run", lambda words,
        **more: calls.append(words) or SimpleNamespace(returncode=status))
    assert restart.service("is-active", "--quiet", "station") is (status == 0)
    assert calls == [["systemctl", "is-active", "--quiet", "station"]]


def ran(monkeypatch, is_active=True, reasons=("why",), needs=1, **more):
    calls = []
    monkeypatch.setattr(restart, "StoreFolder", lambda db: FakeStore())
    monkeypatch.setattr(restart, "clear_rooms", lambda folder: calls.append("clear"))
    monkeypatch.setattr(restart, "service", lambda *words: calls.append(words[0]) or is_active)
    monkeypatch.setattr(restart, "read_metrics", lambda path: restart.Metrics(NOW, 5, 6, 7, needs))
    monkeypatch.setattr(restart, "reasons_of", lambda args, metrics, log: list(reasons))
    monkeypatch.setattr(restart, "seconds_away", lambda *words: (20, "by bytes"))
    monkeypatch.setattr(restart, "planned_until", lambda args, store, moment: calls.append(("until", moment)))
    monkeypatch.setattr(restart, "restart", lambda args, store, wait: calls.append(("restart", wait)) or 11.6)
    monkeypatch.setattr(restart.time, "time", lambda: NOW)
    restart.run_restart(args_of(**more))
    return calls


DONE = ["clear", "is-active", ("until", NOW + 120), ("restart", 120), ("until", NOW)]


@pytest.mark.parametrize("more, calls, told", [
    ({}, DONE, "because: why"), ({"reasons": (), "now": True}, DONE, "because: it was asked for by --now"),
    ({"reasons": ()}, DONE[:2], "nothing asks for it, nothing was done"),
    ({"check": True}, DONE[:2], "why; it would be away for 20 s"),
    ({"check": True, "reasons": ()}, DONE[:2], "nothing asks for it; it would be away"),
])  # fmt: skip
def test_run(monkeypatch, capsys, more, calls, told):
    """No alarm from before the restart on, for three times as long as it was told, and until it is over."""
    assert ran(monkeypatch, **more) == calls and told in capsys.readouterr().out


@pytest.mark.parametrize("more, told", [
    ({"is_active": False}, "doesn't run"), ({"is_active": False, "now": True}, "doesn't run"),
    ({"needs": 8}, "raise MemoryMax= first"),
    ({"needs": 8, "now": True}, "raise MemoryMax= first"),
])  # fmt: skip
def test_nothing_is_restarted(monkeypatch, more, told):
    with pytest.raises(restart.NoRestartError, match=told):
        ran(monkeypatch, **more)
    monkeypatch.setattr(restart, "restart", lambda *_: pytest.fail("restarted"))


@pytest.mark.parametrize("error, status", [(None, 0), (restart.NoRestartError("why"), 1), (UserError("why"), 1),
    (OSError(5, "why"), 1)])
def test_main(monkeypatch, capsys, error, status):
    def run(args):
        if error:
            raise error

    masks = []
    monkeypatch.setattr(restart, "run_restart", run)
    monkeypatch.setattr(restart.os, "umask", masks.append)
    monkeypatch.setattr(restart.signal, "signal", lambda *_: None)
    monkeypatch.setattr(sys, "argv", ["restart", "--check"])
    assert restart.main() == status and ("why" in capsys.readouterr().err) == bool(error)
    assert masks == [0o077], "what it writes is root's alone"


@pytest.mark.parametrize("text", ["--check --now", "--log x", "--chec", "x"])
def test_wrong_words(capsys, text):
    with pytest.raises(SystemExit) as error:
        restart.restart_parser().parse_args(text.split())
    assert error.value.code == 2


def test_a_signal_is_an_error():
    with pytest.raises(restart.NoRestartError, match="stopped by a signal"):
        restart.stop_restart(15, None)
