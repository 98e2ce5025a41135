"""What the server's machine shows, for metrics: the process, the store's files, what nginx counts, and the last backup.
Nothing here asks the server itself, which tells nobody how many connections it has left.
"""

import http.client
import json
import os
import re
import ssl
import subprocess
import time
import urllib.request
from pathlib import Path
from typing import Any, Optional

from wanekupo.common.errors import StationError
from wanekupo.metrics.exposition import Samples
from wanekupo.common.moments import moment_of
from wanekupo.common.process import run_command

# What a start takes beside the bytes of the file, by the size of its pages (docs/reference/program.md).
SMALL_PAGES, LARGE_PAGES = (1.0, 6_000_000), (1.1, 11_000_000)
LARGE_PAGE = 4096

# How long another program may take to answer, in seconds, and the most that is read of a page of nginx.
LONGEST, LONGEST_PAGE = 10, 4096

# The file that the tool for backups leaves in their folder, and the unit that runs it.
LAST_BACKUP, BACKUP_UNIT = "last-backup.json", "station-backup"

# By how many seconds a note may be ahead of this machine's clock.
AHEAD = 60


# The process.


def properties_of(unit: str, *names: str) -> dict[str, str]:
    """What systemd says of a unit; of a moment the seconds since 1970 behind an @."""
    words = ["systemctl", "show", unit, "--timestamp=unix", f"--property={','.join(names)}"]
    try:
        done = run_command(words, LONGEST)
        done.check_returncode()
    except (OSError, subprocess.SubprocessError) as error:
        raise StationError(f"systemctl doesn't show the unit {unit}", "Look whether systemd runs here.") from error
    return dict(line.split("=", 1) for line in done.stdout.splitlines() if "=" in line)


def pid_of(properties: dict[str, str]) -> int:
    pid = int(properties.get("MainPID", "0"))
    if not pid:
        raise StationError("the server doesn't run", "Look why: systemctl status station; journalctl -u station.")
    return pid


def start_of(pid: int) -> tuple[float, str]:
    """When a process was started, and what no other start of this machine is: the boot, the process, and its ticks."""
    ticks = Path(f"/proc/{pid}/stat").read_text(encoding="utf-8").rpartition(")")[2].split()[19]
    booted = re.search(r"^btime (\d+)$", Path("/proc/stat").read_text(encoding="ascii"), re.MULTILINE)
    if not booted:
        raise StationError("/proc/stat doesn't say when the machine was started", "Look at the kernel's documentation.")
    boot = Path("/proc/sys/kernel/random/boot_id").read_text(encoding="ascii").strip()
    return int(booted[1]) + int(ticks) / os.sysconf("SC_CLK_TCK"), f"{boot} {pid} {ticks}"


def _kilobytes(file: str, name: str) -> int:
    found = re.search(rf"^{name}:\s+(\d+) kB$", Path(file).read_text(encoding="ascii"), re.MULTILINE)
    if not found:
        raise StationError(f"{file} has no {name}", "Look at the kernel's own documentation.")
    return 1024 * int(found[1])


def add_server(samples: Samples, unit: str) -> str:
    """The server's process; gives what this start of it is known by."""
    properties = properties_of(unit, "MainPID", "NRestarts", "MemoryMax")
    pid = pid_of(properties)
    moment, start = start_of(pid)
    samples.add("wanekupo_server_start_time_seconds", moment)
    samples.add("wanekupo_server_restarts_total", int(properties.get("NRestarts", "0")))
    samples.add("wanekupo_server_memory_bytes", _kilobytes(f"/proc/{pid}/status", "VmRSS"))
    bound, all_of_it = properties.get("MemoryMax", ""), _kilobytes("/proc/meminfo", "MemTotal")
    samples.add("wanekupo_start_memory_limit_bytes", min(int(bound), all_of_it) if bound.isdigit() else all_of_it)
    limits = Path(f"/proc/{pid}/limits").read_text(encoding="ascii")
    most = re.search(r"^Max file size\s+(\S+)", limits, re.MULTILINE)
    if most and most[1].isdigit():
        samples.add("wanekupo_store_limit_bytes", int(most[1]))
    return start


# The store.


def files_of(store: Path) -> tuple[Path, Path]:
    return store, Path(f"{store}-wal")


def start_memory(store: Path) -> float:
    """The memory that a start over a store takes, with what is in its log alone yet. Bytes 16 and 17 of its file are
    the size of its pages."""
    with open(store, "rb") as source:
        head = source.read(18)
    size = sum(file.stat().st_size for file in files_of(store))
    factor, more = LARGE_PAGES if int.from_bytes(head[16:18], "big") == LARGE_PAGE else SMALL_PAGES
    return round(factor * size + more)


def add_store(samples: Samples, store: Path) -> None:
    for file in files_of(store):
        samples.add("wanekupo_store_bytes", file.stat().st_size, file=file.name)
    samples.add("wanekupo_start_memory_bytes", start_memory(store))
    disk = os.statvfs(store.parent)
    samples.add("wanekupo_store_disk_bytes", disk.f_blocks * disk.f_frsize)
    samples.add("wanekupo_store_disk_free_bytes", disk.f_bavail * disk.f_frsize)


# nginx.


def nginx_requests(url: str, context: Optional[ssl.SSLContext]) -> int:
    """How many requests nginx has had since its start, by the page of its module stub_status."""
    if not url.startswith(("http://", "https://")):
        raise ValueError(f"{url} is no address of a page")
    try:
        with urllib.request.urlopen(url, timeout=LONGEST, context=context) as page:
            text = page.read(LONGEST_PAGE).decode("ascii", "replace")
    except http.client.HTTPException as error:
        raise StationError(f"what {url} answers is no HTTP", "Look at --status, and at nginx.") from error
    found = re.search(r"^ \d+ \d+ (\d+) $", text, re.MULTILINE)
    if not found:
        raise StationError(f"{url} isn't nginx's page of its counts", "Look at location = /status of its nginx.conf.")
    return int(found[1])


def passed_by(file: Path) -> int:
    """How many requests nginx passed on to the server, each over a connection of its own: a byte of a file for each.
    Those that it refused, as all of a stranger's, aren't among them."""
    try:
        return file.stat().st_size
    except OSError as error:
        raise StationError(f"nginx doesn't count in {file} what it passes on", "Take today's nginx.conf.") from error


def requests_since(kept: dict[str, Any], start: str, seen: int) -> int:
    """How many of these there were since the server was started, at the most: of the look in front of the start and the
    one behind it all count. Where the file was emptied the count goes on from there."""
    before = int(kept.get("seen", 0))
    more = seen - before if seen >= before else seen
    counted = int(kept.get("counted", 0)) + more if kept.get("start") == start else more
    kept.update({"seen": seen, "start": start, "counted": counted})
    return counted


def add_requests(
    samples: Samples, kept: dict[str, Any], url: str, context: Optional[ssl.SSLContext], passed: Path, start: str,
    connections: int,
) -> None:  # fmt: skip
    counted = requests_since(kept, start, passed_by(passed))
    samples.add("wanekupo_http_requests_total", nginx_requests(url, context))
    samples.add("wanekupo_server_requests_total", counted)
    samples.add("wanekupo_connections_left", max(0, connections - counted))


# The last backup.


def backup_unit_failed() -> bool:
    """Whether the backups' unit failed when it ran last. A note that says otherwise is the store user's word."""
    return properties_of(BACKUP_UNIT, "Result").get("Result", "success") != "success"


def add_backup(samples: Samples, folder: Path, has_unit: bool) -> None:
    """The last backup, by its note; it is no good one where the note is of a time to come, or where systemd runs the
    backups and their unit failed."""
    file = folder / LAST_BACKUP
    try:
        last = json.loads(file.read_text(encoding="utf-8"))
        ended = moment_of(last["at"]).timestamp()
        is_fine = last["ok"] is True and ended <= time.time() + AHEAD and not (has_unit and backup_unit_failed())
        values = {"timestamp_seconds": ended, "success": is_fine, "bytes": int(last["bytes"] or 0)}
    except (ValueError, KeyError, TypeError) as error:
        raise StationError(f"{file} doesn't say how the last backup ended", "Make a backup.") from error
    for name, value in values.items():
        samples.add(f"wanekupo_backup_{name}", value)
