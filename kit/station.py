"""The command that is tested: started with what the contract gives it, killed with all of its processes."""

from __future__ import annotations

import contextlib
import os
import signal
import subprocess
import threading
import time
from pathlib import Path
from typing import Mapping, Optional, Sequence

from kit.findings import Findings
from kit.syncs import Trace, can_trace, tracing
from kit.watch import Watch

# Seconds that a killed process may take to be gone.
GONE = 30.0


def living(group: int) -> bool:
    """Whether a process of a group is still there, and no zombie."""
    for process in Path("/proc").glob("[0-9]*"):
        with contextlib.suppress(OSError, IndexError, ValueError):
            state, _, own = (process / "stat").read_text().rpartition(")")[2].split()[:3]
            if int(own) == group and state not in "ZX":
                return True
    return False


class Station:
    """A command, in a process group of its own. It may be killed from any thread."""

    def __init__(self, command: Sequence[str], folder: Path, out: Path, findings: Findings, watch: Watch, port: int):
        self.command, self.folder, self.out, self.port = list(command), folder, out, port
        self.findings, self.watch = findings, watch
        self.starts = self.kills = 0
        self.was_killed = False
        self._process: Optional[subprocess.Popen[bytes]] = None
        self._turn = threading.Lock()
        self._is_traced = can_trace()
        if not self._is_traced:
            findings.left_out("synced", "not looked at: no strace")

    def start(self, environment: Mapping[str, str]) -> None:
        """Starts it, with its words on a file of the kit's."""
        self.starts += 1
        self.watch.start, self.watch.look = self.starts, ""
        self.was_killed = False
        self._trace = self.out / f"calls.{self.starts}"
        words = [*tracing(self._trace), *self.command] if self._is_traced else self.command
        with (self.out / "station.out").open("ab") as told, self._turn:
            told.write(b"-- start %d\n" % self.starts)
            told.flush()
            self._process = subprocess.Popen(
                words, env={**os.environ, **environment}, stdin=subprocess.DEVNULL, stdout=told, stderr=told,
                start_new_session=True,
            )  # fmt: skip

    def is_up(self) -> bool:
        return not self.was_killed and self._process is not None and self._process.poll() is None

    def kill(self) -> None:
        """Kills it, and all that it started."""
        with self._turn:
            if self._process is None or self._process.poll() is not None:
                return
            self.kills += 1
            self.was_killed = True
            with contextlib.suppress(ProcessLookupError):
                os.killpg(self._process.pid, signal.SIGKILL)

    def wait(self, seconds: float) -> Optional[int]:
        """Its status, None where it was killed. One that lasts longer is killed, and that is -SIGALRM."""
        process = self._process
        assert process
        try:
            status: Optional[int] = process.wait(max(0.1, seconds))
        except subprocess.TimeoutExpired:
            self.kill()
            process.wait()
            self.was_killed, status = False, -signal.SIGALRM
        self._clear(process.pid)
        self._read_trace()
        is_cut = status in (-signal.SIGKILL, 128 + signal.SIGKILL)
        return None if self.was_killed or is_cut else status

    def last_line(self) -> str:
        """The last line that it printed, without what would be a command to a terminal."""
        lines = (self.out / "station.out").read_text("utf-8", "replace").splitlines()
        return "".join(it if it.isprintable() else "?" for it in (lines or [""])[-1])[:200]

    def _clear(self, group: int) -> None:
        """Ends what it left of its processes, and waits until they are gone."""
        with contextlib.suppress(ProcessLookupError):
            os.killpg(group, signal.SIGKILL)
        end = time.monotonic() + GONE
        while living(group) and time.monotonic() < end:
            time.sleep(0.005)

    def _read_trace(self) -> None:
        """Looks whether what is kept was synced before each numbered request of this start."""
        if not self._trace.exists():
            return
        trace = Trace(str(self.folder), ("state", "log"), self.port)
        with self._trace.open(encoding="utf-8", errors="replace") as lines:
            for sent in trace.requests(iter(lines)):
                posts = self.watch.posts.get((self.starts, sent.port), [])
                told = posts[sent.place] if sent.place < len(posts) else ""
                if told:
                    line = f"{told} was sent before {' and '.join(sent.files)} was synced"
                    self.findings.held("synced", not sent.files, line)
        self._trace.unlink()
