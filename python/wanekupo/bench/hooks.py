"""The recipe's own commands, as a key pair's, a flash tool's and a label printer's.

A hook is a command with CHIP, ORDER, SOCKET and OPERATOR in its environment, and what else is known by then. It runs in
a session of its own, so that all that it started ends with it.
"""

import contextlib
import os
import select
import signal
import subprocess
import tempfile
import time
from dataclasses import dataclass
from pathlib import Path
from typing import IO, Callable, Mapping, Optional

from wanekupo.bench.endings import Ended
from wanekupo.bench.recipe import RecipeCommand
from wanekupo.common.texts import shown, without_secrets

# What of a hook's output is kept in the log, and what of its last line comes on a screen.
KEPT_OUTPUT, SHOWN_OUTPUT = 1 << 16, 120

# What a command that gives a key has of the environment.
BARE = ("HOME", "PATH")


@dataclass(frozen=True)
class HookResult:
    """What a hook did: its status, None where its time was out, how long it took, and what it printed."""

    name: str
    status: Optional[int]
    seconds: float
    output: str


def printed_by(
    command: RecipeCommand, facts: Mapping[str, str], here: Path, log: Callable[[HookResult], None]
) -> bytes:
    """What a command prints that gives a key, which no disk and no log gets. Beside the facts it has BARE alone."""
    with in_memory() as printed:
        run_hook(command, facts, here, log, printed)
        printed.seek(0)
        return printed.read(KEPT_OUTPUT)


def in_memory() -> IO[bytes]:
    """A file without a name, which no disk has."""
    return open(os.memfd_create("wanekupo"), "w+b", buffering=0)


def run_hook(
    command: RecipeCommand, facts: Mapping[str, str], here: Path, log: Callable[[HookResult], None],
    printed: Optional[IO[bytes]] = None,
) -> None:  # fmt: skip
    """Runs a command in the recipe's folder with the facts in its environment, and has its output kept, but for what it
    prints for `printed`. Raises how it failed. What it leaves running is ended."""
    begun = time.monotonic()
    words = os.environ if printed is None else {name: os.environ[name] for name in BARE if name in os.environ}
    with tempfile.TemporaryFile() if printed is None else in_memory() as output:
        try:
            process = subprocess.Popen(
                command.words,
                cwd=here,
                env={**words, **facts},
                stdin=subprocess.DEVNULL,
                stdout=output if printed is None else printed,
                stderr=output,
                start_new_session=True,
            )
        except OSError as error:
            raise Ended("hook_missing", hook=command.name, detail=error.strerror) from error
        status = _waited(process, command.timeout)
        said = _output(output) if printed is None or status else ""
    kept = without_secrets(said, (facts.get("KEY_SHA256", ""),))
    log(HookResult(command.name, status, round(time.monotonic() - begun, 3), kept))
    if status is None:
        raise Ended("hook_late", hook=command.name, detail=f"more than {command.timeout:g} seconds")
    if status:
        lines = [line.strip() for line in kept.splitlines() if line.strip()]
        told = lines[-1][:SHOWN_OUTPUT] if lines else f"status {status}"
        raise Ended("hook_failed", hook=command.name, detail=shown(told))


def _waited(process: subprocess.Popen[bytes], timeout: float) -> Optional[int]:
    """The status of a process, None where its time was out. What it started is ended before its number is free."""
    with open(os.pidfd_open(process.pid), "rb") as ended:
        is_in_time = bool(select.select([ended], [], [], timeout)[0])
    with contextlib.suppress(ProcessLookupError):
        os.killpg(process.pid, signal.SIGKILL)
    status = process.wait()
    return status if is_in_time else None


def _output(output: IO[bytes]) -> str:
    """The end of what was printed."""
    size = output.seek(0, os.SEEK_END)
    output.seek(max(0, size - KEPT_OUTPUT))
    return output.read().decode("utf-8", errors="replace")
