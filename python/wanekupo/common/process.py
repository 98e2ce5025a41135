"""Processes: how a command is run to its end, where another one of this project is, and how one ends."""

import subprocess
import sys
from collections.abc import Callable, Collection, Mapping, Sequence
from pathlib import Path

from wanekupo.common.errors import PlantError, cause_of

INSTALLED = Path("/usr/sbin")


def run_command(
    words: Sequence[str],
    seconds: float | None = None,
    *,
    environment: Mapping[str, str] | None = None,
    handles: Collection[int] = (),
    is_apart: bool = False,
) -> subprocess.CompletedProcess[str]:
    """Runs a command to its end, with nothing to read: its status and what it printed, as text. With `is_apart` it has
    a session of its own, and no terminal. Raises OSError where it can't be run, and TimeoutExpired where it takes
    longer than so many seconds."""
    return subprocess.run(
        words, stdin=subprocess.DEVNULL, capture_output=True, encoding="utf-8", errors="replace", timeout=seconds,
        check=False, env=environment, pass_fds=handles, start_new_session=is_apart,
    )  # fmt: skip


def succeeds(*words: str) -> bool:
    """Runs a command, whose output is this one's, to its end; whether its status is 0."""
    return subprocess.run([*words], stdin=subprocess.DEVNULL, check=False).returncode == 0


def own_command(name: str) -> str:
    """The path of another command of this project: in the tree that has this file, or where its package has it."""
    tree = Path(__file__).resolve().parents[2] / "bin" / name
    return str(tree if tree.is_file() else INSTALLED / name)


def end_tool(name: str, call: Callable[[], object]) -> int:
    """The status of a tool: 0 behind its call, else the error's own, with the cause in words behind the tool's name.
    Root leaves out first what led it elsewhere (`clean_words`), and has it noted who he is (`acts`)."""
    from wanekupo.common.acts import run_noted  # a station runs commands on Windows too, where there is no such user
    from wanekupo.common.store_words import clean_words

    clean_words()
    return run_noted(name, lambda: _status_of(name, call))


def _status_of(name: str, call: Callable[[], object]) -> int:
    from wanekupo.common.store_user import shown

    try:
        call()
        return 0
    except (PlantError, OSError, UnicodeError) as error:
        print(shown(f"{name}: {cause_of(error)}"), file=sys.stderr)
        return error.status if isinstance(error, PlantError) else 1
