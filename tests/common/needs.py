"""What this machine has, and lacks, of what a test takes."""

import functools
import os
import shutil
import subprocess
from collections.abc import Callable, Iterable
from pathlib import Path

ROOT = Path(__file__).resolve().parents[2]

# With root, nothing that a script started or mounted is there behind it, however it ended. The shell takes the ends of
# what it left.
APART = ["unshare", "--mount", "--pid", "--fork", "--mount-proc", "--kill-child", "bash", "-c", '"$@"; exit $?', "bash"]


def succeeds(*words: str) -> bool:
    """Whether a command is here and ends well."""
    return bool(shutil.which(words[0])) and not subprocess.run(words, capture_output=True).returncode


def is_root() -> bool:
    return not os.geteuid()


@functools.cache
def may_be_apart() -> bool:
    """Whether root may have a name space of its own for mounts and processes, as it may not in some containers."""
    return is_root() and succeeds(*APART, "true")


@functools.cache
def may_mount() -> bool:
    """Whether this user may have mounts of its own."""
    return succeeds("unshare", "-rm", "true")


@functools.cache
def may_be_read() -> bool:
    """Whether another user than root may read this repository, as whom root runs some commands."""
    words = ["--reuid=65534", "--regid=65534", "--clear-groups", "test", "-r", str(ROOT / "check")]
    return not is_root() or succeeds("setpriv", *words)


# What a need says that is no command and no file.
NAMED: dict[str, Callable[[], bool]] = {
    "root": is_root, "mounts": may_be_apart, "unshare": may_mount, "reader": may_be_read,
}  # fmt: skip


def is_here(need: str) -> bool:
    """Whether a command is here, a file by its absolute path, or what a name of `NAMED` says."""
    if need in NAMED:
        return NAMED[need]()
    return os.path.exists(need) if need.startswith("/") else bool(shutil.which(need))


def missing(needs: Iterable[str]) -> list[str]:
    """Those of some needs that aren't here."""
    return [need for need in needs if not is_here(need)]
