"""The lock of a file of no bytes that becomes a store: it is held until the store has its name. A restore that takes
the file in between would fill it, and it would be gone."""

import re
import subprocess
from pathlib import Path

import pytest

from common.chip import replay_words

pytestmark = pytest.mark.needs("strace")

STRACE = ["strace", "-f", "-qq", "-y", "-e", "trace=fcntl,close,rename"]


def test_the_lock_is_held_until_the_renaming(program: Path, tmp_path: Path) -> None:
    store, calls = tmp_path / "books.db", tmp_path / "calls"
    store.touch()
    words = [*STRACE, "-o", str(calls), *replay_words(program, store)]
    subprocess.run(words, stdin=subprocess.DEVNULL, check=True, timeout=60)
    front, renaming, _ = calls.read_text(encoding="ascii").partition("rename(")
    locked = re.findall(rf"fcntl\((\d+)<{re.escape(str(store))}>, F_OFD_SETLK, {{l_type=F_WRLCK.*\) = 0", front)
    assert renaming and len(locked) == 1
    assert f"close({locked[0]}<" not in front.partition("F_OFD_SETLK")[2]
    assert "F_UNLCK" not in front
