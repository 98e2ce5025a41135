"""The roads by which a store's user might become root, at each tool that root runs over that user's store: none is
open.

roads.py walks one. As root, on x86-64, in mounts and processes of its own.
"""

import subprocess
from pathlib import Path

import pytest

from common.commands import PYTHON
from plant import roads

pytestmark = [pytest.mark.root, pytest.mark.needs("mounts", "cc", "setpriv", "mkfs.btrfs", "sqlite3")]

OWN = ["unshare", "--mount", "--pid", "--fork", "--mount-proc", "--kill-child", "--"]
TIOCSTI = Path("/proc/sys/dev/tty/legacy_tiocsti")


@pytest.mark.parametrize("tool, road", roads.pairs())
def test_road_is_shut(program: Path, open_folder: Path, tool: str, road: str) -> None:
    if road == "terminal" and TIOCSTI.exists() and TIOCSTI.read_text().strip() == "0":
        pytest.skip("this kernel takes no TIOCSTI")
    words = [*OWN, PYTHON, "-B", roads.__file__, program, open_folder, tool, road]
    environment = {"PATH": roads.PATH, "LC_ALL": "C.UTF-8"}
    done = subprocess.run([str(it) for it in words], env=environment, capture_output=True, text=True, check=False)
    assert done.returncode == 0, done.stdout + done.stderr
