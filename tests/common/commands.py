"""This project's commands as a test runs them where it looks into them: by a Python that takes words of its own."""

import shutil
from pathlib import Path

from common.needs import ROOT

PYTHON, PROJECT = "/usr/bin/python3", ROOT / "python"

# A copy's commands heed the environment, as those of the tree don't.
ISOLATED = "/usr/bin/python3 -IB "

# Runs a command where nothing but the calls that the outside sees are counted, and dies before one of them.
KILLED = """
import http.client, os, runpy, signal, subprocess, sys
count, last = [0], int(sys.argv[1])
def counted(call):
    def wrapped(*words, **named):
        count[0] += 1
        if count[0] == last:
            os.kill(os.getpid(), signal.SIGKILL)
        return call(*words, **named)
    return wrapped
for name in sys.argv[2].split(","):
    setattr(os, name, counted(getattr(os, name)))
subprocess.Popen.__init__ = counted(subprocess.Popen.__init__)
http.client.HTTPConnection.getresponse = counted(http.client.HTTPConnection.getresponse)
sys.argv = sys.argv[3:]
runpy.run_path(sys.argv[0], run_name="__main__")
"""


def command(name: str, project: Path = PROJECT) -> list[str]:
    """The words of a command, out of the tree or of a copy."""
    return [PYTHON, "-B", str(project), name]


def killed_before(call: int, names: str) -> list[str]:
    """A Python that runs a command, and is killed before the call with this number: a process that is begun, a reply
    that is read, or one of `os` by these names, with commas between them."""
    return [PYTHON, "-B", "-c", KILLED, str(call), names]


def copy_project(folder: Path) -> Path:
    """A copy of the project in a folder, whose commands take PYTHONPATH; those that they start do so too."""
    copied = folder / "project"
    shutil.copytree(PROJECT, copied, ignore=shutil.ignore_patterns("tests", "__pycache__"))
    for file in (copied / "bin").iterdir():
        text = file.read_text(encoding="ascii")
        assert ISOLATED in text, text
        file.write_text(text.replace(ISOLATED, f"{PYTHON} -B "), encoding="ascii")
    return copied
