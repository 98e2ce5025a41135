"""What each command of the project answers to --help, and that it leaves no bytecode beside itself, also as root."""

import os
import shutil
import subprocess
import sys
import tomllib
from pathlib import Path

import pytest
from conftest import TOP

COMMANDS = sorted(path.name for path in (TOP / "python/bin").iterdir())


def test_there_are_commands():
    tools = {f"station-{name}" for name in ("token", "site", "backup", "restore", "restart", "standby")}
    assert set(COMMANDS) == {"wanekupo", *tools}


@pytest.mark.parametrize("name", COMMANDS)
def test_help_leaves_no_bytecode(name: str, tmp_path: Path) -> None:
    left = shutil.ignore_patterns("__pycache__", "tests")
    shutil.copytree(TOP / "python", tmp_path / "python", ignore=left)
    environment = {name: text for name, text in os.environ.items() if name != "PYTHONDONTWRITEBYTECODE"}
    words = [str(tmp_path / "python/bin" / name), "--help"]
    done = subprocess.run(words, env=environment, stdin=subprocess.DEVNULL, capture_output=True, text=True)
    assert (done.returncode, done.stderr) == (0, "")
    assert len(done.stdout) > 40
    assert list(tmp_path.rglob("__pycache__")) == []


# What a lesser user has in his folder and in the environment of who is asked to run a program there.
TRAP = "import pathlib\npathlib.Path({mark!r}).touch()\nraise SystemExit(7)\n"


@pytest.mark.parametrize("program", sorted((TOP / "python/bin").iterdir()), ids=lambda path: path.name)
def test_runs_nothing_of_the_folder_or_the_environment(program: Path, tmp_path: Path) -> None:
    """Each is started by its own first line, as root does: Python's own words and the folder are another user's."""
    for name in ("argparse.py", "os.py", "http.py", "sitecustomize.py", "usercustomize.py", "python3"):
        (tmp_path / name).write_text(TRAP.format(mark=str(tmp_path / "ran")))
    site = tmp_path / f"lib/python{sys.version_info[0]}.{sys.version_info[1]}/site-packages"
    site.mkdir(parents=True)
    (site / "usercustomize.py").write_text(TRAP.format(mark=str(tmp_path / "ran")))
    (tmp_path / "python3").chmod(0o755)
    own = {"PYTHONPATH": str(tmp_path), "PYTHONUSERBASE": str(tmp_path), "PYTHONHOME": str(tmp_path),
           "PYTHONINSPECT": "1", "PATH": f"{tmp_path}:/usr/bin:/bin", "HOME": str(tmp_path)}  # fmt: skip
    words = [str(program), "--help"]
    done = subprocess.run(words, cwd=tmp_path, env=own, stdin=subprocess.DEVNULL, capture_output=True, text=True)
    assert (done.returncode, done.stderr) == (0, "")
    assert not (tmp_path / "ran").exists()


def test_an_installation_by_pip_has_each_file_of_a_package():
    """Also the maps of families, the bench's page and its words."""
    tools = tomllib.loads((TOP / "python/pyproject.toml").read_text())["tool"]["setuptools"]
    told = {it for name, forms in tools["package-data"].items()
            for form in forms for it in (TOP / "python" / name.replace(".", "/")).glob(form)}  # fmt: skip
    there = {it for it in (TOP / "python/wanekupo").rglob("*") if it.is_file() and it.suffix not in (".py", ".pyc")}
    assert len({it for it in there if it.name == "map.toml"}) > 7 and there <= told


# What bash has called a completion with, and prints what that offers.
OFFERED = """source /dev/stdin; name=$1; shift; COMP_WORDS=("$name" "$@"); COMP_CWORD=$#
"_$name" "$name" "${@: -1}" before; echo "${COMPREPLY[@]}"
"""


@pytest.mark.parametrize("words, offered", [
    (["wanekupo", "se"], "settle seal"),
    (["wanekupo", "devices", "--"], "--help --order --state --after --json"),
    (["wanekupo", "run", ""], ""),
    (["station-token", "ro"], "rotate"),
    (["station-token", "rotate", "--g"], "--grace"),
    (["station-backup", "--snap"], "--snapshot --snapshot-size"),
    (["station-standby", "take"], "takeover"),
])  # fmt: skip
def test_bash_offers(words: list[str], offered: str) -> None:
    """Commands, and options of a word that is begun; a file elsewhere, which is bash's own (-o default)."""
    made = subprocess.run([TOP / "debian/print-help", words[0], "--completion"], env=os.environ | {"COLUMNS": "9999"},
                          stdout=subprocess.PIPE, text=True, check=True).stdout  # fmt: skip
    bash = ["bash", "-c", OFFERED, "bash", *words]
    told = subprocess.run(bash, input=made, capture_output=True, text=True, check=True)
    assert (told.stdout.split(), told.stderr) == (offered.split(), "")
