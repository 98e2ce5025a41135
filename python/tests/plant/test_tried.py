"""One changed line makes tools/pages name the rows of what was tried that are of it; a row by hand is a fault.

In a clone of this repository each group of tests/campaign gets a row of its commit.
"""

import subprocess
import sys
from pathlib import Path

import pytest
from conftest import TOP

KEEP = """
from campaigns.groups import RELEASE, files_here, git, read_groups
from campaigns.results import PASSED, Result, keep
groups, files, commit = read_groups(), files_here(), git("log", "-1", "--format=%h of %cs").strip()
rows = [(name, RELEASE, it.command(RELEASE), commit, it.digest(RELEASE, files)) for name, it in groups.items()]
keep([Result(*row, PASSED, ["lost 0"]) for row in rows], groups)
"""
# A file, groups that are of it, and groups that aren't.
CHANGED = {
    "crates/office_core/src/office.rt": ("kill statuses client serving rules", "plant"),
    "crates/file_tests/src/upgrades.rt": ("strength strength-tests rules", "kill client serving"),
    "deploy/nginx.conf": ("tokens shards hostile plant", "kill replay store"),
    "python/wanekupo/seat/keys.py": ("client replay lots crafted", "kill store rules"),
    "clients/web/yield.html": ("yield-page package", "kill client"),
}


def said_by(tree: Path, *words: str) -> tuple[int, list[str]]:
    done = subprocess.run([str(tree / words[0]), *words[1:]], capture_output=True, text=True, check=False)
    return done.returncode, (done.stdout + done.stderr).splitlines()


@pytest.fixture(scope="module")
def tree(tmp_path_factory: pytest.TempPathFactory) -> Path:
    """A clone in which nothing is old."""
    tree = tmp_path_factory.mktemp("clone") / "tree"
    subprocess.run(["git", "clone", "-q", "--shared", TOP, tree], check=True)
    subprocess.run([sys.executable, "-B", "-c", KEEP], cwd=tree / "tests", check=True)
    assert said_by(tree, "tests/campaign", "--judge") == (0, [])
    return tree


@pytest.mark.parametrize("name", CHANGED)
def test_a_changed_line(tree: Path, name: str) -> None:
    text = (tree / name).read_text("utf-8")
    (tree / name).write_text(f"{text}\n", "utf-8")
    status, lines = said_by(tree, "tests/campaign", "--judge")
    (tree / name).write_text(text, "utf-8")
    named = {it.removeprefix("old: docs/proof/tried.md: ").partition(" ")[0]: it for it in lines}
    those, others = map(str.split, CHANGED[name])
    assert set(those) <= named.keys() and not named.keys() & set(others)
    assert [it for it in named.values() if not it.endswith(f"changed since: {name}")] == []


def test_a_row_by_hand(tree: Path) -> None:
    """Of all that tools/pages --check says it alone is a fault; what is old is named."""
    for name, line in (("deploy/nginx.conf", "\n"), ("docs/proof/tried.md", "| `tests/all` | lost 0 | of today |\n")):
        with (tree / name).open("a", encoding="utf-8") as file:
            file.write(line)
    status, lines = said_by(tree, "tools/pages", "--check")
    front = "pages: no fault, but old: docs/proof/tried.md: "
    named = [it.removeprefix(front).split()[0] for it in lines if it.startswith(front)]
    faults = [it for it in lines if not it.startswith(front)]
    assert status == 1 and {"tokens", "shards"} <= set(named) and "kill" not in named
    assert len(faults) == 1 and faults[0].startswith("pages: fault: docs/proof/tried.md isn't what tried.json")
