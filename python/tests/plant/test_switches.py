"""`tools/strength --tests` puts wrong bodies behind switches, and tells which the tests that they name don't refuse.

The toolchain is a script here, whose programs know the text of the source.
"""

import os
import shutil
import subprocess
from pathlib import Path

import pytest

ROOT = Path(__file__).resolve().parents[3]

LOW = """//! A crate.
const LEAST: u8 = 1;

/// The sum.
pub fn sum(a: u8,
    b: u8,
) -> u8
    requires { a + b < 256 }
{
    let least = LEAST;
    a + b
}

impl Low {
    fn least(&self) -> u8 {
        if self.is_low {
            LEAST
        } else {
            2
        }
    }
}
"""

# It builds a program whose tests fail where the body that is on has their name in it.
BUILD = r'''#!/usr/bin/python3
import pathlib, re, sys
kept = re.search(r'"(\S+)\.part", "', pathlib.Path("src/a_kept_program.rt").read_text())[1]
is_server = "--test" not in sys.argv
root = pathlib.Path("src/main.rt" if is_server else "src/lib.rt").read_text()
assert "mod a_kept_program;" in root and ("{\n    if " in root) == is_server
assert pathlib.Path("../../crates.txt").read_text() == "low: os text\nlow_tests: low\nstation: low\n"
text = pathlib.Path("../low/src/lib.rt").read_text()
made = """#!/usr/bin/python3
import os, re, sys
name = sys.argv[1].split("::")[1].removeprefix("test_")
on = [it for it in os.environ if it.startswith("WRONG_BODY_")]
switch = r'if os::env\\(b"%s", &mut \\[0u8; 8\\]\\) != 0 {\\n(.*?)\\n} else'
body = re.search(switch % on[0], TEXT, re.S)[1] if on else ""
sys.exit(name in body or name == "broken")
"""
pathlib.Path(kept).write_text(made.replace("TEXT", repr(text)))
'''

# Wrong bodies: the test that each names, its old and new text, and what is told of it.
LESS, TWO, BROKEN = (f"low_tests::sums::{name}" for name in ("less", "two", "broken"))
NO_TEST = "its line 'test:' names no test of a crate, nor of tests/"
OVER, GONE = "tests/sums.py::test_less", "tests/gone.py::test_less"
ROWS = {
    "sum_is_less": (LESS, "    a + b", "    a - b // less", f"refused by {LESS}"),
    "sum_is_more": (LESS, "    a + b", "    a + b // more", f"NOT REFUSED by {LESS}"),
    "least_is_two": (TWO, "            LEAST", "            2 // two", f"refused by {TWO}"),
    "constant": (TWO, "u8 = 1;", "u8 = 2;", "NOT TRIED: its old text is in no function's body: u8 = 1;"),
    "failing": (BROKEN, "    a + b", "    a", f"NOT TRIED: {BROKEN} without it: fails"),
    "twice": (TWO, "LEAST", "2", "NOT TRIED: its old text is in src/lib.rt 3 times: LEAST"),
    "untested": ("sums", "    a + b", "    a", f"NOT TRIED: {NO_TEST}: sums"),
    "over": (OVER, "    a + b", "    a - b // less", f"refused by {OVER}"),
    "over_more": (OVER, "    a + b", "    a + b // more", f"NOT REFUSED by {OVER}"),
    "over_none": (GONE, "    a + b", "    a", f"NOT TRIED: {NO_TEST}: {GONE}"),
}


@pytest.fixture
def tree(tmp_path: Path) -> Path:
    """A repository with the tools, a crate, its tests, and wrong bodies; and a toolchain beside it."""
    top = tmp_path / "top"
    tools = ("strength", "edits.py", "prover.py", "switches.py", "verdicts.py", "pages_lib/rattle.py")
    for name in (f"tools/{it}" for it in tools):
        (top / name).parent.mkdir(parents=True, exist_ok=True)
        shutil.copy2(ROOT / name, top / name)
    texts = {
        "HANDLES": "Handles allowed: none.\n",
        "crates.txt": "low: text\nlow_tests: low\nstation: low\n",
        "crates/low/src/lib.rt": LOW,
        "crates/low_tests/src/lib.rt": "//! Tests.\n",
        "crates/station/src/main.rt": "fn start(rt: &HostRuntime) -> u8 {\n    0\n}\n",
        "tests/sums.py": "",
        "tests/all": '#!/bin/sh\nexec "$2" "$4"\n',
    }
    for name, (test, old, new, _) in ROWS.items():
        lines = f"A sentence.\n\ntest: {test}\nfile: src/lib.rt\nold: {old}\nnew: {new}\n"
        texts[f"crates/low/must-fail/{name}.test.md"] = lines
    for name, text in texts.items():
        (top / name).parent.mkdir(parents=True, exist_ok=True)
        (top / name).write_text(text, encoding="utf-8")
    (tmp_path / "rt").write_text(BUILD, encoding="utf-8")
    for path in (tmp_path / "rt", top / "tests/all"):
        path.chmod(0o755)
    return top


def tried(top: Path, *words: str) -> subprocess.CompletedProcess[str]:
    """What the tool says of the wrong bodies of a tree."""
    known = {**os.environ, "PATH": f"{top.parent}:{os.environ['PATH']}"}
    words = (str(top / "tools/strength"), "--tests", *words)
    return subprocess.run(words, env=known, capture_output=True, text=True, timeout=60)


def test_each_body_is_tried(tree: Path) -> None:
    done = tried(tree)
    assert sorted(done.stdout.splitlines()) == sorted(
        [*(f"low/{name}: {row[3]}" for name, row in ROWS.items()), "3 refused, 7 not"]
    )
    assert done.returncode == 1 and not done.stderr


def test_one_is_tried(tree: Path) -> None:
    done = tried(tree, "low/sum_is_less")
    assert done.stdout == "low/sum_is_less: refused by low_tests::sums::less\n1 refused, 0 not\n"
    assert done.returncode == 0 and not done.stderr


def test_a_build_that_fails_refuses_nothing(tree: Path) -> None:
    (tree.parent / "rt").write_text("#!/bin/sh\necho 'src/lib.rt:5: no b'\nexit 1\n", encoding="utf-8")
    done = tried(tree, "low/sum_is_less")
    assert done.stdout == f"low/sum_is_less: NOT TRIED: {LESS} without it: isn't built\n0 refused, 1 not\n"
    assert done.returncode == 1 and done.stderr == "strength: low_tests: src/lib.rt:5: no b\n"
