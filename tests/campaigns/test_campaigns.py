"""Campaigns over a repository of three groups and one crate, which are made here, and the table of this one.

Expected are the words of `tests/campaign --help`, tests/README.md and docs/decisions.md. No built program is needed.
"""

import json
import re
import shutil
import signal
import subprocess
import sys
import time
from pathlib import Path

import pytest

from campaigns.groups import files_here, read_groups
from common.needs import ROOT

TABLE = r"""
[files]
program = 'crates/(?!test_)\w+(?<!_tests)/src/'
tests = 'tests/all$'
clients = 'clients/'

[groups]
first = {run = "tests/first", short = "--size 2", release = "--size 20", of = "program"}
second = {run = "tests/second", short = "", of = "clients"}
absent = {run = "tests/first", short = "--of absent", of = "clients", needs = "no-such-command"}

[starts]
second = "now"
absent = "now"
"""
FIRST = '#!/bin/sh\necho "tried with $*"\n'
ABSENT = "absent: NOT RUN: this machine lacks no-such-command"
FILES = {
    "tests/campaign.toml": TABLE, "tests/first": FIRST, "tests/second": '#!/bin/sh\nexec tail -f "$0"\n',
    "crates/a/src/lib.rt": "one\n", "crates/a_tests/src/lib.rt": "one\n", "clients/page": "one\n",
    "docs/proof/trust.md": "",
}  # fmt: skip


class Tree:
    """A repository with a campaign."""

    def __init__(self, top: Path):
        self.top, self.page, self.rows = top, top / "docs/proof/tried.md", top / "docs/proof/tried.json"
        shutil.copytree(ROOT / "tests/campaigns", top / "tests/campaigns", ignore=shutil.ignore_patterns("test_*"))
        shutil.copytree(ROOT / "tests/common", top / "tests/common")
        for name in ("campaign", "all", "conftest.py", "pytest.ini"):
            shutil.copy(ROOT / "tests" / name, top / "tests")
        for name, text in FILES.items():
            self.put(name, text)
        for name in ("first", "second"):
            (top / "tests" / name).chmod(0o755)
        subprocess.run(["git", "init", "-q", top], check=True)
        self.commit()

    def put(self, name: str, text: str) -> None:
        (self.top / name).parent.mkdir(parents=True, exist_ok=True)
        (self.top / name).write_text(text, "utf-8")

    def commit(self) -> None:
        user = ["-c", "user.name=a", "-c", "user.email=a@localhost", "-c", "commit.gpgsign=false"]
        for words in (["add", "-A"], ["commit", "-qm", "A commit"]):
            subprocess.run(["git", "-C", self.top, *user, *words], check=True)

    def words(self, *words: str) -> list[str]:
        return [sys.executable, "-B", str(self.top / "tests/campaign"), "--program", "/bin/true", *words]

    def ran(self, *words: str) -> tuple[int, list[str]]:
        """The status and what was said of a campaign."""
        done = subprocess.run(self.words(*words), capture_output=True, text=True, timeout=300)
        return done.returncode, (done.stdout + done.stderr).splitlines()

    def kept(self) -> dict[str, dict]:
        return {it["group"]: it for it in json.loads(self.rows.read_text("utf-8"))}


@pytest.fixture
def tree(tmp_path: Path) -> Tree:
    return Tree(tmp_path / "tree")


def test_results_are_kept(tree: Tree) -> None:
    """With all that is owed of each, and not run again at the same size."""
    said = ["first: passed: tried with --size 2", ABSENT, "1 passed, 0 failed, 1 not run"]
    assert tree.ran("--only", "first", "absent") == (0, said)
    kept = tree.kept()["first"]
    assert {"began", "toolchain", "program", "machine", "processors, load"} == kept["about"].keys()
    assert (kept["status"], kept["said"], kept["seed"]) == ("passed", ["tried with --size 2"], 7)
    assert "| `tests/first --size 2` | tried with --size 2 |" in tree.page.read_text("utf-8")
    assert tree.ran("--only", "first")[1][0] == "first: passed: before"
    assert tree.ran("--size", "5", "--only", "first")[1][0] == "first: passed: tried with --size 5"
    assert "| left, 3 of 3: first --size 20; second; absent |" in tree.page.read_text("utf-8")
    assert tree.ran("--left", "--size", "release")[1][0] == "first: NOT RUN: left, 5 h at most"
    assert tree.ran("--size", "20", "--only", "first")[1][0] == "first: passed: tried with --size 20"
    assert tree.ran("--left", "--size", "release", "--only", "first")[1][0] == "first: passed: before"
    assert "| left, 2 of 3: second; absent |" in tree.page.read_text("utf-8")
    assert tree.ran("--hours", "0.01", "--size", "release")[1][-1] == "1 passed, 0 failed, 2 not run"


def test_a_line_that_is_changed(tree: Tree) -> None:
    """It makes the rows that are of it old, by name, before its commit and behind it, and no others."""
    tree.ran("--only", "first")
    tree.put("crates/a_tests/src/lib.rt", "two\n")
    tree.put("clients/page", "two\n")
    assert tree.ran("--judge") == (0, [])
    tree.put("crates/a/src/new.rt", "two\n")
    assert tree.ran("--judge")[1][0].startswith("old: docs/proof/tried.md: first (short) is of ")
    tree.commit()
    assert tree.ran("--judge")[1][0].endswith("changed since: crates/a/src/new.rt")
    assert tree.ran("--only", "first")[1][0] == "first: passed: tried with --size 2"
    assert tree.ran("--judge") == (0, [])


def test_a_page_by_hand(tree: Tree) -> None:
    """A page that isn't what the results make is a fault, and a row of no group is old; --page mends both."""
    tree.ran("--only", "first")
    tree.page.write_text(f"{tree.page.read_text('utf-8')}| `tests/first` | none lost | a |\n", "utf-8")
    assert [it[:6] for it in tree.ran("--judge")[1]] == ["fault:"]
    assert (tree.ran("--page")[0], tree.ran("--judge")[1]) == (0, [])
    tree.put("tests/campaign.toml", TABLE.replace("first =", "other =", 1))
    assert tree.ran("--judge")[1][-1].endswith("first (short) is of no group of the table")
    assert (tree.ran("--page")[0], tree.kept(), tree.ran("--judge")[1]) == (0, {}, [])


def test_a_failure(tree: Tree) -> None:
    """It is red, as a goal that is missed, never written as passed, and told behind its mending, with its seed."""
    tree.put("tests/first", f"{FIRST}exit 3\n")
    status, said = tree.ran("--only", "first", "--seed", "9")
    assert (status, said[-1]) == (1, "0 passed, 1 failed, 0 not run")
    assert "| FAILED: it ended with status 3; tried with --size 2 |" in tree.page.read_text("utf-8")
    assert [it[:7] for it in tree.ran("--judge")[1]] == ["failed:"]
    tree.put("tests/first", f"{FIRST}echo 'the ratio, at least 1.1: 1.0, missed'\n")
    assert tree.ran("--only", "first")[0] == 1
    tree.put("tests/first", FIRST)
    assert tree.ran("--only", "first")[0] == 0
    failures = r"; failed at .* seed 9: it ended with status 3; failed at .* seed 7: the ratio,"
    assert re.search(failures, tree.page.read_text("utf-8"))


def test_ratios(tree: Tree) -> None:
    """A measure's row has its goals and its ratios without one, whole, with their spread, and nothing else it said."""
    ends = ("at least 1.1: 1.207 (0.910-1.420 of 9), met", "4.004 (3.997-4.012 of 9), no goal")
    lines = [f"the program to peer {it}, requests a second, {ends[it % 2]}" for it in range(12)]
    said = "".join(f"echo '{it}'; " for it in ["a table", *lines, "12000 requests"])
    tree.put("tests/first", f"#!/bin/sh\n{said}\n")
    assert tree.ran("--only", "first")[0] == 0
    assert f"| {'; '.join(lines)} |" in tree.page.read_text("utf-8")


def is_gone(name: str) -> bool:
    """Whether no process runs this file any more."""
    done = subprocess.run(["grep", "-slF", name, *Path("/proc").glob("[0-9]*/cmdline")], capture_output=True, text=True)
    return not [it for it in done.stdout.splitlines() if "/self/" not in it]


@pytest.mark.parametrize("sign", [signal.SIGKILL, signal.SIGTERM, signal.SIGINT])
def test_a_kill(tree: Tree, sign: int) -> None:
    """Nothing is lost but the group under way, which ends too. Meanwhile another one is refused. The next goes on."""
    own, until = str(tree.top / "tests/second"), time.monotonic() + 60
    with subprocess.Popen(tree.words(), stdout=subprocess.PIPE, text=True) as process:
        assert process.stdout and process.stdout.readline().startswith("first: passed")
        while is_gone(own):
            time.sleep(0.1)
        assert tree.ran("--only", "first") == (1, ["campaign: another one is under way over the results of this tree"])
        process.send_signal(sign)
    while not is_gone(own) and time.monotonic() < until:
        time.sleep(0.1)
    assert is_gone(own) and tree.kept().keys() == {"first"}
    tree.put("tests/second", "#!/bin/sh\nexit 77\n")
    said = ["first: passed: before", "second: NOT RUN: it says no reason", ABSENT, "1 passed, 0 failed, 2 not run"]
    assert tree.ran()[1] == said


def test_starts(tree: Tree) -> None:
    """What fails at its smallest is red, what can't run here says why, and nothing is kept."""
    tree.put("tests/second", "#!/bin/sh\nexit 1\n")
    status, said = tree.ran("--starts")
    assert (status, said[2:], tree.rows.exists()) == (1, [ABSENT, "1 passed, 1 failed, 1 not run"], False)


SOME = """import pytest
def test_good(found):
    found("12345 tried")
def test_bad():
    assert 1 == 2
@pytest.mark.needs("no-such-command")
def test_absent():
    pass
"""


@pytest.mark.parametrize(("word", "said"), [
    ("good", "passed: 12,345 tried"), ("bad", "FAILED: some/test_some.py::test_bad - assert 1 == 2"),
    ("none", "FAILED: it ended with status 5"), ("'good or bad'", "FAILED: some/test_some.py::test_bad - "),
    ("'good or absent'", "passed: 12,345 tried"), ("absent", "NOT RUN: there is no no-such-command"),
])  # fmt: skip
def test_counts(tree: Tree, word: str, said: str) -> None:
    """Those of tests are what they say: pytest's numbers, and the lines that they tell."""
    tree.put("tests/some/test_some.py", SOME)
    group = f'[groups]\none = {{tests = "some/test_some.py", short = "-k {word}"}}\n'
    tree.put("tests/campaign.toml", f"[files]\nprogram = 'none'\ntests = 'none'\n{group}[starts]\n")
    assert tree.ran()[1][0].startswith(f"one: {said}")
    if word not in ("absent", "none"):
        counted = {"passed": "good" in word, "failed": "bad" in word, "skipped": "absent" in word}
        assert tree.kept()["one"]["counts"] == {name: 1 for name, is_there in counted.items() if is_there}


def test_the_table() -> None:
    """Each test and each measure is of a group, and so is each file of a crate, of deploy and of a client: else no
    change of it would make a row old. A group is of what it runs."""
    groups, files = read_groups(), files_here()
    run = {word.partition("::")[0] for it in groups.values() for word in it.run.split()}
    tests = {name.removeprefix("tests/") for name in files if re.fullmatch(r"tests/.*/test_\w+\.py", name)}
    measures = {it.name for it in (ROOT / "bench").iterdir() if it.is_file() and it.stat().st_mode & 0o100} - {"run"}
    assert tests - run == {"campaigns/test_campaigns.py"} and measures - {"client"} <= run
    watched = [name for name in files if re.match(r"(crates|deploy|clients|python|kit)/.*(?<!\.md)$", name)]
    bare = [name for name in watched if not any(re.match(it.of, name) for it in groups.values())]
    programs = {name: it.run.split()[0] for name, it in groups.items()}
    assert len(watched) > 1000 and bare == []
    assert [it for it, run in programs.items() if run in files and not re.match(groups[it].of, run)] == []
