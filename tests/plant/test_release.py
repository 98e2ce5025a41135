"""A release is as its signature, its sums, its statements and its sources say, and its `check` refuses any other one.

The packages are made by deploy/release twice, and once more by `check`. What `rt ci` prints is written here: in any
release it is the maker's word. One forger has the maker's key: behind each change of his the sums and their signature
are right. The other one has the folder alone.
"""

import json
import os
import re
import shutil
import subprocess
from collections.abc import Callable
from dataclasses import dataclass
from itertools import pairwise
from pathlib import Path

import pytest

from common.needs import ROOT, is_root

TOOLS = ("git", "minisign", "jq", "dh_python3", "help2man", "mkdocs", "dpkg-genbuildinfo", "rt")
ANEW = "every proof and must-fail edit was done in this run"
KEPT = "done in this run: 0 of the 54 proofs; the others are kept from earlier runs of the same files on this machine"
pytestmark = pytest.mark.needs(*TOOLS)


@dataclass
class Maker:
    """Who makes releases: a clone of the repository with a tag, a key, and the log of the gate of the commit before.

    A file that trials stand on changed since they were made, so rows of them are old.
    """

    room: Path
    program: Path

    def __post_init__(self) -> None:
        self.tree, self.key = self.room / "tree", self.room / "maker.key"
        self.ran("git", "clone", "-q", ROOT, self.tree)
        self.ran("minisign", "-G", "-W", "-p", self.room / "maker.pub", "-s", self.key)
        said = rf"== text_core\nrt: text_core proved\nrt: ok; handles allowed: Net; {ANEW}\n12 passed, 0 failed"
        words = f"[ \"$1\" = ci ] || exec {shutil.which('rt')} \"$@\"\nprintf '{said}\\n'\n"
        (self.room / "rt").write_text(f"#!/bin/sh\n{words}")
        (self.room / "rt").chmod(0o755)
        (self.tree / "crates/station/out").mkdir()
        shutil.copy(self.program, self.tree / "crates/station/out")
        (self.room / "log").write_text(self.ran(self.tree / "tools/gate").stdout)
        self.number = self.ran(self.tree / "tools/version").stdout.strip()
        heading = f"## [{self.number}] - "
        self.change("CHANGELOG.md", lambda it: it if heading in it else it.replace("## [", f"{heading}1\n\n## [", 1))
        self.change("tests/common/needs.py", lambda text: text.replace('"""', '"""Changed. ', 1))
        self.ran("git", "-C", self.tree, "tag", "-am", "A release", f"v{self.number}")

    def change(self, name: str, changes: Callable[[str], str]) -> None:
        (self.tree / name).write_text(changes((self.tree / name).read_text()))
        self.ran("git", "-C", self.tree, "commit", "-qam", "A change")

    def ran(self, *words: object, **more: object) -> subprocess.CompletedProcess[str]:
        who = {f"GIT_{it}_{what}": "a@plant.example" for it in ("AUTHOR", "COMMITTER") for what in ("NAME", "EMAIL")}
        around = os.environ | who | {"PATH": f"{self.room}:{os.environ['PATH']}"}
        return subprocess.run([str(it) for it in words], env=around | more, capture_output=True, text=True)

    def released(self, *words: object) -> subprocess.CompletedProcess[str]:
        fixed = ("--key", self.key, "--gate", self.room / "log")
        return self.ran("sh", "-c", 'umask 077; exec "$0" "$@"', self.tree / "deploy/release", *fixed, *words)

    def sign(self, folder: Path) -> None:
        """Signs a folder, with the comment that the signature has."""
        names = sorted(it.name for it in folder.iterdir() if not it.name.startswith("SHA256SUMS"))
        sums = subprocess.run(["sha256sum", *names], cwd=folder, capture_output=True, check=True).stdout
        (folder / "SHA256SUMS").write_bytes(sums)
        comment = (folder / "SHA256SUMS.minisig").read_text().split("\n")[2].removeprefix("trusted comment: ")
        self.ran("minisign", "-S", "-s", self.key, "-m", folder / "SHA256SUMS", "-t", comment)


@pytest.fixture(scope="module")
def maker(tmp_path_factory: pytest.TempPathFactory, program: Path) -> Maker:
    return Maker(tmp_path_factory.mktemp("maker"), program)


@pytest.fixture(scope="module")
def release(maker: Maker) -> Path:
    done = maker.released("--old-rows", f"v{maker.number}", maker.room / "release")
    assert not done.returncode, done.stderr
    return maker.room / "release"


def test_a_release_is_what_its_check_finds(maker: Maker, release: Path, open_folder: Path) -> None:
    """Also as another user with next to no environment. Whom root's tools know as root gets another help of them."""
    folder = Path(shutil.copytree(release, open_folder / "release"))
    shutil.copy(maker.room / "maker.pub", open_folder)
    nobody = ["setpriv", "--reuid=65534", "--regid=65534", "--clear-groups"] if is_root() else []
    words = (folder / "check", open_folder / "maker.pub", maker.number)
    done = maker.ran(*nobody, "env", "-i", "PATH=/usr/bin:/bin", *words)
    assert not done.returncode, done.stdout + done.stderr
    of = maker.ran("git", "-C", maker.tree, "show", "-s", f"--format=%cs, v{maker.number}, commit %H,", "HEAD")
    assert f"all is as it is signed: Wanekupo {maker.number} of {of.stdout.strip()}" in done.stdout
    assert done.stdout.endswith("last line: 12 passed, 0 failed\n")
    rows = maker.ran(maker.tree / "tests/campaign", "--judge").stdout.splitlines()
    failed = [it for it in rows if it.startswith("failed: ")]
    assert f"tried.md {len(rows) - len(failed)} rows are of another commit" in done.stdout and len(rows) > len(failed)
    assert set(failed) < set(done.stdout.splitlines())
    assert {it.stat().st_mode & 0o7777 for it in (release, *release.iterdir())} == {0o644, 0o755}
    older = maker.ran(release / "check", maker.room / "maker.pub", f"9{maker.number}")
    assert older.returncode == 1 and older.stderr == f"check: this is {maker.number}, and you want 9{maker.number}\n"


def test_a_bill_has_what_the_program_has(release: Path) -> None:
    """By the names of functions in the program, which `strings` of binutils finds."""
    bill = json.loads((release / "sbom.spdx.json").read_text())
    names = {it["SPDXID"]: it["name"] for it in bill["packages"]}
    ends = {it[end] for it in bill["relationships"] for end in ("spdxElementId", "relatedSpdxElement")}
    assert len(names) == len(bill["packages"]) and ends - {"SPDXRef-DOCUMENT"} == set(names)
    assert {"office_core", "sqlite", "curl", "python3-cryptography", "espefuse", "debhelper"} < set(names.values())
    rows = [(it["spdxElementId"], it["relationshipType"], it["relatedSpdxElement"]) for it in bill["relationships"]]
    assert len(set(rows)) == len(rows)
    text = subprocess.run(["strings", release / "station"], capture_output=True, text=True, check=True).stdout
    found = set(re.findall(r"(?<![\w:])([a-z]\w*)::", text)) - {"tuple2"}
    assert found == {names[it] for one, kind, it in rows if (one, kind) == ("SPDXRef-file-station", "CONTAINS")}
    assert found > {"core", "std", "json", "ryu", "simdutf8", "sqlite_btree", "sqlite_wal", "toml_datetime"}
    told = {it["name"]: it.get("versionInfo") for it in bill["packages"] if "-tool-" in it["SPDXID"]}
    assert (told["LLVM"], told["GCC"]) == re.search("Linker: LLD (.+)\nGCC: .* (.+)\n", text).groups()
    assert not {"base_tests", "test_fixtures"} & set(names.values())


def digest_of(file: Path) -> str:
    return subprocess.run(["sha256sum", file], capture_output=True, text=True, check=True).stdout[:64]


def change(folder: Path, name: str, changes: Callable[[Path], object]) -> None:
    """Changes a file of a release, and each digest of it in a statement."""
    before = digest_of(folder / name)
    changes(folder / name)
    after = digest_of(folder / name)
    for it in {"sbom.spdx.json", "provenance.json"} - {name}:
        if before in (folder / it).read_text():
            change(folder, it, lambda file: file.write_text(file.read_text().replace(before, after)))


def refused_by_check(maker: Maker, folder: Path) -> str:
    maker.sign(folder)
    done = maker.ran(folder / "check", maker.room / "maker.pub")
    assert done.returncode, done.stdout
    return done.stdout + done.stderr


@pytest.mark.parametrize("name, old, new, expected", [
    ("sbom.spdx.json", '"name": "text_core"', '"name": "text"', "check: crates differ"),
    ("sbom.spdx.json", '"name": "sqlite_wal"', '"name": "sqlite_log"', "check: crates that are named and listed diff"),
    ("sbom.spdx.json", 'Element": "SPDXRef-crate-clap"', 'Element": "SPDXRef-crate-hex"', "check: crates in the p"),
    ("sbom.spdx.json", '"name": "python3-cryptography"', '"name": "python3-nacl"', "check: what wanekupo-client_"),
    ("provenance.json", " logic ", " logic f", "check: trust.md doesn't name"),
    ("provenance.json", '"gitCommit": "', '"gitCommit": "0', "check: commit and tag differ"),
    ("provenance.json", '"tag": "v', '"tag": "v1', "check: commit and tag differ"),
    ("gate.log", "gate: program ", "gate: program 0", "check: gate.log is of another program"),
    ("SHA256SUMS.minisig", "Wanekupo ", "Wanekupo 1", "check: the sources aren't of 1"),
    ("SHA256SUMS.minisig", ", commit ", ", commit 0", "check: what is signed is no release"),
    ("SHA256SUMS.minisig", ", packages ", ", packages 1", "check: versions differ"),
])  # fmt: skip
def test_a_statement_of_something_else_is_refused(
    maker: Maker, release: Path, tmp_path: Path, name: str, old: str, new: str, expected: str
) -> None:
    folder = Path(shutil.copytree(release, tmp_path / "forged"))
    assert old in (folder / name).read_text()
    change(folder, name, lambda file: file.write_text(file.read_text().replace(old, new, 1)))
    assert expected in refused_by_check(maker, folder)


def test_a_package_of_other_sources_is_refused(maker: Maker, release: Path, tmp_path: Path) -> None:
    folder, opened = Path(shutil.copytree(release, tmp_path / "forged")), tmp_path / "opened"
    deb = next(folder.glob("wanekupo-client_*.deb"))
    maker.ran("dpkg-deb", "-R", deb, opened)
    (opened / "usr/bin/wanekupo").open("a").write("# forged\n")
    change(folder, deb.name, lambda file: maker.ran("dpkg-deb", "--root-owner-group", "-b", opened, file))
    assert f"{deb.name} differ: " in refused_by_check(maker, folder)


def test_files_that_nobody_signed_are_refused(maker: Maker, release: Path, tmp_path: Path) -> None:
    more, changed = (Path(shutil.copytree(release, tmp_path / it)) for it in ("more", "changed"))
    (more / "README").write_text("Use this key.\n")
    (changed / "gate.log").write_text("13 passed, 0 failed\n")
    told = [maker.ran(it / "check", maker.room / "maker.pub") for it in (more, changed)]
    assert "the files and the sums differ" in told[0].stderr and "gate.log: FAILED" in told[1].stdout
    maker.ran("minisign", "-G", "-W", "-p", tmp_path / "other.pub", "-s", tmp_path / "other.key")
    told.append(maker.ran(release / "check", tmp_path / "other.pub"))
    assert "this key didn't sign" in told[2].stderr and all(it.returncode == 1 for it in told)


@pytest.mark.parametrize("words, expected", [
    ("mv gate.log ../log; ln -s ../log gate.log", "lrwxrwxrwx .* ./gate.log"),
    ("ln -s /etc .more", "lrwxrwxrwx .* ./.more"),
    ("mkdir more", "d.* ./more"),
    ("chmod 4755 station", "-rwsr-xr-x .* ./station"),
    ("chmod 666 *_all.deb", "-rw-rw-rw- .* ./wanekupo-client_"),
    ("chmod 777 .", "drwxrwxrwx .* [.]\n"),
    *[("chown 65534 station", "-rwxr-xr-x nobody ./station")] * is_root(),
    ("echo Use this key. >> SHA256SUMS.minisig", "the form of signatures and this one differ"),
    ("sed -i '1s/$/ of release 3/' SHA256SUMS.minisig", "the form of signatures and this one differ"),
    ("sed -i 's/^trusted comment: Wanekupo /&9/' SHA256SUMS.minisig", "this key didn't sign SHA256SUMS with this c"),
])  # fmt: skip
def test_what_the_folders_owner_does_is_refused(
    maker: Maker, release: Path, tmp_path: Path, words: str, expected: str
) -> None:
    folder = Path(shutil.copytree(release, tmp_path / "folder"))
    subprocess.run(words, shell=True, cwd=folder, check=True)
    done = maker.ran(folder / "check", maker.room / "maker.pub", maker.number)
    assert done.returncode == 1 and re.search(expected, done.stderr), done.stdout + done.stderr


def test_what_is_no_release_is_not_made(maker: Maker, tmp_path: Path) -> None:
    number, log = maker.number, (maker.room / "log").read_text()
    first, other = number.partition(".")[0], tmp_path / "other"
    for name, text in [
        ("failed", "11 passed, 1 failed\n"),
        ("kept", log.replace(ANEW, KEPT)),
        ("of another", log.replace(digest_of(maker.program), "0" * 64)),
        ("bare", log.split("\n", 1)[1]),
    ]:
        (tmp_path / name).write_text(text)
    other.write_text("#!/bin/sh\necho station 0.0.1\n")
    other.chmod(0o755)
    section = f"## [{number}] - 2026-12-01\n### What to do, coming from {first}.0.0\n1. All.\n\n## ["
    done = maker.released("--untagged", "HEAD", tmp_path / "made")
    assert done.returncode == 1 and "release: pages: old: docs/proof/tried.md: " in done.stderr, done.stderr
    maker.change("CHANGELOG.md", lambda text: text.replace("## [", section, 1))
    maker.change("crates.txt", lambda text: f"# Another list.\n{text}")
    for tag in ("v0.0.1", f"v{number}"):
        maker.ran("git", "-C", maker.tree, "tag", "-f", tag)
    for expected, *words in [
        (f"the tag of {number} is v{number}, and not v0.0.1", "v0.0.1"),
        ("operators have something to do", f"v{number}"),
        (f"v{number} isn't an annotated tag", f"v{number}"),
        ("the last line of the gate's log isn't", "--gate", tmp_path / "failed", f"v{number}"),
        ("of which no proof was kept", "--gate", tmp_path / "kept", f"v{number}"),
        ("of which no proof was kept", "--gate", tmp_path / "bare", f"v{number}"),
        ("the gate's log is of another program", "--gate", tmp_path / "of another", f"v{number}"),
        ("that has other crates", f"v{number}"),
        ("the program doesn't say that it is of the toolchain", "--program", other, f"v{number}"),
        ("the program is station 0.0.1", "--program", other, f"v{number}"),
        ("is there already", f"v{number}", "/tmp"),
    ]:
        done = maker.released(*words, *[tmp_path / "made"] * (words[-1] != "/tmp"))
        assert done.returncode == 1 and expected in done.stderr and "Traceback" not in done.stderr, done.stderr
    assert not (tmp_path / "made").exists()


def test_a_later_commit_has_a_later_version(maker: Maker) -> None:
    """Also where it is an earlier day at its author's."""
    versions = []
    for date in ("2027-01-01T09:00:00+0900", "2026-12-31T20:00:01-0500", "2027-01-01T01:00:02Z"):
        maker.ran("git", "-C", maker.tree, "commit", "-q", "--allow-empty", "-m", "A commit", GIT_COMMITTER_DATE=date)
        versions.append(maker.ran(maker.tree / "deploy/deb", "--version").stdout.strip())
    for earlier, later in pairwise(["1.0.0+git20261130.37ad65d1", *versions]):
        assert not maker.ran("dpkg", "--compare-versions", earlier, "lt", later).returncode, (earlier, later)
