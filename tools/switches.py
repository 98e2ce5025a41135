"""Wrong bodies behind switches: the tests are built once, and each of these bodies is on in a run of its own.

In a copy of the tree a function that wrong bodies change has them all, and a variable of the environment turns one of
them on. Each program of tests copies itself when `rt try` first runs it, and then runs one test for each of these
bodies. So does the server's, which tests of tests/ are run over. No proof is made.
"""

import os
import pathlib
import re
import shutil
import subprocess
import sys
import tempfile
import time
from collections import defaultdict
from collections.abc import Iterable, Iterator
from concurrent.futures import ThreadPoolExecutor, as_completed

from edits import TOP, Edit

FUNCTION = re.compile(r"^( *)(?:pub(?:\(\w+\))? )?fn \w+", re.M)
LIMIT = 1800  # seconds of one test, which is built with looks at its memory and no optimization

# The program of tests, or the server's, copies itself where it is kept: by a test that comes before the others, or in
# its first start.
KEEPER = """//! The program, which is kept to be run again.
use std::{{env, fs}};

/// Copies the program to where it is kept.
pub fn keep(rt: &HostRuntime) -> Option<()> {{
    let mut words = env::args(rt).ok()?;
    let program = words.next()?;
    fs::copy(rt, program.as_str(), "{0}.part").ok()?;
    fs::rename(rt, "{0}.part", "{0}").ok()
}}

#[test]
fn the_program_is_kept(rt: HostRuntime) -> Result<(), std::test::Fail> {{
    keep(&rt).ok_or("the program isn't copied")?;
    Ok(())
}}
"""
SERVER = "station"
START = "fn start(rt: &HostRuntime) -> u8 {\n"
FIRST = '    if std::fs::metadata(rt, "{0}").is_err() && a_kept_program::keep(rt).is_some() {{ return 0; }}\n'


def program_of(test: str) -> str:
    """The crate whose program a test is run with: its own, or the server's for one of tests/."""
    return SERVER if test.startswith("tests/") else test.partition("::")[0]


def body_at(text: str, place: int) -> tuple[int, int] | None:
    """Where the lines of the body begin and end in which a place of a formed text is; none where it is in no body."""
    heads = list(FUNCTION.finditer(text, 0, place))
    if not heads:
        return None
    indent = heads[-1][1]
    opened = re.compile(rf"^{indent}(?! ).*\{{\n", re.M).search(text, heads[-1].start())
    closed = opened and re.compile(rf"^{indent}\}}\n", re.M).search(text, opened.end())
    if not opened or not closed or not opened.end() <= place < closed.start():
        return None
    return opened.end(), closed.start()


def switched(bodies: dict[str, str], right: str) -> str:
    """A body that is one of these where the variable of its name is set, else the right one."""
    tests = "".join(f'if os::env(b"{name}", &mut [0u8; 8]) != 0 {{\n{body}}} else ' for name, body in bodies.items())
    return f"{tests}{{\n{right}}}\n"


def fault_of(edit: Edit, room: pathlib.Path) -> str:
    """Why an edit can't be put behind a switch; nothing where it can."""
    place = edit.test.partition("::")[0]
    file = TOP / place if place.startswith("tests/") else room / "crates" / place / "src" / "lib.rt"
    if not file.is_file() or "::" not in edit.test:
        return f"its line 'test:' names no test of a crate, nor of tests/: {edit.test or 'there is none'}"
    for change in edit.changes:
        text = (room / "crates" / edit.crate / change.file).read_text(encoding="utf-8")
        if text.count(change.old) != 1:
            return f"its old text is in {change.file} {text.count(change.old)} times: {change.old}"
        if not body_at(text, text.index(change.old)):
            return f"its old text is in no function's body: {change.old}"
    return "" if edit.changes else "it changes nothing"


def bodies_of(edits: dict[str, Edit], folder: pathlib.Path) -> dict[str, dict[tuple[int, int], dict[str, str]]]:
    """The bodies that the edits of a crate's folder change, by file and place: the wrong ones, by their variables."""
    found: dict[str, dict[tuple[int, int], dict[str, str]]] = defaultdict(lambda: defaultdict(dict))
    for name, change in ((name, it) for name, edit in edits.items() for it in edit.changes):
        text = (folder / change.file).read_text(encoding="utf-8")
        begin, end = place = body_at(text, text.index(change.old)) or (0, 0)
        bodies = found[change.file][place]
        bodies[name] = bodies.get(name, text[begin:end]).replace(change.old, change.new)
    return found


def switch(edits: dict[str, Edit], room: pathlib.Path) -> None:
    """Puts the edits, each by the name of its variable, behind their switches in the tree of a room."""
    crates: dict[str, dict[str, Edit]] = defaultdict(dict)
    for name, edit in edits.items():
        crates[edit.crate][name] = edit
    for crate, own in crates.items():
        folder = room / "crates" / crate
        for file, places in bodies_of(own, folder).items():
            text = (folder / file).read_text(encoding="utf-8")
            for (begin, end), bodies in sorted(places.items(), reverse=True):
                text = text[:begin] + switched(bodies, text[begin:end]) + text[end:]
            (folder / file).write_text(text, encoding="utf-8")
    table = (room / "crates.txt").read_text(encoding="utf-8")
    for crate in crates:
        table = re.sub(rf"^({crate}:)(?!.* os\b)", r"\1 os", table, flags=re.M)
    (room / "crates.txt").write_text(table, encoding="utf-8")


def keep_program(crate: str, room: pathlib.Path, program: pathlib.Path) -> None:
    """Has the program of a crate of tests, or the server's, copy itself when it is first run."""
    folder = room / "crates" / crate / "src"
    (folder / "a_kept_program.rt").write_text(KEEPER.format(program), encoding="utf-8")
    root, module = folder / "lib.rt", "#[cfg(test)]\nmod a_kept_program;\n"
    if crate == SERVER:
        root, module = folder / "main.rt", "mod a_kept_program;\n"
    text = root.read_text(encoding="utf-8").replace(START, START + FIRST.format(program))
    root.write_text(f"{text}\n{module}", encoding="utf-8")


def built(crate: str, room: pathlib.Path) -> tuple[pathlib.Path, str]:
    """The program of a crate of tests, or the server's, and `isn't built` where it isn't: the toolchain says why."""
    program = room / "programs" / crate
    program.parent.mkdir(exist_ok=True)
    keep_program(crate, room, program)
    with tempfile.TemporaryFile("w+", errors="replace") as said:
        words = ["rt", "try", *["--test"] * (crate != SERVER), "--steps", "1", "--seconds", str(LIMIT)]
        how = {"cwd": room / "crates" / crate, "stdin": subprocess.DEVNULL, "stdout": said, "stderr": said}
        with subprocess.Popen(words, **how) as making:
            while making.poll() is None and not program.is_file():
                time.sleep(0.2)
            making.terminate()
        said.seek(0)
        if not program.is_file():
            print(f"strength: {crate}: {said.read().strip()[-2000:]}", file=sys.stderr, flush=True)
            return program, "isn't built"
    program.chmod(0o755)
    return program, ""


def end_of(program: pathlib.Path, test: str, *variables: str) -> str:
    """How a test of a program, or one of tests/ over it, ends where these variables are set, in a folder of its own: it
    passes, fails, takes too long, or isn't run."""
    known, words = dict.fromkeys(variables, "1"), [program, test.partition("::")[2]]
    if test.startswith("tests/"):
        known, words = os.environ | known, [TOP / "tests/all", "--program", program, "-q", test.removeprefix("tests/")]
    with tempfile.TemporaryDirectory(prefix="test-") as folder:
        try:
            ran = subprocess.run(words, cwd=folder, env=known, capture_output=True, timeout=LIMIT)
        except subprocess.TimeoutExpired:
            return f"takes more than {LIMIT} seconds"
    if test.startswith("tests/") and ran.returncode > 1:
        return f"ends with status {ran.returncode}"
    return "fails" if ran.returncode else "passes"


def tried(edits: list[Edit], room: pathlib.Path, jobs: int) -> Iterator[tuple[Edit, str]]:
    """What became of each edit in the tree of a room: `refused by TEST`, or what else, in capitals."""
    faults = {edit.name: fault_of(edit, room) for edit in edits}
    yield from ((edit, f"NOT TRIED: {faults[edit.name]}") for edit in edits if faults[edit.name])
    named = {f"WRONG_BODY_{place}": edit for place, edit in enumerate(edits) if not faults[edit.name]}
    switch(named, room)
    tests = sorted({edit.test for edit in named.values()})
    programs = {crate: built(crate, room) for crate in sorted({program_of(test) for test in tests})}

    def end(test: str, *variables: str) -> str:
        program, fault = programs[program_of(test)]
        return fault or end_of(program, test, *variables)

    def judged(test: str) -> list[tuple[Edit, str]]:
        without, found = end(test), list[tuple[Edit, str]]()
        for name, edit in ((name, edit) for name, edit in named.items() if edit.test == test):
            how = end(test, name) if without == "passes" else ""
            said = {"fails": "refused by ", "passes": "NOT REFUSED by "}.get(how, f"NOT TRIED, {how}: ")
            found.append((edit, said + test if how else f"NOT TRIED: {test} without it: {without}"))
        return found

    with ThreadPoolExecutor(jobs) as pool:
        for done in as_completed([pool.submit(judged, it) for it in tests]):
            yield from done.result()


def try_by_tests(edits: Iterable[Edit], jobs: int) -> int:
    """Tries edits by the tests that they name, and says of each what became of it; the status of it all."""
    refused = others = 0
    with tempfile.TemporaryDirectory(prefix="strength-") as name:
        room = pathlib.Path(name)
        ignored = shutil.ignore_patterns("out", "proofs", "must-fail")
        shutil.copytree(TOP / "crates", room / "crates", ignore=ignored)
        for file in ("crates.txt", "HANDLES"):
            shutil.copy2(TOP / file, room / file)
        subprocess.run(["git", "init", "-q", room], check=True)
        for edit, how in tried(list(edits), room, jobs):
            print(f"{edit.name}: {how}", flush=True)
            refused += how.startswith("refused")
            others += not how.startswith("refused")
    print(f"{refused} refused, {others} not")
    return 1 if others else 0
