"""Each documented command of sqlite3, and station-backup, read a crafted store, and none runs a command.

The crafted store has a view for each table of a store, with its columns, and each view calls `edit()`, a function of
the command `sqlite3` that runs a program. Here that program notes that it ran. The documented commands are those of the
pages in docs, and of the files `.console` here, with the word `sqlite3`: in blocks, in lines of four spaces, and within
a sentence. Each is run as it stands, in a folder of its own, with the crafted store in the place of the store that it
names.

Each is run twice: without `-safe` and `-readonly`, where the views have to run their program, or the test could find
nothing; and as it is documented, where nothing may run. A command that reads no table, as `PRAGMA integrity_check`,
runs nothing either way. Then station-backup: it refuses the crafted store and runs nothing, also where sqlite3 is
without its safe mode, as the program judges first; and also where the program takes any store, as sqlite3 is in its
safe mode; with neither it runs the program of the views.
"""

import contextlib
import os
import re
import shlex
import shutil
import sqlite3
import subprocess
import tempfile
from pathlib import Path

import pytest

from common.chip import SITE, Failed, replay_words, served, store_at
from common.pages import ROOT, all_pages, commands_of, steps_of, unsafe_lines, without_packages

BACKUP = ROOT / "python/bin/station-backup"
SECONDS = 600
NEEDED = pytest.mark.needs("reader", "bash", "sqlite3", "xxd")
RUN = "sqlite3 -safe -readonly"

# A function of the shell with which a page runs sqlite3 later, and a table for it to be asked for.
FUNCTION = re.compile(r"^(\w+)\(\) \{")
ASKED = "'SELECT * FROM orders'"

# Runs sqlite3 over the crafted store, whichever a command names, and notes that it was asked for.
SHIM = """#!/bin/bash
. "$(dirname "$0")/words"  # of root's environment station-backup passes on nothing of this
words=() named=
for word; do
    case $word in
        -safe|-readonly) [ -n "$IS_PLAIN" ] || words+=("$word") ;;
        -*) words+=("$word") ;;
        *) if [ -n "$named" ]; then words+=("$word"); else named=1; words+=("${CRAFTED:-$word}"); fi ;;
    esac
done
echo asked >> "$ASKED"
exec "$SQLITE3" "${words[@]}"
"""


def queries_of(page):
    """The commands of a page, or of a file of commands alone, that have sqlite3 in them."""
    blocks, text = commands_of(page), page.read_text(encoding="utf-8")
    steps = ["\n".join(step.lines) for block in blocks.findall(text) for step in steps_of(block)]
    rest = without_packages(blocks.sub("", text))
    lines = [found[1] for found in re.finditer(r"^ {4,}(?:\$ )?(.*\bsqlite3 .*)$", rest, re.MULTILINE)]
    spans = re.findall(rf"`({RUN}[^`]*)`", rest.replace("\n", " "))
    return [it for it in [*steps, *lines, *spans] if re.search(r"\bsqlite3 ", it)]


def craft(path, real, program):
    """Makes a store whose tables are views that run the program."""
    with contextlib.closing(sqlite3.connect(f"file:{real}?mode=ro", uri=True)) as base:
        names = [name for (name,) in base.execute("SELECT name FROM sqlite_schema WHERE type = 'table'")]
        tables = {name: [row[1] for row in base.execute(f"PRAGMA table_info({name})")] for name in names}
    if "meta" not in tables or "given" not in tables:
        raise Failed(f"the store has the tables {', '.join(tables)}")
    with contextlib.closing(sqlite3.connect(path)) as base:
        base.execute("CREATE TABLE crafted (x)")
        base.execute("INSERT INTO crafted VALUES (1)")
        for name, columns in tables.items():
            members = ", ".join(f'x AS "{column}"' for column in columns)
            base.execute(f"CREATE VIEW {name} AS SELECT {members} FROM crafted WHERE edit('x', '{program}') IS NOT 7")
        base.commit()


class Bench:
    """A folder with the crafted store, the program that its views run, and sqlite3 over it."""

    def __init__(self, program, folder):
        self.program, self.folder = program, Path(folder)
        self.ran, self.asked = self.folder / "ran", self.folder / "asked"
        (self.folder / "bin").mkdir()
        evil = self.script(self.folder / "evil", f"#!/bin/sh\necho ran >> {shlex.quote(str(self.ran))}\n")
        self.script(self.folder / "bin/sqlite3", SHIM)
        self.takes_all = self.script(self.folder / "takes_all", "#!/bin/sh\nexit 0\n")
        self.real, self.crafted = self.folder / "real.db", self.folder / "crafted/books.db"
        served(replay_words(program, self.real), b"")
        self.crafted.parent.mkdir()
        craft(self.folder / "made.db", self.real, evil)

    def script(self, path, text):
        path.write_text(text, encoding="utf-8")
        path.chmod(0o755)
        return path

    def run(self, words, is_plain, crafted=""):
        """The end of a run over a new crafted store, whether sqlite3 was asked, and whether the views' program ran."""
        for note in (self.ran, self.asked):
            note.unlink(missing_ok=True)
        for made, path in zip((self.folder / "made.db", store_at(self.real)[1]), store_at(self.crafted), strict=True):
            shutil.copyfile(made, path)
        room = {"ASKED": str(self.asked), "CRAFTED": str(crafted), "IS_PLAIN": "1" if is_plain else ""}
        room |= {"SQLITE3": shutil.which("sqlite3")}
        lines = "".join(f"{name}={shlex.quote(str(it))}\n" for name, it in room.items())
        (self.folder / "bin/words").write_text(lines, encoding="utf-8")
        path = f"{self.folder / 'bin'}:{os.environ['PATH']}"
        with tempfile.TemporaryDirectory(dir=self.folder) as at:
            done = subprocess.run(
                words, cwd=at, env=os.environ | {"PATH": path}, stdin=subprocess.DEVNULL,
                capture_output=True, text=True, timeout=SECONDS, check=False,
            )  # fmt: skip
        return done, self.asked.exists(), self.ran.exists()

    def tries(self, command):
        """Whether a documented command runs the views' program where it isn't safe; it fails where it is and does."""
        name = FUNCTION.match(command)
        text = f"{command}\n{name[1]} {ASKED}" if name else command
        ran = []
        for is_plain in (True, False):
            _, is_asked, has_run = self.run(["bash", "-c", text], is_plain, self.crafted)
            if not is_asked:
                raise Failed(f"it didn't run sqlite3: {command}")
            ran.append(has_run)
        if ran[1]:
            raise Failed(f"it ran a command: {command}")
        return ran[0]

    def backs_up(self, program, is_plain):
        """The status and the error of station-backup over the crafted store, and whether the views' program ran."""
        out = self.folder / "out"
        words = ["--program", str(program), "--site", str(SITE), "--db", str(self.crafted), str(out)]
        done, is_asked, has_run = self.run([str(BACKUP), *words], is_plain)
        if out.exists() or not is_asked:
            raise Failed(f"a backup is left, or sqlite3 wasn't asked: {done.stderr!r}")
        return done.returncode, done.stderr, has_run


@pytest.fixture(scope="module")
def bench(program):
    with tempfile.TemporaryDirectory() as folder:
        yield Bench(program, folder)


COMMANDS = [
    pytest.param(command, id=f"{page.relative_to(ROOT)}: {command.splitlines()[0]}"[:80])
    for page in all_pages()
    for command in queries_of(page)
]


@pytest.mark.parametrize("page", [str(page.relative_to(ROOT)) for page in all_pages()])
def test_a_page_is_safe(page):
    assert not unsafe_lines((ROOT / page).read_text(encoding="utf-8")), "sqlite3 without -safe -readonly"


@NEEDED
@pytest.mark.parametrize("command", COMMANDS)
def test_a_command(bench, command):
    bench.tries(command)


@NEEDED
def test_a_command_reads_a_table(bench):
    """One at least, so that the views run their program where it isn't safe."""
    assert any(bench.tries(command.values[0]) for command in COMMANDS)


@NEEDED
def test_the_views_run_their_program(bench):
    """In station-backup too, where the program takes any store and sqlite3 isn't in its safe mode."""
    assert bench.backs_up(bench.takes_all, is_plain=True)[2] is True


@NEEDED
@pytest.mark.parametrize(
    "takes_all, is_plain, line",
    [
        pytest.param(False, False, "the program refuses the copy", id="by the program and the safe mode"),
        pytest.param(False, True, "the program refuses the copy", id="by the program alone"),
        pytest.param(True, False, "sqlite3 can't read the copy", id="by the safe mode alone"),
    ],
)
def test_a_backup(bench, takes_all, is_plain, line):
    status, error, has_run = bench.backs_up(bench.takes_all if takes_all else bench.program, is_plain)
    assert (status, line in error, has_run) == (1, True, False), error
