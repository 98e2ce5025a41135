"""Grows sites over stores on a disk: each kind of change of a site, earlier schemas, and kills.

A store is made by the life of a chip under the sample site (chip.py). Over a copy of it the program is started with
each text of GROWN: the books are shown as they were and a repeat gets its reply; the store holds the new text with its
SHA-256, and no other row is another; a second start leaves the file's bytes; and the old text opens the store again
only where it is a growth of the new one (docs/reference/files.md has the rules). With each text of OTHERS it has to end
with `station: store fault 1`, and with each of NO_SITES by the site's fault; the bytes of the file and the rows are
those of before.

Stores of schema 1 and 2, made of these rows by C's SQLite as test_upgrade.py does, have to refuse a grown text (fault
1), open under their own, and then under the grown one.

At last the program is started with a grown text and killed (SIGKILL), half the times at a random moment of the start,
half just after the log has its first bytes. What is left has to be the store of before, whole, or that with the new
text; under the old text it opens if it holds that one; and the next start with the new text leaves it grown, with the
books of before. A kill of a process isn't a cut of the power.
"""

import hashlib
import shutil
import subprocess
import time
from pathlib import Path

import pytest

from common.chip import Failed, post, replay_words, rows_of, served, shows, steps, store_at
from common.grown_sites import GROWN, NO_SITES, OTHERS, SAMPLE
from common.program import kill_after
from common.schemas import OWN, take_back

# How many seconds after the log's first bytes a kill comes at the most, where it waits for them.
SOON = 0.002


def life():
    """The requests of a chip's life, without a beginning of validity, which schema 1 has not."""
    for path, members in steps():
        yield post(path, {member: value for member, value in members.items() if member != "not_before"})


class Bench:
    """The program, a folder, and the store that a chip's life left under the sample site."""

    def __init__(self, program, folder):
        self.program, self.folder = program, Path(folder)
        self.made = self.folder / "made.db"
        asked = list(life())
        self.stream = b"".join([*shows(), asked[-1]])
        replies = self.served(self.made, SAMPLE, b"".join(asked) + self.stream)
        if replies[-1] != replies[len(asked) - 1]:
            raise Failed("a repeat has another reply")
        self.said = replies[len(asked) :]
        self.rows = rows_of(self.made)
        if self.rows != self.grown(SAMPLE):
            raise Failed("a new store doesn't hold its text")

    def words(self, path, text):
        """The words that start the program over a store with a text of a site."""
        site = self.folder / "site.toml"
        site.write_text(text, encoding="utf-8")
        return replay_words(self.program, path, site)

    def served(self, path, text, stream):
        return served(self.words(path, text), stream)

    def refused(self, path, text):
        """The line with which the program ends, before it replied to anything."""
        done = subprocess.run(self.words(path, text), input=self.stream, capture_output=True, timeout=600, check=False)
        if done.returncode != 1 or done.stdout:
            raise Failed(f"status {done.returncode} and {done.stdout[:60]!r}, {done.stderr[:60]!r}")
        return done.stderr.decode()

    def copy(self, of, name="books.db"):
        """A copy of a store, under this name."""
        path = self.folder / name
        for file in store_at(path):
            file.unlink(missing_ok=True)
        for file, to in zip(store_at(of), store_at(path), strict=True):
            if file.exists():
                shutil.copyfile(file, to)
        return path

    def grown(self, text):
        """The rows of the store once it holds this text."""
        row, meta = (1, text), (1, OWN, hashlib.sha256(text.encode()).digest())
        return self.rows | {"site_text": [repr(row)], "meta": [repr(meta)]}

    def expect_refused(self, path, text, line):
        """Fails unless the program ends with the line and leaves the store as it was."""
        data, rows = path.read_bytes(), rows_of(path)
        said = self.refused(path, text)
        if said != f"station: {line}\n":
            raise Failed(f"{said!r} and not {line!r}")
        if path.read_bytes() != data or rows_of(path) != rows:
            raise Failed("a refused text changed the store")

    def expect_opened(self, path, text):
        """Fails unless the store opens under the text, holds it then, and shows the books of before."""
        if self.served(path, text, self.stream) != self.said:
            raise Failed("the books are shown otherwise")
        if rows_of(path) != self.grown(text):
            raise Failed("the rows aren't those of before with the new text")
        data = path.read_bytes()
        if self.served(path, text, b"") or path.read_bytes() != data:
            raise Failed("a second start with the same text changed the file")


@pytest.fixture
def bench(program, tmp_path):
    return Bench(program, tmp_path)


def named(rows):
    """The rows of texts, each under its name."""
    return [pytest.param(*words, id=name) for name, *words in rows]


@pytest.mark.parametrize("text, is_back", named(GROWN))
def test_growth(bench, text, is_back):
    path = bench.copy(bench.made)
    bench.expect_opened(path, text)
    if is_back:
        bench.expect_opened(path, SAMPLE)
    else:
        bench.expect_refused(path, SAMPLE, "store fault 1")


@pytest.mark.parametrize("text", named(OTHERS))
def test_another_site(bench, text):
    bench.expect_refused(bench.copy(bench.made), text, "store fault 1")


@pytest.mark.parametrize("text, fault", named(NO_SITES))
def test_no_site(bench, text, fault):
    bench.expect_refused(bench.copy(bench.made), text, f"site fault {fault}")


@pytest.mark.parametrize("schema", range(1, OWN))
def test_an_earlier_schema(bench, schema):
    """A grown text, its own, and then the grown one."""
    text, old = GROWN[-1][1], bench.folder / f"schema{schema}.db"
    take_back(bench.made, old, schema)
    path = bench.copy(old)
    bench.expect_refused(path, text, "store fault 1")
    bench.expect_opened(path, SAMPLE)
    bench.expect_opened(path, text)


def has_log(path, end):
    """Whether the log of a store has bytes, or that was waited for too long."""
    log = store_at(path)[1]
    return time.monotonic() > end or (log.exists() and log.stat().st_size > 0)


def kill_start(bench, text, seconds, at_log):
    """Kills a start with a grown text after so many seconds, and looks at what is left. Whether it is the old text."""
    path, end = bench.copy(bench.made), time.monotonic() + 10
    kill_after(bench.words(path, text), seconds, lambda: not at_log or has_log(path, end))
    rows = rows_of(path)
    is_old = rows == bench.rows
    assert is_old or rows == bench.grown(text), "the rows are neither those of before nor those with the new text"
    killed = bench.copy(path, "killed.db")
    bench.expect_opened(path, text)
    path = bench.copy(killed)
    if is_old:
        bench.expect_opened(path, SAMPLE)
    else:
        assert bench.refused(path, SAMPLE) == "station: store fault 1\n"
    return is_old


@pytest.mark.sizes(10, 200)
def test_kills(bench, size, chance, found):
    """Kills of starts with a grown text."""
    text, start = GROWN[-1][1], time.perf_counter()
    bench.expect_opened(bench.copy(bench.made), text)
    longest = (time.perf_counter() - start) / 2
    left = [kill_start(bench, text, chance.uniform(0, SOON if at % 2 else longest), at % 2 == 1) for at in range(size)]
    found(f"{size} kills: {sum(left)} left the old text, {size - sum(left)} the new one, each whole")
