"""Refuses the program each of its allocations in turn, and compares replies and tables with an undisturbed run's.

    tests/all faults/test_refuse.py -k identity      the targets alone that have this in their name

The Nth call of malloc, calloc, realloc and their like finds no memory, for every N from 1 on, until a run makes fewer
calls than N; one in `FEW` where it is to be short. Counted are all calls of the process, by refuse.c, which is compiled
with gcc and preloaded: those of the program, those of the C library on its behalf, and those before `main`, but for the
loader's own. What is refused:

    map             reading a fuse map (`check-map`)
    site            reading a site file (`replay --site F` with nothing on its input)
    new store       opening a store that isn't there (`--db D`)
    full store      opening one with the rows of the whole life
    identity, ..    an identity after the requests before it, over memory, and over a store that has them: over memory
                    from its own first call on, over the store with the opening before it
    life, ..        the whole life of docs/first-chip.md in one stream, over memory and over a new store
    killed store    opening a store whose program was killed behind the whole life, so that it stands in the log
    schema 1, 2     opening one with these rows of an earlier schema, which is upgraded
    grown site      opening the full store with a site that has one customer more, which it takes
    making          each call of the system by which the file of a new store is made, where there is none or one of no
                    bytes: a folder or a file that can't be written, a full disk, a lock, a sync and a renaming that
                    fail (by strace, which injects the error)

Each run has to end with status 0 and nothing on standard error, or, before its first reply, with status 1 and
`station: no memory` or, over a store, `station: store fault 3`. Each reply is that of the undisturbed run or a 503,
and one is 503 at the most.

Right behind the 503, before anything else is asked, the tables have to be those of before the request. Over a store
these are all rows of all tables, which are read with sqlite3 from a copy of the file and its log while the program
waits. Over memory it is all that requests can show (`sights` of chip.py): the order, the device, its ledger and its
identity, the page of devices, the reports of both customers and of the site, the number that the seat's next request
has to have, and the last reply, when its request is sent again. Then the request that was answered 503 is sent again,
in the same stream or, over a store at each second number, in another process over the same store: it has to get the
reply of the undisturbed run, and so have the requests behind it. At the end the books are shown, and the rows of the
store are read: they have to be those of the undisturbed run.

Right behind a start that was refused its rows are read in the same way. They have to be those of before it, or, where
the store is made, upgraded or grown, those of behind it, whole. The next start has to leave those of behind it, and
has to show the books of an undisturbed one; a map or a site that was refused is read again. A making that was refused
ends with `station: store fault 3`. It leaves what was there until the renaming is done, and behind it an empty
database; nothing has the name `STORE-new` behind the next start.
"""

import collections
import concurrent.futures
import itertools
import os
import re
import shutil
import subprocess
import tempfile
from dataclasses import dataclass, field
from functools import partial
from pathlib import Path

import pytest

from common.chip import MAP, SITE, Failed, replay_words, rows_of, served, shows, sights, store_at, undisturbed
from common.schemas import take_back
from faults.refusing import (
    DONE, NO_MEMORY, STORE_FAULT, Talk, alone, calls_in, compiled, environment, is_unkept, outcome_of,
)  # fmt: skip

pytestmark = pytest.mark.needs("gcc", "strace")

# The stores are made in memory where there is such a disk; a run may take so many seconds; where it is to be short one
# call in so many is refused.
MEMORY = Path("/dev/shm")
SECONDS, FEW = 600, 97
MAP_LINE = b"ok esp32-sample 4 7\n"
GROWN = '[[customer]]\nname = "cord"\nissuer = ["cord-ca"]\n'

# The place of the identity in the run.
IDENTITY = 6

UNKEPT = "one 503"

# The system's calls by which a store's file can be made, and how each is refused.
MAKING = {
    "openat": "EACCES",
    "statx": "EACCES",
    "flock": "ENOLCK",
    "fcntl": "EAGAIN",
    "fchmod": "EPERM",
    "ftruncate": "EIO",
    "write": "ENOSPC",
    "fsync": "EIO",
    "rename": "ENOSPC",
}
STRACE = ["strace", "-f", "-qq", "-y", "-s", "4096"]
CALL = re.compile(r"^\d+ +(\w+)\(")

# How many numbers are tried before it is looked whether any of them was reached.
SOME = 64


@dataclass
class Opening:
    """A store that is to be opened for a site: its file, if there is one, its rows before the opening and behind an
    undisturbed one, and what that one shows."""

    file: Path | None
    site: Path
    before: dict
    behind: dict
    shown: list


@dataclass
class Part:
    """Some requests of the run in one stream, with those that show the books behind them; their replies; how many
    requests stand before and behind them; and the store that they go to, or none, and whether another process goes on
    with it behind a 503."""

    asks: list
    goods: list
    before: int
    behind: int
    path: Path | None = None
    is_apart: bool = False


@dataclass
class Counts:
    """What came of the refused calls, behind how many the tables were compared, and what was wrong."""

    outcomes: collections.Counter = field(default_factory=collections.Counter)
    targets: int = 0
    compared: int = 0
    wrong: list = field(default_factory=list)

    def line(self):
        refused = self.outcomes.total()
        return (
            f"{refused} calls refused in {self.targets} targets, {self.outcomes[UNKEPT]} of them answered 503; "
            f"the tables compared right behind {self.compared}; {len(self.wrong)} wrong"
        )


def copied(file, folder):
    """A copy of a store, or where none is given the place of one."""
    path = Path(folder) / "books.db"
    for old, new in zip(store_at(file) if file else [], store_at(path)):
        if old.exists():
            shutil.copy(old, new)
    return path


def new_place(folder, is_empty):
    """The place of a store that is to be made, at which nothing is or a file of no bytes."""
    path = copied(None, folder)
    if is_empty:
        path.touch()
    return path


def unfinished(path):
    """The file as which a store is made."""
    return Path(f"{path}-new")


def making_calls(lines, path):
    """The calls that make a store: the name of each, its number among those of its name, and whether the store has its
    name behind it if it is refused."""
    counts, calls, is_named = collections.Counter(), [], False
    for line in lines:
        found = CALL.match(line)
        if not found:
            continue
        counts[found[1]] += 1
        if str(path) in line or (is_named and str(path.parent) in line):
            calls.append((found[1], counts[found[1]], is_named))
        is_named = is_named or found[1] == "rename"
        if is_named and found[1] == "fsync":
            return calls
    raise Failed("the file of a new store isn't renamed, or its folder isn't synced")


def others(rows, goods):
    """The tables that are other ones."""
    return ", ".join(sorted(name for name in rows.keys() | goods.keys() if rows.get(name) != goods.get(name)))


class Bench:
    """The program, its undisturbed run, and what came of the disturbed ones."""

    def __init__(self, program, folder):
        self.program, self.jobs, self.folder = str(program), len(os.sched_getaffinity(0)), Path(folder)
        self.library = compiled(folder)
        self.run = undisturbed(self.program, self.folder)
        self.counts = Counts()

    def calm(self, count):
        """A closed store in which so many requests are done."""
        return self.folder / f"calm{count}.db"

    def full(self):
        return self.calm(len(self.run.asked))

    def killed(self):
        """A store whose program was killed behind all requests."""
        path = self.folder / "killed.db"
        with Talk(replay_words(self.program, path), None, SECONDS) as talk:
            for request in self.run.asked:
                talk.ask(request)
        return path

    def earlier(self, schema):
        """The full store as one of an earlier schema."""
        path = self.folder / f"schema{schema}.db"
        take_back(self.full(), path, schema)
        return path

    def grown(self):
        """The sample site with one customer more."""
        path = self.folder / "grown.toml"
        path.write_text(SITE.read_text(encoding="utf-8").replace("[manager]", f"{GROWN}[manager]"), encoding="utf-8")
        return path

    def opening(self, file, site=SITE):
        """The undisturbed opening of a store."""
        with tempfile.TemporaryDirectory(dir=self.folder) as folder:
            path = copied(file, folder)
            before = rows_of(path)
            shown = served(replay_words(self.program, path, site), b"".join(shows()), SECONDS)
            return Opening(file, site, before, rows_of(path), shown)

    def reading(self, words, number, folder, output):
        """A run that reads a file, which prints this, and so does the next one."""
        outcome = alone(words, environment(self.library, number, folder), SECONDS, {NO_MEMORY}, output)
        if outcome != DONE:
            alone(words, None, SECONDS, (), output)
        return outcome

    def check_map(self, number, folder):
        return self.reading([self.program, "check-map", str(MAP)], number, folder, MAP_LINE)

    def read_site(self, number, folder):
        return self.reading(replay_words(self.program), number, folder, b"")

    def open(self, number, folder, opening):
        """Opens a store, looks at its rows right behind that, and opens it once more."""
        path = copied(opening.file, folder)
        words = replay_words(self.program, path, opening.site)
        environ = environment(self.library, number, folder)
        outcome = alone(words, environ, SECONDS, {NO_MEMORY, STORE_FAULT}, b"")
        if unfinished(path).exists():
            raise Failed(f"{outcome}: the file as which a store is made is left")
        return self.look(path, words, opening, outcome)

    def look(self, path, words, opening, outcome):
        """Looks at the rows of a store right behind its opening, and opens it once more."""
        rows = rows_of(path)
        if rows != opening.behind and (outcome == DONE or rows != opening.before):
            raise Failed(f"{outcome}: other rows than before and behind it in {others(rows, opening.before)}")
        if served(words, b"".join(shows()), SECONDS) != opening.shown:
            raise Failed("the next start shows other books")
        if rows_of(path) != opening.behind:
            raise Failed(f"the next start leaves other rows in {others(rows_of(path), opening.behind)}")
        if outcome == DONE or opening.before == opening.behind:
            return outcome
        return f"{outcome} with the rows {'of before' if rows == opening.before else 'of behind'}"

    def make_refused(self, call, opening, is_empty):
        """What came of a making, over an empty file or none, to which one call of the system is refused."""
        name, number, is_named = call
        with tempfile.TemporaryDirectory(dir=self.folder) as folder:
            path = new_place(folder, is_empty)
            words = replay_words(self.program, path)
            inject = f"inject={name}:error={MAKING[name]}:when={number}"
            disturbed = [*STRACE, "-o", f"{folder}/calls", "-e", f"trace={name}", "-e", inject, *words]
            outcome = alone(disturbed, None, SECONDS, {STORE_FAULT}, b"")
            sizes = [path.stat().st_size] if path.exists() else []
            if outcome == DONE or sizes != ([1024] if is_named else [0] * is_empty):
                raise Failed(f"{outcome}, and files of {sizes} bytes")
            self.look(path, words, opening, outcome)
            if unfinished(path).exists():
                raise Failed("behind the next start the file as which a store is made is there")
            return outcome

    def refuse_making(self, is_empty):
        """Refuses each call of the system by which a new store's file is made, over an empty file or none. Returns how
        many there are."""
        with tempfile.TemporaryDirectory(dir=self.folder) as folder:
            path, out = new_place(folder, is_empty), Path(folder) / "calls"
            trace = [*STRACE, "-o", str(out), "-e", f"trace={','.join(MAKING)}"]
            served([*trace, *replay_words(self.program, path)], b"", SECONDS)
            calls = making_calls(out.read_text(encoding="utf-8").splitlines(), path)
        opening = self.opening(None)
        for call in calls:
            try:
                self.counts.outcomes[self.make_refused(call, opening, is_empty)] += 1
            except (Failed, subprocess.TimeoutExpired) as failure:
                self.counts.wrong.append(f"making, {call[0]} {call[1]}: {failure}")
        self.counts.targets += 1
        self.counts.compared += len(calls)
        return len(calls)

    def part_of(self, part, path=None, is_apart=False):
        books = self.run.books[part.stop]
        goods = self.run.replies[part] + books.shown
        return Part(self.run.asked[part] + shows(), goods, part.start or 0, part.stop, path, is_apart)

    def over_memory(self, number, folder, part):
        return self.stream(number, folder, self.part_of(part))

    def over_store(self, number, folder, part):
        """The part of the run over a store that has the requests before it, and the books at its end."""
        path = copied(self.calm(part.start) if part.start else None, folder)
        return self.stream(number, folder, self.part_of(part, path, number % 2 == 1))

    def stream(self, number, folder, part):
        """What came of the requests of a part in one stream, which shows the books at the end."""
        lines = {NO_MEMORY, STORE_FAULT} if part.path else {NO_MEMORY}
        words = replay_words(self.program, part.path)
        with Talk(words, environment(self.library, number, folder), SECONDS) as talk:
            place, is_met = self.ask_all(talk, part)
            outcome = outcome_of(*talk.end(), lines)
        if outcome != DONE and (place or is_met):
            raise Failed(f"it ended with {outcome!r} behind {place} replies")
        if outcome == DONE and place < len(part.asks) and not (is_met and part.is_apart):
            raise Failed(f"it ended after {place} replies")
        if part.path:
            self.go_on(part, place, outcome)
        return UNKEPT if is_met else outcome

    def ask_all(self, talk, part):
        """How many requests got their reply, and whether one was answered 503, behind which nothing has changed."""
        place, is_met = 0, False
        while place < len(part.asks) and (reply := talk.ask(part.asks[place])) is not None:
            if reply == part.goods[place]:
                place += 1
            elif is_met or not is_unkept(reply):
                raise Failed(f"request {place + 1} of the stream is answered {reply!r}")
            else:
                is_met = True
                self.compare(talk, min(part.before + place, part.behind), part.path)
                if part.is_apart:
                    break
        return place, is_met

    def compare(self, talk, count, path):
        """While the program waits: all rows of the store, or all that is shown over memory, are of so many requests."""
        books = self.run.books[count]
        if path:
            if (rows := rows_of(path)) != books.rows:
                raise Failed(f"behind the 503, {count} requests, there are other rows in {others(rows, books.rows)}")
            return
        asked = sights(self.run.asked[:count])
        for request, good in zip(asked, books.seen):
            if (reply := talk.ask(request)) != good:
                raise Failed(f"behind the 503, {count} requests, {request[:60]!r} is answered {reply!r}")

    def go_on(self, part, place, outcome):
        """Has the rest of the requests served by another process, and compares the books."""
        if outcome != DONE:
            before = self.run.books[part.before].rows
            if (rows := rows_of(part.path)) != before and (part.before or rows):
                raise Failed(f"behind the refused start there are other rows in {others(rows, before)}")
        end, books = len(part.asks) - len(shows()), self.run.books[part.behind]
        stream = b"".join(part.asks[place:end] + shows())
        if served(replay_words(self.program, part.path), stream, SECONDS) != part.goods[place:end] + books.shown:
            raise Failed("the next process has other replies")
        if (rows := rows_of(part.path)) != books.rows:
            raise Failed(f"at the end there are other rows in {others(rows, books.rows)}")

    def calls_before(self, count):
        """The calls that a run over memory makes until it has answered so many requests."""
        with tempfile.TemporaryDirectory(dir=self.folder) as folder:
            with Talk(replay_words(self.program), environment(self.library, 0, folder), SECONDS) as talk:
                for request in self.run.asked[:count]:
                    talk.ask(request)
                return calls_in(folder)

    def tried(self, name, attempt, number):
        """What came of one refused call, or none where the run makes fewer calls."""
        with tempfile.TemporaryDirectory(dir=self.folder) as folder:
            try:
                outcome = attempt(number, folder)
            except (Failed, subprocess.TimeoutExpired) as failure:
                self.counts.wrong.append(f"{name}, call {number}: {failure}")
                outcome = "wrong"
            return outcome if calls_in(folder) >= number else None

    def sweep(self, name, every, attempt, has_tables, first=1):
        """Refuses each call from the first on, or one in so many, until no run of some makes it any more. Returns how
        many were refused."""
        outcomes = collections.Counter()
        with concurrent.futures.ThreadPoolExecutor(self.jobs) as pool:
            for start in itertools.count(first, SOME * every):
                numbers = range(start, start + SOME * every, every)
                each = pool.map(lambda number: self.tried(name, attempt, number), numbers)
                found = [outcome for outcome in each if outcome]
                outcomes.update(found)
                if not found:
                    break
        self.counts.outcomes.update(outcomes)
        self.counts.targets += 1
        self.counts.compared += outcomes.total() - outcomes[DONE] if has_tables else outcomes[UNKEPT]
        return outcomes.total()


def opened(make):
    """The words of the sweep of an opening, which is made now."""
    return lambda bench: (partial(bench.open, opening=make(bench)), True)


# The words of the sweep of each target.
UNTIL, OWN, LIFE = slice(0, IDENTITY + 1), slice(IDENTITY, IDENTITY + 1), slice(0, IDENTITY + 2)
TARGETS = {
    "map": lambda bench: (bench.check_map, False),
    "site": lambda bench: (bench.read_site, False),
    "new store": opened(lambda bench: bench.opening(None)),
    "full store": opened(lambda bench: bench.opening(bench.full())),
    "identity, memory": lambda bench: (partial(bench.over_memory, part=UNTIL), False, bench.calls_before(IDENTITY) + 1),
    "identity, store": lambda bench: (partial(bench.over_store, part=OWN), True),
    "life, memory": lambda bench: (partial(bench.over_memory, part=LIFE), False),
    "life, store": lambda bench: (partial(bench.over_store, part=LIFE), True),
    "killed store": opened(lambda bench: bench.opening(bench.killed())),
    "schema 1": opened(lambda bench: bench.opening(bench.earlier(1))),
    "schema 2": opened(lambda bench: bench.opening(bench.earlier(2))),
    "grown site": opened(lambda bench: bench.opening(bench.full(), bench.grown())),
}


@pytest.fixture(scope="module")
def bench(program):
    with tempfile.TemporaryDirectory(dir=MEMORY if MEMORY.is_dir() else None) as folder:
        yield Bench(program, folder)


def expect_none_wrong(bench, refused):
    """Fails where something was wrong since the last test, or nothing was refused."""
    wrong, bench.counts.wrong = bench.counts.wrong, []
    assert wrong[:20] == []
    assert refused


@pytest.mark.parametrize("every", [FEW, pytest.param(1, marks=pytest.mark.slow)])
@pytest.mark.parametrize("target", TARGETS)
def test_allocations(bench, target, every):
    expect_none_wrong(bench, bench.sweep(target, every, *TARGETS[target](bench)))


def test_making(bench, found):
    """Behind all others, as it tells their counts."""
    expect_none_wrong(bench, bench.refuse_making(is_empty=False) and bench.refuse_making(is_empty=True))
    found(bench.counts.line())
