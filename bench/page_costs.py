"""What is measured for each size of a store's pages, by what the other scripts measure with, for `sizes`."""

import argparse
import json
import os
import shutil
import sqlite3
import statistics
import subprocess
import sys
import tempfile
import threading
from collections.abc import Callable
from pathlib import Path
from typing import NamedTuple

import instruction_counts
import list_times
import order_times
import report_times
import store_lives
import store_starts
from common.chip import empty_page
from common.lives import SITE, STEPS
from common.program import Failed, Program, send
from common.schemas import OWN, take_back
from common.stores import command_of, run_lives, start_of

HERE = os.path.dirname(os.path.abspath(__file__))
MILLION = 10**6

# How many orders there are beside a new one, and how many rows before the last imports.
OTHERS, ROWS = 4080, 50000

# The starts, each with the store that it is over, and the site's text.
STARTS = {
    "a start": ("made.db", SITE),
    "a start that grows the site": ("made.db", f"# The second text.\n{SITE}"),
    "an upgrade from schema 1": ("old.db", SITE),
}

Measures = dict[str, float]


class Task(NamedTuple):
    """What is measured: the program, the bytes of a page, the folder of its stores, and how many devices they have."""

    program: str
    page: int
    folder: str
    sizes: list[int]
    devices: int
    seconds: float

    def store(self, name: str, text: str = SITE) -> tuple[list[str], str]:
        """The program over a file of this name for a site with this text, and the file's path."""
        command, path = command_of(self.program, self.folder, name)
        Path(command[3]).write_text(text, encoding="utf-8")
        return command, path

    def new_store(self, name: str, text: str = SITE) -> tuple[list[str], str]:
        """The same over a new file, which is an empty database with pages of the wanted size."""
        command, path = self.store(name, text)
        Path(path).write_bytes(empty_page(self.page))
        return command, path

    def copied(self, name: str, of: str, text: str = SITE) -> list[str]:
        """The program over a new copy of a closed store."""
        command, path = self.store(name, text)
        Path(f"{path}-wal").unlink(missing_ok=True)
        shutil.copyfile(os.path.join(self.folder, of), path)
        return command


# Lives.


class Largest:
    """How many bytes a file had at its largest, while a block runs."""

    def __init__(self, path: str):
        self.path, self.bytes = path, 0
        self.end, self.thread = threading.Event(), threading.Thread(target=self.look)

    def look(self) -> None:
        while not self.end.wait(0.02):
            if os.path.exists(self.path):
                self.bytes = max(self.bytes, os.path.getsize(self.path))

    def __enter__(self) -> "Largest":
        self.thread.start()
        return self

    def __exit__(self, *_: object) -> None:
        self.end.set()
        self.thread.join()


def lives_once(task: Task) -> Measures:
    """Lives over a new file, a start over it, and C's SQLite with pages of the same size and of its own."""
    size = task.sizes[0]
    command, path = task.new_store("books.db")
    with Largest(f"{path}-wal") as log:
        times, replies = run_lives(command, task.seconds, size, "without")
    start, peak = start_of(command, task.seconds)
    books = store_lives.Books(path, size, replies)
    books.test()
    peers = [task.new_store("same.db")[1], os.path.join(task.folder, "own.db")]
    runs = [times, *(store_lives.run_peer(peer, books) for peer in peers)]
    rate, same, own = (store_lives.rates_of(run, size)[0] for run in runs)
    return {
        "requests a second": rate,
        "C's SQLite, pages of the same size": same,
        "C's SQLite, its own pages": own,
        "to C's SQLite with its own pages": rate / own,
        "a start, s": start,
        "memory of it, MB": peak * 1024 / MILLION,
        "the file, MB": os.path.getsize(path) / MILLION,
        "the log at its largest, MB": log.bytes / MILLION,
    }


def lives(task: Task) -> Measures:
    """Lives of each number of devices with syncs and without, each by a process of its own."""
    library, found = os.path.join(task.folder, "nosync.so"), {}
    subprocess.run(["cc", "-shared", "-fPIC", "-O2", "-o", library, os.path.join(HERE, "nosync.c")], check=True)
    for size in task.sizes:
        for syncs, more in (("with", {}), ("without", {"LD_PRELOAD": library})):
            with tempfile.TemporaryDirectory(dir=task.folder) as folder:
                words = [sys.executable, os.path.join(HERE, "sizes"), "--once", "--program", task.program]
                words += ["--pages", str(task.page), "--sizes", str(size), "--seconds", str(task.seconds)]
                words += ["--folder", folder]
                done = subprocess.run(words, env=os.environ | more, stdout=subprocess.PIPE, text=True)
            if done.returncode:
                raise Failed(f"lives {syncs} syncs ended with status {done.returncode}")
            measures = json.loads(done.stdout).items()
            found |= {f"{size:,} lives {syncs} syncs: {name}": value for name, value in measures}
    return found


def imports(task: Task) -> Measures:
    """Imports into an empty table and into one with rows."""
    command, path = task.new_store("imports.db")
    rates = store_lives.imports_over(command, task.seconds, ROWS)
    os.remove(path)
    os.remove(f"{path}-wal")
    return dict(zip(["imports: rows a second from none on", f"imports: rows a second from {ROWS:,} on"], rates))


# Starts, reports, lists and single requests.


def make_starts(task: Task) -> None:
    """A store of copied lives, and the same as a program of schema 1 left it."""
    command, path = task.new_store("made.db")
    is_copied = task.devices > store_starts.PATTERN
    store_starts.make(command, path, "bare", task.devices, task.seconds, is_copied)
    take_back(path, task.new_store("old.db")[1], 1)


def starts_of(task: Task) -> Measures:
    """A start, one under a text of the site that grew, and one over the store of schema 1."""
    asked = store_starts.shown("bare")
    found = {"the file, MB": os.path.getsize(os.path.join(task.folder, "made.db")) / MILLION}
    for name, (of, text) in STARTS.items():
        command = task.copied("books.db", of, text)
        took, used, peak = store_starts.start_of(command, asked, task.seconds)
        found |= {f"{name}, s": took, f"{name}, s of a processor": used, f"{name}, MB of memory": peak * 1024 / MILLION}
        test_schema(command[-1])
    return {f"{task.devices:,} lives: {key}": value for key, value in found.items()}


def test_schema(path: str) -> None:
    """Fails unless a store has the schema of today."""
    base = sqlite3.connect(f"file:{path}?mode=ro", uri=True)
    if base.execute("SELECT schema FROM meta").fetchone() != (OWN,):
        raise Failed("a start left another schema")
    base.close()


def make_reports(task: Task) -> None:
    shape = report_times.shape_of(0)
    command, path = task.new_store("made.db", report_times.site_text(shape))
    report_times.make_file(command, task.seconds, shape, task.devices, path, None)


def reports_of(task: Task) -> Measures:
    """The reports of the site and of a customer, each of a new start, and those of C's SQLite over the same file."""
    shape = report_times.shape_of(0)
    command = task.copied("books.db", "made.db", report_times.site_text(shape))
    found, peers = report_times.over_file(command, task.seconds, shape), report_times.run_peer(command[-1], shape)
    measures = {}
    for report in peers:
        name = f"{task.devices:,} devices: the report of {'the site' if report == 'site' else 'one customer'}"
        measures[f"{name}, ms"] = 1000 * found[report].seconds
        measures[f"{name} by C's SQLite, ms"] = 1000 * peers[report].plain
    return measures


def make_listing(task: Task) -> None:
    command, _ = task.new_store("books.db", list_times.BOTH)
    with Program(command, task.seconds) as program:
        for part in list_times.parts_of(task.devices):
            send(program, part)
        program.end()


def listing_of(task: Task) -> Measures:
    """The pages of all devices of a customer, by a new start and by C's SQLite over the same file."""
    name = f"{task.devices:,} devices beside as many: a page"
    command, path = task.store("books.db", list_times.BOTH)
    with Program(command, task.seconds) as program:
        own = list_times.best_of(lambda: list_times.listed_by(program), task.devices)
        program.end()
    peer = list_times.best_of(lambda: list_times.listed_by_sqlite(path), task.devices)
    return {f"{name}, ms": 1000 * statistics.median(own), f"{name} by C's SQLite, ms": 1000 * statistics.median(peer)}


class Kind(NamedTuple):
    """Single requests: those that make the store, those that a new start answers first, and those that are measured."""

    before: list[bytes]
    first: list[bytes]
    asked: list[bytes]


def order_kinds() -> dict[str, Kind]:
    """The kinds of single requests."""
    kinds, (before, identity) = {}, order_times.behind()
    for how, macs in order_times.ADDRESSES.items():
        others, asked = order_times.beside(OTHERS, macs)
        kinds[f"an order {how} addresses beside {OTHERS:,}"] = Kind(others, [], asked)
    # What these walk is read from the file once.
    shown = [order_times.SHOWN]
    kinds["an order shown behind 9,999 imported numbers"] = Kind(before, shown, shown * order_times.TIMES)
    return kinds | {"an identity behind them": Kind(before, shown, [identity])}


def make_orders(task: Task) -> None:
    for place, kind in enumerate(order_kinds().values()):
        order_times.measured(task.new_store(f"made{place}.db")[0], task.seconds, kind.before, [])


def orders_of(task: Task) -> Measures:
    """The single requests, over copies of their stores."""
    found = {}
    for place, (name, kind) in enumerate(order_kinds().items()):
        command = task.copied("books.db", f"made{place}.db")
        used = order_times.measured(command, task.seconds, kind.first, kind.asked)[1]
        found[f"{name}, ms of a processor"] = 1000 * used
    return found


def instructions_of(task: Task) -> Measures:
    """The instructions of a request over a file, and of a start over a small store."""
    how = {"addresses": False, "lives": 300, "starts": 1000, "out": None}
    words = argparse.Namespace(program=task.program, seconds=task.seconds, **how)
    for name in ("before", "lives", "starts"):
        task.new_store(f"{name}.db")
    request = instruction_counts.counted(words, "file", task.folder).total / (words.lives * STEPS)
    start = instruction_counts.start_counted(words, task.folder).total / MILLION
    return {
        "instructions of a request": request,
        f"a start over {words.starts:,} lives, millions of instructions": start,
    }


class Part(NamedTuple):
    """What is measured in each round, what is made once before, and whether it is exact and stands in memory."""

    measure: Callable[[Task], Measures]
    make: Callable[[Task], None] = lambda _: None
    is_exact: bool = False
    is_in_memory: bool = False


PARTS = {
    "instructions": Part(instructions_of, is_exact=True),
    "lives": Part(lives),
    "imports": Part(imports),
    "starts": Part(starts_of, make_starts),
    "reports": Part(reports_of, make_reports, is_in_memory=True),
    "listing": Part(listing_of, make_listing, is_in_memory=True),
    "orders": Part(orders_of, make_orders),
}
