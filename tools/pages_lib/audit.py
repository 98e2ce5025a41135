"""What a reader of each promise has to believe: the definitions that it rests on, their files in reading order, and
their lines.

Types that code declares (`specs.declared`) are counted apart, with the lines of their declarations.
"""

import collections
import functools
import itertools
from collections.abc import Iterator
from pathlib import Path

from pages_lib import promises as rows
from pages_lib import rattle
from pages_lib.definitions import Definitions, Key, key_of, libraries_of, types_of
from pages_lib.promises import Promise
from pages_lib.rattle import CRATES, TOP, text_of

# The promises whose files a page goes through: one whole, and what another adds to it.
HEADLINE, STREAMS, LIVES = "all-of-a-run", "streams", "lives"

# In what order files are read. Those of crates above these come before them, the others after them, crate by crate.
READING = [
    *("office_laws.Promises", "office_laws.Exchanges", "text_core.Machines", "http_replies.Replies"),
    *(f"office_laws.{it}" for it in "Alone Once Gifts Fresh Pairs Grows Stops Growth".split()),
    "office_tables.Tables",
    *(f"office_rules.{it}" for it in "Sight Effect Retry Machine OfficeMachine".split()),
    *("office_laws.SoloMachine", "office_laws.View", "site_core.Ownership"),
    *(f"office_laws.{it}" for it in "Sound SoundRows SoundRecords SoundDevices Pending ReadBacks".split()),
    *("office_rules.Order", "office_rules.Map", "fusemap_core.Map"),
    *(f"office_rules.{it}" for it in "Registration Actions Plan ReadBack Identity Import Pages".split()),
]

# In what order the files of these crates are read: those of others by how near they are to what the promise cites.
WITHIN = {
    "fuse_plan": "Wishes Numbers Plans Outcome Law Pending".split(),
    "fuse_columns": "BitsColumns KeysColumns Images TodoColumns".split(),
    "fuse_image": "Places Keys Image Pending Locks Blocks Redaction Words".split(),
}


def many(count: int, word: str) -> str:
    """A number of things."""
    return f"{count:,} {word}" if count == 1 else f"{count:,} {word}s"


def module_of(path: Path) -> tuple[str, str]:
    """The crate and the module of a file of definitions."""
    crate, _, module = path.relative_to(CRATES).with_suffix("").parts[:3]
    return crate, module


def place_of(path: Path, nearest: int) -> tuple[int, int, int, str]:
    """A file's place in the reading order."""
    crate, module = module_of(path)
    name, crates = f"{crate}.{module}", rattle.crates_in_order()
    if name in READING:
        return 1, READING.index(name), 0, name
    is_above = crates.index(crate) < crates.index(READING[-1].split(".")[0])
    within = WITHIN.get(crate, [])
    return (0 if is_above else 2), crates.index(crate), within.index(module) if module in within else nearest, name


def head_of(path: Path) -> str:
    """The comment at the head of a file of definitions."""
    lines = itertools.takewhile(lambda it: it.startswith("-- "), text_of(path).split("\n"))
    return " ".join(it.removeprefix("-- ") for it in lines)


class Audit:
    """What each promise rests on."""

    def __init__(self) -> None:
        self.definitions, self.promises = Definitions(), list(rows.read_promises())
        self.reached = {it.name: self.definitions.reach(map(key_of, it.rests_on)) for it in self.promises}

    def faults(self) -> Iterator[str]:
        """What the promises name and the tree hasn't."""
        yield from rows.faults(self.promises, self.definitions)
        for path in sorted({self.definitions.paths[key] for depth, _ in self.reached.values() for key in depth}):
            if not text_of(path).startswith("-- "):
                yield f"{path.relative_to(TOP)} doesn't begin with what it says"

    def files(self, name: str) -> list[tuple[Path, list[Key]]]:
        """The files of a promise in reading order, each with its definitions."""
        depth, _ = self.reached[name]
        files, nearest = collections.defaultdict[Path, list[Key]](list), dict[Path, int]()
        for key in sorted(depth, key=depth.__getitem__):
            path = self.definitions.paths[key]
            files[path].append(key)
            nearest.setdefault(path, depth[key])
        return sorted(files.items(), key=lambda it: place_of(it[0], nearest[it[0]]))

    def listed(self, name: str) -> Iterator[str]:
        """What its clauses cite, all definitions by file in reading order with their lines, and what is refused."""
        promise = next(it for it in self.promises if it.name == name)
        yield f"{name}: {self.weight(promise)}; its clauses cite {', '.join(promise.rests_on) or 'none'}"
        for path, keys in self.files(name):
            yield f"{path.relative_to(TOP)}: {head_of(path)}"
            for key in keys:
                yield f"    {len(self.definitions.lines[key]):3}  {key[1]}"
        for body in (*promise.asked, *promise.bodies):
            yield f"wrong body {', '.join(str(it.relative_to(TOP)) for it in rattle.bodies_of(body))}"
        for rule in promise.rules:
            paths = ", ".join(str(it.relative_to(TOP)) for it in rattle.rules_of(rule.name))
            yield f"wrong rule {paths}, against {', '.join(rule.laws)}"

    def count(self, name: str) -> int:
        """How many definitions a promise rests on."""
        return len(self.reached[name][0])

    def lines(self, name: str) -> int:
        """How many lines these have."""
        return self.definitions.count(self.reached[name][0])

    def weight(self, promise: Promise) -> str:
        """How much a promise rests on."""
        depth, others = self.reached[promise.name]
        files, types = {self.definitions.paths[key] for key in depth}, types_of(others)
        return (
            f"{many(len(depth), 'definition')} in {many(len(files), 'file')}, "
            f"{many(self.definitions.count(depth), 'line')}; {many(len(types), 'type')}"
        )

    def total(self) -> str:
        """What the headline rests on, beside all there is."""
        _, others = self.reached[HEADLINE]
        declared = sum(len(rattle.declaration_of(*it)) for it in types_of(others))
        libraries = ", ".join(f"`{name}` {count}" for name, count in libraries_of(others).items())
        headline = next(it for it in self.promises if it.name == HEADLINE)
        raw = sum(text_of(path).count("\n") for path in TOP.glob("crates/*/specs/**/*.antt"))
        return (
            f"[`{HEADLINE}`](#{HEADLINE}) rests on {self.weight(headline)} that code declares ({declared} lines), and "
            f"names of the toolchain's libraries: {libraries}. All `specs` have {raw:,} lines, "
            f"{self.definitions.count(self.definitions.lines):,} without imports, comments and empty ones, as all "
            "lines here are counted. Names are matched by text, so a few may be too many."
        )


@functools.cache
def audit() -> Audit:
    """The audit of this tree."""
    return Audit()
