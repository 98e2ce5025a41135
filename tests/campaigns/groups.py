"""The groups of campaign.toml: what each runs at which size, of which files it is, and what it takes of a machine."""

import functools
import hashlib
import os
import re
import shlex
import subprocess
import tomllib
from collections.abc import Mapping
from dataclasses import dataclass
from typing import Any

from common.needs import ROOT, missing

SHORT, RELEASE, STARTS = "short", "release", "starts"
TESTS, MEASURES, CLIENTS = "tests/all", "bench/run", "bench/client"
HOURS, FIRST_SEED = 5, 7


def git(*words: str, given: str = "") -> str:
    """What git says of this repository; nothing where it fails."""
    return subprocess.run(["git", "-C", str(ROOT), *words], input=given, capture_output=True, text=True).stdout


@functools.cache
def changed_since(commit: str) -> list[str]:
    """The names of files that aren't as a commit has them."""
    return git("diff", "--name-only", commit).splitlines() + git("ls-files", "-o", "--exclude-standard").splitlines()


def files_here() -> dict[str, str]:
    """What git calls the text of each file of the tree, committed or not."""
    rows = (row.split("\t", 1) for row in git("ls-files", "-sz").split("\0")[:-1])
    changed_since.cache_clear()
    changed = changed_since("HEAD")
    there = [name for name in changed if (ROOT / name).is_file()]
    texts = git("hash-object", "--stdin-paths", given="".join(f"{name}\n" for name in there)).split()
    files = {name: about.split()[1] for about, name in rows if name not in changed}
    return files | dict(zip(there, texts, strict=True))


@dataclass(frozen=True)
class Group:
    """A test or a measure; the table's head says what its members are. `of` is a pattern of names."""

    name: str
    run: str
    of: str
    sizes: Mapping[str, str]
    hours: float
    needs: tuple[str, ...]
    is_quiet: bool

    def words(self, size: str) -> str | None:
        """Its words at a size, which may be a number; None where it has no such size."""
        is_sized = self.sizes[RELEASE].startswith("--size ")
        return (f"--size {size}" if is_sized else None) if size.isdigit() else self.sizes.get(size)

    def most_hours(self, size: str) -> float:
        return 1 if size == SHORT else self.hours

    def command(self, size: str) -> str:
        return f"{self.run} {self.words(size) or ''}".strip()

    def digest(self, size: str, files: Mapping[str, str]) -> str:
        """What a result of this size is of: the command, and the texts of its files."""
        own = sorted(f"{text} {name}\n" for name, text in files.items() if re.match(self.of, name))
        return hashlib.sha256("".join([self.command(size), *own]).encode()).hexdigest()[:32]

    def lacks(self) -> str:
        """Why it can't run here, or nothing."""
        many, there = [it for it in self.needs if it.isdigit()], len(os.sched_getaffinity(0))
        few = [f"{it} processors" for it in many if int(it) > there]
        lacking = missing(it for it in self.needs if it not in many) + few
        return f"this machine lacks {', '.join(lacking)}" if lacking else ""


def group_of(name: str, row: Mapping[str, Any], sets: Mapping[str, str]) -> Group:
    """A row of the table. It is of the program if it gets it, of what it runs, and of what it names."""
    kind = next(iter(row))
    run = {"tests": f"{TESTS} ", "bench": f"{MEASURES} "}.get(kind, "") + row[kind]
    first, *words = shlex.split(run)
    files = [it.partition("::")[0] for it in words if ".py" in it] if kind == "tests" else []
    own = [f"tests/({it}$|{it.partition('/')[0]}/(?!test_))" for it in files]
    own += [f"bench/{words[0]}$" if kind == "bench" else f"{first}$"]
    named = ["program"] * (first in (TESTS, MEASURES, CLIENTS)) + [kind] * (kind != "run") + row.get("of", "").split()
    sizes = {RELEASE: ""} | {size: row[size] for size in (SHORT, RELEASE, STARTS) if size in row}
    pattern, needs = "|".join([*own, *map(sets.__getitem__, named)]), tuple(row.get("needs", "").split())
    return Group(name, run, pattern, sizes, row.get("hours", HOURS), needs, row.get("quiet", first == MEASURES))


def read_groups() -> dict[str, Group]:
    """The groups by their names, in the table's order. One with seeds is a group for each of them."""
    table = tomllib.loads((ROOT / "tests/campaign.toml").read_text("utf-8"))
    rows = dict[str, Mapping[str, Any]]()
    for name, row in table["groups"].items():
        kind, run = next(iter(row.items()))
        row |= {STARTS: table[STARTS][name]} if name in table[STARTS] else {}
        seeds = range(FIRST_SEED, FIRST_SEED + row.get("seeds", 0))
        rows |= {f"{name}-{seed}": row | {kind: f"{run} --seed {seed}"} for seed in seeds} or {name: row}
    return {name: group_of(name, row, table["files"]) for name, row in rows.items()}
