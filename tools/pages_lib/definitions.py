"""The definitions of the repository, and what each of them rests on.

A definition is CRATE.MODULE.NAME, of crates/CRATE/specs/MODULE.antt. What it rests on is found by the names in
its text and the `use` lines of its file, through files that only pass names on, and so on down; the toolchain's
libraries are named and not followed. Lines are counted without imports, comments and empty lines. The types of a
type's fields aren't followed. A variable that is spelled like a definition counts as it, so a few definitions may
be too many.
"""

import collections
import re
from collections.abc import Iterable, Iterator
from pathlib import Path

from pages_lib.rattle import CRATES, TOP, text_of

HEAD = re.compile(r"(?:(?:abbrev|unfoldable|opaque|foldable) )?(?:pub )?(?:(?:record|data) )?([^\s:({]+)")
STARTS = re.compile(r"(abbrev|unfoldable|opaque|foldable|record|data|pub (?!mod))|[^\s:({]+ : ")
MADE = re.compile(r"  ([^\W\d]\w*) :")
USE = re.compile(r"(?:(?:unfoldable )?pub )?use ([\w.]+?)(?:\.\{(.*)\})?(?: as (\S+))?$")
WORD = re.compile(r"[^\W\d]\w*(?:\.[^\W\d]\w*)?")

# A definition: its module and its name.
Key = tuple[str, str]


def key_of(root: str) -> Key:
    """A definition that is written CRATE.MODULE.NAME."""
    crate, module, name = root.split(".")
    return f"Rattle.{crate}.specs.{module}", name


def is_written(name: str, text: str) -> bool:
    """Whether a name that is no word stands in a text: an operator by its parts, or one with hyphens."""
    bounds = r"(?<![^\s(){{}}\[\]]){}(?![^\s(){{}}\[\]])"
    return all(re.search(bounds.format(re.escape(part)), text) for part in name.split("◌") if part)


def outside_modules(lines: Iterable[str]) -> Iterator[str]:
    """The lines of a file, with what stands in a nameless module moved out to the margin."""
    inside = False
    for line in lines:
        if line[:1].strip():
            inside = line.startswith("module _")
        yield line[2:] if inside and line.startswith("  ") else line


class Definitions:
    """The definitions: their files and lines, the names in each file, and who makes which constructor."""

    def __init__(self) -> None:
        self.lines, self.paths, self.makers = dict[Key, list[str]](), dict[Key, Path](), dict[Key, Key]()
        self.names = dict[str, dict[str, tuple[str, str | None]]]()
        self.others = collections.defaultdict[str, set[str]](set)
        for path in sorted(TOP.glob("crates/*/specs/**/*.antt")):
            self.read(path)
        for module, name in [*self.lines, *((module, name) for module, names in self.names.items() for name in names)]:
            if not WORD.fullmatch(name):
                self.others[module].add(name)

    def read(self, path: Path) -> None:
        """Reads a file of definitions."""
        module = ".".join(["Rattle", *path.relative_to(CRATES).with_suffix("").parts])
        names = self.names.setdefault(module, {})
        last: Key | None = None
        for line in outside_modules(text_of(path).split("\n")):
            use = USE.match(line)
            if use:
                self.read_use(names, use)
                last = None
            elif line.startswith("--"):
                last = None
            elif STARTS.match(line):
                last = (module, HEAD.match(line)[1])
                self.lines.setdefault(last, []).append(line)
                self.paths[last] = path
            elif line.strip():
                own = (module, re.match(r"([^\s:({]*)", line)[1])
                last = own if own in self.lines else last
                if last:
                    self.read_line(last, line)

    def read_use(self, names: dict[str, tuple[str, str | None]], use: re.Match[str]) -> None:
        """Notes the names that a line imports."""
        base, items, short = use.groups()
        for item in items.split(",") if items else ():
            whole, _, alias = item.strip().partition(" as ")
            names[alias or whole] = (base, whole)
        if not items:
            names[short or base.split(".")[-1]] = (base, None)

    def read_line(self, last: Key, line: str) -> None:
        """Adds a further line to a definition."""
        self.lines[last].append(line)
        made = MADE.match(line)
        if made and self.lines[last][0].startswith(("data", "pub data")):
            self.makers[last[0], made[1]] = last

    def is_declared(self, key: Key) -> bool:
        """Whether a definition or a constructor is declared there."""
        return key in self.lines or key in self.makers

    def declared_at(self, module: str, name: str) -> Key:
        """Where what a module has under a name is declared: what it only passes on stands further down."""
        while not self.is_declared((module, name)):
            base, whole = self.names.get(module, {}).get(name, ("", None))
            if not whole:
                break
            module, name = base, whole
        return self.makers.get((module, name), (module, name))

    def below(self, key: Key) -> Iterator[Key]:
        """What a definition's text names, of whichever library."""
        module, own = key
        text = "\n".join(self.lines[key])
        others = sorted(name for name in self.others[module] if is_written(name, text))
        for word in dict.fromkeys([*WORD.findall(text), *others]):
            first, _, second = word.partition(".") if WORD.fullmatch(word) else (word, "", "")
            if first in self.names[module]:
                base, item = self.names[module][first]
                if item or second:
                    yield self.declared_at(base, item or second)
            elif first != own and self.is_declared((module, first)):
                yield self.makers.get((module, first), (module, first))

    def reach(self, keys: Iterable[Key]) -> tuple[dict[Key, int], set[Key]]:
        """How far each definition is from these, and what else they name: types of code and names of the toolchain."""
        depth, others = dict[Key, int](), set[Key]()
        queue = collections.deque((key, 0) for key in keys)
        while queue:
            key, far = queue.popleft()
            if key in depth or key in others:
                continue
            if key not in self.lines:
                others.add(key)
                continue
            depth[key] = far
            queue.extend((found, far + 1) for found in self.below(key))
        return depth, others

    def count(self, keys: Iterable[Key]) -> int:
        """The lines of definitions."""
        return sum(len(self.lines[key]) for key in keys)


def types_of(others: Iterable[Key]) -> set[tuple[str, str]]:
    """The types that code declares among what is named: each with its crate."""
    found = set[tuple[str, str]]()
    for base, _ in others:
        parts = base.split(".")
        if parts[2:4] == ["specs", "declared"] and (CRATES / parts[1]).is_dir():
            found.add((parts[1], parts[-2] if parts[-1].startswith("The") else parts[-1]))
    return found


def libraries_of(others: Iterable[Key]) -> dict[str, int]:
    """How many names of each of the toolchain's libraries are cited."""
    libraries = (base.split(".")[1] for base, _ in others)
    return dict(sorted(collections.Counter(it for it in libraries if not (CRATES / it).is_dir()).items()))
