"""Where each member of a TOML text stands: tomllib gives the values, and this the lines.

A path is a tuple of names and of places in arrays, as ("customer", 0, "seat", 2, "token"). The text is one that tomllib
takes, so this looks for no faults: it follows headers, keys, strings, arrays and inline tables, and passes over values.
"""

import re
import tomllib
from bisect import bisect
from dataclasses import dataclass, field

from wanekupo.common.errors import PlantError
from wanekupo.common.site_file import MARK

Path = tuple[str | int, ...]

BLANK = re.compile(r"(?:[ \t\r\n]|#[^\n]*)*")
KEY = re.compile(r"""[ \t]*(?:"((?:[^"\\]|\\.)*)"|'([^']*)'|([A-Za-z0-9_-]+))[ \t]*(\.?)""")
DEEPEST = 80  # arrays and tables within each other in one value, and parts of one key, as the program reads them
PLAIN = re.compile(r"[^,\]}\n#]*")
# Strings of three marks may end with five: two of them are the string's own.
STRINGS = [
    re.compile(pattern, re.DOTALL)
    for pattern in (r'"""(?:[^\\]|\\.)*?"""+', r"'''.*?'''+", r'"(?:[^"\\]|\\.)*"', r"'[^']*'")
]


class TooDeep(PlantError):
    """A value that the program reads no more, as it is nested too deeply."""

    def __init__(self, line: int):
        super().__init__(f"line {line} is nested more than {DEEPEST} times")
        self.line = line


@dataclass
class Places:
    """The lines of a text's members, where each value ends, and where tables are begun by a header."""

    lines: dict[Path, int] = field(default_factory=dict)
    ends: dict[Path, int] = field(default_factory=dict)
    begins: dict[Path, int] = field(default_factory=dict)
    headers: list[tuple[Path, int]] = field(default_factory=list)

    def line(self, path: Path) -> int:
        """The line of a member, or of what it would stand in."""
        while path and path not in self.lines:
            path = path[:-1]
        return self.lines.get(path, 1)


class Scanner:
    """Follows a text from its beginning to its end."""

    def __init__(self, text: str):
        self.text, self.at = text, len(MARK) if text.startswith(MARK) else 0
        self.breaks = [found.start() for found in re.finditer("\n", text)]
        self.depth = 0
        self.counts: dict[Path, int] = {}
        self.found = Places()

    def line(self) -> int:
        return bisect(self.breaks, self.at - 1) + 1

    def pass_blank(self) -> None:
        found = BLANK.match(self.text, self.at)
        assert found
        self.at = found.end()

    def keys(self) -> list[str]:
        """A key with its dots."""
        names, is_more = [], True
        while is_more:
            found = KEY.match(self.text, self.at)
            if not found:
                raise ValueError(f"no key in line {self.line()}")
            escaped, literal, bare, dot = found.groups()
            # A key between quotes may have escapes, by which tomllib reads it.
            names.append(tomllib.loads(f'key = "{escaped}"')["key"] if escaped else escaped or literal or bare or "")
            is_more, self.at = bool(dot), found.end()
        if len(names) > DEEPEST:
            raise TooDeep(self.line())
        return names

    def run(self) -> Places:
        table: Path = ()
        self.pass_blank()
        while self.at < len(self.text):
            if self.text[self.at] == "[":
                table = self.header()
            else:
                self.member(table)
            self.pass_blank()
        return self.found

    def header(self) -> Path:
        """`[a.b]`, or `[[a.b]]`, which begins one more of an array."""
        begin, line = self.at, self.line()
        is_array = self.text.startswith("[[", self.at)
        self.at += 1 + is_array
        path: Path = ()
        names = self.keys()
        for name in names[:-1]:
            path += (name,)
            if path in self.counts:
                path += (self.counts[path] - 1,)
        path += (names[-1],)
        if is_array:
            self.found.lines.setdefault(path, line)
            self.counts[path] = self.counts.get(path, 0) + 1
            path += (self.counts[path] - 1,)
        elif path in self.counts:
            path += (self.counts[path] - 1,)
        self.at = self.text.index("]", self.at) + 1 + is_array
        self.note(path, begin, line)
        self.found.headers.append((path, begin))
        return path

    def note(self, path: Path, begin: int, line: int) -> None:
        self.found.lines.setdefault(path, line)
        self.found.begins.setdefault(path, begin)
        self.found.ends[path] = self.at

    def member(self, table: Path) -> None:
        """`key = value`; each table that a dotted key makes has its line too."""
        begin, line = self.at, self.line()
        path = table
        for name in self.keys():
            path += (name,)
            self.found.lines.setdefault(path, line)
        self.at = self.text.index("=", self.at) + 1
        self.value(path)
        self.note(path, begin, line)

    def value(self, path: Path) -> None:
        while self.text[self.at] in " \t":
            self.at += 1
        opened = self.text[self.at]
        if opened in "[{":
            self.depth += 1
            if self.depth > DEEPEST:
                raise TooDeep(self.line())
            (self.items if opened == "[" else self.inline)(path)
            self.depth -= 1
        elif opened in "\"'":
            self.at = next(found.end() for it in STRINGS if (found := it.match(self.text, self.at)))
        else:
            found = PLAIN.match(self.text, self.at)
            assert found
            self.at += len(found[0].rstrip())

    def items(self, path: Path) -> None:
        """An array's items."""
        self.at += 1
        self.pass_blank()
        place = 0
        while self.text[self.at] != "]":
            begin, line = self.at, self.line()
            self.value((*path, place))
            self.note((*path, place), begin, line)
            place += 1
            self.pass_blank()
            if self.text[self.at] == ",":
                self.at += 1
                self.pass_blank()
        self.at += 1

    def inline(self, path: Path) -> None:
        """A table within one value."""
        self.at += 1
        self.pass_blank()
        while self.text[self.at] != "}":
            self.member(path)
            self.pass_blank()
            if self.text[self.at] == ",":
                self.at += 1
                self.pass_blank()
        self.at += 1


def places_of(text: str) -> Places:
    """The places of a text that is TOML."""
    return Scanner(text).run()
