"""A fault of a text: its number, which is the program's, the line, the member, and the cause in words.

station.toml(5) has the numbers. Which one a text has is the program's to say, and where a site has it, too; of
a map the program says the number alone.
"""

import math
import re
import tomllib
from dataclasses import dataclass
from typing import Any

from wanekupo.common.site_file import MARK
from wanekupo.plant.site.positions import DEEPEST, Path, Places, TooDeep, places_of

NAME = re.compile(r"[A-Za-z0-9._-]{1,32}")
LARGEST_WHOLE = 2**63 - 1
TYPES = {str: "a text", bool: "true or false", int: "a whole number", float: "a number with a point", list: "an array",
         dict: "a table"}  # fmt: skip


@dataclass(frozen=True, order=True)
class Fault:
    number: int
    line: int
    member: str
    cause: str


def shown(value: object) -> str:
    """A value as it may be printed: short, and without what would be a command to a terminal."""
    if isinstance(value, str):
        text = "".join(char if char.isprintable() else f"\\x{ord(char):02x}" for char in value)
        return f'"{text}"' if len(text) <= 80 else f'"{text[:77]}.." (of {len(value)} letters)'
    if isinstance(value, bool):
        return "true" if value else "false"
    return str(value)[:80] if isinstance(value, int | float) else TYPES.get(type(value), "a time")


class Reader:
    """A document, the places of its members, and the faults that were found."""

    def __init__(self, document: dict[str, Any], places: Places):
        self.document, self.places = document, places
        self.faults: list[Fault] = []

    def tell(self, number: int, path: Path, cause: str) -> None:
        member = ".".join(part for part in path if isinstance(part, str))
        self.faults.append(Fault(number, self.places.line(path), member or "the text", cause))

    def line(self, path: Path) -> int:
        return self.places.line(path)

    def member(self, table: object, path: Path, kind: type, is_needed: bool = True) -> Any:
        """A member of a type, or None, where it is told, if it has to be there or is of another one."""
        name = path[-1]
        if not isinstance(table, dict):
            self.tell(2, path[:-1], f"it is {shown(table)}, and has to be a table with {name}")
            return None
        if name not in table:
            if is_needed:
                self.tell(2, path, f"{name} is missing")
            return None
        value = table[name]
        if type(value) is not kind:
            self.tell(2, path, f"{name} is {shown(value)}, and has to be {TYPES[kind]}")
            return None
        return value

    def name(self, table: object, path: Path, is_needed: bool = True) -> str | None:
        value = self.member(table, path, str, is_needed)
        return value if value is None or self.is_name(value, path) else None

    def is_name(self, value: object, path: Path) -> bool:
        if isinstance(value, str) and NAME.fullmatch(value):
            return True
        why = f", and this has {len(value)}" if isinstance(value, str) and len(value) > 32 else ""
        self.tell(2, path, f"{shown(value)} is no name: 1 to 32 of A-Z a-z 0-9 . _ -{why}")
        return False

    def whole(self, table: object, path: Path, least: int, greatest: int, is_needed: bool = True) -> int | None:
        value: int | None = self.member(table, path, int, is_needed)
        if value is None or least <= value <= greatest:
            return value
        bounds = f"{least} to {greatest:,}" if greatest < LARGEST_WHOLE else f"{least} or more"
        self.tell(2, path, f"{path[-1]} is {value:,}, and has to be {bounds}")
        return None

    def lowest(self) -> list[Fault]:
        return sorted(self.faults)


def read(text: str) -> Reader | Fault:
    """The document of a text, or why it is no TOML to the program, whose numbers are bounded where tomllib's aren't.
    A mark of the order of bytes in front of a text is passed over."""
    try:
        document = tomllib.loads(text.removeprefix(MARK))
        reader = Reader(document, places_of(text))
    except tomllib.TOMLDecodeError as error:
        return of_toml(text, str(error))
    except TooDeep as error:
        return Fault(1, error.line, "the text", f"it is nested more than {DEEPEST} times")
    except RecursionError:
        return Fault(1, 1, "the text", f"it is nested more than {DEEPEST} times")
    except ValueError:
        return Fault(1, 1, "the text", "it is no TOML: a number has too many digits")
    for path, value in walked(document, ()):
        written = text[reader.places.begins.get(path, 0) : reader.places.ends.get(path, 0)]
        if type(value) is int and not -(2**63) <= value <= LARGEST_WHOLE:
            return Fault(1, reader.line(path), str(path[-1]), "it is no TOML: a whole number has 64 bits")
        if type(value) is float and math.isinf(value) and "inf" not in written:
            return Fault(1, reader.line(path), str(path[-1]), "it is no TOML: the number is too large")
    return reader


def of_toml(text: str, told: str) -> Fault:
    """What tomllib tells, with its line."""
    found = re.search(r"^(.*) \(at (?:line (\d+), column (\d+)|end of document)\)$", told, re.DOTALL)
    said, line, column = (str(found[1]), found[2], found[3]) if found else (told, None, None)
    place = f" at column {column}" if column else ""
    last = text.count("\n") + (0 if text.endswith("\n") or not text else 1)
    return Fault(1, int(line or max(last, 1)), "the text", f"it is no TOML 1.0{place}: {said[:1].lower()}{said[1:]}")


def walked(value: object, path: Path) -> Any:
    """Each value that isn't a table or an array, with its path."""
    if isinstance(value, dict | list):
        for part, item in value.items() if isinstance(value, dict) else enumerate(value):
            yield from walked(item, (*path, part))
    else:
        yield path, value


def doubles(items: list[tuple[Any, Path]]) -> Any:
    """Each item that was there before, with its path and that of the first."""
    first: dict[Any, Path] = {}
    for item, path in items:
        if item in first:
            yield item, path, first[item]
        else:
            first[item] = path
