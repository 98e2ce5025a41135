"""A command of the command line, and what several of them share."""

import argparse
import re
import sys
from dataclasses import dataclass
from pathlib import Path
from typing import Any, Callable

from wanekupo.seat.settings import Settings
from wanekupo.common.errors import StationError

COLONS = re.compile("[0-9A-Fa-f]{2}(?::[0-9A-Fa-f]{2}){5}")


@dataclass(frozen=True)
class Command:
    """Its name, what it does in a line, how its own words are added, what it does, and what is said of it beside. `run`
    gives the status with which the command ends."""

    name: str
    said: str
    add_arguments: Callable[[argparse.ArgumentParser], None]
    run: Callable[[Settings, argparse.Namespace], int]
    more: str = ""


def required_words(*names: str) -> Callable[[argparse.ArgumentParser], None]:
    """Adds words that have to be given, in this order."""

    def add_arguments(parser: argparse.ArgumentParser) -> None:
        for name in names:
            parser.add_argument(name, metavar=name.upper(), type=chip_word if name == "chip" else str)

    return add_arguments


def add_journal_words(parser: argparse.ArgumentParser) -> None:
    parser.add_argument("journals", nargs="+", metavar="JOURNAL", help="a journal, or a folder with journals")


def add_json(parser: argparse.ArgumentParser, other: str = "values and commas") -> None:
    parser.add_argument("--json", action="store_true", help=f"a line of JSON each, in place of {other}")


def chip_word(word: str) -> str:
    """A chip's name, also with the colons that it has in a list."""
    return word.replace(":", "").lower() if COLONS.fullmatch(word) else word


def told_as_error(parse: Callable[[str], Any]) -> Callable[[str], Any]:
    """The same for a word of the command line, whose error is told as it stands."""

    def parsed(word: str) -> Any:
        try:
            return parse(word)
        except ValueError as error:
            raise argparse.ArgumentTypeError(str(error)) from error

    return parsed


def file_text(file: str) -> str:
    """The text of a file, or of standard input where the file is -."""
    try:
        return sys.stdin.read() if file == "-" else Path(file).read_text(encoding="utf-8")
    except UnicodeDecodeError:
        raise StationError(f"{file} is no text", "Name the file that has the text, in UTF-8.") from None
