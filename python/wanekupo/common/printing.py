"""What the command prints. All of it comes through here: no control character of a server reaches a terminal."""

import sys
from typing import Any, Iterable, Self, Sequence

from wanekupo.common.texts import compact_json, csv_lines, formulas_in, shown, shown_lines


def print_shown(text: str) -> None:
    """Prints lines on standard output."""
    print(shown_lines(text), end="")


def say_json(data: Any) -> None:
    print_shown(compact_json(data, sort_keys=True) + "\n")


def warn(*sentences: str) -> None:
    """Tells sentences on standard error."""
    for sentence in sentences:
        print(shown(sentence), file=sys.stderr)


def table_lines(names: Sequence[str], rows: Iterable[Sequence[Any]], as_json: bool) -> str:
    """Rows as comma-separated values, or a line of JSON each, with the names of the columns."""
    if not as_json:
        return csv_lines(rows)
    return "".join(compact_json(dict(zip(names, row)), sort_keys=True) + "\n" for row in rows)


class Formulas:
    """Tells which fields of what is printed a spreadsheet would take for formulas, each but once."""

    def __init__(self) -> None:
        self.told: set[str] = set()

    def warn_of(self, names: Sequence[str], rows: Iterable[Sequence[Any]]) -> None:
        for sentence in formulas_in(names, rows):
            if sentence not in self.told:
                warn(f"warning: {sentence}")
                self.told.add(sentence)


class Progress:
    """How far long work is: a line on standard error, where that is a terminal."""

    def __init__(self, what: str):
        self.what, self.is_shown, self.width = what, False, 0

    def __call__(self, done: int, of: int) -> None:
        self._show(f"{done} of {of}")

    def waits(self, told: str) -> None:
        """Tells what is waited for, until the first count takes its place."""
        self._show(f"waiting for {told}")

    def _show(self, told: str) -> None:
        if sys.stderr.isatty():
            line = f"{self.what}: {told}"
            print(f"\r{line.ljust(self.width)}", end="", file=sys.stderr, flush=True)
            self.is_shown, self.width = True, len(line)

    def __enter__(self) -> Self:
        return self

    def __exit__(self, *_: Any) -> None:
        if self.is_shown:
            print(file=sys.stderr)
