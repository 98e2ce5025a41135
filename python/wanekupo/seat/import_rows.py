"""Serial numbers that were handed out elsewhere, each with the SHA-256 of its key, as an import has them."""

import csv
import io
import json
from typing import Iterable, Iterator

Rows = list[tuple[str, str]]

# The longest body that the server reads; the most rows of an import, and of its body's bytes those that they may have.
LONGEST_BODY = 65_536
MOST_ROWS, LONGEST_ROWS = 500, LONGEST_BODY - 1_024


def csv_of(rows: Iterable[tuple[str, str]]) -> str:
    """Serial numbers with the SHA-256 of their keys as an import has them."""
    return "\n".join(["serial,key_sha256", *(f"{serial},{digest}" for serial, digest in rows), ""])


def rows_of(text: str) -> Rows:
    """The rows of such a text, of any length. A U+FEFF in front and blank lines are passed over; CR, LF or both end a
    line, as the server takes them."""
    reader = csv.reader(io.StringIO(text.removeprefix("\ufeff"), newline=""))
    try:
        lines = [(reader.line_num, fields) for fields in reader if fields]
    except csv.Error as error:
        raise ValueError(f"these are no comma-separated values: {error}") from error
    if not lines or lines[0][1] != ["serial", "key_sha256"]:
        raise ValueError("the first line isn't serial,key_sha256")
    for number, row in lines:
        if len(row) != 2:
            raise ValueError(f"line {number} has {len(row)} fields, and not 2")
    return [(serial, digest) for _, (serial, digest) in lines[1:]]


def import_parts(rows: Iterable[tuple[str, str]]) -> Iterator[Rows]:
    """The rows in parts that an import takes, by their number and their length."""
    part: Rows = []
    length = 0
    for serial, digest in rows:
        more = len(json.dumps(f"{serial},{digest}\n"))
        if part and (len(part) == MOST_ROWS or length + more > LONGEST_ROWS):
            yield part
            part, length = [], 0
        part.append((serial, digest))
        length += more
    if part:
        yield part
