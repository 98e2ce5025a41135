"""Texts as they may be printed or written: what a server says is data, and never a command to a terminal or a sheet."""

import csv
import io
import itertools
import json
import re
from typing import Any, Iterable, Iterator, Sequence

# How a cell begins that a spreadsheet takes for a formula (OWASP, "CSV Injection"), also behind what it may take for a
# separator: with a semicolon between cells, `a;=1+1` is two of them.
FORMULA = re.compile("(?:^|[,;\t|])[\"' ]*[=+@\t\r\n\uff1d\uff0b\uff0d\uff20-]")

# Columns of counts, in which -2 is a number and no name.
COUNT = re.compile(
    "(?:d_)?(?:registered|planned|settled|identified|shipped|quarantined|scrapped)"
    "|rows|orders|quantity|serials_left|begun|given_up|yield"
)
NUMBER = re.compile(r"[+-]?[0-9]+(?:\.[0-9]+)?")

# What a log never has, whatever a command prints: private keys as PEM, and digits of 32 bytes or more, in one piece or
# by bytes or words, as a dump prints them.
SECRETS = (
    re.compile(r"-----BEGIN [A-Z0-9 ]*PRIVATE KEY-----.*?(-----END [A-Z0-9 ]*PRIVATE KEY-----|\Z)", re.DOTALL),
    re.compile(r"[0-9A-Fa-f]{64,}"),
    re.compile(r"\b(?:[0-9A-Fa-f]{2}[\s:,]+){31,}[0-9A-Fa-f]{2}"),
    re.compile(r"\b(?:[0-9A-Fa-f]{8}[\s:,]+){7,}[0-9A-Fa-f]{8}"),
)

# The longest text that stands in a sentence as it is: longer than a name or a digest of the server's.
LONGEST_SHOWN = 80


def shown(text: str) -> str:
    r"""A text for a terminal, in one line. What is no visible character and no space stands there as Python writes it:
    `\x1b` of an escape, `\u202e` of what turns the writing around, `\n` of a line feed."""
    if text.isprintable():
        return text
    return "".join(it if it.isprintable() else it.encode("unicode_escape").decode("ascii") for it in text)


def without_secrets(text: str, kept: tuple[str, ...] = ()) -> str:
    """What a command printed, without what may be a key; digests in `kept` are no secret, and stay."""
    for secret in SECRETS:
        text = secret.sub(lambda it: it[0] if it[0].strip().lower() in kept else "[a key]", text)
    return text


def brief(text: Any) -> str:
    """A text within a sentence. Of a long one the beginning: whoever wrote it could fill a screen."""
    whole = str(text)
    return whole if len(whole) <= LONGEST_SHOWN else f"{whole[:LONGEST_SHOWN]}.. ({len(whole)} characters)"


def shown_lines(text: str) -> str:
    """The same of a text of several lines, whose line feeds stay."""
    return "\n".join(map(shown, text.split("\n")))


def compact_json(data: Any, **options: Any) -> str:
    """JSON in visible ASCII and in one line."""
    return json.dumps(data, separators=(",", ":"), **options)


def csv_lines(rows: Iterable[Sequence[Any]]) -> str:
    """Rows as comma-separated values (RFC 4180), with a line feed behind each: a field is quoted where it needs it, and
    none has a control character, so that a row is a line."""
    out = io.StringIO()
    csv.writer(out, lineterminator="\n").writerows([shown(str(field)) for field in row] for row in rows)
    return out.getvalue()


def csv_rows(text: str) -> list[list[str]]:
    """The rows of comma-separated values, without blank lines."""
    try:
        return [row for row in csv.reader(io.StringIO(text)) if row]
    except csv.Error as error:
        raise ValueError(f"these are no comma-separated values: {error}") from error


def formulas_in(names: Sequence[str], rows: Iterable[Sequence[Any]]) -> Iterator[str]:
    """A sentence for each field that a spreadsheet would take for a formula, by the names of the columns."""
    for row in rows:
        for name, field in itertools.zip_longest(names, map(str, row), fillvalue=""):
            is_count = COUNT.fullmatch(name) and NUMBER.fullmatch(field)
            if FORMULA.search(field) and not is_count:
                yield f"{name or 'a field'} {field!r} begins as a formula does: import it into a spreadsheet as text"
