"""Spreadsheets: which fields of a list one of them changes as it opens it, and a list as a file whose cells are texts.

What LibreOffice and gnumeric make of a field is as they were seen to (`tests/books/test_lots_sheets.py`). Excel's
part is by its maker's pages: leading zeros, more than 15 digits, digits around an E, and letters with digits that may
be a date are converted, and a number of more than 11 digits is shown, and so saved, with an exponent.
"""

import importlib
import io
import re
from collections import defaultdict
from typing import Any, Sequence

from wanekupo.common.errors import BadSettings
from wanekupo.common.texts import FORMULA

# A number to each of them, in English or in German, and how one is written that all of them leave as it is.
NUMBER = re.compile(r"-?(?:[0-9]+\.?[0-9]*|\.[0-9]+)(?:E[+-]?[0-9]+)?-?|-?[0-9]+E[+-]?[0-9]+\.", re.IGNORECASE)
KEPT = re.compile(r"-?(?:0|[1-9][0-9]{0,15})(?:\.[0-9]*[1-9])?|-?[1-9](?:\.[0-9]*[1-9])?E-[1-9][0-9]{2}")
SHORT = re.compile(r"-?[0-9]{1,11}")

# A date in either language, which a tool takes by the day and its settings; with a time of the day.
MONTH = (
    "(?:JAN(?:UARY?)?|FEB(?:RUARY?)?|MAR(?:CH)?|MRZ|APR(?:IL)?|MA[YI]|JUN[EI]?|JUL[YI]?|AUG(?:UST)?"
    "|SEP(?:T|TEMBER)?|O[CK]T(?:OBER)?|NOV(?:EMBER)?|DE[CZ](?:EMBER)?)"
)
DAY = "(?:(?:MON|TUE|WED|THU|FRI|SAT|SUN)[A-Z]*)?"
DATE = re.compile(
    rf"[0-9]+[-._]*{MONTH}(?:[-._]*[0-9]*[.]?)|{MONTH}[-._]*[0-9]+(?:[-._]?[0-9]+)?{DAY}"
    r"|[0-9]+(?:[-.]+[0-9]*){1,3}|[0-9]+[-.]?[AP]M",
    re.IGNORECASE,
)

# True and false, in English and in German.
TRUTHS = ("true", "false", "wahr", "falsch")

# What is said of a field by its reading. The first two are Excel's, or another's by its language and the day.
READINGS = {
    "formula": "begins as a formula does",
    "may be": "may be a date, another number or true to Excel or in another language",
    "number": "is a number to a spreadsheet, which writes it in another way",
    "truth": "is true or false to a spreadsheet",
}

# What a sheet holds, and a cell of it (the format's own bounds).
MOST_ROWS, LONGEST_CELL = 1_048_576, 32_767


def reading_of(field: str) -> str:
    """How a spreadsheet reads a field that it may change, by the names of `READINGS`; empty where it is a text."""
    if FORMULA.search(field):
        return "formula"
    if field.lower() in TRUTHS:
        return "may be" if field.isupper() else "truth"
    if NUMBER.fullmatch(field) and not KEPT.fullmatch(field):
        return "number"
    is_number = NUMBER.fullmatch(field) and not SHORT.fullmatch(field)
    return "may be" if is_number or DATE.fullmatch(field) else ""


def misread_in(names: Sequence[str], lines: Sequence[Sequence[str]]) -> list[str]:
    """A sentence for each column and reading of fields that a spreadsheet may change: the first, and how many more."""
    found: dict[tuple[str, str], list[str]] = defaultdict(list)
    for line in lines:
        for name, field in zip(names, line):
            if reading := reading_of(field):
                found[name, reading].append(field)
    told = [(name, fields, READINGS[reading]) for (name, reading), fields in found.items()]
    return [f"{name} {its[0]!r} {said}{_more(len(its) - 1)}" for name, its, said in told]


def _more(count: int) -> str:
    return f"; so {'is' if count == 1 else 'are'} {count} more of this column" if count else ""


def openpyxl_library() -> Any:
    """Debian's python3-openpyxl, which not every customer needs."""
    try:
        return importlib.import_module("openpyxl")
    except ImportError:
        told = "Install Debian's python3-openpyxl, or leave --xlsx away."
        raise BadSettings("the library is missing that writes .xlsx", told) from None


def xlsx_of(names: Sequence[str], lines: Sequence[Sequence[str]]) -> bytes:
    """A list as .xlsx. Each cell is a text, and its format too, so that it stays one where somebody edits it."""
    if len(lines) >= MOST_ROWS:
        raise BadSettings(f"the list has {len(lines)} lines, and a sheet {MOST_ROWS}", "Make one of fewer orders.")
    book = openpyxl_library().Workbook(write_only=True)
    sheet, made = book.create_sheet("list"), openpyxl_library().cell.WriteOnlyCell
    for line in (names, *lines):
        sheet.append([_text_cell(made(sheet), field) for field in line])
    out = io.BytesIO()
    book.save(out)
    return out.getvalue()


def _text_cell(cell: Any, field: str) -> Any:
    if len(field) > LONGEST_CELL:
        told = "Leave --spool or --xlsx away."
        raise BadSettings(f"a field has {len(field)} characters, and a sheet's cell {LONGEST_CELL}", told)
    cell.value, cell.data_type, cell.number_format = field, "s", "@"
    return cell
