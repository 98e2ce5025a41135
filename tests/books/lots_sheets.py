"""A list of 1,000 devices whose serial numbers and orders read as something else, through LibreOffice and gnumeric.

The list as .xlsx has to come back from both text for text. Of the list as comma-separated values each field that one of
them changes is one of which the command warned. What it calls a number, or true or false, one of them changes. All
other warnings are Excel's, or another language's: these rules are in the columns of `ORDERS`, by the pages of its maker
(leading zeros, 15 digits, E, letters and digits that may be a date) and by OWASP's of formulas. Random texts of the
forms of names and serial numbers are held to the same.
"""

import csv
import io
import os
import subprocess
import warnings

from books.lots_place import life
from common.registrations import MAP

EACH = 22

# Orders by their names, what these are read as, their prefixes and widths, and what the serial numbers are read as:
# nothing, a number or a truth to both ("n"), or by Excel's rules ("x") a date, a number of many digits or a formula.
ORDERS = [
    ("1E5", "n", "1E", 1, "n"),
    ("1e-5", "n", "12E", 2, "n"),
    ("007", "n", "00", 3, "n"),
    ("0", "", "0", 5, "n"),
    ("-1", "x", "-", 2, "x"),
    ("-2.5e3", "x", "--", 2, "x"),
    ("-A", "x", "-1-", 2, "x"),
    ("MAR1", "x", "MAR", 2, "x"),
    ("1-MAR", "x", "MAR-", 2, "x"),
    ("Mar-2026", "x", "MAR-2", 3, "x"),
    ("2026-01-02", "x", "2026-1-", 2, "x"),
    ("1-2", "x", "1-", 2, "x"),
    ("01.02.2026", "x", "1-2-", 2, "x"),
    ("TRUE", "x", "TRUE", 2, ""),
    ("true", "n", "T", 2, ""),
    ("False", "n", "F", 2, ""),
    ("0x10", "", "0X", 2, ""),
    ("1.50", "n", "123456789012345", 2, "n"),
    ("1.5", "x", "1234567890", 2, "x"),
    ("1.", "n", "12345678901234567890", 2, "n"),
    (".5", "n", "9999999999999999", 9, "n"),
    ("12345678901234567890", "n", "1234567", 2, ""),
    ("1_2", "", "1A", 2, ""),
    ("10AM", "x", "10AM", 2, ""),
    ("SEPT", "", "SEPT", 2, "x"),
    ("DEC_25", "x", "DEC-25-", 4, "x"),
    ("1.2.3", "x", "26-MAR-", 2, "x"),
    ("A1", "", "A", 3, ""),
    ("R1C1", "", "R1C", 1, ""),
    ("NaN", "", "NAN", 2, ""),
    ("inf", "", "INF", 2, ""),
    ("E5", "", "E", 2, ""),
    ("1E", "", "1EE", 2, ""),
    ("1E400", "n", "1E40", 1, "n"),
    ("1-2-3-4", "x", "1-2-3-", 2, "x"),
    ("OKT-5", "x", "OKT-", 2, "x"),
    ("12-", "n", "1D", 2, ""),
    ("a-b", "", "A-B-", 2, ""),
    ("20260101000000Z", "", "20260101000000Z", 2, ""),
    ("10.337", "x", "9E-2", 2, "x"),
    ("_", "", "Q1-", 4, ""),
    ("..", "", "X-", 9, ""),
    ("1e5.5", "", "0E", 3, "n"),
    ("JUNE", "", "JUNE", 4, "x"),
    ("00-01", "x", "00-0", 1, "x"),
    ("mon", "", "MON", 1, ""),
    ("3E-300", "x", "3E-30", 1, "x"),
    ("1.e5", "n", "MAY5-", 4, "x"),
    ("5e5", "n", "7E", 5, "n"),
    ("Jan.2026", "x", "JAN", 4, "x"),
]
OTHERS = 6_000
WORDS = "JAN FEB MAR MAY JUNE SEPT DEC MRZ OKT TRUE FALSE E EE X AM PM NAN INF MON D true e d x".split()
NAMES = "ABCDEFGHIJKLMNOPQRSTUVWXYZabcdefghijklmnopqrstuvwxyz0123456789._-"


def requests_of(seat, keys, _):
    """The requests of acme's orders, each with as many devices as numbers. The other customer asks for nothing."""
    yield [seat.ask("/v1/map", text=MAP)]
    for order, (name, _, prefix, width, _) in enumerate(ORDERS if seat.issuer == "acme-ca" else ()):
        quantity = EACH if width > 1 else 10
        range_of = {"prefix": prefix, "width": width, "first": int(width > 1), "quantity": quantity}
        yield [seat.ask("/v1/order", name=name, issuer=seat.issuer, **range_of, macs=2, not_before=None)]
        for place in range(quantity):
            yield list(life(seat, keys, name, order, place))


# Through a program and back.


def through(folder, name, ending, reader="plain"):
    """A file as a program writes it again, by its name."""
    made = folder / f"{reader}-{name}.{ending}"
    if reader == "gnumeric":
        words = ["ssconvert", folder / name, made]
    else:
        words = ["soffice", f"-env:UserInstallation=file://{folder}/office", "--headless"]
        words += [f"--infilter=CSV:44,34,76,1,,{READERS[reader]}"] if name.endswith(".csv") else []
        csv_filter = ":Text - txt - csv (StarCalc):44,34,76,1,,0,false,true,false"
        words += ["--convert-to", ending + (csv_filter if ending == "csv" else ""), "--outdir", folder / "out"]
        words += [folder / name]
    environment = {**os.environ, "HOME": str(folder), "LC_ALL": "C.UTF-8"}
    done = subprocess.run(list(map(str, words)), env=environment, capture_output=True, timeout=300, check=False)
    assert done.returncode == 0, done.stderr
    if reader != "gnumeric":
        (folder / "out" / f"{name.rpartition('.')[0]}.{ending}").replace(made)
    return made


# How LibreOffice reads comma-separated values: in English with all that it may detect, with nothing of it, in German.
READERS = {
    "english": "1033,false,true,false,false,false,-1,true",
    "plain": "1033,false,false,false,false,false,-1,false",
    "german": "1031,false,true,false,false,false,-1,true",
}


def fields_in(file):
    """The fields of a sheet: those of .xlsx have to be texts."""
    if file.suffix == ".csv":
        return list(csv.reader(io.StringIO(file.read_text(encoding="utf-8"))))
    import openpyxl

    warnings.filterwarnings("ignore", "Workbook contains no default style", module="openpyxl")
    rows = openpyxl.load_workbook(file, read_only=True).active.iter_rows(values_only=True)
    return [["" if it is None else it for it in row] for row in rows]


def changed_in(folder, name, rows):
    """The places of the fields that one of the readers changes."""
    found = set()
    for reader in (*READERS, "gnumeric"):
        again = fields_in(through(folder, name, "csv", reader))
        assert [len(row) for row in again] == [len(row) for row in rows], reader
        found |= {(y, x) for y, row in enumerate(rows) for x, it in enumerate(row) if it != again[y][x]}
    return found
