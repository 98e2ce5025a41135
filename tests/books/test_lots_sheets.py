"""A list of 1,000 devices whose serial numbers and orders read as something else, through LibreOffice and gnumeric and
back; lots_sheets.py says what they are read as."""

import random
import re

import pytest

from books.lots_place import FAST, opened_lots, rows_of, shown
from books.lots_sheets import EACH, NAMES, ORDERS, OTHERS, WORDS, changed_in, fields_in, requests_of, through
from wanekupo.lots.sheets import reading_of

pytestmark = [pytest.mark.root, pytest.mark.nginx, pytest.mark.slow]
pytestmark += [pytest.mark.needs("soffice", "ssconvert", "/usr/lib/python3/dist-packages/openpyxl")]


@pytest.fixture(scope="module")
def place(program):
    with opened_lots(program, FAST, {}, len(ORDERS) * EACH // 4, requests_of) as place:
        yield place


@pytest.fixture(scope="module")
def sheet(place):
    """The list as both forms of files: its rows, those that a SELECT finds, and what was told."""
    status, _, told, _ = place.ran("a1", "manifest", "--all", "--out", "sheet.csv", "--xlsx", "sheet.xlsx")
    assert status == 0, told
    return fields_in(place.folder / "sheet.csv"), [shown(row) for row in rows_of(place.copy(), "acme")], told


def test_the_list(sheet):
    rows, expected, _ = sheet
    assert rows[1:] == expected and len(rows) > 1000


@pytest.mark.parametrize("reader", ["plain", "gnumeric"])
@pytest.mark.parametrize("ending", ["xlsx", "csv"])
def test_xlsx(place, sheet, reader, ending):
    """Through a program and back, text for text."""
    assert fields_in(through(place.folder, "sheet.xlsx", ending, reader)) == sheet[0]


def test_warnings(place, sheet):
    """Of the list as comma-separated values each field that a reader changes is one of which the command warned."""
    rows, _, told = sheet
    changed = changed_in(place.folder, "sheet.csv", rows)
    assert changed
    expect_warned(rows, changed)
    counts = {(name, said[:11]): 1 + int(more or 0) for name, said, more in WARNING.findall(told)}
    names, found = rows[0], {}
    for row in rows[1:]:
        for name, reading in ((name, reading_of(it)) for name, it in zip(names, row)):
            found[name, reading] = found.get((name, reading), 0) + 1
    assert sorted(counts.values()) == sorted(count for (_, reading), count in found.items() if reading)


WARNING = re.compile(r"^warning: (\w+) '[^']*' ([^;\n]*)(?:; so (?:is|are) (\d+) more of this column)?$", re.MULTILINE)


def expect_warned(rows, changed):
    """Both ways: what is changed is told, and what is told as changed is."""
    readings = {(y, x): reading_of(it) for y, row in enumerate(rows) for x, it in enumerate(row)}
    missed = [rows[y][x] for y, x in changed if not readings[y, x]]
    assert missed == [], "none that is changed goes untold"
    false = [rows[y][x] for (y, x), it in readings.items() if it in ("number", "truth") and (y, x) not in changed]
    assert false == [], "none that is told as a number stays as it is"


def test_documents(sheet):
    """What is told of each order's name and serial numbers, by the table."""
    expected, kinds = sheet[1], {"number": "n", "truth": "n", "": ""}
    found = {row[-1]: [kinds.get(reading_of(row[-1]), "x"), set()] for row in expected}
    for row in expected:
        found[row[-1]][1].add(kinds.get(reading_of(row[0]), "x"))
    others = [it for it in ORDERS if found[it[0]] != [it[1], {it[4]}]]
    assert [(it, found[it[0]]) for it in others] == [], "each order's name and numbers as the documents say"


def test_random_texts(place):
    """Random texts, of which a third are built of numbers, months and what stands between."""
    chance = random.Random(88)
    parts = [*WORDS, *map(str, range(0, 40)), "2026", "007", "99999", "-", "-", "-", ".", ""]
    texts = {"".join(chance.choices(parts, k=chance.randint(1, 5))) for _ in range(OTHERS // 3)}
    texts |= {"".join(chance.choices("0123456789Ee.-", k=chance.randint(1, 9))) for _ in range(OTHERS // 3)}
    texts |= {"".join(chance.choices(NAMES, k=chance.randint(1, 5))) for _ in range(OTHERS // 3)}
    rows = [["text"], *([it] for it in sorted(texts) if 0 < len(it) <= 32)]
    (place.folder / "texts.csv").write_text("".join(f"{it}\n" for (it,) in rows), encoding="ascii")
    expect_warned(rows, changed_in(place.folder, "texts.csv", rows))
