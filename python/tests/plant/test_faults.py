"""A fault's number, line, member and cause; what may be printed of a value; which texts are TOML to the program."""

import pytest
from wanekupo.plant.site.faults import LARGEST_WHOLE, Fault, Reader, doubles, of_toml, read, shown, walked
from wanekupo.plant.site.positions import places_of


@pytest.mark.parametrize("value, text", [
    ("acme", '"acme"'),
    ("a\x1b[2Jb", '"a\\x1b[2Jb"'),
    ("a\nb", '"a\\x0ab"'),
    ("x" * 80, '"' + "x" * 80 + '"'),
    ("x" * 81, '"' + "x" * 77 + '.." (of 81 letters)'),
    (True, "true"), (False, "false"), (17, "17"), (1.5, "1.5"),
    ([1], "an array"), ({"a": 1}, "a table"),
    (10**100, "1" + "0" * 79),
])  # fmt: skip
def test_shown(value, text):
    assert shown(value) == text


def reader_of(text):
    found = read(text)
    assert isinstance(found, Reader), found
    return found


@pytest.mark.parametrize("text, kind, is_needed, value, faults", [
    ("a = 'x'", str, True, "x", []),
    ("b = 1", str, False, None, []),
    ("b = 1", str, True, None, [(2, 1, "a")]),
    ("a = 1", str, True, None, [(2, 1, "a")]),
    ("a = 1", str, False, None, [(2, 1, "a")]),
    ("a = true", int, True, None, [(2, 1, "a")]),
    ("a = 1.0", int, True, None, [(2, 1, "a")]),
    ("a = 0", int, True, 0, []),
    ("a = 1", bool, False, None, [(2, 1, "a")]),
    ("\na = {}", list, True, None, [(2, 2, "a")]),
])  # fmt: skip
def test_member(text, kind, is_needed, value, faults):
    reader = reader_of(text)
    assert reader.member(reader.document, ("a",), kind, is_needed) == value
    assert [(it.number, it.line, it.member) for it in reader.faults] == faults


def test_member_of_what_is_no_table():
    reader = reader_of("a = [1]")
    assert reader.member(1, ("a", 0, "name"), str) is None
    assert [(it.number, it.line, it.member) for it in reader.faults] == [(2, 1, "a")]


@pytest.mark.parametrize("name, is_one", [
    ("a", True), ("A-z0.9_", True), ("x" * 32, True), ("x" * 33, False), ("", False), ("a b", False), ("a/b", False),
    ("a\n", False), ("\na", False), ("é", False), ("@a", False),
])  # fmt: skip
def test_names(name, is_one):
    """A name is 1 to 32 of A-Z a-z 0-9 . _ -"""
    reader = Reader({"name": name}, places_of("name = 1"))
    assert reader.name(reader.document, ("name",)) == (name if is_one else None)
    assert [it.number for it in reader.faults] == ([] if is_one else [2])


@pytest.mark.parametrize("value, found", [(0, None), (1, 1), (5, 5), (6, None), (-1, None)])
def test_whole(value, found):
    reader = Reader({"n": value}, places_of("\nn = 1"))
    assert reader.whole(reader.document, ("n",), 1, 5) == found
    assert [(it.number, it.line, it.member) for it in reader.faults] == ([] if found else [(2, 2, "n")])


def test_the_lowest_fault_is_the_first():
    reader = reader_of("a = 1\nb = 2\nc = 3")
    for number, name in ((5, "a"), (2, "c"), (2, "b"), (3, "a")):
        reader.tell(number, (name,), "x")
    assert [(it.number, it.line) for it in reader.lowest()] == [(2, 2), (2, 3), (3, 1), (5, 1)]


def test_member_of_a_fault_is_named_without_places():
    reader = reader_of("[[c]]\n[[c.s]]\nn = 1\n")
    reader.tell(2, ("c", 0, "s", 0, "n"), "x")
    reader.tell(2, (), "y")
    assert reader.faults == [Fault(2, 3, "c.s.n", "x"), Fault(2, 1, "the text", "y")]


@pytest.mark.parametrize("text, line", [
    ("a = ", 1), ("a = 1\n[", 2), ("a = 1\na = 2\n", 2), ("a = 1\n\nb = \n", 3), ("a = 1 b = 2", 1),
    ("a = [\n1\n", 2), ("\n\n[a\n", 3), ("a = 1\n[a]\n", 2), ("a = {b = 1,\n c = 2}", 1),
    ("[[a]]\n[a]\n", 2), ('a = "x\n', 1), ("a = 01\n", 1),
    ("n = 9223372036854775808", 1), ("x = 1\nn = -9223372036854775809", 2),
    ("x = 1\n\nn = [1, 99999999999999999999]", 3),
    ("x = inf\nn = 1e400", 2), ("n = -1e999\n", 1), ("n = " + "1" * 5000, 1), ("x = 1\na = " + "[" * 81 + "]" * 81, 2),
    ("a = " + "[" * 3000 + "]" * 3000, 1),
])  # fmt: skip
def test_no_toml(text, line):
    """Fault 1, with its line. Whole numbers have 64 bits, and a number that is too large is none."""
    found = read(text)
    assert isinstance(found, Fault) and (found.number, found.line) == (1, line)


@pytest.mark.parametrize("text", [
    "", "a = 1", "\ufeffa = 1", "n = 9223372036854775807", "n = -9223372036854775808", "n = inf", "n = -inf",
    "n = +inf",
    "n = nan", "n = 1e300", "a = " + "[" * 80 + "]" * 80, "a = 1\r\n",
])  # fmt: skip
def test_toml(text):
    assert isinstance(read(text), Reader)


def test_a_mark_of_the_order_of_bytes_moves_no_place():
    assert reader_of("\ufeff\na = 1").line(("a",)) == 2


def test_largest_whole():
    assert LARGEST_WHOLE == 9223372036854775807


@pytest.mark.parametrize("text, told, line, parts", [
    ("x\ny\n", "Bad Thing (at line 2, column 7)", 2, ["column 7", "bad Thing"]),
    ("x\ny\n", "Bad thing (at end of document)", 2, ["bad thing"]),
    ("x\ny", "Bad thing (at end of document)", 2, ["bad thing"]),
    ("", "Odd", 1, ["odd"]),
])  # fmt: skip
def test_of_toml(text, told, line, parts):
    found = of_toml(text, told)
    assert (found.number, found.line) == (1, line) and all(part in found.cause for part in parts)
    assert "(at" not in found.cause


def test_walked():
    assert list(walked({"a": [1, {"b": 2}], "c": "x"}, ())) == [(("a", 0), 1), (("a", 1, "b"), 2), (("c",), "x")]


def test_doubles():
    """Each that was there before, with its path and that of the very first."""
    items = [("a", (1,)), ("b", (2,)), ("a", (3,)), ("a", (4,)), ("c", (5,)), ("b", (6,))]
    assert list(doubles(items)) == [("a", (3,), (1,)), ("a", (4,), (1,)), ("b", (6,), (2,))]
