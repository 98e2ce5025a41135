"""Where the members of a TOML text stand: the line of each, and where its value ends. Lines are counted by hand."""

import pytest
from wanekupo.plant.site.positions import DEEPEST, TooDeep, places_of

LINES = [
    ("a = 1", {("a",): 1}),
    ("\n\n# a comment with a = 1\n  a = 1\nb = 2\n", {("a",): 4, ("b",): 5}),
    ("\r\na = 1\r\nb = 2\r\n", {("a",): 2, ("b",): 3}),
    ("# [x]\n[t]\n\na = 1 # b = 2\nc = 3\n", {("t",): 2, ("t", "a"): 4, ("t", "c"): 5}),
    ("a.b.c = 1\na.d = 2\n", {("a",): 1, ("a", "b"): 1, ("a", "b", "c"): 1, ("a", "d"): 2}),
    ("[t.u]\na = 1\n", {("t", "u"): 1, ("t", "u", "a"): 2}),
    ("[[t]]\na = 1\n\n[[t]]\na = 2\n",
     {("t",): 1, ("t", 0): 1, ("t", 0, "a"): 2, ("t", 1): 4, ("t", 1, "a"): 5}),
    ("[[t]]\n[[t.u]]\na = 1\n[[t.u]]\na = 2\n[[t]]\n[[t.u]]\na = 3\n",
     {("t", 0, "u"): 2, ("t", 0, "u", 0, "a"): 3, ("t", 0, "u", 1): 4, ("t", 0, "u", 1, "a"): 5, ("t", 1): 6,
      ("t", 1, "u", 0): 7, ("t", 1, "u", 0, "a"): 8}),
    ("[[t]]\n[t.v]\na = 1\n[[t]]\n[t.v]\na = 2\n", {("t", 0, "v", "a"): 3, ("t", 1, "v"): 5, ("t", 1, "v", "a"): 6}),
    ("a = [\n  1, # one\n  2,\n]\nb = 3\n", {("a",): 1, ("a", 0): 2, ("a", 1): 3, ("b",): 5}),
    ("a = [[1,\n2],\n[3]]\nb = 1\n", {("a", 0, 0): 1, ("a", 0, 1): 2, ("a", 1, 0): 3, ("b",): 4}),
    ("a = [{x = 1},\n {y = 2, z = 3}]\nb = 1\n", {("a", 0, "x"): 1, ("a", 1, "y"): 2, ("a", 1, "z"): 2, ("b",): 3}),
    ("a = {b = {c = 1}, d = [1]}\ne = 1", {("a", "b", "c"): 1, ("a", "d", 0): 1, ("e",): 2}),
    ('"a.b" = 1\n\'c d\' = 2\n"\\u0065" = 3\n"" = 4\n', {("a.b",): 1, ("c d",): 2, ("e",): 3, ("",): 4}),
    ('a = "x # ]} = \\" y"\nb = 1\n', {("a",): 1, ("b",): 2}),
    ("a = 'x \" # \\'\nb = 1\n", {("a",): 1, ("b",): 2}),
    ('a = """\n[x]\nb = 1\n"""\nc = 1\n', {("a",): 1, ("c",): 5}),
    ('a = """x\\""""\nb = 1\n', {("a",): 1, ("b",): 2}),
    ('a = """two: """""\nb = 1\n', {("a",): 1, ("b",): 2}),
    ("a = '''\n'one' ''two''\n''''\nb = 1\n", {("a",): 1, ("b",): 4}),
    ("a = 1979-05-27 07:32:00\nb = inf\nc = 0x_f\n".replace("x_", "x"), {("a",): 1, ("b",): 2, ("c",): 3}),
    ("[ t . u ] # c\na = 1\n[[ v ]]\na=1", {("t", "u"): 1, ("t", "u", "a"): 2, ("v", 0): 3, ("v", 0, "a"): 4}),
]  # fmt: skip


@pytest.mark.parametrize("text, lines", LINES)
def test_lines(text, lines):
    found = places_of(text)
    assert {path: found.lines.get(path) for path in lines} == lines


def test_no_other_members():
    """Nothing of a comment or of a string is a member."""
    found = places_of("# z = 1\na = \"\"\"\nb = 1\n\"\"\"\n'c' = '# d = 1'\n")
    assert set(found.lines) == {("a",), ("c",)}


VALUES = [
    ("a = 1 # x\n", ("a",), "a = 1"),
    ("a = [1, 2]\n", ("a", 0), "1"),
    ("a = [1, 2 ]\n", ("a", 1), "2"),
    ("a = [ 'x,]' , 2]\n", ("a", 0), "'x,]'"),
    ("a = [{ b = 1 }, { c = 2 }]\n", ("a", 1), "{ c = 2 }"),
    ("a = { b = 'x}' , c = 2 }\n", ("a", "b"), "b = 'x}' "),
    ("[t]\na = 'x'\n", ("t",), "[t]"),
    ("[[t]] # x\n", ("t", 0), "[[t]]"),
]


@pytest.mark.parametrize("text, path, part", VALUES)
def test_begins_and_ends(text, path, part):
    """The text between a member's begin and its end."""
    found = places_of(text)
    assert text[found.begins[path] : found.ends[path]].rstrip() == part.rstrip()


def test_headers_in_their_order():
    text = "[[c]]\nname = 1\n[[c.s]]\n[[c]]\n[m]\n"
    assert places_of(text).headers == [(("c", 0), 0), (("c", 0, "s", 0), 15), (("c", 1), 23), (("m",), 29)]


def test_what_is_missing_has_the_line_of_what_it_would_stand_in():
    found = places_of("\n[[c]]\n\n[[c]]\nname = 1\n")
    assert [found.line(path) for path in (("c", 1, "token"), ("c", 1, "seat", 3, "name"), ("c", 0, "x"), ("m", "x"))] \
        == [4, 4, 2, 1]


@pytest.mark.parametrize("form", ["a = {}{}", "a = {}1{}"])
@pytest.mark.parametrize("deep, is_taken", [(DEEPEST, True), (DEEPEST + 1, False)])
def test_depth_is_bounded(form, deep, is_taken):
    """The program reads 80 arrays within each other, and no 81st. What is closed again counts no more."""
    text = "b = [" + "[1], " * 100 + "]\n" + form.format("[" * deep, "]" * deep)
    if is_taken:
        assert places_of(text).lines[("a",)] == 2
    else:
        with pytest.raises(TooDeep, match="^line 2 is nested more than 80 times$"):
            places_of(text)


@pytest.mark.parametrize("parts, is_taken", [(80, True), (81, False)])
def test_parts_of_a_key_are_bounded(parts, is_taken):
    text = "x = 1\n" + ".".join("a" * parts) + " = 1\n"
    if is_taken:
        assert places_of(text).lines[("a",) * 80] == 2
    else:
        with pytest.raises(TooDeep, match="^line 2 is nested more than 80 times$"):
            places_of(text)
