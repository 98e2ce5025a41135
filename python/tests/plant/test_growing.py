"""Where more stands in the text of a site: what tomllib reads of the new text is the wanted site, all else stays."""

import os
import tomllib

import pytest
from wanekupo.plant.site.growth import customer_lines, taken, tables_of, value_of, with_customer, with_items
from wanekupo.common.site_file import SiteFileError
from wanekupo.common.token_file import TokenError

SEAT, POOL = {"name": "a2", "token": "02"}, {"first": "020000000030", "count": 4}
COG = {"name": "cog", "issuer": ["c", "d"], "pool": [POOL], "seat": [SEAT]}
SECTIONS = """# my site
[[customer]]
name = "acme" # the first
issuer = ["acme-ca"]
[[customer.seat]]
name = "a1"
token = "01"

# the second
[[customer]]
name = "bolt"
issuer = []
[manager]
token = "03"
"""
INLINE = """manager = { token = "03" }
customer = [
  { name = "acme", issuer = ["acme-ca"], seat = [{ name = "a1", token = "01" }] }, # the first
  { name = "bolt", issuer = [] }
]
"""


def kept(old, new):
    """Whether the new text is the old one with one run of letters more."""
    front = len(os.path.commonprefix([old, new]))
    return front + len(os.path.commonprefix([old[:front - 1:-1] if front else old[::-1], new[::-1]])) >= len(old)


@pytest.mark.parametrize("item, text", [
    ("x", '"x"'), (4, "4"), (["a", "b"], '["a", "b"]'), ([], "[]"),
    ({"first": "02", "count": 4}, '{ first = "02", count = 4 }'),
])  # fmt: skip
def test_value_of(item, text):
    assert value_of(item) == text and tomllib.loads(f"v = {text}")["v"] == item


def test_lines_of_tables():
    assert tables_of("customer.seat", [SEAT, {"name": "a3"}]) == (
        '[[customer.seat]]\nname = "a2"\ntoken = "02"\n[[customer.seat]]\nname = "a3"\n'
    )
    assert tomllib.loads(customer_lines(COG)) == {"customer": [COG]}
    assert tomllib.loads(customer_lines({"name": "x", "issuer": []})) == {"customer": [{"name": "x", "issuer": []}]}


@pytest.mark.parametrize("text", [
    SECTIONS, SECTIONS.rstrip("\n"), INLINE, "customer = []\n", "customer = []",
    "# x\ncustomer = [] # none yet\nmore = 1\n",
    "customer = [ ]\n[manager]\ntoken = '03'\n", "\ufeff" + SECTIONS, SECTIONS.replace("\n", "\r\n"),
    "manager.token = '03'\ncustomer = [{ name = 'a', issuer = [] }]", INLINE.replace("\n]", ",\n]"),
])  # fmt: skip
def test_a_customer_more(text):
    before = tomllib.loads(text.removeprefix("\ufeff"))
    new = with_customer(text, COG, "t")
    assert tomllib.loads(new.removeprefix("\ufeff")) == {**before, "customer": [*before["customer"], COG]}
    assert new.startswith("\ufeff") == text.startswith("\ufeff")
    assert kept(text, new) if before["customer"] else "[[customer]]\nname" in new, "no header can add to `[]`"


@pytest.mark.parametrize("name, kind, items", [
    ("acme", "issuer", ["acme-2"]), ("bolt", "issuer", ["b2", "b3"]), ("acme", "seat", [SEAT]),
    ("bolt", "seat", [SEAT]),
    ("acme", "pool", [POOL, {"first": "020000000040", "count": 1}]), ("bolt", "pool", [POOL]),
])  # fmt: skip
@pytest.mark.parametrize("text", [
    SECTIONS, INLINE.replace("[] }", "[], seat = [], pool = [] }").replace("issuer = [\"a", "pool = [], issuer = [\"a"),
    SECTIONS.replace("\n", "\r\n"), "\ufeff" + SECTIONS, "\ufeff" + SECTIONS.replace("issuer = []", "issuer = ['x']"),
    SECTIONS[: SECTIONS.index("[manager]")].rstrip("\n"), SECTIONS.replace('"acme-ca"]', '"acme-ca", # one\n]'),
    SECTIONS.replace("issuer = []", "issuer = [ ]\npool = []\nseat = []"),
    SECTIONS + '[[customer]]\nname = "acme2"\nissuer = []\n',
])  # fmt: skip
def test_items_more(text, name, kind, items):
    """The items stand behind those of their kind that were there, of that customer alone."""
    before = tomllib.loads(text.removeprefix("\ufeff"))
    wanted = tomllib.loads(text.removeprefix("\ufeff"))
    (customer,) = [it for it in wanted["customer"] if it["name"] == name]
    customer[kind] = [*customer.get(kind, []), *items]
    new = with_items(text, name, kind, items, "t")
    assert tomllib.loads(new.removeprefix("\ufeff")) == wanted != before and kept(text, new)


def test_comments_and_the_order_of_lines_stay():
    assert with_items(SECTIONS, "acme", "seat", [SEAT], "t") == SECTIONS.replace(
        'token = "01"\n', 'token = "01"\n[[customer.seat]]\nname = "a2"\ntoken = "02"\n'
    )
    assert with_items(INLINE, "acme", "issuer", ["n"], "t") == INLINE.replace('"acme-ca"', '"acme-ca", "n"')
    assert with_customer(SECTIONS, COG, "t") == SECTIONS + "\n" + customer_lines(COG)


@pytest.mark.parametrize("call", [
    lambda: with_items(SECTIONS, "acm", "seat", [SEAT], "t"), lambda: with_items(SECTIONS, "x", "issuer", ["n"], "t"),
])  # fmt: skip
def test_no_such_customer(call):
    with pytest.raises(TokenError, match="^t has no customer (acm|x)$"):
        call()


def test_no_toml():
    for call in (lambda: with_customer("[", COG, "t.toml"), lambda: with_items("\n[", "a", "seat", [], "t.toml")):
        with pytest.raises(SiteFileError, match=r"^t\.toml is no site file that can be read as TOML 1\.0: "):
            call()


@pytest.mark.parametrize("text", [
    "customer.name = 'acme'\n", "[[customer]]\nname = 'acme'\nissuer = []\nseat = [{ name = 'a1', token = '01' },]\n",
])  # fmt: skip
def test_a_text_that_is_taken_is_the_wanted_one(text):
    wanted = {"customer": [1]}
    assert taken(["[", text, "customer = [1] # me", "customer = [1]"], wanted, "t", "LINES") == "customer = [1] # me"
    with pytest.raises(TokenError, match="^t: there is no place .* by hand:\nLINES$"):
        taken(["[", text], wanted, "t", "LINES")


def test_where_no_place_is_sure_the_lines_are_told():
    """A section can't add to a table within a line."""
    with pytest.raises(TokenError) as error:
        with_items(INLINE, "bolt", "seat", [SEAT], "site.toml")
    assert "site.toml" in str(error.value) and 'token = "02"' in str(error.value) and "of bolt:" in str(error.value)
