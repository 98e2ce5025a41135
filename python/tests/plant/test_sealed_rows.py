"""Rows of a seal in which something came twice, or is of another name or order: `seal --verify` says so of the rows
alone, also where all of them came since the seal before. Numbers and addresses are reckoned by hand."""

import json

import pytest

from wanekupo.books.coherence import faults_of
from wanekupo.books.compare import Text, contradictions, differences
from wanekupo.books.lines import device_line, entry_line, line, order_line, record_line

ORDER = {"issuer": "acme-ca", "prefix": "G", "width": 3, "first": 9, "quantity": 4, "macs": 2, "mac": "0200000000f0"}
NOTHING = {"bits": [], "keys": {}}
STEPS = (("registered", ""), ("planned", ""), ("identified", "{serial}"), ("shipped", ""))
KEYS = {name: f"{name}{63 * '0'}" for name in "abc"}


def order(name="o1", **more):
    return order_line("acme", {"name": name, **ORDER, "next": None, **more})


def life(chip, serial, mac, key, **more):
    """A chip that was shipped, with its record, in which something else may stand."""
    record = {"chip": chip, "issuer": "acme-ca", "serial": serial, "mac": mac, "key_sha256": KEYS[key], **more}
    device = {"chip": chip, "map": 64 * "5", "order": "o1", "reason": None, "serial": serial, "state": "shipped"}
    yield device_line("acme", {**device, **NOTHING, "pending": {"batch1": NOTHING, "batch2": NOTHING}})
    for number, (event, note) in enumerate(STEPS, 1):
        row = {"n": number, "event": event, "note": note.format(serial=serial), "seat": "a1", **NOTHING}
        yield entry_line("acme", chip, row)
    yield record_line("acme", {"not_after": "99991231235959Z", **record})


def imported(serial, key):
    members = {"issuer": "acme-ca", "serial": serial, "key_sha256": KEYS[key], "not_before": None}
    return line("import", ("acme", "acme-ca", serial), {**members, "not_after": "99991231235959Z"})


def renamed(row, name, value):
    """A row in which a member says something else than its key."""
    head, brace, members = row.partition("{")
    return head + json.dumps({**json.loads(brace + members), name: value}, sort_keys=True, separators=(",", ":"))


ONE, TWO = list(life("c1", "G009", "0200000000f0", "a")), list(life("c2", "G012", "0200000000f6", "b"))
FOUND = {
    "a key twice": (life("c2", "G012", "0200000000f6", "a"), "key_sha256 a000"),
    "an imported key": ([*TWO, imported("OLD", "a")], "is also that of the record of G009"),
    "an imported number": ([*TWO, imported("G009", "c")], "serial G009 is also that of"),
    "another's address": (life("c2", "G012", "0200000000f0", "b"), "mac 0200000000f0 is also that of"),
    "the second address of another": (life("c2", "G012", "0200000000f1", "b"), "its address 0200000000f1 isn't"),
    "no address": (life("c2", "G012", None, "b"), "its address none isn't that of its serial number G012"),
    "a number behind the order's last one": (life("c2", "G013", "0200000000f8", "b"), "is none of its order o1"),
    "a number in front of its first one": (life("c2", "G008", "0200000000ee", "b"), "is none of its order o1"),
    "a number of another width": (life("c2", "G0012", "0200000000f6", "b"), "is none of its order o1"),
    "another issuer": (life("c2", "G012", "0200000000f6", "b", issuer="bolt-ca"), "G012 of bolt-ca is none of"),
    "no order": ([renamed(TWO[0], "order", "o2"), *TWO[1:]], "its order o2 isn't there"),
    "addresses of another order": ([*TWO, order("o3", prefix="H", mac="0200000000f7")], "is also an address of the"),
    "another number than the key": ([*TWO[:-1], renamed(TWO[-1], "serial", "G009")], "of another name than its"),
    "another chip than the key": ([renamed(TWO[0], "chip", "c1"), *TWO[1:]], "of another name than its members"),
    "another entry than the key": ([*TWO[:-2], renamed(TWO[-2], "n", 9), TWO[-1]], "of another name than its members"),
    "another order than the key": ([*TWO, renamed(order("o3", mac=None), "name", "o1")], "of another name than"),
    "an address that is none": ([*TWO, renamed(order("o3"), "mac", "x")], "is no row of books"),
    "a prefix that is none": ([*TWO, renamed(order("o3"), "prefix", None)], "is no row of books"),
    "a width that is none": ([*TWO, renamed(order("o3"), "width", 1 << 40)], "is no row of books"),
}


def said(rows):
    text = Text.of([order(), *ONE, *rows])
    return [*text.bad, *(it.sentence() for it in contradictions(text))]


def test_honest():
    assert said([*TWO, imported("OLD", "c"), order("o3", prefix="H", mac="0200000000f8")]) == []


@pytest.mark.parametrize("name", FOUND)
def test_found(name):
    rows, told = FOUND[name]
    assert any(told in it for it in said(rows)), name


def test_what_changed_since_the_seal_before():
    after = [order(quantity=5), ONE[0], renamed(ONE[1], "seat", "a2"), *ONE[2:]]
    told = [it.sentence() for it in differences(Text.of([order(), *ONE]), Text.of(after))]
    assert told == ["The entry 1 of c1 of acme: seat was a1, and is a2.",
                    "The order o1 of acme: quantity was 4, and is 5."]  # fmt: skip


def test_a_ledger_is_read_by_its_numbers_and_told_in_order():
    keys, bits = {"c": "3", "a": "1", "d": "4", "b": "2"}, [{"block": 2, "word": 5, "mask": "00000003"}]
    steps = (3, "read", "match", keys), (1, "registered", "", keys), (2, "planned", "", {})
    entries = [{"n": number, "event": it, "note": note, "bits": bits * bool(more), "keys": more}
               for number, it, note, more in steps]  # fmt: skip
    device = {"state": "settled", "reason": None, "serial": None, "bits": bits, "keys": {}}
    again = [f"its entry 3 adds a key of {it}, which was known" for it in "abcd"]
    otherwise = [f"the key of {it} is none, and by its ledger {keys[it]}" for it in "abcd"]
    burnt = "its entry 3 adds 00000003 in word 5 of block 2, which was burnt"
    assert list(faults_of(device, entries, [])) == [burnt, *again, *otherwise]
