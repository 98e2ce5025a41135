"""An audit that has the program answer the lines once more: it finds what the store and the lines say alike, and the
program doesn't, and accuses no honest plant."""

import hashlib
import json
import shutil

import pytest

from books.replay_plant import DIGEST, change_line, change_order, change_reply, change_store, morning, move_addresses
from books.replay_plant import write_lines
from books.seal_places import run
from books.seal_plant import WISHES, chip_of, shown
from wanekupo.seat.journal import request_digest

ALWAYS = ["--from", "2000-01-01", "--to", "2099-01-01"]
KEPT = '{"batch1":{"bits":[],"keys":{}},"batch2":{"bits":[],"keys":{}},"state":"settled"}'
GATE_41 = "customer = 'acme' AND name = 'gate-41'"
GHOST = f"INSERT INTO orders SELECT customer, 'ghost', issuer, 'Z', 5, 1, 9, 0, NULL, 1 FROM orders WHERE {GATE_41}"
OF_SEVEN = f"customer = 'acme' AND chip = '{chip_of(7)}'"
MORE_BITS = b"".join(int(word, 16).to_bytes(4, "little") for word in shown(chip_of(7), 197)[0]).hex()
OF_FOUR = f"customer = 'acme' AND chip = '{chip_of(4)}'"
FORGED = {
    "the kept reply of a plan": (
        change_store(f"UPDATE seat SET reply = '{KEPT}' WHERE name = 'a1'"),
        "the reply to its last request is",
    ),
    "the next number of an order": (
        change_reply("acme/a1.journal", "order", next="G00003"),
        "next is G00003 in the journal, and G00001 by the program",
    ),
    "the counts of an import": (
        change_reply("acme/a1.journal", "import", added=2, present=1),
        "added is 2 in the journal, and 3 by the program",
    ),
    "the digest of a map": (
        change_reply("bolt/b1.journal", "map", map=64 * "0"),
        f"map is {64 * '0'} in the journal, and ",
    ),
    "a reply without a member": (
        change_reply("bolt/b1.journal", "ship", state=None),
        "state is missing in the journal, and shipped by the program",
    ),
    "addresses of an order": (
        change_store(f"UPDATE orders SET mac = '0200f5500000' WHERE {GATE_41}"),
        "mac is 0200f5500000 in the store, and ",
    ),
    "addresses that were exchanged with all that follows": (
        move_addresses,
        "in the journal, and 0200",
    ),
    "an order that nobody made": (
        change_store(GHOST, "INSERT INTO order_start VALUES ('acme', 'ghost', NULL)"),
        "the store has the order of the name ghost, and the program has none",
    ),
    "why a chip is quarantined": (
        change_store(
            f"UPDATE ledger SET note = 'stray' WHERE {OF_FOUR} AND note = 'key'",
            f"UPDATE device SET reason = 'stray' WHERE {OF_FOUR}",
        ),
        "reason is stray in the store, and key by the program",
    ),
    "bits that a registration didn't show": (
        change_store(
            f"UPDATE device SET bits = X'{MORE_BITS}' WHERE {OF_SEVEN}",
            f"UPDATE ledger SET bits = X'{MORE_BITS}' WHERE {OF_SEVEN} AND n = 1",
        ),
        "its block 0 shows something else than its ledger comes to",
    ),
    "another wish, whose reply was lost": (
        change_line("acme/a1.journal", "plan", is_lost=True, wishes=WISHES[:1]),
        "outcome is match in the journal, and key by the program",
    ),
    "a wish for no field": (
        change_line("acme/a1.journal", "plan", wishes=[{**WISHES[0], "field": "NONE"}]),
        "the program refuses it as 19 unknown_field",
    ),
    "an order without a name": (
        change_line("acme/a1.journal", "order", name=None),
        "the program refuses it as 10 bad_member",
    ),
    "a prefix that none has": (change_order(prefix="g"), "the program refuses it as 30 bad_serial"),
    "a number with more digits": (change_order(first=99_999), "the program refuses it as 31 number_too_wide"),
    "a quantity that none has": (change_order(quantity=10_001), "the program refuses it as 40 limit"),
    "an order without a place": (change_order(quantity=1), "the program refuses it as 18 quantity_reached"),
    "numbers of another order": (change_order(prefix="K"), "the program refuses it as 34 range_overlap"),
    "a scrap that is gone": (
        change_store(
            f"DELETE FROM ledger WHERE chip = '{chip_of(3)}' AND event = 'scrapped'",
            f"UPDATE device SET state = 'quarantined' WHERE chip = '{chip_of(3)}'",
        ),
        "the entry 1, registered, isn't of the next step of a1, which is line 31 of ",
    ),
}


@pytest.fixture(scope="module")
def made(program, tmp_path_factory):
    folder = tmp_path_factory.mktemp("replayed")
    morning(program, folder)
    return folder


@pytest.fixture
def folder(made, tmp_path):
    return shutil.copytree(made, tmp_path / "copy")


def audited(folder, program):
    words = [folder / "books.db", folder / "acme", folder / "bolt", *ALWAYS, "--csv", folder / "found.csv"]
    status, text = run("audit", *words, "--program", program)
    rows = [it for it in (folder / "found.csv").read_text().splitlines() if it.startswith("replay,")]
    return status, text, rows


def test_an_honest_plant(folder, program):
    status, text, _ = audited(folder, program)
    requests = sum("path" in json.loads(it) for file in folder.glob("*/*.journal") for it in file.open())
    assert status == 0, text
    assert f"The program answered {requests} lines of acme, bolt once more." in text


@pytest.mark.parametrize("name", FORGED)
def test_forged(folder, program, name):
    change, told = FORGED[name]
    change(folder)
    status, text, rows = audited(folder, program)
    assert status == 1, text
    assert any(told in it for it in rows), text


def test_journals_that_begin_later(folder, program):
    file = folder / "bolt/b1.journal"
    write_lines(file, [json.loads(it) for it in file.read_text().splitlines()[2:]])
    status, text, rows = audited(folder, program)
    assert (status, rows, "Nothing found" in text) == (3, [], False), text
    told = "The audit could not be finished: bolt isn't replayed whole, as these journals lack the number 1 of b1"
    assert f"{told}; the store alone has the map {DIGEST}." in text, text
    assert "lines of acme, bolt once more." in text, text


def accepted(folder):
    """Each accepted request of the plant: its file, its number, and what its page names without it. The import of a2
    changed nothing."""
    for file in sorted(folder.glob("*/*.journal")):
        for line in (it for it in map(json.loads, file.read_text().splitlines()) if "asked" in it):
            chip, is_idle = line["asked"].get("chip"), (file.stem, line["path"]) == ("a2", "/v1/import")
            told = f"; its chips {chip} weren't asked for." if chip else "." if is_idle else "; the store alone has "
            yield file, line["asked"]["nr"], told


def without(file, number):
    lines = [json.loads(it) for it in file.read_text().splitlines()]
    first = next(place for place, it in enumerate(lines) if it.get("asked", {}).get("nr") == number)
    write_lines(file, lines[:first] + lines[first + 2 :])


def test_each_line_that_may_be_gone(folder, program, tmp_path):
    """Without any one line, with its reply, the program answers all but what rests on it, and nobody is accused. What
    isn't asked is named: the number, and the chip or the paper."""
    for file, number, told in accepted(folder):
        other = shutil.copytree(folder, tmp_path / f"{file.stem}-{number}")
        without(other / file.relative_to(folder), number)
        status, text, rows = audited(other, program)
        assert (rows, "Nothing found" in text, status > 0) == ([], False, True), (number, text)
        assert f"isn't replayed whole, as these journals lack the number {number} of {file.stem}{told}" in text, text


@pytest.mark.parametrize("name", ["a wish for no field", "why a chip is quarantined", "the kept reply of a plan"])
def test_forged_beside_a_line_that_is_gone(folder, program, name):
    """One lost line of another chip, or an order's, hides no forgery."""
    change, told = FORGED[name]
    change(folder)
    without(folder / "acme/a2.journal", 1)
    status, text, rows = audited(folder, program)
    named = ("lack the number 1 of a2;", "; the store alone has the order gate-41.")
    assert (status, [it for it in named if it not in text]) == (1, []), text
    assert any(told in it for it in rows), text


def test_an_order_that_no_lost_line_can_be(folder, program):
    """A chip's line is gone, so no order's is."""
    change_store(GHOST, "INSERT INTO order_start VALUES ('acme', 'ghost', NULL)")(folder)
    without(folder / "acme/a2.journal", 2)
    status, text, rows = audited(folder, program)
    assert (status, "no line asked for the order ghost, which the store has" in "".join(rows)) == (1, True), text


def test_a_forgery_behind_a_line_that_is_refused(folder, program):
    """The program is asked on behind what it refuses."""
    for name in ("a wish for no field", "why a chip is quarantined"):
        FORGED[name][0](folder)
    status, text, rows = audited(folder, program)
    told = [FORGED[name][1] for name in ("a wish for no field", "why a chip is quarantined")]
    assert (status, [any(words in it for it in rows) for words in told]) == (1, [True, True]), text


def test_an_older_file_turns_nothing_off(folder, program):
    """One accepted line of before the period makes the store an older one there. The program answers the others."""
    asked, own = {"nr": 1, "text": "x"}, {"seat": "a1", "at": "2020-01-01T06:00:00Z"}
    line = {**own, "path": "/v1/map", "asked": asked, "digest": request_digest("/v1/map", asked)}
    reply = {**own, "nr": 1, "status": 200, "reply": {"map": hashlib.sha256(b"x").hexdigest()}}
    write_lines(folder / "acme/a1-2020-01-01.journal", [line, reply])
    words = [folder / "books.db", folder / "acme", folder / "bolt", "--from", "2026-01-01", "--to", "2099-01-01"]
    status, text = run("audit", *words, "--program", program)
    assert (status, "isn't replayed" in text, "lines of acme, bolt once more." in text) == (0, False, True), text


def test_no_program(folder):
    status, text, *_ = run("audit", folder / "books.db", folder / "acme", *ALWAYS, "--program", folder / "none")
    assert (status, "There is no program" in text) == (2, True), text


def test_another_program(folder):
    """What it finds without one is told, and is nothing here."""
    words = [folder / "books.db", folder / "acme", folder / "bolt", *ALWAYS]
    status, text = run("audit", *words, "--program", "/bin/false")
    told = "The audit could not be finished: the program ended with status 1: it said nothing."
    assert (status, told in text, "Nothing found" in text) == (3, True, False), text
