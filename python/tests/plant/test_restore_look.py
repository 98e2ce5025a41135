"""What is in no journal, and what the lost store has otherwise."""

import shutil
import sqlite3
from contextlib import closing

import pytest
from wanekupo.plant.restore.lost_store import lost_contradictions, gaps_of, last_numbers, number_gaps, seats_out_of_step
from wanekupo.plant.restore.plan import CustomerPlan, JournalRequest, SeatJournal, asked_of

GAPS = (
    ([5, 6, 7], 4, ""),
    ([6], 4, "5"),
    ([8, 5, 12, 9], 4, "6 to 7, 10 to 11"),
    ([1, 2], 4, ""),
    ([], 4, ""),
    (range(2, 90, 2), 0, ", ".join(map(str, range(1, 40, 2))) + ", and in 24 more places"),  # it fills no screen
    ([2**53 - 1], 0, f"1 to {2**53 - 2}"),  # a number that no seat comes to costs no time
)


@pytest.mark.parametrize("numbers, last, expected", GAPS)
def test_gaps(numbers, last, expected):
    assert gaps_of(numbers, last) == expected


def requests(**seats):
    """Of each seat its numbers; those below zero have no reply."""
    return {seat: {abs(it): [JournalRequest(f"line {abs(it)}", f"d{abs(it)}", it > 0)] for it in numbers}
            for seat, numbers in seats.items()}  # fmt: skip


def customer(name="acme", seats=("a1", "restore-acme"), can_order=True, seat=""):
    return CustomerPlan(name, dict.fromkeys(seats, ""), can_order, seat=seat)


# The customer, what journals have, the backup's last numbers, seats of which nothing more is to be known; what is told.
NUMBERS = (
    ("all there", customer(), requests(a1=[1, 2, 3]), {"a1": 2}, "", []),
    ("no journal", customer(), {}, {"a1": 2}, "", ["the seat a1 of acme has no journal here"]),
    ("no journals, in their order", customer(seats=("b1", "a9", "c1", "a1")), {}, {}, "c1",
     [f"the seat {it} of acme has no journal here" for it in ("a1", "a9", "b1")]),
    ("no journal, and a word", customer(), {}, {"a1": 2}, "a1", []),
    ("who can order nothing", customer(can_order=False), {}, {"a1": 2}, "", []),
    ("the one that asks, new", customer(seats=["a1"], seat="a1"), {}, {}, "", []),
    ("the one that asks", customer(seats=["a1"], seat="a1"), {}, {"a1": 1}, "",
     ["the seat a1 of acme has no journal here"]),
    ("a gap", customer(), requests(a1=[3, 6]), {"a1": 2}, "", ["the numbers 4 to 5 of a1 are in no journal"]),
    ("too short", customer(), requests(a1=[1]), {"a1": 2}, "",
     ["the journal of a1 ends with number 1, and the backup has 2 of it"]),
)  # fmt: skip


@pytest.mark.parametrize("name, one, found, before, without, told", NUMBERS, ids=[it[0] for it in NUMBERS])
def test_what_is_not_known_of_seats(name, one, found, before, without, told):
    assert number_gaps([one], found, before, set(without.split(","))) == told


def test_which_stations_stop_by_themselves():
    found = requests(a1=[1, 2, 3], a2=[1, 2, 3], a3=[1, 2, 3], a4=[], a5=[])
    assert seats_out_of_step(found, {"a1": 1, "a2": 2, "a3": 3, "a5": 1}) == (["a1", "a5"], ["a2", "a3", "a4"])


def test_the_last_numbers_of_a_backup():
    assert last_numbers(["orders 3", "devices 0", "seat a1 17", "seat b-1 0"]) == {"a1": 17, "b-1": 0}


# The lost store, by sqlite3's own hand: the tables that are asked, as docs/reference/files.md has them.


@pytest.fixture
def lost(tmp_path):
    if not shutil.which("sqlite3"):
        pytest.skip("there is no sqlite3")
    path = tmp_path / "books.db"
    with closing(sqlite3.connect(path)) as base:
        base.executescript("""
            CREATE TABLE seat (name, customer, last, digest);
            CREATE TABLE orders (customer, name, issuer, prefix, width, first, quantity, macs, mac);
            CREATE TABLE order_start (customer, ord, not_before);
            CREATE TABLE given (issuer, serial, customer, key);
            INSERT INTO seat VALUES ('a1', 'acme', 3, X'D3'), ('restore-acme', 'acme', 5, X'EE');
            INSERT INTO orders VALUES ('acme', 'o1', 'acme-ca', 'A', 3, 1, 9, 0, NULL);
            INSERT INTO order_start VALUES ('acme', 'o1', NULL);
            INSERT INTO given VALUES ('acme-ca', 'A001', 'acme', X'0000');
        """)
    return path


RESTORED = {"restore-acme": 1}  # a seat for restores went on since the backup
LOST = (
    ("as it is", requests(a1=[1, 2, 3]), {}, []),
    ("one more that has no reply", requests(a1=[3, -4]), {}, []),
    ("the end is missing", requests(a1=[1]), {}, []),
    ("another request", {"a1": {3: [JournalRequest("line 9", "00", True)]}}, {},
     ["line 9 has number 3 of a1, which is another request in the lost store"]),
    ("one of two with that number",
     {"a1": {3: [JournalRequest("line 8", "00"), JournalRequest("line 9", "d3", True)]}}, {}, []),
    ("one by a person's hand", {"a1": {3: [JournalRequest("line 9", "", True)]}}, {}, []),
    ("one more that was done", requests(a1=[3, 4]), {}, ["line 4 has number 4 of a1, and the lost store's last is 3"]),
    ("two more without a reply", requests(a1=[3, -4, -6, -5]), {},
     ["line 5 has number 5 of a1, and the lost store's last is 3"]),
    ("a seat that asked for nothing", requests(a9=[1]), {},
     ["line 1 has number 1 of a9, and the lost store's last is 0"]),
    ("seats in their order", requests(**{it: [9] for it in ("restore-acme", "a9", "a1")}), {},
     [f"line 9 has number 9 of {it}, and the lost store's last is {last}"
      for it, last in (("a1", 3), ("a9", 0), ("restore-acme", 5))]),
    ("a store that was restored since", requests(a1=[3, 4, 5]), RESTORED, []),
    ("another request in such a one", {"a1": {3: [JournalRequest("line 9", "00", True)]}}, RESTORED,
     ["line 9 has number 3 of a1, which is another request in the lost store"]),
)  # fmt: skip


@pytest.mark.parametrize("name, found, before, told", LOST, ids=[it[0] for it in LOST])
def test_what_the_lost_store_says_of_numbers(name, found, before, told, lost):
    before = before or {"restore-acme": 5}
    one = customer(seats=("a1", "a9", "restore-acme"))
    assert list(lost_contradictions([one], found, lost, before)) == [("acme", it) for it in told]


def line(path, number, members, reply=None):
    found = [("f", 2 * number - 1, {"at": "2026-11-29T00:00:00Z", "path": path, "asked": {**members, "nr": number}})]
    if reply is not None:
        found.append(("f", 2 * number, {"at": "2026-11-29T00:00:00Z", "nr": number, "status": 200, "reply": reply}))
    return found


def identity(serial, key):
    reply = {"issuer": "acme-ca", "serial": serial, "key_sha256": key, "chip": "24", "mac": None}
    return line("/v1/identity", 1, {"chip": "24"}, reply)


ROWS = (
    ("an order that is there", line("/v1/order", 1, {"name": "o1"}, {"name": "o1"}), []),
    ("an order that is not", line("/v1/order", 1, {"name": "o2"}, {"name": "o2"}),
     ["line 2 of f has the order o2 of acme, and the lost store hasn't it"]),
    ("an order without a reply", line("/v1/order", 1, {"name": "o2"}), []),
    ("a number that is there", identity("A001", "0000"), []),
    ("a number with another key", identity("A001", "0001"),
     ["line 2 of f has the serial number A001 of acme-ca, and the lost store has another key with it"]),
    ("a number that is not there", identity("A002", "0000"),
     ["line 2 of f has the serial number A002 of acme-ca, and the lost store hasn't it"]),
    ("an import without a reply", line("/v1/import", 1, {"issuer": "acme-ca", "csv": "serial,key_sha256\nA9,00\n"}),
     []),
)  # fmt: skip


@pytest.mark.parametrize("name, lines, told", ROWS, ids=[it[0] for it in ROWS])
def test_what_the_lost_store_says_of_orders_and_numbers(name, lines, told, lost):
    one = customer()
    one.journals = [SeatJournal("a1", lines)]
    one.asked = asked_of(one)
    assert list(lost_contradictions([one], {}, lost, {})) == [("acme", it) for it in told]


def test_a_lost_store_without_these_tables_says_nothing(tmp_path):
    path = tmp_path / "books.db"
    with closing(sqlite3.connect(path)) as base:
        base.execute("CREATE TABLE other (a)")
    one = customer()
    one.journals = [SeatJournal("a1", line("/v1/order", 1, {"name": "o2"}, {"name": "o2"}))]
    one.asked = asked_of(one)
    assert list(lost_contradictions([one], requests(a1=[9]), path, {})) == []
