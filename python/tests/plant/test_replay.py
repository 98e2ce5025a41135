"""What an audit sends to the program once more: made-up keys, the words of a line's digests, and the order of lines."""

import hashlib
import json
import time
from types import SimpleNamespace

import pytest

from wanekupo.books.audit import Audit, Found
from wanekupo.books.bodies import Keys, Shown
from wanekupo.books.fuses import BadMap, layout_of
from wanekupo.books.program import Program, Unanswered
from wanekupo.books.replay import Answers, _ask_customer, _is_near
from wanekupo.books.sequence import Done, NotLaid, NotWhole, Requests
from wanekupo.books.shift import Period
from wanekupo.books.steps import Step
from wanekupo.books.store_rows import LedgerRow, StoredSeat
from wanekupo.chips.layout import Layout
from wanekupo.seat.import_rows import rows_of

# A field that can be hidden beside the locks, and a key.
TEXT = """
name = "one"
wr = "WR"
rd = "RD"
[[block]]
words = 1
[[block]]
words = 8
[[field]]
name = "WR"
block = 0
bit = 0
count = 4
[[field]]
name = "RD"
block = 0
bit = 4
count = 4
[[field]]
name = "PLAIN"
block = 0
bit = 8
count = 8
read = 0
[[field]]
name = "KEY"
block = 1
bit = 0
count = 256
write = 0
read = 1
key = true
"""
LAYOUT = Layout(TEXT)
SECONDS = 10
ORDER = {"issuer": "ca", "width": 3, "first": 1, "quantity": 4, "macs": 1}


def digest_of(bits):
    return hashlib.sha256(bits.to_bytes(4, "little")).hexdigest()


@pytest.mark.parametrize(
    ("word", "other"), [("words = 8", "words = 999999999999"), ("words = 1", "words = -1"), ("bit = 8", "bit = -8"),
                        ("bit = 8", f"bit = 8\nx = {600 * '['}{600 * ']'}")]  # fmt: skip
)
def test_a_map_that_no_server_has_takes_no_memory(word, other):
    """Nor does one that nests deeper than Python goes end an audit or a seal."""
    assert layout_of(TEXT).bits_length() == 36
    with pytest.raises(BadMap):
        layout_of(TEXT.replace(word, other, 1))


@pytest.mark.parametrize("end", ["\r", "\n", "\r\n", "\n\r"])
def test_rows_of_lines_that_end_otherwise(end):
    assert rows_of(f"serial,key_sha256{end}S1,k1{end}{end}S2,k2") == [("S1", "k1"), ("S2", "k2")]


def test_keys():
    """The program gets a key that has another digest, the same for the same one, and its words are put back."""
    keys, real = Keys(), hashlib.sha256(bytes(range(32))).hexdigest()
    made = keys.digest_of(real)
    assert made != real and made == hashlib.sha256(keys.key_of(real)).hexdigest() == keys.digest_of(real)
    assert keys.told(f'{{"KEY":"{made}","map":"{64 * "a"}"}}') == f'{{"KEY":"{real}","map":"{64 * "a"}"}}'
    assert keys.key_of(hashlib.sha256(bytes(32)).hexdigest()) == bytes(32)


@pytest.mark.parametrize(
    ("before", "after", "note", "really", "found"),
    [
        (0, 0x0301, "", 0x0301, 0x0301),  # a registration shows all of it
        (0x0300, 0x0311, "match", 0x0011, 0x0011),  # PLAIN is hidden by the lock at bit 4
        (0x0300, 0x0311, "stray", 0x0311, 0x0311),  # and is shown all the same
        (0x0301, 0x0301, "lost", 0x0101, 0x0101),  # bit 9 is lost
        (0x0301, 0x0301, "lost", 0x0000, 0x0300),  # more than one is: another that lost one will do
        (0x0300, 0x0300, "match", 0x0700, None),  # a bit that no entry has
    ],
)
def test_shown(before, after, note, really, found):
    assert Shown(LAYOUT, [before, 0], [after, 0], note).bits(0, digest_of(really)) == found


class Books:
    """What of a store the order of lines is looked up in: a customer with a pool of eight addresses."""

    def __init__(self, seats, orders=(), chips=(), maps=()):
        self.chips, self.maps = chips, [("acme", hashlib.sha256(it.encode()).hexdigest(), "") for it in maps]
        self.map_text = lambda _, digest: next(it for it in maps if hashlib.sha256(it.encode()).hexdigest() == digest)
        self.device = lambda *_: {"order": orders[0]["name"]}
        self.record = lambda issuer, serial: {"issuer": issuer, "serial": serial, "key_sha256": 64 * "f"}
        self.seats = {name: StoredSeat(name, "acme", last, "", "") for name, last in seats.items()}
        self.site_seats = dict.fromkeys(seats, "acme")
        self.pools, self.layouts = {"acme": [(0x020000000000, 8)]}, {}
        self.unread_maps = tuple
        self.orders = {("acme", it["name"]): it for it in orders}

    def records(self, where, *_):
        return (("acme", {"issuer": it[0], "serial": it[1]}) for it in self.chips if "NOT NULL" in where)

    def entries_of(self, customer, seat):
        return []


def line(number, at, path, reply=None, status=200, **asked):
    reply, at = reply or {}, f"2026-11-27T{at}:00Z"
    return Step("j", number, at, f"/v1/{path}", {"nr": number, **asked}, f"{path}{asked}", "", "", at, status, reply)


def lines(*steps):
    return {it.number: [it] for it in steps}


def entry(number, seat, chip, event, note=""):
    row = {"n": number, "event": event, "note": note, "seat": seat, "bits": [], "keys": {}}
    return LedgerRow(number, "acme", chip, row)


def by_seat(entries):
    return lambda seat="": [it for it in entries if seat in ("", it.row["seat"])]


def laid(requests, entries=()):
    """What is in order, and the words of what isn't."""
    found = list(requests.in_order(by_seat(entries)))
    return [it for it in found if isinstance(it, Done)], [str(it) for it in found if isinstance(it, NotLaid)]


def in_order(store, journals, entries=()):
    done, others = laid(Requests("acme", store, journals), entries)
    assert others == []
    return [(it.seat, it.step.number) for it in done]


def test_addresses_before_clocks():
    """The order that has the first addresses was made first, whatever the clocks say."""
    macs = {"a": "020000000004", "b": "020000000000"}
    rows = [{**ORDER, "name": name, "prefix": name, "mac": mac} for name, mac in macs.items()]
    store = Books({"a1": 1, "a2": 1}, rows)
    journals = {"a1": lines(line(1, "06:00", "order", name="a")), "a2": lines(line(1, "06:01", "order", name="b"))}
    assert in_order(store, journals) == [("a2", 1), ("a1", 1)]


def test_what_a_device_rests_on():
    """Another seat's order, map and import come before what needs them: the number 1 is passed over."""
    store = Books({"a1": 2, "a2": 3}, [{**ORDER, "name": "o", "prefix": "S", "mac": "020000000000"}])
    text = "map"
    device = {"chip": "c", "order": "o", "map": hashlib.sha256(text.encode()).hexdigest()}
    csv = f"serial,key_sha256\nS001,{64 * '0'}\n"
    journals = {
        "a1": lines(line(1, "06:00", "device", **device), line(2, "06:01", "identity", chip="c")),
        "a2": lines(
            line(1, "06:30", "order", name="o"),
            line(2, "06:31", "map", text=text),
            line(3, "06:32", "import", {"added": 1, "present": 0}, issuer="ca", csv=csv),
        ),
    }
    entries = [entry(1, "a1", "c", "registered"), entry(2, "a1", "c", "identified", "S002")]
    assert in_order(store, journals, entries) == [("a2", 1), ("a2", 2), ("a1", 1), ("a2", 3), ("a1", 2)]
    told = {(it.seat, it.step.number): it.later for it in Requests("acme", store, journals).in_order(by_seat(entries))}
    assert [place for place, later in told.items() if later] == [("a1", 1), ("a1", 2)], "clocks that can't be"
    assert (told["a1", 1], told["a1", 2]) == (journals["a2"][1][0], journals["a2"][3][0])


def test_what_was_asked_again():
    """A map and rows that are there change nothing; rows of which one isn't do."""
    csv = ["serial,key_sha256\n", f"S1,{64 * '0'}\n", f"S2,{64 * '1'}\n"]
    steps = [line(1, "06:00", "map", text="x"), line(2, "06:01", "import", issuer="ca", csv="".join(csv[:2]))]
    steps += [line(3, "06:02", "map", text="x"), line(4, "06:03", "import", issuer="ca", csv="".join(csv))]
    steps.append(line(5, "06:04", "import", issuer="ca", csv="".join(csv[:2])))
    requests = Requests("acme", Books({"a1": 5}), {"a1": lines(*steps)})
    assert [it.number for it in requests.papers] == [] and len(list(requests.in_order(by_seat([])))) == 5
    assert [it.number for it in requests.repeated] == [3, 5]


@pytest.mark.parametrize(
    ("added", "present", "unsure", "is_near"),
    [(2, 1, 1, True), (1, 2, 1, False), (3, 1, 2, False), (3, 0, 0, True), (True, 2, 3, False), (None, 1, 3, False)],
)
def test_counts_of_an_import(added, present, unsure, is_near):
    """Of three rows the program found none. Another seat imported some of them at the same time."""
    assert _is_near({"added": 3, "present": 0}, {"added": added, "present": present}, unsure) is is_near


def test_an_import_waits_for_no_number_of_another_issuer():
    """A chip has S001 of one issuer, and S001 of another was imported before that one's order was made."""
    orders = ({**ORDER, "prefix": "S", "macs": 0, "mac": None, "name": it, "issuer": f"c{it}"} for it in "ab")
    store = Books({"a1": 5, "a2": 1}, orders, [("ca", "S001")])
    device = {"chip": "c", "order": "a", "map": hashlib.sha256(b"map").hexdigest()}
    journals = {
        "a1": lines(
            line(1, "06:00", "order", name="a"),
            line(2, "06:01", "map", text="map"),
            line(3, "06:02", "device", **device),
            line(4, "06:03", "identity", chip="c"),
            line(5, "06:30", "order", name="b"),
        ),
        "a2": lines(line(1, "06:10", "import", issuer="cb", csv=f"serial,key_sha256\nS001,{64 * '0'}\n")),
    }
    entries = [entry(1, "a1", "c", "registered"), entry(2, "a1", "c", "identified", "S001")]
    assert in_order(store, journals, entries) == [("a1", it) for it in range(1, 5)] + [("a2", 1), ("a1", 5)]


@pytest.mark.parametrize(("length", "status"), [(65_536, 200), (65_537, 413)])
def test_a_line_that_would_end_the_program(length, status):
    """The server answers a longer body as 3, and ends the connection: the other customers' lines would get no reply."""
    program = SimpleNamespace(ask=lambda *_: (200, "{}"))
    answers = Answers("acme", SimpleNamespace(unread_maps=lambda: ()), SimpleNamespace(repeated=[]), program)
    assert answers._done(Done("a1", line(1, "06:00", "import")), length * b" ")[0] == status


def test_what_is_found_of_a_seat_hides_no_other():
    """Whoever writes the journal of a1 makes any number of wrong replies there. One of b1's is told all the same."""
    answers = Answers("acme", SimpleNamespace(unread_maps=lambda: ()), SimpleNamespace(repeated=[]), None)
    wrong = [Found("replay", "", "acme", "a1", "", f"reply {it}") for it in range(9)]
    answers._take([*wrong, Found("replay", "", "acme", "b1", "", "a reply")])
    assert [(it.seat, it.told.split(" ")[0]) for it in answers.told()] == [
        *(("a1", "reply") for _ in range(5)), ("b1", "a"), ("a1", "4")]  # fmt: skip


GAP = {"a1": [(4, 4)]}


@pytest.mark.parametrize(("lacking", "number", "found"), [({}, 18, 1), (GAP, 18, 0), (GAP, 9, 1)])
def test_a_full_order(lacking, number, found):
    """Where a chip isn't asked for since lines are missing its scrapping may have freed the place of another one."""
    requests = SimpleNamespace(repeated=[], lacking=lacking, aside={"d": None}, leave=lambda chips: None)
    answers = Answers("acme", SimpleNamespace(unread_maps=lambda: ()), requests, None)
    step = line(1, "06:00", "device", chip="c")
    assert len(list(answers._refused(Done("a1", step), {"no": number, "error": "e"}))) == found


def test_a_long_ledger(tmp_path):
    """A bench that reads a chip back again and again for some days makes a ledger longer than other replies."""
    head, length = "HTTP/1.1 200 OK\\r\\nContent-Length: 5000000\\r\\n\\r\\n", 5_000_000
    lines = f"import sys\nprint('{head}' + {length} * 'x', end='', flush=True)\nsys.stdin.read()\n"
    (tmp_path / "program").write_text(f"#!/usr/bin/python3\n{lines}")
    (tmp_path / "program").chmod(0o755)
    with Program(tmp_path / "program", "", tmp_path) as running:
        status, text = running.ask("t", "GET", "/v1/ledger?chip=240ac4000001")
    assert (status, len(text)) == (200, length)


def test_what_has_a_number_twice():
    twice = {1: [line(1, "06:00", "map", text=it) for it in "ab"]}
    with pytest.raises(NotWhole, match="became an older one"):
        Requests("acme", Books({"a1": 1}), {"a1": twice})


def test_of_lines_without_a_reply_the_later_one():
    """A station that drops a request asks for its number, which is the same where nothing was done."""
    two = [line(1, f"06:0{it}", "ship", status=None, chip=it) for it in "12"]
    store, entries = Books({"a1": 1}), [entry(1, "a1", "2", "shipped")]
    (done,) = Requests("acme", store, {"a1": {1: two}}).in_order(by_seat(entries))
    assert done.step is two[1]


@pytest.mark.parametrize(
    "first",
    [
        line(1, "06:00", "order", {"no": 34}, 409, name="x"),  # it was refused, and takes no number
        line(1, "06:00", "import", status=None, issuer="ca", csv="serial,key_sha256\n"),  # it never came
    ],
)
def test_of_lines_of_a_number_the_one_of_the_next_entry(first):
    """Another seat's step between them doesn't have the first one done."""
    lost, other = line(1, "06:01", "ship", status=None, chip="c"), line(1, "06:02", "ship", chip="d")
    store, entries = Books({"a1": 1, "a2": 1}), [entry(1, "a2", "d", "shipped"), entry(2, "a1", "c", "shipped")]
    done = list(Requests("acme", store, {"a1": {1: [first, lost]}, "a2": lines(other)}).in_order(by_seat(entries)))
    assert [it.step for it in done] == [other, lost]


@pytest.mark.parametrize(
    ("entries", "told"),
    [
        ([], "line 1 of j, shipped, has no entry"),
        ([entry(1, "a1", "c", "scrapped")], "entry 1, scrapped, isn't of the next step of a1, which is line 1 of j"),
        ([entry(1, "a2", "c", "shipped")], "isn't of the next step of a2"),
    ],
)
def test_what_is_not_laid(entries, told):
    """It is told, and the chip's other steps aren't asked. What came behind it is."""
    steps = [line(1, "06:00", "ship", chip="c"), line(2, "06:01", "scrap", chip="c"), line(3, "06:02", "map", text="x")]
    done, (first, *_) = laid(Requests("acme", Books({"a1": 3}), {"a1": lines(*steps)}), entries)
    assert (told in first, [it.step.number for it in done]) == (True, [3])


LIFE = [("registered", ""), ("identified", "S001"), ("shipped", "")]
PATH_OF = {"registered": "device", "identified": "identity", "shipped": "ship"}


def lives(*chips):
    """The lines and the entries of whole lives of one seat, one after another, with their papers in front."""
    device = {"order": "o", "map": hashlib.sha256(b"map").hexdigest()}
    steps, entries = [line(1, "05:00", "map", text="map"), line(2, "05:01", "order", **ORDERED)], []
    for place, chip in enumerate(chips):
        for event, note in LIFE:
            note = note and f"S00{place + 1}"
            more = device if event == "registered" else {}
            at = f"06:{len(steps):02}"
            steps.append(line(len(steps) + 1, at, PATH_OF[event], {"serial": note} if note else {}, chip=chip, **more))
            entries.append(entry(len(entries) + 1, "a1", chip, event, note))
    return steps, entries


ORDERED = {"name": "o", "issuer": "ca", "prefix": "S", "width": 3, "first": 1, "quantity": 4, "macs": 0}
OF_S = {**ORDER, **ORDERED, "mac": None, "not_before": None}


@pytest.mark.parametrize(
    ("number", "chips", "lent", "asked"),
    [
        (3, ["c"], [], ["import", "map", "order", "device", "identity", "ship"]),  # its registration
        (4, ["c"], [], ["import", "map", "order", "device", "identity", "ship"]),  # and what it was given
        (6, ["d"], [], ["map", "order", "device", "identity", "ship", "import"]),
        (1, [], ["map"], ["map", "order", *(2 * ["device", "identity", "ship"])]),
        (2, [], ["order"], ["order", "map", *(2 * ["device", "identity", "ship"])]),
    ],
)
def test_a_line_that_is_gone(number, chips, lent, asked):
    """Of one chip no step is asked, and its number counts as given; or a paper is the store's own. Nothing is found."""
    steps, entries = lives("c", "d")
    bare = [(it.chip, "a1") for it, step in zip(entries, steps[2:]) if step.number == number]
    store = Books({"a1": len(steps)}, [OF_S], [("ca", "S001"), ("ca", "S002")], ["map"])
    requests = Requests("acme", store, {"a1": lines(*(it for it in steps if it.number != number))}, bare)
    done, others = laid(requests, entries)
    assert (requests.lacking, list(requests.aside), others) == ({"a1": [(number, number)]}, chips, [])
    assert [it.path for it in requests.lent] == [f"/v1/{it}" for it in lent]
    assert [it.step.path.removeprefix("/v1/") for it in done] == asked


def test_an_order_that_no_lost_line_asked_for():
    """A line of a chip is gone, so none of an order: one that stands in the store alone was put there."""
    steps, entries = lives("c", "d")
    orders = [OF_S, {**OF_S, "name": "ghost", "prefix": "G"}]
    store = Books({"a1": len(steps)}, orders, [("ca", "S001"), ("ca", "S002")], ["map"])
    for number, bare, is_asked in ((4, [("c", "a1")], False), (1, [], True)):
        requests = Requests("acme", store, {"a1": lines(*(it for it in steps if it.number != number))}, bare)
        laid(requests, entries)
        assert ("ghost" in [it.asked.get("name") for it in requests.papers]) is False


def test_a_refused_line_of_a_number_that_is_gone():
    """A line that was refused, or that asks for what the store doesn't have, isn't the one that was accepted."""
    steps, entries = lives("c", "d")
    others = [line(4, "06:02", "order", {"no": 34}, 409, name="x"), line(4, "06:02", "order", status=None, name="x")]
    others[0].is_stored = False
    for other in others:
        store = Books({"a1": len(steps)}, [OF_S], [("ca", "S001"), ("ca", "S002")], ["map"])
        journals = {"a1": {**lines(*(it for it in steps if it.number != 4)), 4: [other]}}
        requests = Requests("acme", store, journals, [("c", "a1")])
        assert (laid(requests, entries)[1], requests.lacking) == ([], {"a1": [(4, 4)]})


def test_very_many_lines_of_a_number():
    """A seat's number with very many lines without a reply, each of another chip, and very many steps of another seat
    beside it: whoever writes such a journal keeps no audit busy."""
    count = 3_000
    many = [line(1, "06:00", "ship", status=None, chip=f"x{it}") for it in range(100_000)]
    steps = [line(it, "06:00", "ship", chip=f"c{it}") for it in range(1, count + 1)]
    entries = [entry(it, "a2", f"c{it}", "shipped") for it in range(1, count + 1)]
    begun = time.process_time()
    journals = {"a1": {1: many}, "a2": lines(*steps)}
    done, others = laid(Requests("acme", Books({"a1": 1, "a2": count}), journals), entries)
    assert (len(done), len(others)) == (count, 1)
    assert time.process_time() - begun < SECONDS


def test_very_many_imports_of_a_row():
    """Which of two seats' came first is told from their times alone, without a look at each other one."""
    count, csv = 10_000, f"serial,key_sha256\nS1,{64 * '0'}\n"
    its = {seat: [line(it, f"{5 + place}:{it % 60:02}".rjust(5, "0"), "import", issuer="ca", csv=csv)
                  for it in range(1, count + 1)] for place, seat in enumerate(("a1", "a2"))}  # fmt: skip
    begun = time.process_time()
    requests = Requests("acme", Books({"a1": count, "a2": count}), {seat: lines(*own) for seat, own in its.items()})
    unsure = [requests.unsure(Done(seat, it)) for seat, own in its.items() for it in own]
    assert time.process_time() - begun < SECONDS
    near = [it.at[11:16] for own in its.values() for it in own]
    assert [bool(it) for it in unsure] == [at in ("05:59", "06:00") for at in near]


class Refusing:
    """A program that refuses the identity of one chip, and says more of the shipment of another than its line."""

    def __init__(self):
        self.asked = []

    def ask(self, token, method, target, body):
        asked = json.loads(body)
        self.asked.append((asked["nr"], target.removeprefix("/v1/"), asked.get("chip", "")))
        if self.asked[-1][1:] == ("identity", "c"):
            return 409, '{"error":"exhausted","no":32}'
        return 200, '{"state":"shipped"}' if self.asked[-1][1:] == ("ship", "d") else "{}"


def test_what_comes_behind_a_refusal():
    """No more is asked of the chip, and its number counts as given; the others' lines are, with the seat's numbers."""
    steps, entries = lives("c", "d")
    store, program = Books({"a1": len(steps)}, [OF_S], [("ca", "S001"), ("ca", "S002")], ["map"]), Refusing()
    answers = Answers("acme", store, Requests("acme", store, {"a1": lines(*steps)}), program)
    store.entries_of = lambda customer, seat: by_seat(entries)(seat)
    told = [it.told for it in answers._reply_faults()]
    assert told == [
        "the program refuses it as 32 exhausted (line 4 of j); what came of the chip behind it wasn't asked",
        "state is missing in the journal, and shipped by the program (line 8 of j)"]  # fmt: skip
    paths = [("map", ""), ("order", ""), ("device", "c"), ("identity", "c"), ("import", "")]
    paths += [(it, "d") for it in ("device", "identity", "ship")]
    assert program.asked == [(*it,) for it in zip([1, 2, 3, 4, 4, 5, 6, 7], *zip(*paths))]
    assert list(answers.unasked()) == []


def test_a_program_that_never_answers(tmp_path):
    (tmp_path / "program").write_text("#!/bin/sh\nexec sleep 60\n")
    (tmp_path / "program").chmod(0o755)
    with Program(tmp_path / "program", "", tmp_path, 0.2) as running, pytest.raises(Unanswered, match="status -9"):
        running.ask("t", "GET", "/v1/order?name=o")


class Dying:
    """A program that answers one request, and ends."""

    replies = iter([(200, f'{{"map":"{64 * "a"}"}}')])

    def ask(self, *_):
        for reply in self.replies:
            return reply
        raise Unanswered("the program ended")


def test_a_program_that_ends_in_the_middle():
    """What was found up to there stays."""
    steps = [line(number, "06:00", "map", {"map": 64 * "b"}, text=str(number)) for number in (1, 2)]
    audit = Audit(Period("2026-11-27T00:00:00Z", "2026-11-28T00:00:00Z"))
    with pytest.raises(Unanswered):
        _ask_customer("acme", Books({"a1": 2}), {"a1": lines(*steps)}, Dying(), audit)
    told = f"map is {64 * 'b'} in the journal, and {64 * 'a'} by the program (line 1 of j)"
    assert ([it.told for it in audit.found], audit.replayed) == ([told], {"acme": 1})
