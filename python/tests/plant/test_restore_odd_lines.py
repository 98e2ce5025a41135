"""Whatever a station's key writes into a line, it moves nobody else: each reader of journals goes on or names the file.

Of each path's request and reply each member in turn is what no station writes. A restore's plan, an audit, a shift, the
list of lost chips, the witness and the metrics read these lines.
"""

import hashlib
import json
import sqlite3
from contextlib import closing
from pathlib import Path

import pytest
from conftest import FAMILIES
from wanekupo.plant.restore import lost_store as restore_look
from wanekupo.plant.restore.journals import Source, take_journals
from wanekupo.plant.restore.plan import CustomerPlan, RestoreError, asked_of, name_customer, requests_of_seats
from wanekupo.books.audit import audit_of
from wanekupo.books.audit_page import as_html, as_text, found_table
from wanekupo.books.schema import CREATED, statements
from wanekupo.books.shift import period_of, shift_of
from wanekupo.books.shift_page import as_html as shift_page, shift_tables
from wanekupo.books.steps import book_of, books_of
from wanekupo.books.store import StoreCopy
from wanekupo.books.store_rows import Books
from wanekupo.common.errors import StationError
from wanekupo.metrics.exposition import Samples
from wanekupo.seat.journal import records_of, request_digest, states_of
from wanekupo.metrics.journal_counts import add_journals
from wanekupo.books.lost import given_up, lost_csv, lost_text
from wanekupo.common.moments import moment_of
from wanekupo.cli.witness import acknowledged

AT, MARK = "2026-11-28T00:00:00Z", "@@"
MAP = (FAMILIES / "none/map.toml").read_text(encoding="utf-8")
DIGEST, KEY = hashlib.sha256(MAP.encode()).hexdigest(), hashlib.sha256(b"\0").hexdigest()
CHIP = {"chip": "c1"}

# What each path asks and is answered, as docs/integrate/api.md has it.
ORDER = {"name": "o", "issuer": "bolt-ca", "prefix": "P", "width": 2, "first": 1, "quantity": 3, "macs": 0,
         "not_before": None}  # fmt: skip
RECORD = {"issuer": "bolt-ca", "serial": "P01", "key_sha256": KEY, "mac": None, "not_before": None}
PATHS = {
    "/v1/order": (ORDER, {**ORDER, "next": "P01", "mac": None}),
    "/v1/map": ({"text": MAP}, {"map": DIGEST}),
    "/v1/import": ({"issuer": "bolt-ca", "csv": f"serial,key_sha256\nA1,{KEY}\n"}, {"added": 1, "present": 0}),
    "/v1/device": ({**CHIP, "order": "o", "map": DIGEST, "blocks": [KEY]}, {**CHIP, "state": "registered"}),
    "/v1/plan": ({**CHIP, "wishes": [{"kind": "bit", "field": "W", "index": 0}]}, {"state": "awaiting2"}),
    "/v1/readback": ({**CHIP, "blocks": [KEY]}, {"outcome": "stray", "rest": {}, "state": "quarantined"}),
    "/v1/identity": ({**CHIP, "public_key": "00"}, {**CHIP, **RECORD, "not_after": "99991231235959Z"}),
    "/v1/ship": (CHIP, {**CHIP, "state": "shipped"}),
    "/v1/scrap": (CHIP, {**CHIP, "state": "scrapped"}),
}
OF_A_LINE = ("at", "seat", "operator", "path", "digest", "reason", "asked", "nr", "reply", "status", "resynchronized")
OF_A_REFUSAL = ("no", "expected", "error", "outcome", "state")

# Members as JSON has them, the last one twice; and large ones, which a few members alone are.
VALUES = ("5", "-1", str(2**53), "1.5", "1e999", "NaN", "true", "null", '""', r'"\ud800"', r'"\u001b[2J"', "[]", "{}",
          "[[]]", '{"a":[]}', '["a"]', '[{"kind":"value","field":"W","value":[]}]',
          '[{"kind":"bit","field":"W","index":9007199254740991}]', '"2026-13-13T00:00:00Z"', '5,"nr":1')  # fmt: skip
LARGE = ("1" * 4000, "1" * 5000, json.dumps("x" * 70_000), json.dumps("x" * 300_000), "[" * 990 + "]" * 990)


def lines_of(path, asked, reply, status=200, first=None, second=None):
    """A request and its reply, in which a member may be the mark; `first` and `second` are more of each line."""
    members = {**asked, "nr": 1}
    line = {"at": AT, "path": path, "asked": members, "digest": MARK * 2, "seat": "b1"}
    return [{**line, **(first or {})}, {"at": AT, "nr": 1, "reply": reply, "status": status, **(second or {})}]


def texts_of(lines, value):
    """The lines with a value in the mark's place, and the digest of what is asked then."""
    texts = [json.dumps(it).replace(json.dumps(MARK), value) for it in lines]
    try:
        line = json.loads(texts[0])
        digest = request_digest(line["path"], line["asked"])
    except (ValueError, RecursionError, AttributeError, KeyError, TypeError):
        digest = ""
    return "".join(f"{text}\n" for text in texts).replace(MARK * 2, digest)


def cases_of(path):
    """Each member of a path's lines in turn is the mark, or isn't there."""
    asked, reply = PATHS[path]
    for name in (*asked, "nr", "chip"):
        yield f"asked {name}", lines_of(path, {**asked, name: MARK}, reply)
        yield f"without asked {name}", lines_of(path, {key: it for key, it in asked.items() if key != name}, reply)
    for name in (*reply, "state", "outcome"):
        yield f"reply {name}", lines_of(path, asked, {**reply, name: MARK})
        yield f"without reply {name}", lines_of(path, asked, {key: it for key, it in reply.items() if key != name})
    for name in OF_A_LINE if path == "/v1/device" else ():
        yield f"line that asks: {name}", lines_of(path, asked, reply, first={name: MARK})
        yield f"line that answers: {name}", lines_of(path, asked, reply, second={name: MARK})
    for name in OF_A_REFUSAL if path == "/v1/device" else ():
        yield f"refusal {name}", lines_of(path, asked, {"no": 11, name: MARK}, 409)


@pytest.fixture
def lost(tmp_path):
    """A store in which the seat has these numbers, and the chip all its entries."""
    events = ("registered", ""), ("planned", ""), ("read", "match"), ("identified", "P01"), ("shipped", "")
    with closing(sqlite3.connect(tmp_path / "books.db")) as base:
        base.executescript(CREATED)
        columns = {name: list(base.execute(f"PRAGMA table_info({name})")) for name in statements()}
        add = {name: f"INSERT INTO {name} VALUES ({', '.join('?' * len(its))})" for name, its in columns.items()}
        base.execute(add["meta"], (1, 3, b""))
        base.execute(add["seat"], ("b1", "bolt", 9, b"", "{}"))
        base.execute(add["map"], (1, MAP, bytes.fromhex(DIGEST)))
        base.execute(add["link"], ("bolt", bytes.fromhex(DIGEST), 1))
        base.execute(add["orders"], ("bolt", "o", "bolt-ca", "P", 2, 1, 3, 0, None, 0))
        fuses = bytes(4), b"", bytes(8)
        base.execute(add["device"], ("bolt", "c1", "o", bytes.fromhex(DIGEST), "shipped", None, *fuses, "P01"))
        base.execute(add["given"], ("bolt-ca", "P01", "bolt", bytes.fromhex(KEY), "c1", None, "99991231235959Z"))
        for number, (event, note) in enumerate(events, 1):
            base.execute(add["ledger"], (number, "bolt", "c1", number, event, note, "b1", bytes(4), b""))
        base.commit()
    with StoreCopy(tmp_path / "books.db") as store:
        yield Books(store)


PERIOD = period_of(moment_of("2000-01-01T00:00Z"), moment_of("2099-01-01T00:00Z"))


def restored(all_of_them, file, lost):
    customers = {"acme": CustomerPlan("acme", {"a1": ""}, True), "bolt": CustomerPlan("bolt", {"b1": ""}, True)}
    sources = [Source(all_of_them / "pc8", frozenset(["a1"])), Source(all_of_them / "pc7", frozenset(["b1"]))]
    take_journals(sources, customers, [])
    bolt = customers["bolt"]
    with name_customer("bolt"):
        bolt.asked = asked_of(bolt)
        requests = requests_of_seats([bolt])
    restore_look.number_gaps([bolt], requests, {}, set())
    restore_look.seats_out_of_step(requests, {})
    list(restore_look.lost_contradictions([bolt], requests, Path(), {}))
    states_of(bolt.asked), records_of(bolt.asked)


def audited(all_of_them, file, lost):
    audit = audit_of(lost, [book_of([file], frozenset(["b1"])), *books_of([file])], PERIOD, AT)
    (as_text(audit) + as_html(audit, []) + found_table(audit).as_csv()).encode()


def shifted(all_of_them, file, lost):
    shift = shift_of([("bolt", it) for it in books_of([file])], PERIOD)
    found = shift_tables(shift, None)
    (shift_page(shift, found) + "".join(it.as_text() + it.as_csv() for it in found)).encode()


def listed(all_of_them, file, lost):
    lines, told = given_up([file])
    (lost_text(lines) + lost_csv(lines) + "".join(told)).encode()


def counted(all_of_them, file, lost):
    samples = Samples()
    try:
        add_journals(samples, {}, [all_of_them], all_of_them.parent / "journals.toml")
    finally:
        assert 'wanekupo_seat_last_line_timestamp_seconds{seat="a1"}' in samples.text()


def witnessed(all_of_them, file, lost):
    acknowledged([file])


@pytest.mark.parametrize("path", PATHS)
def test_no_line_moves_another(path, tmp_path, lost, monkeypatch):
    monkeypatch.setattr(restore_look, "query_rows", lambda db, query: [])
    (tmp_path / "journals.toml").write_text('[folders]\npc7 = ["b1"]\npc8 = ["a1"]\n')
    file, other = tmp_path / "all/pc7/b1.journal", tmp_path / "all/pc8/a1.journal"
    for it in (file, other):
        it.parent.mkdir(parents=True)
    other.write_text(texts_of(lines_of("/v1/ship", CHIP, CHIP, first={"seat": "a1"}, second={"seat": "a1"}), "5"))
    faults = []
    for what, lines in cases_of(path):
        is_large = what.endswith((" chip", " seat", " nr", " csv", " text", " wishes", " serial"))
        has_mark = MARK in json.dumps(lines).replace(MARK * 2, "")
        for value in ((*VALUES, *LARGE) if is_large else VALUES) if has_mark else ("5",):
            file.write_text(texts_of(lines, value))
            for read in (restored, audited, shifted, listed, counted, witnessed):
                try:
                    read(tmp_path / "all", file, lost)
                except (StationError, RestoreError) as error:
                    begin = "bolt: line " if read is restored else ""
                    if str(file) not in str(error) or not str(error).startswith(begin):
                        faults.append(f"{what} {value[:30]}: {read.__name__} names nobody: {error}")
                except Exception as error:
                    faults.append(f"{what} {value[:30]}: {read.__name__}: {type(error).__name__} {str(error)[:90]}")
    assert faults == [], f"{len(faults)}"
