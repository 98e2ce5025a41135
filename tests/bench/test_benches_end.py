"""Tries the end of an order over two benches of four sockets, and holds all counts to each other: no chip is burnt that
isn't identified or failed by its own fault.

Two seats of one customer run `wanekupo run`, with hands that put chips into sockets and take them out as the screen
says. The first order's numbers end in the middle of the chips, and its places don't: chips are scrapped behind their
identity. Some chips burn a bit that nobody planned, fail a hook for good or once, or are unplugged in front of a
burning or behind it; benches are killed. A bench that asks for the next order gets it.

What each chip shows is compared with what became of it, and the counts of both pages, of `wanekupo shift`, of the
journals, of `wanekupo yield` and of the store by SQL. Chips may be burnt in vain, and registered in vain: of two
benches that asked for the last number at one moment.
"""

import contextlib
import csv
import json
import os
import sqlite3
import time
from collections import Counter

import pytest

from bench.benches_place import FAMILIES, NEXT, OWN, SEATS, Hands, Plant
from commanding import ran
from wanekupo.books.report_counts import difference_of, summed
from wanekupo.metrics.exposition import Samples
from wanekupo.metrics.journal_counts import add_journals
from wanekupo.seat.journal import strict_lines
from wanekupo.seat.states import REPORTED

pytestmark = [pytest.mark.needs("openssl"), pytest.mark.sizes(12, 200)]

# Below so many chips a bench needn't come to the next order, nor be killed; and the longest that benches may work.
FEW, SECONDS = 50, 3600
COLUMNS = ("serials_left", "quantity", "shipped", "scrapped")


def work(plant, benches):
    """Has both benches work until no chip is left, and kills each of them some times."""
    plant.stopped = []
    every = max(2, plant.size // 16)
    end = time.monotonic() + SECONDS
    while any([it.look() for it in benches]):
        assert time.monotonic() < end, f"not at the end in time: {[it.bench.board() for it in benches]}"
        for it in benches:
            if len(it.passed) >= every * (it.kills + 1) and it.placed:
                time.sleep(plant.chance.uniform(0, 1))
                it.kill()
        for it in benches:
            if it.waits and not any(other.placed and other.order == it.order for other in benches):
                it.waits = False
                it.bench.said("go")
        time.sleep(0.05)


@pytest.fixture(scope="module")
def plant(program, size, pytestconfig, tmp_path_factory):
    """A plant behind its work, with its benches, and a report of before."""
    option = pytestconfig.option
    plant = Plant(tmp_path_factory.mktemp("plant"), size, option.seed, option.espefuse)
    plant.before = plant.office.get("/v1/report")
    plant.benches = []
    mask = os.umask(0o077)  # nobody else reads a station's files
    try:
        plant.benches += [Hands(plant, seat, family) for seat, family in zip(SEATS, FAMILIES)]
        work(plant, plant.benches)
        time.sleep(2)  # a shift ends before the second in which it is asked for
        yield plant
    finally:
        for it in plant.benches:
            it.bench.process.poll() is None and it.bench.kill()
        plant.program.kill()
        os.umask(mask)


# ---- what is compared


def expect_same(what, *found):
    """Holds counts of several sources to each other."""
    assert not any(it != found[0] for it in found[1:]), f"{what}: {', '.join(map(str, found))}"


def test_chips(plant, found):
    """What became of each chip, beside what it shows. Those that were registered in vain are told."""
    burnt, registered = [], []
    for mac in plant.macs:
        device = plant.asked(mac)
        is_burnt = (plant.folder / f"chip-{mac}").read_bytes() != plant.blank[mac]
        kind, state = plant.faults.get(mac), device.get("state")
        if is_burnt and not device.get("serial") and kind not in OWN:
            burnt.append(mac)
        if state == "scrapped" and kind not in OWN and not is_burnt:
            registered.append(mac)
        else:
            expect_same(f"the state of {mac}, {kind}", state, "scrapped" if kind in OWN else "shipped")
        expect_same(f"{mac} is burnt and has no number", mac in burnt, False)
    kind = "espefuse's virtual" if plant.espefuse else "simulated"
    found(f"stays: {told_of(sum((it.said for it in plant.benches), Counter()))}")
    found(f"{len(plant.macs)} {kind} chips of {len(FAMILIES)} families, {sum(it.kills for it in plant.benches)} kills; "
          f"{len(burnt)} burnt in vain, {len(registered)} registered in vain")  # fmt: skip


def counts_of_books(plant):
    """The counts of the store, by SQL."""
    plant.program.copied(plant.folder / "copy")
    with contextlib.closing(sqlite3.connect(plant.folder / "copy/books.db")) as base:
        states = dict(base.execute("SELECT state, count(*) FROM device WHERE customer = 'acme' GROUP BY state"))
        lost = dict(base.execute("SELECT note, count(DISTINCT chip) FROM ledger WHERE event = 'read' GROUP BY note"))
    return states, lost


def counts_of_journals(plant):
    """Chips that were shipped and given up, by the replies of both journals, and what metrics count of them."""
    shipped, given_up = set(), set()
    for file in (plant.folder / "journals").glob("*.journal"):
        asked = {}
        for line in strict_lines(file):
            asked = line.get("asked", asked)
            state = line["reply"].get("state") if line.get("status") == 200 else ""
            shipped |= {asked["chip"]} if state == "shipped" else set()
            given_up |= {asked["chip"]} if state in ("quarantined", "scrapped") else set()
    kept = {}
    add_journals(Samples(), kept, [plant.folder / "journals"], plant.folder / "none.toml")
    lost = sum((Counter(seat["lost"]) for seat in kept["seats"].values()), Counter())
    return len(shipped), len(given_up), dict(lost)


def first_of_logs(plant):
    """How many chips passed at their first stay, by the logs of both benches, whatever became of a later stay."""
    files = plant.folder.glob("*.json.bench/log-*.jsonl")
    lines = [json.loads(line) for file in files for line in file.read_text("ascii").splitlines()]
    firsts = {}
    for line in sorted((it for it in lines if it.get("result", NEXT[0]) not in NEXT), key=lambda it: it["at"]):
        firsts.setdefault(line["chip"], line["result"])
    return sum(it in ("passed", "passed_before", "shipped_before") for it in firsts.values())


def tables_of(plant):
    """The tables of `wanekupo shift`, by their names."""
    words = ["--from", "2000-01-01", "--to", "2099-01-01", "--csv", str(plant.folder / "tables")]
    status, _, told = ran("shift", f"acme={plant.folder / 'journals'}", *words)
    assert not status and not told, told
    found = {}
    for name in ("orders", "stations"):
        with open(plant.folder / "tables" / f"{name}.csv", encoding="utf-8", newline="") as source:
            found[name] = list(csv.DictReader(source))
    return found


def yield_of(plant, before):
    """What `wanekupo yield` says, by a report of before and one of now."""
    rows = difference_of(before, plant.office.get("/v1/report")).rows
    return summed({name: sum(row[name] for row in rows.values()) for name in REPORTED})


def test_counts(plant, found):
    """All counts beside each other."""
    benches = plant.benches
    pages = {it.seat: it.bench.board()["shift"] for it in benches}
    page = {name: sum(it[name] for it in pages.values()) for name in ("passed", "first")}
    failed = sum((Counter(it["failed"]) for it in pages.values()), Counter())
    states, lost = counts_of_books(plant)
    shipped, given_up, metrics = counts_of_journals(plant)
    tables, period = tables_of(plant), yield_of(plant, plant.before)
    total = next((it for it in tables["orders"] if it["customer"] == "all"), tables["orders"][0])
    hands = sum(len(it.passed) for it in benches)
    expect_same("shipped: hands, pages, shift, journals, yield, books", hands, page["passed"], int(total["shipped"]),
               shipped, period["shipped"], states["shipped"])  # fmt: skip
    expect_same("first: logs, pages, shift", first_of_logs(plant), page["first"], int(total["first"]))
    gone = states.get("scrapped", 0) + states.get("quarantined", 0)
    expect_same("given up: pages, shift, journals, yield, books", failed.total(), int(total["given_up"]), given_up,
               period["given_up"], gone)  # fmt: skip
    for reason in ("lost", "stray", "key"):
        expect_same(f"{reason}: pages, shift, metrics, books", failed[reason], int(total[reason]),
                   metrics.get(reason, 0), lost.get(reason, 0))  # fmt: skip
    for it in tables["stations"]:
        own = pages[it["station"]]
        counts = int(it["shipped"]), int(it["first"])
        expect_same(f"{it['station']}: page, shift", (own["passed"], own["first"]), counts)
    expect_same("begun: shift, yield, books", int(total["begun"]), period["begun"], sum(states.values()))
    first = page["first"]
    found(f"shipped {shipped}, first {first}, given up {given_up} ({told_of(failed)})")


def told_of(counts):
    return ", ".join(f"{name} {count}" for name, count in sorted(counts.items())) or "none"


def test_end(plant, found):
    """That the trial tried what it says: the first order came to its last number, with places left, and both benches
    said so; each bench was killed."""
    report = {row["order"]: row for row in csv.DictReader(plant.office.get("/v1/report").splitlines())}
    left, quantity, shipped, scrapped = (int(report["o1"][name]) for name in COLUMNS)
    expect_same("numbers left of o1", left, 0)
    expect_same("o1 has places left", shipped < quantity, True)
    for it in plant.benches:
        assert it.order == "o2" or plant.size < FEW, f"{it.seat} came to the next order"
        assert it.kills > 0 or plant.size < FEW, f"{it.seat} was killed"
    expect_same("what stopped a line beside", plant.stopped, [])
    found(f"o1: {quantity} numbers, {shipped} shipped, {scrapped} scrapped, {left} left")
