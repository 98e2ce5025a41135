"""Which line is which entry of a chip that has very many steps: a station may read one back for ever, and its journal
keeps no audit busy."""

import time

import pytest

from wanekupo.books.matches import Seated, matched
from wanekupo.books.steps import Book, Step
from wanekupo.books.store_rows import LedgerRow

MANY, SECONDS = 20_000, 10
OWN = Seated(Book(["a1.journal"]), "a1", "acme", "by its name")


def entry(number, event="read", note="short"):
    return LedgerRow(number, "acme", "c1", {"n": number, "event": event, "note": note, "seat": "a1"})


def line(number, outcome):
    """The line of a read-back; without an outcome its reply was lost."""
    asked, answered = {"nr": number, "chip": "c1"}, {"status": 200, "reply": {"outcome": outcome}} if outcome else {}
    return OWN, Step("a1.journal", number, "", "/v1/readback", asked, "", "a1", "", **answered)


@pytest.mark.parametrize(("outcome", "kinds"), [("short", {""}), ("", {""}), ("match", {"other_note"})])
def test_very_many_steps_behind_a_line_that_is_gone(outcome, kinds):
    entries = [entry(1, "planned", ""), *map(entry, range(2, MANY + 2))]
    begun = time.process_time()
    found = matched(entries, [line(number, outcome) for number in range(2, MANY + 2)])
    assert time.process_time() - begun < SECONDS
    assert ([it.row["n"] for it in found.entries], found.steps) == ([1], [])
    assert [(it.entry.row["n"], it.step.number) for it in found.pairs] == [(it, it) for it in range(2, MANY + 2)]
    assert {it.kind for it in found.pairs} == kinds
