"""What is told of an audit that found very much: whoever writes a journal may write any number of wrong lines."""

from wanekupo.books.audit import Audit, Found
from wanekupo.books.audit_page import MOST_TOLD, found_table, verdict
from wanekupo.books.shift import Period


def test_a_seat_that_has_very_many_faults():
    """Its first ones are told, and how many more there are; those of another seat are told all the same."""
    wrong = [Found("journal", "", "acme", "a1", "", f"line {number}") for number in range(MOST_TOLD + 7)]
    audit = Audit(Period("2026", "2027"), [*wrong, Found("journal", "", "acme", "a2", "", "line 1")])
    rows = [row.split(",") for row in found_table(audit).as_csv().splitlines()[1:]]
    assert [row[5] for row in rows if row[3] == "a1"][-2:] == [f"line {MOST_TOLD - 1}", "7 more of this kind and seat"]
    assert [row for row in rows if row[3] == "a2"] == [["journal", "", "acme", "a2", "", "line 1"]]
    assert verdict(audit) == f"{MOST_TOLD + 8} found."
