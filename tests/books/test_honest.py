"""Honest plants of which an audit that has the program answer all lines once more finds nothing: two issuers that have
the same numbers, and maps and rows of imports in words that the program reads, and a plain reader doesn't."""

import hashlib

import pytest

from books.replay_plant import Line
from books.seal_places import run
from books.seal_plant import MAP, chip_of, shown, site_text
from common.program import Program
from wanekupo.seat.import_rows import csv_of

OLD = csv_of([("G00001", hashlib.sha256(b"old").hexdigest())])
MORE = f"{MAP}[more]\nrow = {{ one = 1,\n  two = 2 }}\n"


def two_issuers(it):
    """A chip has a number of one issuer, and another seat imports it of the other one."""
    it.order("a1", "one", "G", 5)
    it.ship("a1", chip_of(1), "one")
    it.now += 300
    it.ask("a2", "import", issuer="acme-old", csv=OLD)
    it.now += 300
    members = {"issuer": "acme-old", "prefix": "G", "width": 5, "first": 1, "quantity": 5, "macs": 0}
    assert it.ask("a1", "order", name="two", **members)["next"] == "G00002"


def marked_map(it):
    """A map's text begins with the mark of the order of bytes, as an editor may write it."""
    digest = it.ask("a1", "map", text=f"\ufeff{MAP}")["map"]
    it.order("a1", "one", "G", 5)
    it.ask("a1", "device", chip=chip_of(1), order="one", map=digest, blocks=shown(chip_of(1)))


def other_map(it):
    """A map in words of TOML 1.1 that no device has: it never goes."""
    it.ask("a2", "map", text=MORE)
    it.order("a1", "one", "G", 5)
    it.ship("a1", chip_of(1), "one")


def other_ends(it):
    """The lines of an import end as a spreadsheet has them."""
    for number, end in enumerate(("\r", "\r\n", "\n")):
        it.ask("a1", "import", issuer="acme-ca", csv=csv_of([(f"OLD-{number}", f"{number:064x}")]).replace("\n", end))


@pytest.mark.parametrize("work", [two_issuers, marked_map, other_map, other_ends])
def test_an_honest_plant(program, tmp_path, work):
    site = site_text().replace('issuer = ["acme-ca"]', 'issuer = ["acme-ca", "acme-old"]')
    (tmp_path / "site.toml").write_text(site, encoding="ascii")
    words = [program, "replay", "--site", tmp_path / "site.toml", "--db", tmp_path / "books.db"]
    with Program(list(map(str, words)), 600) as running:
        it = Line(tmp_path, running)
        it.ask("a1", "map", text=MAP)
        work(it)
        it.write()
        running.end()
    period = ["--from", "2000-01-01", "--to", "2099-01-01"]
    status, text = run("audit", tmp_path / "books.db", tmp_path / "acme", *period, "--program", program)
    count = sum("asked" in line for lines in it.lines.values() for line in lines)
    assert (status, f"The program answered {count} lines of acme once more." in text) == (0, True), text


def refused(it, seat, path, **members):
    """A request that is refused as 18, and of which a late copy is accepted; its station hears of the refusal alone. A
    person has it go on."""
    it.ask(seat, path, **members)
    number = it.lines[seat][-1]["nr"]
    it.lines[seat][-1] |= {"status": 409, "reply": {"error": "quantity_reached", "no": 18}}
    it.lines[seat].append({"seat": seat, "at": it.lines[seat][-1]["at"], "resynchronized": number + 1})


@pytest.mark.parametrize("is_last", [False, True])
def test_a_late_copy(program, tmp_path, is_last):
    """It is told as one, and its number isn't said to have no line."""
    (tmp_path / "site.toml").write_text(site_text(), encoding="ascii")
    words = [program, "replay", "--site", tmp_path / "site.toml", "--db", tmp_path / "books.db"]
    with Program(list(map(str, words)), 600) as running:
        it = Line(tmp_path, running)
        digest = it.ask("a1", "map", text=MAP)["map"]
        it.order("a1", "one", "G", 5)
        refused(it, "a1", "device", chip=chip_of(1), order="one", map=digest, blocks=shown(chip_of(1)))
        if not is_last:
            it.ship("a1", chip_of(2), "one")
        it.write()
        running.end()
    period = ["--from", "2000-01-01", "--to", "2099-01-01", "--csv", tmp_path / "found.csv"]
    status, text = run("audit", tmp_path / "books.db", tmp_path / "acme", *period, "--program", program)
    kinds = [row.partition(",")[0] for row in (tmp_path / "found.csv").read_text().splitlines()[1:]]
    assert (status, kinds) == (1, ["late_copy"]), text
