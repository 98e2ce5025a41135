"""Seals of two stores, in which one thing more was given twice: `wanekupo apart` names it with both stores. Files that
were cut, changed or not sorted, and two seals of one store, are refused. What is twice is written by hand."""

import gzip
import json
import os
from pathlib import Path

import pytest

from test_sealed_rows import imported, life, order
from wanekupo.books.apart import sealed_rows_of
from wanekupo.books.chain import NONE, BadChain, Chain, sealed
from wanekupo.books.lines import line
from wanekupo.cli.main import main

AT, LATER = "2026-11-30T06:00:00Z", "2026-12-01T06:00:00Z"
SITE = line("site", ("site",), {"schema": 3, "sha256": NONE})
OTHERS = {"acme": "bolt", "a1": "b1", "acme-ca": "bolt-ca"}


def seat(name, last=9, customer="acme"):
    return line("seat", (customer, name), {"name": name, "last": last, "digest": NONE, "reply_sha256": NONE})


def bolts(rows):
    """The rows of another customer, with another seat, issuer and order of addresses."""
    return [_replaced(it) for it in rows]


def _replaced(row):
    for one, other in OTHERS.items():
        row = row.replace(f'"{one}"', f'"{other}"').replace(f" {one} ", f" {other} ")
    return row


FIRST = [order(), *life("c1", "G009", "0200000000f0", "a"), imported("OLD", "c"), seat("a1"), SITE]
SECOND = [order("o1", mac="0200000000f8"), *life("c2", "G010", "0200000000fa", "b"), seat("a1"), SITE]


@pytest.fixture
def asked(tmp_path, capsys):
    """Seals rows of some stores, each in a folder; how `apart` ends over all of them, and what it says."""

    def asked(*stores, more=(), change=lambda folder: None):
        for number, rows in enumerate(stores):
            (folder := tmp_path / f"store{number}").mkdir()
            Chain(folder).add(rows if isinstance(rows, tuple) else sorted(rows), AT, "@all", None, None)
        change(tmp_path)
        status = main(["apart", str(tmp_path), *more])
        told = capsys.readouterr()
        return status, told.out + told.err

    return asked


def seal_again(folder: Path, rows):
    Chain(folder).add(sorted(rows), LATER, "@all", None, None)


def test_what_a_chain_does_not_have_is_set_aside(tmp_path):
    for _ in range(3):
        (tmp_path / "chain").unlink(missing_ok=True)
        Chain(tmp_path).add([SITE], AT, "@all", None, None)
    aside = {it.name: it.stat().st_mode & 0o777 for it in tmp_path.glob("*-aside-*")}
    assert aside == {"000001-aside-1": 0o700, "000001-aside-2": 0o700}
    with pytest.raises(BadChain, match="has seals of @all, and this one is of acme"):
        Chain(tmp_path).add([SITE], LATER, "acme", None, None)


def test_stores_come_by_their_names(tmp_path):
    for name in "fcadbe":
        (tmp_path / f"{name}.rows").touch()
        (tmp_path / f"{name}.seal").write_text(f"{sealed(NONE, 1, AT, '@all', 0, NONE).line()}\n")
    assert [it.file.stem for it in sealed_rows_of(tmp_path)] == [*"abcdef"]


def test_disjoint(asked, tmp_path):
    """Also where the second one imported what the first one gave, so that it gives it never. The metrics say when."""
    second = bolts(SECOND)
    known = line("import", ("bolt", "acme-ca", "G009"), {"issuer": "acme-ca", "serial": "G009", "not_before": None,
                 "key_sha256": f"a{63 * '0'}", "not_after": "99991231235959Z"})
    found = asked(FIRST, [*second, known], more=["--to", str(tmp_path.parent / f"{tmp_path.name}.prom")])
    assert found == (0, "Nothing found: 2 stores, 2 records.\n")
    text = tmp_path.parent.joinpath(f"{tmp_path.name}.prom").read_text()
    assert "\nwanekupo_apart_success 1\n" in text and "\nwanekupo_apart_timestamp_seconds 1796018400\n" in text


@pytest.mark.parametrize("told, at", [("{}", 1796018400), ("other", 1796018400), (None, 1796104800)])
def test_a_closed_store_has_no_newer_seal(tmp_path, monkeypatch, told, at):
    """Its seal's time doesn't count, where closed.json has the line of this very seal: 1796018400 is AT, by date(1)."""
    for name, rows, time in (("one", FIRST, AT), ("two", bolts(SECOND), LATER)):
        (tmp_path / name / "seals").mkdir(parents=True)
        Chain(tmp_path / name / "seals").add(sorted(rows), time, "@all", None, None)
    line = (tmp_path / "one/seals/chain").read_text().strip()
    text = {None: line, "other": (tmp_path / "two/seals/chain").read_text().strip()}.get(told, "none")
    (tmp_path / "one/closed.json").write_text(json.dumps({"seal": text}, indent=1))
    file = tmp_path.parent / f"{tmp_path.name}.prom"
    assert main(["apart", str(tmp_path), "--to", str(file)]) == 0
    assert f"\nwanekupo_apart_timestamp_seconds {at}\n" in file.read_text()
    monkeypatch.chdir(tmp_path / "one/seals")
    assert main(["apart", "000001.rows", "../../two", "--to", str(file)]) == 0, "in the folder itself too"
    assert f"\nwanekupo_apart_timestamp_seconds {at}\n" in file.read_text()


KEY = f"a{63 * '0'}"
TWICE = {
    "a serial number": (["G010", "G009"], "The serial number G009 stands twice: the record of G009 of acme-ca of acme"),
    "an address of an order": (["0200000000f8", "0200000000f7"], "The address 0200000000f7 stands twice: the order o1"),
    "an address of a record": (["0200000000fa", "0200000000f0"], "The address 0200000000f0 stands twice: the order o1"),
    "a key": ([f"b{63 * '0'}", KEY], f"The key {KEY} stands twice: the record of G009 of acme-ca of acme in"),
    "a chip": (["c2", "c1"], "The chip c1 stands twice: the device c1 of acme in"),
}


@pytest.mark.parametrize("name", TWICE)
def test_twice(asked, tmp_path, name):
    """Over two stores in which customer and issuer are the same, and nothing else is."""
    (own, other), told = TWICE[name]
    second = [it.replace('"a1"', '"a2"').replace(" a1 ", " a2 ").replace(own, other) for it in SECOND]
    status, text = asked(FIRST, second)
    assert (status, told in text, "1 found: 2 stores" in text) == (1, True, True), text
    assert all(f"in {tmp_path}/store{number}/000001.rows" in text for number in (0, 1)), text


def test_a_key_of_two_issuers(asked):
    """Of two customers, whose chips may have one name."""
    second = bolts(it.replace("c2", "c1").replace(f"b{63 * '0'}", KEY) for it in SECOND)
    status, text = asked(FIRST, second)
    assert (status, f"The key {KEY} stands twice" in text, "1 found" in text) == (1, True, True), text


@pytest.mark.parametrize("word, status, told", [("bolt=acme", 1, "The chip c1 stands twice"), ("bolt", 2, "Give it")])
def test_a_chip_by_another_name(asked, word, status, told):
    """One customer is the other one by another name."""
    found, text = asked(FIRST, bolts(it.replace("c2", "c1") for it in SECOND), more=["--same", word])
    assert (found, told in text) == (status, True), text


def test_a_chip_by_a_third_name(asked):
    """A next store's name behind another next one's: the first and the third are one customer."""
    found, text = asked(FIRST, bolts(it.replace("c2", "c1") for it in SECOND),
                        more=["--same", "bolt=acme-2", "--same", "acme-2=acme"])  # fmt: skip
    assert (found, "The chip c1 stands twice" in text) == (1, True), text


def test_an_imported_key(asked):
    """A number that one store gave, and the other one knows with another key."""
    second = bolts(SECOND) + [imported("G009", "b").replace("import acme ", "import bolt ")]
    status, text = asked(FIRST, second)
    assert (status, "The serial number G009 stands twice" in text) == (1, True), text


def test_one_store_twice(asked, tmp_path):
    """Two seals of one store, of two moments: of a folder the last one counts, and two files are refused."""
    later = [*FIRST, *life("c3", "G011", "0200000000f4", "b", key_sha256=f"d{63 * '0'}")]
    assert asked(FIRST, bolts(SECOND), change=lambda it: seal_again(it / "store0", later))[0] == 0
    one, two = (str(tmp_path / f"store0/00000{number}.rows") for number in (1, 2))
    assert main(["apart", one, two]) == 2


def test_one_store_alone(asked):
    assert asked(FIRST) == (3, "Nothing found: 1 store, 1 records.\n")


def cut(folder):
    file = folder / "store1/000001.rows"
    file.write_bytes(b"".join(file.read_bytes().splitlines(True)[:-1]))


def cut_in_a_line(folder):
    os.truncate(folder / "store1/000001.rows", 100)


def packed(folder, end=None):
    file = folder / "store1/000001.rows"
    file.with_name("000001.rows.gz").write_bytes(gzip.compress(file.read_bytes())[:end])
    file.unlink()


NOT_SEALED = "isn't the one that was sealed at 2026-11-30T06:00:00Z: it was cut, or changed"
REFUSED = {
    "a cut file": (SECOND, cut, NOT_SEALED),
    "a file cut in a line": (SECOND, cut_in_a_line, "is no row of books"),
    "a compressed file that is cut": (SECOND, lambda it: packed(it, -9), NOT_SEALED),
    "no rows": (SECOND, lambda it: (it / "store1/000001.rows").unlink(), "000001.rows"),
    "no chain": (SECOND, lambda it: [file.unlink() for file in (it / "store1").iterdir()], "store1 has no seals"),
    "an empty chain": (SECOND, lambda it: (it / "store1/chain").write_text(""), "store1 has no seals"),
    "rows that aren't sorted": (tuple(reversed(SECOND)), lambda it: None, "isn't behind the one in front of it"),
    "a row twice": (tuple(sorted([*SECOND, SITE])), lambda it: None, "isn't behind the one in front of it"),
    "a tab in a name": ([*SECOND, order().replace("o1", "o\t1")], lambda it: None, "is no row of books"),
    "a key that is none": ([it.replace(f"b{63 * '0'}", "\\ud800") for it in SECOND], lambda it: None, "no SHA-256"),
    "one seat": (SECOND, lambda it: None, "both have the seat a1 of acme, as two seals of one store do"),
}


@pytest.mark.parametrize("name", REFUSED)
def test_refused(asked, tmp_path, name):
    """The metrics say that nothing is known, and no moment."""
    rows, change, told = REFUSED[name]
    rows = rows if name == "one seat" else type(rows)(bolts(rows))
    to = tmp_path.parent / f"{tmp_path.name}.prom"
    status, text = asked(FIRST, rows, change=change, more=["--to", str(to)])
    assert (status, told in text) == (2, True), text
    assert "\nwanekupo_apart_success 0\n" in to.read_text() and "timestamp" not in to.read_text()


def test_compressed(asked):
    assert asked(FIRST, bolts(SECOND), change=packed)[0] == 0
