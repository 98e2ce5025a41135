"""Rows of a seal that are looked up by halves: each key is found that a reading of all lines finds, and no other."""

import gzip
import random

import pytest

from wanekupo.books.documents import NotShown, SealBooks, device_text, found_rows, identity_text, report_text
from wanekupo.books.lines import BadRow, device_line, entry_line, line, order_line, record_line
from wanekupo.common.errors import Refused

NOTHING = {"bits": [], "keys": {}}
ORDER = {"name": "o1", "issuer": "ca", "prefix": "S", "width": 3, "first": 0, "quantity": 99, "macs": 2, "next": None,
         "mac": "020000000000"}  # fmt: skip


def device(customer, chip, bits=0):
    row = {"chip": chip, "map": 64 * "5", "order": "o1", "reason": None, "serial": None, "state": "registered"}
    words = [{"block": 0, "mask": "00000001", "word": it} for it in range(bits)]
    return device_line(customer, {**row, "bits": words, "keys": {}, "pending": {"batch1": NOTHING, "batch2": NOTHING}})


def entry(customer, chip):
    return entry_line(customer, chip, {"n": 1, "event": "registered", "note": "", "seat": "a1", **NOTHING})


def record(serial, mac):
    members = {"chip": "0000000000aa", "issuer": "ca", "serial": serial, "mac": mac, "key_sha256": 64 * "7"}
    return record_line("acme", {**members, "not_after": "99991231235959Z"})


def books(folder, lines, ends="\n"):
    (folder / "000001.rows").write_text("\n".join(sorted(lines)) + ends)
    return SealBooks(folder / "000001.rows")


@pytest.mark.parametrize("seed", range(20))
def test_each_key_and_no_other(tmp_path, seed):
    chance = random.Random(seed)
    names = ["acme", "acme-2", "acmf", "a"]
    chips = {(chance.choice(names), f"{chance.randrange(40):012x}") for _ in range(chance.randrange(40))}
    lines = [device(*it, chance.randrange(9)) for it in chips] + [entry(*it) for it in chips]
    lines += [order_line("acme", ORDER)]
    read = books(tmp_path, lines)
    for customer in (*names, "b"):
        for number in range(41):
            chip = f"{number:012x}"
            there = [it for it in lines if it.startswith(f"device {customer} {chip} ")]
            if there:
                assert f"device {customer} {chip} {device_text(read, customer, chip)}" == there[0]
            else:
                with pytest.raises(Refused, match="15"):
                    device_text(read, customer, chip)
        assert len(list(read.entries(customer, f"{7:012x}"))) == ((customer, f"{7:012x}") in chips)


def test_the_second_address(tmp_path):
    held = device("acme", "0000000000aa").replace('"serial":null', '"serial":"S001"')
    one, two = record("S001", "020000000002"), record("S002", "020000000004")
    other = order_line("acme", {**ORDER, "name": "o0", "prefix": "T", "macs": 3, "mac": "030000000000"})
    plant = line("site", ("site",), {"schema": 3, "sha256": 64 * "0"})
    rows = [other, order_line("acme", ORDER), one, two, record("T000", "030000000000"), held, plant]
    read = books(tmp_path, rows)
    assert f"record acme ca S001 {identity_text(read, 'acme', '0000000000aa')}" == one
    assert [it.rpartition(",")[2] for it in report_text(read, "acme").splitlines()] == ["serials_left", "98", "97"]
    wanted = {"000003": ["S001"], "02:00:00:00:00:05": ["S002"], "0000006": [], "s00": ["S001", "S002"],
              "030000000002": ["T000"]}  # fmt: skip
    for part, serials in wanted.items():
        assert [it["serial"] for it in found_rows(read, "acme", part)] == serials, part


@pytest.mark.parametrize("data", [b"", b"\n", b"hello\n", b"SQLite format 3\0", gzip.compress(b"device acme x {}\n")])
def test_no_rows(tmp_path, data):
    (tmp_path / "f").write_bytes(data)
    with pytest.raises(NotShown):
        SealBooks(tmp_path / "f")


@pytest.mark.parametrize("lines, ends", [
    ([device("acme", 12 * "0")], ""), ([device("acme", 12 * "0").replace('"state"', '"stat"')], "\n"),
    ([device("acme", 12 * "0").replace('"chip":"0', '"chip":"1')], "\n"),
    (["device acme 000000000000 " + "x" * (1 << 21)], "\n"),
])  # fmt: skip
def test_no_row(tmp_path, lines, ends):
    with pytest.raises(BadRow, match="000001.rows has a line that"):
        device_text(books(tmp_path, lines, ends), "acme", 12 * "0")
