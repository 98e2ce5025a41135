"""What root takes of the store's user where a site is closed, and what of a pool a next site gets."""

import json
import os
from pathlib import Path
from types import SimpleNamespace

import pytest

from wanekupo.common.store_user import UserError
from wanekupo.common.token_file import TokenError
from wanekupo.plant.site import closing
from wanekupo.plant.site.successor import cut

ONE = {"orders": 1, "serials": 2, "imported": 3, "addresses": 4, "devices": {"shipped": 2}}
NAMES = {"acme": ONE}


def told(monkeypatch, folder: Path, made) -> dict:
    """The numbers, where the store's user makes something of the name in which they are looked for."""
    file = folder / "numbers.json"
    user = SimpleNamespace(name="station", call=lambda *_, **__: made(file))
    opened = SimpleNamespace(handle=os.open(folder, os.O_RDONLY))
    monkeypatch.setattr(closing, "StoreFolder", lambda _: opened)
    try:
        return closing.numbers_told(SimpleNamespace(user=user, db="books.db"), folder / "books.db")
    finally:
        os.close(opened.handle)


def text(customers, under_way=()) -> str:
    return json.dumps({"customers": customers, "under_way": list(under_way)})


def test_numbers(monkeypatch, tmp_path):
    more = {"acme": {**ONE, "more": "\x1b[2J", "devices": {"shipped": 2, "\x1b": 1}}}
    assert told(monkeypatch, tmp_path, lambda it: it.write_text(text(more))) == NAMES, "what isn't known is left out"


@pytest.mark.parametrize("written", [
    "", "[]", "{}", "null", text({"a b": ONE}), text({"\x1b": ONE}), text({"acme": {}}), text({"acme": []}), "\xff",
    text({"acme": {**ONE, "orders": "x"}}), text({"acme": {**ONE, "orders": None}}), "[" * 100_000,
    text({"acme": {**ONE, "devices": {"shipped": "9" * 5000}}}), '{"customers":{},"under_way":7}',
])  # fmt: skip
def test_no_numbers(monkeypatch, tmp_path, written):
    with pytest.raises(TokenError) as error:
        told(monkeypatch, tmp_path, lambda it: it.write_text(written, encoding="latin-1"))
    assert "\x1b" not in str(error.value)


@pytest.mark.parametrize("made", [
    lambda it: it.symlink_to("/etc/shadow"), os.mkfifo, os.mkdir, lambda it: it.write_bytes(b" " * (2 << 20)),
])  # fmt: skip
def test_no_file_of_numbers(monkeypatch, tmp_path, made):
    with pytest.raises((UserError, OSError)):
        told(monkeypatch, tmp_path, made)


def test_under_way(monkeypatch, tmp_path):
    one = {"acme": {**ONE, "devices": {"shipped": 2, "identified": 1, "awaiting1": 4}}}
    with pytest.raises(TokenError, match="(?s)^the device c1.*5 are under way"):
        told(monkeypatch, tmp_path, lambda it: it.write_text(text(one, ["the device c1"])))


LONG = (1 << 20) - 1
ROWS = [(b"a\nb\n", ["a", "b"]), (b"", []), (b"a\nb", None), (b"\xff\n", None), (LONG * b"x" + b"\n", [LONG * "x"]),
        (LONG * b"x" + b"x\n", None)]  # fmt: skip


@pytest.mark.parametrize("data, rows", ROWS, ids=range(len(ROWS)))
def test_rows(tmp_path, data, rows):
    (tmp_path / "rows").write_bytes(data)
    folder = SimpleNamespace(file=lambda: os.open(tmp_path / "rows", os.O_RDONLY), db="rows",
                             user=SimpleNamespace(name="station"))  # fmt: skip
    if rows is None:
        with pytest.raises((TokenError, UnicodeError)):
            list(closing.rows_in(folder))
    else:
        assert list(closing.rows_in(folder)) == rows


@pytest.mark.parametrize("orders, used", [
    ([], 0), ([(100, 5)], 5), ([(100, 5), (105, 10)], 15), ([(105, 10), (100, 5)], 15), ([(100, 50)], 50),
    ([(150, 5)], 0), ([(99, 1), (140, 10)], 50), ([(60, 40)], 0),
])  # fmt: skip
def test_cut(orders, used):
    """Of a pool of 50 from 100 on, by hand; orders of the pools in front of it and behind don't count."""
    assert cut((100, 50), orders) == used
