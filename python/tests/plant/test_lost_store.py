"""The lost store: how it is copied, and which of its rows a restored one lacks, by sqlite3 itself."""

import shutil
import subprocess
from pathlib import Path

import pytest
from wanekupo.plant.restore import lost_store as restore_look
from wanekupo.plant.restore.lost_store import lost_copy, missing_rows, query_rows
from wanekupo.plant.restore.plan import RestoreError

# The columns that are read, of docs/reference/files.md.
TABLES = """
CREATE TABLE orders (customer, name, issuer, prefix, width, first, quantity, macs, mac);
CREATE TABLE order_start (customer, ord, not_before);
CREATE TABLE given (issuer, serial, key, customer);
CREATE TABLE link (customer, digest);
CREATE TABLE device (customer, chip, state);
INSERT INTO orders VALUES ('acme', 'o1', 'ca', 'S', 4, 1, 10, 0, NULL);
INSERT INTO order_start VALUES ('acme', 'o1', '2026-01-01');
INSERT INTO given VALUES ('ca', 'S0001', x'AB', 'acme');
INSERT INTO link VALUES ('acme', x'CD');
INSERT INTO device VALUES ('acme', 'c1', 'scrapped'), ('acme', 'c2', 'ready');
"""


def store(path, more=""):
    subprocess.run(["sqlite3", str(path), TABLES + more], check=True)
    return path


@pytest.mark.skipif(not shutil.which("sqlite3"), reason="sqlite3 isn't there")
def test_rows_that_the_restored_store_lacks(tmp_path):
    restored = store(tmp_path / "restored.db")
    nothing = {"orders": [], "serial numbers": [], "maps": [], "devices": []}
    assert missing_rows(store(tmp_path / "same.db"), restored) == nothing
    changes = {
        "orders": ("UPDATE orders SET quantity = 11;", "o1"),
        "orders of another day": ("UPDATE order_start SET not_before = NULL;", "o1"),
        "serial numbers": ("INSERT INTO given VALUES ('ca', 'S0002', x'AB', 'acme');", "S0002"),
        "serial numbers of another key": ("UPDATE given SET key = x'EF';", "ef"),
        "maps": ("UPDATE link SET digest = x'CE';", "ce"),
        "devices": ("UPDATE device SET state = 'shipped' WHERE chip = 'c2';", "c2"),
    }  # fmt: skip
    for number, (what, (change, shown)) in enumerate(changes.items()):
        (found,) = [(kind, rows) for kind, rows in missing_rows(store(tmp_path / f"{number}.db", change),
         restored).items() if rows]
        assert what.startswith(found[0]) and len(found[1]) == 1 and shown in str(found[1][0]), what
    assert missing_rows(restored, store(tmp_path / "more.db", "INSERT INTO link VALUES ('acme', x'00');")) == nothing


@pytest.mark.skipif(not shutil.which("sqlite3"), reason="sqlite3 isn't there")
def test_rows_that_cannot_be_read(tmp_path):
    (tmp_path / "broken.db").write_text("no database, and longer than the head of one is" * 9)
    restored = store(tmp_path / "restored.db")
    assert query_rows(tmp_path / "broken.db", "SELECT 1 FROM given") is None
    assert query_rows(restored, "SELECT 1 FROM given WHERE 0") == []
    assert set(missing_rows(tmp_path / "broken.db", restored).values()) == {None}
    assert all(missing_rows(restored,
        tmp_path / "broken.db").values()), "what can't be read of the new one is missing there"


@pytest.mark.parametrize("fails, is_opened", [(False, True), (False, False), (True, False)])
def test_the_copy(tmp_path, monkeypatch, fails, is_opened):
    calls = []
    monkeypatch.setattr(restore_look, "run_unpiped", lambda *words: calls.append(list(words)) or
                        subprocess.CompletedProcess(words, int(fails), "", "full\n"))  # fmt: skip
    monkeypatch.setattr(restore_look, "opened_by", lambda program, site,
        db: calls.append((program, site, db)) or is_opened)
    words = ("P", Path("/s"), Path("/lost/my.db"), tmp_path / "lost")
    if fails:
        with pytest.raises(RestoreError, match="/lost/my.db can't be copied: full"):
            lost_copy(*words)
        return
    assert lost_copy(*words) == (tmp_path / "lost/books.db", is_opened)
    assert calls == [["cp", "--", "/lost/my.db", str(tmp_path / "lost/books.db")],
                     ["cp", "--", "/lost/my.db-wal", str(tmp_path / "lost/books.db-wal")],
                     ("P", Path("/s"), tmp_path / "lost/books.db")]  # fmt: skip
