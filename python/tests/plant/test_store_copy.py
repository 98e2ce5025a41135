"""Which backup is the newest, by a listing that the store's user may have written."""

from pathlib import Path

import pytest
from wanekupo.plant.trial_copy import Backup, newest_in

FOLDER = Path("/var/backups/station")


def folder(name: str, moment: int, names: str = "books.db books.db-wal site.toml", size: int = 7) -> list[str]:
    return [f"d 0 {moment}.5 {name}", *(f"f {size} 1.0 {name}/{it}" for it in names.split())]


def plain(name: str, size: int = 14) -> Backup:
    return Backup(FOLDER / name, size, False)


CASES = [
    ("none", [], None),
    ("one", folder("night", 100), plain("night")),
    ("the newer one by its time", [*folder("b", 100), *folder("a", 200)], plain("a")),
    ("an encrypted one", [*folder("b", 100), "f 9 200.0 x.tar.age"], Backup(FOLDER / "x.tar.age", 0, True)),
    ("one behind an encrypted one", [*folder("b", 300), "f 9 200.0 x.tar.age"], plain("b")),
    ("no log", [*folder("b", 100), *folder("a", 200, "books.db site.toml")], plain("b")),
    ("no site file yet", [*folder("b", 100), *folder("a", 200, "books.db books.db-wal")], plain("b")),
    ("empty files", [*folder("b", 100), *folder("a", 200, size=0)], plain("b")),
    ("one that is tried now", [*folder("b", 100), *folder("a", 200), "d 0 1.0 a/trial"], plain("b")),
    ("one that is begun", [*folder("b", 100), *folder(".new-a", 200)], plain("b")),
    ("a line feed", [*folder("b", 100), *folder("a\nf 9 999.0 x.tar.age", 200)], plain("b")),
    ("a control sequence", [*folder("b", 100), *folder("a\x1b]0;x\x07", 200)], plain("b")),
    ("bytes that are no UTF-8", [*folder("b", 100), *folder("a\ufffd", 200)], plain("b")),
    ("a link in a file's place", [*folder("b", 100), *folder("a", 200, "books.db-wal site.toml"), "l 7 1.0 a/books.db"],
     plain("b")),
    ("a path upward", ["f 9 200.0 ../x.tar.age", "f 9 200.0 /etc/x.tar.age", *folder("b", 100)], plain("b")),
    ("words of no listing", ["rm -rf /", "f x 1.0 a", "f 1 nan a", *folder("b", 100)], plain("b")),
    ("an amount without end", [f"f {'9' * 40} 1.0 a/books.db", *folder("b", 100)], plain("b")),
]  # fmt: skip


@pytest.mark.parametrize("what, rows, wanted", CASES)
def test_newest_in(what: str, rows: list[str], wanted: Backup | None) -> None:
    assert newest_in("\0".join([*rows, ""]), FOLDER) == wanted
