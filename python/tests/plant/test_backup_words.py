"""The command that backs up: its words, its end and its output."""

import signal
import sys
from pathlib import Path

import pytest
from backup_calls import Calls, args_of, heads
from scripts import script
from wanekupo.common.store_user import UserError
from wanekupo.plant.backup.copies import BackupError

backup = script("backup")


@pytest.fixture
def calls():
    return Calls()


def parsed(monkeypatch, text):
    monkeypatch.setattr(sys, "argv", ["backup", *text.split()])
    return backup.checked_words(backup.backup_parser())


@pytest.mark.parametrize("text", [
    "--site S --db D F", "--site S --db D --into A",
    "--snapshot lvm --site S --db D --into A --recipient R --copy-with C",
    "--into A --db D --clean", "--snapshot lvm --db D --clean", "--trial --db D --into A F",
    "--trial --db D --snapshot zfs F",
])  # fmt: skip
def test_words(monkeypatch, text):
    found = parsed(monkeypatch, text)
    assert (found.keep_days, found.keep_weeks, found.program) == (7, 5, "station")


@pytest.mark.parametrize("text", [
    "", "--db D", "--site S --db D", "--db D F", "--site S --db D --into A F", "--site S --into A",
    "--site S --db D --snapshot ext4 --into A",
    "--site S --db D --snapshot lvm F", "--site S --db D --recipient R F", "--site S --db D --copy-with C F",
    "--clean --db D",
    "--trial --db D --into A", "--trial --clean --db D --into A F", "--site S --db D --into A --keep-days x",
])  # fmt: skip
def test_wrong_words(monkeypatch, capsys, text):
    with pytest.raises(SystemExit) as error:
        parsed(monkeypatch, text)
    assert error.value.code == 2


def test_paths_are_whole_ones(tmp_path, monkeypatch):
    """The user's process begins in another folder. A file by a public key's name is somebody's, and isn't that key."""
    monkeypatch.chdir(tmp_path)
    for name in ("keys", "age1abc"):
        (tmp_path / name).write_text("")
    for user, where in ((0, tmp_path), (7, Path())):
        monkeypatch.setattr(backup.os, "geteuid", lambda: user)
        args = args_of(Path("all"), site="s.toml", db="d/books.db", recipient=["keys", "age1abc"], folder=Path("f"))
        backup.make_whole(args, "bin/P")
        assert [args.program, args.site, args.db] == [str(tmp_path / it) for it in ("bin/P", "s.toml", "d/books.db")]
        assert (args.into, args.folder) == (where / "all", where / "f")
        assert args.recipient == [str(tmp_path / "keys"), "age1abc"]
    args = args_of(None, site=None)
    backup.make_whole(args, "/bin/P")
    assert (args.into, args.folder, args.site) == (None, None, None)


@pytest.mark.parametrize("text, missing, error, status, is_noted", [
    ("--site S --db D --into A", "", None, 0, False), ("--site S --db D --into A", "", BackupError("why"), 1, True),
    ("--site S --db D --into A", "", OSError(5, "why"), 1, True),
    ("--site S --db D --into A", "", UserError("why"), 1, True),
    ("--site S --db D F", "", BackupError("why"), 1, False),
    ("--db D --into A --clean", "", BackupError("why"), 1, False),
    ("--trial --db D --into A F", "", BackupError("why"), 1, False),
    ("--site S --db D --into A", "station", None, 1, True),
    ("--site S --db D --into A", "sqlite3", None, 1, True), ("--db D --into A --clean", "station", None, 0, False),
])  # fmt: skip
def test_main(monkeypatch, calls, capsys, text, missing, error, status, is_noted):
    masks, signals = [], {}
    calls.fails = {"run": error} if error else {}
    monkeypatch.setattr(sys, "argv", ["backup", *text.split()])
    monkeypatch.setattr(backup, "make_backup", calls.noted("run"))
    monkeypatch.setattr(backup, "note_failure", calls.noted("noted"))
    monkeypatch.setattr(backup.shutil, "which", lambda name: None if name == missing else f"/bin/{name}")
    monkeypatch.setattr(backup.os, "umask", masks.append)
    monkeypatch.setattr(backup.signal, "signal", lambda number, handler: signals.update({number: handler}))
    assert backup.main() == status and masks == [0o077]
    assert signals == {number: backup.stop_run for number in (signal.SIGTERM, signal.SIGINT, signal.SIGHUP)}
    assert ("noted" in heads(calls)) == is_noted and (status == 0 or "backup: " in capsys.readouterr().err)
    assert ("run" in heads(calls)) == (not missing or "--clean" in text)


def test_the_numbers_of_a_copy_are_printed(monkeypatch, tmp_path, capsys):
    seen = []
    monkeypatch.setattr(backup, "copy_store", lambda *words: seen.append(words) or ["orders 1", "seat a1 2"])
    backup.copy(args_of(tmp_path, snapshot="lvm"), "/snap/books.db", tmp_path / "x")
    assert seen == [("/bin/P", "/s.toml", "/snap/books.db", tmp_path / "x", "lvm")]
    assert capsys.readouterr().out == "orders 1\nseat a1 2\n"
