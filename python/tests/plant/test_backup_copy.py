"""A copy of a store that is one: what is refused, what is compared, and what is gone again where anything fails."""

import errno
import hashlib
import json
import os
import pwd
import shutil
import stat
import subprocess
import time
from pathlib import Path
from types import SimpleNamespace

from wanekupo.common.errors import cause_of
from wanekupo.plant.backup import copies as backup_copy
import pytest
from wanekupo.plant.backup.copies import BackupError, copy_store, look_at, size_of, told_if_full

COUNTS = "orders|2\ndevices|3\nrecords|4\nseat|a1|17\n"


@pytest.fixture
def store(tmp_path):
    """A store's two files and its site."""
    (tmp_path / "db").mkdir()
    for name, text in (("books.db", "DB"), ("books.db-wal", "LOG"), ("site.toml", "SITE")):
        (tmp_path / "db" / name).write_text(text)
    return tmp_path / "db/books.db"


class Machine:
    """The programs: sqlite3 prints counts, `station` opens a copy. It notes what each is asked, and may alter files."""

    def __init__(self):
        self.calls, self.status, self.prints, self.opens, self.meanwhile = [], 0, {}, 0, lambda: None

    def run(self, words, **more):
        self.calls.append((list(map(str, words)), more))
        if more.get("check") and (self.status or self.opens):
            raise subprocess.CalledProcessError(1, words)
        if words[0] == "sqlite3":
            said = self.prints.get(Path(words[-2]).parent.name, self.prints.get("", COUNTS))
            more["stdout"].write(said.encode())
            more["stderr"].write(b"Error: why\n" if self.status else b"")
            return subprocess.CompletedProcess(words, self.status)
        self.meanwhile()
        if "--version" in words:
            more["stdout"].write(b"station 1.2.3\n")
        return subprocess.CompletedProcess(words, 0 if "--version" in words else self.opens)


@pytest.fixture
def machine(monkeypatch):
    made = Machine()
    monkeypatch.setattr(backup_copy.subprocess, "run", made.run)
    monkeypatch.setattr(backup_copy, "is_served", lambda db: False)
    return made


@pytest.fixture
def program(tmp_path):
    (tmp_path / "station").write_text("PROGRAM")
    return str(tmp_path / "station")


# ---- words


@pytest.mark.parametrize("error, said", [
    (FileNotFoundError(2, "No such file", "/a"), "/a: No such file"),
    (OSError(18, "Cross-device", "/a", None, "/b"), "/a to /b: Cross-device"), (OSError(5, "Fault"), "Fault"),
    (BackupError("why"), "why"), (ValueError(), "ValueError"), (OSError("odd"), "odd"),
    (KeyboardInterrupt(), "KeyboardInterrupt"),
])  # fmt: skip
def test_cause_of(error, said):
    assert cause_of(error) == said


def test_size_of(tmp_path):
    (tmp_path / "a").write_bytes(b"123")
    (tmp_path / "b").write_bytes(b"4567")
    assert size_of(tmp_path / "a", tmp_path / "b", tmp_path / "c") == 7 and size_of() == 0


def test_digest_of_file(tmp_path):
    (tmp_path / "a").write_bytes(b"abc")
    abc = "ba7816bf8f01cfea414140de5dae2223b00361a396177a9cb410ff61f20015ad"  # by FIPS 180-4
    assert backup_copy.digest_of_file(tmp_path / "a") == abc


def test_now():
    """UTC, as RFC 3339 has it, and as date(1) says it before and after."""
    words = ["date", "-u", "+%Y-%m-%dT%H:%M:%SZ"]
    before = subprocess.check_output(words, text=True).strip()
    found = backup_copy.now_text()
    assert before <= found <= subprocess.check_output(words, text=True).strip()


def test_name_of_user(monkeypatch):
    assert backup_copy.name_of_user(0) == "root"
    monkeypatch.setattr(pwd, "getpwuid", lambda _: {}[0])
    assert backup_copy.name_of_user(4242) == "4242"


# ---- a disk that is full


@pytest.mark.parametrize("error, free, told", [
    (OSError(errno.ENOSPC, "No space left on device", "/x"), 10**9, "No space left at {0}: a copy needs 6 MB there"),
    (OSError(errno.EDQUOT, "Quota"), 10**9, "No space left at {0}: a copy needs 6 MB there"),
    (BackupError("sqlite3 said"), 1 << 20, "sqlite3 said"),
    (BackupError("sqlite3 said"), (1 << 20) - 1, "sqlite3 said. No space left at {0}: a copy needs 6 MB there"),
    (OSError(errno.EIO, "Input/output error", "/x"), 0,
     "/x: Input/output error. No space left at {0}: a copy needs 6 MB there"),
    (OSError(errno.EACCES, "Permission denied", "/x"), 10**9, "Permission denied"),
])  # fmt: skip
def test_told_if_full(tmp_path, monkeypatch, error, free, told):
    """5,000,000 bytes and one MiB beside them are 6.05 MB, rounded up."""
    monkeypatch.setattr(backup_copy.shutil, "disk_usage", lambda folder: SimpleNamespace(free=free))
    with pytest.raises((BackupError, OSError)) as found, told_if_full(tmp_path, 4_900_000, "a copy"):
        raise error
    text = str(found.value)
    assert told.format(tmp_path) in text and ("No space" in text) == ("No space left at" in told)


def test_no_error_is_no_fault_and_others_pass(tmp_path):
    with told_if_full(tmp_path, 1, "a copy"):
        pass
    with pytest.raises(KeyboardInterrupt), told_if_full(tmp_path, 1, "a copy"):
        raise KeyboardInterrupt


# ---- sqlite3


def test_sqlite3_runs_in_its_safe_mode_and_reads_alone(machine):
    backup_copy.safely("a", "b")
    ((words, more),) = machine.calls
    assert words == ["sqlite3", "-init", "/dev/null", "-safe", "-readonly", "a", "b"]
    assert more["stdin"] == subprocess.DEVNULL


def test_who_has_what_a_command_prints_to_holds_nobody():
    begun = time.monotonic()
    done = backup_copy.run_unpiped("sh", "-c", "printf 'a\\377'; echo b >&2; sleep 5 & exit 3")
    assert (done.returncode, done.stdout, done.stderr) == (3, "a\ufffd", "b\n") and time.monotonic() - begun < 4


@pytest.mark.parametrize("out, err, is_served", [
    ("", "Error: database is locked\n", True), ("database is locked (5)", "", True), ("17\n", "", False),
    ("", "Error: file is not a database\n", False),
])  # fmt: skip
def test_is_served(monkeypatch, out, err, is_served):
    asked = []
    monkeypatch.setattr(backup_copy, "safely",
        lambda *words: asked.append(words) or subprocess.CompletedProcess(words, 0, out, err))
    assert backup_copy.is_served(Path("/a b/c%d?e#f.db")) == is_served
    ((uri, statement),) = asked
    # RFC 3986: the three that end or escape a path are escaped themselves.
    assert uri == "file:/a b/c%25d%3fe%23f.db?mode=ro&readonly_shm=1" and statement == "PRAGMA schema_version"


def test_counts_of(tmp_path, machine):
    (tmp_path / "c.db-shm").write_text("")
    assert backup_copy.copied_counts(tmp_path / "c.db", "s") == ["orders 2", "devices 3", "records 4", "seat a1 17"]
    ((words, _),) = machine.calls
    assert words[:7] == ["sqlite3", "-init", "/dev/null", "-safe", "-readonly", "-bail", str(tmp_path / "c.db")]
    assert not (tmp_path / "c.db-shm").exists()


def test_counts_that_cannot_be_read(tmp_path, machine):
    machine.status = 1
    with pytest.raises(BackupError, match="sqlite3 can't read the copy of s: Error: why$"):
        backup_copy.copied_counts(tmp_path / "c.db", "s")


@pytest.mark.skipif(not shutil.which("sqlite3"), reason="sqlite3 isn't there")
def test_what_is_counted(tmp_path):
    """By sqlite3 itself: a row more in any of the four tables, and another number of a seat, are seen."""
    tables = "CREATE TABLE orders(a); CREATE TABLE device(a); CREATE TABLE given(a); CREATE TABLE seat(name, last);"
    seen = set()
    for number, more in enumerate(["", "INSERT INTO orders VALUES (1);", "INSERT INTO device VALUES (1);",
                                   "INSERT INTO given VALUES (1);", "UPDATE seat SET last = 8;",
                                   "INSERT INTO seat VALUES ('b1', 0);"]):  # fmt: skip
        db = tmp_path / f"{number}.db"
        seat = "INSERT INTO seat VALUES ('a1', 7);"
        subprocess.run(["sqlite3", str(db), tables + seat + more], check=True)
        seen.add(tuple(backup_copy.copied_counts(db, "s")))
    assert len(seen) == 6 and ("orders 0", "devices 0", "records 0", "seat a1 7") in seen


# ---- what may be backed up


def test_look_at(store, tmp_path):
    (tmp_path / "link").symlink_to(store)
    assert look_at(str(tmp_path / "link")) == store, "the log stands beside the file, and not beside a link"


@pytest.mark.parametrize("kind, told", [
    ("no store", "no store"), ("no log", "-wal"), ("empty log", "-wal"), ("a link", "-wal"),
    ("another's", "as that user"),
])  # fmt: skip
def test_look_at_refuses(store, monkeypatch, kind, told):
    if kind == "no store":
        store.unlink()
    if kind == "no log":
        Path(f"{store}-wal").unlink()
    if kind == "empty log":
        Path(f"{store}-wal").write_bytes(b"")
    if kind == "a link":
        os.rename(f"{store}-wal", f"{store}-log")
        os.symlink(f"{store}-log", f"{store}-wal")
    if kind == "another's":
        monkeypatch.setattr(os, "geteuid", lambda: store.stat().st_uid + 1)
    with pytest.raises(BackupError, match=told):
        look_at(str(store))


def test_roots_rights_are_no_other_users_store(store, monkeypatch):
    """Root backs no other user's store up, either: it would do what the file brings it to."""
    found = os.stat(store)
    values = list(found)
    values[4] = 4242
    real = Path.stat
    monkeypatch.setattr(Path, "stat", lambda it, **more: os.stat_result(values) if it == store else real(it, **more))
    monkeypatch.setattr(os, "geteuid", lambda: 0)
    with pytest.raises(BackupError):
        look_at(str(store))


def test_a_log_on_another_volume_is_refused(store, monkeypatch):
    """A snapshot of one volume has both of one moment; of two it doesn't."""
    real = Path.stat
    log = Path(f"{store}-wal")

    def stat_of(it, **more):
        values = list(real(it, **more))
        if it == log:
            values[2] += 1
        return os.stat_result(values)

    monkeypatch.setattr(Path, "stat", stat_of)
    with pytest.raises(BackupError):
        look_at(str(store))


def test_opened_by(machine):
    for status, is_opened in ((0, True), (1, False), (-9, False)):
        machine.opens = status
        assert backup_copy.opened_by("P", "S", Path("/c.db")) is is_opened
    words, more = machine.calls[0]
    assert words == ["P", "replay", "--site", "S", "--db", "/c.db",
        "--existing"] and more["stdin"] == subprocess.DEVNULL


# ---- the copy


def test_a_backup(store, tmp_path, machine, program, monkeypatch):
    synced = []
    real = backup_copy.sync
    monkeypatch.setattr(backup_copy, "sync", lambda path: (synced.append(path.name), real(path)))
    folder = tmp_path / "made"
    counts = copy_store(program, str(store.with_name("site.toml")), str(store), folder, "btrfs")
    assert counts == ["orders 2", "devices 3", "records 4", "seat a1 17"]
    assert sorted(os.listdir(folder)) == ["about.json", "books.db", "books.db-wal", "site.toml"]
    assert {name: (folder / name).read_text() for name in ("books.db", "books.db-wal", "site.toml")} == {
        "books.db": "DB", "books.db-wal": "LOG", "site.toml": "SITE"}  # fmt: skip
    assert stat.S_IMODE(folder.stat().st_mode) == 0o700
    assert synced == ["books.db", "books.db-wal", "site.toml", "made"], "each file, and at the end the folder"
    about = json.loads((folder / "about.json").read_text())
    assert about["sha256"] == {name: hashlib.sha256(text).hexdigest() for name, text in
                               (("books.db", b"DB"), ("books.db-wal", b"LOG"), ("site.toml", b"SITE"))}  # fmt: skip
    assert (about["program"], about["program_sha256"]) == ("station 1.2.3", hashlib.sha256(b"PROGRAM").hexdigest())
    assert (about["of"], about["bytes"], about["counts"]) == ("btrfs", 9, counts)


def test_of_a_stopped_server(store, tmp_path, machine, program):
    copy_store(program, str(store.with_name("site.toml")), str(store), tmp_path / "made")
    assert json.loads((tmp_path / "made/about.json").read_text())["of"] == "a stopped server"


def test_the_program_opens_a_second_copy_before_sqlite3_reads_one(store, tmp_path, machine, program):
    site = str(store.with_name("site.toml"))
    copy_store(program, site, str(store), tmp_path / "made")
    order = [words for words, _ in machine.calls if "--version" not in words]
    trial = str(tmp_path / "made/trial/books.db")
    assert order[0] == [program, "replay", "--site", site, "--db", trial, "--existing"]
    assert [words[6] for words in order[1:]] == [str(tmp_path / "made/books.db"), trial]


def changed(path):
    return lambda: path.write_text("OTHER")


FAULTS = ["served", "refused", "unreadable", "other rows", "store changed", "log changed", "no site", "killed"]


@pytest.mark.parametrize("fault", FAULTS)
def test_where_anything_fails_there_is_no_backup(store, tmp_path, machine, program, monkeypatch, fault):
    site = store.with_name("site.toml")
    if fault == "served":
        monkeypatch.setattr(backup_copy, "is_served", lambda db: True)
    if fault == "refused":
        machine.opens = 1
    if fault == "killed":
        machine.opens = -9
    if fault == "unreadable":
        machine.status = 1
    if fault == "other rows":
        machine.prints = {"trial": COUNTS.replace("17", "16")}
    if fault == "store changed":
        machine.meanwhile = changed(store)
    if fault == "log changed":
        machine.meanwhile = changed(Path(f"{store}-wal"))
    if fault == "no site":
        site.unlink()
    told = {"store changed": f"^{store} isn't as it was copied", "log changed": f"^{store}-wal isn't as it was copied"}
    with pytest.raises((BackupError, OSError), match=told.get(fault)):
        copy_store(program, str(site), str(store), tmp_path / "made")
    assert not (tmp_path / "made").exists()
    assert (fault != "served") or machine.calls == []


def test_a_signal_takes_what_was_begun_away(store, tmp_path, machine, program, monkeypatch):
    monkeypatch.setattr(backup_copy, "copied_counts", lambda *_: (_ for _ in ()).throw(KeyboardInterrupt))
    with pytest.raises(KeyboardInterrupt):
        copy_store(program, str(store.with_name("site.toml")), str(store), tmp_path / "made")
    assert not (tmp_path / "made").exists()


def test_a_folder_that_was_there_stays(store, tmp_path, machine, program):
    (tmp_path / "made").mkdir()
    (tmp_path / "made/mine").write_text("x")
    with pytest.raises(BackupError, match="a folder that wasn't there"):
        copy_store(program, str(store.with_name("site.toml")), str(store), tmp_path / "made")
    assert (tmp_path / "made/mine").read_text() == "x"


def test_room_for_two_copies(store, tmp_path, machine, program, monkeypatch):
    asked = []
    monkeypatch.setattr(backup_copy, "told_if_full", lambda folder, size, what: (asked.append((folder, size)),
                                                                             told_if_full(folder, size,
                                                                                 what))[1])  # fmt: skip
    copy_store(program, str(store.with_name("site.toml")), str(store), tmp_path / "made")
    backup_copy.copy_for_trial(str(store), tmp_path / "trial")
    assert asked == [(tmp_path, 2 * 5), (tmp_path, 5)]


def test_a_copy_for_a_trial(store, tmp_path, machine):
    backup_copy.copy_for_trial(str(store), tmp_path / "trial")
    assert sorted(os.listdir(tmp_path / "trial")) == ["books.db", "books.db-wal"] and machine.calls == []
    assert (tmp_path / "trial/books.db-wal").read_text() == "LOG" and (tmp_path / "trial/books.db").read_text() == "DB"
    Path(f"{store}-wal").unlink()
    with pytest.raises(BackupError):
        backup_copy.copy_for_trial(str(store), tmp_path / "again")
    assert not (tmp_path / "again").exists()
