"""The folder of backups: what goes and what stays, what an encryption leaves, and what is said of the last backup."""

import contextlib
import json
import os
import stat
import subprocess
import tarfile
import time
from io import BytesIO
from types import SimpleNamespace

from wanekupo.plant.backup import folder as backup_kept
import pytest
from wanekupo.common import token_file
from wanekupo.common import files
from wanekupo.plant.backup.copies import BackupError
from wanekupo.plant.backup.folder import (
    copy_off, encrypted, last_snapshot, new_name, note, placed, remove, remove_begun, tidy,
)

NAME = "2026-11-29T020000Z"


def put(path, text="x"):
    path.parent.mkdir(parents=True, exist_ok=True)
    path.write_text(text)
    return path


def backup(folder, name):
    """A backup's folder of three files with ten bytes."""
    for file, text in (("books.db", "DB"), ("books.db-wal", "LOG"), ("site.toml", "SITE.")):
        put(folder / name / file, text)
    return folder / name


# ---- what goes


def test_remove(tmp_path):
    put(tmp_path / "folder/deep/file")
    put(tmp_path / "file")
    put(tmp_path / "mine/file")
    (tmp_path / "link").symlink_to(tmp_path / "mine")
    for name in ("folder", "file", "link", "nothing"):
        remove(tmp_path / name)
    assert os.listdir(tmp_path) == ["mine"] and (tmp_path / "mine/file").exists(), "a link goes, and not what it names"


def test_what_runs_have_begun_goes(tmp_path):
    for name in (".new-2026", ".new-b", "trial.1", "trial.2", "tried-by-site.x", NAME, "trial", "my.trial.1", "new-1",
        ".newer"):
        put(tmp_path / name / "file")
    put(tmp_path / ".new-c.tar.age")
    for name, age in (("trial.1", 3700), ("trial.2", 3500), ("tried-by-site.x", 3700), ("trial", 9999),
        ("my.trial.1", 9999)):
        os.utime(tmp_path / name, (time.time() - age,) * 2)
    assert remove_begun(tmp_path) == [".new-2026", ".new-b", ".new-c.tar.age", "trial.1", "tried-by-site.x"]
    assert sorted(os.listdir(tmp_path)) == [".newer", NAME, "my.trial.1", "new-1", "trial", "trial.2"]


def test_a_link_that_is_a_trial_is_as_old_as_itself(tmp_path):
    put(tmp_path / "mine/file")
    os.utime(tmp_path / "mine", (0, 0))
    (tmp_path / "trial.9").symlink_to(tmp_path / "mine")
    assert remove_begun(tmp_path) == [] and (tmp_path / "trial.9").is_symlink()


def test_tidy_removes_backups_alone(tmp_path):
    """Seven days with a backup and one week: the newest of each day stays. Nothing that isn't a backup's goes."""
    mine = ["notes", "2026-11-29T020000Z.old", "2026-11-29", "x2026-11-01T020000Z", "last-backup.json",
        "before-2026-11-29T020000-1"]
    for name in mine:
        put(tmp_path / name / "file")
    names = [f"2026-11-{day:02}T{hour:02}0000Z" for day in (1, 2, 3) for hour in (2, 14)]
    for name in names:
        backup(tmp_path, name)
    put(tmp_path / "2026-11-04T020000Z.tar.age")
    gone = tidy(tmp_path, 2, 0)
    # 2026-11-04 and the 3rd's newest stay: days 2, weeks 0.
    assert gone == [it for it in names if it != "2026-11-03T140000Z"]
    assert sorted(os.listdir(tmp_path)) == sorted([*mine, "2026-11-03T140000Z", "2026-11-04T020000Z.tar.age"])


# ---- names and the lock


def test_one_backup_at_a_time(tmp_path):
    with backup_kept.sole_backup(tmp_path):
        with pytest.raises(BackupError, match="another backup is at work"), backup_kept.sole_backup(tmp_path):
            pytest.fail("two at a time")
    with backup_kept.sole_backup(tmp_path):
        assert (tmp_path / "backup.lock").exists()


def test_a_name_that_no_backup_has(tmp_path, monkeypatch):
    moments = iter(range(100, 200))
    monkeypatch.setattr(backup_kept.time, "sleep", lambda _: None)
    monkeypatch.setattr(backup_kept.time, "gmtime", lambda: time.struct_time((2026, 11, 29, 2, 0, next(moments) - 100,
        0, 0, 0)))
    assert new_name(tmp_path) == NAME and backup_kept.NAME.fullmatch(NAME)
    put(tmp_path / "2026-11-29T020001Z/file")
    put(tmp_path / "2026-11-29T020002Z.tar.age")
    assert new_name(tmp_path) == "2026-11-29T020003Z"


@pytest.mark.parametrize("patience, is_had", [(0, False), (2, False), (5, True)])
def test_a_lock_is_waited_for(tmp_path, monkeypatch, patience, is_had):
    """Another run has it until the fourth look, one a second."""
    looks, moments = iter(range(100)), iter(range(100))

    def flock(handle, what):
        if next(looks) < 3:
            raise BlockingIOError

    monkeypatch.setattr(files.fcntl, "flock", flock)
    monkeypatch.setattr(files.time, "monotonic", lambda: next(moments))
    monkeypatch.setattr(files.time, "sleep", lambda _: None)
    with contextlib.nullcontext() if is_had else pytest.raises(BackupError, match="busy"):
        with files.hold_lock(tmp_path / "lock", BackupError("busy"), patience):
            assert is_had


def test_a_file_that_goes_is_synced(tmp_path, monkeypatch):
    synced = []
    monkeypatch.setattr(token_file, "sync", lambda path: synced.append((path, os.listdir(path))))
    put(tmp_path / "f")
    token_file.put(tmp_path / "f", None)
    assert synced == [(tmp_path, [])]


# ---- encryption


class Age:
    """age(1): it notes its words, reads what it is given, and writes that backwards."""

    def __init__(self, status=0, said=b""):
        self.returncode, self.said, self.words = status, said, []

    def __call__(self, words, stdin, stdout, stderr):
        assert stdin == stderr == subprocess.PIPE
        self.words, self.out, age = words, stdout, self

        class Given(BytesIO):
            def close(self):
                age.given = age.given if self.closed else self.getvalue()
                super().close()

        self.given, self.stdin, self.stderr = b"", Given(), BytesIO(self.said)
        return self

    def wait(self):
        assert self.stdin.closed, "it ends when its input ends"
        self.out.write(self.given[::-1])
        return self.returncode


@pytest.fixture
def age(monkeypatch):
    made = Age()
    monkeypatch.setattr(backup_kept.subprocess, "Popen", made)
    return made


def test_encrypted(tmp_path, age, monkeypatch):
    synced = []
    monkeypatch.setattr(backup_kept, "sync", lambda path: synced.append((path.name, path.stat().st_size > 0)))
    begun = backup(tmp_path, f".new-{NAME}")
    keys = put(tmp_path / "keys.txt", "age1..")
    monkeypatch.chdir(tmp_path)
    put(tmp_path / "age1abc", "age1another's")
    path = encrypted(begun, NAME, ["age1abc", str(keys), "age1def"])
    assert path == tmp_path / f".new-{NAME}.tar.age" and synced == [(path.name, True)]
    assert age.words == ["age", "-r", "age1abc", "-R", str(keys), "-r", "age1def"]
    with tarfile.open(fileobj=BytesIO(path.read_bytes()[::-1])) as tar:
        assert sorted(tar.getnames()) == [NAME, *(f"{NAME}/{it}" for it in ("books.db", "books.db-wal", "site.toml"))]
        assert tar.extractfile(f"{NAME}/books.db-wal").read() == b"LOG"


@pytest.mark.parametrize("status, said, told", [(1, b"bad key\nmore\n", "bad key$"), (2, b"", "2$"), (-9, b"", "-9$")])
def test_an_encryption_that_fails(tmp_path, monkeypatch, status, said, told):
    monkeypatch.setattr(backup_kept.subprocess, "Popen", Age(status, said))
    with pytest.raises(BackupError, match=f"age doesn't encrypt the backup: {told}"):
        encrypted(backup(tmp_path, ".new-1"), NAME, ["age1abc"])


def test_without_age(tmp_path, monkeypatch):
    def popen(*_, **__):
        raise FileNotFoundError(2, "No such file", "age")

    monkeypatch.setattr(backup_kept.subprocess, "Popen", popen)
    with pytest.raises(BackupError, match="there is no age: Debian's package has the name age"):
        encrypted(backup(tmp_path, ".new-1"), NAME, ["age1abc"])


def test_placed_in_plain(tmp_path, monkeypatch):
    synced = []
    monkeypatch.setattr(backup_kept, "sync", synced.append)
    path = placed(backup(tmp_path, f".new-{NAME}"), tmp_path, NAME, [])
    assert path == tmp_path / NAME and os.listdir(tmp_path) == [NAME] and synced == [tmp_path]


def test_placed_encrypted_leaves_nothing_in_plain(tmp_path, age):
    path = placed(backup(tmp_path, f".new-{NAME}"), tmp_path, NAME, ["age1abc"])
    assert path == tmp_path / f"{NAME}.tar.age" and os.listdir(tmp_path) == [path.name] and age.given


def test_placed_of_a_failed_encryption_is_no_backup(tmp_path, monkeypatch):
    monkeypatch.setattr(backup_kept.subprocess, "Popen", Age(1, b"bad key"))
    with pytest.raises(BackupError):
        placed(backup(tmp_path, f".new-{NAME}"), tmp_path, NAME, ["age1abc"])
    assert all(it.startswith(".new-") for it in os.listdir(tmp_path)), "the next run removes it"


def test_the_room_of_an_encryption_is_told(tmp_path, age, monkeypatch):
    monkeypatch.setattr(backup_kept, "encrypted", lambda *_: (_ for _ in ()).throw(BackupError("why")))
    monkeypatch.setattr(backup_kept.shutil, "disk_usage", lambda _: SimpleNamespace(free=0))
    with pytest.raises(BackupError, match="its encryption needs 2 MB there"):
        placed(backup(tmp_path, f".new-{NAME}"), tmp_path, NAME, ["age1abc"])


def test_bytes_of(tmp_path):
    assert backup_kept.backup_bytes(backup(tmp_path, NAME)) == 10
    assert backup_kept.backup_bytes(put(tmp_path / "x.tar.age", "12345")) == 5


# ---- the way off


@pytest.mark.parametrize("command, words", [
    ("copy", ["copy", "/b/x"]), ("copy {} host:/", ["copy", "/b/x", "host:/"]),
    ("copy --from={} 'a b'", ["copy", "--from=/b/x", "a b"]),
    ("copy {} {}.sum", ["copy", "/b/x", "/b/x.sum"]),
])  # fmt: skip
def test_copy_off(monkeypatch, command, words):
    calls = []
    monkeypatch.setattr(backup_kept.subprocess, "run", lambda it,
        **more: calls.append((it, more)) or subprocess.CompletedProcess(it, 0))
    copy_off(command, backup_kept.Path("/b/x"))
    assert calls[0][0] == words and calls[0][1]["stdin"] == subprocess.DEVNULL and "shell" not in calls[0][1]


def test_a_name_with_blanks_is_one_word(monkeypatch):
    calls = []
    monkeypatch.setattr(backup_kept.subprocess, "run", lambda it,
        **more: calls.append(it) or subprocess.CompletedProcess(it, 0))
    copy_off("copy {}", backup_kept.Path("/b/x; rm y"))
    assert calls == [["copy", "/b/x; rm y"]]


@pytest.mark.parametrize("done, told", [
    (subprocess.CompletedProcess([], 1, "", "one\ntwo\n"), "copy ended with status 1: two$"),
    (subprocess.CompletedProcess([], 255, "out\n", ""), "status 255: out$"),
    (subprocess.CompletedProcess([], -9, "", ""), "status -9: it said nothing$"),
    (FileNotFoundError(2, "No such file"), "copy: No such file$"),
])  # fmt: skip
def test_a_copy_that_fails(monkeypatch, done, told):
    def run(words, **more):
        if isinstance(done, Exception):
            raise done
        return done

    monkeypatch.setattr(backup_kept.subprocess, "run", run)
    with pytest.raises(BackupError, match=f"/b/x is here, and wasn't copied off: .*{told}"):
        copy_off("copy", backup_kept.Path("/b/x"))


# ---- what is said of the last


def noted(folder):
    return json.loads((folder / "last-backup.json").read_text())


def test_note(tmp_path, monkeypatch):
    monkeypatch.setattr(backup_kept, "now_text", lambda: "2026-01-02T03:04:05Z")
    note(tmp_path, True, 10, "made", ("lvm", "2G"))
    assert noted(tmp_path) == {"at": "2026-01-02T03:04:05Z", "ok": True, "bytes": 10, "said": "made", "snapshot": "lvm",
                               "snapshot_size": "2G"}  # fmt: skip
    assert stat.S_IMODE((tmp_path / "last-backup.json").stat().st_mode) == 0o600
    note(tmp_path, False, 0, "failed", ("", ""))
    found = noted(tmp_path)
    assert (found["ok"], found["said"]) == (False, "failed")
    assert last_snapshot(tmp_path) == ("lvm", "2G"), "the last kind stays noted"
    note(tmp_path, True, 1, "made", ("zfs", ""))
    assert last_snapshot(tmp_path) == ("zfs", "")


@pytest.mark.parametrize("size, found", [
    ("2G", "2G"), ("512m", "512m"), ("100", "100"), ("20%ORIGIN", ""), ("2G --yes", ""), ("-1G", ""), ("2G\n", ""),
    ("", ""),
    (["2G"], ""), (None, ""), ("1234567890", ""),
])  # fmt: skip
def test_only_what_may_be_a_size_is_one(tmp_path, size, found):
    """The store's user writes that file, and root's lvcreate gets the size."""
    put(tmp_path / "last-backup.json", json.dumps({"snapshot": "lvm", "snapshot_size": size}))
    assert last_snapshot(tmp_path) == ("lvm", found)
