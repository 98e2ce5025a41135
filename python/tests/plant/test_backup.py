"""The command that backs up: who does what, in which order, what is refused, and what is said of a run that failed."""

import contextlib
import json
import os
import sys
from pathlib import Path
from types import SimpleNamespace

from wanekupo.plant.backup import folder as backup_kept
import pytest
from wanekupo.plant.backup.copies import BackupError
from wanekupo.plant.backup.snapshot import SnapshotStaysError
from backup_calls import Calls, args_of, heads
from scripts import script
from wanekupo.common.store_user import UserError

backup = script("backup")
NAME = "2026-11-29T020000Z"


@pytest.fixture
def calls():
    return Calls()


def by(call):
    call()


# ---- what comes behind a copy


def kept(monkeypatch, calls, **fails):
    calls.fails = fails
    monkeypatch.setattr(backup, "placed", lambda begun, folder, name, recipients: calls.noted("placed")(
        begun.name, name, recipients) or folder / name)  # fmt: skip
    monkeypatch.setattr(backup, "tidy", calls.noted("tidy", ["old"]))
    monkeypatch.setattr(backup, "copy_off", calls.noted("copy_off"))
    monkeypatch.setattr(backup, "note", calls.noted("note"))
    monkeypatch.setattr(backup, "backup_bytes", lambda path: 10)


def test_keep(tmp_path, monkeypatch, calls, capsys):
    kept(monkeypatch, calls)
    backup.finish_backup(args_of(tmp_path, recipient=["age1"], copy_with="copy", keep_days=3, keep_weeks=2,
        taken=("lvm", "2G")), NAME)
    path = tmp_path / NAME
    assert calls == [("placed", f".new-{NAME}", NAME, ["age1"]), ("tidy", tmp_path, 3, 2), ("copy_off", "copy", path),
                     ("note", tmp_path, True, 10, f"backed up in {path}", ("lvm", "2G"))]  # fmt: skip
    assert capsys.readouterr().out == f"removed old\nbacked up in {path}\n"


def test_a_backup_that_was_not_copied_off_is_not_noted_as_good(tmp_path, monkeypatch, calls):
    kept(monkeypatch, calls, copy_off=BackupError("shut"))
    with pytest.raises(BackupError, match="shut"):
        backup.finish_backup(args_of(tmp_path, copy_with="copy"), NAME)
    assert "note" not in heads(calls)


def test_what_cannot_be_tidied_keeps_no_backup_from_its_way_off(tmp_path, monkeypatch, calls):
    kept(monkeypatch, calls, tidy=PermissionError(13, "Permission denied", "/b/old"))
    with pytest.raises(BackupError,
        match=f"{NAME} is here, and an older one can't be removed: /b/old: Permission denied"):
        backup.finish_backup(args_of(tmp_path, copy_with="copy"), NAME)
    assert heads(calls) == ["placed", "tidy", "copy_off"]
    kept(monkeypatch, calls, tidy=PermissionError(13, "Permission denied"))
    with pytest.raises(BackupError):
        backup.finish_backup(args_of(tmp_path), NAME)
    assert heads(calls)[3:] == ["placed", "tidy"], "without a command nothing is copied off"


# ---- a run into the folder of all


def run_into(tmp_path, monkeypatch, calls, stays=None, **more):
    @contextlib.contextmanager
    def snapshot(volume):
        calls.append(("snapshot", volume))
        try:
            yield Path("/snap/books.db")
        finally:
            calls.append(("gone",))
        if stays:
            raise stays

    monkeypatch.setattr(backup, "new_name", lambda folder: NAME)
    monkeypatch.setattr(backup, "hold_snapshot", snapshot)
    monkeypatch.setattr(backup, "copy", lambda args, db, folder: calls.noted("copy")(db, folder))
    monkeypatch.setattr(backup, "finish_backup", lambda args, name: calls.noted("keep")(name))
    monkeypatch.setattr(backup, "remove_begun", lambda folder: calls.noted("remove", [])(folder) or [])
    backup.run_into(args_of(tmp_path, volume="V", **more), by)


@pytest.mark.parametrize("kind, expected", [
    ("", [("remove",), ("copy", "/db/books.db"), ("keep", NAME)]),
    ("lvm", [("remove",), ("snapshot", "V"), ("copy", "/snap/books.db"), ("gone",), ("keep", NAME)]),
])  # fmt: skip
def test_run_into(tmp_path, monkeypatch, calls, kind, expected):
    """The snapshot is gone before what takes time begins."""
    run_into(tmp_path, monkeypatch, calls, snapshot=kind)
    assert [it[:2] if it[0] != "remove" else it[:1] for it in calls] == expected
    assert [it[2] for it in calls if it[0] == "copy"] == [tmp_path / f".new-{NAME}"]


@pytest.mark.parametrize("name", ["copy", "keep"])
@pytest.mark.parametrize("error", [BackupError("why"), OSError(5, "why"), KeyboardInterrupt()])
def test_what_a_failed_run_began_goes(tmp_path, monkeypatch, calls, name, error):
    calls.fails = {name: error}
    with pytest.raises(type(error)):
        run_into(tmp_path, monkeypatch, calls, snapshot="lvm")
    assert heads(calls)[-1] == "remove" and "gone" in heads(calls)
    assert name != "copy" or "keep" not in heads(calls), "a copy that failed is no backup"


def test_a_whole_backup_whose_snapshot_stays_is_one_and_is_told(tmp_path, monkeypatch, calls, capsys):
    with pytest.raises(BackupError, match=f"the backup {NAME} is here, and its snapshot stays: busy"):
        run_into(tmp_path, monkeypatch, calls, SnapshotStaysError("busy"), snapshot="lvm")
    assert ("keep", NAME) in calls and "the snapshot can't be removed: busy" in capsys.readouterr().err


def test_a_snapshot_that_failed_is_no_backup(tmp_path, monkeypatch, calls):
    with pytest.raises(BackupError, match="full"):
        run_into(tmp_path, monkeypatch, calls, BackupError("full"), snapshot="lvm")
    assert "keep" not in heads(calls)


def test_what_was_left_is_told(tmp_path, monkeypatch, capsys):
    (tmp_path / ".new-1").mkdir()
    backup.begin(args_of(tmp_path))
    told = "backup: an earlier run left .new-1, which is removed now\n"
    assert os.listdir(tmp_path) == [] and capsys.readouterr().err == told
    (tmp_path / ".new-2").mkdir()
    backup.clear_begun(args_of(tmp_path))
    assert os.listdir(tmp_path) == []


# ---- root's part


class FakeVolume:
    def __init__(self, calls, kind, left=""):
        self.calls, self.kind, self.left = calls, kind, left

    def removed(self):
        self.calls.append(("removed", self.kind))
        return self.left


def volumes(monkeypatch, calls, left=""):
    def volume_of(kind, db, size):
        calls.append(("volume", kind, str(db), size))
        if kind in calls.fails:
            raise calls.fails[kind]
        return FakeVolume(calls, kind, left)

    monkeypatch.setattr(backup, "volume_of", volume_of)


def noted(folder, kind, size=""):
    (folder / "last-backup.json").write_text(json.dumps({"snapshot": kind, "snapshot_size": size}))


@pytest.mark.parametrize("kind, size, last, found", [
    ("", "", ("lvm", "2G"), ("lvm", "2G")), ("", "1G", ("lvm", "2G"), ("lvm", "1G")),
    ("btrfs", "", ("lvm", "2G"), ("btrfs", "")),
    ("", "", ("evil", ""), None), ("", "", ("", ""), None),
])  # fmt: skip
def test_chosen_kind(tmp_path, kind, size, last, found):
    noted(tmp_path, *last)
    args = args_of(tmp_path, snapshot=kind, snapshot_size=size)
    assert backup.chosen_kind(args) is (found is not None)
    assert not found or (args.snapshot, args.snapshot_size) == found


@pytest.mark.parametrize("last, removed", [("lvm", ["lvm"]), ("zfs", ["lvm", "zfs"]), ("", ["lvm"]), ("evil", ["lvm"])])
def test_a_snapshot_of_the_kind_of_before_goes_too(tmp_path, monkeypatch, calls, capsys, last, removed):
    volumes(monkeypatch, calls, "a snapshot")
    noted(tmp_path, last)
    args = args_of(tmp_path, snapshot="lvm", snapshot_size="2G", volume=FakeVolume(calls, "lvm", "a snapshot"))
    backup.remove_left(args, Path("/db/books.db"))
    assert [it[1] for it in calls if it[0] == "removed"] == removed and args.taken == ("lvm", "2G")
    assert capsys.readouterr().err.count("left a snapshot") == len(removed)


def test_until_it_is_gone_that_kind_stays_noted(tmp_path, monkeypatch, calls):
    noted(tmp_path, "zfs")
    volumes(monkeypatch, calls)
    args = args_of(tmp_path, snapshot="lvm", volume=SimpleNamespace(removed=calls.noted("x")))
    calls.fails = {"x": BackupError("stays")}
    with pytest.raises(BackupError):
        backup.remove_left(args, Path("/db/books.db"))
    assert args.taken == ("", "")


def test_a_kind_of_before_that_cannot_be_seen_is_told(tmp_path, monkeypatch, calls, capsys):
    calls.fails = {"zfs": BackupError("there is no command zfs")}
    volumes(monkeypatch, calls)
    noted(tmp_path, "zfs")
    backup.remove_left(args_of(tmp_path, snapshot="lvm", volume=FakeVolume(calls, "lvm")), Path("/db/books.db"))
    assert "the last snapshot was of zfs" in capsys.readouterr().err


@pytest.fixture
def root(tmp_path, monkeypatch, calls):
    """A run of root's over a store of the user 7; what is done as that user is noted."""
    user = SimpleNamespace(number=7, name="station")
    user.call = lambda call, said, seconds: calls.append(("as", 7)) or call()
    store = SimpleNamespace(db=Path("/db/books.db"), user=user, size=calls.noted("size", 1))

    @contextlib.contextmanager
    def held(folder):
        calls.append(("lock", str(folder)))
        yield

    @contextlib.contextmanager
    def snapshot(volume):
        calls.append(("snapshot",))
        yield Path("/snap/books.db")

    monkeypatch.setattr(backup.os, "geteuid", lambda: 0)
    monkeypatch.setattr(backup, "StoreFolder", lambda db: {"/db/books.db": store}[db])
    monkeypatch.setattr(backup, "tested_user", lambda it, place: calls.append(("tested", str(place))) or user)
    monkeypatch.setattr(backup, "sole_backup", held)
    monkeypatch.setattr(backup, "hold_snapshot", snapshot)
    monkeypatch.setattr(backup, "copy_for_trial", calls.noted("trial"))
    opened = calls.noted("opened")
    monkeypatch.setattr(backup, "opened_shared_lock", lambda path: opened(path.name) or os.open(tmp_path, os.O_RDONLY))
    monkeypatch.setattr(backup, "run_into", lambda args, by: by(lambda: calls.append(("run_into",))))
    volumes(monkeypatch, calls)
    return store


def test_root_makes_a_snapshot_and_the_user_the_backup(root, tmp_path, calls):
    backup.run_snapshot(args_of(tmp_path, snapshot="lvm", snapshot_size="2G"))
    assert calls == [("size",), ("volume", "lvm", "/db/books.db", "2G"), ("lock", "/run/station-backup"),
        ("removed", "lvm"),
                     ("tested", str(tmp_path)), ("as", 7), ("opened", "backup.lock"), ("lock", str(tmp_path)),
                     ("as", 7),
                     ("run_into",)]  # fmt: skip


def test_clean_makes_nothing(root, tmp_path, calls):
    calls.fails = {"size": UserError("no store")}
    backup.run_snapshot(args_of(tmp_path, snapshot="lvm", clean=True))
    assert heads(calls) == ["volume", "lock", "removed"], "also where there is no store any more"


def test_a_trial(root, tmp_path, calls):
    backup.run_snapshot(args_of(tmp_path, snapshot="lvm", trial=True, folder=tmp_path / "room/store"))
    assert calls[-4:] == [("tested", str(tmp_path / "room")), ("snapshot",), ("as", 7),
        ("trial", "/snap/books.db", tmp_path / "room/store")]


def test_a_snapshot_is_roots(root, tmp_path, calls, monkeypatch):
    monkeypatch.setattr(backup.os, "geteuid", lambda: 7)
    with pytest.raises(BackupError, match="a snapshot is root's"):
        backup.run_snapshot(args_of(tmp_path, snapshot="lvm"))
    assert calls == []


@pytest.mark.parametrize("number, is_fit", [(None, True), (4242, False), (0, False)])
def test_both_folders_are_one_users(tmp_path, number, is_fit):
    own = tmp_path.stat().st_uid
    user = SimpleNamespace(number=own if number is None else own + 1 + number)
    store = SimpleNamespace(db=Path("/db/books.db"), user=user)
    if is_fit:
        assert backup.tested_user(store, tmp_path) is user
    else:
        with pytest.raises(BackupError, match="aren't one user's, other than root.*chown both"):
            backup.tested_user(store, tmp_path)


def test_a_folder_is_held_no_longer_than_it_is_looked_at(tmp_path, monkeypatch):
    monkeypatch.setattr(backup, "opened", lambda folder: os.open(folder, os.O_RDONLY))
    with pytest.raises(ValueError), backup.held_open(tmp_path) as handle:
        raise ValueError
    with pytest.raises(OSError):
        os.fstat(handle)


@pytest.mark.parametrize("is_mount, told", [(True, ""), (False, "{0} is no mount point, and is on the disk of {1}: ")])
def test_disk_of(tmp_path, monkeypatch, is_mount, told):
    """A disk that isn't mounted is no reason to give its folder away."""
    (tmp_path / "all").mkdir()
    monkeypatch.setattr(backup.os.path, "ismount",
        lambda path: Path(path) == (tmp_path / "all" if is_mount else tmp_path))
    assert backup.disk_of(tmp_path / "all").startswith(told.format(tmp_path / "all", tmp_path))
    assert bool(backup.disk_of(tmp_path / "all")) == bool(told)


# ---- which of these


def ran(monkeypatch, calls, args):
    if backup.owner_of.__name__ == "owner_of":  # else a test says whose they are
        monkeypatch.setattr(backup, "owner_of", lambda folder: os.geteuid())
    for name in ("run_snapshot", "copy"):
        monkeypatch.setattr(backup, name, calls.noted(name))
    monkeypatch.setattr(backup, "run_into", lambda args, by: by(lambda: calls.append(("run_into",))))
    backup.make_backup(args)
    return heads(calls)


def test_run(tmp_path, monkeypatch, calls, capsys):
    assert ran(monkeypatch, calls, args_of(tmp_path)) == ["run_into"]
    calls.clear()
    assert ran(monkeypatch, calls, args_of(tmp_path, snapshot="lvm")) == ["run_snapshot"]
    calls.clear()
    assert ran(monkeypatch, calls, args_of(None, folder=tmp_path / "x")) == ["copy"]
    assert calls[0][2:] == ("/db/books.db",
        tmp_path / "x") and f"backed up in {tmp_path / 'x'}" in capsys.readouterr().out


def test_a_trial_without_a_kind(tmp_path, monkeypatch, calls):
    with pytest.raises(BackupError, match="name lvm, btrfs or zfs"):
        ran(monkeypatch, calls, args_of(tmp_path, trial=True, folder=tmp_path / "x"))
    noted(tmp_path, "zfs")
    assert ran(monkeypatch, calls, args_of(tmp_path, trial=True, folder=tmp_path / "x")) == ["run_snapshot"]


def test_clean(tmp_path, monkeypatch, calls):
    """What was begun is in plain, so it goes whatever becomes of the snapshot."""
    for kind, expected in (("", []), ("lvm", ["run_snapshot"])):
        (tmp_path / ".new-1").mkdir()
        noted(tmp_path, kind)
        calls.clear()
        assert ran(monkeypatch, calls, args_of(tmp_path, clean=True)) == expected
        assert sorted(os.listdir(tmp_path)) == ["backup.lock", "last-backup.json"]
    (tmp_path / ".new-1").mkdir()
    calls.fails = {"run_snapshot": BackupError("stays")}
    with pytest.raises(BackupError, match="stays"):
        ran(monkeypatch, calls, args_of(tmp_path, clean=True))
    assert not (tmp_path / ".new-1").exists()


def test_another_users_folder_is_refused(tmp_path, monkeypatch, calls):
    """Root too, where the store is its own: what is there was written by another, and root would follow it."""
    monkeypatch.setattr(backup.os, "geteuid", lambda: tmp_path.stat().st_uid + 1)
    with pytest.raises(BackupError, match="run this as that user"):
        ran(monkeypatch, calls, args_of(tmp_path))
    assert calls == []


@pytest.mark.parametrize("is_into", [True, False])
def test_root_has_a_stopped_store_backed_up_by_its_user(root, tmp_path, calls, monkeypatch, is_into):
    """Root itself opens nothing there, and makes neither a lock nor a copy."""
    monkeypatch.setattr(backup, "owner_of", lambda folder: 7)
    more = {} if is_into else {"folder": tmp_path / "x"}
    expected = [("as", 7), ("opened", "backup.lock"), ("lock", str(tmp_path)), ("as", 7), ("run_into",)]
    ran(monkeypatch, calls, args_of(tmp_path if is_into else None, **more))
    assert calls[:2] == [("size",), ("tested", str(tmp_path))]
    if is_into:
        assert calls[2:] == expected
    else:
        assert heads(calls)[2:] == ["as", "copy"]


OWNERS = [(0, 0, ["copy"]), (0, 7, None), (7, 0, None), (7, 7, ["as", "copy"])]


@pytest.mark.parametrize("is_into", [True, False])
@pytest.mark.parametrize("store, place, done", OWNERS)
def test_root_works_in_no_other_users_folder(root, tmp_path, calls, monkeypatch, store, place, done, is_into):
    """Its own store it backs up into a folder of its own alone: in another one it would follow that user's names."""
    monkeypatch.setattr(backup, "owner_of", lambda folder: store if str(folder) == "/db" else place)
    if store != place:
        told = "aren't one user's, other than root"
        monkeypatch.setattr(backup, "tested_user", lambda *_: (_ for _ in ()).throw(BackupError(told)))
    args = args_of(tmp_path) if is_into else args_of(None, folder=tmp_path / "x")
    if done is None:
        with pytest.raises((BackupError, UserError), match="aren't one user's, other than root"):
            ran(monkeypatch, calls, args)
        assert not {"copy", "run_into", "opened", "as"} & set(heads(calls))
    else:
        ran(monkeypatch, calls, args)
        assert (done[-1] if not is_into else "run_into") in heads(calls)
        assert ("as" in heads(calls)) == (store == 7)


def test_roots_lock_makes_nothing_in_another_users_folder(tmp_path, monkeypatch):
    monkeypatch.setattr(backup_kept.os, "geteuid", lambda: 0)
    monkeypatch.setattr(Path, "stat", lambda it, **_: SimpleNamespace(st_uid=7))
    with pytest.raises(FileNotFoundError), backup.sole_backup(tmp_path):
        pytest.fail("a lock was made")
    assert list(tmp_path.iterdir()) == []


def test_one_run_has_the_folder(tmp_path, monkeypatch, calls):
    with backup.sole_backup(tmp_path), pytest.raises(BackupError, match="another backup is at work"):
        ran(monkeypatch, calls, args_of(tmp_path))
    assert calls == []


# ---- what is said


def test_a_failure_is_noted(tmp_path):
    noted(tmp_path, "lvm", "2G")
    backup.note_failure(args_of(tmp_path), "why")
    found = json.loads((tmp_path / "last-backup.json").read_text())
    assert (found["ok"], found["bytes"], found["said"], found["snapshot"]) == (False, 0, "why", "lvm")


def test_a_failure_that_cannot_be_noted_is_told(tmp_path, monkeypatch, calls, capsys):
    calls.fails = {"note": OSError(28, "No space left")}
    monkeypatch.setattr(backup, "note", calls.noted("note"))
    backup.note_failure(args_of(tmp_path), "why")
    assert "may still say that a backup was made: No space left" in capsys.readouterr().err


def test_what_is_anothers_is_done_as_that_user(tmp_path, monkeypatch, calls):
    user = SimpleNamespace(call=lambda call, said, seconds: calls.append(("as", said)) or call())
    monkeypatch.setattr(backup.os, "geteuid", lambda: tmp_path.stat().st_uid + 1)
    monkeypatch.setattr(backup, "opened", lambda folder: os.open(folder, os.O_RDONLY))
    monkeypatch.setattr(backup, "user_of", lambda handle, folder: calls.append(("of", folder)) or user)
    backup.as_owner(tmp_path)(lambda: calls.append(("called",)))
    assert calls == [("of", tmp_path), ("as", backup.cause_of), ("called",)]
    user.call = lambda call, said, seconds: (_ for _ in ()).throw(UserError("killed"))
    with pytest.raises(BackupError, match="^killed$"):
        backup.done_as(user, lambda: None)


def test_a_reader_who_has_enough_is_no_fault(monkeypatch):
    class Shut:
        def write(self, _):
            raise BrokenPipeError

        def flush(self):
            pass

        def fileno(self):
            return 99

    duplicated = []
    monkeypatch.setattr(sys, "stdout", Shut())
    monkeypatch.setattr(backup.os, "dup2", lambda one, two: duplicated.append(two))
    backup.out("a", "b")
    assert duplicated == [99]


def test_a_signal_is_an_error():
    with pytest.raises(BackupError, match="stopped by signal 15"):
        backup.stop_run(15, None)
