"""Files that are whole or not there, with a mode that fits, and a lock that one run at a time has."""

import fcntl
import os
import stat

import pytest
from wanekupo.common import files
from wanekupo.common.files import hold_lock, make_file, opened_shared_lock, removed_folder, replace_file
from wanekupo.common.signing import digest_file


def mode_of(path):
    return stat.S_IMODE(path.stat().st_mode)


def test_a_new_file_is_its_owners_alone_and_replaces_nothing(tmp_path):
    path = tmp_path / "new"
    before = os.umask(0)
    make_file(path, "ä\n")
    os.umask(before)
    assert path.read_bytes() == b"\xc3\xa4\n" and mode_of(path) == 0o600
    with pytest.raises(FileExistsError):
        make_file(path, "other")
    (tmp_path / "link").symlink_to(tmp_path / "elsewhere")
    with pytest.raises(FileExistsError):
        make_file(tmp_path / "link", "other")
    assert path.read_bytes() == b"\xc3\xa4\n" and not (tmp_path / "elsewhere").exists()


def test_a_text_comes_in_a_files_place(tmp_path):
    path, like = tmp_path / "file", tmp_path / "like"
    like.write_text("x")
    like.chmod(0o640)
    for text in ("one\n", "two\n", ""):
        replace_file(path, text)
        assert path.read_text() == text and mode_of(path) == 0o600
    replace_file(path, "three\n", like=like.stat())
    assert path.read_text() == "three\n" and mode_of(path) == 0o640
    before = os.umask(0o077)
    replace_file(path, "four\n", 0o644)
    os.umask(before)
    assert mode_of(path) == 0o644
    assert sorted(it.name for it in tmp_path.iterdir()) == ["file", "like"]


def test_what_a_cut_run_left_is_no_trap(tmp_path):
    path, other = tmp_path / "file", tmp_path / "other"
    other.write_text("other\n")
    (tmp_path / "file.new").symlink_to(other)
    replace_file(path, "text\n")
    assert (path.read_text(), other.read_text(), path.is_symlink()) == ("text\n", "other\n", False)


def test_whoever_gets_a_file_reads_its_digest(tmp_path):
    before = os.umask(0o022)
    made = digest_file(tmp_path / "list.csv", b"abc")
    os.umask(before)
    abc = "ba7816bf8f01cfea414140de5dae2223b00361a396177a9cb410ff61f20015ad"  # by FIPS 180-4
    assert (made.read_text(), mode_of(made)) == (f"{abc}  list.csv\n", 0o644)


def test_what_comes_meanwhile_is_not_overwritten(tmp_path, monkeypatch):
    """A link isn't followed, and nobody waits for who reads a pipe."""
    folder, other = tmp_path / "folder", tmp_path / "other"
    folder.mkdir()
    for path in (folder / "link", folder / "pipe", other):
        path.write_text("kept\n")
    came = {"link": lambda path: os.symlink(other, path), "pipe": os.mkfifo}
    monkeypatch.setattr(os, "chmod", lambda path, _: (os.unlink(path), came[os.path.basename(path)](path)))
    removed_folder(folder)
    assert other.read_text() == "kept\n" and not folder.exists()


# Each call of the system that may fail, in its order: the file of before is whole then, and nothing is beside it.
CALLS = ["fsync", "replace"]


@pytest.mark.parametrize("call", CALLS)
def test_a_failure_leaves_the_file_of_before(tmp_path, monkeypatch, call):
    path = tmp_path / "file"
    path.write_text("before\n")

    def fails(*_):
        raise OSError(28, "No space left on device")

    monkeypatch.setattr(os, call, fails)
    with pytest.raises(OSError, match="No space left"):
        replace_file(path, "text\n")
    assert path.read_text() == "before\n" and [it.name for it in tmp_path.iterdir()] == ["file"]


def test_the_file_and_its_folder_are_synced_in_order(tmp_path, monkeypatch):
    path, done = tmp_path / "file", []
    fsync, replace = os.fsync, os.replace

    def synced(handle):
        done.append("folder" if stat.S_ISDIR(os.fstat(handle).st_mode) else "file")
        fsync(handle)

    def replaced(source, to):
        done.append("name")
        replace(source, to)

    monkeypatch.setattr(os, "fsync", synced)
    monkeypatch.setattr(os, "replace", replaced)
    replace_file(path, "text\n")
    assert done == ["file", "name", "folder"]


class BusyError(Exception):
    pass


def test_one_run_has_the_lock(tmp_path):
    lock = tmp_path / "lock"
    with hold_lock(lock, BusyError("busy")):
        with pytest.raises(BusyError), hold_lock(lock, BusyError("busy"), 0.1):
            pass
    with hold_lock(lock, BusyError("busy")):
        assert mode_of(lock) == 0o600
    (tmp_path / "link").symlink_to(lock)
    with pytest.raises(OSError), hold_lock(tmp_path / "link", BusyError("busy")):
        pass


def test_a_lock_is_a_plain_file(tmp_path):
    """A pipe, a link or a folder in its place holds nobody up, and is opened by nobody."""
    os.mkfifo(tmp_path / "pipe")
    (tmp_path / "folder").mkdir()
    (tmp_path / "link").symlink_to(tmp_path / "elsewhere")
    for name in ("pipe", "folder", "link"):
        with pytest.raises(OSError):
            opened_shared_lock(tmp_path / name)
    with pytest.raises(FileNotFoundError):
        opened_shared_lock(tmp_path / "none", is_made=False)
    os.close(opened_shared_lock(tmp_path / "lock"))
    os.close(opened_shared_lock(tmp_path / "lock", is_made=False))
    assert {it.name for it in tmp_path.iterdir()} == {"pipe", "folder", "link", "lock"}


def test_a_lock_that_another_has_is_not_waited_for(monkeypatch):
    """By flock(2) between these programs, and by fcntl(2) with SQLite."""
    found = []
    for name in ("flock", "lockf"):
        monkeypatch.setattr(files.fcntl, name, lambda opened, what, name=name: found.append((opened, name, what)))
    files.locked(7)
    files.tested_unlocked(8)
    assert found == [(7, "flock", fcntl.LOCK_EX | fcntl.LOCK_NB), (8, "lockf", fcntl.LOCK_SH | fcntl.LOCK_NB)]
