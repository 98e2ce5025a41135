"""Whose a store is, by folders that are made for it, and what of a process's words reaches a terminal."""

import contextlib
import os
import pty
import stat
import subprocess
from pathlib import Path
from types import SimpleNamespace

import pytest
from wanekupo.common import store_user
from wanekupo.common.store_user import StoreFolder, UserError, opened, read_small, shown, user_of

SHOWN = [
    ("plain, ä €\n", "plain, ä €\n"),
    ("\x1b]0;owned\x07", "?]0;owned?"),
    ("a\rb\tc\x00d\x9be", "a?b?c?d?e"),
    ("\u202etxt.exe", "?txt.exe"),
]


@pytest.mark.parametrize("text, wanted", SHOWN)
def test_shown(text: str, wanted: str) -> None:
    assert shown(text) == wanted


def test_shown_is_bounded() -> None:
    """Whoever wrote it could fill a screen for a day."""
    assert shown("x" * 4000) == "x" * 4000
    assert shown("\x1b" * 4001) == "?" * 4000 + ".. (4001 letters)"
    assert shown("abc", 2) == "ab.. (3 letters)"


# The owner and the mode of a folder, the owner of what is in it, who may hold it, and whether it is held.
ROOT, USER, OTHER = 0, 990, 991
HELD = [
    (ROOT, 0o755, USER, True),
    (ROOT, 0o711, ROOT, True),
    (USER, 0o755, USER, True),
    (USER, 0o700, ROOT, True),
    (OTHER, 0o755, USER, False),
    (ROOT, 0o775, USER, False),
    (ROOT, 0o757, USER, False),
    (ROOT, 0o1777, USER, True),
    (ROOT, 0o1777, ROOT, True),
    (ROOT, 0o1777, OTHER, False),
    (OTHER, 0o1777, USER, False),
]


@pytest.mark.parametrize("owner, mode, below, is_held", HELD)
def test_held(owner: int, mode: int, below: int, is_held: bool) -> None:
    above = SimpleNamespace(st_uid=owner, st_mode=stat.S_IFDIR | mode)
    found = SimpleNamespace(st_uid=below, st_mode=stat.S_IFDIR | 0o700)
    if is_held:
        store_user._held(Path("/a/b"), above, found, {ROOT, USER})
    else:
        with pytest.raises(UserError, match="other users can put another folder in the place of /a/b"):
            store_user._held(Path("/a/b"), above, found, {ROOT, USER})


def linked(folder: Path) -> None:
    (folder / "store").rename(folder / "real")
    (folder / "store").symlink_to("real")


def linked_above(folder: Path) -> None:
    (folder / "up").mkdir()
    (folder / "store").rename(folder / "up/store")
    (folder / "way").symlink_to("up")


def filed(folder: Path) -> None:
    (folder / "store").rmdir()
    (folder / "store").write_text("no folder")


NO_FOLDERS = [
    (linked, "store", "is a link, or no folder"),
    (linked_above, "way/store", "way is a link, or no folder"),
    (filed, "store", "is a link, or no folder"),
    (lambda folder: None, "none", "there is no folder .*/none: install -d -m 700"),
]


@pytest.mark.parametrize("make, name, told", NO_FOLDERS)
def test_no_folder(make: object, name: str, told: str, tmp_path: Path) -> None:
    (tmp_path / "store").mkdir()
    os.close(opened(tmp_path / "store"))
    make(tmp_path)
    with pytest.raises(UserError, match=told):
        opened(tmp_path / name)


OWNERS = [
    (0, 0, "is root's, and a store is never root's"),
    (990, 991, "is another user's: run this as root"),
    (123456, 0, "is of 123456, a user without a name"),
]


@pytest.mark.parametrize("owner, runs_as, told", OWNERS)
def test_no_user(owner: int, runs_as: int, told: str, tmp_path: Path, monkeypatch: pytest.MonkeyPatch) -> None:
    monkeypatch.setattr(os, "geteuid", lambda: runs_as)
    monkeypatch.setattr(os, "fstat", lambda _: SimpleNamespace(st_uid=owner))
    with pytest.raises(UserError, match=told):
        user_of(0, tmp_path)


@pytest.mark.parametrize("runs_as, has_store, name", [(990, True, ""), (0, True, "store"), (0, False, "nobody")])
def test_who_reads_a_text(runs_as: int, has_store: bool, name: str, monkeypatch: pytest.MonkeyPatch) -> None:
    """Never root. Of who runs this no store is asked for, so `check` needs none."""

    def folder_of(db: Path) -> SimpleNamespace:
        if not has_store:
            raise UserError(f"there is no folder {db.parent}")
        return SimpleNamespace(user=store_user.StoreUser("store", 991, 992))

    monkeypatch.setattr(store_user, "StoreFolder", folder_of)
    monkeypatch.setattr(os, "geteuid", lambda: runs_as)
    found = store_user.reader_for(Path("/s/books.db"))
    assert found.name == name and found.number != 0 and found.is_own() == (runs_as == 990)


def of_user(folder: Path) -> StoreFolder:
    """A store in a folder, whose user is who runs this."""
    store = StoreFolder.__new__(StoreFolder)
    store.db, store.folder, store.handle = folder / "books.db", folder, opened(folder)
    store.user = store_user.StoreUser("me", os.geteuid(), os.getegid())
    return store


PLACES = [
    (lambda path: path.write_text("12345"), None),
    (lambda path: path.symlink_to("/etc/hostname"), "there is no store .*books.db: it is a link"),
    (lambda path: path.mkdir(), "is no plain file of me"),
    (lambda path: os.mkfifo(path), "is no plain file of me"),
    (lambda path: None, "there is no store .*books.db: No such file"),
]


@pytest.mark.parametrize("make, told", PLACES)
def test_size(make: object, told: str | None, tmp_path: Path) -> None:
    make(tmp_path / "books.db")
    store = of_user(tmp_path)
    if told is None:
        assert store.size() == 5
        return
    with pytest.raises(UserError, match=told):
        store.size()


def test_another_users_file(tmp_path: Path) -> None:
    (tmp_path / "books.db").write_text("12345")
    store = of_user(tmp_path)
    store.user = store_user.StoreUser("other", os.geteuid() + 1, 1)
    with pytest.raises(UserError, match="is no plain file of other"):
        store.size()


def test_read_small(tmp_path: Path) -> None:
    (tmp_path / "small").write_bytes(b"12345")
    (tmp_path / "link").symlink_to("small")
    os.mkfifo(tmp_path / "pipe")
    assert read_small(tmp_path / "small", most=5) == b"12345"
    with pytest.raises(UserError, match="has more than 4 bytes"):
        read_small(tmp_path / "small", most=4)
    with pytest.raises(UserError, match="is no plain file"):
        read_small(tmp_path / "pipe")
    with pytest.raises(OSError):
        read_small(tmp_path / "link")


def test_what_is_read_gives_no_terminal() -> None:
    """Who has a session of its own and no terminal would get one by open(2), if a name led to it."""
    name = os.ttyname(pty.openpty()[1])
    if not (child := os.fork()):
        os.setsid()
        with contextlib.suppress(UserError):
            read_small(Path(name))
        os._exit(not subprocess.run(["sh", "-c", ": > /dev/tty"], stderr=subprocess.DEVNULL).returncode)
    assert os.waitpid(child, 0)[1] == 0
