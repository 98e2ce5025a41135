"""Where a store is and what runs there: who does which command, and which copy is tried."""

import argparse
import contextlib
import os
import subprocess
from pathlib import Path
from types import SimpleNamespace

import pytest
from wanekupo.plant import trial_copy as store_copy
from conftest import TOP
from wanekupo.plant.site import place as places
from wanekupo.plant.site.place import Place, text_in
from wanekupo.plant.trial_copy import Backup, NoCopyError, copy_files, copy_running
from wanekupo.common.store_user import UserError
from wanekupo.common.token_file import TokenError


class FakeUser:
    """The store's user, whose commands are noted; `fails` has the first words of those that fail."""

    name = "station"

    def __init__(self, out="", err="", fails=()):
        self.calls, self.out, self.err, self.fails = [], out, err, fails

    def run(self, *words, given="", seconds=0):
        self.calls.append(words)
        fails = words[0] in self.fails
        return subprocess.CompletedProcess(words, int(fails), self.out, self.err if fails else "")


@pytest.fixture
def place(tmp_path):
    words = {"site": tmp_path / "site.toml", "db": tmp_path / "books.db", "backups": tmp_path / "b",
        "tokens": "/t/tokens.conf",
             "program": "P", "token_words": "--no-reload --wait '1 2'", "room": str(tmp_path),
             "snapshot": ""}  # fmt: skip
    made = Place(argparse.Namespace(**words))
    made.store = SimpleNamespace(user=FakeUser(), size=lambda ending="": 2 if ending else 40)
    return made


@pytest.mark.parametrize("data, text", [(b"a\r\nb\n", "a\r\nb\n"), (b"", ""), ("é\ufeff".encode(), "é\ufeff")])
def test_a_text_as_it_is(tmp_path, data, text):
    (tmp_path / "f").write_bytes(data)
    assert text_in(tmp_path / "f") == text


def test_a_text_is_a_plain_files(tmp_path):
    """Another user may have put a pipe, a link or an endless file where root looks."""
    (tmp_path / "link").symlink_to("f")
    # A site may have 1,048,576 bytes (docs/reference/program.md): the program refuses one more, and more isn't read.
    (tmp_path / "f").write_bytes(bytes((1 << 20) + 2))
    os.mkfifo(tmp_path / "pipe")
    for name in ("link", "f", "pipe", "."):
        with pytest.raises((UserError, OSError)):
            text_in(tmp_path / name)


def test_the_line_of_what_is_no_text(tmp_path):
    for data, line in ((b"a\nb\nc\xff", 3), (b"\n\xff\n", 2), (b"\xff", 1)):
        (tmp_path / "f").write_bytes(data)
        with pytest.raises(TokenError, match=f"f:{line}: a byte that is no UTF-8"):
            text_in(tmp_path / "f")


def test_names(place, tmp_path):
    assert (place.next, place.plan) == (tmp_path / "site.next.toml", tmp_path / "site.growth")
    program = str(TOP / "python/bin/station-token")
    assert place.token_words() == [program, "--file", "/t/tokens.conf", "--no-reload", "--wait", "1 2"]


def runs(monkeypatch, status, out="", err=""):
    calls = []
    monkeypatch.setattr(places.subprocess, "run", lambda words, **more: calls.append((*words, more["input"])) or
                        subprocess.CompletedProcess(words, status, out, err))  # fmt: skip
    return calls


def test_a_command_that_is_missing(place, monkeypatch):
    monkeypatch.setattr(places.subprocess, "run", lambda *_,
        **__: (_ for _ in ()).throw(FileNotFoundError(2, "No such file")))
    with pytest.raises(TokenError, match="^P: No such file$"):
        place.ran("P")


@pytest.mark.parametrize("status, out, err, answer", [(0, "", "", (True, "")), (1, "out\n", "", (False, "out")),
                                                      (3, "out", "err\n", (False, "err")),
                                                      (-9, "", "", (False, ""))])  # fmt: skip
def test_service(place, monkeypatch, status, out, err, answer):
    calls = runs(monkeypatch, status, out, err)
    assert place.service("systemctl stop 'a b'") == answer and calls == [("systemctl", "stop", "a b", "")]


class FakeReader:
    """Who runs the program over texts: what it is given is noted as it reads it, by the names of its words."""

    def __init__(self, status=0, err=""):
        self.calls, self.status, self.err = [], status, err

    def run(self, *words, fds, seconds=0):
        names = {f"/proc/self/fd/{it}": it for it in fds}
        self.calls.append([Path(it).read_text() if it in names else it for it in words])
        return subprocess.CompletedProcess(words, self.status, "", self.err)


@pytest.mark.parametrize("status, err, said", [
    (0, "warning", ""), (1, "station: site fault 3: x\n", "station: site fault 3: x"), (-9, "", "status -9"),
    (1, "a\x1b[2Jb", "a?[2Jb"),
])  # fmt: skip
def test_what_the_program_says(place, status, err, said):
    """A program that is killed took nothing, and what it prints is harmless. It gets no name of a file."""
    place.reader = place.store.user = reader = FakeReader(status, err)
    assert place.refusal("check-map", "a map") == place.refusal("check-site", "é", "") == said
    assert place.store_refusal("text", Path("/d")) == said
    assert reader.calls == [
        ["P", "check-map", "a map"], ["P", "check-site", "é", "--from", ""],
        ["P", "replay", "--site", "text", "--db", "/d", "--existing"],
    ]  # fmt: skip


def test_who_reads_a_text(place, monkeypatch, tmp_path):
    monkeypatch.setattr(places, "reader_for", lambda db: ("of", db))
    monkeypatch.setattr(places.shutil, "which", lambda name: None)
    with pytest.raises(TokenError, match="^there is no program P, .*: --program P$"):
        place.refusal("check-site", "")
    monkeypatch.setattr(places.shutil, "which", lambda name: f"/bin/{name}")
    assert place.reader == ("of", tmp_path / "books.db")


def in_room(place, monkeypatch):
    asked = []

    @contextlib.contextmanager
    def room(user, needed, folder):
        asked.append((user, needed, folder))
        yield Path("/room/own")
        asked.append("gone")

    monkeypatch.setattr(places, "room", room)
    return asked


def test_copies_are_in_a_room_that_goes(place, monkeypatch, tmp_path):
    asked = in_room(place, monkeypatch)
    monkeypatch.setattr(places, "copy_files", lambda user, db, made: (user, db, made))
    monkeypatch.setattr(places, "copy_running", lambda *words: words)
    with place.copied(Path("/b/books.db"), 5) as copy:
        assert copy == (place.user, Path("/b/books.db"),
            Path("/room/own/store")) and asked == [(place.user, 5, tmp_path)]
    with place.copied_running() as copy:
        assert copy == (place.db, place.backups, "", Path("/room/own/store"))
    assert asked[1:] == ["gone", (place.user, 42, tmp_path), "gone"]


def held(place, monkeypatch, refused, out="4142\n", fails=()):
    made = []

    @contextlib.contextmanager
    def copied(db, size):
        made.append((db, size))
        yield Path(f"/copy{len(made)}")

    monkeypatch.setattr(place, "copied", copied)
    monkeypatch.setattr(place, "store_refusal", lambda text, db: made.append((text, db)) or refused[text])
    place.store.user = FakeUser(out, "why", fails)
    return place.held_text(["new", "old"]), made


@pytest.mark.parametrize("refused", [{"new": "", "old": ""}, {"new": "fault", "old": ""}, {"new": "", "old": "fault"}])
def test_held_text(place, monkeypatch, refused):
    """The program opens one copy, and sqlite3 reads another in its safe mode: `AB` is 4142 in hexadecimal digits."""
    text, made = held(place, monkeypatch, refused)
    own = (place.db, 42)
    assert text == "AB" and made == [own, ("new", Path("/copy1")), ("old", Path("/copy1")), own]
    ((*words, statement),) = place.user.calls
    assert words == ["sqlite3", "-init", "/dev/null", "-safe", "-readonly", "/copy4"] and "site_text" in statement


@pytest.mark.parametrize("refused, out, fails, told", [
    ({"new": "fault 2", "old": "x"}, "4142\n", (), "opens no copy of .*: fault 2"),
    ({"new": "", "old": ""}, "4142\n", ("sqlite3",), "why"),
    ({"new": "", "old": ""}, "", (), "can't read"), ({"new": "", "old": ""}, "4142\n41\n", (), "can't read"),
    ({"new": "", "old": ""}, "Error\n", (), "can't read"), ({"new": "", "old": ""}, "4142", (), "can't read"),
])  # fmt: skip
def test_no_held_text(place, monkeypatch, refused, out, fails, told):
    with pytest.raises(TokenError, match=told) as error:
        held(place, monkeypatch, refused, out, fails)
    assert error.value.status == 4


# ---- the newest backup, by what `find -printf` lists for the store's user


def listing(*rows):
    return "".join(f"{row}\0" for row in rows)


def whole(name, time, store=5, log=3, more=()):
    files = {"books.db": store, "books.db-wal": log, "site.toml": 9, **dict(more)}
    return [f"d 4096 {time}.5 {name}", *(f"f {size} {time}.5 {name}/{file}" for file, size in files.items())]


NEW = whole("2026-02", 200)


def test_newest_backup():
    user = FakeUser(listing(*NEW))
    assert store_copy.newest_backup(user, Path("/b")) == Backup(Path("/b/2026-02"), 8, False)
    assert user.calls == [("find", "/b/", "-mindepth", "1", "-maxdepth", "2", "-printf", r"%y %s %T@ %P\0")]


@pytest.mark.parametrize("fails", [(), ("mkdir",), ("cp",)])
def test_copy_files(fails):
    user = FakeUser(err="full\n", fails=fails)
    if fails:
        with pytest.raises(NoCopyError, match="/b/1 can't be copied: full"):
            copy_files(user, Path("/b/1/books.db"), Path("/room/store"))
        return
    assert copy_files(user, Path("/b/1/books.db"), Path("/room/store")) == Path("/room/store/books.db")
    assert user.calls == [("mkdir", "/room/store"), ("cp", "--", "/b/1/books.db", "/b/1/books.db-wal", "/room/store/")]


@pytest.mark.parametrize("status, err, kind, told", [
    (0, "backup: an earlier run left x\n", "", ""), (0, "", "lvm", ""),
    (1, "backup: one\nbackup: two\n", "", "^two$"), (1, "", "", "said nothing"),
])  # fmt: skip
def test_copy_running(monkeypatch, capsys, status, err, kind, told):
    calls = []
    monkeypatch.setattr(subprocess, "run", lambda words, **more: calls.append(words) or
                        subprocess.CompletedProcess(words, status, "", err))  # fmt: skip
    words = (Path("/d/books.db"), Path("/b"), kind, Path("/room/store"))
    if told:
        with pytest.raises(NoCopyError, match=told):
            copy_running(*words)
    else:
        assert copy_running(*words) == Path("/room/store/books.db") and capsys.readouterr().err == err
    assert calls == [[str(TOP / "python/bin/station-backup"), "--trial", "--db", "/d/books.db", "--into", "/b",
        *(["--snapshot", kind] if kind else []),
                      "/room/store"]]  # fmt: skip


def test_the_store_is_there(place, monkeypatch, tmp_path):
    sizes = []
    made = lambda db: SimpleNamespace(db=db, size=lambda: sizes.append(db), user="USER")
    monkeypatch.setattr(places, "StoreFolder", made)
    monkeypatch.setattr(places, "newest_backup", lambda user, folder: (user, folder))
    del place.store
    assert place.user == "USER" and sizes == [tmp_path / "books.db"] and place.newest_backup() == ("USER",
        tmp_path / "b")
