"""Where a store is put back: what keeps a restore, and that at each moment a crash leaves the store whole somewhere."""

import contextlib
import fcntl
import hashlib
import json
import os
import re
import subprocess
import tarfile
from io import BytesIO, StringIO
from types import SimpleNamespace

import pytest
from wanekupo.plant.restore import place as restore_place
from wanekupo.plant.restore.place import StorePlace, check_backup, check_folders, free_name, said_in
from wanekupo.plant.restore.plan import RestoreError


@pytest.fixture
def place(tmp_path):
    """The place of a store whose two files are there."""
    (tmp_path / "db").mkdir()
    (tmp_path / "db/books.db").write_text("OLD")
    (tmp_path / "db/books.db-wal").write_text("OLD LOG")
    return StorePlace(SimpleNamespace(db=tmp_path / "db/books.db", folder=tmp_path / "db"))


@pytest.fixture
def backup(tmp_path):
    """A backup's folder."""
    (tmp_path / "backup").mkdir()
    for name, text in (("books.db", "NEW"), ("books.db-wal", "NEW LOG"), ("site.toml", "SITE")):
        (tmp_path / "backup" / name).write_text(text)
    return tmp_path / "backup"


def tree(folder):
    """Each file below a folder with its text."""
    return {str(it.relative_to(folder)): it.read_text() for it in sorted(folder.rglob("*")) if it.is_file()}


def is_store(folder, name):
    return {it.name for it in (folder / name).iterdir()} >= {"books.db", "books.db-wal"}


# ---- whose it is


def test_no_server_has_the_store(place, monkeypatch):
    monkeypatch.setattr(restore_place, "holders_of", lambda db: [])
    monkeypatch.setattr(restore_place, "is_open", lambda port: False)
    place.refuse_server(880)
    monkeypatch.setattr(restore_place, "is_open", lambda port: port == 880)
    with pytest.raises(RestoreError, match="somebody listens on port 880"):
        place.refuse_server(880)
    with pytest.raises(RestoreError, match="for a practice take another machine, and stop nothing; else stop the"):
        place.refuse_server(880)
    place.refuse_server(881)
    place.db = restore_place.STORE
    with pytest.raises(RestoreError, match="port 880: stop the server, or have it stopped"):
        place.refuse_server(880)
    monkeypatch.setattr(restore_place, "holders_of", lambda db: [42] if db == place.db else [])
    with pytest.raises(RestoreError, match="the process 42 has"):
        place.refuse_server(881)


def test_holders_of(tmp_path):
    """Also of a file that was removed under its server, of none whose name is alike, and of no other user's process:
    there the path may be that of another file, in a name space of his own."""
    db, own = tmp_path / "db/books.db", os.getuid()
    db.parent.mkdir()
    processes = {
        "1": (own, ["/x", f"{db}"]), "2": (own, [f"{db}-wal"]), "3": (own, [f"{db} (deleted)"]),
        "4": (own, ["socket:[1]"]), "5": (own, []), "6": (own + 1, [f"{db}"]), "7": (own + 1, [f"{db} (deleted)"]),
        "8": (0, [f"{db}"]), str(os.getpid()): (own, [f"{db}"]), "self": (own, [f"{db}"]),
    }  # fmt: skip
    for name, (user, links) in processes.items():
        (tmp_path / "proc" / name / "fd").mkdir(parents=True)
        said = f"Name:\tx Uid:\nUmask:\t0022\nUid:\t{user}\t{own}\t0\t0\nGid:\t0\n"
        (tmp_path / "proc" / name / "status").write_text(said)
        for number, link in enumerate(links):
            (tmp_path / "proc" / name / "fd" / str(number)).symlink_to(link)
    (tmp_path / "proc/9").mkdir()
    assert restore_place.holders_of(db, tmp_path / "proc") == [1, 3, 8]


def test_a_process_that_has_the_store_open(tmp_path):
    """By the kernel's own table, before and behind the end of its file."""
    db = tmp_path / "books.db"
    db.write_text("")
    with open(db, "rb") as file, subprocess.Popen(["sleep", "60"], stdin=file) as server:
        try:
            assert restore_place.holders_of(db) == [server.pid]
            db.unlink()
            assert restore_place.holders_of(db) == [server.pid]
        finally:
            server.kill()


@pytest.mark.parametrize("error, is_open", [(None, True), (ConnectionRefusedError(), False), (TimeoutError(), False)])
def test_is_open(monkeypatch, error, is_open):
    calls = []

    def create(address, patience):
        calls.append((address, patience))
        if error:
            raise error
        return SimpleNamespace(close=lambda: calls.append("closed"))

    monkeypatch.setattr(restore_place.socket, "create_connection", create)
    assert restore_place.is_open(880) is is_open
    assert calls[0] == (("127.0.0.1", 880), 1) and len(calls) == 1 + is_open


@pytest.mark.parametrize("kind", ["link", "log link", "folder", "lost+found"])
def test_what_is_no_file_is_not_moved(place, tmp_path, kind):
    path = place.own_files()["log" in kind]
    path.unlink()
    if "link" in kind:
        path.symlink_to(tmp_path / ("nowhere" if kind == "link" else "db"))
    else:
        path.mkdir()
    with pytest.raises(RestoreError, match="is a link, or no file"):
        place.refuse_links()


def test_files_and_none_are_fit(place):
    place.refuse_links()
    for path in place.own_files():
        path.unlink()
    place.refuse_links()


def test_the_lock_of_a_server(place, monkeypatch):
    calls = []
    monkeypatch.setattr(restore_place.fcntl, "lockf", lambda file, what: calls.append(what))
    with place.locked():
        assert calls == [fcntl.LOCK_EX | fcntl.LOCK_NB]
    monkeypatch.setattr(restore_place.fcntl, "lockf", lambda *_: (_ for _ in ()).throw(BlockingIOError()))
    with pytest.raises(RestoreError, match="a server has"), place.locked():
        pytest.fail("a server and a restore at a time")
    place.db.unlink()
    with place.locked():
        assert not place.db.exists(), "no file is made"


def test_one_restore_at_a_time(place):
    with place.sole_restore(), pytest.raises(RestoreError, match="another restore is at work"), place.sole_restore():
        pytest.fail("two at a time")


# ---- what a run leaves to the next


def test_state(place):
    assert place.state() == {}
    place.keep(lost="lost-1")
    place.keep(placing=True)
    assert place.state() == {"lost": "lost-1", "placing": True}


@pytest.mark.parametrize("text", ["", "{", "[]", '{"lost": 1}', '{"lost": null}', "1", "\x00"])
def test_a_damaged_state_says_where_the_lost_store_is(place, text):
    place.begun.write_text(text)
    with pytest.raises(RestoreError, match="is damaged: remove it, and begin again"):
        place.state()
    for name, files in (("lost-2", ["books.db", "books.db-wal"]), ("lost-1", ["books.db", "books.db-wal"]),
        ("lost-3", ["books.db"])):
        (place.folder / name).mkdir()
        for file in files:
            (place.folder / name / file).write_text("")
    with pytest.raises(RestoreError, match='write {"lost": "lost-2"} into it'):
        place.state()


def test_free_name(tmp_path, monkeypatch):
    moments = iter("abc")
    monkeypatch.setattr(restore_place.time, "strftime", lambda form, moment: next(moments))
    monkeypatch.setattr(restore_place.time, "sleep", lambda _: None)
    (tmp_path / "lost-a").mkdir()
    (tmp_path / "lost-b").write_text("")
    assert free_name(tmp_path, "lost") == tmp_path / "lost-c"


# ---- the files


def test_needs(place, backup):
    """The backup's files, and twice those of the lost store, wherever they are by now."""
    assert place.needs(backup) == 3 + 7 + 2 * (3 + 7)
    place.put_aside()
    assert place.needs(backup) == 3 + 7 + 2 * (3 + 7)


def test_begin(place, backup):
    (place.folder / "restoring").mkdir()
    (place.folder / "restoring/old").write_text("")
    place.begin(backup)
    assert tree(place.work) == {"books.db": "NEW",
        "books.db-wal": "NEW LOG"} and place.work.stat().st_mode & 0o777 == 0o700
    assert place.db.read_text() == "OLD", "nothing has the store's name yet"


def crashed(monkeypatch, call, folder):
    """What a folder has before each rename of a call; a crash may come at each of these moments."""
    seen, real = [], os.rename

    def rename(source, target):
        seen.append(tree(folder))
        real(source, target)

    monkeypatch.setattr(restore_place.os, "rename", rename)
    call()
    return [*seen, tree(folder)]


def test_put_aside(place, monkeypatch):
    """The state is kept before a file moves, and the store's file goes first: a log without it starts no server."""
    synced = []
    monkeypatch.setattr(restore_place, "sync", synced.append)
    seen = crashed(monkeypatch, place.put_aside, place.folder)
    (name,) = [it.name for it in place.folder.glob("lost-*")]
    assert all(json.loads(it["restoring.json"]) == {"lost": name} for it in seen)
    rest = [{path for path in it if path != "restoring.json"} for it in seen]
    assert rest == [{"books.db", "books.db-wal"}, {f"{name}/books.db", "books.db-wal"},
        {f"{name}/books.db", f"{name}/books.db-wal"}]
    assert synced[-2:] == [place.folder] * 2 and place.lost() == place.folder / name / "books.db"
    assert (place.folder / name).stat().st_mode & 0o777 == 0o700


def test_a_put_aside_that_was_cut_goes_on_in_the_same_folder(place):
    place.keep(lost="lost-1")
    (place.folder / "lost-1").mkdir()
    os.rename(place.db, place.folder / "lost-1/books.db")
    assert place.lost() is None
    place.put_aside()
    assert is_store(place.folder, "lost-1") and len(list(place.folder.glob("lost-*"))) == 1


def test_another_store_is_put_aside_elsewhere(place):
    """What an earlier run put aside is not written over."""
    place.keep(lost="lost-1")
    (place.folder / "lost-1").mkdir()
    for path in place.own_files():
        (place.folder / "lost-1" / path.name).write_text("FIRST")
    place.put_aside()
    assert (place.folder / "lost-1/books.db").read_text() == "FIRST" and place.lost().read_text() == "OLD"


def test_nothing_to_put_aside(place):
    for path in place.own_files():
        path.unlink()
    place.put_aside()
    assert os.listdir(place.folder) == [] and place.lost() is None


def test_put_in_place(place, backup, monkeypatch):
    """The log first: without the other file it is none that a start takes."""
    place.put_aside()
    place.begin(backup)
    (place.work / "left.json").write_text("{}")
    seen = crashed(monkeypatch, lambda: place.put_in_place(), place.folder)
    own = [{path for path in it if path in ("books.db", "books.db-wal")} for it in seen]
    assert own == [set(), {"books.db-wal"}, {"books.db", "books.db-wal"}, {"books.db", "books.db-wal"}]
    assert all(json.loads(it["restoring.json"]).get("placing") is True for it in seen[:3])
    assert "restoring.json" not in seen[3]
    (done,) = place.folder.glob("restored-*")
    assert tree(done) == {"left.json": "{}"} and place.db.read_text() == "NEW" and not place.work.exists()


@pytest.mark.parametrize("moved", [1, 2, 3])
def test_a_run_that_was_cut_in_between_goes_on(place, backup, monkeypatch, moved):
    place.put_aside()
    place.begin(backup)
    left, real = iter(range(moved)), os.rename

    def rename(source, target):
        if next(left, None) is None:
            raise KeyboardInterrupt
        real(source, target)

    monkeypatch.setattr(restore_place.os, "rename", rename)
    with contextlib.suppress(KeyboardInterrupt):
        place.put_in_place()
    monkeypatch.setattr(restore_place.os, "rename", real)
    if moved < 3:
        place.put_in_place()
    assert place.db.read_text() == "NEW" and place.own_files()[1].read_text() == "NEW LOG" and not place.begun.exists()


def test_a_store_that_is_there_again_is_not_touched(place, backup):
    place.begin(backup)
    with pytest.raises(RestoreError, match="is there again: it isn't touched"):
        place.put_in_place()
    assert place.db.read_text() == "OLD" and place.made.read_text() == "NEW"
    place.db.unlink()
    with pytest.raises(RestoreError, match="is there again"):
        place.put_in_place()


# ---- the backup


def test_check_folders(tmp_path, backup, monkeypatch):
    check_folders(backup, tmp_path)
    (tmp_path / "file").write_text("")
    bare = "is encrypted: decrypt it first.*unshare -r tar -x --no-same-owner --no-same-permissions"
    for path, told in ((tmp_path / "x.tar.age", bare), (tmp_path / "file", "is no folder")):
        with pytest.raises(RestoreError, match=told):
            check_folders(path, tmp_path)
    with pytest.raises(RestoreError, match="Nothing was moved"):
        check_folders(backup, tmp_path / "none")
    asked = []
    monkeypatch.setattr(restore_place.os, "access", lambda path, what: asked.append((path, what)) or False)
    with pytest.raises(RestoreError, match="read-only"):
        check_folders(backup, tmp_path)
    assert asked == [(tmp_path, os.W_OK | os.X_OK)]


def about(backup, **changes):
    digests = {name: hashlib.sha256((backup / name).read_bytes()).hexdigest() for name in ("books.db", "books.db-wal")}
    found = {"sha256": digests, "counts": ["orders 1"], **changes}
    (backup / "about.json").write_text(json.dumps(found))
    return found


def test_check_backup(backup):
    assert check_backup(backup) == {}, "a backup of an earlier program says nothing of itself"
    assert check_backup(backup) != about(backup) == check_backup(backup)


@pytest.mark.parametrize("name", ["books.db", "books.db-wal", "about.json", "site.toml"])
@pytest.mark.parametrize("make", [os.mkfifo, lambda it: it.symlink_to("/dev/zero"), lambda it: it.mkdir()])
def test_what_a_restore_reads_is_a_plain_file(backup, name, make):
    about(backup)
    (backup / name).unlink()
    make(backup / name)
    with pytest.raises(RestoreError, match=f"{name} is no plain file"):
        check_backup(backup)


def test_what_opens_an_encrypted_backup_makes_no_device(tmp_path):
    """Who has the public key makes one, and root may open it; without root's rights no device is made anyway."""
    with pytest.raises(RestoreError) as error:
        check_folders(tmp_path / "x.tar.age", tmp_path)
    words = re.search(r"\| (.*)\)", str(error.value))[1].split()
    with tarfile.open(tmp_path / "x.tar", "w") as made:
        for name, kind in (("zero", tarfile.CHRTYPE), ("books.db", tarfile.REGTYPE)):
            entry = tarfile.TarInfo(name)
            entry.type, entry.devmajor, entry.devminor, entry.mode = kind, 1, 5, 0o4777
            made.addfile(entry, BytesIO())
    with open(tmp_path / "x.tar", "rb") as file:
        (tmp_path / "in").mkdir()
        subprocess.run(words, stdin=file, cwd=tmp_path / "in", capture_output=True, check=False)
    assert os.listdir(tmp_path / "in") == ["books.db"] and not (tmp_path / "in/books.db").stat().st_mode & 0o7022


@pytest.mark.parametrize("name", ["books.db", "books.db-wal"])
@pytest.mark.parametrize("change", ["changed", "empty", "gone", "folder", "another digest"])
def test_what_is_no_backup(backup, name, change):
    found = about(backup)
    path = backup / name
    if change == "changed":
        path.write_text(path.read_text() + ".")
    elif change == "another digest":
        about(backup, sha256={**found["sha256"], name: "0" * 64})
    else:
        path.write_text("") if change == "empty" else path.unlink()
        if change == "folder":
            path.mkdir()
    with pytest.raises(RestoreError, match="take another (backup|one)|it is no backup"):
        check_backup(backup)


@pytest.mark.parametrize("text", [
    "", "[]", "{}", '{"sha256": {}, "counts": []}', '{"sha256": {"books.db": "", "books.db-wal": ""}}', "1",
    '{"sha256": {"books.db": ""}, "counts": []}', '{"sha256": {"books.db": "", "books.db-wal": ""}, "counts": 1}',
])  # fmt: skip
def test_a_damaged_about(backup, text):
    (backup / "about.json").write_text(text)
    with pytest.raises(RestoreError, match="is damaged"):
        said_in(backup)


# ---- the program


class Server:
    def __init__(self, line):
        self.calls, self.line = [], line

    def __call__(self, words, **more):
        self.words, self.more = words, more
        self.stdout = StringIO(self.line.replace("PORT", words[words.index("--port") + 1]))
        return self

    def kill(self):
        self.calls.append("kill")

    def wait(self):
        self.calls.append("wait")


def test_served(monkeypatch, tmp_path):
    server = Server("listening on 127.0.0.1:PORT\n")
    monkeypatch.setattr(restore_place.subprocess, "Popen", server)
    with restore_place.serve_alone("P", tmp_path / "s", tmp_path / "d") as url:
        port = server.words[server.words.index("--port") + 1]
        assert url == f"http://127.0.0.1:{port}" and server.calls == [] and int(port) > 1024
    assert server.calls == ["kill", "wait"]
    assert server.words[:10] == ["setpriv", "--pdeathsig", "KILL", "P", "serve", "--site", str(tmp_path / "s"),
        "--db", str(tmp_path / "d"),
                                 "--existing"]  # fmt: skip
    assert server.more["stdin"] == subprocess.DEVNULL


@pytest.mark.parametrize("line", ["", "listening on 0.0.0.0:PORT\n", "listening on 127.0.0.1:PORT",
    "listening on 127.0.0.1:1\n"])
def test_a_program_that_does_not_serve(monkeypatch, tmp_path, line):
    server = Server(line)
    monkeypatch.setattr(restore_place.subprocess, "Popen", server)
    with pytest.raises(RestoreError, match="doesn't serve"), restore_place.serve_alone("P", tmp_path, tmp_path):
        pytest.fail("nobody asks it")
    assert server.calls == ["kill", "wait"]


def test_what_asks_may_fail(monkeypatch, tmp_path):
    server = Server("listening on 127.0.0.1:PORT\n")
    monkeypatch.setattr(restore_place.subprocess, "Popen", server)
    with pytest.raises(KeyboardInterrupt), restore_place.serve_alone("P", tmp_path, tmp_path):
        raise KeyboardInterrupt
    assert server.calls == ["kill", "wait"]


def test_a_pipe_in_a_files_place_keeps_nobody_waiting(tmp_path):
    """Of a backup, whose other files may be its user's own, and of what an earlier run left."""
    os.mkfifo(tmp_path / "about.json")
    with pytest.raises(RestoreError, match="damaged"):
        said_in(tmp_path)
    (tmp_path / "about.json").unlink()
    (tmp_path / "about.json").write_text(5000 * "[")
    with pytest.raises(RestoreError, match="damaged"):
        said_in(tmp_path)
