"""What a half has: the commands by which it is shown, that all of them are undone, and what is read of it."""

import contextlib
import os
import stat
import subprocess
from pathlib import Path
from types import SimpleNamespace

from wanekupo.standby import look
from wanekupo.standby import needs as needed
import pytest
from wanekupo.standby.half import Half, StandbyError, StandbySettings


class Machine:
    """The commands of the machine; `fails` has the beginnings of those that fail."""

    def __init__(self):
        self.calls, self.fails, self.prints = [], [], {"losetup --find --show": "/dev/loop{}\n",
            "blockdev --getsz": "2048\n"}

    def run(self, words, *_, **more):
        line = " ".join(words)
        self.calls.append(line)
        out = next((out for start, out in self.prints.items() if line.startswith(start)), "")
        failed = any(line.startswith(it) for it in self.fails)
        made = out.replace("{}", str(len([it for it in self.calls if it.startswith("losetup --find")])))
        return subprocess.CompletedProcess(words, int(failed), made, "why\n" if failed else "")

    def done(self, words, *_):
        ended = self.run(words)
        if ended.returncode:
            raise StandbyError(" ".join(words))
        return ended.stdout.strip()


@pytest.fixture
def machine(monkeypatch):
    made = Machine()
    for module in (look, needed):
        monkeypatch.setattr(module, "done", made.done)
    monkeypatch.setattr(look, "run_bounded", made.run)
    monkeypatch.setattr(Half, "disk", lambda it: "/dev/vg/half")
    monkeypatch.setattr(Half, "mount", lambda it, device, where: made.calls.append(f"mount {device} {where}"))
    return made


@pytest.fixture
def own(tmp_path):
    (tmp_path / "scratch").mkdir()
    return Half(StandbySettings(scratch=str(tmp_path / "scratch"), scratch_bytes=65536))


def test_a_snapshot_is_of_the_disk_as_it_is_and_goes(machine, own, tmp_path):
    with look.device_snapshot(own, str(tmp_path)) as device:
        assert device == "/dev/mapper/station-look"
        changes = os.stat(tmp_path / "changes")
        assert changes.st_size == 65536 and stat.S_IMODE(changes.st_mode) == 0o600
        made = len(machine.calls)
    assert machine.calls[:made] == [
        "blockdev --flushbufs /dev/vg/half", "blockdev --getsz /dev/vg/half",
        "losetup --find --show --read-only /dev/vg/half", f"losetup --find --show {tmp_path}/changes",
        "dmsetup create station-look --table 0 2048 snapshot /dev/loop1 /dev/loop2 N 8",
        "dmsetup mknodes station-look"]  # fmt: skip
    assert machine.calls[made:] == ["dmsetup remove --retry station-look", "dmsetup mknodes",
        "losetup --detach /dev/loop2",
                                    "losetup --detach /dev/loop1"]  # fmt: skip


@pytest.mark.parametrize("fails, left", [
    ("dmsetup create", ["losetup --detach /dev/loop2", "losetup --detach /dev/loop1"]),
    ("losetup --find --show /", ["losetup --detach /dev/loop1"]),
    ("dmsetup mknodes station",
     ["dmsetup remove --retry station-look", "dmsetup mknodes", "losetup --detach /dev/loop2",
                                 "losetup --detach /dev/loop1"]),
])  # fmt: skip
def test_what_was_made_goes_where_the_rest_fails(machine, own, tmp_path, fails, left):
    machine.fails = [fails]
    with pytest.raises(StandbyError), look.device_snapshot(own, str(tmp_path)):
        pytest.fail("nothing is shown")
    begun = next(at for at, it in enumerate(machine.calls) if it.startswith(fails))
    assert machine.calls[begun + 1 :] == left


def test_mounted_in_a_folder_that_goes(machine, own, monkeypatch):
    calls = []
    monkeypatch.setattr(look, "clear_look", lambda it: calls.append("clear"))
    with pytest.raises(ValueError), look.mounted(own) as shown:
        assert calls == ["clear"] and shown.parent.stat().st_mode & 0o777 == 0o711
        assert machine.calls[-1] == f"mount /dev/mapper/station-look {shown}" and shown.is_dir()
        made = len(machine.calls)
        raise ValueError
    assert machine.calls[made] == f"umount {shown}" and machine.calls[made + 1].startswith("dmsetup remove")
    assert os.listdir(own.settings.scratch) == []


def test_what_a_killed_look_left_goes(machine, own, tmp_path, monkeypatch):
    scratch, real = Path(own.settings.scratch), Path.lstat
    monkeypatch.setattr(Path, "lstat", lambda it: SimpleNamespace(st_uid=0, st_mode=real(it).st_mode))
    (scratch / "station-look-1/shown").mkdir(parents=True)
    (scratch / "other").mkdir()
    (tmp_path / "mine/shown").mkdir(parents=True)
    (scratch / "station-look-link").symlink_to(tmp_path / "mine")
    (scratch / "station-look-file").write_text("")
    machine.prints["losetup --associated"] = "/dev/loop7: [64768]:1 (/dev/vg/half)\n/dev/loop8: []: (/x)\n"
    look.clear_look(own)
    assert machine.calls == [
        f"umount {scratch}/station-look-1/shown", "dmsetup info station-look", "dmsetup remove --retry station-look",
        "dmsetup mknodes", "losetup --associated /dev/vg/half", "losetup --detach /dev/loop7",
        "losetup --detach /dev/loop8",
        f"losetup --associated {scratch}/station-look-1/changes", "losetup --detach /dev/loop7",
        "losetup --detach /dev/loop8"]  # fmt: skip
    assert sorted(os.listdir(scratch)) == ["other", "station-look-file",
        "station-look-link"] and (tmp_path / "mine/shown").is_dir()


def test_a_folder_of_another_user_stays(machine, own, monkeypatch):
    """Anybody may write in /var/tmp."""
    scratch = Path(own.settings.scratch)
    (scratch / "station-look-1").mkdir()
    real = Path.lstat
    monkeypatch.setattr(Path, "lstat", lambda it: SimpleNamespace(st_uid=1000, st_mode=real(it).st_mode))
    machine.fails = ["dmsetup info"]
    look.clear_look(own)
    assert os.listdir(scratch) == ["station-look-1"] and all("umount" not in it for it in machine.calls)


def test_what_is_still_mounted_is_not_removed(machine, own, monkeypatch):
    scratch = Path(own.settings.scratch)
    (scratch / "station-look-1/shown").mkdir(parents=True)
    monkeypatch.setattr(look.os.path, "ismount", lambda path: True)
    machine.fails = ["dmsetup info"]
    look.clear_look(own)
    assert (scratch / "station-look-1/shown").is_dir() and "dmsetup remove --retry station-look" not in machine.calls


def test_a_look_that_is_at_work_still(machine, own):
    machine.fails = ["dmsetup remove"]
    with pytest.raises(StandbyError, match="is at work still"):
        look.clear_look(own)


# ---- what is read


@pytest.mark.parametrize("text, seats, numbers", [
    ("seat a1 17\nseat b1 0\n", [], {"a1": 17, "b1": 0}), ("seat a1 17\n", ["a1", "b1"], {"a1": 17, "b1": 0}),
    ("", ["a1"], {"a1": 0}),
    ("seat a1 17 \nxseat b1 2\nseat c1 -1\nseat d1\nseat a 1 2\n", [], {}), ("seat a1 12345678901234567\n", [], {}),
])  # fmt: skip
def test_numbers_of(text, seats, numbers):
    assert look.numbers_of(text, seats) == numbers


def test_seats_of_a_site(tmp_path):
    acme = "{ name = 'acme', issuer = [], seat = [{ name = 'a1', token = 'x' }] }"
    bolt = acme.replace("acme", "bolt").replace("a1", "b1")
    (tmp_path / "s").write_text(f"customer = [{acme}, {bolt}]\nmanager = {{ token = 'z' }}\n")
    assert look.seats_of(str(tmp_path / "s")) == ["a1", "b1"]
    (tmp_path / "s").write_text("[")
    for name in ("s", "none"):
        with pytest.raises(StandbyError, match="can't be read"):
            look.seats_of(str(tmp_path / name))


class FakeUser:
    number = 7

    def __init__(self, status=0, out="seat a1 17\n"):
        self.calls, self.status, self.out = [], status, out

    def run(self, *words, cwd="/", seconds=0):
        self.calls.append((words, str(cwd), seconds))
        return subprocess.CompletedProcess(words, self.status, self.out, "a\nb\n" if self.status else "")


@pytest.mark.parametrize("status", [1, -9])
def test_a_command_of_the_stores_user(monkeypatch, own, status):
    user = FakeUser()
    monkeypatch.setattr(look, "user_named", lambda name: {"station": user}[name])
    assert look.as_user(own, ["/bin/P", "x"], Path("/shown")) == "seat a1 17\n"
    assert user.calls == [(("/bin/P", "x"), "/shown", look.LONGEST)]
    user.status = status
    with pytest.raises(StandbyError, match=f"^P ended with status {status} over this machine's half: a; b\\. "):
        look.as_user(own, ["/bin/P", "x"], Path("/shown"))


def test_the_contents_of_a_half(monkeypatch, own, tmp_path):
    """The program opens the store first, as a start would; sqlite3 reads it in its safe mode, and writes nothing."""
    @contextlib.contextmanager
    def mounted(it):
        yield tmp_path

    user = FakeUser()
    store = SimpleNamespace(handle=os.open(tmp_path, os.O_RDONLY), user=user, size=lambda: 1)
    monkeypatch.setattr(look, "mounted", mounted)
    monkeypatch.setattr(look, "StoreFolder", lambda path: {tmp_path / "books.db": store}[path])
    monkeypatch.setattr(look, "user_named", lambda name: user)
    monkeypatch.setattr(look, "seats_of", lambda site: {"/etc/station/site.toml": ["a1", "b1"]}[site])
    monkeypatch.setattr(look.living, "listed_tokens", lambda handle: {"x"} if handle == store.handle else None)
    assert look.contents(own) == look.Contents({"a1": 17, "b1": 0}, {"x"})
    program, sqlite3 = (words for words, _, _ in user.calls)
    assert program == ("station", "replay", "--site", "/etc/station/site.toml", "--db", "books.db", "--existing")
    assert sqlite3[:6] == ("sqlite3", "-init", "/dev/null", "-safe", "-readonly", "books.db")
    with pytest.raises(OSError):
        os.fstat(store.handle)
    store.handle, store.user = os.open(tmp_path, os.O_RDONLY), SimpleNamespace(number=8)
    user.calls.clear()
    with pytest.raises(StandbyError, match="of number 8"):
        look.contents(own)
    assert user.calls == [], "nothing is done as a user who isn't the store's"


def test_another_number_of_the_user(monkeypatch, own):
    store = SimpleNamespace(user=SimpleNamespace(number=8), size=lambda: 1)
    monkeypatch.setattr(look, "user_named", lambda name: SimpleNamespace(number=7))
    with pytest.raises(StandbyError, match="of number 8, and station has another number here"):
        look.tested_owner(own, store)
    store.user.number = 7
    look.tested_owner(own, store)


# ---- what a takeover needs of DRBD


# As `drbdsetup show --show-defaults` and `drbdadm dump` of drbd-utils print it.
FIT = {"protocol": "C", "fencing": "resource-and-stonith", "allow-two-primaries": "no", "after-sb-0pri": "disconnect",
       "after-sb-1pri": "disconnect", "after-sb-2pri": "disconnect", "rr-conflict": "disconnect", "disk-flushes": "yes",
       "md-flushes": "yes"}  # fmt: skip
SECRET = '        cram-hmac-alg   \t"sha256";\n        shared-secret   \t"0123456789abcdef";\n'


def resource(**changes):
    options = {**FIT, **{name.replace("_", "-"): value for name, value in changes.items()}}
    return "resource station {\n" + "".join(f"        {name}   \t{value};\n" for name,
        value in options.items() if value) + SECRET + "}\n"


def needs(machine, monkeypatch, own, text, handler):
    machine.prints["drbdsetup show"] = text
    monkeypatch.setattr(Half, "asked", lambda it, what: f"    handlers {{\n{handler}    }}\n" if what == "dump" else "")
    needed.test_resource(own)


HANDLER = f"        fence-peer       {needed.HANDLER};\n"


def test_a_resource_that_keeps_its_promise(machine, monkeypatch, own):
    needs(machine, monkeypatch, own, resource(), HANDLER)
    needs(machine, monkeypatch, own, resource(), HANDLER.replace(" /", ' "/').replace(";", '";'))
    assert machine.calls[0] == "drbdsetup show --show-defaults station"


@pytest.mark.parametrize("changes, told", [
    ({name.replace("-", "_"): value}, f"`{name}` is {value or 'unknown'}, and not {FIT[name]}")
    for name, value in [("protocol", "A"), ("protocol", "B"), ("fencing", "dont-care"), ("fencing", "resource-only"),
                        ("allow-two-primaries", "yes"), ("after-sb-0pri", "discard-zero-changes"),
                        ("after-sb-1pri", "discard-secondary"),
                        ("after-sb-2pri", "call-pri-lost-after-sb"), ("rr-conflict", "violently"),
                        ("disk-flushes", "no"),
                        ("md-flushes", "no"), ("protocol", ""), ("fencing", ""), ("disk-flushes", "")]
])  # fmt: skip
def test_a_resource_that_does_not(machine, monkeypatch, own, changes, told):
    with pytest.raises(StandbyError, match=told):
        needs(machine, monkeypatch, own, resource(**changes), HANDLER)


@pytest.mark.parametrize("handler", [
    "", "        fence-peer       /bin/true;\n", HANDLER.replace(";", " --yes;"),
    HANDLER.replace("fence-peer", "fence-peer2", 1),
    HANDLER.replace(" fence-peer", " #fence-peer", 1),
])  # fmt: skip
def test_another_handler(machine, monkeypatch, own, handler):
    with pytest.raises(StandbyError, match="the handler `fence-peer` is"):
        needs(machine, monkeypatch, own, resource(), handler)


def test_the_secret_is_asked_for(machine, monkeypatch, own):
    with pytest.raises(StandbyError, match="write your own") as error:
        needs(machine, monkeypatch, own, resource().replace("0123456789abcdef", "write-your-own"), HANDLER)
    assert "protocol" not in str(error.value)
