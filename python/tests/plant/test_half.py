"""One of two machines: its settings, what DRBD's table says, what is mounted, and for how long a word counts. The table
is as the user's guide of DRBD 8.4 has it."""

import contextlib
import os
import pty
import re
import signal
import subprocess
import tomllib
from datetime import datetime, timedelta, timezone
from types import SimpleNamespace

import pytest
from conftest import TOP
from wanekupo.standby import half
from wanekupo.standby.half import Half, StandbyError, StandbySettings, DrbdState, read_settings

TABLE = """version: 8.4.11 (api:1/proto:86-101)
srcversion: 123

 0: cs:{} ro:{} ds:{} {}
    ns:1 nr:{} dw:8 dr:0 al:0 bm:2 lo:0 pe:0 ua:0 ap:0 ep:1 wo:f oos:0
 1: cs:StandAlone ro:Secondary/Unknown ds:Diskless/DUnknown   s-----
    ns:0 nr:77 dw:8 dr:0 al:0 bm:2 lo:0 pe:0 ua:0 ap:0 ep:1 wo:f oos:0
10: cs:WFConnection ro:Primary/Unknown ds:UpToDate/Outdated C s-----
    ns:0 nr:1010 dw:8 dr:0 al:0 bm:2 lo:0 pe:0 ua:0 ap:0 ep:1 wo:f oos:0
"""
CONNECTED = TABLE.format("Connected", "Primary/Secondary", "UpToDate/Inconsistent", "C r-----", 42)


def found_as(monkeypatch, user, mode):
    """Each file that the module itself looks at is of this user and mode."""
    stat = lambda path: SimpleNamespace(st_uid=user, st_mode=mode)
    monkeypatch.setattr(half, "os", SimpleNamespace(**{**vars(os), "stat": stat}))


@pytest.fixture
def table(tmp_path, monkeypatch):
    monkeypatch.setattr(half, "TABLE", tmp_path / "drbd")
    (tmp_path / "drbd").write_text(CONNECTED)
    return tmp_path / "drbd"


@pytest.fixture
def asked(monkeypatch):
    """The commands that were run; what `drbdadm dump` says is in `asked.dump`."""

    class Calls(list):
        dump, status, out, err = "", 0, "", ""

    calls = Calls()

    def run(words, **more):
        calls.append(words)
        calls.more = more
        out = calls.dump if words[:2] == ["drbdadm", "dump"] else calls.out
        return subprocess.CompletedProcess(words, calls.status, out, calls.err)

    monkeypatch.setattr(half.subprocess, "run", run)
    return calls


def settings(tmp_path, text, mode=0o644):
    file = tmp_path / "standby.toml"
    file.write_text(text)
    file.chmod(mode)
    return file


# ---- settings


def test_without_a_file_the_settings_are_the_pages(tmp_path):
    """Each stands behind a # in the file that is deployed."""
    there = tomllib.loads(re.sub(r"(?m)^# (?=\w+ = )", "", (TOP / "deploy/standby/standby.toml").read_text()))
    assert {**there, "witnesses": tuple(there["witnesses"])} == vars(read_settings(tmp_path / "none"))
    assert half.SETTINGS == half.Path("/etc/station/standby.toml")


@pytest.mark.skipif(os.geteuid() != 0, reason="a file of root's is root's to make")
def test_settings(tmp_path):
    text = 'device = "/dev/drbd3"\nscratch_bytes = 4096\nwitnesses = ["ssh pc7 x", "ssh pc8 x"]\nfence = "off"\n'
    found = read_settings(settings(tmp_path, text))
    assert (found.device, found.scratch_bytes, found.fence) == ("/dev/drbd3", 4096, "off")
    assert found.witnesses == ("ssh pc7 x", "ssh pc8 x") and found.site == "/etc/station/site.toml"


@pytest.mark.parametrize("text", [
    "fenced = 'x'", "fence = 1", "fence = true", "scratch_bytes = '1'", "scratch_bytes = true", "witnesses = 'x'",
    "witnesses = [1]", "device = ['x']", "fence = ", "witnesses = ['a', 1]",
])  # fmt: skip
def test_settings_of_another_form(tmp_path, text, monkeypatch):
    found_as(monkeypatch, 0, 0o644)
    with pytest.raises(StandbyError):
        read_settings(settings(tmp_path, text))


def test_settings_that_are_no_text(tmp_path):
    (tmp_path / "s").write_bytes(b"fence = '\xff'")
    with pytest.raises(StandbyError, match="no TOML"):
        read_settings(tmp_path / "s")


@pytest.mark.parametrize("user, mode, is_taken", [
    (0, 0o644, True), (0, 0o600, True), (1000, 0o644, False), (0, 0o664, False), (0, 0o646, False), (0, 0o666, False),
])  # fmt: skip
def test_root_alone_writes_the_settings(tmp_path, monkeypatch, user, mode, is_taken):
    found_as(monkeypatch, user, 0o100000 | mode)
    file = settings(tmp_path, "fence = 'off'")
    if is_taken:
        assert read_settings(file).fence == "off"
    else:
        with pytest.raises(StandbyError, match="Others than root can write"):
            read_settings(file)


# ---- commands


@pytest.mark.parametrize("error", [subprocess.TimeoutExpired(["x"], 5), FileNotFoundError(2, "No such file", "x")])
def test_a_command_that_takes_too_long_or_is_missing_failed(monkeypatch, error):
    def run(words, **more):
        assert more["timeout"] == 5 and more["stdin"] == subprocess.DEVNULL
        raise error

    monkeypatch.setattr(half.subprocess, "run", run)
    ended = half.run_bounded(["x"], 5)
    assert ended.returncode != 0 and ended.stderr and not ended.stdout
    with pytest.raises(StandbyError, match="`x` ended with status 1"):
        half.done(["x"], 5)


def test_a_command_has_no_terminal_of_the_one_who_typed_the_script():
    """It is tried on a terminal, which a command of the same session opens as /dev/tty."""
    child, terminal = pty.fork()
    if not child:
        ended = half.run_bounded(["sh", "-c", "exec 3<>/dev/tty && echo root: >&3"])
        os._exit(ended.returncode == 0)
    with os.fdopen(terminal, "rb", buffering=0) as shown, contextlib.suppress(OSError):
        assert b"root:" not in shown.read(99)
    assert os.waitpid(child, 0)[1] == 0


def test_done(asked):
    asked.out = " said\n"
    assert half.done(["a", "b c"]) == "said" and asked == [["a", "b c"]]
    assert asked.more["timeout"] == half.COMMAND_SECONDS == 60
    asked.status, asked.out, asked.err = 3, "out", "one\ntwo\n"
    with pytest.raises(StandbyError, match="^`a 'b c'` ended with status 3: one; two$"):
        half.done(["a", "b c"])


def test_no_control_character_reaches_a_terminal(capsys):
    half.print_told("a\x1b[2Jb\rc\x9bd é")
    assert capsys.readouterr().out == "a?[2Jb?c?d é\n"


def test_where_nobody_reads_the_work_goes_on():
    class Shut:
        def write(self, _):
            raise BrokenPipeError

        flush = write

    half.print_told("x", Shut())


@pytest.mark.parametrize("user, error, status, told", [
    (0, None, 7, ""), (0, StandbyError("Why."), 1, "t: refused: Why."), (0, OSError(5, "Fault"), 1, "Fault"),
    (0, KeyboardInterrupt(), 1, "It was stopped"), (1000, None, 1, "Only root can do that."),
])  # fmt: skip
def test_ended(monkeypatch, capsys, user, error, status, told):
    calls, signals = [], []

    def call():
        calls.append("called")
        if error:
            raise error
        return 7

    monkeypatch.setattr(half.os, "geteuid", lambda: user)
    monkeypatch.setattr(half.signal, "signal", lambda number, handler: signals.append((number, handler)))
    assert half.end_script("t", call) == status and told in capsys.readouterr().err and bool(calls) == (user == 0)
    assert (signal.SIGTERM, signal.default_int_handler) in signals and (signal.SIGHUP,
        signal.default_int_handler) in signals


# ---- what DRBD says


@pytest.mark.parametrize("state, found", [
    (("Connected", "Primary/Secondary", "UpToDate/UpToDate", "C r-----"),
     ("Connected", "Primary", "Secondary", "UpToDate", "UpToDate", False)),
    (("WFConnection", "Primary/Unknown", "UpToDate/DUnknown", "C s-----"),
     ("WFConnection", "Primary", "Unknown", "UpToDate", "DUnknown", True)),
    (("StandAlone", "Secondary/Unknown", "Consistent/Outdated", "  r-----"),
     ("StandAlone", "Secondary", "Unknown", "Consistent", "Outdated", False)),
    (("StandAlone", "Secondary/Unknown", "Consistent/Outdated", "  s--d--"),
     ("StandAlone", "Secondary", "Unknown", "Consistent", "Outdated", True)),
    (("SyncTarget", "Secondary/Primary", "Inconsistent/UpToDate", "A r-----"),
     ("SyncTarget", "Secondary", "Primary", "Inconsistent", "UpToDate", False)),
])  # fmt: skip
def test_state(table, state, found):
    table.write_text(TABLE.format(*state, 1))
    assert Half(StandbySettings()).state() == DrbdState(*found)


@pytest.mark.parametrize("device, connection, received",
    [("/dev/drbd0", "Connected", "42"), ("/dev/drbd1", "StandAlone", "77"),
                                                          ("/dev/drbd10", "WFConnection", "1010")])  # fmt: skip
def test_of_this_device_alone(table, device, connection, received):
    own = Half(StandbySettings(device=device))
    assert own.state().connection == connection and own.received() == received


def test_no_such_device(table):
    for device in ("/dev/drbd2", "/dev/drbd"):
        with pytest.raises(StandbyError, match="drbdadm up station"):
            Half(StandbySettings(device=device)).state()
    assert Half(StandbySettings(device="/dev/drbd2")).received() == "none"
    table.unlink()
    with pytest.raises(StandbyError, match="drbdadm up station"):
        Half(StandbySettings()).state()


@pytest.mark.parametrize("connection, is_connected", [
    ("Connected", True), ("SyncSource", True), ("SyncTarget", True), ("PausedSyncS", True), ("VerifyS", True),
    ("WFBitMapT", True),
    ("StandAlone", False), ("Disconnecting", False), ("Unconnected", False), ("Timeout", False), ("BrokenPipe", False),
    ("NetworkFailure", False), ("ProtocolError", False), ("TearDown", False), ("WFConnection", False),
    ("WFReportParams", False),
])  # fmt: skip
def test_is_connected(connection, is_connected):
    """By drbd(8)'s list of connection states."""
    assert DrbdState(connection, "Secondary", "Unknown", "UpToDate", "DUnknown", False).is_connected() == is_connected


def test_a_state_in_words():
    assert str(DrbdState("Connected", "Primary", "Secondary", "UpToDate", "Outdated", True)) == (
        "Connected Primary/Secondary UpToDate/Outdated, frozen")  # fmt: skip


@pytest.mark.parametrize("names, other", [(["here", "there"], "there"), (["there", "here"], "there"), (["here"], None),
                                          (["here", "there", "third"], None), (["x", "y"], None)])  # fmt: skip
def test_other_name(asked, monkeypatch, names, other):
    monkeypatch.setattr(half.os, "uname", lambda: SimpleNamespace(nodename="here"))
    machines = "".join(f"    on {name} {{\n        device x;\n    }}\n" for name in names)
    asked.dump = f"resource station {{\n{machines}}}\n"
    if other:
        assert Half(StandbySettings()).other_name() == other and asked == [["drbdadm", "dump", "station"]]
    else:
        with pytest.raises(StandbyError, match="other machines, and not one"):
            Half(StandbySettings()).other_name()


def test_commands_of_the_half(asked):
    own = Half(StandbySettings(resource="r", device="/dev/drbd9", folder="/f", filesystem="xfs", start="start 'a b'"))
    own.mount()
    own.mount("/dev/x", "/where")
    own.unmount()
    own.disk()
    own.command("start", half.SERVER_SECONDS)
    assert asked == [["mount", "-t", "xfs", "-o", "nodev,nosuid,noexec", "/dev/drbd9", "/f"],
                     ["mount", "-t", "xfs", "-o", "nodev,nosuid,noexec", "/dev/x", "/where"], ["umount", "/f"],
                     ["drbdadm", "sh-ll-dev", "r"], ["start", "a b"]]  # fmt: skip
    assert asked.more["timeout"] == half.SERVER_SECONDS == 3600
    asked.status = 1
    for call in (own.mount, own.unmount, own.disk, lambda: own.command("start")):
        with pytest.raises(StandbyError):
            call()


# ---- what is mounted


@pytest.mark.parametrize("is_mount, is_own", [(True, True), (True, False), (False, None)])
def test_is_mounted(tmp_path, monkeypatch, is_mount, is_own):
    folder, device = tmp_path / "station", tmp_path / "drbd0"
    folder.mkdir()
    device.write_text("")
    monkeypatch.setattr(half.os.path, "ismount", lambda path: is_mount and path == folder)
    real = half.Path.stat
    number = real(folder).st_dev + (0 if is_own else 1)
    monkeypatch.setattr(half.Path, "stat", lambda it, **more: SimpleNamespace(
        st_rdev=number, st_dev=-1, st_mode=0o060000) if it == device else real(it, **more))  # fmt: skip
    own = Half(StandbySettings(folder=str(folder), device=str(device)))
    if is_mount and not is_own:
        with pytest.raises(StandbyError, match="has another volume than"):
            own.is_mounted()
    else:
        assert own.is_mounted() is is_mount


def test_a_mount_whose_device_is_gone_is_another_volume(tmp_path, monkeypatch):
    monkeypatch.setattr(half.os.path, "ismount", lambda path: True)
    with pytest.raises(StandbyError, match="has another volume than"):
        Half(StandbySettings(folder=str(tmp_path), device=str(tmp_path / "none"))).is_mounted()


@pytest.mark.parametrize("names, told", [([], ""), (["lost+found"], ""), (["books.db"], "books.db"),
    (["x", "lost+found"], "x"), (["d", "b", "a", "c"], "a and b and c")])  # fmt: skip
def test_files_below_the_mount(tmp_path, names, told):
    """A store that was made there before the half was mounted would be hidden by it, or be served in its place."""
    for name in names:
        (tmp_path / name).write_text("")
    own = Half(StandbySettings(folder=str(tmp_path)))
    if told:
        with pytest.raises(StandbyError, match=f"has files, {told}, and"):
            own.is_mounted()
    else:
        assert own.is_mounted() is False


# ---- whether the other machine is off


@pytest.fixture
def run_folder(tmp_path, monkeypatch):
    monkeypatch.setattr(half, "RUN", tmp_path / "run")
    if os.geteuid():
        found_as(monkeypatch, 0, 0o40700)
    return tmp_path / "run"


def test_the_folder_of_what_a_machine_says_is_roots(run_folder, monkeypatch):
    assert half.run_file("x") == run_folder / "x" and run_folder.stat().st_mode & 0o777 == 0o700
    for user, mode in ((1000, 0o700), (0, 0o770), (0, 0o707), (0, 0o720), (0, 0o702)):
        found_as(monkeypatch, user, mode)
        with pytest.raises(StandbyError, match="Others than root can write"):
            half.run_file("x")


def test_one_at_work(run_folder):
    with half.alone_at_work():
        with pytest.raises(StandbyError, match="is at work on this machine"), half.alone_at_work():
            pytest.fail("two at a time")
    with half.alone_at_work():
        pass


def aged(file, seconds):
    moment = half.time.time() - seconds
    os.utime(file, (moment, moment))


@pytest.mark.parametrize("age, counts", [(0, True), (118, True), (122, False), (86400, False), (-60, False)])
def test_a_word_counts_for_two_minutes_and_once(run_folder, age, counts):
    assert half.take_word() is False
    half.give_word()
    aged(half.word_file(), age)
    assert half.take_word() is counts
    assert not half.word_file().exists() and half.take_word() is False


NOW = datetime(2026, 6, 15, 12, 0, tzinfo=timezone.utc)


@pytest.fixture
def clock(monkeypatch):
    """A clock that a test sets."""

    class Clock(datetime):
        moment = NOW

        @classmethod
        def now(cls, zone=None):
            assert zone is timezone.utc
            return cls.moment

    monkeypatch.setattr(half, "datetime", Clock)
    return Clock


@pytest.mark.parametrize("later, received, is_same", [
    (timedelta(0), "42", True), (timedelta(minutes=119), "42", True), (timedelta(hours=2), "42", False),
    (timedelta(minutes=1), "43", False), (timedelta(minutes=1), "none", False), (timedelta(minutes=-1), "42", False),
    (timedelta(minutes=1), "4", False), (timedelta(days=1), "42", False),
])  # fmt: skip
def test_since_when_the_other_machine_is_off(run_folder, clock, later, received, is_same):
    """Known from the first `takeover` on, as long as nothing came of the other one, and for two hours."""
    assert half.alone_since("42") == NOW
    clock.moment = NOW + later
    assert half.alone_since(received) == (NOW if is_same else NOW + later)
    assert half.alone_since(received) == (NOW if is_same else NOW + later), "the new moment is kept"


def test_forgotten(run_folder, clock):
    half.alone_since("42")
    half.forget_alone()
    clock.moment = NOW + timedelta(minutes=1)
    assert half.alone_since("42") == clock.moment
    half.forget_alone()
    half.forget_alone()


@pytest.mark.parametrize("fence, status, is_off", [("", 0, False), ("off --now 'x y'", 0, True), ("off", 1, False),
    ("off", -9, False)])
def test_fenced_by_command(asked, fence, status, is_off):
    asked.status = status
    assert half.fenced_by_command(StandbySettings(fence=fence)) is is_off
    assert asked == ([half.shlex.split(fence)] if fence else [])


@pytest.mark.parametrize("comes, is_there", [(0, True), (3, True), (99, False)])
def test_waited_for(monkeypatch, comes, is_there):
    looks = iter(range(100))
    moments = iter(range(100))
    monkeypatch.setattr(half.time, "monotonic", lambda: next(moments))
    monkeypatch.setattr(half.time, "sleep", lambda seconds: None)
    assert half.waited_for(lambda: next(looks) >= comes, 5) is is_there
    assert is_there or 5 <= next(looks) <= 7
