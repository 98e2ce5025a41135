"""As whom the store's work is done: which folder is one, who is no store's user, and what a process of his gets. What
needs root is tried by tests/plant/test_roads.py."""

import contextlib
import errno
import io
import math
import os
import signal
import stat
import subprocess
import time
from types import SimpleNamespace

import pytest
from wanekupo.common import rooms, store_user
from wanekupo.common.store_user import StoreFolder, StoreUser, UserError, opened, user_named

USER = StoreUser("station", 4242, 4243, "/home/station")


# ---- folders and files


def test_no_descriptor_is_left(tmp_path, monkeypatch):
    monkeypatch.setattr(store_user, "_held", lambda *_: None)
    before = os.listdir("/proc/self/fd")
    os.close(opened(tmp_path))
    with pytest.raises(UserError):
        opened(tmp_path / "none")
    assert len(os.listdir("/proc/self/fd")) == len(before)


def of(user, mode):
    return SimpleNamespace(st_uid=user, st_mode=mode | stat.S_IFDIR)


@pytest.mark.parametrize("user, is_looked", [(0, True), (1000, False)])
def test_root_looks_at_each_component(tmp_path, monkeypatch, user, is_looked):
    """The holders are root and the owner of the last folder."""
    seen = []
    monkeypatch.setattr(store_user.os, "geteuid", lambda: user)
    monkeypatch.setattr(store_user, "_held", lambda path, above, below, holders: seen.append((path, holders)))
    (tmp_path / "deep").mkdir()
    os.close(opened(tmp_path / "deep"))
    owner = tmp_path.stat().st_uid
    expected = [*reversed((tmp_path / "deep").parents), tmp_path / "deep"][1:]
    assert seen == ([(it, {0, owner}) for it in expected] if is_looked else [])


# ---- the user


def folder_of(monkeypatch, owner, own, named=True):
    monkeypatch.setattr(store_user, "os", SimpleNamespace(**{**vars(os), "fstat": lambda handle: of(owner, 0o700),
        "geteuid": lambda: own}))
    monkeypatch.setattr(store_user.pwd, "getpwuid", lambda number: SimpleNamespace(
        pw_name="station", pw_uid=number, pw_gid=4243, pw_dir="/home/station") if named else {}[number])  # fmt: skip


@pytest.mark.parametrize("name, number, told", [("station", 4242, ""), ("root", 0, "who is root"), ("toor", 0,
    "who is root"),
                                                ("none", None, "there is no user none")])  # fmt: skip
def test_a_user_by_name(monkeypatch, name, number, told):
    monkeypatch.setattr(store_user.pwd, "getpwnam", lambda it: {}[it] if number is None else SimpleNamespace(
        pw_name="station", pw_uid=number, pw_gid=4243, pw_dir="/home/station"))  # fmt: skip
    if told:
        with pytest.raises(UserError, match=told):
            user_named(name)
    else:
        assert user_named(name) == USER


@pytest.mark.parametrize("own", [0, 4242])
def test_a_command_becomes_the_users_for_good(monkeypatch, own):
    """Each has no rights to get, and ends with who started it; what is root's already is given away too."""
    monkeypatch.setattr(store_user.os, "geteuid", lambda: own)
    monkeypatch.setattr(store_user.shutil, "which", lambda name: f"/bin/{name}")
    rights = ["--reuid", "4242", "--regid", "4243", "--init-groups"] if own == 0 else []
    assert USER.words("find", "/b", "-x") == ["setpriv", *rights, "--inh-caps=-all", "--no-new-privs", "--pdeathsig",
        "KILL", "--",
                                              "/bin/find", "/b", "-x"]  # fmt: skip


def test_none_of_roots_words(monkeypatch):
    monkeypatch.setenv("SECRET", "x")
    monkeypatch.setenv("PATH", "/root/bin")
    monkeypatch.setattr(store_user.os, "geteuid", lambda: 0)
    found = USER.environment()
    assert set(found) == {"PATH", "HOME", "USER", "LOGNAME", "LC_ALL"} and found["HOME"] == "/home/station"
    assert "/root" not in found["PATH"] and found["USER"] == found["LOGNAME"] == "station"
    monkeypatch.setattr(store_user.os, "geteuid", lambda: 4242)
    assert USER.environment()["SECRET"] == "x"


class FakeChild:
    """A process that has printed, and ended."""

    def __init__(self, words, **more):
        FakeChild.words, FakeChild.more = words, more
        FakeChild.given = os.read(more["stdin"], 100)
        self.pid, self.stdout, self.stderr = 0, io.BytesIO(), io.BytesIO()

    def wait(self, patience):
        return 3


def test_a_process_has_a_session_of_its_own_and_no_descriptor(monkeypatch):
    monkeypatch.setattr(store_user.subprocess, "Popen", FakeChild)
    monkeypatch.setattr(store_user, "_gathered", lambda child, most, end: [b"out\xff", b"err"])
    done = USER.run("find", "x", given="text", fds=(7,), cwd="/shown")
    assert (done.returncode, done.stdout, done.stderr, FakeChild.given) == (3, "out\ufffd", "err", b"text")
    more = FakeChild.more
    assert more["start_new_session"] is True and more["pass_fds"] == (7,
        ) and more["cwd"] == "/shown" and more["umask"] == 0o077
    assert more["stdout"] == more["stderr"] == subprocess.PIPE and more["env"] == USER.environment()
    USER.run("find")
    assert FakeChild.given == b"" and FakeChild.more["pass_fds"] == () and FakeChild.more["cwd"] == "/"


@pytest.mark.parametrize("error", [UserError("printed too much"), KeyboardInterrupt()])
def test_a_process_that_is_given_up_is_ended(monkeypatch, error):
    ended = []
    monkeypatch.setattr(store_user.subprocess, "Popen", FakeChild)
    monkeypatch.setattr(store_user, "_gathered", lambda *_: (_ for _ in ()).throw(error))
    monkeypatch.setattr(store_user, "_ended", lambda child: ended.append("ended"))
    with pytest.raises(type(error)):
        USER.run("find")
    assert ended == ["ended"]


def test_a_program_that_is_missing(monkeypatch):
    monkeypatch.setattr(store_user.subprocess, "Popen", lambda *_,
        **__: (_ for _ in ()).throw(FileNotFoundError(2, "No such file")))
    with pytest.raises(UserError, match="^find: No such file$"):
        USER.run("find")


def gathered(parts, most=100, end=math.inf):
    """What is gathered of two pipes that have these parts."""
    reads = []
    for data in parts:
        read, write = os.pipe()
        os.write(write, data)
        os.close(write)
        reads.append(os.fdopen(read, "rb"))
    ended = subprocess.Popen("true")
    child = SimpleNamespace(stdout=reads[0], stderr=reads[1], pid=ended.pid)
    try:
        return store_user._gathered(child, most, end)
    finally:
        ended.wait()
        for it in reads:
            it.close()


def test_who_has_a_pipe_behind_the_childs_end_holds_nobody(monkeypatch):
    """As another process of the store's user gets it, by pidfd_getfd(2): here the child's own child has it."""
    monkeypatch.setattr(store_user, "LINGER", 0.5)
    own = store_user.StoreUser("me", os.geteuid(), os.getegid())
    begun = time.monotonic()
    done = own.run("sh", "-c", "echo here; sleep 15 & exit 3")
    assert (done.returncode, done.stdout) == (3, "here\n") and 0.4 < time.monotonic() - begun < 10
    with subprocess.Popen(["sh", "-c", "sleep 15 & exit 3"], stdout=subprocess.PIPE, stderr=subprocess.PIPE) as child:
        assert store_user._relayed([child.stdout.fileno(), child.stderr.fileno()], child.pid) == ""


def test_a_child_that_closed_its_pipes_is_ended_too():
    own = store_user.StoreUser("me", os.geteuid(), os.getegid())
    begun = time.monotonic()
    with pytest.raises(UserError, match="took too long"):
        own.run("sh", "-c", "exec >&- 2>&-; exec sleep 15", seconds=0.3)
    assert time.monotonic() - begun < 10


def called_as_another(monkeypatch, function, **more):
    """A function that is called in a process of its own, without another user's rights."""
    monkeypatch.setattr(StoreUser, "is_own", lambda self: False)
    monkeypatch.setattr(StoreUser, "_become", lambda self, parent: None)
    return USER.call(function, **more)


def test_a_function_that_does_not_end_is_ended(monkeypatch):
    """Its user may stop it, and root waits for no more than it said."""
    monkeypatch.setattr(store_user, "PATIENCE", 0.2)
    with pytest.raises(UserError, match="took too long"):
        called_as_another(monkeypatch, lambda: os.kill(os.getpid(), signal.SIGSTOP), seconds=0.5)


def test_what_a_function_prints_is_bounded(monkeypatch):
    monkeypatch.setattr(store_user, "RELAYED", 1000)
    assert called_as_another(monkeypatch, lambda: os.write(1, b"x" * 1000) and 0) == 0
    assert called_as_another(monkeypatch, lambda: os.umask(0)) == 0o077, "what it makes is its user's alone"
    with pytest.raises(UserError, match="printed too much"):
        called_as_another(monkeypatch, lambda: os.write(1, b"x" * 1001) and 0)
    with pytest.raises(UserError, match="^x{4000}$"):
        called_as_another(monkeypatch, lambda: (_ for _ in ()).throw(ValueError("x" * 100_000)))


def test_where_memory_runs_out_these_are_ended_first(monkeypatch):
    """A command, and a function before it becomes the user's, who can't take back what root said."""
    own = store_user.StoreUser("me", os.geteuid(), os.getegid())
    assert own.run("cat", "/proc/self/oom_score_adj").stdout == "1000\n"
    steps = []
    monkeypatch.setattr(store_user, "end_first", lambda: steps.append("end_first"))
    monkeypatch.setattr(store_user.os, "setgroups", lambda groups: steps.append(groups))
    monkeypatch.setattr(store_user.os, "getgrouplist", lambda name, group: [name, group])
    for name in ("setresgid", "setresuid"):
        monkeypatch.setattr(store_user.os, name, lambda *_, name=name: steps.append(name))
    libc = SimpleNamespace(prctl=lambda *words: steps.append(words), syscall=lambda *words: steps.append(words) or 1)
    monkeypatch.setattr(store_user.ctypes, "CDLL", lambda *_, **__: libc)
    monkeypatch.setattr(store_user.os, "environ", {})
    monkeypatch.setattr(store_user.os, "geteuid", lambda: 0)
    monkeypatch.setattr(store_user.os, "uname", lambda: SimpleNamespace(machine="x86_64"))
    USER._become(os.getppid())
    # keyctl(2): 250 on x86-64, KEYCTL_JOIN_SESSION_KEYRING is 1, and without a name it is a new one.
    # setuid(2) leaves the groups as they are, so root's go first. It clears PR_SET_PDEATHSIG of prctl(2), which is 1.
    last = [(38, 1, 0, 0, 0), (4, 0, 0, 0, 0), (1, 9, 0, 0, 0)]
    assert steps == ["end_first", (250, 1, None), ["station", 4243], "setresgid", "setresuid", *last]
    libc.prctl = lambda what, *_: what == 38  # PR_SET_NO_NEW_PRIVS: who may get rights again does nothing
    with pytest.raises(UserError, match="^prctl: "):
        USER._become(os.getppid())


@pytest.mark.parametrize("number, is_refused", [(errno.ENOSYS, False), (errno.EPERM, False), (errno.EDQUOT, True)])
def test_roots_keys_are_left(monkeypatch, number, is_refused):
    """A command has none of them either. Where there are keyrings, and no new one, nothing is begun."""
    monkeypatch.setattr(store_user.subprocess, "Popen", FakeChild)
    monkeypatch.setattr(store_user, "_gathered", lambda child, most, end: [b"", b""])
    USER.run("find")
    monkeypatch.setattr(store_user, "end_first", lambda: None)
    monkeypatch.setattr(store_user.os, "geteuid", lambda: 0)
    monkeypatch.setattr(store_user.ctypes, "CDLL", lambda *_, **__: SimpleNamespace(syscall=lambda *_: -1))
    monkeypatch.setattr(store_user.ctypes, "get_errno", lambda: number)
    if is_refused:
        with pytest.raises(UserError, match="keyctl: "):
            FakeChild.more["preexec_fn"]()
    else:
        FakeChild.more["preexec_fn"]()


def test_a_kernel_without_keyrings_has_none_to_leave(monkeypatch):
    monkeypatch.setattr(store_user.os, "geteuid", lambda: 0)
    monkeypatch.setattr(store_user, "KEYCTL", {os.uname().machine: 99_999})  # syscall(2): it sets ENOSYS
    store_user.leave_keys()


def test_each_run_has_a_bound(monkeypatch):
    monkeypatch.setattr(store_user.subprocess, "Popen", FakeChild)
    for more, bound in (({}, 3600), ({"seconds": 5}, 5)):
        ends = []
        monkeypatch.setattr(store_user, "_gathered", lambda child, most, end: ends.append(end) or [b"", b""])
        begun = time.monotonic()
        USER.run("find", **more)
        assert bound <= ends[0] - begun < bound + 5


def test_what_a_process_prints_is_bounded():
    assert gathered([b"x" * 100, b"y"]) == [b"x" * 100, b"y"]
    for parts in ([b"x" * 101, b""], [b"", b"y" * 101]):
        with pytest.raises(UserError, match="printed too much"):
            gathered(parts)
    with pytest.raises(UserError, match="took too long"):
        gathered([b"x", b"y"], end=0)


def test_a_process_that_is_kept_is_given_up(monkeypatch):
    """By ptrace(2) another process of the store's user keeps one that has ended: it can't be waited for."""
    monkeypatch.setattr(store_user.subprocess, "Popen", FakeChild)
    monkeypatch.setattr(store_user, "_gathered", lambda *_: [b"", b""])
    monkeypatch.setattr(FakeChild, "wait", lambda self, patience: (_ for _ in ()).throw(
        subprocess.TimeoutExpired("find", patience)))  # fmt: skip
    with pytest.raises(UserError, match="another one of his keeps it"):
        USER.run("find")
    monkeypatch.setattr(store_user, "PATIENCE", 0.1)
    waits = lambda child, how: (0, 0) if how == os.WNOHANG else pytest.fail("waits")  # noqa: E731
    monkeypatch.setattr(store_user.os, "waitpid", waits)
    with pytest.raises(UserError, match="another one of his keeps it"):
        called_as_another(monkeypatch, lambda: 0)


class Stubborn:
    """A process that ends by a signal, or by none."""

    pid = 77

    def __init__(self, ends_by):
        self.ends_by, self.signals, self.is_over = ends_by, [], False

    def poll(self):
        return 0 if self.is_over else None

    def wait(self, patience):
        if not self.is_over:
            raise subprocess.TimeoutExpired("x", patience)


@pytest.mark.parametrize("ends_by, signals", [(15, [15]), (9, [15, 9])])
def test_a_process_is_asked_to_end_and_then_ended(monkeypatch, ends_by, signals):
    child = Stubborn(ends_by)

    def killpg(group, number):
        assert group == 77
        child.signals.append(int(number))
        child.is_over = number == ends_by

    monkeypatch.setattr(store_user.os, "killpg", killpg)
    store_user._ended(child)
    assert child.signals == signals


def test_the_users_own_run_calls_in_its_own_process(monkeypatch):
    monkeypatch.setattr(store_user.os, "geteuid", lambda: 4242)
    monkeypatch.setattr(store_user.os, "fork", lambda: pytest.fail("forked"))
    assert USER.call(lambda: 3) == 3 and USER.call(lambda: None) == 0


@pytest.mark.parametrize("said, status, told", [("why", 0, "^why$"), ("", 9, "was killed"), ("", 0, ""), ("", 3 << 8,
    "")])
def test_what_a_child_tells(monkeypatch, said, status, told):
    """Its error comes back as words, and its number as its status; of one that was killed there is neither."""
    monkeypatch.setattr(store_user.os, "geteuid", lambda: 0)
    monkeypatch.setattr(store_user.os, "fork", lambda: 77)
    monkeypatch.setattr(store_user, "_waited", lambda child, pipes,
        mask, until: ([os.close(it) for pair in pipes for it in pair], (said, status))[1])
    if told:
        with pytest.raises(UserError, match=told):
            USER.call(lambda: pytest.fail("as root"))
    else:
        assert USER.call(lambda: pytest.fail("as root")) == status >> 8
    store_user.signal.pthread_sigmask(store_user.signal.SIG_UNBLOCK, store_user.STOPS)


class Asked(Exception):
    """A signal that ends this run."""


def test_a_process_that_stops_itself_ends_with_root(monkeypatch):
    """Its user may stop it, so that it is asked in vain. The first signal ends this run all the same."""
    made, fork = [], os.fork

    def asked(*_):
        raise Asked

    monkeypatch.setattr(store_user.os, "fork", lambda: made.append(fork()) or made[-1])
    monkeypatch.setattr(store_user, "PATIENCE", 0.6)
    monkeypatch.setattr(StoreUser, "is_own", lambda self: False)
    if os.geteuid():  # else it becomes that user
        monkeypatch.setattr(StoreUser, "_become", lambda self, parent: None)
    before, begun = signal.signal(signal.SIGALRM, asked), time.monotonic()
    signal.setitimer(signal.ITIMER_REAL, 0.5, 2)
    try:
        with pytest.raises(Asked):
            USER.call(lambda: os.kill(os.getpid(), signal.SIGSTOP))
        assert time.monotonic() - begun < 2, "a second signal was needed"
        with pytest.raises(ChildProcessError):
            os.waitpid(made[0], os.WNOHANG)
    finally:
        signal.setitimer(signal.ITIMER_REAL, 0)
        signal.signal(signal.SIGALRM, before)
        with contextlib.suppress(ProcessLookupError):
            os.kill(made[0], signal.SIGKILL)


def test_where_no_process_can_be_made_signals_come_again(monkeypatch):
    monkeypatch.setattr(store_user.os, "geteuid", lambda: 0)
    monkeypatch.setattr(store_user.os, "fork", lambda: (_ for _ in ()).throw(OSError(11, "again")))
    store_user.signal.pthread_sigmask(store_user.signal.SIG_UNBLOCK, store_user.STOPS)
    with pytest.raises(OSError):
        USER.call(lambda: pytest.fail("as root"))
    assert not store_user.signal.pthread_sigmask(store_user.signal.SIG_BLOCK, ()) & set(store_user.STOPS)


# ---- the store


@pytest.fixture
def store(tmp_path, monkeypatch):
    monkeypatch.setattr(store_user, "_held", lambda *_: None)
    monkeypatch.setattr(store_user, "user_of", lambda handle,
        folder: SimpleNamespace(name="station", number=tmp_path.stat().st_uid))
    (tmp_path / "books.db").write_text("DB")
    (tmp_path / "books.db-wal").write_text("LOG")
    return StoreFolder(tmp_path / "books.db")


def test_the_sizes_of_a_store(store):
    assert (store.size(), store.size("-wal")) == (2, 3)
    before = len(os.listdir("/proc/self/fd"))
    store.size()
    assert len(os.listdir("/proc/self/fd")) == before


# ---- rooms


def test_a_room_that_is_too_small(tmp_path, monkeypatch):
    monkeypatch.setattr(store_user, "_held", lambda *_: None)
    monkeypatch.setattr(rooms.shutil, "disk_usage",
        lambda path: SimpleNamespace(free=5_000_000 + rooms.BESIDE - 1))
    with pytest.raises(UserError, match="a copy needs 5 MB in .*--room"), rooms.room(USER, 5_000_000, tmp_path):
        pytest.fail("there is no room")
    assert os.listdir(tmp_path) == []


def test_a_room_is_roots_and_goes(tmp_path, monkeypatch):
    owned, removed = [], []
    os.mkfifo(tmp_path / f"{rooms.ROOM}pipe")  # what others put beside it holds nobody up, and stays
    (tmp_path / f"{rooms.ROOM}link").symlink_to("/tmp")
    monkeypatch.setattr(store_user, "_held", lambda *_: None)
    monkeypatch.setattr(rooms.os, "chown", lambda path, *ids: owned.append((path.name, ids)))
    monkeypatch.setattr(rooms, "_removed", lambda room: removed.append(room))
    with pytest.raises(ValueError), rooms.room(USER, 5, tmp_path) as own:
        assert own.is_dir() and own.name == "own" and stat.S_IMODE(own.stat().st_mode) == 0o700
        assert stat.S_IMODE(own.parent.stat().st_mode) == 0o711 and owned == [("own", (4242, 4243))]
        assert rooms.clear_rooms(tmp_path) == [], "one that a run holds stays"
        raise ValueError
    assert removed == [own.parent]
    removed.clear()
    before = len(os.listdir("/proc/self/fd"))
    assert rooms.clear_rooms(tmp_path) == [own.parent.name], "one that nobody holds goes"
    assert removed == [own.parent] and len(os.listdir("/proc/self/fd")) == before
