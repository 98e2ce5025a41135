"""fence-peer, other-is-off, stepdown and is-mounted: what each says and does, in which order, and what it refuses."""

import contextlib
import sys

import pytest
from wanekupo.standby import command, half, is_mounted, takeover
from wanekupo.standby import fence_peer as fence
from wanekupo.standby import other_is_off as other
from wanekupo.standby import stepdown as down
from wanekupo.standby.half import StandbyError, StandbySettings, DrbdState

PRIMARY = DrbdState("WFConnection", "Primary", "Unknown", "UpToDate", "DUnknown", True)


def state(**more):
    return DrbdState(**{**PRIMARY.__dict__, **more})


BOTH = state(connection="Connected", other_role="Secondary", other_disk="UpToDate", is_frozen=False)


class FakeHalf:
    """A half that notes what is done; its states come one after the other, and the last one stays."""

    def __init__(self, *states, is_there=True):
        self.states, self.calls, self.is_there = list(states), [], is_there
        self.settings = StandbySettings(fence="FENCE", take_address="TAKE", leave_address="LEAVE")
        self.resource = "station"

    def __call__(self, settings):
        return self

    def state(self):
        return self.states.pop(0) if len(self.states) > 1 else self.states[0]

    def other_name(self):
        return "there"

    def is_mounted(self):
        self.calls.append("is_mounted")
        return self.is_there

    def unmount(self):
        self.calls.append("unmount")

    def command(self, what, seconds=0):
        self.calls.append((what, seconds) if seconds else what)


def put_in(monkeypatch, module, own, words=(), fenced=False):
    """The half in a script's place; the words that a person gives come one after the other."""
    left = iter(words)
    moments = iter(range(100000))
    monkeypatch.setattr(module, "Half", own)
    monkeypatch.setattr(module, "read_settings", lambda: own.settings)
    for name, call in {
        "run_bounded": lambda it: own.calls.append(" ".join(it)) or half.subprocess.CompletedProcess(it, 0, "", ""),
        "done": lambda it: own.calls.append(" ".join(it)), "print_told": lambda *it: own.calls.append(("TELL", it[0])),
        "take_word": lambda: own.calls.append("take_word") or next(left, False),
        "give_word": lambda: own.calls.append("give_word"),
        "fenced_by_command": lambda settings: own.calls.append("fence") or fenced,
        "waited_for": lambda is_there, seconds: own.calls.append(("wait", seconds)) or is_there(),
    }.items():  # fmt: skip
        if hasattr(module, name):
            monkeypatch.setattr(module, name, call)
    monkeypatch.setattr(half.time, "sleep", lambda _: None)
    monkeypatch.setattr(half.time, "monotonic", lambda: next(moments))


# ---- fence-peer


def answered(monkeypatch, own, **more):
    put_in(monkeypatch, fence, own, **more)
    monkeypatch.setattr(fence, "wait_on", lambda it: own.calls.append("wait_on"))
    return fence.answered()


def test_a_word_says_it_is_off(monkeypatch):
    own = FakeHalf(PRIMARY)
    assert answered(monkeypatch, own, words=[True]) == 7 and own.calls == ["take_word"]


@pytest.mark.parametrize("role", ["Secondary", "Unknown"])
def test_before_this_machine_is_the_primary_only_a_word_counts(monkeypatch, role):
    """No command fences here: by hand nobody comes past it."""
    own = FakeHalf(state(role=role))
    assert answered(monkeypatch, own, fenced=True) == 1 and own.calls == ["take_word"]


def heads(own):
    return [it for it in own.calls if it != "take_word"]


@pytest.mark.parametrize("fenced, status, calls", [
    (True, 7, ["LEAVE", "fence", "TAKE"]), (False, 1, ["LEAVE", "fence", "wait_on"]),
])  # fmt: skip
def test_the_address_is_away_while_writes_are_frozen(monkeypatch, fenced, status, calls):
    own = FakeHalf(PRIMARY)
    assert answered(monkeypatch, own, fenced=fenced) == status and heads(own) == calls


def test_a_word_while_it_waits(monkeypatch):
    own = FakeHalf(PRIMARY)
    assert answered(monkeypatch, own, words=[False, False, True]) == 7
    assert heads(own) == ["LEAVE", "TAKE"], "no machine is switched off then"


def test_a_cable_that_is_whole_again_switches_nothing_off(monkeypatch):
    own = FakeHalf(PRIMARY, PRIMARY, BOTH)
    assert answered(monkeypatch, own, fenced=True) == 1 and heads(own) == ["LEAVE", "TAKE"]


def test_without_a_command_it_waits_for_a_word_alone(monkeypatch):
    own = FakeHalf(PRIMARY)
    own.settings = StandbySettings(take_address="TAKE", leave_address="LEAVE")
    assert answered(monkeypatch, own, words=[False] * 20 + [True]) == 7
    assert heads(own) == ["LEAVE", "fence", "TAKE"], "the command is none, and says no"


def test_how_long_it_waits(monkeypatch):
    """DRBD ends its handler behind ten minutes."""
    assert fence.LONGEST < 600 and fence.GRACE < fence.LONGEST
    own = FakeHalf(PRIMARY)
    put_in(monkeypatch, fence, own)
    assert fence.heard_answer(own, 101) is None and 95 < len(own.calls) < 105
    assert fence.heard_answer(own, 0) is None


class Ended(Exception):
    pass


def wait_on(monkeypatch, own, child):
    calls = []
    put_in(monkeypatch, fence, own)
    monkeypatch.setattr(fence.os, "fork", lambda: child)
    for name in ("setsid", "open", "dup2"):
        monkeypatch.setattr(fence.os, name, lambda *words, name=name: calls.append((name, *words)))
    monkeypatch.setattr(fence.os, "_exit", lambda status: (_ for _ in ()).throw(Ended(status)))
    if child:
        fence.wait_on(own)
    else:
        with pytest.raises(Ended, match="^0$"):
            fence.wait_on(own)
    return calls


@pytest.mark.parametrize("last, is_taken", [(state(is_frozen=False), True), (state(role="Secondary", is_frozen=False),
    False)])
def test_the_process_left_behind_brings_the_address_back(monkeypatch, last, is_taken):
    own = FakeHalf(PRIMARY, PRIMARY, last)
    calls = wait_on(monkeypatch, own, 0)
    assert own.calls == (["TAKE"] if is_taken else []) and len(own.states) == 1, "not while writes are frozen"
    assert calls[0] == ("setsid",) and [it[-1] for it in calls if it[0] == "dup2"] == [0, 1, 2]


def test_the_handler_itself_does_not_wait(monkeypatch):
    own = FakeHalf(PRIMARY)
    assert wait_on(monkeypatch, own, 42) == [] and own.calls == []


# ---- other-is-off


def say(monkeypatch, own, name="there", **more):
    put_in(monkeypatch, other, own, **more)
    return other.give_operators_word(name)


@pytest.mark.parametrize("now, name, told", [
    (PRIMARY, "here", "is there, and not here"), (PRIMARY, "ther", "not ther"),
    (BOTH, "there", "the two are connected"),
    (state(role="Secondary"), "there", "hasn't the store"), (state(is_frozen=False), "there", "aren't frozen"),
])  # fmt: skip
def test_no_word_is_given_where_there_is_nothing_to_say(monkeypatch, now, name, told):
    own = FakeHalf(now)
    with pytest.raises(StandbyError, match=told):
        say(monkeypatch, own, name)
    assert own.calls == []


def test_the_word_is_given_and_never_left(monkeypatch):
    own = FakeHalf(PRIMARY, state(is_frozen=False))
    assert say(monkeypatch, own) == 0
    assert own.calls[:3] == ["give_word", ("wait", 60), "take_word"] and own.calls[3][0] == "TELL"


def test_a_word_that_nobody_hears_resumes_writes(monkeypatch):
    own = FakeHalf(PRIMARY)
    assert say(monkeypatch, own) == 0
    assert own.calls[2:5] == ["take_word", "drbdadm resume-io station", "TAKE"]


def test_where_the_two_are_connected_again_nothing_is_resumed(monkeypatch):
    own = FakeHalf(PRIMARY, PRIMARY, BOTH)
    with pytest.raises(StandbyError, match="Nothing was said"):
        say(monkeypatch, own)
    assert own.calls == ["give_word", ("wait", 60), "take_word"]


def test_an_interrupted_word_is_taken_back(monkeypatch):
    own = FakeHalf(PRIMARY)
    put_in(monkeypatch, other, own)
    monkeypatch.setattr(other, "waited_for", lambda *_: (_ for _ in ()).throw(KeyboardInterrupt))
    with pytest.raises(KeyboardInterrupt):
        other.give_operators_word("there")
    assert own.calls == ["give_word", "take_word"]


# ---- stepdown


def step_down(monkeypatch, own, is_alone=False):
    put_in(monkeypatch, down, own)
    return down.step_down(is_alone)


@pytest.mark.parametrize("now, is_alone, told", [
    (state(role="Secondary"), True, "hasn't the store"), (PRIMARY, True, "are frozen"),
    (state(is_frozen=False), False, "isn't up to date"),
    (state(connection="SyncSource", is_frozen=False, other_disk="Inconsistent"), False, "isn't up to date"),
    (state(connection="StandAlone", is_frozen=False, other_disk="UpToDate"), False, "isn't up to date"),
])  # fmt: skip
def test_stepdown_refuses(monkeypatch, now, is_alone, told):
    own = FakeHalf(now)
    with pytest.raises(StandbyError, match=told):
        step_down(monkeypatch, own, is_alone)
    assert own.calls == []


@pytest.mark.parametrize("now, is_alone, is_there", [(BOTH, False, True), (state(is_frozen=False), True, True), (BOTH,
    False, False)])
def test_stepdown(monkeypatch, now, is_alone, is_there):
    """The address goes first, and the volume is the last thing of this machine's that is given away."""
    own = FakeHalf(now, is_there=is_there)
    assert step_down(monkeypatch, own, is_alone) == 0
    unmounted = ["is_mounted", *(["unmount"] if is_there else [])]
    assert own.calls[:-1] == ["leave_address", ("stop", half.SERVER_SECONDS), *unmounted, "drbdadm secondary station"]


def test_stepdown_stops_at_what_it_cannot_do(monkeypatch):
    own = FakeHalf(BOTH)

    def command(what, seconds=0):
        own.calls.append(what)
        if what == "stop":
            raise StandbyError("it runs on")

    own.command = command
    with pytest.raises(StandbyError):
        step_down(monkeypatch, own)
    assert own.calls == ["leave_address", "stop"], "a volume that a server writes isn't given away"


@pytest.mark.parametrize("words, is_alone", [([], False), (["--alone"], True)])
def test_stepdown_words(monkeypatch, words, is_alone):
    calls = []
    monkeypatch.setattr(down, "step_down", lambda it: calls.append(it) or 0)
    monkeypatch.setattr(half, "alone_at_work", contextlib.nullcontext)
    monkeypatch.setattr(half.os, "geteuid", lambda: 0)
    assert down.main(words) == 0 and calls == [is_alone]


# ---- is-mounted


@pytest.mark.parametrize("answer, status, told", [
    (True, 0, ""), (False, 2, "isn't mounted here"), (StandbyError("another volume"), 2, "another volume"),
    (OSError(5, "Fault"), 2, "Fault"),
])  # fmt: skip
def test_the_server_starts_over_its_volume_alone(monkeypatch, capsys, answer, status, told):
    """systemd starts the unit again behind a status 1, and not behind a 2."""

    def answered(it):
        if isinstance(answer, Exception):
            raise answer
        return answer

    monkeypatch.setattr(half.Half, "is_mounted", answered)
    monkeypatch.setattr(is_mounted, "read_settings", StandbySettings)
    assert is_mounted.main([]) == status and told in capsys.readouterr().err


# ---- from their first line to their last


def test_fence_peer_that_is_refused_says_nothing_is_off(monkeypatch, capsys):
    monkeypatch.setattr(fence, "read_settings", lambda: (_ for _ in ()).throw(StandbyError("Why.")))
    assert fence.main([]) == 1 and capsys.readouterr().err == "fence-peer: Why.\n"


@pytest.mark.parametrize("name, words, is_alone", [
    ("takeover", [], True), ("look", [], True), ("stepdown", [], True), ("other-is-off", ["there"], False),
])  # fmt: skip
def test_a_command_is_ended_by_what_it_was_called(monkeypatch, name, words, is_alone):
    calls = []
    for module in (takeover, down, other):
        monkeypatch.setattr(module, "end_script", lambda title, call, alone=False: calls.append((title, alone)) or 5)
    monkeypatch.setattr(sys, "argv", ["station-standby", name, *words])
    assert command.main() == 5
    assert calls == [("takeover" if name == "look" else name, is_alone)]


def test_a_command_that_there_is_not(monkeypatch, capsys):
    monkeypatch.setattr(sys, "argv", ["station-standby", "go"])
    assert command.main() == 2 and "takeover" in capsys.readouterr().err


def test_the_address_is_taken_again_where_two_took_it_at_once(monkeypatch):
    own = FakeHalf(PRIMARY)
    put_in(monkeypatch, other, own)
    monkeypatch.setattr(other, "run_bounded", lambda words: half.subprocess.CompletedProcess(words, 1, "", ""))
    assert other.give_operators_word("there") == 0 and own.calls[-2] == "take_address"


def test_the_name_is_the_words(monkeypatch):
    monkeypatch.setattr(half.os, "geteuid", lambda: 0)
    monkeypatch.setattr(other, "give_operators_word", lambda name: 7 if name == "there" else 0)
    assert other.main(["there"]) == 7
    with pytest.raises(SystemExit):
        other.main([])
