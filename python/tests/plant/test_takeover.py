"""A takeover: which half is fit, who is certain that the other machine is off, and in which order what is done."""

import argparse
import contextlib
import os
from datetime import datetime, timezone
from types import SimpleNamespace

from wanekupo.standby import half
import pytest
from wanekupo.standby.half import StandbyError, StandbySettings, DrbdState
from wanekupo.standby.look import Contents
from scripts import script

takeover = script("standby/takeover")
BOTH = DrbdState("Connected", "Secondary", "Secondary", "UpToDate", "UpToDate", False)
ALONE = DrbdState("WFConnection", "Secondary", "Unknown", "UpToDate", "DUnknown", False)
SINCE = datetime(2026, 6, 15, 12, 0, tzinfo=timezone.utc)


def state(like=ALONE, **more):
    return DrbdState(**{**like.__dict__, **more})


class FakeHalf:
    """A half whose states come one after the other; the last one stays."""

    def __init__(self, *states, is_there=False, **settings):
        self.states, self.calls, self.is_there, self.resource = list(states), [], is_there, "station"
        self.settings = StandbySettings(**settings)

    def __call__(self, settings):
        return self

    def state(self):
        return self.states.pop(0) if len(self.states) > 1 else self.states[0]

    def other_name(self):
        return "there"

    def received(self):
        return "42"

    def is_mounted(self):
        return self.is_there

    def mount(self):
        self.calls.append("mount")

    def command(self, what, seconds=60):
        self.calls.append((what, seconds))


@pytest.fixture
def put_in(monkeypatch):
    """Puts a half in place; what else is done is noted in its calls. `refuses` names what is refused."""

    def put(own, fenced=False, refuses=""):
        def noted(name, answer=None):
            def call(*words):
                own.calls.append((name, *words[1:]) if name == "since" else name)
                if name == refuses:
                    raise StandbyError(name)
                return answer

            return call

        monkeypatch.setattr(takeover, "Half", own)
        monkeypatch.setattr(takeover, "read_settings", lambda: own.settings)
        monkeypatch.setattr(takeover, "done", lambda words: own.calls.append(" ".join(words)) or noted(words[1])())
        monkeypatch.setattr(takeover, "print_told", lambda *words: None)
        monkeypatch.setattr(takeover, "alone_since", lambda received: own.calls.append(("since", received)) or SINCE)
        for name in ("forget_alone", "give_word", "take_word"):
            monkeypatch.setattr(takeover, name, noted(name))
        monkeypatch.setattr(takeover, "fenced_by_command", noted("fence", fenced))
        monkeypatch.setattr(takeover.needs, "test_resource", noted("needs"))
        monkeypatch.setattr(takeover.witness, "highest_numbers",
            lambda *words: own.calls.append(("gathered", *words)) or {"a1": 1})
        monkeypatch.setattr(takeover.witness, "compare_numbers", noted("compare"))
        monkeypatch.setattr(takeover.look, "contents", noted("look", Contents({"a1": 1}, None)))
        monkeypatch.setattr(takeover.living, "test_tokens", noted("living"))
        monkeypatch.setattr(takeover.living, "here", noted("here"))
        monkeypatch.setattr(takeover.living, "leave", noted("leave"))
        return own

    return put


def words(**more):
    return argparse.Namespace(**{"other_is_off": None, "witness": [], "ended_tokens_may_ask": False, "look": False,
        **more})


# ---- which half is fit


@pytest.mark.parametrize("now", [
    BOTH, ALONE, state(disk="Consistent"), state(connection="NetworkFailure"), state(connection="Timeout"),
    state(BOTH, other_disk="Inconsistent"), state(BOTH, role="Primary"),
])  # fmt: skip
def test_fit(now):
    takeover.tested_state(now)


@pytest.mark.parametrize("now, told", [
    (state(BOTH, other_role="Primary"), "has the store .*stepdown"), (state(BOTH, disk="Consistent"), "Consistent"),
    (state(BOTH, disk="Inconsistent"), "half of an older state"),
    (state(disk="Inconsistent"), "half of an older state"),
    (state(disk="Outdated"), "the other half is newer"), (state(BOTH, disk="Outdated"), "the other half is newer"),
    (state(disk="Diskless"), "its disk failed"), (state(disk="Failed"), "its disk failed"),
    (state(disk="DUnknown"), "isn't|doesn't"),
    (state(disk="Attaching"), "doesn't say that it is whole"), (state(connection="StandAlone"), "drbdadm connect"),
    (state(connection="StandAlone", disk="Consistent"), "drbdadm connect"),
    (state(connection="WFReportParams", other_role="Primary"), "has the store"),
])  # fmt: skip
def test_unfit(now, told):
    with pytest.raises(StandbyError, match=told):
        takeover.tested_state(now)


# ---- whether the other machine is off


@pytest.mark.parametrize("named, fenced, is_certain", [
    (None, True, True), ("there", True, True), ("there", False, True), (None, False, False),
])  # fmt: skip
def test_shut_out(put_in, named, fenced, is_certain):
    own = put_in(FakeHalf(ALONE), fenced)
    if is_certain:
        takeover.shut_out(own, named)
    else:
        with pytest.raises(StandbyError, match="takeover --other-is-off there"):
            takeover.shut_out(own, named)
    assert own.calls == ["fence"]


@pytest.mark.parametrize("named", ["here", "ther", "There"])
def test_the_word_for_another_machine_is_none(put_in, named):
    own = put_in(FakeHalf(ALONE), fenced=True)
    with pytest.raises(StandbyError, match=f"is there, and not {named}"):
        takeover.shut_out(own, named)
    assert own.calls == [], "no machine is switched off by a wrong name"


# ---- what the half has


@pytest.mark.parametrize("named, commands, since, is_asked", [
    (["f"], (), SINCE, True), ([], ("ssh pc7",), SINCE, True), (["f"], ("ssh pc7",), None, True), ([], (), None, False),
])  # fmt: skip
def test_the_half_is_held_against_its_witness(put_in, named, commands, since, is_asked):
    own = put_in(FakeHalf(BOTH, witnesses=commands))
    takeover.tested_contents(own, words(witness=named), since)
    assert own.calls == [("gathered", named, commands, since), "look", *(["compare"] if is_asked else []), "living"]


def test_alone_there_has_to_be_a_witness(put_in):
    own = put_in(FakeHalf(ALONE))
    with pytest.raises(StandbyError, match="There is no witness"):
        takeover.tested_contents(own, words(), SINCE)
    assert own.calls == []


def test_the_words_for_tokens_go_on(put_in, monkeypatch):
    seen = []
    own = put_in(FakeHalf(BOTH))
    monkeypatch.setattr(takeover.look, "contents", lambda it: Contents({}, {"x"}))
    monkeypatch.setattr(takeover.living, "test_tokens", lambda it, there, is_known: seen.append((there, is_known)))
    for is_known in (True, False):
        takeover.tested_contents(own, words(ended_tokens_may_ask=is_known), None)
    assert seen == [({"x"}, True), ({"x"}, False)]


def test_compared_are_the_half_and_its_witness(put_in, monkeypatch):
    seen = []
    own = put_in(FakeHalf(BOTH))
    monkeypatch.setattr(takeover.look, "contents", lambda it: Contents({"a1": 7}, None))
    monkeypatch.setattr(takeover.witness, "compare_numbers", lambda *it: seen.append(it))
    assert takeover.compared(own, words(witness=["f"]), None).numbers == {"a1": 7}
    assert seen == [({"a1": 7}, {"a1": 1})]


@pytest.mark.parametrize("now, is_looked", [(BOTH, True), (ALONE, True), (state(disk="Outdated"), True),
                                            (state(BOTH, role="Primary"), False),
                                            (state(BOTH, other_role="Primary"), False)])  # fmt: skip
def test_a_look(put_in, now, is_looked):
    own = put_in(FakeHalf(now))
    if is_looked:
        assert takeover.looked(words(witness=["f"])) == 0 and own.calls[1:] == ["look", "compare"]
    else:
        with pytest.raises(StandbyError, match="may be writing this half"):
            takeover.looked(words(witness=["f"]))
        assert own.calls == []


# ---- what is done


@pytest.mark.parametrize("now, calls", [
    (BOTH, ["drbdadm primary station", "primary", "take_word"]),
    (ALONE, ["give_word", "drbdadm primary station", "primary", "take_word"]),
])  # fmt: skip
def test_promote(put_in, now, calls):
    """The word is for DRBD's handler alone, and none is left behind."""
    own = put_in(FakeHalf(now))
    takeover.promote(own, now)
    assert own.calls == calls


def test_no_word_is_left_where_drbd_refuses(put_in):
    own = put_in(FakeHalf(ALONE), refuses="primary")
    with pytest.raises(StandbyError):
        takeover.promote(own, ALONE)
    assert own.calls[-1] == "take_word"


@pytest.mark.parametrize("before, after", [
    (ALONE, BOTH), (BOTH, ALONE), (BOTH, state(BOTH, disk="Outdated")), (BOTH, state(BOTH, other_role="Primary")),
    (ALONE, state(disk="Outdated")), (ALONE, state(BOTH, other_role="Primary")),
])  # fmt: skip
def test_what_has_changed_meanwhile_is_looked_at_anew(put_in, before, after):
    own = put_in(FakeHalf(after))
    with pytest.raises(StandbyError, match="Type the same again"):
        takeover.promote(own, before)
    assert own.calls == []


@pytest.mark.parametrize("is_there", [True, False])
def test_served(put_in, is_there):
    """The volume, then the server, then the address: nobody asks for the store before it is there."""
    own = put_in(FakeHalf(BOTH, is_there=is_there))
    assert takeover.serve_here(own) == 0
    assert own.calls == SERVED[is_there:]


SERVED = ["mount", ("start", half.SERVER_SECONDS), ("take_address", 60), "here", "leave"]


def test_behind_a_stepdown(put_in):
    own = put_in(FakeHalf(BOTH))
    assert takeover.take_over(words()) == 0
    assert own.calls == ["forget_alone", "needs", ("gathered", [], (), None), "look", "living",
        "drbdadm primary station",
                         "primary", "take_word", "forget_alone", *SERVED]  # fmt: skip


def test_where_the_other_machine_is_dead(put_in):
    """It is known to be off before this half is looked at, and before a witness counts."""
    own = put_in(FakeHalf(ALONE))
    assert takeover.take_over(words(other_is_off="there", witness=["f"])) == 0
    assert own.calls == ["needs", "fence", ("since", "42"), ("gathered", ["f"], (), SINCE), "look", "compare",
        "living",
                         "give_word", "drbdadm primary station", "primary", "take_word", "forget_alone",
                         *SERVED]  # fmt: skip


@pytest.mark.parametrize("refuses", ["needs", "look", "compare", "living"])
def test_a_refusal_changes_nothing(put_in, refuses):
    own = put_in(FakeHalf(ALONE), fenced=True, refuses=refuses)
    with pytest.raises(StandbyError):
        takeover.take_over(words(witness=["f"]))
    assert own.calls[-1] == refuses and "drbdadm primary station" not in own.calls and "give_word" not in own.calls
    assert refuses != "needs" or own.calls == ["needs"], "no machine is switched off for a resource that is unfit"


@pytest.mark.parametrize("now, told", [
    (state(is_frozen=True), "frozen"), (state(role="Primary", is_frozen=True), "frozen"),
    (state(disk="Outdated"), "Outdated"),
    (state(BOTH, other_role="Primary"), "has the store"),
])  # fmt: skip
def test_take_over_refuses(put_in, now, told):
    own = put_in(FakeHalf(now))
    with pytest.raises(StandbyError, match=told):
        takeover.take_over(words(other_is_off="there", witness=["f"]))
    assert own.calls == []


def test_begun_again_it_goes_on(put_in):
    own = put_in(FakeHalf(state(BOTH, role="Primary")))
    assert takeover.take_over(words()) == 0 and own.calls == ["forget_alone", *SERVED]


@pytest.mark.parametrize("text, called, found", [
    ([], "take_over", words()), (["--look", "--witness", "f"], "looked", words(look=True, witness=["f"])),
    (["--other-is-off", "there", "--witness", "f", "--witness", "-"], "take_over",
     words(other_is_off="there", witness=["f", "-"])),
    (["--ended-tokens-may-ask"], "take_over", words(ended_tokens_may_ask=True)),
])  # fmt: skip
def test_words(monkeypatch, text, called, found):
    calls, locks = [], []

    @contextlib.contextmanager
    def alone():
        locks.append("locked")
        yield

    monkeypatch.setattr(half, "alone_at_work", alone)
    monkeypatch.setattr(half.os, "geteuid", lambda: 0)
    for name in ("take_over", "looked"):
        monkeypatch.setattr(takeover, name, lambda args, name=name: calls.append((name, args)) or 0)
    assert takeover.main(text) == 0 and calls == [(called, found)] and locks == ["locked"]


def test_there_is_no_option_that_overrules_it():
    with pytest.raises(SystemExit) as error:
        takeover.main(["--force"])
    assert error.value.code == 2


# ---- the list of tokens beside the store


def left(monkeypatch, tmp_path, now, error=None):
    """What is written, and as whom. The list is by token_file."""
    living, calls = takeover.living, []
    own = FakeHalf(now)
    own.folder = tmp_path
    user = SimpleNamespace(call=lambda call, seconds: calls.append("as the user") or call())
    handle = os.open(tmp_path, os.O_RDONLY)
    monkeypatch.setattr(living, "StoreFolder", lambda db: {tmp_path / "books.db": SimpleNamespace(user=user,
        handle=handle)}[db])
    monkeypatch.setattr(living, "living", lambda tokens: ["a", "b"])

    def replace_file(path, text):
        calls.append((path, text))
        if error:
            raise error

    monkeypatch.setattr(living, "replace_file", replace_file)
    try:
        living.leave(own, "TOKENS")
    finally:
        with contextlib.suppress(OSError):
            os.close(handle)
            calls.append("left open")
    return calls


def test_the_list_is_left_as_the_stores_user(monkeypatch, tmp_path):
    assert left(monkeypatch, tmp_path, BOTH) == ["as the user", (tmp_path / "tokens.living", "a\nb\n")]
    with pytest.raises(StandbyError, match="can't be written beside the store: .*full"):
        left(monkeypatch, tmp_path, BOTH, OSError(28, "full"))


def test_nothing_is_left_while_writes_are_frozen(monkeypatch, tmp_path):
    with pytest.raises(StandbyError, match="writes are frozen"):
        left(monkeypatch, tmp_path, state(is_frozen=True))
    assert os.listdir(tmp_path) == []
