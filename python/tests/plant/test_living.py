"""The list of tokens on a pair's volume, and what a takeover refuses by it, as docs/operate/second-machine.md says."""

import os
from types import SimpleNamespace

from wanekupo.standby import living
import pytest
from wanekupo.standby.half import StandbyError
from wanekupo.common.token_file import Outer, TokenSeat, Tokens, tokens_text

MARK = "0123456789ab"
ONE, TWO, ENDS = f"a1:1 {MARK} all -", f"a1:2 {MARK} look -", f"a1:1 {MARK} all 2026-11-29T18:00"
PAST = f"b1:1 {MARK} all 2026-11-28T23:59"


@pytest.fixture(autouse=True)
def clock(monkeypatch):
    monkeypatch.setattr("wanekupo.common.token_file.current_minute", lambda: "2026-11-29T10:00")


def listed(tmp_path):
    handle = os.open(tmp_path, os.O_PATH | os.O_DIRECTORY)
    try:
        return living.listed_tokens(handle)
    finally:
        os.close(handle)


LISTS = [
    ("", set()),
    (f"{ONE}\n", {ONE}),
    (f"{ONE}\n{TWO}\n", {ONE, TWO}),
    (f"{ENDS}\n{PAST}\n", {ENDS}),
    (f"@manager:3 {MARK} look -\n", {f"@manager:3 {MARK} look -"}),
]
WRONG = ["\n", "a1:1\n", f"{ONE} \n", f"{ONE}\n\x1b[2J\n", f"a1 {MARK} all -\n", f"a1:1 {MARK} write -\n",
         f"a1:1 {MARK} all 2026\n", f"a/1:1 {MARK} all -\n", "ä\n", ONE + "\n" + "x" * (1 << 20)]  # fmt: skip


@pytest.mark.parametrize("text, found", LISTS)
def test_list_that_is_read(tmp_path, text, found):
    (tmp_path / living.NOTE).write_text(text, encoding="utf-8")
    assert listed(tmp_path) == found


@pytest.mark.parametrize("text", WRONG, ids=range(len(WRONG)))
def test_list_that_is_none(tmp_path, capsys, text):
    (tmp_path / living.NOTE).write_text(text, encoding="utf-8")
    assert listed(tmp_path) is None
    said = capsys.readouterr().out
    assert said.startswith("tokens.living beside the store") and "\x1b" not in said


def test_no_list_and_what_is_no_plain_file(tmp_path, capsys):
    assert listed(tmp_path) is None and not capsys.readouterr().out
    note, other = tmp_path / living.NOTE, tmp_path / "other"
    other.write_text(f"{ONE}\n")
    for make in (lambda: note.symlink_to(other), lambda: os.mkfifo(note), note.mkdir):
        make()
        assert listed(tmp_path) is None and "can't be read" in capsys.readouterr().out
        note.rmdir() if note.is_dir() and not note.is_symlink() else note.unlink()


class Machine:
    """The half of beta, whose tokens' file has these lines; the other machine is alpha."""

    def __init__(self, folder, *lines):
        a1, b1 = TokenSeat("a1", "acme", "inner", given=2), TokenSeat("b1", "bolt", "inner", given=2)
        tokens = Tokens({"a1": a1, "b1": b1})
        for number, line in enumerate(lines, 1):
            name, mark, may, until = line.split()
            until = until.strip("-") and until
            tokens.outers.append(
                Outer(
                    name, number, name[:2], may == "look", mark, "2026-11-01T00:00",
                    f"wanekupo_{number:064x}", until=until,
                )  # fmt: skip
            )
        path = folder / "tokens.conf"
        path.write_text(tokens_text(tokens))
        path.chmod(0o600)
        self.settings = SimpleNamespace(tokens=str(path))

    def other_name(self):
        return "alpha"


# What this machine has, what the list has, which tokens are refused, and which are told as missing.
CASES = [
    ((), set(), "", ""),
    ((), None, "", ""),
    ((ONE, TWO), {ONE, TWO}, "", ""),
    ((ONE, TWO), {TWO}, "that alpha didn't let in so: a1:1.", ""),
    ((ONE, TWO), set(), "that alpha didn't let in so: a1:1, a1:2.", ""),
    ((ONE, TWO), None, "that alpha may have ended, as the volume has no list: a1:1, a1:2.", ""),
    ((TWO,), {ONE, TWO}, "", "a1:1"),
    # With a grace there, and without one here; another token of the same name.
    ((ONE,), {ENDS}, "that alpha didn't let in so: a1:1.", "a1:1"),
    ((ONE,), {ONE.replace("0", "f")}, "that alpha didn't let in so: a1:1.", "a1:1"),
    ((TWO.replace("look", "all"),), {TWO}, "that alpha didn't let in so: a1:2.", "a1:2"),
    # One whose time is past asks nowhere.
    ((ONE, PAST), {ONE}, "", ""),
]


@pytest.mark.parametrize("own, there, refused, lacking", CASES)
def test_takeover(tmp_path, capsys, own, there, refused, lacking):
    half = Machine(tmp_path, *own)
    if refused:
        with pytest.raises(StandbyError) as error:
            living.test_tokens(half, there, False)
        assert refused in str(error.value) and "--ended-tokens-may-ask" in str(error.value)
        assert (f"401 here: {lacking}\n" in capsys.readouterr().out) == bool(lacking)
    living.test_tokens(half, there, bool(refused))
    said = capsys.readouterr().out
    assert ("may ask here by your word" in said) == bool(refused)
    assert (f"401 here: {lacking}\n" in said) == bool(lacking)


def test_tokens_that_cant_be_read_refuse(tmp_path):
    half = Machine(tmp_path, ONE)
    os.chmod(half.settings.tokens, 0o644)
    with pytest.raises(StandbyError, match="can't be read: .* may be read by others"):
        living.test_tokens(half, {ONE}, True)
