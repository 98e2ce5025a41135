"""The steps of a growth: their order, what each leaves where it fails, and what is asked before a token is given."""

import argparse
import http.client
import io
import os
import stat
import subprocess
import sys
from pathlib import Path
from types import SimpleNamespace

import pytest
from conftest import TOP
from wanekupo.plant.restart import tell_restart
from wanekupo.plant.site import apply as applying
from wanekupo.plant.site.apply import Stopped, apply
from wanekupo.plant.site.plan import PLACED, PREPARED, STOPPING, GrowthPlan, SeatWish, keep_plan, read_plan
from wanekupo.plant.trial_copy import Backup
from wanekupo.common.store_user import UserError
from wanekupo.common.token_file import Outer, TokenSeat, TokenError, Tokens, put, tokens_text

OLD, NEW = "customer = [] # old\r\n", "customer = [] # new\r\n"
PREFIX = "wanekupo_"


class FakePlace:
    """A place whose commands are noted and do nothing; `fails` has the first words of those that fail."""

    def __init__(self, folder):
        self.site, self.next, self.plan = folder / "site.toml", folder / "site.next.toml", folder / "site.growth"
        self.tokens, self.backups = folder / "tokens.conf", folder / "backups"
        self.db = folder / "books.db"
        self.program = "station"
        self.args = argparse.Namespace(stop="STOP it", start="START it", restarts="RESTARTS it", wait=9.0, port=880,
                                       nginx="https://n", certificate="/c.pem", patience=1.0)  # fmt: skip
        self.calls, self.fails, self.prints, self.given = [], set(), {}, {}
        self.held = OLD
        self.backups.mkdir()
        self.site.write_bytes(OLD.encode())
        self.next.write_bytes(NEW.encode())
        self.user = SimpleNamespace(run=lambda *words, given="", **_: self.noted("USER", words, given))

    def noted(self, who, words, given=""):
        self.calls.append((who, *words))
        self.given[words[0]] = given
        fails = words[0] in self.fails or os.path.basename(words[0]) in self.fails
        if words[0] == "cat" and os.path.exists(words[-1]):
            return subprocess.CompletedProcess(words, 0, open(words[-1], newline="").read(), "")
        return subprocess.CompletedProcess(words, int(fails), self.prints.get(words[0], ""), "told\n" if fails else "")

    def ran(self, *words, given=""):
        return self.noted("ROOT", words, given)

    def service(self, command):
        done = self.noted("SERVICE", command.split()[:1])
        return done.returncode == 0, done.stderr.strip()

    def token_words(self):
        return ["token"]

    def size(self):
        return 1

    def held_text(self, texts):
        self.calls.append(("HELD", *texts))
        if isinstance(self.held, Exception):
            raise self.held
        return self.held

    def heads(self):
        """Who did which command, by its name alone."""
        return [(who, os.path.basename(str(words[0]))) for who, *words in self.calls if words]


@pytest.fixture
def place(tmp_path, monkeypatch):
    made = FakePlace(tmp_path)
    monkeypatch.setattr(applying, "keep_plan", lambda path, plan: (
        made.calls.append(("PLAN", plan.stage)), keep_plan(path, plan)))  # fmt: skip
    monkeypatch.setattr(applying, "tried_over_backup", lambda it, backup, old, new: made.calls.append(
        ("TRIED", backup, old, new)))  # fmt: skip
    monkeypatch.setattr(applying, "is_up", lambda it: ("SERVICE", "START") in it.calls)
    monkeypatch.setattr(applying.time, "sleep", lambda _: None)
    monkeypatch.setattr(applying, "say", lambda text: made.calls.append(("SAY", text)))
    return made


def told(place):
    return [it[1] for it in place.calls if it[0] == "SAY"]


def heads(place):
    return [it for it in place.heads() if it[0] != "SAY"]


def test_the_order_of_all_steps(place, monkeypatch):
    replace = os.replace

    def replaced(source, target):
        if str(target) == str(place.site):
            assert read_plan(place.plan).stage == PLACED, "the plan says so before the text is in place"
            place.calls.append(("ROOT", "replace"))
        replace(source, target)

    monkeypatch.setattr(applying.os, "replace", replaced)
    monkeypatch.setattr(applying, "sync", lambda path: place.calls.append(("SYNC", path)))
    plan = GrowthPlan(is_tried=True)
    monkeypatch.setattr(applying, "give_token", lambda it, wish: place.calls.append(("GIVE", wish.seat)))
    plan.wishes = [SeatWish("a1", "acme"), SeatWish("b1", "bolt")]
    apply(place, plan)
    done = [it for it in heads(place) if it != ("ROOT", "RESTARTS")]
    assert done[:6] == [("PLAN", STOPPING), ("SERVICE", "STOP"), ("USER", "station-backup"), ("PLAN", PLACED),
                            ("ROOT", "replace"), ("SYNC", place.site.parent.name)]  # fmt: skip
    assert done[6:9] == [("SERVICE", "START"), ("GIVE", "a1"), ("GIVE", "b1")]
    assert place.site.read_bytes() == NEW.encode() and not place.next.exists() and not place.plan.exists()
    assert told(place)[-1] == "done"


def test_the_backup_is_made_as_the_user_of_the_old_text(place):
    plan = GrowthPlan(is_tried=True)
    applying.stop_and_back_up(place, plan)
    (call,) = [it for it in place.calls if it[:2] == ("USER", str(TOP / "python/bin/station-backup"))]
    assert list(call[2:]) == ["--program", "station", "--site", str(place.site), "--db", str(place.db), plan.backup]
    assert os.path.dirname(plan.backup) == str(place.backups) and "before-" in plan.backup


@pytest.mark.parametrize("is_tried", [True, False])
def test_an_untried_text_is_tried_over_that_backup(place, is_tried):
    plan = GrowthPlan(is_tried=is_tried)
    applying.stop_and_back_up(place, plan)
    tried = [it[1:] for it in place.calls if it[0] == "TRIED"]
    assert tried == ([] if is_tried else [(Backup(Path(plan.backup), 1, is_encrypted=False), OLD, NEW)])


def refuse_trial(*_):
    raise TokenError(1, "it refuses")


@pytest.mark.parametrize("fails", ["STOP", "station-backup", "trial"])
def test_what_fails_before_the_new_text_leaves_the_server_with_the_old_one(place, monkeypatch, fails):
    place.fails = {fails}
    if fails == "trial":
        monkeypatch.setattr(applying, "tried_over_backup", refuse_trial)
    plan = GrowthPlan()
    with pytest.raises(TokenError) as error:
        apply(place, plan)
    assert error.value.status == 1 and place.site.read_bytes() == OLD.encode() and place.next.exists()
    assert heads(place)[-2:] == [("SERVICE", "START"), ("PLAN", PREPARED)]
    assert read_plan(place.plan).backup == "" and not (place.site.parent / "site.toml.new").exists()
    assert (("USER", "station-backup") in heads(place)) == (fails != "STOP"), "no backup is made of a server that runs"


def test_the_backup_of_a_run_that_was_cut_goes(place):
    plan = GrowthPlan(STOPPING, str(place.backups / "before-1"), True)
    applying.stop_and_back_up(place, plan)
    removed = [it for it in place.calls if it[0] == "USER" and it[1] == "rm"]
    assert len(removed) == 1 and removed[0][-1] == str(place.backups / "before-1") != plan.backup
    applying.stop_and_back_up(place, GrowthPlan(is_tried=True))
    assert len([it for it in place.calls if it[1] == "rm"]) == 1, "else nothing is removed"


@pytest.mark.parametrize("mode", [0o640, 0o444, 0o600])
def test_the_new_text_has_the_owner_and_the_mode_of_the_old_one(place, monkeypatch, mode):
    flags, calls = [], []
    opened, owned, moded = os.open, os.fchown, os.fchmod
    monkeypatch.setattr(applying.os, "open", lambda path, flag, *more, **kept: (
        flags.append((str(path), flag, *more)), opened(path, flag, *more, **kept))[1])  # fmt: skip
    monkeypatch.setattr(applying.os, "fchown", lambda fd, *ids: (calls.append(ids), owned(fd, *ids)))
    monkeypatch.setattr(applying.os, "fchmod", lambda fd, bits: (calls.append(bits), moded(fd, bits)))
    monkeypatch.setattr(applying.os, "fsync", lambda fd: calls.append("sync"))
    place.site.chmod(mode)
    applying.put_in_place(place, GrowthPlan())
    found = place.site.stat()
    assert stat.S_IMODE(found.st_mode) == mode and calls[:3] == [(found.st_uid, found.st_gid), mode, "sync"]
    (made,) = [it for it in flags if it[0] == str(place.site) + ".new"]
    assert made[1] & os.O_EXCL and made[1] & os.O_NOFOLLOW and made[2] == 0o600


def test_what_a_cut_run_left_as_new_goes_and_a_link_is_not_followed(place, tmp_path):
    (tmp_path / "other").write_text("other")
    (tmp_path / "site.toml.new").symlink_to(tmp_path / "other")
    applying.put_in_place(place, GrowthPlan())
    assert (tmp_path / "other").read_text() == "other"
    assert not place.site.is_symlink() and place.site.read_bytes() == NEW.encode()


def test_a_placed_run_goes_on_without_a_stop(place):
    place.site.write_bytes(NEW.encode())
    apply(place, GrowthPlan(PLACED, "", True))
    assert heads(place)[0] == ("SERVICE", "START") and ("SERVICE", "STOP") not in heads(place)


def test_a_run_that_was_cut_right_before_the_text_puts_it_in_place_stopped(place):
    applying.start(place, GrowthPlan(PLACED))
    assert heads(place)[:3] == [("SERVICE", "STOP"), ("PLAN", PLACED), ("SERVICE", "START")]
    assert place.site.read_bytes() == NEW.encode()


def test_a_server_that_is_up_is_not_started(place, monkeypatch):
    place.next.unlink()
    monkeypatch.setattr(applying, "is_up", lambda it: True)
    applying.start(place, GrowthPlan(PLACED))
    assert heads(place) == []


@pytest.mark.parametrize("stage, status", [(PREPARED, 1), (PLACED, 5)])
def test_a_signal_leaves_the_server_started(place, monkeypatch, stage, status):
    def stopped(*_):
        raise Stopped(15)

    monkeypatch.setattr(applying, "start" if stage == PLACED else "stop_and_back_up", stopped)
    place.site.write_bytes(NEW.encode())
    plan = GrowthPlan(stage)
    with pytest.raises(TokenError) as error:
        apply(place, plan)
    assert error.value.status == status and heads(place) == [("SERVICE", "START")]
    assert place.next.exists(), "a run that is begun again needs it"


ERRORS = [TokenError(1, "t"), UserError("u"), OSError("o"), KeyboardInterrupt(), ValueError("v")]


@pytest.mark.parametrize("error", ERRORS)
@pytest.mark.parametrize("step", ["tried_over_backup", "put_in_place", "start", "give_token"])
def test_whatever_fails_the_server_is_started(place, monkeypatch, step, error):
    monkeypatch.setattr(applying, step, lambda *_: (_ for _ in ()).throw(error))
    plan = GrowthPlan(wishes=[SeatWish("a1", "acme")])
    with pytest.raises(type(error)):
        apply(place, plan)
    assert [it for it in heads(place) if it[0] == "SERVICE"][-1] == ("SERVICE", "START")


@pytest.mark.parametrize("fails, is_up", [({"START"}, True), (set(), False)])
def test_a_server_that_does_not_start_is_told(place, monkeypatch, fails, is_up):
    place.next.unlink()
    place.fails = fails
    monkeypatch.setattr(applying, "is_up", lambda it: False)
    monkeypatch.setattr(applying, "is_answering", lambda it: is_up)
    with pytest.raises(TokenError) as error:
        applying.start(place, GrowthPlan(PLACED))
    assert error.value.status == 4 and "doesn't start" in str(error.value)


@pytest.mark.parametrize("held, words", [
    (NEW, "holds the new text by now"), (OLD, "still holds the old text"), ("x", "holds another text than these two"),
    (TokenError(4, "why"), "isn't known: why"), (OSError(5, "why"), "isn't known"), (UserError("why"), "isn't known"),
])  # fmt: skip
def test_which_text_the_store_holds(place, held, words):
    """The store is looked at while the server is stopped, and the server is started in any case."""
    backup = place.backups / "before-1"
    backup.mkdir()
    (backup / "site.toml").write_bytes(OLD.encode())
    place.site.write_bytes(NEW.encode())
    place.held = held
    with pytest.raises(TokenError, match=words) as error:
        applying.tell_failed(place, GrowthPlan(PLACED, str(backup)), "said")
    assert error.value.status == 4 and "(said)" in str(error.value) and str(backup / "site.toml") in str(error.value)
    told = [it for it in place.calls if it[0] in ("SERVICE", "HELD")]
    assert told == [("SERVICE", "STOP"), ("HELD", NEW, OLD), ("SERVICE", "START")]


@pytest.mark.parametrize("printed, status, number", [
    ("7\n", 0, 7), ("0\n", 0, 0), ("", 0, 0), ("x\n", 0, 0), ("-1\n", 0, 0),
])  # fmt: skip
def test_restarts(place, printed, status, number):
    place.prints["RESTARTS"] = printed
    assert applying.restarts(place) == number and place.calls == [("ROOT", "RESTARTS", "it")]


@pytest.mark.parametrize("before, counts, is_fine", [
    (5, [5, 6, 7], True), (5, [5, 6, 7, 8], False), (0, [3], False), (0, [2], True), (7, [7] * 8, True),
])  # fmt: skip
def test_a_service_that_is_started_again_and_again_is_down(place, monkeypatch, before, counts, is_fine):
    """It is held for failed from three restarts on, since the wait began."""
    found = iter([before, *counts])
    left = iter([False] * len(counts) + [True])
    monkeypatch.setattr(applying, "restarts", lambda it: next(found))
    monkeypatch.setattr(applying, "is_up", lambda it: next(left))
    assert applying.is_answering(place) == is_fine


def test_the_wait_for_an_answer_ends(place, monkeypatch):
    moments = iter([100.0, 100.0, 108.9, 109.1])
    monkeypatch.setattr(applying.time, "monotonic", lambda: next(moments))
    monkeypatch.setattr(applying, "restarts", lambda it: 0)
    monkeypatch.setattr(applying, "is_up", lambda it: False)
    assert applying.is_answering(place) is False and next(moments, None) is None


@pytest.mark.parametrize("answer, is_up", [(401, True), (200, False), (404, False), (502, False), (None, False)])
def test_is_up(tmp_path, monkeypatch, answer, is_up):
    """The server itself answers 401 to who has no token."""
    asked = []

    def status_of(url, token, certificate=""):
        asked.append((url, token))
        if answer is None:
            raise http.client.BadStatusLine("x") if len(asked) % 2 else ConnectionRefusedError()
        return answer

    monkeypatch.setattr(applying, "status_of", status_of)
    place = FakePlace(tmp_path)
    assert [applying.is_up(place), applying.is_up(place)] == [is_up] * 2
    assert asked == [("http://127.0.0.1:880/", "")] * 2


# ---- tokens

WITHIN = TokenSeat("a1", "acme", "11" * 32)
TEXT = PREFIX + "22" * 32


def with_tokens(place, *outers, seats=(WITHIN, TokenSeat("health", "acme", "33" * 32))):
    put(place.tokens, tokens_text(Tokens({it.seat: it for it in seats}, list(outers))))


def outer(text=TEXT, **more):
    return Outer("a1:1", 1, "a1", False, "0" * 12, "2026-01-01T00:00", text=text, **more)


def test_the_token_within(place):
    with_tokens(place)
    assert applying.token_within(place, SeatWish("a1", "acme")) == "11" * 32
    for seat in ("a2", "a"):
        with pytest.raises(TokenError, match=f"the seat {seat} isn't in") as error:
            applying.token_within(place, SeatWish(seat, "acme"))
        assert error.value.status == 5


def given(place, monkeypatch, answers, wish):
    """What was asked, in its order, with answers given in theirs; and that the last one given is told to be known."""
    found, left = [], iter(answers)
    moments = iter(range(0, 1000, 3))
    monkeypatch.setattr(applying.time, "monotonic", lambda: next(moments))
    monkeypatch.setattr(applying, "status_of", lambda *words: (found.append(words), next(left))[1])
    monkeypatch.setattr(applying, "outer_token", lambda *_: TEXT)
    applying.give_token(place, wish)
    return found


ASKED = "/v1/order?name=station-site-asks"
SERVER, NGINX = (f"http://127.0.0.1:880{ASKED}", "11" * 32), (f"https://n{ASKED}", TEXT, "/c.pem")


@pytest.mark.parametrize("answer", [404, 200])
def test_a_token_is_asked_for_behind_and_through_nginx(place, monkeypatch, answer):
    with_tokens(place)
    found = given(place, monkeypatch, [answer, answer], SeatWish("a1", "acme", "/t"))
    assert [tuple(it for it in words if it) for words in found] == [SERVER, NGINX]
    assert told(place) == ["the seat a1 of acme is known, and nginx takes the token in /t"]


def test_a_worker_of_before_is_waited_for(place, monkeypatch):
    """nginx may answer 401 for ten seconds behind a reload, and for no longer."""
    with_tokens(place)
    assert len(given(place, monkeypatch, [404, 401, 401, 404], SeatWish("a1", "acme", "/t"))) == 4
    with pytest.raises(TokenError, match="nginx answers 401") as error:
        given(place, monkeypatch, [404, *[401] * 9], SeatWish("a1", "acme", "/t"))
    assert error.value.status == 5


@pytest.mark.parametrize("answers, who", [
    ([401], "the server"), ([403], "the server"), ([500], "the server"), ([404, 403], "nginx"), ([404, 502], "nginx"),
    ([404, 301], "nginx"),
])  # fmt: skip
def test_another_answer_is_a_failure(place, monkeypatch, answers, who):
    with_tokens(place)
    with pytest.raises(TokenError, match=f"{who} answers {answers[-1]}") as error:
        given(place, monkeypatch, answers, SeatWish("a1", "acme", "/t"))
    assert error.value.status == 5 and TEXT not in str(error.value) and told(place) == []


@pytest.mark.parametrize("seat, calls", [("a1", []), ("health", [("ROOT", "token", "write")])])
def test_a_seat_without_an_outer_token(place, monkeypatch, seat, calls):
    """nginx asks with the inner token of `health`, by the tokens' file, which is written anew for that."""
    with_tokens(place)
    assert len(given(place, monkeypatch, [404], SeatWish(seat, "acme"))) == 1
    assert [it for it in place.calls if it[0] == "ROOT"] == calls


def test_without_nginx_the_file_is_told(place, monkeypatch):
    with_tokens(place)
    place.args.nginx = ""
    assert len(given(place, monkeypatch, [404], SeatWish("a1", "acme", "/t"))) == 1
    assert told(place) == ["the seat a1 of acme is known; its token is in /t"]


def run_outer(place, wish):
    """As station-token does: `add` makes the file where none is there."""

    def ran(*words, given=""):
        place.calls.append(("ROOT", *words))
        if words[1] == "add":
            path = words[-1]
            assert not os.path.lexists(path)
            open(path, "w").write(PREFIX + "new\n")
        return subprocess.CompletedProcess(words, 0, "", "")

    place.ran = ran
    return applying.outer_token(place, wish)


@pytest.mark.parametrize("text, is_kept", [
    (None, False), (TEXT + "\n", True), (TEXT, True), (PREFIX + "44" * 32 + "\n", False), ("", False), (PREFIX, False),
    (TEXT[:-1], False),
])  # fmt: skip
def test_a_token_that_nginx_has_stays_and_any_other_is_made_anew(place, tmp_path, text, is_kept):
    with_tokens(place, outer())
    path = tmp_path / "a1.token"
    if text is not None:
        path.write_text(text)
    found = run_outer(place, SeatWish("a1", "acme", str(path), "line 5"))
    add = ("ROOT", "token", "add", "a1", "--holder", "line 5", "--to", str(path))
    assert place.calls == [("ROOT", "token", "write") if is_kept else add]
    assert found == (TEXT if is_kept else PREFIX + "new")


def test_the_file_of_an_ended_token_is_made_anew(place, tmp_path):
    with_tokens(place, outer(text="", ended="2026-01-02T00:00"))
    (tmp_path / "a1.token").write_text(TEXT)
    assert run_outer(place, SeatWish("a1", "acme", str(tmp_path / "a1.token"))) == PREFIX + "new"


def test_a_file_of_something_else_stays(place, tmp_path):
    with_tokens(place, outer())
    path = tmp_path / "a1.token"
    path.write_text("my notes")
    with pytest.raises(TokenError, match="is no file of a token") as error:
        run_outer(place, SeatWish("a1", "acme", str(path)))
    assert error.value.status == 5 and path.read_text() == "my notes" and place.calls == []


@pytest.mark.parametrize("kind, told", [
    ("other seat", "no file of a token of a1"), ("link", "can't be read"), ("pipe", "no plain file"),
    ("written by others", "no plain file"),
])  # fmt: skip
def test_what_another_put_there_is_no_seats_token(place, tmp_path, kind, told):
    """`--to` may be in a folder that others write, as /tmp: another seat's token would go to this one's station."""
    others = Outer("b1:1", 2, "b1", False, "0" * 12, "2026-01-01T00:00", text=PREFIX + "55" * 32)
    with_tokens(place, outer(), others, seats=(WITHIN, TokenSeat("b1", "bolt", "33" * 32)))
    path, real = tmp_path / "a1.token", tmp_path / "real"
    real.write_text(others.text if kind == "other seat" else TEXT)
    if kind == "pipe":
        os.mkfifo(path)
    else:
        path.symlink_to(real) if kind == "link" else real.rename(path)
    if kind == "written by others":
        path.chmod(0o666)
    with pytest.raises(TokenError, match=told) as error:
        applying.outer_token(place, SeatWish("a1", "acme", str(path)))
    assert error.value.status == 5 and os.path.lexists(path) and place.calls == []


def test_another_users_file_is_no_seats_token(tmp_path, monkeypatch):
    (tmp_path / "a1.token").write_text(TEXT)
    assert applying.own_text(tmp_path / "a1.token") == TEXT and applying.own_text(tmp_path / "none") is None
    monkeypatch.setattr(applying.os, "geteuid", lambda: os.getuid() + 1)
    with pytest.raises(TokenError, match="no plain file of this user's own"):
        applying.own_text(tmp_path / "a1.token")


def test_what_station_token_refuses_is_told(place):
    place.fails = {"token"}
    with pytest.raises(TokenError, match="^a1: told$") as error:
        applying.token_run(place, SeatWish("a1", "acme"), "write")
    assert error.value.status == 5


def test_the_new_text_lies_with_the_backup(place):
    backup = place.backups / "before-1"
    backup.mkdir()
    place.site.write_bytes(NEW.encode())
    applying.keep_with_backup(place, GrowthPlan(PLACED, str(backup)))
    assert place.calls == [("USER", "dd", "status=none", f"of={backup}/site.grown.toml")]
    assert place.given == {"dd": NEW}
    place.fails = {"dd"}
    applying.keep_with_backup(place, GrowthPlan(PLACED, str(backup)))
    assert [str(place.site) in it and "told" in it for it in told(place)] == [True]
    applying.keep_with_backup(place, GrowthPlan(PLACED, ""))
    assert len(place.calls) == 3


def test_a_pipe_in_the_place_of_that_copy_ends_no_growth(place, monkeypatch):
    """It lies in the store user's folder: the command is ended in a minute, and the growth goes on."""
    place.site.write_bytes(NEW.encode())
    bounds = []

    def run(*_, given, seconds):
        bounds.append(seconds)
        raise UserError("took too long")

    monkeypatch.setattr(place.user, "run", run)
    applying.keep_with_backup(place, GrowthPlan(PLACED, str(place.backups / "before-1")))
    assert (bounds, ["took too long" in it for it in told(place)]) == ([60], [True])


@pytest.mark.parametrize("say, said", [(applying.say, b"line\n"), (tell_restart, b"restart: line\n")])
def test_what_is_said_is_seen_at_once(monkeypatch, say, said):
    """Also where nobody types, as in a pipe, which keeps lines back."""
    monkeypatch.setattr(sys, "stdout", io.TextIOWrapper(io.BytesIO()))
    say("line")
    assert sys.stdout.buffer.getvalue() == said


def test_a_signal_is_a_refusal():
    assert (Stopped(15).status, str(Stopped(15))) == (1, "stopped by signal 15, and the server runs as before")
