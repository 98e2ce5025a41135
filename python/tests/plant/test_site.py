"""The command that grows a site: what its words ask for, what is refused, and what is written when."""

import os
import signal
import subprocess
import sys
from dataclasses import replace
from types import SimpleNamespace

import pytest
from scripts import script
from wanekupo.common.site_file import read_site
from wanekupo.common.store_user import STOPS
from wanekupo.plant.site.apply import Stopped, start_behind
from wanekupo.plant.site.plan import PLACED, PREPARED, STOPPING, GrowthPlan, SeatWish, keep_plan, read_plan
from wanekupo.common.token_file import TokenSeat, TokenError, Tokens, put, tokens_text

site = script("site")
ONE, TWO = "%064x" % 1, "%064x" % 2
TEXT = f"""[[customer]]
name = "acme"
issuer = ["acme-ca"]
[[customer.pool]]
first = "020000000010"
count = 4
[[customer.seat]]
name = "a1"
token = "{ONE}"
"""
HELLO = "2cf24dba5fb0a30e26e83b2ac5b9e29e1b161e5c1fa7425e73043362938b9824"  # by sha256sum(1)


class FakePlace:
    """A place whose tests pass; it notes the commands."""

    def __init__(self, folder):
        self.site, self.next, self.plan = folder / "site.toml", folder / "site.next.toml", folder / "site.growth"
        self.tokens, self.calls = folder / "tokens.conf", []
        self.closed = folder / "site.closed.json"
        self.site.write_text(TEXT)

    def token_words(self):
        return ["token"]

    def ran(self, *words, given=""):
        self.calls.append(words)
        if "seat" in words and "x9" not in words:
            seats = dict(site.known_seats(self).seats)
            seats[words[3]] = TokenSeat(words[3], words[5], "hello")
            put(self.tokens, tokens_text(Tokens(seats)))
        return subprocess.CompletedProcess(words, int("x9" in words), "", "why\n")


@pytest.fixture
def place(tmp_path, monkeypatch):
    made = FakePlace(tmp_path)
    made.tested = []
    monkeypatch.setattr(site, "tested_growth", lambda it, old, new, title: made.tested.append((old, new)) or ["gain"])
    monkeypatch.setattr(site, "tested_others", lambda it, new, others: made.tested.append((new, list(others))))
    monkeypatch.setattr(site, "tried_over_copy", lambda it, old, new: (True, "a copy took it"))
    monkeypatch.setattr(site, "apply", lambda it, plan: made.calls.append(("APPLY", plan.stage)))
    monkeypatch.chdir(tmp_path)
    return made


def words(*text):
    args = site.parser().parse_args(text)
    if args.command == "add-pool":
        args.pools = [(args.first, args.count)]
    args.patience = 0.1
    return args


# ---- what is added


@pytest.mark.parametrize("name, is_one", [
    ("a", True), ("A.z_0-9", True), ("x" * 32, True), ("x" * 33, False), ("", False), ("a b", False), ("a\n", False),
    ("@manager", False), ('a"', False),
])  # fmt: skip
def test_named(name, is_one):
    if is_one:
        assert site.named(name, "seat") == name
    else:
        with pytest.raises(TokenError, match="is no name of a seat"):
            site.named(name, "seat")


@pytest.mark.parametrize("first, count, is_one", [
    ("020000000010", "1", True), ("02000000001a", "16777216", True), ("02000000001A", "1", False),
    ("02000000001", "1", False), ("0200000000100", "1", False), ("020000000010\n", "1", False),
    ("020000000010", "0", False), ("020000000010", "-1", False), ("020000000010", "01", False),
    ("020000000010", "1\n", False), ("020000000010", "1x", False), ("020000000010", "", False),
    ("020000000010", "1e3", False), ("020000000010", "999999999", False),
])  # fmt: skip
def test_pool_of(first, count, is_one):
    if is_one:
        assert site.pool_of(first, count) == {"first": first, "count": int(count)}
    else:
        with pytest.raises(TokenError, match="is no pool"):
            site.pool_of(first, count)


def test_known_seats(place):
    assert site.known_seats(place).seats == {}
    put(place.tokens, tokens_text(Tokens({"a1": TokenSeat("a1", "acme", "hello")})))
    assert site.known_seats(place).seats == {"a1": TokenSeat("a1", "acme", "hello")}


def test_a_new_seat_gets_its_token_by_station_token(place):
    assert site.seat_of(place, "acme", "a2", False) == {"name": "a2", "token": HELLO}
    assert place.calls == [("token", "--no-reload", "seat", "a2", "--customer", "acme")]
    assert site.seat_of(place, "acme", "a2", False) == {"name": "a2", "token": HELLO} and len(place.calls) == 1


def test_for_a_trial_no_token_is_made(place):
    found = site.seat_of(place, "acme", "a2", True)
    assert found["name"] == "a2" and len(found["token"]) == 64 and place.calls == [] and not place.tokens.exists()
    assert found["token"] != site.seat_of(place, "acme", "a3", True)["token"], "two seats have no token in common"


def test_a_seat_of_another_customer_or_that_is_refused(place):
    put(place.tokens, tokens_text(Tokens({"a2": TokenSeat("a2", "bolt", "hello")})))
    for is_trial in (True, False):
        with pytest.raises(TokenError, match="the seat a2 is bolt's"):
            site.seat_of(place, "acme", "a2", is_trial)
    with pytest.raises(TokenError, match="^why$"):
        site.seat_of(place, "acme", "x9", False)


@pytest.mark.parametrize("more, to, holder", [
    ([], "a5.token", ""), (["--holder", "line 5"], "a5.token", "line 5"), (["--no-token"], "", ""),
    (["--to", "keys"], "keys/a5.token", ""),
])  # fmt: skip
def test_wishes(place, tmp_path, more, to, holder):
    (tmp_path / "keys").mkdir()
    plan = GrowthPlan()
    site.add_wishes(words("add-seat", "acme", "a1", "a5", *more), place, plan)
    wish = SeatWish("a5", "acme", str(tmp_path / to) if to else "", holder, True)
    assert plan.wishes == [wish], "a1 is there already"


def test_the_seat_of_health_gets_no_token(place):
    plan = GrowthPlan()
    site.add_wishes(words("add-seat", "acme", "health"), place, plan)
    assert plan.wishes == [SeatWish("health", "acme", is_made=True)]


@pytest.mark.parametrize("kind", ["file", "link", "no folder"])
def test_no_file_of_somebody_is_a_token(place, tmp_path, kind):
    if kind == "file":
        (tmp_path / "a5.token").write_text("x")
    if kind == "link":
        (tmp_path / "a5.token").symlink_to(tmp_path / "nowhere")
    to = "nowhere" if kind == "no folder" else "."
    plan = GrowthPlan()
    with pytest.raises(TokenError, match="--to FOLDER"):
        site.add_wishes(words("add-seat", "acme", "a5", "--to", to), place, plan)
    site.add_wishes(words("add-seat", "acme", "a5", "--to", to, "--no-token"), place, plan)


@pytest.mark.parametrize("kind, items, left", [
    ("issuer", ["acme-ca", "n"], ["n"]), ("issuer", ["acme"], ["acme"]),
    ("pool", [{"first": "020000000010", "count": 4}], []),
    ("pool", [{"first": "020000000010", "count": 3}], [{"first": "020000000010", "count": 3}]),
    ("seat", [{"name": "a1", "token": TWO}, {"name": "a", "token": TWO}], [{"name": "a", "token": TWO}]),
])  # fmt: skip
def test_new_ones(kind, items, left):
    assert site.new_ones(given(TEXT)["acme"], kind, items) == left


def given(text):
    return read_site(text, "t").customers


@pytest.mark.parametrize("line, customer, issuers, pools, seats", [
    ("add-customer bolt --issuer b --issuer c --pool 020000000020 4 --seat b1", "bolt", ["b", "c"],
     [(0x020000000020, 4)], ["b1"]),
    ("add-customer bolt", "bolt", [], [], []),
    ("add-customer acme --issuer n --seat a2", "acme", ["acme-ca", "n"], [(0x020000000010, 4)], ["a1", "a2"]),
    ("add-seat acme a2 a3", "acme", ["acme-ca"], [(0x020000000010, 4)], ["a1", "a2", "a3"]),
    ("add-seat acme a1", "acme", ["acme-ca"], [(0x020000000010, 4)], ["a1"]),
    ("add-pool acme 020000000020 4", "acme", ["acme-ca"], [(0x020000000010, 4), (0x020000000020, 4)], ["a1"]),
    ("add-pool acme 020000000010 4", "acme", ["acme-ca"], [(0x020000000010, 4)], ["a1"]),
    ("add-issuer acme n m", "acme", ["acme-ca", "n", "m"], [(0x020000000010, 4)], ["a1"]),
])  # fmt: skip
def test_grown_text(place, line, customer, issuers, pools, seats):
    text = site.grown_text(words(*line.split()), place, TEXT, True)
    found = given(text)[customer]
    assert (found.issuers, found.pools, list(found.seats)) == (issuers, pools, seats)
    assert given(text)["acme"].seats["a1"] == ONE and (given(text) == given(TEXT)) == (text == TEXT)
    assert site.grown_text(words(*line.split()), place, text, True) == text, "given again it adds nothing"


@pytest.mark.parametrize("line", [
    "add-seat bolt b1", "add-pool bolt 020000000020 4", "add-issuer bolt b", "add-seat b@d b1", "add-issuer acme i/j",
    "add-customer b@d", "add-pool acme 0200 4", "add-seat acme a/2",
])  # fmt: skip
def test_no_such_customer_and_no_names(place, line):
    with pytest.raises(TokenError):
        site.grown_text(words(*line.split()), place, TEXT, False)
    assert place.calls == [], "nothing is made for words that are refused"


# ---- commands


def test_prepare(place, tmp_path, capsys):
    others = [word for it in "zyxwvu" for word in ("--other-site", it)]
    site.prepare(words("add-seat", "acme", "a2", "--other-site", "two.toml", *others), place)
    assert given(place.next.read_text())["acme"].seats == {"a1": ONE, "a2": HELLO} and place.site.read_text() == TEXT
    plan = read_plan(place.plan)
    there = [str(tmp_path / it) for it in ("two.toml", *"uvwxyz")]
    assert (plan.stage, plan.is_tried, plan.others) == (PREPARED, True, there)
    assert plan.wishes == [SeatWish("a2", "acme", str(tmp_path / "a2.token"), "", True)]
    told = capsys.readouterr().out
    assert "gain" in told and "a copy took it" in told and "two.toml" in told and "nothing is taken away" in told
    site.prepare(words("add-issuer", "acme", "n"), place)
    found = given(place.next.read_text())["acme"]
    assert found.issuers == ["acme-ca", "n"] and set(found.seats) == {"a1", "a2"}, "the next one adds to the same text"
    plan = read_plan(place.plan)
    assert plan.others == there and [it.seat for it in plan.wishes] == ["a2"]


def test_the_text_is_tested_before_a_token_is_made_and_again_with_it(place):
    site.prepare(words("add-seat", "acme", "a2"), place)
    tests = [it for it in place.tested if not isinstance(it[1], list)]
    assert [old for old, _ in tests] == [TEXT] * 2 and given(tests[1][1])["acme"].seats["a2"] == HELLO
    assert given(tests[0][1])["acme"].seats["a2"] != HELLO and tests[1][1] == place.next.read_text()


@pytest.mark.parametrize("name", ["tested_growth", "tested_others", "tried_over_copy"])
def test_what_a_test_refuses_is_not_written(place, monkeypatch, name):
    def refuse(*_):
        raise TokenError(1, "refused")

    monkeypatch.setattr(site, name, refuse)
    with pytest.raises(TokenError, match="refused"):
        site.prepare(words("add-seat", "acme", "a2"), place)
    assert not place.next.exists() and not place.plan.exists() and not place.tokens.exists() and place.calls == []


def test_nothing_more_is_no_growth(place, capsys):
    site.prepare(words("add-seat", "acme", "a1"), place)
    assert not place.next.exists() and not place.plan.exists() and "has all of it already" in capsys.readouterr().out


def test_what_is_only_prepared_is_not_in_the_site(place, capsys):
    for _ in range(2):
        site.prepare(words("add-issuer", "acme", "n"), place)
        assert "gain" in capsys.readouterr().out, "given again it is told again"


def test_under_way_nothing_is_prepared(place):
    keep_plan(place.plan, GrowthPlan(PLACED))
    with pytest.raises(TokenError, match="under way") as error:
        site.prepare(words("add-seat", "acme", "a2"), place)
    assert error.value.status == 1 and not place.next.exists()


@pytest.mark.parametrize("more, stage, is_applied", [([], "", False), (["--apply"], PREPARED, True)])
def test_add(place, capsys, more, stage, is_applied):
    site.add(words("--site=/s/2 two.toml", "--port=881", "add-seat", "acme", "a2", *more), place)
    assert [it for it in place.calls if it[0] == "APPLY"] == ([("APPLY", stage)] if is_applied else [])
    told = [it for it in capsys.readouterr().out.splitlines() if it.startswith("to put it in place")]
    there = ["to put it in place: station-site '--site=/s/2 two.toml' --port=881 --patience=0.1 apply"]
    assert told == (there if not is_applied else [])


def test_add_goes_on_with_what_is_under_way(place, monkeypatch):
    """What an earlier run has begun ends first."""
    keep_plan(place.plan, GrowthPlan(PLACED))
    done = []
    monkeypatch.setattr(site, "apply", lambda it, plan: (done.append(plan.stage), place.plan.unlink()))
    site.add(words("add-seat", "acme", "a2", "--apply"), place)
    assert done == [PLACED, PREPARED]


@pytest.mark.parametrize("command", ["add", "apply_command"])
def test_one_run_at_a_time(place, command):
    with site.alone(place.plan, 0):
        with pytest.raises(TokenError) as error:
            getattr(site, command)(words("add-seat", "acme", "a2", "--apply"), place)
    assert error.value.status == 3 and place.calls == []


def known(place):
    return set(site.known_seats(place).seats)


def test_what_is_given_up_leaves_no_seat(place, monkeypatch, capsys):
    """Also where it was prepared in two runs; the seats that were there stay, as another store may have them."""
    monkeypatch.setattr(site, "is_up", lambda it: True)
    put(place.tokens, tokens_text(Tokens({it: TokenSeat(it, "acme", it) for it in ("a1", "a7")})))
    for seat in ("a2", "a2", "a7", "health", "e", "d", "c"):
        site.prepare(words("add-seat", "acme", seat), place)
    assert known(place) == {"a1", "a2", "a7", "health", *"cde"}
    site.drop(words("drop"), place)
    assert known(place) == {"a1", "a7"} and not place.next.exists() and not place.plan.exists()
    assert "tokens.conf: a2, c, d, e, health\n" in capsys.readouterr().out and place.site.read_text() == TEXT
    site.drop(words("drop"), place)
    assert known(place) == {"a1", "a7"}


def test_a_seat_that_is_a_sites_or_has_tokens_is_not_given_up(place, monkeypatch):
    monkeypatch.setattr(site, "is_up", lambda it: True)
    seats = [TokenSeat("a1", "acme", "hello"), TokenSeat("a2", "acme", "abc", given=1)]
    put(place.tokens, tokens_text(Tokens({it.seat: it for it in seats})))
    keep_plan(place.plan, GrowthPlan(wishes=[SeatWish(it, "acme", is_made=True) for it in ("a1", "a2", "a3")]))
    site.drop(words("drop"), place)
    assert known(place) == {"a1", "a2"}


@pytest.mark.parametrize("stage, is_up, told", [
    (STOPPING, True, "under way"), (PLACED, True, "under way"), (PREPARED, False, "doesn't run"),
])  # fmt: skip
def test_nothing_is_given_up_that_a_store_may_hold(place, monkeypatch, stage, is_up, told):
    """On the second of two machines the plan may be older than the store's text."""
    monkeypatch.setattr(site, "is_up", lambda it: is_up)
    site.prepare(words("add-seat", "acme", "a2"), place)
    keep_plan(place.plan, replace(read_plan(place.plan), stage=stage))
    with pytest.raises(TokenError, match=told):
        site.drop(words("drop"), place)
    assert known(place) == {"a2"} and place.next.exists() and read_plan(place.plan).stage == stage


def test_a_cut_run_gives_up_the_text_first(place, monkeypatch):
    """Seats whose tokens are gone would be in a site for good."""
    monkeypatch.setattr(site, "is_up", lambda it: True)
    site.prepare(words("add-seat", "acme", "a2"), place)
    with monkeypatch.context() as patch:
        patch.setattr(site, "put", lambda *_: 1 / 0)
        with pytest.raises(ZeroDivisionError):
            site.drop(words("drop"), place)
    assert known(place) == {"a2"} and not place.next.exists() and read_plan(place.plan).wishes
    site.drop(words("drop"), place)
    assert known(place) == set() and not place.plan.exists()


def test_the_disk_has_lost_the_text_before_a_seat_goes(place, monkeypatch):
    """Else a power cut brings the text back, with a seat whose token is gone."""
    monkeypatch.setattr(site, "is_up", lambda it: True)
    site.prepare(words("add-seat", "acme", "a2"), place)
    done = []
    monkeypatch.setattr(site, "sync", lambda path: done.append((path, place.next.exists())))
    monkeypatch.setattr(site, "put", lambda path, text: done.append(path))
    site.drop(words("drop"), place)
    assert done == [(place.next.parent, False), place.tokens]


def test_apply_of_nothing(place, capsys):
    site.apply_command(words("apply"), place)
    assert place.calls == [] and "nothing is prepared" in capsys.readouterr().out
    place.closed.write_text("{}")
    for text in (["apply"], ["add-seat", "acme", "a2"]):
        with pytest.raises(TokenError, match="is closed .*station-site successor"):
            site.COMMANDS[text[0]](words(*text), place)


def test_apply_looks_again(place, monkeypatch):
    """Somebody may have changed the text since: a seat that went gets no token, and a refused text isn't applied."""
    place.next.write_text(TEXT.replace('"acme-ca"', '"acme-ca", "n"'))
    wishes = [SeatWish("a1", "acme", "/t"), SeatWish("a2", "acme", "/u")]
    keep_plan(place.plan, GrowthPlan(wishes=wishes, others=["/one.toml"]))
    done = []
    monkeypatch.setattr(site, "apply", lambda it, plan: done.append(plan))
    site.apply_command(words("apply", "--other-site", "/two.toml"), place)
    assert done[0].wishes == [SeatWish("a1", "acme", "/t")] and done[0].is_tried
    assert done[0].others == ["/one.toml", "/two.toml"]
    assert (TEXT, place.next.read_text()) in place.tested and (place.next.read_text(), done[0].others) in place.tested
    monkeypatch.setattr(site, "tested_growth", lambda *_: (_ for _ in ()).throw(TokenError(1, "refused")))
    with pytest.raises(TokenError, match="refused"):
        site.apply_command(words("apply"), place)
    assert len(done) == 1


def test_apply_goes_on_with_what_is_placed_without_a_look(place, monkeypatch):
    keep_plan(place.plan, GrowthPlan(PLACED))
    monkeypatch.setattr(site, "look_again", lambda *_: pytest.fail("the text is in place"))
    site.apply_command(words("apply"), place)
    assert place.calls == [("APPLY", PLACED)]


@pytest.mark.parametrize("lines, as_map, others", [
    ([], False, []), (["a", "b"], False, []), ([], True, ["o"]), ([], False, ["o"]),
])  # fmt: skip
def test_check(place, tmp_path, monkeypatch, capsys, lines, as_map, others):
    monkeypatch.setattr(site, "checked", lambda it, path: lines)
    (tmp_path / "f").write_text('wr = "x"' if as_map else TEXT)
    args = words("check", "f", *(word for it in others for word in ("--other-site", it)))
    if lines:
        with pytest.raises(TokenError, match="^a\nb$"):
            site.check(args, place)
        return
    site.check(args, place)
    assert capsys.readouterr().out == f"f is a {'fuse map' if as_map else 'site'}, says the program\n"
    assert place.tested == ([(TEXT, others)] if others and not as_map else [])


def test_diff(place, tmp_path, capsys):
    (tmp_path / "new").write_text("new text")
    site.diff(words("diff", str(place.site), "new"), place)
    assert place.tested == [(TEXT, "new text")] and capsys.readouterr().out == "gain\nnothing is taken away\n"


# ---- words


@pytest.mark.parametrize("line", [
    "", "add-seat acme", "add-pool acme 020000000010", "add-issuer acme", "add-customer", "diff a", "check",
    "grow acme",
    "add-seat acme a1 --app", "apply now",
])  # fmt: skip
def test_wrong_words(line, capsys):
    with pytest.raises(SystemExit) as error:
        site.parser().parse_args(line.split())
    assert error.value.code == 2


def test_the_defaults_are_those_of_the_package():
    args = site.parser().parse_args(["apply"])
    assert (args.site, args.db, args.tokens) == (
        "/etc/station/site.toml", "/var/lib/station/books.db", "/etc/station/tokens.conf")  # fmt: skip
    assert (args.stop, args.start) == ("systemctl stop station", "systemctl start station")


def test_a_second_signal_ends_what_the_first_waits_for(monkeypatch):
    monkeypatch.setattr(site.signal, "signal", lambda *_: pytest.fail("the second one is met otherwise"))
    for _ in range(2):
        with pytest.raises(Stopped, match="signal 15"):
            site.stopped(15, None)


def test_no_signal_keeps_the_server_from_its_start():
    """And what is started ignores none of them."""
    calls, handlers = [], [signal.getsignal(it) for it in STOPS]

    def started(command):
        for number in STOPS:
            os.kill(os.getpid(), number)
        calls.append((command, subprocess.run(["sh", "-c", "kill -TERM $$"], check=False).returncode))

    start_behind(SimpleNamespace(service=started, args=SimpleNamespace(start="START")))
    assert calls == [("START", -signal.SIGTERM)] and [signal.getsignal(it) for it in STOPS] == handlers


@pytest.mark.parametrize("error, status, told", [
    (None, 0, ""), (TokenError(5, "t"), 5, "t"), (TokenError(4, "t"), 4, "t"), (Stopped(2), 1, "signal 2"),
    (FileNotFoundError(2, "No such file", "/f"), 1, "/f: No such file"), (OSError("odd"), 1, "odd"),
    (UnicodeDecodeError("utf-8", b"\xff", 0, 1, "why"), 1, "why"),
])  # fmt: skip
def test_main(monkeypatch, capsys, error, status, told):
    masks, signals = [], []

    def command(args, place):
        if error:
            raise error

    monkeypatch.setattr(site.os, "umask", masks.append)
    monkeypatch.setattr(site.signal, "signal", lambda number, handler: signals.append((number, handler)))
    monkeypatch.setattr(site, "COMMANDS", {**site.COMMANDS, "apply": command})
    monkeypatch.setattr(sys, "argv", ["site", "apply"])
    assert site.main() == status and told in capsys.readouterr().err and masks == [0o077]
    assert {number for number, handler in signals if handler is site.stopped} >= {15, 2, 1}


def test_main_takes_one_pool(monkeypatch):
    found = []
    monkeypatch.setattr(site.signal, "signal", lambda *_: None)
    monkeypatch.setattr(site.os, "umask", lambda _: None)
    monkeypatch.setattr(site, "COMMANDS", {**site.COMMANDS, "add-pool": lambda args, place: found.append(args.pools)})
    monkeypatch.setattr(sys, "argv", ["site", "add-pool", "acme", "020000000010", "4"])
    assert site.main() == 0 and found == [[("020000000010", "4")]]
