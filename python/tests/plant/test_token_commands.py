"""The commands for tokens: what each makes, ends and prints, what is refused, and what is left where nginx refuses."""

import contextlib
import os
import re
import stat
import sys

import pytest
from wanekupo.common import token_file
from wanekupo.standby.half import StandbySettings
from scripts import script
from wanekupo.common.token_file import Outer, TokenSeat, TokenError, Tokens, put, read, tokens_text, tokens_of

token = script("token")
NOW = "2026-06-15T12:00"
# The SHA-256 of `abc`, `hello` and `test`, by sha256sum(1).
ABC = "ba7816bf8f01cfea414140de5dae2223b00361a396177a9cb410ff61f20015ad"
HELLO = "2cf24dba5fb0a30e26e83b2ac5b9e29e1b161e5c1fa7425e73043362938b9824"
TEST = "9f86d081884c7d659a2feaa0c55ad015a3bf4f1b2b0b822cd15d6c15b0f00a08"
SITE = f"""customer = [
  {{ name = "acme", issuer = [], seat = [{{ name = "a1", token = "{ABC.upper()}" }}] }},
  {{ name = "bolt", issuer = [], seat = [{{ name = "b1", token = "{HELLO}" }}] }},
]
manager = {{ token = "{TEST}" }}
"""
A1, B1 = TokenSeat("a1", "acme", "abc"), TokenSeat("b1", "bolt", "hello")
MANAGER = TokenSeat("@manager", "@manager", "test")


def seats(*made):
    return Tokens({it.seat: it for it in made or (A1, B1)})


def outer(number, seat="a1", **more):
    mine = {"looks": False, "mark": "0" * 12, "since": NOW, "text": f"wanekupo_{number:064x}"}
    return Outer(**{"number": number, "seat": seat, "token": f"{seat}:{number}", **mine, **more})


@pytest.fixture(autouse=True)
def moment(monkeypatch):
    for module in (token, token_file):
        monkeypatch.setattr(module, "current_minute", lambda: NOW)


@pytest.fixture
def file(tmp_path):
    return tmp_path / "tokens.conf"


def words(file, *text):
    return token.token_parser().parse_args(["--file", str(file), "--no-reload", *text])


def done(file, *text):
    """What a command makes of the file, and what it prints."""
    args = words(file, *text)
    token.run_token(args)
    return tokens_of(read(file), file)


# ---- forms


@pytest.mark.parametrize("form, text, is_one", [
    (token.NAME, "a1", True), (token.NAME, "a1\n", False), (token.NAME, "x" * 33, False), (token.NAME, "a 1", False),
    (token.SERVER, "station2", True), (token.SERVER, "127.0.0.1:881", True), (token.SERVER, "127.0.0.1:0", False),
    (token.SERVER, "10.0.0.1:881", False), (token.SERVER, "station; }", False), (token.SERVER, "127x0.0.1:1", False),
    (token.SUBJECT, "CN=pc7,O=Plant", True), (token.SUBJECT, 'CN="x"', False), (token.SUBJECT, "CN=$x", False),
    (token.SUBJECT, "CN=a\\Eb", False), (token.SUBJECT, "CN", False), (token.SUBJECT, "CN=a\n", False),
    (token.SUBJECT, "CN=a*", False), (token.SUBJECT, "CN=a;b", False),
])  # fmt: skip
def test_forms(form, text, is_one):
    """What stands in nginx's file can't end a text, a variable or a regular expression there."""
    if is_one:
        assert token.of_form(form, text, "x") == text
    else:
        with pytest.raises(TokenError, match="is no x"):
            token.of_form(form, text, "x")


# ---- nginx


@pytest.mark.parametrize("before", ["old", None])
def test_where_nginx_refuses_the_file_of_before_is_back(file, monkeypatch, before):
    if before:
        put(file, before)
    monkeypatch.setattr(token, "test_nginx", lambda command: (False, "emerg"))
    monkeypatch.setattr(token, "reload_nginx", lambda *_: pytest.fail("what fails its test isn't read"))
    args = token.token_parser().parse_args(["--file", str(file), "list"])
    with pytest.raises(TokenError, match="nothing was changed:\nemerg") as error:
        token.commit(args, seats(), before)
    assert error.value.status == 4 and (file.read_text() if before else os.listdir(file.parent)) == (before or [])


@pytest.mark.parametrize("wrong, status", [("", None), ("no worker", 5)])
def test_commit(file, monkeypatch, wrong, status):
    calls = []
    monkeypatch.setattr(token, "test_nginx", lambda command: calls.append((command, file.exists())) or (True, ""))
    monkeypatch.setattr(token, "reload_nginx", lambda command, pid: calls.append((command, pid)) or wrong)
    late = token.commit(token.token_parser().parse_args(["--file", str(file), "list"]), seats(), None)
    assert (late and late.status) == status and read(file) == tokens_text(seats())
    assert calls == [("nginx -t -q", True), ("nginx -s reload", "/run/nginx.pid")]
    assert token.commit(words(file, "list"), seats(), None) is None and len(calls) == 2, "--no-reload"


@pytest.mark.parametrize("fails, error", [
    ("test_nginx", PermissionError(13, "why")), ("reload_nginx", UnicodeDecodeError("utf-8", b"\xff", 0, 1, "why")),
    ("reload_nginx", ValueError("why")), ("put", OSError(28, "why")),
])  # fmt: skip
def test_whatever_fails_behind_the_write_is_no_refusal(file, monkeypatch, fails, error):
    """The statuses of station-token(8): with 1 nothing was changed, and 5 has an operator look at nginx."""
    def fail(*_):
        raise error

    monkeypatch.setattr(token, "test_nginx", lambda command: (fails != "put", "emerg"))
    monkeypatch.setattr(token, "reload_nginx", lambda *_: "")
    real, calls = token.put, []
    monkeypatch.setattr(token, "put", lambda *it: fail() if fails == "put" and calls else calls.append(real(*it)))
    if fails != "put":
        monkeypatch.setattr(token, fails, fail)
    late = token.commit(token.token_parser().parse_args(["--file", str(file), "list"]), seats(), "old")
    assert late.status == 5 and "why" in str(late) and read(file) == tokens_text(seats())


@pytest.mark.parametrize("command", ["nginx 'x", "/nowhere/nginx -t"])
def test_a_command_that_can_not_be_begun(command):
    assert token.test_nginx(command)[0] is False


def test_a_second_revoke_has_nginx_read_the_file_again(file, monkeypatch, capsys):
    with_outers(file, outer(1, text="", ended=NOW), outer(2, text="", ended=NOW))
    calls = []
    monkeypatch.setattr(token, "test_nginx", lambda command: calls.append(command) or (True, ""))
    monkeypatch.setattr(token, "reload_nginx", lambda command, pid: calls.append(command) or "")
    for name in ("a1:1", "a1"):
        token.run_token(token.token_parser().parse_args(["--file", str(file), "revoke", name]))
        assert calls[-2:] == ["nginx -t -q", "nginx -s reload"] and "had ended before" in capsys.readouterr().err
    with pytest.raises(TokenError, match="no outer token"):
        token.run_token(words(file, "revoke", "a1:3"))


def test_where_nothing_is_printed_a_change_is_none_that_was_refused(file, monkeypatch):
    def fail(*_, **__):
        raise OSError(32, "nobody reads")

    put(file, tokens_text(seats()))
    monkeypatch.setattr("builtins.print", fail)
    with pytest.raises(TokenError, match="nobody reads") as error:
        token.run_token(words(file, "add", "a1"))
    assert error.value.status == 7
    with pytest.raises(OSError, match="nobody reads"):
        token.run_token(words(file, "list"))


# ---- seats


def test_a_new_seat(file, capsys):
    found = done(file, "seat", "a1", "--customer", "acme")
    inner = found.seats["a1"].inner
    assert found.seats == {"a1": TokenSeat("a1", "acme", inner)} and re.fullmatch("[0-9a-f]{64}", inner)
    out, err = capsys.readouterr()
    assert out == f'[[customer.seat]]\nname = "a1"\ntoken = "{token.digest_of(inner)}"\n' and inner not in out + err
    assert stat.S_IMODE(file.stat().st_mode) == 0o600
    again = done(file, "seat", "a1", "--customer", "acme")
    assert again == found and capsys.readouterr().out == out, "a seat that is there keeps its token"


def test_two_seats_have_two_tokens(file):
    found = done(file, "seat", "a1", "--customer", "acme")
    found = done(file, "seat", "@manager")
    assert found.seats["@manager"].inner != found.seats["a1"].inner and found.seats["@manager"].customer == "@manager"


@pytest.mark.parametrize("text", [
    ["seat", "a/1", "--customer", "acme"], ["seat", "a1"], ["seat", "a1", "--customer", ""],
    ["seat", "a1", "--customer", "a b"],
    ["seat", "@a/1"], ["seat", "a1", "--customer", "acme", "--server", "evil.example:1"], ["seat", "@@m"],
    ["seat", "a1", "--customer", "acme", "--into", "/nowhere/site.toml"], ["add", "a9"],
    ["inner", "a9", "--to", "/nowhere/x"],
    ["revoke", "a9"], ["rotate", "a9"],
])  # fmt: skip
def test_refused_words_change_nothing(file, text):
    with pytest.raises(TokenError) as error:
        token.run_token(words(file, *text))
    assert error.value.status == 1 and not file.exists()


def test_another_server(file, capsys):
    put(file, tokens_text(seats()))
    assert done(file, "seat", "a1", "--server", "127.0.0.1:881").seats["a1"] == TokenSeat("a1", "acme", "abc",
        "127.0.0.1:881")


@pytest.mark.parametrize("seat, inner, is_known", [
    ("a1", "abc", True), ("b1", "hello", True), ("a1", "hello", False), ("b1", "abc", False), ("a2", "abc", False),
    ("@manager", "test", True), ("@manager", "abc", False), ("@other", "test", True),
])  # fmt: skip
def test_a_known_seat(file, tmp_path, capsys, seat, inner, is_known):
    """It is taken over where the site has that seat with that token, and with its own customer."""
    (tmp_path / "site.toml").write_text(SITE)
    (tmp_path / "inner").write_text(inner + "\n")
    text = ["seat", seat, "--known", str(tmp_path / "inner"), "--site", str(tmp_path / "site.toml")]
    if not is_known:
        with pytest.raises(TokenError, match=f"has no seat {seat} with the token of"):
            done(file, *text)
        assert not file.exists()
        return
    customer = {"a1": "acme", "b1": "bolt"}.get(seat, seat)
    assert done(file, *text).seats == {seat: TokenSeat(seat, customer, inner)}
    with pytest.raises(TokenError, match="is there already"):
        done(file, *text)
    for more in ([], ["--server", "127.0.0.1:882"]):
        with pytest.raises(TokenError, match=f"is {customer}'s, and not zeta's") as error:
            done(file, "seat", seat, "--customer", "zeta", *more)
        assert error.value.status == 1


def test_what_could_not_be_printed(file, monkeypatch):
    with contextlib.suppress(OSError), open("/dev/full", "w") as full:
        monkeypatch.setattr(sys, "stdout", full)
        with pytest.raises(TokenError, match="is changed, and what it came to wasn't printed") as error:
            done(file, "seat", "a1", "--customer", "acme")
    assert error.value.status == 7 and "a1" in read(file)


@pytest.mark.parametrize("text", ["", "a b", 'a"b', "a$b", "a\\b", "é", "a\nb"])
def test_a_token_that_nginx_cannot_have(tmp_path, text):
    (tmp_path / "inner").write_text(text + "\n")
    with pytest.raises((TokenError, UnicodeError)):
        token.inner_of(str(tmp_path / "inner"))


@pytest.mark.parametrize("mode, is_fit", [(0o700, True), (0o755, True), (0o711, True), (0o775, False), (0o757, False)])
def test_a_folder_that_others_write_is_refused(file, mode, is_fit):
    """Whoever may write there may be every caller; who may pass through it reads no token."""
    file.parent.chmod(mode)
    if is_fit:
        assert done(file, "seat", "a1", "--customer", "acme").seats
    else:
        with pytest.raises(TokenError, match="others may write it"):
            done(file, "seat", "a1", "--customer", "acme")
    file.parent.chmod(0o700)


def test_titles():
    found = [TokenSeat(seat, of, "x").title() for seat, of in (("a1", "acme"), ("@manager", "@manager"), ("@b", "@b"))]
    assert found == ["the seat a1 of acme", "the manager's seat @manager", "the manager's seat @b"]


# ---- outer tokens


@pytest.mark.parametrize("more, changes", [
    ([], {}), (["--look"], {"looks": True}), (["--until", "2026-12-24"], {"until": "2026-12-24T23:59"}),
    (["--holder", "line 5"], {"holder": "line 5"}), (["--certificate", "CN=pc7"], {"subject": "CN=pc7", "text": ""}),
    (["--look", "--certificate", "CN=pc7"], {"looks": True, "subject": "CN=pc7", "text": ""}),
])  # fmt: skip
def test_add(file, capsys, more, changes):
    put(file, tokens_text(seats()))
    found = done(file, "add", "a1", *more)
    (made,) = found.outers
    out, err = capsys.readouterr()
    assert (made.token, made.number, made.seat, made.since, made.ended) == ("a1:1", 1, "a1", NOW, "")
    expected = {"looks": False, "until": "", "holder": "", "subject": "", **changes}
    assert {name: getattr(made, name) for name in expected} == expected and found.seats["a1"].given == 1
    if made.subject:
        assert out == "" and made.mark == token.mark_of("CN=pc7")
    else:
        assert out == made.text + "\n" and re.fullmatch("wanekupo_[0-9a-f]{64}", made.text) and made.text not in err
        assert made.mark == token.mark_of(made.text) and made.mark in err


@pytest.mark.parametrize("more", [
    ["--until", "2026-06-14"], ["--certificate", "CN=$x"], ["--holder", "a\nb"], ["--holder", "x" * 81],
    ["--holder", "é"], ["--holder", "x\x1b"],
])  # fmt: skip
def test_add_refuses(file, more):
    put(file, tokens_text(seats()))
    with pytest.raises(TokenError):
        done(file, "add", "a1", *more)
    assert read(file) == tokens_text(seats())


def test_a_certificate_has_one_seat(file):
    tokens = seats()
    tokens.outers = [outer(1, text="", subject="CN=pc7")]
    put(file, tokens_text(tokens))
    with pytest.raises(TokenError, match="has a seat already"):
        done(file, "add", "b1", "--certificate", "CN=pc7")
    assert done(file, "add", "b1", "--certificate", "CN=pc").outers[1].subject == "CN=pc"
    done(file, "revoke", "a1:1")
    assert done(file, "add", "b1", "--certificate", "CN=pc7").outers[2].seat == "b1"


def test_a_number_and_a_name_are_never_given_again(file):
    put(file, tokens_text(seats()))
    for text in (["add", "a1"], ["add", "b1"], ["add", "a1"], ["revoke", "a1"], ["add", "a1"]):
        found = done(file, *text)
    assert [(it.token, it.number) for it in found.outers] == [("a1:1", 1), ("b1:1", 2), ("a1:2", 3), ("a1:3", 4)]
    assert len({it.text for it in found.outers if it.text}) == 2


def with_outers(file, *outers):
    a1, b1 = TokenSeat("a1", "acme", "abc", given=9), TokenSeat("b1", "bolt", "hello", given=9)
    tokens = seats(a1, TokenSeat("a", "acme", "x"), b1)
    tokens.outers = list(outers)
    put(file, tokens_text(tokens))


@pytest.mark.parametrize("name, ended", [("a1", [1, 2]), ("a1:1", [1]), ("a1:2", [2]), ("b1", [4])])
def test_revoke(file, name, ended):
    """One, or all of a seat; those of other seats go on, and a name that begins alike is another one."""
    with_outers(file, outer(1), outer(2), outer(12, ended=NOW, text=""), outer(4, "b1"), outer(21, "a"))
    found = done(file, "revoke", name)
    assert [it.number for it in found.outers if it.ended and it.number != 12] == ended
    assert all(bool(it.text) != bool(it.ended) for it in found.outers), "one that has ended keeps no text"
    assert {it.mark for it in found.outers} == {"0" * 12}, "and its mark"
    for other in ("a1:", "a1:9", "c1", ""):
        with pytest.raises(TokenError, match="there is no outer token"):
            done(file, "revoke", other)


def test_a_token_whose_time_is_past_stays_ended(file, monkeypatch):
    """Each change writes it so: nginx goes by the machine's clock, which may be set back."""
    with_outers(file, outer(1, until="2026-06-15T11:59"), outer(2, until=NOW), outer(3, "b1"))
    done(file, "list")
    assert not any(it.ended for it in tokens_of(read(file), file).outers), "a look changes nothing"
    found = done(file, "add", "b1").outers
    assert [(it.ended, bool(it.text)) for it in found] == [("2026-06-15T11:59", False)] + [("", True)] * 3


def test_list(file, capsys):
    with_outers(file, outer(1, looks=True, holder="line 5"), outer(2, until="2026-06-14T23:59"),
        outer(3, until="2026-06-15T12:00"),
                outer(4, text="", ended="2026-01-01T00:00"), outer(5, "b1", text="", subject="CN=pc7"))  # fmt: skip
    before = read(file)
    done(file, "list")
    out, err = capsys.readouterr()
    rows = [re.split(r"  +", line) for line in out.splitlines()]
    assert rows[0] == ["name", "seat", "may", "until", "since", "known by", "holder"]
    assert rows[1:] == [["a1:1", "a1", "look", "-", NOW, "0" * 12, "line 5"],
        ["a1:2", "a1", "all", "2026-06-14 past", NOW, "0" * 12],
                        ["a1:3", "a1", "all", "2026-06-15T12:00", NOW, "0" * 12],
                        ["b1:5", "b1", "all", "-", NOW, "CN=pc7"]]  # fmt: skip
    assert "wanekupo_" not in out + err and err == "without an outer token: a\n" and read(file) == before
    done(file, "list", "--all")
    assert "ended 2026-01-01T00:00" in capsys.readouterr().out


def test_the_seat_of_health_needs_no_outer_token(file, capsys):
    put(file, tokens_text(seats(TokenSeat("health", "acme", "x"))))
    done(file, "list")
    assert capsys.readouterr().err == ""


def test_inner(file, tmp_path, capsys):
    put(file, tokens_text(seats()))
    before = file.stat().st_ino
    done(file, "inner", "a1", "--to", str(tmp_path / "a1.token"))
    assert file.stat().st_ino == before, "nothing is written, as nothing changes"
    made = tmp_path / "a1.token"
    assert made.read_text() == "abc\n" and stat.S_IMODE(made.stat().st_mode) == 0o600
    out, err = capsys.readouterr()
    assert out == "" and "abc" not in err
    with pytest.raises(FileExistsError):
        done(file, "inner", "b1", "--to", str(tmp_path / "a1.token"))
    assert (tmp_path / "a1.token").read_text() == "abc\n"


@pytest.mark.parametrize("made, told", [
    ((A1, B1, MANAGER), ""), ((A1, B1), "@manager"), ((A1, TokenSeat("b1", "bolt", "xx"), MANAGER), "b1"),
    ((A1, B1, TokenSeat("c1", "acme", "xx"), TokenSeat("@m", "@m", "test")), "c1"),
    ((TokenSeat("a1", "bolt", "abc"), B1, MANAGER), "a1"),
])  # fmt: skip
def test_check(file, tmp_path, capsys, made, told):
    (tmp_path / "site.toml").write_text(SITE)
    put(file, tokens_text(seats(*made)))
    if told:
        with pytest.raises(TokenError, match=told) as error:
            done(file, "check", "--site", str(tmp_path / "site.toml"))
        assert error.value.status == 1
        return
    done(file, "check", "--site", str(tmp_path / "site.toml"))
    assert "3 seats, as in" in capsys.readouterr().err


def test_write_makes_a_changed_file_anew(file):
    put(file, tokens_text(seats()) + "# mine\n")
    for text in (["list"], ["add", "a1"]):
        with pytest.raises(TokenError, match="changed by hand"):
            token.run_token(words(file, *text))
    assert done(file, "write") == seats()


# ---- a run


def test_a_token_is_in_its_file_and_on_no_screen(file, tmp_path, capsys):
    put(file, tokens_text(seats()))
    made = done(file, "add", "a1", "--to", str(tmp_path / "a1.token")).outers[0]
    out, err = capsys.readouterr()
    assert (tmp_path / "a1.token").read_text() == made.text + "\n" and made.text not in out + err
    assert stat.S_IMODE((tmp_path / "a1.token").stat().st_mode) == 0o600


@pytest.mark.parametrize("is_taken, status", [(False, 4), (True, 5)])
def test_a_token_that_nginx_refuses_is_in_no_file(file, tmp_path, monkeypatch, capsys, is_taken, status):
    """And it stays where nginx may go on as before."""
    put(file, tokens_text(seats()))
    monkeypatch.setattr(token, "test_nginx", lambda command: (is_taken, "emerg"))
    monkeypatch.setattr(token, "reload_nginx", lambda *_: "no worker")
    args = token.token_parser().parse_args(["--file", str(file), "add", "a1", "--to", str(tmp_path / "a1.token")])
    with pytest.raises(TokenError) as error:
        token.run_token(args)
    assert error.value.status == status and (tmp_path / "a1.token").exists() == is_taken
    assert is_taken or (read(file), capsys.readouterr().out) == (tokens_text(seats()), "")
    assert len(tokens_of(read(file), file).outers) == is_taken


def test_where_a_token_can_have_no_file_none_is_made(file, tmp_path):
    put(file, tokens_text(seats()))
    (tmp_path / "a1.token").write_text("mine")
    with pytest.raises(FileExistsError):
        done(file, "add", "a1", "--to", str(tmp_path / "a1.token"))
    assert (tmp_path / "a1.token").read_text() == "mine" and read(file) == tokens_text(seats())


def test_one_run_at_a_time(file):
    put(file, tokens_text(seats()))
    with token.alone(file, 0), pytest.raises(TokenError) as error:
        token.run_token(words(file, "--wait", "0", "add", "a1"))
    assert error.value.status == 3 and read(file) == tokens_text(seats())


def test_a_look_changes_no_file(file, monkeypatch):
    put(file, tokens_text(seats()))
    monkeypatch.setattr(token, "commit", lambda *_: pytest.fail("nothing is changed"))
    token.run_token(words(file, "list"))


@pytest.mark.parametrize("error, status, told", [
    (None, 0, ""), (TokenError(3, "busy"), 3, "busy"), (TokenError(5, "late"), 5, "late"),
    (OSError(2, "No such file", "/f"), 1, "/f"), (UnicodeDecodeError("ascii", b"\xff", 0, 1, "why"), 1, "why"),
])  # fmt: skip
def test_main(monkeypatch, capsys, error, status, told):
    def run(args):
        assert args.command == "list" and args.file == "/etc/station/tokens.conf"
        if error:
            raise error

    monkeypatch.setattr(token, "run_token", run)
    monkeypatch.setattr(sys, "argv", ["token", "list"])
    assert token.main() == status and told in capsys.readouterr().err


@pytest.mark.parametrize("text", ["", "add", "rotate", "inner a1", "seat", "grow a1", "revoke",
    "add a1 --untill 2026-12-24"])
def test_wrong_words(text, capsys):
    with pytest.raises(SystemExit) as error:
        token.token_parser().parse_args(text.split())
    assert error.value.code == 2


@pytest.mark.parametrize("is_mounted, left, told, status", [
    (True, None, "", None), (False, None, "the store isn't mounted here", None), (True, "frozen", "", 6),
])  # fmt: skip
def test_one_of_two_machines(file, tmp_path, monkeypatch, capsys, is_mounted, left, told, status):
    """The other one is told by the volume; a change that nginx didn't read either keeps its own status."""
    monkeypatch.setattr(token, "SETTINGS", tmp_path)
    monkeypatch.setattr(token, "read_settings", lambda: StandbySettings(tokens=str(file)))
    monkeypatch.setattr(token.Half, "is_mounted", lambda it: is_mounted)

    lists = []

    def leave(half, tokens):
        lists.append(sorted(tokens.seats))
        if left:
            raise token.StandbyError(left)

    monkeypatch.setattr(token.living, "leave", leave)
    missed = token.left_to_the_other(file, seats())
    assert (missed and missed.status) == status and told in capsys.readouterr().err
    put(file, tokens_text(seats()))
    for late, wanted in ((None, status), (TokenError(5, "no worker"), 5)):
        monkeypatch.setattr(token, "commit", lambda *_, late=late: late)
        said = "\n.*".join(filter(None, (late and "no worker", left)))
        with pytest.raises(TokenError, match=said) if wanted else contextlib.nullcontext() as error:
            token.run_token(words(file, "add", "a1"))
        assert wanted is None or error.value.status == wanted
    token.run_token(words(file, "list"))
    assert lists == is_mounted * 3 * [["a1", "b1"]], "a look leaves none"


def test_on_one_machine_alone_nothing_is_left(file, tmp_path, monkeypatch):
    monkeypatch.setattr(token.living, "leave", lambda *_: pytest.fail("left"))
    monkeypatch.setattr(token.Half, "is_mounted", lambda it: True)
    for settings, tokens in ((tmp_path / "none", file), (tmp_path, tmp_path / "other.conf")):
        monkeypatch.setattr(token, "SETTINGS", settings)
        monkeypatch.setattr(token, "read_settings", lambda tokens=tokens: StandbySettings(tokens=str(tokens)))
        assert token.left_to_the_other(file, seats()) is None
