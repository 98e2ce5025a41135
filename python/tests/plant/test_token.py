"""The commands of station-token: days, spans, what ends and what comes in its place, and the files that it writes."""

import json
import os
import subprocess
import tomllib
from pathlib import Path

import pytest
from wanekupo.common import token_file
from scripts import script
from wanekupo.common.token_file import LAST, Outer, TokenSeat, TokenError, Tokens, mark_of, tokens_of

token = script("token")

DAY = "2026-11-29"


@pytest.fixture(autouse=True)
def clock(monkeypatch):
    for module in (token_file, token):
        monkeypatch.setattr(module, "current_minute", lambda: f"{DAY}T10:00")


def args_of(*words):
    return token.token_parser().parse_args(words)


def tokens_with(*outers):
    made = Tokens({
        "a1": TokenSeat("a1", "acme", "inner-of-a1", given=9), "b1": TokenSeat("b1", "bolt", "inner-of-b1", given=9),
    })
    made.outers = list(outers)
    return made


def outer(number, seat="a1", **more):
    text = f"{token.PREFIX}{number:064x}"
    kept = {"text": text, "mark": mark_of(text), "looks": False, "since": f"{DAY}T00:00"}
    return Outer(token=f"{seat}:{number}", number=number, seat=seat, **{**kept, **more})


DAYS = [("2026-11-29", "2026-11-29T23:59"), ("2026-12-24", "2026-12-24T23:59"), ("2028-02-29", "2028-02-29T23:59")]
NO_DAYS = ["2026-11-28", "2026-02-30", "2027-02-29", "24.12.2026", "2026-12-24T10:00", "20261224", "", "2026-12-24\n"]


@pytest.mark.parametrize("day, minute", DAYS)
def test_last_minute_of_a_day(day, minute):
    assert token.minute_of(day) == minute


@pytest.mark.parametrize("day", NO_DAYS)
def test_no_day(day):
    with pytest.raises(TokenError) as error:
        token.minute_of(day)
    assert error.value.status == 1


SPANS = [("30m", "30 minutes"), ("8h", "8 hours"), ("2d", "48 hours"), ("9999m", "9999 minutes")]


@pytest.mark.parametrize("span, said", SPANS)
def test_minute_behind_a_span(span, said):
    """As `date` has it; a minute may go by meanwhile."""
    words = ["date", "-d", said, "+%Y-%m-%dT%H:%M"]
    before = subprocess.run(words, capture_output=True, text=True, check=True).stdout.strip()
    found = token.minute_after(span)
    after = subprocess.run(words, capture_output=True, text=True, check=True).stdout.strip()
    assert before <= found <= after


@pytest.mark.parametrize("span", ["0m", "0h", "0000d"])
def test_a_span_of_nothing_ends_now(span):
    assert token.minute_after(span) == ""


@pytest.mark.parametrize("span", ["", "30", "m", "-1h", "1.5h", "8 h", "8H", "10000m", "1w", "8h\n"])
def test_no_span(span):
    with pytest.raises(TokenError, match="is no span") as error:
        token.minute_after(span)
    assert error.value.status == 1


def state_of(tokens):
    return {it.token: (bool(it.text), it.until, it.ended) for it in tokens.outers}


def test_rotate_gives_another_and_ends_the_old_one_now():
    tokens = tokens_with(outer(1, looks=True, until=f"2026-12-24{LAST}", holder="line 1"), outer(7, "b1"))
    done = token.rotate(args_of("rotate", "a1:1"), tokens)
    old, other, new = tokens.outers
    assert (old.text, old.ended, other.ended) == ("", f"{DAY}T10:00", "")
    # The new one may what the old one may, has a name and a number that no other had, and another text.
    assert (new.token, new.number, new.seat) == ("a1:10", 8, "a1")
    assert (new.looks, new.until, new.holder, new.ended) == (True, f"2026-12-24{LAST}", "line 1", "")
    assert new.text == done.secret and new.text.startswith("wanekupo_") and len(new.text) == 9 + 64
    assert new.mark == mark_of(new.text) and tokens.seats["a1"].given == 10


def test_rotate_with_grace_has_both_until_then(monkeypatch):
    monkeypatch.setattr(token, "minute_after", lambda grace: {"8h": f"{DAY}T18:00", "60d": "2027-01-28T10:00"}[grace])
    for until, grace, ends in (("", "8h", f"{DAY}T18:00"), (f"2026-12-24{LAST}", "8h", f"{DAY}T18:00"),
                               (f"2026-12-24{LAST}", "60d", f"2026-12-24{LAST}")):  # fmt: skip
        tokens = tokens_with(outer(1, until=until))
        token.rotate(args_of("rotate", "a1:1", "--grace", grace), tokens)
        assert state_of(tokens) == {"a1:1": (True, ends, ""), "a1:10": (True, until, "")}


NOT_ROTATED = [
    ([outer(1, until=f"{DAY}T18:00")], "a1:1", "rotated already"),
    ([outer(1), outer(2)], "a1", "a1 has 2 outer tokens; which\\? a1:1, a1:2"),
    ([outer(1, text="", subject="CN=pc7")], "a1:1", "is a certificate's"),
    ([outer(1, text="", ended="2026-11-01T00:00")], "a1:1", "there is no outer token"),
]


@pytest.mark.parametrize("outers, name, told", NOT_ROTATED)
def test_not_rotated(outers, name, told):
    tokens = tokens_with(*outers)
    with pytest.raises(TokenError, match=told) as error:
        token.rotate(args_of("rotate", name), tokens)
    assert tokens.outers == outers and error.value.status == 1, "1 refused, and nothing was changed"


def test_the_list_in_json_shows_no_token():
    tokens = tokens_with(outer(1), outer(2, until=f"2026-11-28{LAST}"), outer(3, text="", ended="2026-11-01T00:00"))
    first, second = map(json.loads, token.show(args_of("list", "--json"), tokens).shown.splitlines())
    assert (first["name"], first["seat"], second["until"]) == ("a1:1", "a1", "2026-11-28 past")
    assert not {it.text for it in tokens.outers if it.text} & {*first.values(), *second.values()}


SITE = '[[customer]]\nname = "acme"\nissuer = ["acme-ca"]\n\n[[customer]]\nname = "bolt"\nissuer = []\n'


def files(tmp_path):
    tmp_path.chmod(0o700)
    site = tmp_path / "new.toml"
    site.write_text(SITE)
    site.chmod(0o640)
    return tmp_path / "tokens.conf", site


def test_a_site_file_is_written_whole_with_its_mode(tmp_path, monkeypatch):
    path, site = files(tmp_path)
    words = ["--file", str(path), "--no-reload", "seat"]
    token.run_token(args_of(*words, "a1", "--customer", "acme", "--into", str(site)))
    seat = tokens_of(path.read_text(), path).seats["a1"]
    printed = subprocess.run(["sha256sum"], input=seat.inner, capture_output=True, text=True, check=True).stdout
    found = tomllib.loads(site.read_text())["customer"]
    assert found[0]["seat"] == [{"name": "a1", "token": printed.split()[0]}] and "seat" not in found[1]
    assert site.stat().st_mode & 0o777 == 0o640 and path.stat().st_mode & 0o777 == 0o600
    before, replace = site.read_bytes(), os.replace

    def full(source, to):
        if Path(to) == site:
            raise OSError(28, "No space left on device")
        replace(source, to)

    monkeypatch.setattr(os, "replace", full)
    with pytest.raises(TokenError, match="No space left") as error:
        token.run_token(args_of(*words, "a2", "--customer", "acme", "--into", str(site)))
    assert error.value.status == 7, "of station-token(8): the tokens' file is changed"
    assert site.read_bytes() == before and sorted(it.name for it in tmp_path.iterdir()) == [
        "new.toml", "tokens.conf", "tokens.conf.lock"]  # fmt: skip


def test_a_link_to_a_site_file_stays_one(tmp_path):
    path, site = files(tmp_path)
    link = tmp_path / "link.toml"
    link.symlink_to(site)
    words = ["--file", str(path), "--no-reload", "seat", "a1"]
    token.run_token(args_of(*words, "--customer", "acme", "--into", str(link)))
    assert link.is_symlink() and "a1" in site.read_text()


def test_a_site_file_lies_where_nobody_else_puts_another(tmp_path):
    """Whoever may write the folder may put a link in the file's place, behind the reading of it."""
    path, site = files(tmp_path)
    shared = tmp_path / "shared"
    shared.mkdir(mode=0o777)
    shared.chmod(0o777)
    there = shared / "new.toml"
    there.write_text(SITE)
    (shared / "link.toml").symlink_to(site)
    (tmp_path / "way").symlink_to(shared)
    words = ["--file", str(path), "--no-reload", "seat", "a1", "--customer", "acme", "--into"]
    for name in (there, shared / "link.toml", tmp_path / "way/new.toml"):
        with pytest.raises(TokenError, match="others (may|can) write"):
            token.run_token(args_of(*words, str(name)))
    site.chmod(0o666)
    with pytest.raises(TokenError, match="others may write it"):
        token.run_token(args_of(*words, str(site)))
    assert there.read_text() == site.read_text() == SITE and not path.exists()
