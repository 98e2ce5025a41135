"""What nginx gets of the tokens' file, by nginx's own rules for maps, with the maps of the deployed nginx.conf."""

import os
import re
import stat
from dataclasses import replace
from pathlib import Path
from types import SimpleNamespace

import pytest
from conftest import DEPLOY
from wanekupo.common import token_file
from wanekupo.common.token_file import (
    PREFIX, Outer, TokenError, TokenSeat, Tokens, is_past, later_minute, living, mark_of, read, tokens_text,
)  # fmt: skip
from wanekupo.common.token_file import tokens_of as parsed

CONF = (DEPLOY / "nginx.conf").read_text(encoding="utf-8")
MAP = re.compile(r"^ *map (\"[^\"]*\"|\S+) (\$\w+) \{\n(.*?)^ *\}", re.MULTILINE | re.DOTALL)
ROW = re.compile(r'^ *("(?:[^"\\]|\\.)*"|[^\s";]+) +("(?:[^"\\]|\\.)*"|[^\s";]+);$', re.MULTILINE)
NEVER, END = "2026-11-29T10:00:00+01:00", "2026-12-24T23:59"


class Nginx:
    """The variables of a request by the maps of a configuration: a text first, whose case doesn't count, then regular
    expressions in their order, then the default (ngx_http_map_module)."""

    def __init__(self, *texts):
        self.maps = {}
        for text in texts:
            for source, name, rows in MAP.findall(text):
                found = [(self.plain(key), self.plain(it)) for key, it in ROW.findall(rows)]
                self.maps[name[1:]] = source.strip('"'), found

    @staticmethod
    def plain(word):
        return word[1:-1] if word[0] == '"' else word

    @staticmethod
    def expression(key):
        quoted = re.sub(r"\\Q(.*?)\\E", lambda it: re.escape(it[1]), key).replace(r"\z", r"\Z")
        return re.sub(r"\(\?<(\w+)>", r"(?P<\1>", quoted)

    def value(self, name, known):
        if name in known or name not in self.maps:
            return known.get(name, "")
        source, rows = self.maps[name]
        text = self.filled(source, known)
        for key, to in rows:
            if key not in ("default", "volatile") and key[0] != "~" and key.lower() == text.lower():
                return self.filled(to, known)
        for key, to in rows:
            if key[0] == "~" and (found := re.search(self.expression(key[1:]), text)):
                return self.filled(to, {**known, **found.groupdict()})
        return self.filled(next((to for key, to in rows if key == "default"), ""), known)

    def filled(self, text, known):
        return re.sub(r"\$(\w+)", lambda it: self.value(it[1], known), text)

    def asked(self, method="GET", authorization="", at=NEVER, subject=""):
        """What the server gets of a request: its inner token, or the status with which nginx ends it."""
        verify = "SUCCESS" if subject else "NONE"
        known = {"request_method": method, "http_authorization": authorization, "time_iso8601": at}
        known |= {"ssl_client_verify": verify, "ssl_client_s_dn": subject, "uri": "/v1/order"}
        if not self.value("caller_open", known):
            return 401
        return 403 if self.value("is_refused", known) else self.value("caller_inner", known)


def text(number):
    return PREFIX + f"{number:064x}"


def bearer(number):
    return f"Bearer {text(number)}"


def outer(number, seat, **more):
    made = Outer(f"{seat}:{number}", number, seat, False, mark_of(text(number)), "2026-11-01T00:00", text(number))
    return replace(made, **more)


def sample():
    """Two seats of two customers: one that may all, one that looks, one that ends, one that has ended, certificates."""
    tokens = Tokens()
    a1, b1 = TokenSeat("a1", "acme", "inner-of-a1"), TokenSeat("b1", "bolt", "inner-of-b1", "127.0.0.1:881")
    tokens.seats = {"a1": a1, "b1": b1}
    tokens.outers = [
        outer(1, "a1"),
        outer(2, "a1", looks=True),
        outer(3, "b1", until=END),
        outer(4, "b1", text="", ended="2026-11-02T00:00"),
        outer(5, "b1", text="", subject="CN=pc7,O=Our plant"),
        outer(6, "b1", text="", subject="CN=pc8", looks=True),
        outer(8, "a1", text="", subject="CN=a.b"),
        outer(10, "b1", looks=True, until=END),
    ]
    return tokens


NGINX = Nginx(CONF, tokens_text(sample()))
# Only GET and HEAD look (RFC 9110: the two safe methods that the server has). nginx itself refuses small letters.
LOOKING, CHANGING = ("GET", "HEAD"), ("POST", "PUT", "PATCH", "DELETE", "OPTIONS", "TRACE", "GETPOST", "1 GET", "")
CERTIFICATE = "Bearer certificate"
ASKED = [
    *[(dict(method=it, authorization=bearer(1)), "inner-of-a1") for it in (*LOOKING, "POST", "DELETE")],
    *[(dict(method=it, authorization=bearer(2)), "inner-of-a1") for it in LOOKING],
    *[(dict(method=it, authorization=bearer(2)), 403) for it in CHANGING],
    *[(dict(method=it, authorization=bearer(10)), 403) for it in CHANGING],
    (dict(authorization=bearer(10)), "inner-of-b1"),
    (dict(method="POST", authorization=bearer(3)), "inner-of-b1"),
    (dict(authorization=bearer(3), at="2026-12-24T23:59:59+01:00"), "inner-of-b1"),
    (dict(authorization=bearer(3), at="2026-12-25T00:00:00+01:00"), 401),
    (dict(authorization=bearer(3), at="2027-01-01T00:00:00+01:00"), 401),
    (dict(method="POST", authorization=bearer(10), at="2026-12-25T00:00:00+01:00"), 401),
    (dict(authorization=bearer(4)), 401),
    (dict(authorization=bearer(7)), 401),
    (dict(authorization=f"bearer   {text(1)}"), "inner-of-a1"),
    (dict(authorization=f"Bearer {text(1)} "), 401),
    (dict(authorization=f"Bearer {text(10).upper()}"), 401),
    (dict(authorization=f"Bearer {PREFIX.upper()}{10:064x}"), 401),
    (dict(authorization=text(1)), 401),
    (dict(authorization=f"Basic {text(1)}"), 401),
    (dict(authorization=f"Bearer {text(1)},{text(2)}"), 401),
    (dict(authorization="Bearer inner-of-a1"), 401),
    (dict(authorization="Bearer 1"), 401),
    (dict(authorization=""), 401),
    (dict(method="POST", authorization=CERTIFICATE, subject="CN=pc7,O=Our plant"), "inner-of-b1"),
    (dict(authorization="", subject="CN=pc7,O=Our plant"), 401),
    (dict(authorization=CERTIFICATE), 401),
    (dict(authorization=CERTIFICATE, subject="CN=pc7"), 401),
    (dict(authorization=CERTIFICATE, subject="CN=pc7,O=Our plant,C=DE"), 401),
    (dict(authorization=CERTIFICATE, subject="CN=x,CN=pc7,O=Our plant"), 401),
    (dict(authorization=CERTIFICATE, subject="CN=PC7,O=Our plant"), 401),
    (dict(authorization=CERTIFICATE, subject="CN=pc8"), "inner-of-b1"),
    (dict(authorization=CERTIFICATE, subject="CN=a.b"), "inner-of-a1"),
    (dict(authorization=CERTIFICATE, subject="CN=axb"), 401),
    (dict(method="POST", authorization=CERTIFICATE, subject="CN=pc8"), 403),
    (dict(authorization=f"Bearer {text(1)}", subject="CN=pc8"), "inner-of-a1"),
]


@pytest.mark.parametrize("request_of, got", ASKED)
def test_what_nginx_makes_of_a_request(request_of, got):
    assert NGINX.asked(**request_of) == got


def test_a_token_goes_to_its_own_seats_server():
    known = {"http_authorization": bearer(3), "time_iso8601": NEVER}
    assert NGINX.filled("$caller_server $caller_customer $caller_name", known) == "127.0.0.1:881 bolt b1:3"
    known = {"http_authorization": bearer(1), "time_iso8601": NEVER}
    assert NGINX.filled("$caller_server $caller_customer $caller_name", known) == "station acme a1:1"


def test_later_minutes_are_those_behind_it():
    """Beside a comparison of texts."""
    times = [f"{y}-{m:02}-{d:02}T{h:02}:{i:02}" for y in (2025, 2026, 2027, 2030, 2100) for m in range(1, 13)
             for d in (1, 9, 10, 19, 28, 30, 31) for h in (0, 9, 19, 23) for i in (0, 9, 10, 58, 59)]  # fmt: skip
    for end in times[::311] + ["2026-11-28T23:59", "2029-12-31T23:59", "2099-09-09T19:09", "2999-12-31T23:59"]:
        later = re.compile(later_minute(end))
        assert [it for it in times if later.search(f"{it}:30+01:00")] == [it for it in times if it > end]


def test_the_file_is_read_again_as_it_was():
    written = tokens_text(sample())
    assert parsed(written, Path("f")) == sample()
    for changed in (written.replace("inner-of-a1", "inner-of-b1", 1), written + "\n", written.replace('"1"', '"2"', 1)):
        with pytest.raises(TokenError, match="changed by hand"):
            parsed(changed, Path("f"))
    with pytest.raises(TokenError, match="isn't what token writes"):
        parsed('#: {"number": 1}\n', Path("f"))
    assert parsed(written + "\n", Path("f"), is_anew=True) == sample()


def test_which_tokens_live(monkeypatch):
    monkeypatch.setattr("wanekupo.common.token_file.current_minute", lambda: "2026-12-24T23:59")
    marks = {it.number: it.mark for it in sample().outers}
    assert living(sample()) == sorted([
        f"a1:1 {marks[1]} all -", f"a1:2 {marks[2]} look -", f"b1:3 {marks[3]} all {END}", f"b1:5 {marks[5]} all -",
        f"b1:6 {marks[6]} look -", f"a1:8 {marks[8]} all -", f"b1:10 {marks[10]} look {END}",
    ])  # fmt: skip
    monkeypatch.setattr("wanekupo.common.token_file.current_minute", lambda: "2026-12-25T00:00")
    assert [it.split()[0] for it in living(sample())] == ["a1:1", "a1:2", "a1:8", "b1:5", "b1:6"]
    assert [is_past(it) for it in ("", END, "2026-12-25T00:00")] == [False, True, False]
    assert not any(PREFIX in it or "inner" in it for it in living(sample()))


def test_a_file_of_others_isnt_read(tmp_path):
    path = tmp_path / "tokens.conf"
    assert read(path) is None
    path.write_text("x")
    for mode, told in ((0o644, "read by others"), (0o640, "read by others"), (0o620, "others may write")):
        os.chmod(path, mode)
        with pytest.raises(TokenError, match=told):
            read(path)
    os.chmod(path, 0o600)
    assert read(path) == "x"
    link = tmp_path / "link"
    link.symlink_to(path)
    with pytest.raises(TokenError, match="is a link"):
        read(link)


@pytest.mark.parametrize("record", [5000 * "[", "[]", "5", '"a"', "{}", '{"number": 1}', "null"])
def test_a_record_that_is_none_is_told_in_a_sentence(record):
    with pytest.raises(TokenError, match="^f isn't what token writes"):
        parsed(f"#: {record}\n", Path("f"))


# Members of a record that would be a directive of nginx, or are of another kind than station-token writes.
EVIL = 'x" 0;\n}\naccess_log /etc/cron.d/evil evil;\nmap $uri $zz {\n    "y'
ODD = [*[(name, EVIL) for name in ("token", "mark", "since", "text", "subject", "until", "holder", "ended")],
       ("text", "x"), ("text", PREFIX + "\u0661" * 64), ("number", True), ("number", "1"), ("number", 0),
       ("looks", "yes"), ("looks", 1), ("until", "2026-12-24T23:59\n")]  # fmt: skip
ODD_SEATS = [*[(name, EVIL) for name in ("seat", "customer", "inner", "server")], ("given", -1), ("inner", "$http_x"),
             ("server", "127.0.0.1:\u0661"), ("customer", "")]  # fmt: skip


@pytest.mark.parametrize("name, value, is_seat", [*((*it, False) for it in ODD), *((*it, True) for it in ODD_SEATS)])
def test_no_member_of_a_record_has_another_form(monkeypatch, name, value, is_seat):
    """A file that somebody handed over is all made of its records, and what stands in them becomes nginx's."""
    tokens = sample()
    if is_seat:
        tokens.seats["a1"] = replace(tokens.seats["a1"], **{name: value})
    else:
        tokens.outers[0] = replace(tokens.outers[0], **{name: value})
    with monkeypatch.context() as before:
        before.setattr(token_file, "_test_form", lambda record: None, raising=False)
        handed = tokens_text(tokens)
    readings = (lambda: parsed(handed, Path("f")), lambda: parsed(handed, Path("f"), True))
    for made in (*readings, lambda: tokens_text(tokens)):
        with pytest.raises(TokenError, match=f"another form than station-token writes: its {name}$"):
            made()


# The owner and the mode of a folder, and whether a token may be made in it: by root, and by the user 7.
FOLDERS = [(0, 0o700, 0, True), (0, 0o755, 0, True), (0, 0o1777, 0, True), (0, 0o777, 0, False), (0, 0o775, 0, False),
           (7, 0o700, 0, False), (7, 0o1777, 0, False), (7, 0o700, 7, True), (8, 0o755, 7, False)]  # fmt: skip


@pytest.mark.parametrize("owner, mode, own, is_fit", FOLDERS)
def test_a_token_lies_where_nobody_else_replaces_it(tmp_path, monkeypatch, owner, mode, own, is_fit):
    monkeypatch.setattr(token_file, "opened", lambda folder: os.open(folder, os.O_RDONLY))
    found = SimpleNamespace(st_uid=owner, st_mode=stat.S_IFDIR | mode)
    monkeypatch.setattr(token_file, "os", SimpleNamespace(**{**vars(os), "fstat": lambda handle: found,
                                                             "geteuid": lambda: own}))  # fmt: skip
    if is_fit:
        token_file.check_folder(tmp_path)
    else:
        with pytest.raises(TokenError, match="another user's, or others may write it"):
            token_file.check_folder(tmp_path)


def test_no_link_leads_to_a_tokens_folder(tmp_path):
    (tmp_path / "link").symlink_to(tmp_path)
    with pytest.raises(TokenError, match="is a link, or no folder"):
        token_file.check_folder(tmp_path / "link")
