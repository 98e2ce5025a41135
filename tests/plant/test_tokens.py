"""Outer tokens by station-token behind nginx by deploy/nginx.conf: the tool's words and files, who may do what, and
changes under a running nginx. Each test has a folder, a program and an nginx of its own.

Between nginx and the program stands a recorder, which keeps the head of each request that comes through: so it is seen
that none of a stranger's does, and that no outer token does. Expected replies are those of docs/integrate/api.md.
"""

import fcntl
import os
import re
import stat
import time
import tomllib
from concurrent.futures import ThreadPoolExecutor
from pathlib import Path

import pytest

from common.deployed import INNER, ROOT, expect, ran, refusal

pytestmark = [pytest.mark.root, pytest.mark.nginx]

FORM = r"wanekupo_[0-9a-f]{64}"
ORDER = "/v1/order?name=none"
NO_ORDER = (404, refusal("unknown_order", 14))
STRANGER = (401, refusal("unknown_token", 6))
# A station's work for a while: ten requests a second.
ASKING = "while time.time() < end: station.get('/v1/devices', after=''); count += 1; time.sleep(0.1)"

MAY_LOOK = (403, refusal("wrong_caller", 8))
LATER = (503, refusal("unkept", 50))


def seats(place):
    """The sample site's seats, taken over."""
    for name, inner in INNER.items():
        (place.folder / "known").write_text(inner, encoding="ascii")
        assert place.token("seat", name, "--known", "known", "--site", place.site, is_told=False)[0] == 0


def by(text):
    return f"Bearer {text}"


def told(reply):
    status, _, body = reply
    return status, body


def working(place):
    """The seats, a token for work and one to look, and nginx."""
    seats(place)
    place.made("work", "add", "a1", is_told=False)
    place.made("look", "add", "a1", "--look", is_told=False)
    place.made("bolt", "add", "b1", is_told=False)
    place.made("office", "add", "@manager", "--look", is_told=False)
    place.nginx()


def test_tool_words(place):
    """what `token` takes and refuses, and its files"""
    old = os.umask(0)
    try:
        (place.folder / "wrong").write_text("abd", encoding="ascii")
        told = place.token("seat", "a1", "--known", "wrong", "--site", place.site, is_told=False)
        expect("another token than the site's", (told[0], place.file.exists()), (1, False))
        seats(place)
        status, out, _ = place.token("add", "a1", "--to", "a1.token", is_told=False)
        kept = place.folder / "a1.token"
        expect("to a file", (status, out, bool(re.fullmatch(FORM + "\n", kept.read_text()))), (0, "", True))
        files = [place.file, Path(f"{place.file}.lock"), kept]
        expect("modes", [stat.S_IMODE(path.stat().st_mode) for path in files], [0o600] * 3)
    finally:
        os.umask(old)
    refused_words(place)
    expect("what was there stays", re.fullmatch(FORM + "\n", kept.read_text()) is not None, True)
    shown = place.token("list", is_told=False)[1] + place.token("list", "--all", is_told=False)[1]
    expect(
        "a list shows no token", [it for it in [kept.read_text().strip(), *INNER.values()] if f" {it}" in shown], []
    )
    expect(
        "and shows its mark",
        place.token("add", "a1", is_told=False)[2].split(" ")[-1].strip() in place.token("list", is_told=False)[1],
        True,
    )
    status, out, _ = place.token("inner", "a1", "--to", "inner", is_told=False)
    own = place.folder / "inner"
    expect(
        "the inner one for a restore",
        (status, out, own.read_text(), oct(own.stat().st_mode)),
        (0, "", "abc\n", "0o100600"),
    )
    expect("never without a file", place.token("inner", "a1", is_told=False)[0], 2)
    expect("as the site has it", place.token("check", "--site", place.site, is_told=False)[0], 0)


def refused_words(place):
    """What is refused, after which the file is as it was."""
    before = place.file.read_bytes()
    day = time.strftime("%Y-%m-%d", time.gmtime(time.time() - 86400))
    for words, wanted in [
        (["add", "a1", "--to", "a1.token"], 1),
        (["add", "a9"], 1),
        (["add", "a1", "--until", day], 1),
        (["add", "a1", "--until", "2027-02-30"], 1),
        (["add", "a1", "--until", "tomorrow"], 1),
        (["add", "a1", "--certificate", 'CN="\\E'], 1),
        (["add", "a1", "--holder", "two\nlines"], 1),
        (["revoke", "a1:9"], 1),
        (["rotate", "a1", "--grace", "soon"], 1),
        (["seat", "a1", "--known", "a1.token", "--site", place.site], 1),
        (["seat", "x y", "--customer", "acme"], 1),
        (["seat", "a2"], 1),
        (["seat", "a2", "--customer", "acme", "--server", "192.0.2.1:80"], 1),
        (["forget", "a1"], 2),
        (["add"], 2),
        ([], 2),
    ]:
        done = place.token(*words, is_told=False)
        expect(f"refused: {' '.join(words[:3])!r}", (done[0], place.file.read_bytes() == before), (wanted, True))


def test_tool_files(place):
    """a file that others changed or can read, a lock, links, many runs at once"""
    seats(place)
    with ThreadPoolExecutor(8) as pool:
        done = list(pool.map(lambda _: place.token("add", "a1", is_told=False), range(8)))
    made = {out.strip() for _, out, _ in done}
    has = re.findall(f'"({FORM})" ', place.file.read_text())
    expect("eight runs at once", ([it[0] for it in done], len(made), made == set(has)), ([0] * 8, 8, True))
    lock = open(f"{place.file}.lock", "w")
    fcntl.flock(lock, fcntl.LOCK_EX)
    before = place.file.read_bytes()
    expect("a lock that another has", place.token("--wait", "0.2", "add", "a1", is_told=False)[0], 3)
    lock.close()
    new = Path(f"{place.file}.new")
    goal = place.folder / "goal"
    goal.write_text("kept", encoding="ascii")
    new.symlink_to(goal)
    expect(
        "a link in the new file's place", (place.token("write", is_told=False)[0], goal.read_text()), (0, "kept")
    )
    expect("the same bytes anew", place.file.read_bytes(), before)
    text = place.file.read_text()
    place.file.write_text(text.replace(' "1";', ' "";', 1))
    expect("changed by hand", place.token("add", "a1", is_told=False)[0], 1)
    expect("and written anew", (place.token("write", is_told=False)[0], place.file.read_text() == text), (0, True))
    place.file.chmod(0o644)
    expect("others may read it", place.token("list", is_told=False)[0], 1)
    place.file.chmod(0o600)
    (place.folder / "etc").chmod(0o777)
    expect("others may write its folder", place.token("list", is_told=False)[0], 1)
    (place.folder / "etc").chmod(0o755)
    place.file.rename(f"{place.file}.moved")
    place.file.symlink_to(f"{place.file}.moved")
    expect("a link in its place", place.token("list", is_told=False)[0], 1)


def test_tool_sites(place):
    """a new seat's lines, in the site file and by themselves"""
    seats(place)
    new = place.folder / "new.toml"
    new.write_bytes(place.site.read_bytes())
    status, out, _ = place.token("seat", "a2", "--customer", "acme", "--into", new, is_told=False)
    inner = re.search(r'"seat":"a2","customer":"acme","inner":"([0-9a-f]{64})"', place.file.read_text())[1]
    digest = ran(["sha256sum"], place.folder, input=inner).stdout[:64]
    wanted = tomllib.loads(place.site.read_text())
    wanted["customer"][0]["seat"].append({"name": "a2", "token": digest})
    expect("a seat more", (status, out, tomllib.loads(new.read_text()) == wanted), (0, "", True))
    made = ran([place.program, "replay", "--site", place.site, "--db", "grown.db"], place.folder, input="")
    grew = ran([place.program, "replay", "--site", new, "--db", "grown.db", "--existing"], place.folder, input="")
    expect("the program takes it for a growth", (made.returncode, grew.returncode, grew.stderr), (0, 0, ""))
    expect("as the new text has it", place.token("check", "--site", new, is_told=False)[0], 0)
    expect("and not the old one", place.token("check", "--site", place.site, is_told=False)[0], 1)
    lines = f'[[customer.seat]]\nname = "a2"\ntoken = "{digest}"\n'
    expect("its lines again", place.token("seat", "a2", is_told=False)[:2], (0, lines))
    (place.folder / "known").write_text("abc", encoding="ascii")
    other = place.token("seat", "@part2", "--known", "known", "--site", place.site, is_told=False)[0]
    (place.folder / "known").write_text("test", encoding="ascii")
    words = ["seat", "@part2", "--known", "known", "--site", place.site, "--server", "127.0.0.1:882"]
    expect("another site's manager", (other, place.token(*words, is_told=False)[0]), (1, 0))
    status = place.token("seat", "a2", "--server", "127.0.0.1:881", is_told=False)[0]
    expect("another server", (status, '"server":"127.0.0.1:881"' in place.file.read_text()), (0, True))
    odd = place.folder / "odd.toml"
    odd.write_text('note = """\n[[customer]]\nname = "acme"\n"""\n' + new.read_text(), encoding="utf-8")
    before = tomllib.loads(odd.read_text())
    place.token("seat", "a4", "--customer", "acme", "--into", odd, is_told=False)
    after = tomllib.loads(odd.read_text())
    expect("a text that looks like a customer", after["customer"][0]["seat"].pop()["name"], "a4")
    expect("all else of it", after, before)
    before = place.file.read_bytes()
    for name, customer in [("a3", "nobody"), ("b1x", "bo.t")]:
        status = place.token("seat", name, "--customer", customer, "--into", new, is_told=False)[0]
        expect(f"no customer {customer}", (status, place.file.read_bytes() == before), (1, True))


def test_who_may(place):
    """each kind of caller, by each method, over HTTP/1.1 and HTTP/2"""
    working(place)
    body = '{"nr":1,"name":"o1","issuer":"acme-ca","prefix":"A","width":3,"first":998,"quantity":2,"macs":0}'
    order = '{"first":998,"issuer":"acme-ca","mac":null,"macs":0,"name":"o1","next":"A998","not_before":null,'
    order += '"prefix":"A","quantity":2,"width":3}'
    expect("an order", told(place.ask(by(place.outer["work"]), "/v1/order", body)), (200, order))
    gone = place.made("gone", "add", "a1")
    place.token("revoke", gone)
    time.sleep(0.5)
    for version in ("--http1.1", "--http2"):
        for name, wanted in [
            ("work", (200, order)),
            ("look", (200, order)),
            ("bolt", (404, refusal("unknown_order", 14))),
        ]:
            expect(
                f"{version} {name}: GET",
                told(place.ask(by(place.outer[name]), "/v1/order?name=o1", more=[version])),
                wanted,
            )
        for method in ("POST", "PUT", "DELETE", "PATCH", "OPTIONS", "PROPFIND"):
            reply = place.ask(by(place.outer["look"]), "/v1/order", body, [version, "-X", method])
            expect(f"{version} look: {method}", told(reply), MAY_LOOK)
        head = place.ask(by(place.outer["look"]), ORDER, more=[version, "-I"])
        expect(f"{version} look: HEAD", (head[0], head[2].strip()), (404, ""))
        report = place.ask(by(place.outer["office"]), "/v1/site/report", more=[version])
        expect(f"{version} the office", (report[0], report[1]["content-type"]), (200, "text/csv"))
        who_may_not(place, version, body)


def who_may_not(place, version, body):
    """Strangers, by both methods."""
    asked = len(place.recorder.heads)
    for name, shown in strangers(place).items():
        for more in ([], ["-d", body]):
            # nginx.conf lets strangers ask 20 times a second.
            time.sleep(1 / 20)
            status, fields, text = place.ask(shown, "/v1/order?name=o1", more=[version, *more])
            got = (
                status,
                text,
                fields.get("www-authenticate"),
                fields.get("content-type"),
                fields.get("content-length"),
            )
            expect(
                f"{version} {name}: {'POST' if more else 'GET'}",
                got,
                (*STRANGER, "bearer", "application/json", "32"),
            )
    expect("strangers' requests that came through", place.recorder.heads[asked:], [])


def strangers(place):
    work = place.outer["work"]
    return {
        "no token": None,
        "an unknown one": by("wanekupo_" + "0" * 64),
        "a revoked one": by(place.outer["gone"]),
        "the inner one": by("abc"),
        "the manager's inner one": by("test"),
        "in capitals": by(work.upper()),
        "its digits in capitals": by("wanekupo_" + work[9:].upper()),
        "what stands before them in capitals": by("WANEKUPO_" + work[9:]),
        "with a letter more": by(work + "0"),
        "with a letter less": by(work[:-1]),
        "Basic": "Basic YTE6YWJj",
        "without Bearer": work,
        "the name of one": by("a1:1"),
        "nothing behind Bearer": "Bearer",
    }


def test_forms(place):
    """the inner and a revoked token in other forms, raw; one that is good in two"""
    working(place)
    gone = place.made("gone", "add", "a1")
    place.token("revoke", gone)
    time.sleep(0.5)
    good = place.outer["work"].encode()
    asked = len(place.recorder.heads)
    for token in (b"abc", place.outer["gone"].encode()):
        for name, request in raw_forms(token).items():
            got = place.raw(request)
            statuses = re.findall(rb"HTTP/1\.[01] (\d+)", got)
            expect(f"{token[:12].decode()} {name}", [it for it in statuses if it not in (b"400", b"401")], [])
    expect("of these came through", place.recorder.heads[asked:], [])
    for name, scheme in [("small letters", b"bearer "), ("capitals", b"BEARER "), ("two spaces", b"Bearer  ")]:
        got = place.raw(b"GET /v1/order?name=none HTTP/1.1\r\nHost: h\r\nAuthorization: " + scheme + good + b"\r\n\r\n")
        expect(f"{name}, as docs/integrate/api.md has it", got[9:12], b"404")
    look = place.outer["look"].encode()
    with place.connection() as connection:
        statuses = []
        for method, token in [(b"GET", good), (b"GET", b"abc"), (b"POST", look), (b"GET", good), (b"GET", look)]:
            connection.sendall(method + b" /v1/order?name=none HTTP/1.1\r\nHost: h\r\nContent-Length: 0\r\n")
            connection.sendall(b"Authorization: Bearer " + token + b"\r\n\r\n")
            statuses.append(connection.recv(65536)[9:12])
    expect("over one connection that is kept", statuses, [b"404", b"401", b"403", b"404", b"404"])
    first = b"GET /v1/order?name=none HTTP/1.1\r\nHost: h\r\nAuthorization: Bearer "
    got = place.raw(first + good + b"\r\n\r\n" + first + b"abc\r\n\r\n")
    expect("the inner one behind a good one", re.findall(rb"HTTP/1.1 (\d+)", got), [b"404", b"401"])


def raw_forms(token):
    """Requests with a token, in the forms of the security review."""
    line, end = b"GET /v1/order?name=none HTTP/1.1\r\nHost: h\r\n", b"\r\n\r\n"
    field = b"Authorization: Bearer " + token
    chunk = b"POST /v1/order HTTP/1.1\r\nHost: h\r\nTransfer-Encoding: chunked\r\n"
    return {
        "as it is": line + field + end,
        "small letters": line + field.lower() + end,
        "many spaces": line + b"Authorization:     Bearer     " + token + end,
        "a tab": line + b"Authorization: Bearer\t" + token + end,
        "spaces behind": line + field + b"   " + end,
        "twice": line + field + b"\r\n" + field + end,
        "twice, the first another's": line + b"Authorization: Bearer x\r\n" + field + end,
        "folded": line + b"Authorization: Bearer\r\n " + token + end,
        "a line feed alone": line.replace(b"\r\n", b"\n") + field + b"\n\n",
        "a carriage return alone": line + b"X: y\r" + field + end,
        "a zero byte": line + b"Authorization: Bearer \0" + token + end,
        "absolute form": line.replace(b"/v1", b"https://h/v1") + field + end,
        "HTTP/1.0": line.replace(b"1.1", b"1.0") + field + end,
        "a space before the colon": line + field.replace(b":", b" :") + end,
        "a list": line + b"Authorization: Bearer x, Bearer " + token + end,
        "in a trailer": chunk + b"Trailer: Authorization\r\n\r\n0\r\n" + field + end,
        "in a body": b"POST /v1/order HTTP/1.1\r\nHost: h\r\nContent-Length: %d\r\n\r\n" % len(line + field + end)
        + line
        + field
        + end,
        "in the query": line.replace(b"none", b"none&access_token=" + token) + b"\r\n",
        "another field": line + b"Proxy-Authorization: Bearer " + token + b"\r\nX-Authorization: Bearer " + token + end,
        "a cookie": line + b"Cookie: Authorization=Bearer " + token + end,
    }


def test_days(place):
    """a token ends with its day by nginx's own clock, and after a grace"""
    seats(place)
    here = time.time() % 86400
    shift = int(here - (86400 - 15))  # midnight is fifteen seconds away
    sign, rest = ("-" if shift < 0 else ""), abs(shift)
    zone = f"XXX{sign}{rest // 3600}:{rest // 60 % 60:02}:{rest % 60:02}"
    today = ran(["date", "+%Y-%m-%d"], env={**os.environ, "TZ": zone}).stdout.strip()
    place.made("tonight", "add", "a1", "--until", today, is_told=False, zone=zone)
    place.made("always", "add", "a1", is_told=False, zone=zone)
    port = place.nginx("midnight.conf", zone)
    names = ("tonight", "always")
    expect("before midnight", [place.ask(by(place.outer[it]), ORDER, port=port)[0] for it in names], [404, 404])
    expect("the list", " past" in place.token("list", is_told=False, zone=zone)[1], False)
    asked = len(place.recorder.heads)
    time.sleep(max(0, 16 - (time.time() % 86400 - here)))
    expect(
        "after midnight, nothing reloaded", told(place.ask(by(place.outer["tonight"]), ORDER, port=port)), STRANGER
    )
    expect("it didn't come through", len(place.recorder.heads) - asked, 0)
    expect("another goes on", told(place.ask(by(place.outer["always"]), ORDER, port=port)), NO_ORDER)
    expect("the list says so", f"{today} past" in place.token("list", is_told=False, zone=zone)[1], True)
    expect(
        "after a reload",
        (place.reload("midnight.conf"), place.ask(by(place.outer["tonight"]), ORDER, port=port)[0]),
        (0, 401),
    )


def test_changes(place):
    """revoked and rotated under a running nginx"""
    working(place)
    second = place.made("second", "add", "a1")
    wait = lambda name: until(lambda: place.ask(by(place.outer[name]), ORDER)[0] == 401)
    expect("added", until(lambda: place.ask(by(place.outer["second"]), ORDER)[0] == 404), True)
    opened = [place.connection() for _ in range(2)]
    place.token("revoke", second)
    begin = time.monotonic()
    expect("revoked", wait("second"), True)
    place.made("third", "rotate", "b1")
    expect("rotated at once", (wait("bolt"), told(place.ask(by(place.outer["third"]), ORDER))), (True, NO_ORDER))
    place.made("fourth", "rotate", "b1", "--grace", "8h")
    time.sleep(0.5)
    got = [place.ask(by(place.outer[it]), ORDER)[0] for it in ("third", "fourth")]
    expect("rotated with a grace", got, [404, 404])
    expect("rotated twice", place.token("rotate", "b1:2")[0], 1)
    expect("which of two", place.token("rotate", "a1")[0], 1)
    time.sleep(max(0, 6 - (time.monotonic() - begin)))
    asked = len(place.recorder.heads)
    expect(
        "a connection of before, after six seconds", [late(it, place.outer["second"]) for it in opened], [b""] * 2
    )
    expect("came through", len(place.recorder.heads) - asked, 0)
    place.token("revoke", "a1")
    expect("all of a seat", [wait(it) for it in ("work", "look")], [True, True])


def test_refusals(place):
    """what nginx refuses, and what it isn't told"""
    working(place)
    before = place.file.read_bytes()
    conf = place.folder / "nginx.conf"
    text = conf.read_text()
    conf.write_text(text + "broken;\n")
    status, out, _ = place.token("revoke", "a1")
    expect("nginx refuses its file", (status, out, place.file.read_bytes() == before), (4, "", True))
    status = place.token("add", "a1", "--to", "never")[0]
    expect("no token is left over", (status, (place.folder / "never").exists()), (4, False))
    conf.write_text(text)
    place.file.write_bytes(before[: len(before) // 2])
    place.reload()
    expect("a broken include: the old one goes on", told(place.ask(by(place.outer["work"]), ORDER)), NO_ORDER)
    place.file.write_bytes(before)
    done = ran([*place.words(is_told=False)[:3], "--test", "true", "--reload", "false", "add", "a1"])
    expect(
        "nginx isn't told", (done.returncode, len(done.stdout), place.file.read_bytes() == before), (5, 74, False)
    )
    keyed = conf.read_text().replace("$of_caller   zone=asked", "$caller_name zone=asked")
    expect("a zone with another key", keyed == text, False)
    conf.write_text(keyed)
    status, _, said = place.token("revoke", "b1")
    got = status, "started no worker" in said, told(place.ask(by(place.outer["bolt"]), ORDER))
    expect("nginx says yes, and doesn't take it", got, (5, True, NO_ORDER))
    why = "while previously it used" in (place.folder / "log/nginx.conf-error.log").read_text()
    expect("its error log has why", why, True)


def late(connection, token):
    """What a request over a connection gets that was opened before, and said nothing since."""
    with connection:
        try:
            connection.sendall(f"GET {ORDER} HTTP/1.1\r\nHost: h\r\nAuthorization: Bearer {token}\r\n\r\n".encode())
            return connection.recv(65536)
        except OSError:
            return b""


def until(is_so, seconds=3):
    end = time.monotonic() + seconds
    while not is_so():
        if time.monotonic() > end:
            return False
        time.sleep(0.05)
    return True


def test_reloads(place):
    """requests while the file is written anew"""
    working(place)
    with ThreadPoolExecutor(2) as pool:
        held = pool.submit(place.ask, by(place.outer["work"]), "/v1/order?name=hold")
        until(lambda: any(b"hold" in head for head in place.recorder.heads))
        client = pool.submit(client_of, place, ASKING, 10)
        place.made("more", "add", "b1")
        place.recorder.gate.set()  # within the five seconds that nginx gives a worker of before
        expect("under way", told(held.result()), NO_ORDER)
        for _ in range(3):
            place.made("more", "add", "b1")
            time.sleep(0.4)
        expect("a station's, ten a second", client.result(), "ok")


def client_of(place, asked, least, patience=0):
    """Requests of python as the seat b1, for two seconds: ok where there were as many, or what went wrong. It
    asks once more where a kept connection was closed, and without patience for no 503."""
    url, state = f"https://localhost:{place.port}", f"{place.folder}/b1.json"
    done = by_python(f"""
import ssl, time
from wanekupo.seat.station import Station
context = ssl.create_default_context(cafile="{place.folder}/etc/cert.pem")
station = Station({url!r}, {place.outer["bolt"]!r}, {state!r}, {patience}, context=context)
end, count, least = time.time() + 2, 0, {least}
{asked}
print("ok" if count >= least else count)
""")
    return done.stdout.strip() or done.stderr.strip().split("\n")[-1]


def by_python(text):
    """A text of Python that takes this project's modules, run by the Python that a plant has."""
    return ran(["/usr/bin/python3", "-Bc", text], ROOT / "python")
