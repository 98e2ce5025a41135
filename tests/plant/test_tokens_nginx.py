"""nginx by deploy/nginx.conf over the built program: certificates, shares, rates, health, TLS and its port."""

import re
import shutil
import socket
import struct
import time
from concurrent.futures import ThreadPoolExecutor

import pytest

from common.deployed import CERTIFICATES, CONF, INNER, expect, ran, refusal, rules_in
from common.ports import HOST
from plant.pace import asked_at, goes_on
from plant.test_tokens import (
    LATER, NO_ORDER, ORDER, STRANGER, by, by_python, client_of, seats, told, until, working,
)  # fmt: skip

pytestmark = [pytest.mark.root, pytest.mark.nginx]


def test_certificates(place):
    """stations by certificate: good, revoked, of another authority, and a list that has ended"""
    ours, made = with_certificates(place)

    def ask(name, *more, token="Bearer certificate"):
        return told(place.ask(token, ORDER, more=[*made.get(name, []), *more]))

    for version in ("--http1.1", "--http2"):
        expect(f"{version} good", [ask(it, version) for it in ("pc1", "pc2", "looks")], [NO_ORDER] * 3)
        expect(f"{version} one that looks", ask("looks", version, "-d", "{}"), (403, refusal("wrong_caller", 8)))
        asked = len(place.recorder.heads)
        for name, token in [
            ("foreign", "certificate"),
            ("nobody", "certificate"),
            (None, "certificate"),
            ("pc1", "abc"),
        ]:
            expect(f"{version} {name}: {token}", ask(name, version, token=by(token)), STRANGER)
        expect(f"{version} without the word", ask("pc1", version, token=None), STRANGER)
        expect(f"{version} came through", place.recorder.heads[asked:], [])
    expect("a token without a certificate", ask(None, token=by(place.outer["work"])), NO_ORDER)
    expect("python", client_by_certificate(place, made["pc1"]), NO_ORDER[0])
    inner = [re.search(rb"Bearer (\S*)", head)[1].decode() for head in place.recorder.heads]
    expect("each is its own seat's", inner[:3], [INNER[it] for it in ("a1", "b1", "a1")])
    ran(["openssl", "ca", "-config", "ca.cnf", "-revoke", "pc1.pem"], ours)
    place.revocations(ours)
    expect("revoked: before nginx is told", ask("pc1"), NO_ORDER)
    place.reload()
    asked = len(place.recorder.heads)
    expect("revoked", (ask("pc1"), ask("pc1", token=by(place.outer["work"]))), (STRANGER, STRANGER))
    expect("came through", place.recorder.heads[asked:], [])
    expect("another goes on", ask("pc2"), NO_ORDER)
    place.revocations(ours, "-crlsec", "1")
    time.sleep(2)
    place.reload()
    expect("a list that has ended: none by certificate", [ask(it) for it in ("pc2", "looks")], [STRANGER] * 2)
    expect("tokens go on", ask(None, token=by(place.outer["work"])), NO_ORDER)


def client_by_certificate(place, words):
    """The status that python is refused with by its certificate, as the page has it."""
    done = by_python(f"""
import ssl
from wanekupo.common.errors import Refused
from wanekupo.seat.station import Station
context = ssl.create_default_context(cafile="{place.folder}/etc/cert.pem")
context.load_cert_chain({words[1]!r}, {words[3]!r})
try:
    station = Station("https://localhost:{place.port}", "certificate", "{place.folder}/pc1.json", 0, context=context)
    station.get("/v1/order", name="none")
except Refused as refused:
    print(refused.status)
""")
    return int(done.stdout) if done.stdout else done.stderr


def with_certificates(place):
    """nginx that takes certificates, our CA's folder, and curl's words for each certificate."""
    seats(place)
    ours, others = place.ca("ours"), place.ca("others")
    made = {name: place.certificate(ours, name, f"/O=Plant/CN={name}") for name in ("pc1", "pc2", "looks", "nobody")}
    made["foreign"] = place.certificate(others, "pc1", "/O=Plant/CN=pc1")
    shutil.copy(ours / "ca.pem", place.folder / "etc/clients-ca.pem")
    place.revocations(ours)
    text = CERTIFICATES.read_text(encoding="utf-8").replace("/etc/station/", f"{place.folder}/etc/")
    (place.folder / "etc/certificates.conf").write_text(text, encoding="utf-8")
    subject = (
        ran(["openssl", "x509", "-in", ours / "pc1.pem", "-noout", "-subject", "-nameopt", "RFC2253"])
        .stdout[8:]
        .strip()
    )
    expect("a subject", subject, "CN=pc1,O=Plant")
    for words in (["a1", "--certificate", subject], ["b1", "--certificate", "CN=pc2,O=Plant"],
                  ["a1", "--look", "--certificate", "CN=looks,O=Plant"]):  # fmt: skip
        expect(f"{words[-1]} {words[0]}", place.token("add", *words, is_told=False)[:2], (0, ""))
    expect("a certificate has one seat", place.token("add", "b1", "--certificate", subject, is_told=False)[0], 1)
    place.made("work", "add", "a1", is_told=False)
    place.nginx()
    return ours, made


def test_shares(place):
    """two requests of a caller at a time, and its rates"""
    working(place)
    held = "/v1/order?name=hold"
    with ThreadPoolExecutor(8) as pool:
        two = [pool.submit(place.ask, by(place.outer["work"]), held) for _ in range(2)]
        until(lambda: len(place.recorder.heads) == 2)
        expect("a third one", told(place.ask(by(place.outer["work"]), ORDER)), LATER)
        patient = pool.submit(
            client_of, place, "count = len([station.get('/v1/devices', after='') for _ in range(20)])", 20, 5
        )
        expect(
            "another caller", [told(place.ask(by(place.outer[it]), ORDER)) for it in ("bolt", "look")], [NO_ORDER] * 2
        )
        place.recorder.gate.set()
        expect("the two", [told(it.result()) for it in two], [NO_ORDER] * 2)
        expect("a station at work", patient.result(), "ok")
    place.recorder.gate.clear()
    expect("and then", told(place.ask(by(place.outer["work"]), ORDER)), NO_ORDER)
    streams(place, held)
    hung_up(place, held)
    # Thirty at once are more than a rate lets by.
    expect("ten a second, behind thirty at once, meet no rate", goes_on(*asked_at(place, first=30)), "ok")
    got = [place.ask(by(place.outer["work"]), "/v1/report") for _ in range(9)]
    expect(
        "nine reports",
        ({told(it) for it in got if it[0] != 200}, 9 > sum(it[0] == 200 for it in got) > 0),
        ({LATER}, True),
    )
    expect("another customer's", place.ask(by(place.outer["bolt"]), "/v1/report")[0], 200)
    start = time.monotonic()
    got = {place.ask(by(place.outer["work"]), "/v1/import", "{}")[0] for _ in range(22)}
    expect("imports wait for their turn", (got, time.monotonic() - start > 4), ({400}, True))
    start = time.monotonic()
    got = {place.ask(by(place.outer["work"]), "/v1/ledger?chip=000000000001")[0] for _ in range(8)}
    expect("ledgers wait for theirs", (got, time.monotonic() - start > 0.8), ({404}, True))
    waiting_client(place, held)


def test_customers(place):
    """what all callers of a customer have together"""
    seats(place)
    share = int(re.search(r"limit_conn customers (\d+);", CONF.read_text(encoding="utf-8"))[1])
    names = [f"caller {number}" for number in range(share // 2 + 1)]
    for name in names:
        place.made(name, "add", "a1", is_told=False)
    place.made("bolt", "add", "b1", is_told=False)
    place.nginx()
    with ThreadPoolExecutor(2 * len(names)) as pool:
        held = [pool.submit(place.ask, by(place.outer[name]), "/v1/order?name=hold") for name in 2 * names]
        until(lambda: len(place.recorder.heads) == share)
        time.sleep(0.5)
        expect(f"{2 * len(names)} at a time of a share of {share}: at the server", len(place.recorder.heads), share)
        expect("another customer's", told(place.ask(by(place.outer["bolt"]), ORDER)), NO_ORDER)
        place.recorder.gate.set()
        expect(
            "replies",
            sorted(told(it.result()) for it in held),
            sorted([NO_ORDER] * share + [LATER] * (2 * len(names) - share)),
        )
        place.recorder.gate.clear()
        report = pool.submit(place.ask, by(place.outer[names[0]]), "/v1/report?hold")
        until(lambda: b"report" in place.recorder.heads[-1])
        expect("a second report at a time", told(place.ask(by(place.outer[names[1]]), "/v1/report")), LATER)
        expect("another customer's", place.ask(by(place.outer["bolt"]), "/v1/report")[0], 200)
        place.recorder.gate.set()
        expect("the first", report.result()[0], 200)


def streams(place, held):
    """HTTP/2: each stream is one of the two."""
    urls = [f"https://localhost:{place.port}{held}{number}" for number in range(6)]
    words = ["curl", "-sS", "--cacert", "etc/cert.pem", "--parallel", "--http2", "-m", "20"]
    words += ["-H", f"Authorization: {by(place.outer['work'])}", "-w", "\n%{http_code} %{http_version}\n", *urls]
    asked = len(place.recorder.heads)
    with ThreadPoolExecutor(1) as pool:
        six = pool.submit(ran, words, place.folder)
        until(lambda: len(place.recorder.heads) == asked + 2)
        time.sleep(0.3)
        expect("six streams: at the server", len(place.recorder.heads) - asked, 2)
        place.recorder.gate.set()
        got = sorted(re.findall(r"\d\d\d 2$", six.result().stdout, re.MULTILINE))
        expect("six streams: replies", got, ["404 2"] * 2 + ["503 2"] * 4)
    place.recorder.gate.clear()


def hung_up(place, held):
    """Who hangs up keeps its place until the server has replied."""
    asked = len(place.recorder.heads)
    for _ in range(2):
        place.ask(by(place.outer["work"]), held, more=["-m", "0.3"])
    expect("two that were hung up", len(place.recorder.heads) - asked, 2)
    expect("a third one", told(place.ask(by(place.outer["work"]), ORDER)), LATER)
    place.recorder.gate.set()
    free = until(lambda: told(place.ask(by(place.outer["work"]), ORDER)) == NO_ORDER)
    expect("once they are answered", free, True)
    place.recorder.gate.clear()


def waiting_client(place, held):
    """A client that is patient waits at a 503, and asks again."""
    with ThreadPoolExecutor(3) as pool:
        two = [pool.submit(place.ask, by(place.outer["bolt"]), held) for _ in range(2)]
        time.sleep(0.3)
        client = pool.submit(client_of, place, "station.get('/v1/devices', after=''); count = 1", 1, 10)
        time.sleep(0.7)
        expect("a client that waits", client.done(), False)
        place.recorder.gate.set()
        expect("and is answered", (client.result(), [it.result()[0] for it in two]), ("ok", [404] * 2))
    place.recorder.gate.clear()


def test_strangers(place):
    """a rate by address for what has no token; a station at the same address goes on, as one without strangers does"""
    working(place)
    urls = "".join(f'url = "https://localhost:{place.port}/v1/report"\n' for _ in range(300))
    (place.folder / "urls").write_text(urls, encoding="ascii")
    words = ["curl", "-sS", "--cacert", "etc/cert.pem", "-K", "urls", "-w", "\n%{http_code}\n"]
    with ThreadPoolExecutor(1) as pool:
        both, said = pool.submit(asked_at, place), ""
        while not both.done():
            said += ran(words, place.folder).stdout
        got = re.findall(r"^(.*)\n(\d\d\d)$", said, re.MULTILINE)
        expect("300 strangers at a time", {(int(status), text) for text, status in got}, {STRANGER, LATER})
        expect("a station", goes_on(*both.result()), "ok")
    heads = [head for head in place.recorder.heads if b"/v1/report" in head]
    expect("of these came through", heads, [])
    log = (place.folder / "log/nginx.conf").read_text()
    expect(
        "the log has those below their rate",
        ("PASSED" in log, "REJECTED" in log, "wanekupo_" in log),
        (True, False, False),
    )
    expect("and who asked", " b1:1 200 PASSED PASSED" in log, True)
    expect("nothing else is told", (place.folder / "log/nginx.conf-error.log").read_text(), "")


def at_once(place, count, target, *words):
    """The statuses of many requests at a time, each once."""
    urls = f'url = "https://localhost:{place.port}{target}"\noutput = "/dev/null"\n' * count
    (place.folder / "urls").write_text(urls, encoding="ascii")
    words = ["curl", "-sS", "-Z", "--cacert", "etc/cert.pem", "-K", "urls", *words, "-w", "%{http_code}\n"]
    return {int(it) for it in ran(words, place.folder).stdout.split()}


def test_rates(place):
    """what is refused has a rate too: a POST of a token that looks, and /health for who may not ask"""
    working(place)
    token = ["-H", f"Authorization: {by(place.outer['look'])}", "-d", "{}"]
    expect("one POST of a token that looks", at_once(place, 1, "/v1/order", *token), {403})
    expect("100 of them", at_once(place, 100, "/v1/order", *token), {403, 503})
    other = ["--interface", "127.0.0.9"]
    expect("one look at /health by another address", at_once(place, 1, "/health", *other), {401})
    expect("300 of them", at_once(place, 300, "/health", *other), {401, 503})
    expect("300 by this machine", at_once(place, 300, "/health"), {200})
    expect("of these came through", len(place.recorder.heads) <= 2, True)


# Requests that nginx itself refuses, behind their first line's method, and what docs/integrate/api.md calls that.
FIELDS = "Host: h\r\nAuthorization: Bearer TOKEN\r\n"
ODD = [
    ("no HTTP", "\0\1\2 \r\n\r\n", 400, "bad_head", 1),
    ("a word", "GET\r\n\r\n", 400, "bad_head", 1),
    ("no name of a host", "GET / HTTP/1.1\r\nAuthorization: Bearer TOKEN\r\n\r\n", 400, "bad_head", 1),
    ("two tokens", f"GET / HTTP/1.1\r\n{FIELDS}Authorization: Bearer x\r\n\r\n", 400, "bad_head", 1),
    ("a field of 9,000 bytes", f"GET / HTTP/1.1\r\n{FIELDS}X: {'x' * 9000}\r\n\r\n", 400, "bad_head", 1),
    ("a target of 9,000 bytes", f"GET /{'x' * 9000} HTTP/1.1\r\n{FIELDS}\r\n", 400, "bad_head", 1),
    ("HTTP/3.0", f"GET / HTTP/3.0\r\n{FIELDS}\r\n", 400, "bad_head", 1),
    ("two lengths", f"POST / HTTP/1.1\r\n{FIELDS}Content-Length: 1\r\nContent-Length: 1\r\n\r\nx", 400, "bad_head", 1),
    ("65,537 bytes", f"POST / HTTP/1.1\r\n{FIELDS}Content-Length: 65537\r\n\r\nx", 413, "too_large", 3),
    ("65,537 of a stranger", "POST / HTTP/1.1\r\nHost: h\r\nContent-Length: 65537\r\n\r\nx", 413, "too_large", 3),
    ("gzip", f"POST / HTTP/1.1\r\n{FIELDS}Transfer-Encoding: gzip\r\n\r\nx", 501, "chunked", 4),
    ("TRACE", f"TRACE / HTTP/1.1\r\n{FIELDS}\r\n", 404, "unknown_path", 7),
]


def test_odd(place):
    """what nginx itself refuses has the server's form"""
    working(place)
    for what, text, status, name, no in ODD:
        head, _, body = place.raw(text.replace("TOKEN", place.outer["work"]).encode()).partition(b"\r\n\r\n")
        got = (int(head.split(b" ")[1]), body.decode(), b"\r\nContent-Type: application/json\r\n" in head)
        expect(what, got, (status, refusal(name, no), True))
    large = place.ask(by(place.outer["work"]), "/v1/import", "x" * 65537, ["--http2"])
    expect("65,537 bytes over HTTP/2", told(large), (413, refusal("too_large", 3)))
    expect("came through", place.recorder.heads, [])
    chunked = ["-H", "Transfer-Encoding: chunked", "--http1.1"]
    expect("in pieces: made whole", place.ask(by(place.outer["work"]), "/v1/ship", "{}", chunked)[0], 400)
    expect("came through", [b"\r\nContent-Length: 2" in head for head in place.recorder.heads], [True])


def test_health(place):
    """up or down, for named addresses alone, and no flood of it reaches the server"""
    working(place)
    expect("up", told(place.ask(None, "/health")), (200, "up\n"))
    asked = len(place.recorder.heads)
    with ThreadPoolExecutor(8) as pool:
        got = set(pool.map(lambda _: told(place.ask(None, "/health")), range(200)))
    expect("200 times", got, {(200, "up\n")})
    expect("at most one in two seconds came through", len(place.recorder.heads) - asked <= 2, True)
    expect("no token goes with it", [head for head in place.recorder.heads if b"Authorization" in head], [])
    for name, more in [("another address", ["--interface", "127.0.0.9"]), ("POST", ["-d", "x"])]:
        expect(name, told(place.ask(None, "/health", more=more)), STRANGER)
    time.sleep(3.1)  # nginx's clock has whole seconds
    place.recorder.said = b"HTTP/1.1 503 Service Unavailable\r\nContent-Length: 0\r\n\r\n"
    expect("its store failed", told(place.ask(None, "/health")), (503, "down\n"))
    time.sleep(3.1)
    place.recorder.said = b""
    expect("no reply", told(place.ask(None, "/health")), (504, "down\n"))
    place.recorder.close()
    time.sleep(3.1)  # nginx's clock has whole seconds
    expect("away", told(place.ask(None, "/health")), (502, "down\n"))


def test_health_seat(place):
    """with a seat `health` it asks the store too"""
    site = place.site.read_text(encoding="utf-8").replace('name = "b1"', 'name = "health"')
    place.site.write_text(site, encoding="utf-8")
    (place.folder / "known").write_text("hello", encoding="ascii")
    status = place.token("seat", "health", "--known", "known", "--site", place.site, is_told=False)[0]
    place.nginx()
    expect("up", (status, told(place.ask(None, "/health"))), (0, (200, "up\n")))
    expect("it asks with its own token", b"Bearer hello" in place.recorder.heads[-1], True)
    time.sleep(3.1)  # nginx's clock has whole seconds
    expect("a query", told(place.ask(None, "/health?x&name=y")), (200, "up\n"))
    expect("none is passed on", place.recorder.heads[-1].split(b" ")[1], b"/v1/order?name=health")
    expect("what is kept for two seconds", told(place.ask(None, "/health")), (200, "up\n"))


def test_encryption(place):
    """TLS, and the fields of each reply"""
    working(place)
    for version, is_taken in [("1", False), ("1_1", False), ("1_2", True), ("1_3", True)]:
        words = [
            "openssl",
            "s_client",
            "-connect",
            f"localhost:{place.port}",
            f"-tls{version}",
            "-cipher",
            "ALL:@SECLEVEL=0",
        ]
        done = ran(words, place.folder, input="")
        expect(f"TLS {version}", "Cipher is (NONE)" not in done.stdout and done.returncode == 0, is_taken)
        for way in ("-sess_out", "-sess_in"):
            done = ran([*words, way, "session"], place.folder, input="") if is_taken else done
        expect(f"TLS {version}: a session that goes on", "Reused, " in done.stdout, False)
    more = ["/v1/report", "/health", "/yield", "/v1/order"]
    replies = [place.ask(by(place.outer["look"]), target, "{}" if target == "/v1/order" else None) for target in more]
    replies.append(place.ask(None, "/v1/order"))
    expect("statuses", [it[0] for it in replies], [200, 200, 200, 403, 401])
    wanted = {"strict-transport-security": "max-age=31536000", "x-content-type-options": "nosniff",
              "cache-control": "no-store", "server": "nginx"}  # fmt: skip
    for target, reply in zip([*more, "401"], replies):
        expect(f"fields of {target}", {name: reply[1].get(name) for name in wanted}, wanted)


# Extensions of a first message, by RFC 8446, that OpenSSL refuses: a name's length, a list of groups that is longer
# than its bytes, one of versions twice, and no share of a key.
HANDSHAKES = ["0000000500000261", "000a000400090017", "002b0003020304" * 2, "002b0003020304003300020000"]


def test_handshakes(place):
    """a stranger's handshakes fill no log"""
    working(place)
    for extensions in map(bytes.fromhex, HANDSHAKES):
        said = b"\3\3" + bytes(32) + b"\0\0\2\x13\1\1\0" + struct.pack(">H", len(extensions)) + extensions
        with socket.create_connection((HOST, place.port), 10) as connection:
            connection.sendall(b"\x16\3\1" + struct.pack(">HBBH", len(said) + 4, 1, 0, len(said)) + said)
            expect(f"{extensions.hex()}: an alert", connection.recv(2), b"\x15\3")
    expect("the error log", (place.folder / "log/nginx.conf-error.log").read_text(), "")


def test_silent(place):
    """who says nothing, or stops in the middle, is gone after ten seconds"""
    working(place)
    head = b"POST /v1/order HTTP/1.1\r\nHost: h\r\nAuthorization: Bearer " + place.outer["work"].encode()
    begun = {
        "no TLS": None,
        "nothing": b"",
        "half a head": head,
        "half a body": head + b"\r\nContent-Length: 9\r\n\r\n{",
    }
    with ThreadPoolExecutor(len(begun)) as pool:
        seconds = dict(zip(begun, pool.map(lambda it: held(place, it), begun.values())))
    for name, took in seconds.items():
        expect(f"{name}: gone between 9 and 12 seconds", 9 < took < 12, True)
    expect("came through", place.recorder.heads, [])


def held(place, data):
    """How long a connection lasts that sends this and no more; None is one without TLS."""
    start = time.monotonic()
    connection = place.connection() if data is not None else socket.create_connection((HOST, place.port))
    with connection:
        connection.settimeout(20)
        try:
            connection.sendall(data or b"")
            while connection.recv(65536):
                pass
        except OSError:
            pass
        return time.monotonic() - start


# Connections to nginx's port of two addresses, which nobody closes: how many of each are made.
HOLDS = """
import socket
listener = socket.create_server(("127.0.0.1", 8443), backlog=1000)
held = []
for address, count in [("127.0.0.1", 74), ("127.0.0.2", 10)]:
    for _ in range(count):
        try:
            held.append(socket.create_connection(("127.0.0.1", 8443), 5, (address, 0)))
        except OSError:
            pass
    print(address, len(held))
"""

# A connection that nobody began before the rules were there, over which the server speaks first behind them.
BEGUN = """
import os, socket, subprocess, sys
listener = socket.create_server(("127.0.0.1", 881))
os.seteuid(65534)
own = socket.socket()
own.connect(("127.0.0.1", 881))
os.seteuid(0)
server = listener.accept()[0]
subprocess.run(["nft", "-f", sys.argv[1]], check=True)
server.sendall(b"x")
own.settimeout(5)
own.recv(1)
try:
    own.sendall(b"x")
    own.recv(1)
except OSError as error:
    print("begun before:", type(error).__name__)
"""

# In a network of its own: who connects to port 880 without deploy/station.nft and with it, and who can be the server.
ASKS = """
ip link set lo up
"$1" serve --site etc/site.toml --db port.db --port 880 --connections 100 < /dev/null > port.said &
until grep -q listening port.said; do sleep 0.05; done
asked() { setpriv --reuid "$1" --clear-groups curl -s -o /dev/null -m 3 -w "$1 %{http_code}\n" http://127.0.0.1:880/; }
asked nobody
sleep 0.5  # its last packets are no part of what is counted below
nft -f "$2"
nft -f "$2"
for user in root www-data; do asked $user; done
sleep 0.2
chain() { nft "$@" list chain inet station to_the_server | grep -E 'skuid|reject' | sed 's/^[ \t]*//'; }
chain | tail -n 1
chain -s | tail -n 1
asked nobody
nft delete table inet station
/usr/bin/python3 -c "$4" "$2"
kill $!; wait $! 2> /dev/null
bound='import socket; socket.socket().bind(("127.0.0.1", 880))'
setpriv --reuid nobody --clear-groups /usr/bin/python3 -c "$bound" 2>&1 | tail -n 1
/usr/bin/python3 -c "$3"
/usr/bin/python3 -m http.server --bind 127.0.0.1 9093 > /dev/null 2>&1 &
until curl -s -o /dev/null http://127.0.0.1:9093/; do sleep 0.05; done
for user in root www-data nobody; do
    setpriv --reuid $user --clear-groups curl -s -o /dev/null -m 3 -w "$user %{http_code}\n" http://127.0.0.1:9093/
done
kill $!
"""


@pytest.mark.needs("ip", "nft", "setpriv", "mounts")
def test_port(place):
    """who on this machine reaches the server's port, and can be the server; what an address holds of nginx; that the
    server's user reaches nothing that watches, as he could silence it"""
    rule = rules_in(place.folder)
    words = ["unshare", "-n", "sh", "-c", ASKS, "sh", place.program, rule, HOLDS, BEGUN]
    said = ran(words, place.folder).stdout.splitlines()
    wanted = ["nobody 401", "root 401", "www-data 401"]
    expect("nobody before the rules; root and nginx with them", said[:3], wanted)
    # What has no user, as a packet of AF_SMC, is refused; the last packets of root's and nginx's have none either.
    refused = "ip daddr 127.0.0.0/8 tcp dport 880-899 counter{} reject with tcp reset"
    told = [refused.format(" packets 0 bytes 0"), refused.format("")]
    expect("none of theirs is refused; the last rule asks for no user", said[3:5], told)
    wanted = ["nobody 000", "begun before: ConnectionResetError", "PermissionError: [Errno 13] Permission denied"]
    expect("nobody with the rules, and over a connection of before; nobody as the server", said[5:8], wanted)
    expect("74 connections of one address, and 10 of another", said[8:10], ["127.0.0.1 64", "127.0.0.2 74"])
    expect("who reaches alertmanager, without the server's user", said[10:], ["root 200", "www-data 200", "nobody 000"])
