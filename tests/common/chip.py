"""The life of a chip as in docs/first-chip.md, and the books after each of its requests.

One seat imports a map, makes an order with a hardware address for each serial number, registers a chip, plans,
reads back twice, gives it an identity and ships it. The replies and the books are those of a run that nobody
disturbs; where the page has a reply, it has to be that one.
"""

import hashlib
import json
import re
import shutil
import sqlite3
import subprocess
import tempfile
from dataclasses import dataclass
from pathlib import Path

from common.needs import ROOT
from common.program import Failed

DATA = ROOT / "crates" / "station" / "data"
SITE = DATA / "site.toml"
MAP = DATA / "map.toml"
PAGE = ROOT / "docs/first-chip.md"

# A chip by its factory MAC, and block 0 as the factory leaves it: the MAC with its CRC, a revision, a calibration.
CHIP = "240ac4000001"
BLANK = ["00000000", "c4000001", "00be240a", "00008000", "00000b00", "00000000", "00000000"]
ZEROS = ["00000000"] * 8
KEY = bytes(range(32))
PUBLIC_KEY = "302a300506032b6570032100d75a980182b10ab7d54bfed3c964073a0ee172f3daa62325af021a68f707511a"

# What is shown of the books: the order, the device, its ledger and the customer's report.
TARGETS = ["/v1/order?name=o1", f"/v1/device?chip={CHIP}", f"/v1/ledger?chip={CHIP}", "/v1/report"]

# All that can be shown, each with the token that asks for it: these; the page of devices and the identity; the other
# customer's order, devices and report; and the manager's report.
SEEN = [
    *((target, "abc") for target in TARGETS),
    ("/v1/devices?after=", "abc"),
    (f"/v1/identity?chip={CHIP}", "abc"),
    ("/v1/order?name=o1", "hello"),
    ("/v1/devices?after=", "hello"),
    ("/v1/report", "hello"),
    ("/v1/report", "test"),
]

# A number that the seat doesn't come to, so that its refusal tells the number that is expected.
FAR = 2**53 - 1

FIELDS = rb"(?:[A-Za-z-]+: [^\r\n]*\r\n)"
HEAD = re.compile(rb"HTTP/1\.1 (\d{3}) [A-Za-z ]+\r\n%b*?Content-Length: (\d+)\r\n%b*\r\n" % (FIELDS, FIELDS))
BLOCK = re.compile(r"^```console\n(.*?)^```$", re.MULTILINE | re.DOTALL)
COMMAND = re.compile(r"^\$ (.*\n(?:> .*\n)*)((?:(?!\$ ).*\n)*)", re.MULTILINE)
CALL = re.compile(r"curl -K a1 '?http://127\.0\.0\.1:8080(/v1/[^'\s]+)")


def post(path, members):
    """A request of the seat `a1`."""
    body = json.dumps(members, separators=(",", ":")).encode()
    head = f"POST {path} HTTP/1.1\r\nAuthorization: Bearer abc\r\nContent-Length: {len(body)}\r\n\r\n"
    return head.encode() + body


def get(target, token="abc"):
    return f"GET {target} HTTP/1.1\r\nAuthorization: Bearer {token}\r\n\r\n".encode()


def words_of(data):
    """A block of a chip, the lowest byte of each word last."""
    return [data[at : at + 4][::-1].hex() for at in range(0, len(data), 4)]


def steps():
    """The path and the members of each request of the run."""
    text = MAP.read_text(encoding="utf-8")
    digest = hashlib.sha256(text.encode()).hexdigest()
    burnt = BLANK[:6] + ["00000040"]
    wishes = [
        {"kind": "bit", "field": "JTAG_DISABLE", "index": 0},
        {"kind": "key", "field": "BLOCK1", "key_sha256": hashlib.sha256(KEY).hexdigest()},
        {"kind": "wlock", "field": "BLOCK1"},
        {"kind": "rlock", "field": "BLOCK1"},
    ]
    order = {"name": "o1", "issuer": "acme-ca", "prefix": "A", "width": 3, "first": 998, "quantity": 2, "macs": 1}
    order |= {"not_before": "20260101000000Z"}
    asked = [
        ("map", {"text": text}),
        ("order", order),
        ("device", {"chip": CHIP, "order": "o1", "map": digest, "blocks": [BLANK, ZEROS, ZEROS, ZEROS]}),
        ("plan", {"chip": CHIP, "wishes": wishes}),
        ("readback", {"chip": CHIP, "blocks": [burnt, words_of(KEY), ZEROS, ZEROS]}),
        ("readback", {"chip": CHIP, "blocks": [["00010080", *burnt[1:]], ZEROS, ZEROS, ZEROS]}),
        ("identity", {"chip": CHIP, "public_key": PUBLIC_KEY}),
        ("ship", {"chip": CHIP}),
    ]
    return [(f"/v1/{name}", {"nr": number} | members) for number, (name, members) in enumerate(asked, 1)]


def requests():
    return [post(*step) for step in steps()]


def shows():
    """The requests that show the books."""
    return [get(target) for target in TARGETS]


def sights(done):
    """The requests that show all that a request can show behind those that were done, and change nothing: the books,
    the number that the seat's next request has to have, and the last one again, which gets the reply that was kept."""
    number = post("/v1/ship", {"nr": FAR, "chip": CHIP})
    return [get(*each) for each in SEEN] + [number] + done[-1:]


def status_of(reply):
    return int(HEAD.match(reply)[1])


def body_of(reply):
    return reply[HEAD.match(reply).end() :]


def replies_in(data):
    """The whole replies that the bytes begin with, and the bytes behind them."""
    replies = []
    while (head := HEAD.match(data)) and len(data) >= (end := head.end() + int(head[2])):
        replies.append(data[:end])
        data = data[end:]
    return replies, data


def store_at(path):
    """The files of a store."""
    return [Path(path), Path(f"{path}-wal")]


def empty_page(size):
    """The page of an empty database with a log, as C's SQLite makes it."""
    with tempfile.TemporaryDirectory() as folder:
        base = sqlite3.connect(f"{folder}/page.db", isolation_level=None)
        base.execute(f"PRAGMA page_size = {size}")
        base.execute("PRAGMA journal_mode = WAL")
        base.close()
        return Path(folder, "page.db").read_bytes()


def without_release(page):
    """A first page without the number of the release of SQLite that wrote it."""
    return page[:96] + page[100:]


def replay_words(program, db=None, site=SITE):
    return [str(program), "replay", "--site", str(site), *(["--db", str(db)] if db else [])]


def served(words, stream, seconds=600):
    """The replies of a run that has to end well and to write nothing else."""
    try:
        done = subprocess.run(words, input=stream, capture_output=True, timeout=seconds, check=False)
    except subprocess.TimeoutExpired as late:
        raise Failed(f"no end in {seconds} seconds") from late
    replies, rest = replies_in(done.stdout)
    if done.returncode or done.stderr or rest:
        line = done.stderr.decode(errors="replace").strip()
        raise Failed(f"status {done.returncode}, {line!r}, {len(replies)} replies and {rest[:60]!r}")
    return replies


def rows_of(path):
    """All rows of a closed store, and what SQLite's own tests find, read from a copy."""
    with tempfile.TemporaryDirectory(dir=Path(path).parent) as folder:
        for file in store_at(path):
            if file.exists():
                shutil.copy(file, folder)
        base = sqlite3.connect(f"{folder}/{Path(path).name}")
        try:
            names = [name for (name,) in base.execute("SELECT name FROM sqlite_master WHERE type = 'table'")]
            rows = {name: sorted(map(repr, base.execute(f'SELECT * FROM "{name}"'))) for name in names}
            found = [row for test in ("integrity", "foreign_key") for row in base.execute(f"PRAGMA {test}_check")]
        except sqlite3.Error as error:
            raise Failed(f"sqlite3 can't read the store: {error}") from error
        finally:
            base.close()
    if found != [("ok",)]:
        raise Failed(f"SQLite finds {found[:2]}")
    return rows


@dataclass
class Books:
    """What is shown of the books, the rows of the store, and all that can be shown (`sights`)."""

    shown: list
    rows: dict
    seen: list


@dataclass
class Run:
    """The run that nobody disturbed: its requests, their replies, and the books before the first and after each."""

    asked: list
    replies: list
    books: list


def undisturbed(program, folder):
    """The run over a store in a file, and over memory, which has to have the same replies."""
    asked, books = requests(), []
    for count in range(len(asked) + 1):
        done, path = asked[:count], Path(folder) / f"calm{count}.db"
        stream = b"".join(done + sights(done))
        replies = served(replay_words(program, path), stream)
        if replies != served(replay_words(program), stream):
            raise Failed(f"over memory {count} requests have other replies than over a store")
        if replies[count + len(sights([])) :] != replies[count - 1 : count]:
            raise Failed(f"request {count} gets another reply when it is repeated")
        books.append(Books(replies[count : count + len(TARGETS)], rows_of(path), replies[count:]))
    run = Run(asked, replies[: len(asked)], books)
    compare_with_page(run)
    return run


def calls_of_page():
    """Whether each call of the page posts, its target, and the body of its reply, as far as they are accepted."""
    for block in BLOCK.findall(PAGE.read_text(encoding="utf-8")):
        for command, reply in COMMAND.findall(block):
            call = CALL.search(command)
            if call and reply.endswith("\n200\n"):
                yield " -d" in command, call[1], reply.removesuffix("\n200\n").encode()


def compare_with_page(run):
    """The replies and what is shown have to be those of the page, where it has them."""
    paths, done = [path for path, _ in steps()], 0
    for is_post, target, body in calls_of_page():
        if is_post and done == len(paths):
            return
        if is_post:
            expected, reply = paths[done], run.replies[done]
            done += 1
        else:
            expected, reply = target, run.books[done].seen[SEEN.index((target, "abc"))]
        if (target, body) != (expected, body_of(reply)):
            raise Failed(f"{PAGE.name} has another reply for {target} after {done} requests: {body_of(reply)!r}")
    if done < len(paths):
        raise Failed(f"{PAGE.name} has {done} of the run's {len(paths)} requests")
