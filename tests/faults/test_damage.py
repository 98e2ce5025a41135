"""Runs the program over stores with changed bytes, lost pages and lost ends.

A store of an order, a map and a device is made by `station replay --db`, once closed (the file alone) and
once copied while it was open and all requests were answered (a file and its log). Then, over each damaged
copy, the program is asked for the device's ledger and for a plan. It has to end with status 0, both requests
answered by well-formed replies of status 200, 4xx or 503, and nothing else written; or with status 1,
`station: store fault N` on standard error and no reply. Anything else, or a run of more than 20 seconds, is
a fault. The damage: one byte at each of the places, wholly changed at even ones and by one bit at odd ones; each
page filled with zeros; all of it; and an end cut off at each page and inside of it.

A log that lost bytes is a shorter log, so its store is an older one and has other replies (docs/reference/files.md). A
test of the gate (crates/file_tests/src/damage.rt) damages files in memory in these ways, the log at fewer places.
"""

import collections
import hashlib
import re
import subprocess
from pathlib import Path

import pytest

from common.chip import SITE
from common.registrations import MAP, request

CHIP = "00000000000a"
FAULT = re.compile(rb"station: store fault [123]\n")
FIELDS = rb"(?:[A-Za-z-]+: [^\r\n]*\r\n)"
HEAD = re.compile(rb"HTTP/1\.1 (200|4\d\d|503) [A-Za-z ]+\r\n%b*?Content-Length: (\d+)\r\n%b*\r\n" % (FIELDS, FIELDS))


def made_by():
    """The requests that make the store."""
    order = {"nr": 1, "name": "o1", "issuer": "acme-ca", "prefix": "A", "width": 3, "first": 998}
    order |= {"quantity": 2, "macs": 0}
    blocks = [["00000000"] * words for words in (7, 8, 8, 8)]
    digest = hashlib.sha256(MAP.encode()).hexdigest()
    device = {"nr": 3, "chip": CHIP, "order": "o1", "map": digest, "blocks": blocks}
    return [request("/v1/order", order), request("/v1/map", {"nr": 2, "text": MAP}), request("/v1/device", device)]


def asked():
    """The requests over a damaged store: one shows, and one writes."""
    shown = f"GET /v1/ledger?chip={CHIP} HTTP/1.1\r\nAuthorization: Bearer abc\r\n\r\n".encode()
    return shown + request("/v1/plan", {"nr": 4, "chip": CHIP, "wishes": []})


def replies_in(data):
    """How many well-formed replies the bytes are, or none where something else stands there."""
    count = 0
    while data:
        head = HEAD.match(data)
        if head is None or len(data) < head.end() + int(head[2]):
            return None
        data, count = data[head.end() + int(head[2]) :], count + 1
    return count


class Bench:
    """The program, over stores in a folder."""

    def __init__(self, program, folder):
        self.line = [str(program), "replay", "--site", str(SITE), "--db"]
        self.folder, self.wanted = folder, None

    def replay(self, path, stream):
        done = subprocess.run([*self.line, str(path)], input=stream, capture_output=True, timeout=20, check=False)
        return done.returncode, done.stdout, done.stderr

    def stores(self):
        """The bytes of the closed store, and of the file and log of the open one."""
        closed, copied = self.folder / "closed.db", self.folder / "open.db"
        status, output, _ = self.replay(closed, b"".join(made_by()))
        assert (status, replies_in(output)) == (0, 3), "no store is made"
        with subprocess.Popen([*self.line, str(copied)], stdin=subprocess.PIPE, stdout=subprocess.PIPE) as program:
            for one in made_by():
                program.stdin.write(one)
                program.stdin.flush()
                read = b""
                while replies_in(read) != 1:
                    read += program.stdout.read1(65536)
            found = copied.read_bytes(), Path(f"{copied}-wal").read_bytes()
            program.stdin.close()
        return closed.read_bytes(), *found

    def outcome(self, file, log):
        """What the program makes of these files."""
        path = self.folder / "damaged.db"
        path.write_bytes(file)
        Path(f"{path}-wal").unlink(missing_ok=True)
        if log:
            Path(f"{path}-wal").write_bytes(log)
        try:
            status, output, line = self.replay(path, asked())
        except subprocess.TimeoutExpired:
            return "no end"
        if status == 0 and not line and replies_in(output) == 2:
            return "served as before" if output == self.wanted else "served with other replies"
        if status == 1 and not output and FAULT.fullmatch(line):
            return line.decode().strip().removeprefix("station: store ")
        return f"status {status}, {output[:60]!r}, {line[:60]!r}"

    def outcomes(self, copies):
        """What comes of damaged copies, each a pair of a file and a log, and how often."""
        return collections.Counter(self.outcome(*copy) for copy in copies)


def changed(data, places, _=None):
    """Copies with one byte changed, at places of a fixed stride."""
    stride = max(1, len(data) // places) | 1
    for number in range(places):
        copy, place = bytearray(data), number * stride % len(data)
        copy[place] ^= 0xFF if number % 2 == 0 else 1 << number // 2 % 8
        yield bytes(copy)


def zeroed(data, page):
    """Copies with a page of zeros, and one of nothing else."""
    for start in range(0, len(data), page):
        size = len(data[start : start + page])
        yield data[:start] + bytes(size) + data[start + size :]
    yield bytes(len(data))


def cut(data, page):
    """Copies without their ends, at each page and inside of it."""
    for start in range(0, len(data), page):
        for more in (0, 1, 24, page // 2, page - 1):
            yield data[: start + more]


DAMAGE = {
    "changed bytes": changed,
    "pages of zeros": lambda data, places, page: zeroed(data, page),
    "lost ends": lambda data, places, page: cut(data, page),
}
GOOD = {"served as before", "served with other replies", "fault 1", "fault 2", "fault 3"}


@pytest.fixture(scope="module")
def bench(program, tmp_path_factory):
    bench = Bench(program, tmp_path_factory.mktemp("damage"))
    bench.closed, bench.file, bench.log = bench.stores()
    bench.page = int.from_bytes(bench.closed[16:18], "big")
    bench.wanted = bench.replay(bench.folder / "closed.db", asked())[1]
    return bench


def test_undamaged(bench):
    assert bench.outcomes([(bench.closed, b""), (bench.file, bench.log)]) == {"served as before": 2}


@pytest.mark.parametrize("part", ["the closed file", "the open file", "the log"])
@pytest.mark.parametrize("kind", DAMAGE)
@pytest.mark.sizes(60, 1000)
def test_damaged(bench, kind, part, size):
    """Changed bytes at so many places."""
    whole = {"the closed file": bench.closed, "the open file": bench.file, "the log": bench.log}[part]
    copies = DAMAGE[kind](whole, size, bench.page)
    pairs = {"the closed file": lambda it: (it, b""), "the open file": lambda it: (it, bench.log)}
    found = bench.outcomes(map(pairs.get(part, lambda it: (bench.file, it)), copies))
    assert found.keys() <= GOOD and found
