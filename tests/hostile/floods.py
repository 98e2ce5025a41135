"""The attacks that send requests: reports in flight, reports hung up, HTTP/2's streams, imports, stations
without a pause, strangers, and many requests in one send.

Each returns what it counted: `requests` that were sent, replies by their status, and what else its check needs."""

import hashlib
import http.client
import json
import re
import socket
import subprocess
import threading
import time
from collections import Counter

from hostile.crowds import more_files
from common.lives import ROWS
from common.registrations import MAP, blocks_of
from common.ports import HOST

DIGEST = hashlib.sha256(MAP.encode()).hexdigest()

# When a report is hung up, in seconds behind its sending.
HUNG_UP = 0.03

# What a station looks at for each chip, so that it asks twelve times with its four changes, and the seconds of a burn.
LOOKS = ["/v1/device?chip={chip}", "/v1/order?name={order}"] * 4
BURN = 2

# The most milliseconds that the requests of one chip took.
SLOWEST = "slowest ms"


def until(target):
    """The moment at which an attack ends."""
    return time.monotonic() + target.seconds


def abreast(target, work):
    """Has so many threads do the same until the attack ends, and joins what they count: sums, but of `SLOWEST`."""
    more_files()
    counted, end = [Counter() for _ in range(target.size)], until(target)

    def run(number):
        own = counted[number]
        while time.monotonic() < end:
            try:
                work(number, own)
            except (OSError, http.client.HTTPException):
                own["errors"] += 1
                time.sleep(0.02)

    threads = [threading.Thread(target=run, args=[number], daemon=True) for number in range(target.size)]
    for thread in threads:
        thread.start()
    for thread in threads:
        thread.join(max(0.1, end + 2 - time.monotonic()))
    counts, copies = Counter(), [own.copy() for own in counted]
    for own in copies:
        counts.update(own)
    counts[SLOWEST] = max(own[SLOWEST] for own in copies)
    return dict(+counts)


def hung_up(target):
    """Reports whose sender goes after 30 milliseconds, one at a time or many."""
    context = target.context() if target.is_tls else None

    def work(_, counts):
        with target.opened(context=context) as made:
            made.sendall(target.head() + b"\r\n")
            counts["requests"] += 1
            time.sleep(HUNG_UP)

    return abreast(target, work)


def pipelined(target):
    """A thousand reports in one send, again and again, and their replies are read."""

    def work(_, counts):
        with target.opened() as made:
            made.sendall((target.head() + b"\r\n") * 1000)
            counts["requests"] += 1000
            while part := made.recv(65536):
                counts["replies"] += part.count(b"HTTP/1.1 200")

    return abreast(target, work)


def connection_of(target):
    if target.is_tls:
        return http.client.HTTPSConnection(HOST, target.port, timeout=100, context=target.context())
    return http.client.HTTPConnection(HOST, target.port, timeout=100)


class Sender:
    """A seat that sends one request after another without a pause, over a connection that it keeps."""

    def __init__(self, target, token, number=1):
        self.target, self.number = target, number
        self.fields, self.connection = {"Authorization": f"Bearer {token}"}, connection_of(target)

    def send(self, counts, path, members=None, is_once=False):
        """Sends one until it is answered 200; its number is used then. Or once, whatever the answer is."""
        while True:
            body = None if members is None else json.dumps({"nr": self.number, **members}).encode()
            counts["requests"] += 1
            try:
                self.connection.request("GET" if body is None else "POST", path, body, self.fields)
                reply = self.connection.getresponse()
                reply.read()
            except (OSError, http.client.HTTPException):
                self.connection.close()
                raise
            counts[reply.status] += 1
            if reply.status == 200 or is_once:
                self.number += reply.status == 200 and body is not None
                return
            if reply.status not in (429, 502, 503, 504):
                raise http.client.HTTPException(f"{path}: {reply.status}")


def import_of(first):
    """An import of numbers that nobody has."""
    rows = [f"J{n:011},{hashlib.sha256(b'%d' % n).hexdigest()}\n" for n in range(first, first + ROWS)]
    return {"issuer": "acme-ca", "csv": "serial,key_sha256\n" + "".join(rows)}


def imports(target):
    """Imports of 500 rows without a pause, by one seat or more."""
    senders = [Sender(target, target.tokens[place]) for place in range(target.size)]
    senders[0].number, places = target.number, [10**9 * place + 1 for place in range(target.size)]

    def work(number, counts):
        senders[number].send(counts, "/v1/import", import_of(places[number]))
        counts["rows"] += ROWS
        places[number] += ROWS

    return abreast(target, work)


def begin(sender, counts, number, first):
    """The order of one of several stations, the first of which is the seat that made the store."""
    sender.number = first if number == 0 else 1
    members = {"name": f"s{number}", "issuer": "acme-ca", "prefix": f"S{number}-", "width": 6, "first": 1}
    sender.send(counts, "/v1/order", members | {"quantity": 10000, "macs": 0})


def one_chip(sender, counts, number, place, looks=()):
    """The requests of one chip, and so many looks at it and at its order."""
    chip = f"{2**44 + number * 2**24 + place:012x}"
    shown = blocks_of(place)
    sender.send(counts, "/v1/device", {"chip": chip, "order": f"s{number}", "map": DIGEST, "blocks": shown})
    sender.send(counts, "/v1/plan", {"chip": chip, "wishes": []})
    for look in looks:
        sender.send(counts, look.format(chip=chip, order=f"s{number}"))
    sender.send(counts, "/v1/identity", {"chip": chip, "public_key": f"{chip:0>64}"})
    sender.send(counts, "/v1/ship", {"chip": chip})


def stations(target):
    """Stations of one customer that work without a pause, each of another seat."""
    senders, chips = [Sender(target, token) for token in target.tokens[: target.size]], [0] * target.size

    def work(number, counts):
        if not chips[number]:
            begin(senders[number], counts, number, target.number)
        chips[number] += 1
        one_chip(senders[number], counts, number, chips[number], LOOKS[:1])
        counts["chips"] += 1

    return abreast(target, work)


def shift(target):
    """Honest stations: each sends the requests of a chip one after another, and pauses for what a burn takes. A reply
    that isn't 200 is a limit that was met, and the longest of them is told."""
    senders, chips = [Sender(target, token) for token in target.tokens[: target.size]], [0] * target.size

    def work(number, counts):
        sender, start = senders[number], time.monotonic()
        if not chips[number]:
            begin(sender, counts, number, target.number)
        chips[number] += 1
        one_chip(sender, counts, number, chips[number], LOOKS)
        counts["met"] = counts["requests"] - counts[200]
        counts["chips"] += 1
        counts[SLOWEST] = max(counts[SLOWEST], int(1000 * (time.monotonic() - start)))
        time.sleep(BURN)

    return abreast(target, work)


def looks(*paths):
    """Looks at the dearest that a customer may see, two at a time by each of its seats, without a pause."""

    def run(target):
        senders = [Sender(target, target.tokens[place // 2]) for place in range(target.size)]

        def work(number, counts):
            for path in paths:
                senders[number].send(counts, path, is_once=True)

        return abreast(target, work)

    return run


# h2load, Debian's, a tool that isn't ours.

DONE = re.compile(r"requests: (\d+) total, (\d+) started, (\d+) done, (\d+) succeeded, (\d+) failed, (\d+) errored")
CODES = re.compile(r"status codes: (\d+) 2xx, (\d+) 3xx, (\d+) 4xx, (\d+) 5xx")


def h2load(connections, streams, path=None, token=None):
    """Requests by h2load, so many in flight over so many connections, with a seat's token, another one, or none."""

    def run(target):
        more_files()
        words = ["h2load", "-c", str(connections), "-m", str(streams), "-t", "1", "-D", str(int(target.seconds))]
        given = target.tokens[0] if token is None else token
        words += ["-H", f"authorization: Bearer {given}"] if given else []
        words += [f"https://{HOST}:{target.port}{path or target.path}"]
        done = subprocess.run(words, capture_output=True, text=True, timeout=target.seconds + 60)
        counts, codes = DONE.search(done.stdout), CODES.search(done.stdout)
        if not counts or not codes:
            return {"requests": 0, "said": (done.stdout + done.stderr)[-200:]}
        kinds = {f"{kind}xx": int(codes[place]) for place, kind in ((1, 2), (3, 4), (4, 5))}
        return {"requests": int(counts[2]), "done": int(counts[3])} | kinds

    return run


def one_at_a_time(target):
    """Requests without a token, each over a new connection of its own."""

    def work(_, counts):
        with target.opened() as made:
            made.sendall(f"GET {target.path} HTTP/1.1\r\nHost: {HOST}\r\nConnection: close\r\n\r\n".encode())
            counts["requests"] += 1
            counts[made.recv(4096)[9:12].decode()] += 1

    return abreast(target, work)


# HTTP/2 by its frames, for what h2load doesn't do: streams that are reset as soon as they are opened.

PREFACE = b"PRI * HTTP/2.0\r\n\r\nSM\r\n\r\n"
SETTINGS, HEADERS, RESET = 4, 1, 3
CANCEL = (8).to_bytes(4, "big")


def frame(kind, flags, stream, data=b""):
    return len(data).to_bytes(3, "big") + bytes([kind, flags]) + stream.to_bytes(4, "big") + data


def literal(name, value):
    """A field by its name and value as they are (RFC 7541, 6.2.2), each shorter than 127 bytes."""
    return b"\x00" + bytes([len(name)]) + name.encode() + bytes([len(value)]) + value.encode()


def resets(target):
    """Reports over HTTP/2, each of whose streams is reset at once, a hundred a connection."""
    context = target.context()
    context.set_alpn_protocols(["h2"])
    fields = {":method": "GET", ":scheme": "https", ":path": target.path, ":authority": HOST}
    fields |= {"authorization": f"Bearer {target.tokens[0]}"}
    block = b"".join(literal(name, value) for name, value in fields.items())

    def work(_, counts):
        with target.opened(context=context) as made:
            made.sendall(PREFACE + frame(SETTINGS, 0, 0))
            for stream in range(1, 201, 2):
                made.sendall(frame(HEADERS, 5, stream, block) + frame(RESET, 0, stream, CANCEL))
                counts["requests"] += 1
            made.settimeout(0.2)
            try:
                while made.recv(65536):
                    pass
            except socket.timeout:
                pass

    return abreast(target, work)
