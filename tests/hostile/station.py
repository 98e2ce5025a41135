"""The honest station of `hostile`: a seat of another customer that works at a modest pace, and how long it waits."""

import hashlib
import http.client
import json
import ssl
import time
from dataclasses import dataclass, field

from common.registrations import MAP, blocks_of
from common.ports import HOST

# The station's own address, since those who attack have another one.
ADDRESS = "127.0.0.2"

# The seconds between two of its requests, those that it waits for one reply, and those after which it gives up.
PAUSE, ONE_REPLY, PATIENCE = 0.1, 90, 150

DIGEST = hashlib.sha256(MAP.encode()).hexdigest()
FAILURES = (OSError, http.client.HTTPException, ssl.SSLError)


@dataclass
class Waits:
    """What the station met: its requests' seconds, each until the reply that it should get, and what else came."""

    seconds: list = field(default_factory=list)
    failed: dict = field(default_factory=dict)

    def longest(self):
        return max(self.seconds, default=0.0)

    def middle(self):
        return sorted(self.seconds)[len(self.seconds) // 2] if self.seconds else 0.0

    def told(self):
        """What came in the place of replies, each with how often."""
        return ", ".join(f"{count} x {what}" for what, count in self.failed.items())

    def failures(self):
        return sum(self.failed.values())


class Honest:
    """A station that has an order, registers chips, gives them identities, and looks at them. In turn a request goes
    over the connection that is kept and over a new one, so that both are measured."""

    def __init__(self, port, token, context):
        self.port, self.context = port, context
        self.fields = {"Authorization": f"Bearer {token}"}
        self.kept, self.number, self.chips, self.sent, self.waits = None, 0, 0, 0, Waits()

    def connected(self):
        if self.context:
            return http.client.HTTPSConnection(
                HOST, self.port, timeout=ONE_REPLY, source_address=(ADDRESS, 0), context=self.context
            )
        return http.client.HTTPConnection(HOST, self.port, timeout=ONE_REPLY, source_address=(ADDRESS, 0))

    def hang_up(self):
        if self.kept:
            self.kept.close()
        self.kept = None

    def once(self, method, target, body):
        """What one sending gets: a reply's status and body."""
        if len(self.waits.seconds) % 2:
            self.hang_up()
        is_new, self.kept = self.kept is None, self.kept or self.connected()
        self.sent += 1
        try:
            self.kept.request(method, target, body, self.fields)
            reply = self.kept.getresponse()
            return reply.status, reply.read()
        except ConnectionError:
            self.hang_up()
            if is_new:
                raise
            return self.once(method, target, body)  # a kept connection that was closed meanwhile
        except BaseException:
            self.hang_up()
            raise

    def ask(self, method, target, shown, members=None):
        """Asks until the reply comes that it should get, which shows some text. What else comes has failed, and the
        same is sent again."""
        body = None
        if members is not None:
            self.number += 1
            body = json.dumps({"nr": self.number, **members}, separators=(",", ":")).encode()
        start = time.perf_counter()
        while True:
            try:
                status, text = self.once(method, target, body)
                if status == 200 and shown.encode() in text:
                    break
                told = f"{status} {text[:40].decode(errors='replace')}"
            except FAILURES as error:
                told = repr(error)[:60]
            self.waits.failed[told] = self.waits.failed.get(told, 0) + 1
            if time.perf_counter() - start > PATIENCE:
                break
            time.sleep(0.05)
        self.waits.seconds.append(time.perf_counter() - start)

    def begin(self):
        """Its map and its order. The waits begin anew behind them."""
        self.ask("POST", "/v1/map", DIGEST, {"text": MAP})
        order = {"name": "h1", "issuer": "bolt-ca", "prefix": "H", "width": 9, "first": 1}
        self.ask("POST", "/v1/order", '"next":"H000000001"', order | {"quantity": 10000, "macs": 0})
        if self.waits.failed:
            raise SystemExit(f"FAILED: the honest station can't begin: {self.waits.told()}")
        self.waits = Waits()

    def steps(self):
        """The requests of one chip after another, each with what its reply shows."""
        while True:
            self.chips += 1
            chip = f"{2**40 + self.chips:012x}"
            named, serial = f'"chip":"{chip}"', f"H{self.chips:09}"
            device = {"chip": chip, "order": "h1", "map": DIGEST, "blocks": blocks_of(self.chips)}
            yield "POST", "/v1/device", named, device
            yield "GET", f"/v1/device?chip={chip}", '"state":"registered"', None
            yield "POST", "/v1/plan", '"state":"settled"', {"chip": chip, "wishes": []}
            yield "GET", "/v1/order?name=h1", f'"next":"{serial}"', None
            yield "POST", "/v1/identity", serial, {"chip": chip, "public_key": f"{self.chips:064x}"}
            yield "GET", f"/v1/identity?chip={chip}", serial, None
            yield "POST", "/v1/ship", named, {"chip": chip}
            yield "GET", "/v1/devices?after=", '"devices":[', None

    def work(self, end):
        """Works until a moment, and ends with the request under way."""
        steps = self.steps()
        while time.monotonic() < end:
            self.ask(*next(steps))
            time.sleep(PAUSE)
        self.hang_up()
        return self.waits
