"""What befalls a request on its way: the faults, what each answers, and which request gets which.

A fault passes nothing, a half or the whole of a request on, kills the station or the server, and answers something. It
`delivers` where the station gets the server's own reply whole; else the request has no reply, and is sent again as it
was.
"""

from __future__ import annotations

import json
import random
from collections import defaultdict
from dataclasses import dataclass
from typing import Any, Callable, Mapping, Optional

from kit.protocol import NAMED

# A reply to a request with members: what the server answered, the request's path and its members.
Answer = Callable[[bytes, str, Mapping[str, Any]], bytes]

# More than one request gets of these, pauses would be long.
MOST = 3
# The share of GET requests that a fault befalls.
LOOKS = 0.2


def reply_of(status: int, kind: str, body: bytes) -> bytes:
    fields = f"Content-Type: {kind}\r\nContent-Length: {len(body)}\r\nConnection: close\r\n"
    return f"HTTP/1.1 {status} Told\r\n{fields}\r\n".encode() + body


def _page(status: int) -> Answer:
    body = b"<html><body>Please sign in to the plant's network.</body></html>"
    return lambda reply, path, members: reply_of(status, "text/html", body)


def _json(status: int, body: Mapping[str, Any]) -> Answer:
    return lambda reply, path, members: reply_of(status, "application/json", json.dumps(body).encode())


def _body(reply: bytes) -> bytes:
    return reply.partition(b"\r\n\r\n")[2]


def _line(reply: bytes) -> bytes:
    return reply.partition(b"\r\n")[0] + b"\r\nContent-Type: application/json\r\nConnection: close\r\n"


def _without_length(reply: bytes, path: str, members: Mapping[str, Any]) -> bytes:
    return _line(reply) + b"\r\n" + _body(reply)


def _chunked(reply: bytes, path: str, members: Mapping[str, Any]) -> bytes:
    body = _body(reply)
    return _line(reply) + b"Transfer-Encoding: chunked\r\n\r\n%x\r\n%s\r\n0\r\n\r\n" % (len(body), body)


def _of_another(reply: bytes, path: str, members: Mapping[str, Any]) -> bytes:
    """A reply of the right form to a request for another chip, or for another order."""
    if path == "/v1/order":
        told: dict[str, Any] = {**{"name": "another", "next": None, "mac": None}, **members, "name": "another"}
    elif path == "/v1/identity":
        told = {"chip": 12 * "f", "issuer": "acme-ca", "serial": "B00001", "key_sha256": 64 * "0", "mac": None}
        told |= {"not_after": "99991231235959Z", "not_before": None}
    elif path == "/v1/device":
        work: dict[str, Any] = {"bits": [], "keys": {}}
        told = {"chip": 12 * "f", "state": "shipped", "order": "another", "map": 64 * "0", "serial": None, **work}
        told |= {"reason": None, "pending": {"batch1": work, "batch2": work}}
    else:
        told = {"chip": 12 * "f", "state": "scrapped" if path == "/v1/scrap" else "shipped"}
    return reply_of(200, "application/json", json.dumps(told).encode())


def _as_it_is(reply: bytes, path: str, members: Mapping[str, Any]) -> bytes:
    return reply


def _nothing(reply: bytes, path: str, members: Mapping[str, Any]) -> bytes:
    return b""


@dataclass(frozen=True)
class Fault:
    name: str
    told: str
    passed: str = "whole"  # or "nothing", "half", "late"
    answer: Answer = _nothing
    kills: str = ""  # or "server", "station first", "station", "station behind"
    delivers: bool = False
    is_forged: bool = False
    paths: tuple[str, ...] = ()  # of which it befalls requests alone, where there are any


ECHOED = ("/v1/order", "/v1/device", "/v1/identity", "/v1/ship", "/v1/scrap")
REFUSED = _json(401, {"error": "unknown_token", "no": 6})
NO_TOKEN = Fault("unknown token", "was refused as 6", "nothing", REFUSED)

FAULTS = (
    Fault("lost request", "got lost", "nothing"),
    Fault("cut request", "was cut", "half"),
    Fault("lost reply", "was done, and its reply got lost"),
    Fault("cut head", "was done, and its reply was cut in its head", answer=lambda reply, *_: reply[:30]),
    Fault("cut reply", "was done, and its reply was cut", answer=lambda reply, *_: reply[: -len(_body(reply)) // 2]),
    Fault("page 502", "got a page of status 502", "nothing", _page(502)),
    Fault("page 504", "was done, and got a page of status 504", answer=_page(504)),
    Fault("unkept", "was answered 503", "nothing", _json(503, {"error": "unkept", "no": 50})),
    Fault("page 200", "got a page of status 200", "nothing", _page(200), is_forged=True),
    Fault("page 404", "got a page of status 404", "nothing", _page(404), is_forged=True),
    Fault("forged JSON", 'got {"status":"ok"}', "nothing", _json(200, {"status": "ok"}), is_forged=True),
    Fault("forged 404", "got JSON without no", "nothing", _json(404, {"message": "no route"}), is_forged=True),
    Fault("of another", "got a reply of another", "nothing", _of_another, is_forged=True, paths=ECHOED),
    Fault("no length", "was done, and its reply had no length", answer=_without_length, is_forged=True),
    Fault("chunked", "was done, and its reply came in chunks", answer=_chunked, is_forged=True),
    Fault("late reply", "had its reply late", answer=_as_it_is, delivers=True),
    Fault("closed", "had its reply, and the connection ended", answer=_as_it_is, delivers=True),
    Fault("late copy", "had no reply, and a copy is done later", "late"),
    Fault("server killed", "was under way when the server was killed", kills="server"),
    Fault("station killed first", "was sent when the station was killed", "nothing", kills="station first"),
    Fault("station killed", "was done when the station was killed", kills="station"),
    Fault("station killed behind", "had its reply", answer=_as_it_is, kills="station behind", delivers=True),
    Fault("server away", "got lost, as the server was away", "nothing", paths=("/v1/plan",)),
    Fault("refused repeat", "was done, and its repeat was refused as 6"),
)
# Those of a GET request.
LOOKED = tuple(it for it in FAULTS if not it.kills and it.passed != "late" and it.name != "refused repeat")
AWAY = next(it for it in FAULTS if it.name == "server away")


class Schedule:
    """Which request gets which fault. Each fault befalls each path once over the chips, as far as their number lets it,
    in the order of a seed; a GET request gets one now and then."""

    def __init__(self, seed: int, chips: int):
        self._chance, self._chips = random.Random(seed), max(1, chips)
        self._dealt: dict[str, list[Fault]] = {}
        self._paths = {path: self._mixed(path) for path in NAMED}
        self._next: dict[str, Fault] = {}
        self.befell: dict[str, int] = defaultdict(int)

    def _mixed(self, path: str) -> list[Fault]:
        faults = [fault for fault in FAULTS if path in fault.paths or not fault.paths]
        self._chance.shuffle(faults)
        return faults

    def begin(self, chip: int) -> None:
        """Deals the faults of a chip's requests, by its place among the chips."""
        self._dealt = {path: faults[chip :: self._chips][:MOST] for path, faults in self._paths.items()}

    def calm(self) -> None:
        self._dealt = {}

    def next(self, method: str, path: str) -> Optional[Fault]:
        """What befalls this sending of a request."""
        fault: Optional[Fault] = None
        if method == "POST":
            dealt = self._dealt.get(path)
            fault = self._next.pop(path, None) or (dealt.pop(0) if dealt else None)
            if fault and fault.name == "refused repeat":
                self._next[path] = NO_TOKEN
        elif self._dealt and self._chance.random() < LOOKS:
            fault = self._chance.choice(LOOKED)
            fault = None if fault.paths and path not in fault.paths else fault
        if fault:
            self.befell[fault.name] += 1
        return fault

    def pause(self, most: float) -> float:
        return self._chance.uniform(0, most)
