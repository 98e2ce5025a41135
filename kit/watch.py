"""The seat as the proxy sees it: the table of states of docs/integrate/api.md#the-protocol-of-a-seat, looked at from
outside. Each request that comes is held to what became of the one before."""

from __future__ import annotations

import json
import threading
import time
from dataclasses import dataclass
from typing import Any, Mapping, Optional

from kit.faults import Fault
from kit.findings import Findings
from kit.journal import Journal
from kit.protocol import FAR, OTHER_BODY, WRONG_NUMBER, members_of

# So many sendings of one request within so many seconds are without pauses that grow.
WITHOUT_PAUSE, WITHIN = 12, 2.5
# What is done once with a chip, or with an order.
ONCE = ("/v1/order", "/v1/device", "/v1/plan", "/v1/identity", "/v1/ship", "/v1/scrap")
# Refusals up to this one say nothing of what became of an earlier sending.
EARLY = 10


@dataclass
class Asked:
    """A request with a number, and what became of its last sending: it is open until the station may have the server's
    own reply."""

    number: int
    path: str
    members: dict[str, Any]
    body: bytes
    sends: int = 0
    is_open: bool = True
    why: str = "had no reply"
    is_forged: bool = False
    status: int = 0
    reply: Any = None

    def told(self) -> str:
        return f"number {self.number} (POST {self.path})"


class Watch:
    """What a seat asked, and what it may ask next. Requests of several connections come in turn."""

    def __init__(self, findings: Findings, journal: Journal):
        self.findings, self.journal = findings, journal
        self.turn = threading.RLock()
        self.last: Optional[Asked] = None
        self.given: dict[int, tuple[str, dict[str, Any], Any]] = {}  # what the server accepted, by the numbers
        self.look, self.is_forged_look = "", False  # the GET request without a reply, and why
        self.posts: dict[tuple[int, int], list[str]] = {}  # the requests of a start's connection, by its port
        self.start, self.is_late_phase, self.has_lost_file = 0, False, False
        self.requests, self.stepped_out, self.asked_for_number = 0, 0, 0
        self._times: list[float] = []
        self._once: dict[str, Asked] = {}

    # What comes.

    def came(self, path: str, body: bytes, port: int) -> Optional[Asked]:
        """A POST request is there whole. None where it asks for the seat's number alone, or is none of the protocol."""
        with self.turn:
            self.requests, self.look = self.requests + 1, ""
            posts = self.posts.setdefault((self.start, port), [])
            members = members_of(body)
            if members is None or not isinstance(members.get("nr"), int):
                posts.append("")
                self.findings.fault("number", f"POST {path} has no number, or its body no length")
                return None
            if members["nr"] == FAR:
                posts.append("")
                self.asked_for_number += 1
                return None
            asked = Asked(members["nr"], path, members, body)
            posts.append(asked.told())
            return self._held(asked)

    def _held(self, new: Asked) -> Asked:
        last = self.last
        if wrong := self.journal.missing(new.path, new.members, not self.is_late_phase):
            self.findings.fault("logged", f"{new.told()} {wrong}")
        else:
            self.findings.looked("logged")
        if last and (new.path, new.body) == (last.path, last.body):
            self.findings.looked("number")
            new = last
            new.is_open, new.is_forged, new.why = True, False, "had no reply"
            self._paused(new)
        else:
            self._times = []
            if last:
                self._follows(last, new)
            self._began(new)
        new.sends += 1
        self.last = new
        return new

    def _began(self, new: Asked) -> None:
        if new.path in ONCE:
            self._asked_once(new)
        if self.has_lost_file:
            told = f"{new.told()} came behind the loss of the state file, and the number wasn't asked for"
            self.findings.held("unknown", self.asked_for_number, told)
            self.has_lost_file = False

    def _asked_once(self, new: Asked) -> None:
        """Looks whether it was asked for under another number, by which it may be done."""
        what = f"{new.path} {json.dumps({**new.members, 'nr': 0}, sort_keys=True)}"
        before = self._once.get(what)
        self._once[what] = new
        is_other = before and before.number != new.number and (before.is_open or before.status == 200)
        if not is_other:
            self.findings.looked("again")
        elif before and not (before is self.last and before.is_open):
            self.findings.fault("again", f"{before.told()} asks for what number {new.number} asks for again")

    def _paused(self, asked: Asked) -> None:
        """Looks whether there are pauses between the sendings of one request."""
        now = time.monotonic()
        self._times = [at for at in self._times if now - at < WITHIN] + [now]
        if len(self._times) == WITHOUT_PAUSE:
            told = f"without a pause, {WITHOUT_PAUSE} times in {WITHIN} seconds"
            self.findings.fault("repeated", f"{asked.told()} is sent again {told}")

    def _follows(self, last: Asked, new: Asked) -> None:
        """Looks whether another request may come behind the last one."""
        if last.is_open:
            self._overtakes(last, new)
            return
        if self.is_late_phase:
            return
        is_accepted = last.status == 200
        what = "was accepted" if is_accepted else f"was refused as {last.reply.get('no')}"
        is_next = new.number == last.number + (1 if is_accepted else 0)
        self.findings.held("number", is_next, f"{last.told()} {what}, and {new.told()} comes next")
        told = f"{last.told()} had its reply, and the log hasn't when {new.told()} comes"
        self.findings.held("replied", self.journal.has_reply(last.number, last.status, last.reply), told)

    def _overtakes(self, last: Asked, new: Asked) -> None:
        """A request came though the last one had no reply of the server's: which fault it is."""
        is_again = self._is_again(last, new)
        if is_again and new.number == last.number:
            self.findings.fault("number", f"{last.told()} {last.why}, and is sent again with other bytes")
        elif is_again and (last.path in ONCE or not last.is_forged):
            what = "the identity of " + last.members["chip"] if last.path == "/v1/identity" else "it"
            told = f"{last.told()} {last.why}, and asks for {what} again under a new number: {new.number}"
            self.findings.fault("again", told)
        elif last.is_forged:
            told = f"{last.told()} {last.why}, which isn't the server's, was believed: {new.told()} comes next"
            self.findings.fault("foreign", told)
        else:
            told = f"{last.told()} {last.why}, and in place of its repeat {new.told()} comes"
            self.findings.fault("number", told)

    @staticmethod
    def _is_again(last: Asked, new: Asked) -> bool:
        return new.path == last.path and {**new.members, "nr": 0} == {**last.members, "nr": 0}

    # What became of it.

    def is_done(self, asked: Asked, status: int, reply: Any) -> None:
        """The server answered a sending, whether the station gets that or not."""
        with self.turn:
            if status == 200:
                self.given[asked.number] = asked.path, asked.members, reply

    def ends(self, asked: Asked, fault: Optional[Fault], status: int, reply: Any) -> None:
        """A sending is over, and the station may have what it was answered."""
        with self.turn:
            if fault and fault.is_forged:
                self.findings.looked("foreign")
            is_delivered = status and (fault is None or fault.delivers or fault.name == "unknown token")
            if not is_delivered or status == 503:
                asked.is_open, asked.is_forged = True, bool(fault and fault.is_forged)
                asked.why = fault.told if fault else "had no reply"
                return
            no = reply.get("no", 0) if isinstance(reply, dict) else 0
            if status != 200 and no <= EARLY and asked.sends > 1:
                asked.is_open, asked.is_forged, asked.why = True, False, "was refused as 6 at a repeat"
                return
            asked.is_open, asked.status, asked.reply = False, status, reply
            if no in (WRONG_NUMBER, OTHER_BODY):
                self._out_of_step(asked, no, reply)

    def _out_of_step(self, asked: Asked, no: int, reply: Mapping[str, Any]) -> None:
        self.stepped_out += 1
        if not self.is_late_phase:
            expected = f", as {reply['expected']} is expected" if "expected" in reply else ""
            self.findings.fault("number", f"{asked.told()} is refused as {no}{expected}: the station stops")

    def looked(self, target: str, fault: Optional[Fault], is_delivered: bool) -> None:
        """A GET request is over."""
        with self.turn:
            self.requests += 1
            self.look = "" if is_delivered else f"GET {target} {fault.told if fault else 'had no reply'}"
            self.is_forged_look = bool(fault and fault.is_forged)

    def unanswered(self) -> tuple[str, str]:
        """What has no reply and waits for its repeat, in words, behind the row of the fault if it isn't repeated;
        nothing where nothing waits."""
        with self.turn:
            if self.look:
                return "foreign" if self.is_forged_look else "repeated", self.look
            last = self.last
            if last and last.is_open and "refused as 6" not in last.why:
                return "foreign" if last.is_forged else "repeated", f"{last.told()} {last.why}"
            return "", ""
