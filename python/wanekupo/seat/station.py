"""A seat whose requests are each done once.

A `Station` is one seat of the site file. Its state file is synced before a request is sent, so that a station that
loses its power sends the same request again: `finish` does that, before anything else is asked for.
"""

import csv
import functools
import io
import json
import os
import threading
from typing import Any, Callable, Concatenate, Iterable, Iterator, Mapping, NoReturn, Optional, ParamSpec, Sequence
from typing import TypeVar
from urllib.parse import quote

from wanekupo.chips.chip import checked_blocks, shows_work
from wanekupo.seat.connection import Server
from wanekupo.common.errors import BadStateFile, NotTheServer, OutOfStep, Refused, UnderWay
from wanekupo.chips.espefuse import Burner
from wanekupo.chips.families import Blocks
from wanekupo.common.printing import warn
from wanekupo.seat.forms import FAR
from wanekupo.seat.replies import (
    Device, LastRequest, Entry, Identity, Imported, Listed, Order, Plan, Verdict, accepted, device_of, devices_of,
    entries_of, identity_of, imported_of, order_of, work_of,
)  # fmt: skip
from wanekupo.seat.import_rows import LONGEST_BODY, Rows, csv_of, import_parts
from wanekupo.seat.state_file import StateFile, has_words, members_of

Self = TypeVar("Self", bound="Seat")
Words = ParamSpec("Words")
Result = TypeVar("Result")

# Refusals: a number that isn't the next, and one that was accepted with another request. Those below come before the
# number is looked at. Up to these, a refusal says nothing of what became of the same request when it was sent before.
WRONG_NUMBER, OTHER_BODY, UNKNOWN_DEVICE, WRONG_STATE = 11, 12, 15, 17


def _in_turn(call: Callable[Concatenate[Self, Words], Result]) -> Callable[Concatenate[Self, Words], Result]:
    """A call of a station that waits for those of other threads."""

    @functools.wraps(call)
    def alone(station: Self, /, *words: Words.args, **named: Words.kwargs) -> Result:
        with station._turn:
            return call(station, *words, **named)

    return alone


def _body_of(number: int, members: Mapping[str, Any]) -> str:
    """A request's body, as it is sent."""
    return json.dumps({"nr": number, **members}, separators=(",", ":"), ensure_ascii=False)


def _named(asked: Mapping[str, str], number: int) -> str:
    """A request as a sentence names it."""
    members = members_of(asked)
    named = next((f" of {name} {members[name]}" for name in ("chip", "name", "issuer") if name in members), "")
    return f"{asked['path']}{named}, with number {number}"


def _told_of_late_copy(late: Mapping[str, str], number: int) -> str:
    return (
        f"A late copy of a request was accepted, which had been refused before: {_named(late, number)}. The journal "
        "has it now. Look at what it did; this seat goes on."
    )


def _told_of_no_words(asked: Mapping[str, str], number: int, is_done: bool) -> str:
    return (
        f"This seat was ended while a request was under way: {_named(asked, number)}. What the chip showed is kept "
        f"nowhere, so it isn't sent again. The server has {'' if is_done else 'not '}accepted that number. This seat "
        "goes on."
    )


def _told_of_new_file(file: object, number: int) -> str:
    return (
        f"warning: The state file {file} is new, and this seat has asked before: its number is {number}. A bench that "
        "works with this seat stops at its next request. If there is one, use a seat of your own from now on; behind a "
        "lost state file all is well."
    )


class Seat:
    """One process and one request at a time. `file` is its state file, without which it only shows, `patience` how many
    seconds it asks for a reply, `timeout` how many it waits for a whole one, `context` an `ssl.SSLContext` for https,
    `journal` a `wanekupo.seat.journal.Journal`, the station's own log, which `close` closes too with `closes_journal`.

    `insecure` lets its token go over http to another machine. With `new_token` a state file of another token is gone on
    with, where the server shows that it is the same seat's, before the first request that changes anything. `tell` gets
    a sentence where the seat goes on behind a late copy, and with `tells_of_new_file` where its state file is new and
    the seat isn't; without it that is a line on standard error. Without `keeps_words` the state file has no words of a
    chip: a request that shows one is sent again by this process alone, and behind it the number says what became.

    Its connection is kept between requests, and made anew where the other side has closed it."""

    def __init__(
        self,
        url: str,
        token: str,
        file: Optional[str | os.PathLike[str]],
        patience: float = 120,
        timeout: float = 90,
        context: Any = None,
        journal: Any = None,
        insecure: bool = False,
        new_token: bool = False,
        closes_journal: bool = False,
        tell: Callable[[str], None] = warn,
        tells_of_new_file: bool = False,
        keeps_words: bool = True,
    ):
        self._server = Server(url, token, patience, timeout, context, insecure)
        self._journal, self._closes_journal = journal, closes_journal
        self._tell, self._tells_of_new_file = tell, tells_of_new_file
        self._turn = threading.RLock()
        self._state = StateFile(file, token, keeps_words)
        try:
            if not self._state.is_of_the_token() and not new_token:
                told = "Name the seat's own file; or give --new-token where the token is a new one of the same seat."
                raise BadStateFile(f"{self._state.file} is another token's", told)
            self._state.forget_words()
        except BaseException:
            self.close()
            raise

    def __enter__(self: Self) -> Self:
        return self

    def __exit__(self, *_: Any) -> None:
        self.close()

    def close(self) -> None:
        """Closes the connection, and lets another process have the state file."""
        self._server.hang_up()
        self._state.close()
        if self._journal and self._closes_journal:
            self._journal.close()

    # A new token.

    @_in_turn
    def take_token(self) -> None:
        """Goes on with another token than before, which a person says is the same seat's, where the server shows it: it
        expects the number that this seat comes to, and knows the seat's last request."""
        if self._state.is_of_the_token():
            return
        file, own, asked = self._state.file, self._state.next, self._state.under_way
        expected = self.expected_number()
        sent = [it for it in (asked, *self._state.late) if it]
        is_done = bool(sent) and own is not None and expected == own + 1
        if own is not None and expected != own and not is_done:
            told = f"its number is {own}, and the server expects {expected} of this token's"
            raise BadStateFile(f"{file} is another seat's, or its numbers went on: {told}")
        lasts = sent if is_done else [it for it in (self._state.last,) if it]
        if lasts and not any(self._is_known(it, expected - 1) for it in lasts):
            raise BadStateFile(f"{file} is another seat's: the last request of this token's was another")
        self._state.keep(token=self._state.token)

    def _is_known(self, last: Mapping[str, Any], number: int) -> bool:
        """Whether a request is the last one that the server has of the seat, which has this number. That is taken, so
        that it changes nothing. One whose words aren't kept can't be sent again, nor one with another number, behind
        which others were accepted: then the number has to do."""
        members = json.loads(last["body"])
        if members["nr"] != number or not has_words(last):
            return True
        status, reply, _ = self._posted(last["path"], last["body"])
        return status == 200 and reply == last.get("reply", reply)

    # Requests.

    def _posted(self, path: str, text: str) -> tuple[int, dict[str, Any], bool]:
        """Has a POST's text sent, in UTF-8."""
        return self._server.asked("POST", path, json.loads(text), path, text.encode())

    @_in_turn
    def get(self, path: str, /, **parameters: str) -> Any:
        """What is shown: a reply's members, or a report's text."""
        query = "&".join(f"{name}={quote(text, safe='')}" for name, text in parameters.items())
        status, body, _ = self._server.asked("GET", path, parameters, f"{path}?{query}" if query else path)
        return accepted(status, body)

    @_in_turn
    def post(self, path: str, members: Mapping[str, Any], reason: str = "") -> dict[str, Any]:
        """Has a request done, once, and gives its reply. The same request goes on where it is under way. `reason`
        stands in the journal's line of it, and isn't sent."""
        self._make_ready()
        under_way = self._state.under_way
        if not under_way:
            self._begin(path, members, reason)
        elif (under_way["path"], members_of(under_way)) != (path, json.loads(json.dumps(members))):
            raise UnderWay(f"another request is under way: {under_way['path']} with number {self._state.next}")
        return self._complete(is_repeat=bool(under_way))

    def _begin(self, path: str, members: Mapping[str, Any], reason: str) -> None:
        number = self._state.next or self._number_of_new_file()
        body = _body_of(number, members)
        length = len(body.encode())
        if length > LONGEST_BODY:
            raise ValueError(f"a body of {length} bytes: the server reads {LONGEST_BODY}")
        told = {"reason": reason} if reason else {}
        self._state.keep(next=number, under_way={"path": path, "body": body, **told})

    def _number_of_new_file(self) -> int:
        """The number with which a seat begins that has no state file. Whoever has the seat's other one is out of step
        from its next request on."""
        number = self.expected_number()
        if self._tells_of_new_file and number > 1:
            self._tell(_told_of_new_file(self._state.file, number))
        return number

    def _complete(self, is_repeat: bool) -> dict[str, Any]:
        """Sends the request under way until its reply is there, and keeps that."""
        while True:
            asked, number = self._state.under_way, self._state.next
            assert asked and number
            if self._journal:
                self._journal.asked(asked["path"], asked["body"], asked.get("reason", ""))
            status, body, again = self._posted(asked["path"], asked["body"])
            if status == 200:
                break
            refused, is_repeat = Refused(status, body), is_repeat or again
            found = self._late_copy(refused, is_repeat) if refused.no == OTHER_BODY else None
            if not found:
                self._refuse(refused, is_repeat)
            self._go_on_behind(*found, refused)
            is_repeat = False
        if self._journal:
            self._journal.answered(number, status, body)
        self._state.keep(next=number + 1, under_way=None, last={**asked, "reply": body}, late=[])
        return body

    def _refuse(self, refused: Refused, is_repeat: bool, stop: Optional[Refused] = None) -> NoReturn:
        """Raises what the request under way was refused as. However often it was sent, a copy of it may still come to
        the server, and be accepted then: it is kept for that. Up to 12 a refusal says nothing of one that was sent
        before: it stays under way. At 11 and 12 the seat stops, and where `stop` is what a kept request got."""
        asked, number = self._state.under_way, self._state.next
        assert asked and number
        changes: dict[str, Any] = {}
        if refused.no > OTHER_BODY or not is_repeat:
            if self._journal:
                self._journal.answered(number, refused.status, refused.body)
            changes = {"under_way": None, "late": self._state.late_with(asked)}
        if refused.no in (WRONG_NUMBER, OTHER_BODY):
            refused = OutOfStep(stop or refused, asked["path"], number)
            changes["stop"] = {"path": asked["path"], "status": refused.status, "body": refused.body}
        if changes:
            self._state.keep(**changes)
        raise refused

    def _test_stop(self) -> None:
        """Raises why the seat stopped, in this process or in one before: nothing is sent until `resynchronize`."""
        if stop := self._state.stop:
            raise OutOfStep(Refused(stop["status"], stop["body"]), stop["path"], self._state.next or 0)

    def _late_copy(self, refused: Refused, is_repeat: bool) -> Optional[tuple[dict[str, str], dict[str, Any]]]:
        """The earlier request whose late copy took the number of the request under way, which was refused as 12, and
        its reply. Each that may be it is sent again: the server has the number as its last, so it gives the kept reply
        to that one, and refuses the others as 12. Below 11 a refusal says nothing of one. Any other is of a store in
        which the number isn't the last any more: the seat stops."""
        for late in filter(has_words, self._state.late):
            status, reply, _ = self._posted(late["path"], late["body"])
            if status == 200:
                return late, reply
            answer = Refused(status, reply)
            if answer.no < WRONG_NUMBER:
                raise answer
            if answer.no != OTHER_BODY:
                self._refuse(refused, is_repeat, stop=answer)
        return None

    def _go_on_behind(self, late: Mapping[str, str], reply: dict[str, Any], refused: Refused) -> None:
        """The journal gets the late copy with its reply. What is under way wasn't done, and gets the next number."""
        asked, number = self._state.under_way, self._state.next
        assert asked and number
        if self._journal:
            self._journal.answered(number, refused.status, refused.body)
            self._journal.asked(late["path"], late["body"], late.get("reason", ""))
            self._journal.answered(number, 200, reply)
        again = {**asked, "body": _body_of(number + 1, members_of(asked))}
        self._state.keep(next=number + 1, under_way=again, last={**late, "reply": reply}, late=[])
        self._tell(_told_of_late_copy(late, number))

    @_in_turn
    def finish(self) -> Optional[LastRequest]:
        """Sends what is under way again, as it was, and gives the last request that was accepted, if there is one."""
        self._make_ready()
        if self._state.under_way:
            self._complete(is_repeat=True)
        last = self._state.last
        return LastRequest(last["path"], members_of(last), last["reply"]) if last else None

    def _make_ready(self) -> None:
        """Whether a request may be sent. One whose words went with an earlier process is under way no more: the number
        says whether it was done, and where that is a third one the seat stops."""
        self._test_stop()
        self.take_token()
        own, asked = self._state.next, self._state.under_way
        if not own or not asked or has_words(asked):
            return
        refused = self._number_refused()
        number = refused.more["expected"]
        if number not in (own, own + 1):
            self._refuse(refused, is_repeat=True)
        self._go_on_with(number)
        self._tell(_told_of_no_words(asked, own, number > own))

    def _number_refused(self) -> Refused:
        """The refusal that has the number which the server expects. Nothing is changed."""
        refused = Refused(*self._posted("/v1/ship", json.dumps({"nr": FAR, "chip": 12 * "0"}))[:2])
        if refused.no != WRONG_NUMBER or "expected" not in refused.more:
            raise refused
        return refused

    @_in_turn
    def expected_number(self) -> int:
        """The number that the server expects of the seat. Nothing is changed."""
        expected: int = self._number_refused().more["expected"]
        return expected

    def operator(self) -> str:
        """Who works there, as the journal's lines have it."""
        return str(self._journal.operator()) if self._journal else ""

    def operated_by(self, name: str) -> None:
        """Who works there from the next line of the journal on."""
        if self._journal:
            self._journal.operated_by(name)

    def own_number(self) -> Optional[int]:
        """The number of the request under way, or of the next one; None without a state file."""
        return self._state.next

    @_in_turn
    def resynchronize(self) -> None:
        """Forgets the request under way, and goes on with the number that is expected: after a restore of the store, or
        where a person knows why the seat was out of step. Whether that request was done, its device says. Where its own
        number is the expected one, a copy of it may still come. Where the server expects a number that was already
        accepted, the last request is forgotten too: the store is an older one. A new token is taken as it is."""
        self._go_on_with(self.expected_number())

    def _go_on_with(self, number: int) -> None:
        if self._journal:
            self._journal.resynchronized(number)
        own, asked = self._state.next, self._state.under_way
        last = None if number < (own or 0) else self._state.last
        late = (self._state.late_with(asked) if asked else self._state.late) if number == own else []
        self._state.keep(token=self._state.token, next=number, under_way=None, last=last, late=late, stop=None)


class Station(Seat):
    """A seat, with a call for each of its requests."""

    def make_order(
        self, name: str, issuer: str, prefix: str, width: int, first: int, quantity: int, macs: int = 0,
        not_before: Optional[str] = None,
    ) -> Order:  # fmt: skip
        """`not_before`, as 20260101000000Z, is for servers that know it: others leave it out of the order."""
        members = {"name": name, "issuer": issuer, "prefix": prefix, "width": width, "first": first}
        start = {} if not_before is None else {"not_before": not_before}
        return order_of(self.post("/v1/order", {**members, "quantity": quantity, "macs": macs, **start}))

    def import_map(self, text: str) -> str:
        """The map's digest, by which devices are registered."""
        return str(self.post("/v1/map", {"text": text})["map"])

    def register(self, chip: str, order: str, map: str, blocks: Blocks) -> Device:
        shown = {"map": map, "blocks": checked_blocks(chip, blocks)}
        return device_of(self.post("/v1/device", {"chip": chip, "order": order, **shown}))

    def plan(self, chip: str, wishes: Sequence[Mapping[str, Any]]) -> Plan:
        data = self.post("/v1/plan", {"chip": chip, "wishes": list(wishes)})
        return Plan(data["state"], work_of(data["batch1"]), work_of(data["batch2"]))

    def read_back(self, chip: str, blocks: Blocks) -> Verdict:
        data = self.post("/v1/readback", {"chip": chip, "blocks": checked_blocks(chip, blocks)})
        return Verdict(data["outcome"], data["state"], work_of(data["rest"]))

    def identify(self, chip: str, public_key: bytes) -> Identity:
        return identity_of(self.post("/v1/identity", {"chip": chip, "public_key": public_key.hex()}))

    def ship(self, chip: str, reason: str = "") -> str:
        """`reason` is why the chip didn't pass at first, where it is known; it stands in the journal's line alone."""
        return str(self.post("/v1/ship", {"chip": chip}, reason)["state"])

    def scrap(self, chip: str, reason: str = "") -> str:
        return str(self.post("/v1/scrap", {"chip": chip}, reason)["state"])

    def import_serials(self, issuer: str, rows: Iterable[tuple[str, str]]) -> Imported:
        """Serial numbers that were handed out elsewhere, with the SHA-256 of their keys; 500 at the most."""
        return imported_of(self.post("/v1/import", {"issuer": issuer, "csv": csv_of(rows)}))

    def import_all(
        self, issuer: str, rows: Iterable[tuple[str, str]], told: Callable[[int, int], None] = lambda done, of: None
    ) -> tuple[Imported, int]:
        """Any number of such rows, in parts, and how many of the first ones an earlier call had sent. It may be stopped
        anywhere and called again with the same rows: the part under way, or the one behind the last, is gone on with.
        `told` gets how many rows are done, of how many."""
        parts = list(import_parts(rows))
        of, done, added, present = sum(map(len, parts)), 0, 0, 0
        begin = self._part_to_begin(issuer, parts)
        before = sum(map(len, parts[:begin]))
        for part in parts[begin:]:
            told(before + done, of)
            reply = self.import_serials(issuer, part)
            done, added, present = done + len(part), added + reply.added, present + reply.present
        told(of, of)
        return Imported(added, present), before

    def _part_to_begin(self, issuer: str, parts: Sequence[Rows]) -> int:
        """The place of the part under way, or of the one behind the last that was accepted; 0 where there is none."""
        texts = [csv_of(part) for part in parts]
        for asked, more in ((self._state.under_way, 0), (self._state.last, 1)):
            if asked and asked["path"] == "/v1/import":
                members = members_of(asked)
                if members["issuer"] == issuer and members["csv"] in texts:
                    return (texts.index(members["csv"]) + more) % len(texts)
        return 0

    def order(self, name: str) -> Order:
        """An order, which is refused as 14 where there is none."""
        return order_of(self.get("/v1/order", name=name))

    def device(self, chip: str) -> Device:
        return device_of(self.get("/v1/device", chip=chip))

    def find_device(self, chip: str) -> Optional[Device]:
        """The device, or None where the customer has none of the chip."""
        try:
            return self.device(chip)
        except Refused as refused:
            if refused.no == UNKNOWN_DEVICE:
                return None
            raise

    def identity(self, chip: str) -> Identity:
        """The identity of a device, as `identify` gave it; refused as 17 where it has none."""
        return identity_of(self.get("/v1/identity", chip=chip))

    def ledger(self, chip: str) -> list[Entry]:
        return entries_of(self.get("/v1/ledger", chip=chip))

    def devices(self, after: str = "") -> Iterator[Listed]:
        """The customer's devices in the order of their chips, those behind a chip where one is named. A page of them is
        asked for when it is come to, so a device that comes meanwhile is there if its chip is still to come."""
        behind: Optional[str] = after
        while behind is not None:
            page = self.get("/v1/devices", after=behind)
            yield from devices_of(page)
            following = page["next"]
            if following is not None and not (isinstance(following, str) and following > behind):
                told = f"a list of devices goes on behind {following!r}, and had come to {behind!r}"
                raise NotTheServer(told, "Look what answers at the server's address.")
            behind = following

    def report(self, path: str = "/v1/report") -> dict[str, dict[str, int]]:
        """The counts of each order, by its name; of the site's report, the manager's alone, those of each customer."""
        rows = csv.reader(io.StringIO(self.get(path)))
        _, *names = next(rows)
        return {name: dict(zip(names, map(int, counts))) for name, *counts in rows}

    def settle(self, chip: str, chip_io: Burner, tries: int = 3) -> Device:
        """Burns and reads back what a device awaits. It is then settled or quarantined, or still awaits what the chip
        doesn't take in so many tries.

        A batch is burnt before it is read back, also where it may be burnt already, and until the chip shows all of
        it: a read-back of a half burnt key would quarantine the device for good. Another chip isn't burnt."""
        while True:
            device = self.device(chip)
            if device.state not in ("awaiting1", "awaiting2"):
                return device
            work = device.batch1 if device.state == "awaiting1" else device.batch2
            checked_blocks(chip, chip_io.read())
            for _ in range(tries):
                chip_io.burn(work)
                blocks = chip_io.read()
                if shows_work(blocks, work):
                    break
            if self.read_back(chip, blocks).outcome == "short":
                return self.device(chip)
