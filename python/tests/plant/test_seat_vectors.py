"""A seat does what its proved machine does, act by act (crates/seat_core), and twelve wrong seats don't.

The vectors are what the program of crates/seat_tests prints, as the gate holds it to the machine. A server that isn't
there answers whatever they have a row for, and the seat is killed between any two acts. In the vectors a station's
number is 7; here it is any.
"""

import contextlib
import http.client
import json
import os
import random
import re
import tempfile
import types
from collections import deque
from pathlib import Path
from typing import Any, Callable, Iterator, Optional

import pytest
from conftest import TOP

import wanekupo.seat.connection
import wanekupo.seat.station
from wanekupo.common.errors import NoReply, NotTheServer, OutOfStep, Refused, UnderWay
from wanekupo.seat.forms import FAR
from wanekupo.seat.state_file import StateFile
from wanekupo.seat.station import Station

LINES = (TOP / "crates/seat_tests/stdout").read_text("ascii").splitlines()
ROWS: dict[str, dict[str, list[str]]] = {line.pop("state"): line for line in map(json.loads, LINES)}
NUMBER, FIRST, RUNS, CALLS = 7, 100, 10_000, 4
STATUSES = {1: 400, 10: 400, 11: 409, 12: 409, 13: 404, 50: 503, 51: 409}
PAGE = b"<html>Please sign in.</html>"
# What is no reply of the server's: what befalls its bytes, and pages with their status and kind.
MISSES: list[Any] = [ConnectionResetError(), http.client.IncompleteRead(b""), http.client.BadStatusLine("")]
MISSES += [NotTheServer("in chunks"), (502, "text/html", PAGE), (200, "text/html", PAGE), (404, "text/html", PAGE)]
MISSES += [(200, "application/json", b'{"status":"ok"}'), (404, "application/json", b'{"message":"no route"}')]
MISSES += [(200, "application/json", b'{"chip":"ffffffffffff","state":"shipped"}')]

# Each wrong machine that the laws refuse, as a wrong seat: what stands in its text, and what then.
DONE = """self._state.keep(next=number + 1, under_way=None, last={**asked, "reply": body}, late=[])"""
LOGGED = """        if self._journal:
            self._journal.answered(number, status, body)
"""
REFUSED = 'changes = {"under_way": None, "late": self._state.late_with(asked)}'
COPIES = "self._journal.answered(number, refused.status, refused.body)\n            changes"
REPEATED = "            self._complete(is_repeat=True)\n"
ASKED = """            if self._journal:
                self._journal.asked(asked["path"], asked["body"], asked.get("reason", ""))
"""
SENT = '            status, body, again = self._posted(asked["path"], asked["body"])\n'
TOLD = """if refused.no != WRONG_NUMBER or "expected" not in refused.more:
            raise refused
        return refused

    @_in_turn
    def expected_number(self) -> int:
        \"\"\"The number that the server expects of the seat. Nothing is changed.\"\"\"
        expected: int = self._number_refused().more["expected"]"""
WRONG = {
    "a_kept_one_is_tried_with_the_next_number": (
        'self._posted(late["path"], late["body"])',
        'self._posted(late["path"], _body_of(self._state.next + 1, members_of(late)))',
    ),
    "a_look_keeps_what_is_aside": (" if number == own else []", ""),
    "a_lost_file_begins_with_1": ("self._state.next or self._number_of_new_file()", "self._state.next or 1"),
    "a_refusal_of_a_copy_is_the_requests": (COPIES, COPIES.replace("refused", "(stop or refused)")),
    "a_repeat_takes_the_next_number": (
        REPEATED,
        """
            asked = self._state.under_way
            self._state.keep(next=self._state.next + 1, under_way=None)
            self.post(asked["path"], members_of(asked))
""",
    ),
    "a_request_is_sent_before_its_line": (f"{ASKED}{SENT}", f"{SENT}{ASKED}"),
    "a_start_drops_what_is_under_way": (REPEATED, "            self._state.keep(under_way=None)\n"),
    "accepted_request_leaves_its_number": (DONE, DONE.replace("number + 1", "number")),
    "any_refusal_tells_the_number": (
        TOLD,
        TOLD.replace("!= WRONG_NUMBER or", "> WRONG_NUMBER and").replace('["expected"]', '.get("expected", 0)'),
    ),
    "file_is_written_before_the_log": (f"{LOGGED}        {DONE}\n", f"        {DONE}\n{LOGGED}"),
    "first_sending_comes_before_the_file": (
        "self._state.keep(next=number, under_way=",
        "self._posted(path, body), self._state.keep(next=number, under_way=",
    ),
    "late_copy_is_not_in_the_log": ("            self._journal.answered(number, 200, reply)\n", ""),
    "late_copy_keeps_the_number": ("_body_of(number + 1, members_of(asked))", "_body_of(number, members_of(asked))"),
    "refused_request_is_forgotten": (REFUSED, REFUSED.replace("late_with(asked)", "late")),
    "refused_request_takes_a_number": (REFUSED, REFUSED.replace("{", '{"next": number + 1, ')),
}

Choose = Callable[[str, bool], str]


class Killed(BaseException):
    """The station is killed."""


class Differs(AssertionError):
    """The seat does otherwise than the machine."""


class Machine:
    """What a station is and does by the vectors; `shift` makes its number of that of the vectors. Without a number it
    asks for that once it is asked for something, `wanted`, and joins the write of both."""

    def __init__(self, words: str = "unknown; nothing"):
        self.words, self.shift, self.wanted = words, FIRST - NUMBER, 1

    def take(self, event: str) -> list[str]:
        """What the station does at an event, whose state is another one then."""
        is_first = self.words.startswith("unknown") and event.startswith("refuse 11")
        acts = self._taken(event)
        return self._taken(f"want {self.wanted}") if is_first else acts

    def _taken(self, event: str) -> list[str]:
        acts, words = ROWS[self.words].get(event, ("", self.words))
        shift, place = self.shift, re.match(r"(?:free|under way) (\d+)", words)
        if place:
            self.shift += int(place[1]) - NUMBER
            words = words.replace(f" {place[1]}", f" {NUMBER}", 1)
        self.words = words
        shifted = lambda it: f"{it[1]} {int(it[2]) + shift}"
        return [re.sub(r"^(log|send|show stopped 11) (\d+)", shifted, act) for act in acts.split("; ") if act]


def befalling(words: str, is_sent: bool) -> list[str]:
    """What may befall a station which has one call at a time: it hears a reply to what it sent, and is asked for
    something where it waits for none."""
    file, waits = words.split("; ")
    own = re.match(r"under way \d+ (\d+)", file)
    if is_sent:
        return [it for it in ROWS[words] if not it.startswith("want") and (it != "look" or file != "unknown")]
    is_asked = "stopped" in file or waits == "nothing"
    wants = [it for it in ROWS[words] if it.startswith("want") and (is_asked or own and it != f"want {own[1]}")]
    return ["start"] if file == "unknown" else ["start", "look", *wants]


def walk() -> Iterator[list[str]]:
    """The first events that lead such a station to each state, with each that may befall it there."""
    ways = [("unknown; nothing", False, list[str]())]
    for words, is_sent, events in ways:
        for event in befalling(words, is_sent):
            yield [*events, event]
            machine = Machine(words)
            acts = machine.take(event)
            way = machine.words, bool(acts) and acts[-1].startswith(("send", "ask"))
            if way not in (known[:2] for known in ways):
                ways.append((*way, [*events, event]))


class Run:
    """A seat that is befallen by what is chosen, and held to the machine at each act. `kills` is how often it is killed
    behind one. It is the seat's journal, whose lines are acts, and its clock, whose pauses are."""

    def __init__(self, seat: type, file: Path, choose: Choose, chance: random.Random, kills: float = 0):
        self.seat, self.file, self.choose, self.chance, self.kills = seat, file, choose, chance, kills
        self.machine, self.now, self.following = Machine(), 0.0, ""
        self.due, self.sent = list[str](), dict[tuple[int, int], bytes]()
        self.station: Any = None

    def act(self, told: str) -> None:
        if self.due[:1] != [told]:
            raise Differs(f"{told} in place of {self.due} at {self.machine.words}")
        self.due.pop(0)
        if self.chance.random() < self.kills:
            raise Killed

    def monotonic(self) -> float:
        return self.now

    def sleep(self, _: float) -> None:
        self.act("pause")

    def asked(self, _path: str, body: str, _reason: str = "") -> None:
        members = json.loads(body)
        self.act(f"log {members['nr']} {int(members['chip'], 16)}")

    def answered(self, number: int, status: int, body: dict[str, Any]) -> None:
        self.act(f"log {number} {'done 90' if status == 200 else 'not %d' % body['no']}")

    def resynchronized(self, number: int) -> None:
        self.act(f"log {number}")

    def take(self, event: str) -> None:
        self.before = self.machine.words, self.machine.shift
        self.due = self.machine.take(event)

    def once(self, _method: str, target: str, body: bytes) -> tuple[int, str, bytes]:
        """The reply to what is sent, if there is one."""
        members = json.loads(body)
        number, name = members["nr"], int(members["chip"], 16)
        self.act("ask" if number == FAR else f"send {number} {name}")
        if target != "/v1/ship" or self.sent.setdefault((number, name), body) != body:
            raise Differs(f"other bytes: {body!r}")
        event = self.choose(self.machine.words, True)
        if event in ("start", "look"):
            self.following = event
            raise Killed
        shift = self.machine.shift
        self.take(event)
        return self.reply(event, members["chip"], shift)

    def reply(self, event: str, chip: str, shift: int) -> tuple[int, str, bytes]:
        word, *numbers = event.split()
        if word == "accept":
            return 200, "application/json", json.dumps({"chip": chip, "state": "shipped"}).encode()
        if word == "refuse":
            no, expected = map(int, numbers)
            told = {"no": no, "error": "e"} | ({"expected": expected + shift} if no == 11 else {})
            return STATUSES[no], "application/json", json.dumps(told).encode()
        self.now += 10**6 if word == "give" else 0
        miss = self.chance.choice(MISSES)
        if isinstance(miss, Exception):
            raise miss
        found: tuple[int, str, bytes] = miss
        return found

    def reopened(self) -> Any:
        """The seat of a process that has just started."""
        self.station.close() if self.station else None
        late = lambda told: self.act(f"show late {int(re.findall('chip ([0-9a-f]{12})', told)[0], 16)}")
        self.station = self.seat("http://127.0.0.1:9", "abc", self.file, 1000, journal=self, tell=late)
        keep = self.station._state.keep
        self.station._state.keep = lambda **changes: (keep(**changes), self.act("write"))
        self.station._server.once, self.station._server._is_kept = self.once, lambda: False
        return self.station

    def call(self, event: str) -> str:
        """What a call tells its caller, in the machine's words; nothing where the machine tells nothing."""
        word, _, name = event.partition(" ")
        is_want = bool(name) or self.machine.words.startswith("unknown")
        self.machine.wanted = int(name or self.machine.wanted)
        self.take(event)
        try:
            if is_want:
                reply = (self.station or self.reopened()).post("/v1/ship", {"chip": f"{self.machine.wanted:012x}"})
            else:
                done = self.reopened().finish() if word == "start" else self.reopened().resynchronize()
                reply = done and done.reply
        except OutOfStep as stop:
            return f"show stopped {stop.no} {stop.more.get('expected', 0)}"
        except Refused as refused:
            return f"refused {refused.no}"
        except UnderWay:
            return "show busy"
        except (NoReply, NotTheServer):
            return "show waits"
        return f"tell {int(reply['chip'], 16)} done 90" if reply and self.due else ""

    def step(self) -> None:
        """One call, or a kill in one."""
        event = self.following or self.choose(self.machine.words, False)
        self.following = ""
        try:
            told = self.call(event)
        except Killed:
            if "write" in self.due:
                self.machine.words, self.machine.shift = self.before
            self.following = self.following or self.chance.choice(befalling(self.machine.words, False)[:2])
            told, self.due = "", []
        due = [re.sub(r"tell \d+ not|show unsure", "refused", act) for act in self.due]
        if due != [told] * bool(told):
            raise Differs(f"{told} in place of {due} at {self.machine.words}")
        self.test_file()

    def test_file(self) -> None:
        """The file is what the machine's is."""
        kept = json.loads(self.file.read_bytes()) if self.file.exists() else None
        words, shift = self.machine.words.partition(";")[0], self.machine.shift
        words = re.sub(r"^([a-z ]+) (\d+)", lambda it: f"{it[1]} {int(it[2]) + shift}", words)
        if told_of(kept) != re.sub(r"stopped (\d+) \d+", r"stopped \1", words):
            raise Differs(f"{told_of(kept)} in place of {words}")


def told_of(kept: Optional[dict[str, Any]]) -> str:
    """A state file in the machine's words."""
    if kept is None:
        return "unknown"
    name_of = lambda it: int(json.loads(it["body"])["chip"], 16)
    way = kept["under_way"]
    place = f"under way {kept['next']} {name_of(way)}" if way else f"free {kept['next']}"
    aside = "".join(f", aside {name_of(it)}" for it in kept["late"])
    return place + aside + (f", stopped {kept['stop']['body']['no']}" if kept["stop"] else "")


@contextlib.contextmanager
def over(run: Run) -> Iterator[Run]:
    """A run by its own clock, from no file on."""
    run.file.unlink(missing_ok=True)
    with pytest.MonkeyPatch.context() as patch:
        patch.setattr(wanekupo.seat.connection, "time", run)
        patch.setattr("os.fsync", lambda _: None)
        try:
            yield run
        finally:
            run.station.close() if run.station else None


def walked(seat: type, file: Path, events: list[str]) -> None:
    """A run whose events are given; it is killed behind the last."""
    left = deque(events)
    choose = lambda words, is_sent: left.popleft() if left else "start"
    with over(Run(seat, file, choose, random.Random(len(events)))) as run:
        while left:
            run.step()


@pytest.fixture(name="file")
def state_file() -> Iterator[Path]:
    """A state file in memory, where there is such a folder."""
    with tempfile.TemporaryDirectory(dir="/dev/shm" if os.access("/dev/shm", os.W_OK) else None) as folder:
        yield Path(folder) / "a1.json"


def test_each_state_and_event(file: Path) -> None:
    walks = list(walk())
    assert len(walks) > 2000
    for events in walks:
        walked(Station, file, events)


def test_random_runs(file: Path) -> None:
    """What befalls the seat is anything, and it is killed behind some acts."""
    chance = random.Random(93)
    choose = lambda words, is_sent: chance.choice(befalling(words, is_sent))
    for _ in range(RUNS):
        with over(Run(Station, file, choose, chance, kills=0.02)) as run:
            run.machine.wanted = chance.choice((1, 2))
            for _ in range(CALLS):
                run.step()


def test_the_oldest_is_forgotten() -> None:
    """The newest sixteen are kept, and one that is refused again is the newest."""
    state, asked = StateFile(None, "abc"), [{"path": "/v1/ship", "body": f'{{"nr":7,"chip":{it}}}'} for it in range(18)]
    state._data |= {"next": 7}
    for it in (*asked, asked[2]):
        state._data["late"] = state.late_with(it)
    assert state.late == [*asked[3:], asked[2]]


def wrong_seat(name: str) -> Any:
    text, (old, new) = Path(wanekupo.seat.station.__file__).read_text("utf-8"), WRONG[name]
    assert text.count(old) == 1
    module = types.ModuleType(name)
    exec(compile(text.replace(old, new), name, "exec"), module.__dict__)
    return module.Station


@pytest.mark.parametrize("name", sorted(WRONG))
def test_a_wrong_seat(file: Path, name: str) -> None:
    seat = wrong_seat(name)
    with pytest.raises(Differs):
        for events in walk():
            walked(seat, file, events)


def test_wrong_machines() -> None:
    rules = (TOP / "crates/seat_core/must-fail").glob("*.rule.md")
    assert {rule.name.partition(".")[0] for rule in rules} == set(WRONG)
