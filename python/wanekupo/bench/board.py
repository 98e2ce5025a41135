"""What a bench shows: its sockets, the shift's counts, the server, what is under way, and why the line stands.

Threads of the sockets change it, screen and page look at it. It writes and sends nothing.
"""

from __future__ import annotations

import threading
import time
from collections import Counter
from dataclasses import dataclass, field, replace
from typing import Any, Mapping, Optional, Sequence

from wanekupo.bench.endings import AGAIN, ENDINGS, NO_LABEL, PASS, RED, Ended, Ending
from wanekupo.bench.words import reason_said, said, step_said

# The states of a socket. A chip that is shipped and has no label is neither green nor red.
WAITING, WORKING, PASSED, FAILED, LABEL = "waiting", "working", "PASS", "FAIL", "LABEL"
RESULTS = (PASSED, FAILED, LABEL)

# Where a chip goes, by the effect of its ending, and by its name where that says more; else somebody is called.
BOXES = {PASS: "green", RED: "red", AGAIN: "again"}
OWN_BOXES = {NO_LABEL: "again", "no_serial": "red", "gave_way": "red"}
OWN_BOXES |= {"shipped_before": "ask", "other_order": "ask", "not_released": "ask", "no_dump": "ask"}

# How many of the last chips are shown.
MOST_LAST = 10


@dataclass(frozen=True)
class Socket:
    """A socket's state, with the step of a chip that is worked on, and the sentence of one that ended: where it goes,
    and how many seconds it took. One that waits has its last result in `was`."""

    name: str
    state: str = WAITING
    step: str = ""
    chip: str = ""
    serial: str = ""
    sentence: str = ""
    reason: str = ""
    since: float = 0.0
    box: str = ""
    took: float = 0.0
    was: str = ""

    def emptied(self, told: str) -> Socket:
        """It waits for the next chip, and still shows how the last one ended. One that was begun here stays named."""
        was = self.state if self.state in RESULTS else self.was
        if self.is_begun():
            told = told or self.sentence
        return replace(self, state=WAITING, step="", sentence=told, since=time.time(), was=was)

    def is_begun(self) -> bool:
        """Whether a chip was begun here before this start, and is to come again: no result is shown above it."""
        return self.state == WAITING and not self.was and self.box == BOXES[AGAIN]


@dataclass(frozen=True)
class Failure:
    """A chip that failed: at which step, why, and in which socket. One whose name couldn't be read has none."""

    step: str
    reason: str
    socket: str
    chip: str = ""


@dataclass(frozen=True)
class Before:
    """Why a chip's earlier stay failed, and when; without a time it was on another bench."""

    reason: str
    at: str = ""


@dataclass(frozen=True)
class ShiftCounts:
    """The counts of a shift, of chips and not of stays: since when, how many passed, how many failed by the reasons of
    their last stays, the last ones that failed with none between that passed, and how many passed at first."""

    since: str
    passed: int = 0
    failed: Mapping[str, int] = field(default_factory=dict)
    row: tuple[Failure, ...] = ()
    first: int = 0

    def with_ending(self, ended: Ended, last: Socket, before: Optional[Before]) -> ShiftCounts:
        """The counts behind one stay more. A chip that failed before counts anew, by this stay. One that is shipped and
        has no label has passed, and doesn't pass again with its label."""
        ending, failed, row = ended.ending, Counter(self.failed), self.row
        has_passed = before is not None and before.reason == NO_LABEL
        is_new, is_failed = (it and not has_passed for it in (ending.is_shipped(), ending.is_failure()))
        if before and before.at >= self.since and (is_new or is_failed):
            failed[before.reason] -= 1
        if is_failed:
            failed[ending.name] += 1
        if ending.counts():
            others = [it for it in row if not last.chip or it.chip != last.chip]
            row = (*others, Failure(last.step, ending.name, last.name, last.chip))
        row = () if ending.name == "passed" else row
        first = self.first + (is_new and not before)
        return ShiftCounts(self.since, self.passed + is_new, dict(+failed), row, first)


def state_of(ending: Ending) -> str:
    """What a socket shows of an ending."""
    return PASSED if ending.effect == PASS else LABEL if ending.name == NO_LABEL else FAILED


def box_of(ending: Ending) -> str:
    """Where the chip goes, as the words' table of boxes has it."""
    return OWN_BOXES.get(ending.name, BOXES.get(ending.effect, "call"))


def ended_socket(name: str, ended: Ended, step: str, chip: str, serial: str, order: str, took: float = 0) -> Socket:
    """A socket whose chip has ended so."""
    ending = ended.ending
    sentence = ending.sentence(**{"order": order, "step": step, **ended.facts})
    box = box_of(ending)
    return Socket(name, state_of(ending), step, chip, serial, sentence, ending.name, time.time(), box, round(took, 1))


def begun_socket(name: str, chip: str) -> Socket:
    """A socket in which a chip was begun before this start: the word and the name are its own, and no old result."""
    return Socket(name, chip=chip, sentence=said("begun_here", chip=chip), since=time.time(), box=BOXES[AGAIN])


def in_common(row: Sequence[Failure]) -> str:
    """What chips that failed in a row have in common: their step, their reason, their socket."""
    steps, reasons, sockets = ({getattr(it, name) for it in row} for name in ("step", "reason", "socket"))
    told = [said("one_step", step=step_said(steps.pop())) if len(steps) == 1 else said("no_step")]
    told += [said("one_reason", reason=reason_said(reasons.pop()))] if len(reasons) == 1 else []
    return ", ".join(told + ([said("one_socket", socket=sockets.pop())] if len(sockets) == 1 else []))


class Board:
    """`rest` is how many serial numbers of the order are left, None where that isn't known yet. `steps` are those of a
    chip's life in their order, `last` the chips that ended last, the newest first."""

    def __init__(
        self,
        product: str,
        order: str,
        sockets: Sequence[Socket],
        start: str,
        shift: ShiftCounts,
        steps: Sequence[str] = (),
        operator: str = "",
        last: Sequence[Socket] = (),
    ):
        self._changed = threading.Condition()
        self._product, self._order, self._start = product, order, start
        self._steps, self._operator, self._last = list(steps), operator, list(last)[:MOST_LAST]
        self._sockets = {it.name: it for it in sockets}
        self._shift, self._rest = shift, None  # type: tuple[ShiftCounts, Optional[int]]
        self._away: Optional[tuple[float, str]] = None
        self._stopped, self._notice, self._version = "", "", 0
        self._question: Optional[Mapping[str, Any]] = None
        self._under_way: dict[str, Mapping[str, str]] = {}

    # What threads tell.

    def _set(self, **changes: Any) -> None:
        with self._changed:
            for name, found in changes.items():
                setattr(self, f"_{name}", found)
            self._version += 1
            self._changed.notify_all()

    def _set_socket(self, socket: Socket) -> None:
        with self._changed:
            self._set(sockets={**self._sockets, socket.name: socket})

    def waiting(self, name: str, told: str = "") -> None:
        """The socket has room for a chip; `told` is what is to be said beside."""
        found = self.socket(name)
        emptied = found.emptied(told)
        if (found.state, found.sentence) != (WAITING, emptied.sentence):
            self._set_socket(emptied)

    def working(self, name: str, step: str, chip: str, serial: str) -> None:
        """A chip is at a step, since it was begun."""
        found = self.socket(name)
        since = found.since if found.state == WORKING else time.time()
        self._set_socket(Socket(name, WORKING, step, chip, serial, since=since))

    def seconds(self, name: str) -> float:
        """How long the chip in a socket has been worked on."""
        found = self.socket(name)
        return max(0.0, time.time() - found.since) if found.state == WORKING else 0.0

    def ended(self, last: Socket) -> None:
        """A chip's stay in a socket is at its end."""
        with self._changed:
            if last.chip:
                self._last = [last, *self._last][:MOST_LAST]
            self._set_socket(last)

    def scrapped(self, chip: str) -> None:
        """A chip of the red box is given up: the socket that shows it says so."""
        with self._changed:
            for it in self._sockets.values():
                if it.chip == chip and it.state in (FAILED, WAITING):
                    self._set_socket(replace(it, sentence=said("scrap_here"), reason="scrapped", box="red"))

    def works(self, operator: str) -> None:
        """Who works here from now on."""
        self._set(operator=operator)

    def counted(self, shift: ShiftCounts) -> None:
        self._set(shift=shift)

    def left(self, rest: int) -> None:
        self._set(rest=rest)

    def away(self, why: str) -> None:
        """The server doesn't answer, or something else does."""
        with self._changed:
            since = self._away[0] if self._away else time.time()
            if self._away != (since, why):
                self._set(away=(since, why))

    def there(self) -> None:
        if self._away:
            self._set(away=None)

    def stop(self, why: str) -> None:
        """The line stands: no chip is begun until a person has it go on. The first reason stays."""
        with self._changed:
            if not self._stopped:
                self._set(stopped=why)

    def go_on(self) -> None:
        self._set(stopped="", notice="")

    def notice(self, told: str) -> None:
        """What is said to who scanned or typed."""
        self._set(notice=told)

    def ask(self, text: str, answers: Sequence[str]) -> None:
        """A question that a person answers by one of these words, or by what it asks for. Without a text it is gone."""
        if text:
            self._set(question={"text": text, "answers": list(answers)}, notice="")
        else:
            self._set(question=None)

    def under_way(self, chips: Mapping[str, Mapping[str, str]]) -> None:
        """The chips that were begun before this start and haven't ended yet, with their sockets and steps. A socket
        that named another one has nothing to say of it any more."""
        with self._changed:
            gone = [it.name for it in self._sockets.values() if it.is_begun() and it.chip not in chips]
            self._set(under_way=dict(chips), sockets={**self._sockets, **{name: Socket(name) for name in gone}})

    # What is shown.

    def socket(self, name: str) -> Socket:
        with self._changed:
            return self._sockets[name]

    def is_stopped(self) -> bool:
        return bool(self._stopped)

    def changed_since(self, version: int, seconds: float) -> int:
        """Waits so long for another version than this, and gives it."""
        with self._changed:
            self._changed.wait_for(lambda: self._version != version, seconds)
            return self._version

    def shown(self) -> dict[str, Any]:
        """All of it, as JSON has it."""
        with self._changed:
            away, shift = self._away, self._shift
            counts = {"passed": shift.passed, "first": shift.first, "failed": dict(shift.failed)}
            return {
                "version": self._version,
                "now": time.time(),
                "product": self._product,
                "order": self._order,
                "start": self._start,
                "operator": self._operator,
                "rest": self._rest,
                "steps": len(self._steps),
                "sockets": [self._shown(it) for it in self._sockets.values()],
                "last": [vars(it) for it in self._last],
                "shift": {"since": shift.since, **counts},
                "away": {"since": away[0], "why": away[1]} if away else None,
                "stopped": self._stopped,
                "notice": self._notice,
                "question": self._question,
                "under_way": [
                    {"chip": chip, **more, "step": step_said(more["step"])} for chip, more in self._under_way.items()
                ],
            }

    def _shown(self, socket: Socket) -> dict[str, Any]:
        """A socket, with the place of its step among all."""
        place = self._steps.index(socket.step) + 1 if socket.step in self._steps else 0
        ending = ENDINGS.get(socket.reason) if socket.state == FAILED and socket.chip else None
        scraps = ending is not None and ending.may_be_scrapped()
        return {**vars(socket), "step": step_said(socket.step), "place": place, "scraps": scraps}
