"""The stations' clocks: which entries are surely outside of a period, and which times contradict the store's order.

A store gives its entries ids in the order in which they were committed, each between the moment at which its line was
asked and the one at which it was answered. So of two entries the one with the smaller id was asked before the other one
was answered, as far as both clocks go alike. No time is believed alone: any may have been changed.
"""

from __future__ import annotations

from array import array
from bisect import bisect_right
from dataclasses import dataclass
from typing import Any, Iterable, Iterator, NamedTuple, Sequence

from wanekupo.books.scratch import Sorted
from wanekupo.books.shift import Period, seconds_between
from wanekupo.books.steps import Step, Steps, digits_of

# By how many seconds the clocks of two stations may differ, and a station's be ahead of the auditor's.
APART, AHEAD = 60, 3600

# When a request was answered whose reply never came.
NEVER = "9999-12-31T23:59:59Z"

# The id of an entry, and its line.
Timed = tuple[int, Step]


class Pairs(Sequence[Timed]):
    """The ids of entries with their lines, which are on the disk; behind `end` in the order of the ids."""

    def __init__(self) -> None:
        self._rows = Sorted(3, 1)
        self._homes, self._columns = dict[int, Steps](), [array("q"), array("q"), array("i")]

    def append(self, number: int, step: Step) -> None:
        assert step.home is not None
        self._homes[id(step.home)] = step.home
        self._rows.put([(number, id(step.home), step.place_of)])

    def end(self) -> None:
        for row in self._rows:
            for column, it in zip(self._columns, row):
                column.append(it)

    def __len__(self) -> int:
        return len(self._columns[0])

    def __getitem__(self, place: Any) -> Any:
        number, home, at = (column[place] for column in self._columns)
        return number, self._homes[home].at(at)


@dataclass(frozen=True)
class Window:
    """The ids that are surely before a period and surely behind it: between two lines that say so, where no line
    between them and the period says otherwise."""

    before: tuple[int, int] = (0, 0)
    behind: tuple[int, int] = (0, 0)

    def is_outside(self, number: int) -> bool:
        return any(first < number < last for first, last in (self.before, self.behind))


def window_of(pairs: Sequence[Timed], period: Period) -> Window:
    """The ids that are outside of a period, by pairs that come in the order of their ids."""
    count = len(pairs)
    first = next((place for place in range(count) if pairs[place][1].at >= period.start), count)
    last = next((place for place in reversed(range(count)) if pairs[place][1].at < period.end), -1) + 1
    before = (pairs[0][0], pairs[first - 1][0]) if first else (0, 0)
    behind = (pairs[last][0], pairs[-1][0]) if last < count else (0, 0)
    return Window(before, behind)


class Contradiction(NamedTuple):
    """A line whose time can't be, and the one beside which it can't. `is_late`: its entry was written before that of
    the other one, which was answered when this one wasn't asked yet; else the other way round."""

    step: Step
    other: Step
    is_late: bool

    def told(self) -> str:
        its, others = f"its entry was written {'before' if self.is_late else 'behind'} that of", self.other.place()
        if self.is_late:
            return f"has {self.step.at}, and {its} {others}, which was answered at {end_of(self.other)}"
        return f"was answered at {end_of(self.step)}, and {its} {others}, which was asked at {self.other.at}"

    def is_of(self, period: Period) -> bool:
        """Whether it matters to a period: not where both lines are before it, or both behind it."""
        times = sorted((self.step.at, self.other.at))
        return times[1] >= period.start and times[0] < period.end


def clock_contradictions(pairs: Sequence[Timed]) -> Iterator[Contradiction]:
    """The lines whose times contradict the longest run of lines whose times don't fall along the ids. Pairs come in the
    order of their ids, and so do these."""
    begins, ends = array("q"), array("q")
    for _, step in pairs:
        begins.append(digits_of(begin_of(step)))
        ends.append(digits_of(end_of(step)))
    run = longest_run(begins)
    answered = _answered_behind(ends, run)
    latest: int = -1
    for place, (_, step) in enumerate(pairs):
        behind = answered[place]
        if run[place]:
            latest = place
        elif behind >= 0 and is_behind(begin_of(step), end_of(pairs[behind][1])):
            yield Contradiction(step, pairs[behind][1], True)
        elif latest >= 0 and is_behind(begin_of(pairs[latest][1]), end_of(step)):
            yield Contradiction(step, pairs[latest][1], False)


def begin_of(step: Step) -> str:
    """When a request was first asked."""
    return step.since or step.at


def end_of(step: Step) -> str:
    return (step.answered if step.is_done() else "") or NEVER


def is_behind(at: str, other: str) -> bool:
    return at > other and seconds_between(other, at) > APART


def _answered_behind(ends: Sequence[int], run: bytearray) -> array[int]:
    """For each place the one of the run behind it that was answered first; -1 where there is none."""
    found, first = array("i", [-1]) * len(ends), -1
    for place in reversed(range(len(ends))):
        found[place] = first
        if run[place] and (first < 0 or ends[place] < ends[first]):
            first = place
    return found


def longest_run(times: Sequence[Any]) -> bytearray:
    """Which times are of a longest run that doesn't fall: 1 at their places."""
    places, before = array("i"), array("i")
    for place, at in enumerate(times):
        length = bisect_right(places, at, key=times.__getitem__)
        before.append(places[length - 1] if length else -1)
        places[length : length + 1] = array("i", [place])
    run, place = bytearray(len(times)), places[-1] if places else -1
    while place >= 0:
        run[place] = 1
        place = before[place]
    return run


class ToCome(NamedTuple):
    """A line of a time to come, or with a reply of such a time, by the auditor's clock."""

    step: Step
    now: str

    def told(self) -> str:
        at = max(self.step.at, self.step.answered)
        return f"has {at}, and this machine's clock has {self.now}: that is a time to come"


def to_come(steps: Iterable[Step], now: str) -> Iterator[ToCome]:
    """The lines of a time to come, as no honest line has it."""
    late = ((it, max(it.at, it.answered)) for it in steps)
    return (ToCome(it, now) for it, at in late if at > now and seconds_between(now, at) > AHEAD)
