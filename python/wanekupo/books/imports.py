"""What a customer's imports brought, and which of them another seat made at the same time."""

from bisect import bisect_left, bisect_right, insort
from functools import lru_cache
from itertools import chain
from typing import Iterable, Iterator, Mapping, Sequence

from wanekupo.books.clocks import APART, begin_of, end_of
from wanekupo.books.steps import Step
from wanekupo.common.moments import moment_of
from wanekupo.seat.import_rows import rows_of

ORDER, IMPORT = "/v1/order", "/v1/import"

# A serial number behind its issuer; or all that begin with an order's prefix, with one more word.
Name = tuple[str, ...]

# A request and its seat.
Asked = tuple[str, Step]


@lru_cache
def _imported(issuer: str, csv: str) -> dict[tuple[str, str], str]:
    try:
        return {(issuer, serial): key.lower() for serial, key in rows_of(csv)}
    except ValueError:
        return {}


def imported_by(step: Step) -> Mapping[tuple[str, str], str]:
    """The serial numbers of an import, each behind its issuer, and their keys' digests; nothing of another request."""
    words = str(step.asked.get("issuer")), str(step.asked.get("csv"))
    return _imported(*words) if step.path == IMPORT else {}


def _span_of(step: Step) -> tuple[float, float]:
    begin = moment_of(begin_of(step)).timestamp()
    return begin, max(begin, moment_of(end_of(step)).timestamp())


class ImportTimes:
    """When the imports of what several seats imported began and ended, in seconds, each in order."""

    def __init__(self, asked: Sequence[Asked]):
        orders = [self._order_name(step) for _, step in asked if step.path == ORDER]
        self._orders, self._lengths = frozenset(orders), sorted({len(prefix) for _, prefix, _ in orders})
        seats, self._times = dict[Name, str](), dict[Name, dict[str, tuple[list[float], list[float]]]]()
        for seat, name, _ in self._names(asked):
            seats[name] = seat if seats.get(name, seat) == seat else ""
        for seat, name, step in self._names(asked):
            if not seats[name]:
                times = self._times.setdefault(name, {}).setdefault(seat, ([], []))
                for its, at in zip(times, _span_of(step)):
                    insort(its, at)

    def _names(self, asked: Iterable[Asked]) -> Iterator[tuple[str, Name, Step]]:
        """Each row of the imports, and each order's prefix that one begins with."""
        for seat, step in asked:
            rows = imported_by(step)
            heads = {(issuer, serial[:it], "") for issuer, serial in rows for it in self._lengths}
            yield from ((seat, name, step) for name in chain(rows, heads & self._orders))

    @staticmethod
    def _order_name(step: Step) -> tuple[str, str, str]:
        return str(step.asked.get("issuer")), str(step.asked.get("prefix")), ""

    def unsure(self, seat: str, step: Step) -> int:
        """How many rows that are counted in a reply another seat imported at the same time: nobody knows which came
        first. Of an order it is whether there is one."""
        begin, end = _span_of(step)
        names: Iterable[Name] = [self._order_name(step)] if step.path == ORDER else imported_by(step)
        others = ([its for other, its in self._times.get(it, {}).items() if other != seat] for it in names)
        return sum(any(_has_beside(its, begin, end) for its in of_row) for of_row in others)


def _has_beside(times: tuple[list[float], list[float]], begin: float, end: float) -> bool:
    """Whether of some spans of time one may lie in front of another one as well as behind it."""
    return bisect_right(times[0], end + APART) > bisect_left(times[1], begin - APART)
