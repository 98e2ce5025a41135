"""How many serial numbers orders have left, by a report of now."""

from dataclasses import dataclass, replace
from typing import Iterable, Optional

from wanekupo.books.shift import OrderCounts, Key, ShiftReport
from wanekupo.books.steps import named
from wanekupo.seat.settings import Settings, looking_station_of


def asked(settings: Settings, words: Iterable[str]) -> dict[Key, int]:
    """The rest of each order, by a token that looks for each customer: a file, or `acme=FILE`."""
    found = {}
    for word in words:
        it = named(word)
        with looking_station_of(replace(settings, token=it.path)) as station:
            for order, counts in station.report().items():
                found[it.customer, order] = counts["serials_left"]
    return found


@dataclass(frozen=True)
class Rest:
    """What an order has left. `hours` is how long that lasts as fast as in this shift."""

    customer: str
    order: str
    left: int
    given: int
    hours: Optional[float]
    told: str


def rests(shift: ShiftReport, left: dict[Key, int]) -> list[Rest]:
    """What is left of each order that the shift touched, and of those that are used up, the shortest first. Of a
    customer without a name the orders of any customer count, where only one has an order of that name."""
    found = []
    for (customer, order), counts in shift.orders.items():
        rest = _rest_of(left, customer, order)
        if rest is not None:
            found.append(_told(customer, order, rest, counts, shift.period.hours()))
    return sorted(found, key=lambda it: (it.hours is None, it.hours or 0.0, it.customer, it.order))


def _rest_of(left: dict[Key, int], customer: str, order: str) -> Optional[int]:
    for key in ((customer, order), ("", order)):
        if key in left:
            return left[key]
    others = [rest for (_, name), rest in left.items() if name == order]
    return others[0] if not customer and len(others) == 1 else None


def _told(customer: str, order: str, rest: int, counts: OrderCounts, hours: float) -> Rest:
    """An order, with what is to be said of it: it has none left, or less than another shift like this one takes."""
    given = counts.identified
    lasts = rest * hours / given if given else None
    told = "has none left" if rest == 0 else "runs out in the next shift" if rest <= given else ""
    return Rest(customer, order, rest, given, lasts, told)
