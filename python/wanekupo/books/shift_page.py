"""What a shift looks like: tables for a terminal and for files of comma-separated values, and a page to be printed."""

from typing import Iterator, Optional, Sequence

from wanekupo.books.pages import Table, bars, heading, looks, page, paragraph
from wanekupo.books.numbers_left import Rest
from wanekupo.books.shift import OrderCounts, Key, ShiftReport
from wanekupo.seat.states import LOST
from wanekupo.books.yields import SENTENCE, share

REASONS = (*LOST, "scrapped")
COUNTS = ("begun", "first", "shipped", "given_up")
NUMBERS = frozenset((*COUNTS, *REASONS, "yield", "identified", "left", "lasts_hours", "median_s", "slowest_s"))
NUMBERS |= {"stand_s"}

ORDERS = ("customer", "order", *COUNTS, "yield", *REASONS, "identified")
TIMES = ("median_s", "slowest_s", "slowest_chip", "stand_s", "stand_from")
STATIONS = ("customer", "station", "operators", *COUNTS, *TIMES)
GIVEN_UP = ("time", "customer", "station", "operator", "order", "chip", "reason")
UNDER_WAY = ("customer", "order", "chip", "state", "since", "station")
STOPPED = ("time", "customer", "station", "what", "went_on")
RESTS = ("customer", "order", "left", "identified", "lasts_hours", "what")

FIRST = "First: shipped, each read-back matched at once, and no stay at a bench failed before."
NO_REST = "Not asked: give --left, and this says what the next shift runs out of."


def shift_tables(shift: ShiftReport, rests: Optional[Sequence[Rest]]) -> list[Table]:
    """All tables, by the names of their files."""
    no_rest = NO_REST if rests is None else "None of these orders is known to the server."
    stopped = [(it.at, it.customer, it.station, it.told, it.went_on or "not yet") for it in shift.stopped]
    return [
        Table("orders", "Orders", ORDERS, list(_order_rows(shift)), NUMBERS, "No journal has an order's chip."),
        Table("stations", "Stations", STATIONS, list(_station_rows(shift)), NUMBERS),
        Table("lost", "Chips given up", GIVEN_UP, shift.lost),
        Table("stopped", "Stations out of step, or without a reply", STOPPED, stopped),
        Table("rest", "What the next shift runs out of", RESTS, _rest_rows(rests), NUMBERS, no_rest),
        Table("under_way", "Under way", UNDER_WAY, shift.under_way),
    ]


def _counts(counts: OrderCounts) -> list[object]:
    return [counts.begun, counts.first, counts.shipped, counts.given_up()]


def _order_rows(shift: ShiftReport) -> Iterator[list[object]]:
    """A row for each order that was worked on, and one for all of them."""
    names: list[tuple[Key, OrderCounts]] = [*shift.orders.items()]
    if len(names) > 1:
        names.append((("all", ""), shift.all()))
    for (customer, order), it in names:
        reasons = [it.reasons[reason] for reason in REASONS]
        yield [customer, order, *_counts(it), share(it.as_row()), *reasons, it.identified]


def _station_rows(shift: ShiftReport) -> Iterator[list[object]]:
    for (customer, station), it in shift.stations.items():
        slowest, chip = it.slowest()
        seconds, start, _ = it.stand
        times = [_seconds(it.median()), _seconds(slowest), chip, _seconds(seconds), start]
        yield [customer, station, ", ".join(it.operators), *_counts(it.counts), *times]


def _seconds(count: Optional[float]) -> str:
    return "" if count is None else f"{count:.0f}"


def _rest_rows(rests: Optional[Sequence[Rest]]) -> list[list[object]]:
    return [
        [it.customer, it.order, it.left, it.given, "" if it.hours is None else f"{it.hours:.1f}", it.told]
        for it in rests or ()
    ]


def _head(shift: ShiftReport) -> str:
    total = shift.all()
    told = f"{total.begun} begun, {total.shipped} shipped, {total.given_up()} given up"
    found = share(total.as_row())
    return f"{told}, {len(shift.under_way)} under way. Yield: {f'{found} %' if found else 'nothing finished'}."


def as_text(shift: ShiftReport, shown: Sequence[Table]) -> str:
    period = f"from {shift.period.start} to {shift.period.end}"
    return "\n".join([period, _head(shift), "", *(table.as_text() for table in shown), f"{SENTENCE} {FIRST}", ""])


def as_html(shift: ShiftReport, shown: Sequence[Table]) -> str:
    """The page of the shift, with a bar for each order by the states in which its chips are at the end."""
    states = {" ".join(filter(None, key)) or "order unknown": dict(it.states) for key, it in shift.orders.items()}
    parts = [
        paragraph(f"From {shift.period.start} to {shift.period.end}, by the stations' clocks."),
        paragraph(_head(shift), "verdict"),
        paragraph(f"{SENTENCE} {FIRST}"),
        heading("Chips of this shift, as it left them"),
        looks(),
        bars(states),
        *(table.as_html() for table in shown),
    ]
    return page(f"Shift {shift.period.start} to {shift.period.end}", parts)
