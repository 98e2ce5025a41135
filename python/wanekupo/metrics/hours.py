"""The plant's hours, as `Mon-Fri 06:00-14:00`: whether a moment is in a shift. They are by this machine's clock."""

import re
from dataclasses import dataclass
from datetime import datetime

DAYS = ("Mon", "Tue", "Wed", "Thu", "Fri", "Sat", "Sun")
HOURS = re.compile(r"([A-Z][a-z]{2})(?:-([A-Z][a-z]{2}))? ([01]\d|2[0-3]):([0-5]\d)-([01]\d|2[0-4]):([0-5]\d)")
DAY = 24 * 60


@dataclass(frozen=True)
class ShiftHours:
    """On these days of the week, 0 for Monday, from a minute of the day until another one. Where the end isn't behind
    the beginning the shift ends on the next day."""

    days: frozenset[int]
    start: int
    end: int

    def has(self, moment: datetime) -> bool:
        minute = 60 * moment.hour + moment.minute
        is_today = self.start <= minute < self.end and moment.weekday() in self.days
        return is_today or minute < self.end - DAY and (moment.weekday() - 1) % 7 in self.days


def shift_hours(text: str) -> ShiftHours:
    """As `Mon-Fri 06:00-14:00`, `Sat 06:00-12:00` or `Sun-Thu 22:00-06:00`."""
    found = HOURS.fullmatch(text)
    names = [it for it in (found[1], found[2] or found[1]) if it in DAYS] if found else []
    if not found or len(names) < 2:
        raise ValueError(f"{text!r} are no hours like 'Mon-Fri 06:00-14:00'")
    first, last = map(DAYS.index, names)
    days = frozenset((first + place) % 7 for place in range((last - first) % 7 + 1))
    start, end = 60 * int(found[3]) + int(found[4]), 60 * int(found[5]) + int(found[6])
    if end > DAY:
        raise ValueError(f"{text!r} ends behind 24:00")
    return ShiftHours(days, start, end if end > start else end + DAY)
