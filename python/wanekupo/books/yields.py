"""What the yield is, and how the states of devices look: one definition for the page, the commands and the reports.

`clients/web/yield.html` has the same sentence, the same count and the same looks; a test holds it to this module.
"""

from dataclasses import dataclass
from typing import Iterator, Mapping, Optional

SENTENCE = (
    "The yield is what was shipped, of all that was finished: shipped, or given up. Given up is quarantined, or "
    "scrapped without that. What is under way doesn't count yet."
)


def yield_of(shipped: int, given_up: int) -> Optional[float]:
    """The yield in hundredths, or None where nothing was finished."""
    finished = shipped + given_up
    return 100 * shipped / finished if finished else None


def share(row: Mapping[str, int]) -> str:
    """The yield of a row's counts, as it is shown; nothing where nothing was finished."""
    found = yield_of(row["shipped"], row["given_up"])
    return "" if found is None else f"{found:.1f}"


@dataclass(frozen=True)
class Look:
    """How a state looks in a picture: its colour, and the lines of a tile of 8 by 8 with theirs, so that the states can
    be told apart without any colour too."""

    state: str
    colour: str
    ink: str
    lines: str


# The states of a report in the order of a device's life (`wanekupo.seat.states.REPORTED`).
LOOKS = (
    Look("registered", "#e4e4e4", "#e4e4e4", ""),
    Look("planned", "#f2c14e", "#1a1a1a", "M1 2h2M5 6h2"),
    Look("settled", "#9ecae1", "#1a1a1a", "M0 4h8"),
    Look("identified", "#4292c6", "#ffffff", "M4 0v8"),
    Look("shipped", "#146c2e", "#146c2e", ""),
    Look("quarantined", "#c7361b", "#ffffff", "M-2 2L2 -2M0 8L8 0M6 10L10 6"),
    Look("scrapped", "#404040", "#ffffff", "M0 0L8 8M0 8L8 0"),
)


def patterns() -> Iterator[str]:
    """The tiles of all states for an SVG, by the names that `fill` refers to."""
    for look in LOOKS:
        size = 'width="8" height="8" patternUnits="userSpaceOnUse"'
        ground = f'<rect width="8" height="8" fill="{look.colour}"/>'
        lines = f'<path d="{look.lines}" stroke="{look.ink}" stroke-width="1.5"/>' if look.lines else ""
        yield f'<pattern id="look-{look.state}" {size}>{ground}{lines}</pattern>'


def fill(state: str) -> str:
    """What fills a bar of a state, where the patterns are in the same picture."""
    return f"url(#look-{state})"
