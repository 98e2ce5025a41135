"""The states of a device and the steps between them (docs/integrate/api.md#devices): one machine for all who ask."""

from typing import Iterable, Mapping

# No device yet, and what a plan may make of one.
NONE, PLANS = "", ("awaiting1", "awaiting2", "settled")

# Outcomes of a read-back that quarantine a device.
LOST = ("lost", "stray", "key")

# What each step makes of a device: by the state that it is taken in, the states that it may leave. The step of a
# read-back is its outcome.
STEPS: Mapping[str, Mapping[str, tuple[str, ...]]] = {
    "registered": {NONE: ("registered",)},
    "planned": dict.fromkeys(("registered", "settled"), PLANS),
    "match": {"awaiting1": ("awaiting2", "settled"), "awaiting2": ("settled",)},
    "short": {"awaiting1": ("awaiting1",), "awaiting2": ("awaiting2",)},
    **{outcome: dict.fromkeys(("awaiting1", "awaiting2"), ("quarantined",)) for outcome in LOST},
    "identified": {"settled": ("identified",)},
    "shipped": {"identified": ("shipped",)},
    "scrapped": dict.fromkeys(("registered", *PLANS, "identified", "quarantined"), ("scrapped",)),
}

# Its states in the order of its life, and as a report counts them, where `planned` has those that await a batch.
STATES = ("registered", *PLANS, "identified", "shipped", "quarantined", "scrapped")
REPORTED_AS = {"awaiting1": "planned", "awaiting2": "planned"}


def reported(state: str) -> str:
    """The state of a report that counts a device in this one."""
    return REPORTED_AS.get(state, state)


REPORTED = tuple(dict.fromkeys(map(reported, STATES)))

# Without a way on but to be scrapped; never left; with a record and no fault; and all that may have a record.
FINISHED = ("shipped", "quarantined", "scrapped")
FINAL = tuple(state for state in STATES if not any(state in ways for ways in STEPS.values()))
IN_USE = ("identified", "shipped")
WITH_RECORD = (*IN_USE, "scrapped")


def after(states: Iterable[str], step: str) -> frozenset[str]:
    """The states that a step may leave of a device in one of these; none where it can't be taken."""
    ways = STEPS.get(step, {})
    return frozenset(it for state in states for it in ways.get(state, ()))


def left_by(step: str) -> frozenset[str]:
    """The states that a step may leave, wherever it was taken."""
    return after(STEPS.get(step, {}), step)


def later_states(state: str) -> frozenset[str]:
    """A state, and all that a device in it may come to."""
    found = frozenset((state,))
    while more := frozenset().union(*(after(found, step) for step in STEPS)) - found:
        found |= more
    return found


LATER = {state: later_states(state) for state in STATES}
