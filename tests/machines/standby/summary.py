"""What came of all runs, as the rows of the page's table."""

import statistics
from collections.abc import Iterable

from machines.standby.place import Cut
from machines.standby.runs import Run

COLUMNS = ["Times", "Replies", "Serials", "Refused", "Seen", "`takeover`", "Processor", "Reply"]
HEAD = f"| What befell | {' | '.join(COLUMNS)} |\n|---|{len(COLUMNS) * '---:|'}"
TIMES = ("seen", "takeover", "used", "replied")


def seconds(values: Iterable[float]) -> str:
    """The median and the longest, of those that were measured."""
    found = [value for value in values if value]
    return f"{statistics.median(found):.0f}, {max(found):.0f}" if found else ""


def rows(runs: list[Run]) -> list[str]:
    """A row for each scenario and each thing that befell in it. Counts of a scenario stand in its first row."""
    found = []
    for name in dict.fromkeys(run.name for run in runs):
        these = [run for run in runs if run.name == name]
        replies, serials = (sum(run.counts.get(what, 0) for run in these) for what in ("requests", "serials"))
        counts = [f"{replies:,}", f"{serials:,}", str(sum(run.refusals for run in these))]
        cuts: dict[str, list[Cut]] = {}
        for run in these:
            for cut in run.cuts:
                cuts.setdefault(cut.name, []).append(cut)
        for title, all_of in (cuts or {name: []}).items():
            times = [seconds(getattr(cut, what) for cut in all_of) for what in TIMES]
            cells = [f"`{name}`: {title}" if title != name else f"`{name}`", str(len(all_of) or len(these))]
            found.append("| " + " | ".join([*cells, *counts, *times]) + " |")
            counts = ["", "", ""]
    return found


def total(runs: list[Run]) -> str:
    cuts = sum(run.cut_count for run in runs)
    lost, twice = (sum(run.counts.get(what, 0) for run in runs) for what in ("lost", "twice"))
    faults = sum(len(run.faults) for run in runs)
    refused = sum(run.refusals for run in runs)
    told = f"{refused} takeovers refused, lost {lost}, twice {twice}, {faults} faults"
    return f"{len(runs)} runs, in which power or the cable was cut {cuts} times; {told}"
