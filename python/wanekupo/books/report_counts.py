"""A report as the server prints it, and what was done between two of them (docs/line/lots.md)."""

import re
from dataclasses import dataclass
from typing import Mapping

from wanekupo.common.errors import OtherReports
from wanekupo.common.printing import table_lines
from wanekupo.seat.states import REPORTED
from wanekupo.common.texts import csv_lines, csv_rows, formulas_in, shown
from wanekupo.books.yields import share

# The counts of a report by its first column: by order in a customer's, by customer in the site's.
Counts = Mapping[str, Mapping[str, int]]


@dataclass(frozen=True)
class ReportDifference:
    """By how much each count of two reports differs. `column` says what the names of the rows are: `order` or
    `customer`. Rows without a difference are left out."""

    column: str
    rows: Counts


def report_rows(report: str) -> list[list[str]]:
    """The rows of a report, its head first. What is cut in a line, or has other counts than whole numbers, is none."""
    names, *rows = csv_rows(report) or [[]]
    counts = [place for place, name in enumerate(names) if name in REPORTED]
    is_one = report.endswith("\n") and set(REPORTED) <= set(names) and all(len(row) == len(names) for row in rows)
    if not is_one or not all(re.fullmatch("[0-9]+", row[place]) for row in rows for place in counts):
        raise ValueError(f"this is no report: {report[:60]!r}")
    return [names, *rows]


def counts_of(report: str) -> tuple[str, Counts]:
    """The name of a report's first column, and its counts by that."""
    names, *rows = report_rows(report)
    places = {name: names.index(name) for name in REPORTED}
    return names[0], {row[0]: {name: int(row[place]) for name, place in places.items()} for row in rows}


def difference_of(earlier: str, later: str) -> ReportDifference:
    """What was done from one report to the other. An order that wasn't there yet counts from nothing."""
    (column, before), (other, after) = counts_of(earlier), counts_of(later)
    if column != other:
        told = "Take two of one customer, or two of the site."
        raise OtherReports(f"the reports are by {shown(column)} and by {shown(other)}", told)
    nothing = dict.fromkeys(REPORTED, 0)
    rows = {}
    for name, counts in sorted(after.items()):
        old = before.get(name, nothing)
        rows[name] = {state: counts[state] - old[state] for state in REPORTED}
    less = [*(before.keys() - after.keys()), *(name for name, row in rows.items() if min(summed(row).values()) < 0)]
    if less:
        raise OtherReports(f"the later report has less of {shown(min(less))} than the earlier one")
    return ReportDifference(column, {name: row for name, row in rows.items() if any(row.values())})


def summed(row: Mapping[str, int]) -> dict[str, int]:
    """What no device takes back, so that it is true of each period: begun, shipped and given up."""
    return {"begun": sum(row.values()), "shipped": row["shipped"], "given_up": row["quarantined"] + row["scrapped"]}


def table(difference: ReportDifference) -> list[list[str]]:
    """The rows of the yield, with their head and the sum over all."""
    rows = [*difference.rows.items()]
    if rows:
        rows.append(("all", {name: sum(row[name] for row in difference.rows.values()) for name in REPORTED}))
    lines = [[difference.column, "begun", "shipped", "given_up", "yield", *(f"d_{name}" for name in REPORTED)]]
    for name, row in rows:
        sums = summed(row)
        changed = [f"{row[state]:+d}" if row[state] else "0" for state in REPORTED]
        lines.append([shown(name), *(str(it) for it in sums.values()), share(sums), *changed])
    return lines


def as_text(difference: ReportDifference) -> str:
    """A table for people: the columns under each other."""
    lines = table(difference)
    widths = [max(map(len, column)) for column in zip(*lines)]
    first, *others = widths
    told = [[line[0].ljust(first), *map(str.rjust, line[1:], others)] for line in lines]
    return "".join(" ".join(words) + "\n" for words in told)


def as_csv(difference: ReportDifference) -> str:
    return csv_lines(table(difference))


def as_json(difference: ReportDifference) -> str:
    """A line of JSON for each row; all but the first column and the yield are numbers."""
    names, *rows = table(difference)
    texts = (names[0], "yield")
    parsed = [[it if name in texts else int(it) for name, it in zip(names, row)] for row in rows]
    return table_lines(names, parsed, True)


def formulas_of(difference: ReportDifference) -> list[str]:
    """What is to be told of names that a spreadsheet would take for formulas."""
    head, *lines = table(difference)
    return list(dict.fromkeys(formulas_in(head, lines)))
