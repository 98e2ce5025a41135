"""What an audit looks like: a page that is printed, tables for a terminal, and a file of comma-separated values."""

from collections import Counter
from typing import Sequence

from wanekupo.books.audit import Audit
from wanekupo.books.pages import Table, heading, page, paragraph

FOUND = ("kind", "time", "customer", "seat", "chip", "what")
HELD = ("customer", "seat", "journal", "known", "lines", "matched", "unanswered", "numbers", "last")
READ = ("file", "bytes", "sha256")
NUMBERS = frozenset(("lines", "matched", "unanswered", "last", "bytes"))

# The most rows of a kind and a seat: whoever writes a journal may write any number of wrong lines.
MOST_TOLD = 1000

# What each kind means, and what to do.
KINDS = {
    "clock": "a time that can't be, by the order of the entries or by the auditor's clock: a time was changed, or a "
    "station's clock was wrong",
    "device": "a device, its ledger and its record contradict each other: somebody wrote to the store by hand",
    "exchanged": "an entry is at another place in its ledger than its line in the journal",
    "journal": "a line is none, was changed, answers what isn't asked, has no reply or one of another form, another's "
    "number or an earlier time: get the journal anew",
    "late_copy": "a request that was refused was accepted later: look at what it did",
    "map": "a fuse map's text isn't that of its digest, or can't be read here",
    "no_entry": "a station's step isn't in the store: the store is an older one, or an entry was taken away",
    "no_journal": "a seat's journal wasn't given: get it, or its entries can't be held to anything",
    "no_line": "an entry has no line: a foreign hand, or a lost journal",
    "no_seat": "a journal is of a seat that the store doesn't have",
    "numbers": "numbers of a seat have no line or were given again, or the store has another last one: a lost "
    "journal, or an older store",
    "order": "an order goes on at another number than its least free one",
    "other_note": "an entry says something else than its line",
    "other_seat": "an entry is under another seat than its line",
    "replay": "the program makes something else of the stations' lines than these or the store say",
    "store": "rows that no server opens, or of a customer or a seat that the site doesn't have so, or another site's "
    "text than the given file",
    "twice": "what is given but once stands twice, or was given to two chips",
}

HELD_TO = (
    "Each entry of the store's ledgers is held to the line of a journal of its seat, and each line of a step to its "
    "entry. A line counts at the time at which it was asked, by its station's clock; an entry has the time of its line."
)
ALWAYS = (
    "The proved program answered the accepted lines once more, over an empty store: each reply, and each order, "
    "device, ledger and record of the store, is held to its own. Over the whole journals: each line as it was "
    "written, and no number missing."
)
NOT_SHOWN = (
    "What a store and all journals of a seat say alike isn't found by this: compare a seal of that time. Nor is a "
    "station that asked nothing, or what a chip is."
)


def found_table(audit: Audit) -> Table:
    """What was found: of each kind and seat the first ones, and how many more there are."""
    rows, counts = list[tuple[str, ...]](), Counter[tuple[str, str, str]]()
    for it in audit.found:
        counts[whose := (it.kind, it.customer, it.seat)] += 1
        rows += [it] if counts[whose] <= MOST_TOLD else []
    for (kind, customer, seat), count in sorted(counts.items()):
        more = (kind, "", customer, seat, "", f"{count - MOST_TOLD} more of this kind and seat")
        rows += [more] if count > MOST_TOLD else []
    return Table("found", "Found", FOUND, rows, nothing="Nothing.")


def held_table(audit: Audit) -> Table:
    return Table("held", "What was held to what", HELD, audit.held, NUMBERS)


def verdict(audit: Audit) -> str:
    """What was found, and why the program didn't answer all lines. Nothing was found where it did."""
    if not audit.unfinished:
        return f"{len(audit.found)} found." if audit.found else "Nothing found."
    told = f"The audit could not be finished: {'; '.join(audit.unfinished)}."
    return f"{len(audit.found)} found. {told}" if audit.found else told


def counted(audit: Audit) -> str:
    told = f"{audit.entries} entries of the period, {audit.outside} outside of it"
    if audit.bare:
        told = f"{told}, {audit.bare} of which have no line"
    if audit.unheld:
        told = f"{told}; {audit.unheld} lie before the first line of these journals, and are held to nothing"
    if audit.repeated:
        said = f"{len(audit.repeated)} maps and imports were asked for again, which changes nothing"
        told = f"{told}. {said} (the first: {audit.repeated[0].place()})"
    if audit.replayed:
        count, whose = sum(audit.replayed.values()), ", ".join(audit.replayed)
        told = f"{told}. The program answered {count} lines of {whose} once more"
    return f"{told}."


def as_text(audit: Audit) -> str:
    period = f"from {audit.period.start} to {audit.period.end}: {counted(audit)}"
    return "\n".join([period, verdict(audit), "", found_table(audit).as_text(), held_table(audit).as_text()])


def as_html(audit: Audit, files: Sequence[tuple[str, int, str]]) -> str:
    kinds = sorted({it.kind for it in audit.found})
    meant = [paragraph(f"{kind}: {KINDS[kind]}.") for kind in kinds]
    parts = [
        paragraph(f"From {audit.period.start} to {audit.period.end}, by the stations' clocks. {counted(audit)}"),
        paragraph(verdict(audit), "verdict found" if audit.found else "verdict"),
        *([heading("What these mean"), *meant] if meant else []),
        found_table(audit).as_html(),
        held_table(audit).as_html(),
        Table("read", "What was read", READ, files, NUMBERS).as_html(),
        heading("What this shows, and what it doesn't"),
        *map(paragraph, (HELD_TO, ALWAYS, NOT_SHOWN)),
    ]
    return page(f"Audit {audit.period.start} to {audit.period.end}", parts)
