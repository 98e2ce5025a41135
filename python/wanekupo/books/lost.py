"""The chips that were lost or scrapped, by the stations' logs."""

from datetime import datetime
from functools import partial
from pathlib import Path
from typing import Any, Callable, Iterable, Iterator, Mapping, Optional, Sequence

from wanekupo.common.errors import StationError
from wanekupo.seat.journal import journals_of, placed_lines_of, seat_named
from wanekupo.seat.journal_lines import Folders, Name, journals_below, stations_folders
from wanekupo.common.moments import tested_period, text_of
from wanekupo.common.texts import brief, csv_lines, formulas_in, shown


def given_up(
    journals: Iterable[Name], start: Optional[datetime] = None, end: Optional[datetime] = None,
    folders: Optional[Folders] = None, customers: Optional[Mapping[str, str]] = None,
) -> tuple[list[list[str]], list[str]]:  # fmt: skip
    """The chips that were lost or scrapped, each once, by the stations' logs: when the reply that said so first was
    written down, the log, the chip, its order where a log has its registration, and why. And what got no reply, of
    chips of which nothing is known since. Where it is known which seats each folder of all stations' has, a line of
    another one says nothing, and a folder that can't be read is told. There a chip is a name among those of its seat's
    customer, by `customers`, or where that isn't known of its folder: no station hides another customer's chip."""
    tested_period(start, end)
    orders, found, unanswered, unread = {}, [], {}, list[str]()
    for whose, answers in _read(journals, folders, unread, customers or {}):
        for journal, asked, answer in answers:
            path, chip = asked["path"], (whose(journal, asked), asked["asked"].get("chip", ""))
            reply = answer["reply"] if answer and answer["status"] == 200 else {}
            if path == "/v1/device" and reply:
                orders[chip] = asked["asked"].get("order", "")
            elif not answer and path in ("/v1/readback", "/v1/scrap"):
                unanswered[chip] = (asked["at"], f"{asked['at']} {journal}: no reply to {path} of {chip[1]}")
            elif reply:
                unanswered.pop(chip, None)
            if answer and reply.get("state") in ("quarantined", "scrapped"):
                why = reply.get("outcome") or asked.get("reason") or "scrapped"
                found.append((answer["at"], journal, chip, why, path == "/v1/scrap"))
    firsts: dict[tuple[str, str], tuple[str, str, tuple[str, str], str, bool]] = {}
    for one in sorted(found, key=lambda it: (it[0], it[4])):
        firsts.setdefault(one[2], one)
    lines = [[at, journal, chip[1], orders.get(chip, ""), why] for at, journal, chip, why, _ in firsts.values()]
    first, last = text_of(start) if start else "", text_of(end) if end else "~"
    told = [text for chip, (at, text) in unanswered.items() if chip not in firsts and first <= at < last]
    return [line for line in lines if first <= line[0] < last], [*unread, *told]


Answer = tuple[str, dict[str, Any], Optional[dict[str, Any]]]
Whose = Callable[[str, dict[str, Any]], str]


def _read(
    journals: Iterable[Name], folders: Optional[Folders], unread: list[str], customers: Mapping[str, str]
) -> Iterator[tuple[Whose, Iterable[Answer]]]:
    """The answers of each journal, and whose each is. What of the stations' folders can't be read comes to `unread`."""
    if folders is None:
        yield from ((lambda _, __: "", _answers(files)) for files in journals_of(journals))
        return
    for it in (folder for name in journals for folder in stations_folders(Path(name), folders)):
        whose = partial(_owner, it.name, folders[it.name], customers)
        try:
            for files in journals_of(journals_below(it), is_shipped=True):
                yield whose, list(_answers(files, folders[it.name]))
        except (StationError, OSError) as error:
            unread.append(f"{it} isn't read to its end: {error}")


def _owner(folder: str, seats: frozenset[str], customers: Mapping[str, str], file: str, asked: dict[str, Any]) -> str:
    """The customer of a line's seat, or where that isn't known its folder, whose name a / keeps from a customer's."""
    seat = asked.get("seat") or (next(iter(seats)) if len(seats) == 1 else seat_named(Path(file)))
    return customers.get(seat if seat in seats else "") or f"/{folder}"


def _answers(files: Iterable[Path], seats: Optional[frozenset[str]] = None) -> Iterator[Answer]:
    """The requests of a journal, each with its file and the line of its reply. One that was sent again has one."""
    asked, place = None, ""
    for file, _, line in placed_lines_of(files, follows_links=seats is None):
        if seats is not None and line.get("seat", "") not in ("", *seats):
            continue
        if "asked" in line:
            if asked and (asked["path"], asked["asked"]) != (line["path"], line["asked"]):
                yield place, asked, None
            asked, place = line, file
        elif "status" in line and asked and asked["asked"]["nr"] == line["nr"]:
            yield place, asked, line
            asked = None
    if asked:
        yield place, asked, None


LOST = ["time", "journal", "chip", "order", "reason"]


def lost_text(lines: Sequence[Sequence[str]]) -> str:
    rows = [LOST, *([*map(shown, line[:2]), *(shown(brief(it)) for it in line[2:])] for line in lines)]
    widths = [max(map(len, column)) for column in zip(*rows)]
    return "".join(" ".join(word.ljust(width) for word, width in zip(row, widths)).rstrip() + "\n" for row in rows)


def lost_csv(lines: Sequence[Sequence[str]]) -> str:
    return csv_lines([LOST, *lines])


def lost_formulas(lines: Sequence[Sequence[str]]) -> list[str]:
    """What is to be told of fields that a spreadsheet would take for formulas."""
    return list(dict.fromkeys(formulas_in(LOST, lines)))
