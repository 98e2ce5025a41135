"""The restore of a store by the logs of its stations (docs/operate/backup-and-restore.md)."""

import contextlib
import hashlib
import itertools
import json
import os
from typing import Any, Callable, Iterable, Iterator, Mapping, Sequence

from wanekupo.common.errors import BadJournal, Differs, OutOfStep, Refused
from wanekupo.seat.journal import Asked, Record, merged, records_of, states_of
from wanekupo.seat.import_rows import LONGEST_BODY, Rows, import_parts
from wanekupo.seat.station import Station
from wanekupo.common.texts import brief

# The refusal of an order that is there.
EXISTS = 16

# Lost or given up: a device in one of these states is scrapped again after a restore.
GIVEN_UP = ("quarantined", "scrapped")

# Of a request that is brought back, and of an identity's reply, the members that have to be texts.
TEXTS = {"/v1/order": ("name",), "/v1/map": ("text",)}
RECORD = ("issuer", "serial", "key_sha256", "chip")

# The requests that are sent once more as they were; and more than a text of a reply has.
SENT, LONGEST_TEXT = (*TEXTS, "/v1/import"), 1 << 10

# What a person does where a line can't be brought back.
REFUSED = "That line was changed, or another journal contradicts it: look at both in copies."

Ticked = Callable[..., None]


def tested_requests(asked: Iterable[Asked]) -> None:
    """Whether requests have what they are brought back by, in a body that the server reads. A reply's texts are in
    visible ASCII: they are printed."""
    for it in asked:
        reply = (it.reply or {}) if it.is_done() else {}
        own = [it.members.get(name) for name in TEXTS.get(it.path, ()) if it.may_be_done()]
        told = [reply.get("state", "")]
        if it.is_done() and it.path == "/v1/identity":
            told += [*(reply.get(name) for name in RECORD), "" if reply.get("mac") is None else reply["mac"]]
        is_told = all(isinstance(text, str) and _is_plain(text) for text in told)
        if not is_told or not all(isinstance(text, str) for text in own) or not _is_sent(it):
            raise BadJournal(f"line {it.line} of {it.file} isn't as a station writes it", REFUSED)


def _is_plain(text: str) -> bool:
    return len(text) <= LONGEST_TEXT and text.isascii() and text.isprintable()


def _is_sent(it: Asked) -> bool:
    """Whether what is asked again of a request is text in UTF-8, and not longer than the server reads."""
    members = it.members if it.path in SENT else {"chip": it.members.get("chip")}
    try:
        return len(json.dumps(members, separators=(",", ":"), ensure_ascii=False).encode()) <= LONGEST_BODY
    except ValueError:
        return False


def restore(
    station: Station,
    files: Iterable[str | os.PathLike[str]],
    told: Callable[[int, int], None] = lambda done, of: None,
) -> dict[str, Any]:
    """Brings what journals say into a restored store, as `restore_requests` does."""
    return restore_requests(station, merged(files), told)


def restore_requests(
    station: Station, asked: Sequence[Asked], told: Callable[[int, int], None] = lambda done, of: None
) -> dict[str, Any]:
    """Brings requests by their times into a restored store: the orders and maps in their order, the serial numbers, and
    then what became of devices. What is there already changes nothing, so it may be done again. `left` has the devices
    whose last state isn't the store's, with both. `told` gets how many of all of these are done, of how many. A request
    that the server refuses is named, with its line."""
    tested_requests(asked)
    made_before = [it for it in asked if it.path in ("/v1/order", "/v1/map") and it.may_be_done()]
    records, states = records_of(asked), states_of(asked)
    of = len(made_before) + len(records) + len(states)
    ticks = itertools.count(1)

    def ticked(count: int = 1) -> None:
        for _ in range(count):
            told(next(ticks), of)

    station.resynchronize()
    made = {"orders": 0, "maps": 0}
    for it in made_before:
        if it.path == "/v1/order":
            made["orders"] += _order_again(station, it)
        else:
            made["maps"] += _map_again(station, it)
        ticked()
    counts = _serials_again(station, records, ticked)
    places = {it.members["chip"]: it for it in asked if "chip" in it.members and it.is_done()}
    return {**made, **counts, **_devices_again(station, states, places, ticked)}


def _told(what: str, it: Asked) -> str:
    return f"{what} (line {it.line} of {it.file})"


@contextlib.contextmanager
def _named(what: str, it: Asked) -> Iterator[None]:
    """Says of a request that is refused, or is none, which line has it: the server has no word of that."""
    try:
        yield
    except OutOfStep:
        raise
    except (Refused, ValueError) as refused:
        raise Differs(_told(f"{what}: refused as {refused}", it), REFUSED) from refused


def _order_again(station: Station, it: Asked) -> bool:
    """Makes an order, or looks at the one that is there: it has to be as the lost one."""
    members = {name: value for name, value in it.members.items() if name != "nr"}
    is_new, what = True, f"order {brief(members['name'])}"
    with _named(what, it):
        try:
            reply = station.post(it.path, members)
        except Refused as refused:
            if refused.no != EXISTS:
                raise
            is_new, reply = False, station.get(it.path, name=members["name"])
    expected = (it.reply if it.is_done() else members) or {}
    for name in sorted(expected):
        if name != "next" and reply.get(name) != expected[name]:
            told = f"{brief(name)} is {brief(reply.get(name))}, and was {brief(expected[name])}"
            raise Differs(_told(f"{what}: {told}", it))
    return is_new


def _map_again(station: Station, it: Asked) -> bool:
    digest = hashlib.sha256(it.members["text"].encode()).hexdigest()
    with _named(f"map {digest}", it):
        if station.import_map(it.members["text"]) != digest:
            raise Differs(_told(f"map {digest}", it))
    return True


def _serials_again(station: Station, records: Mapping[tuple[str, str], Record], ticked: Ticked) -> dict[str, int]:
    added = present = 0
    by_issuer: dict[str, dict[str, Record]] = {}
    for (issuer, serial), record in records.items():
        by_issuer.setdefault(issuer, {})[serial] = record
    rows_of = ((own, [(serial, it.key_sha256) for serial, it in own.items()]) for own in by_issuer.values())
    for own, part in [(own, part) for own, rows in rows_of for part in import_parts(rows)]:
        counts = _part_again(station, own, part)
        added, present = added + counts[0], present + counts[1]
        ticked(len(part))
    return {"added": added, "present": present}


def _part_again(station: Station, own: Mapping[str, Record], part: Rows) -> tuple[int, int]:
    """Imports a part. Where it is refused its rows are asked for one by one, and the first one that is refused again is
    named; where none is it was done so."""
    issuer = own[part[0][0]].issuer
    try:
        done = station.import_serials(issuer, part)
        return done.added, done.present
    except OutOfStep:
        raise
    except (Refused, ValueError):
        counts = 0, 0
    for row in part:
        with _named(f"serial number {brief(row[0])} of {brief(issuer)}", own[row[0]].asked):
            done = station.import_serials(issuer, [row])
        counts = counts[0] + done.added, counts[1] + done.present
    return counts


def _devices_again(
    station: Station, states: Mapping[str, str], places: Mapping[str, Asked], ticked: Ticked
) -> dict[str, Any]:
    """Scraps and ships again what is there to be scrapped or shipped."""
    scrapped, shipped, left = [], [], {}
    for chip, state in states.items():
        device = station.find_device(chip)
        now = device.state if device else None
        with _named(f"chip {brief(chip)}, {brief(state)} in its journal and {now} in the store", places[chip]):
            if state in GIVEN_UP and now not in (None, *GIVEN_UP):
                station.scrap(chip)
                scrapped.append(chip)
            elif state == "shipped" and now == "identified":
                station.ship(chip)
                shipped.append(chip)
            elif now != state and not (state in GIVEN_UP and now in GIVEN_UP):
                left[chip] = [state, now]
        ticked()
    return {"scrapped": scrapped, "shipped": shipped, "left": left}
