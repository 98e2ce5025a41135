"""Whether a device, its ledger and its record say the same: who changes one of them by hand forgets the others."""

import heapq
from itertools import groupby, repeat
from typing import Any, Iterable, Iterator, Sequence

from wanekupo.seat.states import LOST, NONE, after, left_by

Row = dict[str, Any]

# A chip of a customer.
Chip = tuple[str, str]

# The steps at which a chip shows what is burnt.
SHOWING = ("registered", "read")


def by_chip(*parts: Iterable[tuple[Chip, Any]]) -> Iterator[tuple[Chip, list[list[Any]]]]:
    """What each part has of each chip: all of them come in the order of the chips."""
    placed = (zip(part, repeat(place)) for place, part in enumerate(parts))
    for chip, rows in groupby(heapq.merge(*placed, key=lambda it: it[0][0]), lambda it: it[0][0]):
        found: list[list[Any]] = [[] for _ in parts]
        for (_, row), place in rows:
            found[place].append(row)
        yield chip, found


def faults_of(device: Row, ledger: Sequence[Row], records: Sequence[Row]) -> Iterator[str]:
    """What contradicts what, in words."""
    entries = sorted(ledger, key=lambda it: int(it["n"]))
    yield from _number_faults([it["n"] for it in entries])
    yield from _step_faults(device, entries)
    yield from _burnt_faults(device, entries)
    yield from _record_faults(device, entries, records)


def _number_faults(numbers: Sequence[int]) -> Iterator[str]:
    """Whether the entries are numbered from 1 on, each once."""
    gaps = []
    for before, number in zip([0, *numbers], numbers or [2]):
        if number > before + 1:
            gaps.append(str(before + 1) if number == before + 2 else f"{before + 1} to {number - 1}")
        elif number <= before:
            yield f"its ledger has an entry {number}, where each is numbered once, from 1 on"
    if gaps:
        yield f"its ledger lacks the entry {', '.join(gaps)}"


def _step_faults(device: Row, entries: Sequence[Row]) -> Iterator[str]:
    """Whether each step may follow the ones before, and the device is in a state that the last one may leave."""
    states, before, said = frozenset((NONE,)), "", ""
    for it in entries:
        said = it["note"] if it["event"] == "read" else it["event"]
        found = after(states, said)
        if not found:
            place = f"behind {before}" if before else "first"
            yield f"its ledger has {it['event']} {place}, at the entry {it['n']}"
        states, before = found or left_by(said), it["event"]
    if device["state"] not in states:
        yield f"its state is {device['state']}, and the last entry of its ledger {said or 'missing'}"
    if device["state"] == "quarantined" and (device["reason"] not in LOST or device["reason"] != said):
        yield f"its reason is {device['reason']}, and its ledger says {said}"
    if device["state"] != "quarantined" and device["reason"] is not None:
        yield f"its reason is {device['reason']}, and its state {device['state']}, which has none"


def _burnt_faults(device: Row, entries: Sequence[Row]) -> Iterator[str]:
    """What is burnt is what the steps added, one after another."""
    bits: dict[tuple[int, int], int] = {}
    keys: dict[str, str] = {}
    for entry in entries:
        for word in entry["bits"]:
            place, mask = (word["block"], word["word"]), int(word["mask"], 16)
            if again := mask & bits.get(place, 0):
                yield f"its entry {entry['n']} adds {again:08x} in word {place[1]} of block {place[0]}, which was burnt"
            bits[place] = bits.get(place, 0) | mask
        for name in sorted(entry["keys"].keys() & keys.keys()):
            yield f"its entry {entry['n']} adds a key of {name}, which was known"
        keys.update(entry["keys"])
        if entry["event"] not in SHOWING and (entry["bits"] or entry["keys"]):
            yield f"its entry {entry['n']}, {entry['event']}, adds bits or keys, and at that step a chip shows nothing"
    known = {(word["block"], word["word"]): int(word["mask"], 16) for word in device["bits"]}
    for block, word in sorted(bits.keys() | known.keys()):
        by_ledger, mask = bits.get((block, word), 0), known.get((block, word), 0)
        if by_ledger != mask:
            yield f"word {word} of block {block} is {mask:08x}, and by its ledger {by_ledger:08x}"
    for name in sorted(keys.keys() | device["keys"].keys()):
        own, said = device["keys"].get(name, "none"), keys.get(name, "none")
        if own != said:
            yield f"the key of {name} is {own}, and by its ledger {said}"


def _record_faults(device: Row, entries: Sequence[Row], records: Sequence[Row]) -> Iterator[str]:
    """The serial number stands in the device, in its ledger, and in one record."""
    notes = [it["note"] for it in entries if it["event"] == "identified"]
    serials = [it["serial"] for it in records]
    own = [device["serial"]] if device["serial"] is not None else []
    if not own == notes == serials:
        yield f"its serial number is {_named(own)}, by its ledger {_named(notes)}, by its record {_named(serials)}"


def _named(serials: Sequence[str]) -> str:
    return " and ".join(serials) if serials else "none"
