"""A run of one scenario: both machines' start, the line, what befalls them, and the books at the end."""

import random
import time
from collections.abc import Callable
from dataclasses import dataclass, field, replace
from pathlib import Path

from common.customers import site_text
from common.goals import tell

from machines.standby import lost, scenarios, words
from machines.standby.books import compared, taken_out, undisturbed
from machines.standby.costs import cost
from machines.standby.guests import SilentGuest
from machines.standby.load import WORK, Line
from machines.standby.moved import moved
from machines.standby.network import free_ports
from machines.standby.pair import Pair, copied
from machines.standby.place import Cut, Place
from machines.standby.restored import newer_half_lost, restored_books
from machines.standby.tokens import ended_tokens
from machines.standby.witnesses import bad_witnesses, late_station

SCENARIOS: dict[str, Callable[[Place], None]] = {
    "a": scenarios.power_cut,
    "ab": scenarios.power_cut_twice,
    "c": scenarios.cable_then_power,
    "c-boot": scenarios.cable_then_both,
    "cable": words.cable_mended,
    "d": scenarios.both_alone,
    "d-told": scenarios.both_alone_and_told,
    "e": scenarios.disk_fails,
    "e-first": scenarios.disk_of_the_first_fails,
    "f": scenarios.both_cut,
    "f-one": lost.one_comes_back,
    "g": scenarios.hangs,
    "h": scenarios.upgrade,
    "fence": words.fenced,
    "fence-dead": words.fence_fails,
    "frozen": words.frozen_long,
    "frozen-10": words.frozen_ten_minutes,
    "witness": bad_witnesses,
    "late": late_station,
    "tokens": ended_tokens,
    "killed": lost.killed,
    "both": lost.both_written,
    "lost": newer_half_lost,
    "cost": cost,
    "moved": moved,
}
# Not these, unless they are named: the one takes a quarter of an hour, the other is a part of `ab`.
ELSE = ["a", "frozen-10"]
# How many of the stations haven't asked yet where a scenario begins.
LATE = {"late": 1}


@dataclass
class Run:
    """What came of one scenario."""

    name: str
    seed: int
    counts: dict[str, int] = field(default_factory=dict)
    cuts: list[Cut] = field(default_factory=list)
    measured: list[str] = field(default_factory=list)
    said: list[str] = field(default_factory=list)
    faults: list[str] = field(default_factory=list)
    refusals: int = 0
    cut_count: int = 0
    seconds: float = 0.0


@dataclass
class Made:
    """What all runs begin with: the kernel and the first file system, the two disks of a new store, and the program."""

    kernel: Path
    first: Path
    program: Path
    is_verbose: bool = False
    base: Path = Path()


def set_up(base: Path, made: Made) -> Made:
    """Makes the two disks of a new store, which each scenario begins with, where they aren't there."""
    if not base.exists():
        new = base.with_name(f"{base.name}.new")
        new.mkdir(parents=True, exist_ok=True)
        start = time.monotonic()
        with Pair(new, made.kernel, made.first) as pair:
            pair.set_up()
        new.rename(base)
        tell(f"set up in {time.monotonic() - start:.0f} s")
    return replace(made, base=base)


def begun(pair: Pair, folder: Path, seed: int, made: Made, late: int) -> Place:
    """Both machines on, the store on the first, and the line at work, but for the last so many stations."""
    pair.start(pair.alpha, pair.beta)
    pair.wait_joined()
    line = Line(pair.address.port, folder / "line", seed)
    status, said = pair.take_over(pair.alpha, line.witness)
    if status:
        raise SystemExit(f"the first takeover: {said}")
    chance = random.Random(seed)
    return Place(pair, line.start(WORK, late), chance, pair.alpha, pair.beta, made.program, folder, made.is_verbose)


def ended(place: Place) -> dict[str, int]:
    """Ends the line and the machines, and compares what both disks have with an undisturbed run."""
    place.line.end()
    place.pair.wait_joined()
    place.pair.ask_script(place.first, "stepdown")
    place.pair.switch_off()
    folder = place.folder
    stored = {guest.name: taken_out(guest.disk, folder / guest.name) for guest in (place.first, place.second)}
    if place.was_restored:
        books = {name: restored_books(path, place.line.stations) for name, path in stored.items()}
        place.faults += [f"{name}: {fault}" for name, (_, found) in books.items() for fault in found]
        return books[place.first.name][0]
    calm, faults = undisturbed(place.program, folder / "site.toml", folder, free_ports(1)[0], place.line.stations)
    place.faults += faults
    for name, path in stored.items():
        counts, found = compared(path, calm, place.line.stations)
        place.faults += [f"{name}: {fault}" for fault in found]
    return counts


def tried(name: str, seed: int, folder: Path, made: Made) -> Run:
    """One scenario, from both machines' start to the comparison of the books. What fails is a fault of it."""
    run, start = Run(name, seed), time.monotonic()
    folder.mkdir()
    copied(made.base, folder)
    (folder / "site.toml").write_text(site_text(), encoding="utf-8")
    with Pair(folder, made.kernel, made.first) as pair:
        place = None
        try:
            place = begun(pair, folder, seed, made, LATE.get(name, 0))
            SCENARIOS[name](place)
            run.cut_count = pair.cuts()
            run.counts = ended(place)
        except (SilentGuest, SystemExit) as error:
            run.faults.append(str(error))
        if place:
            run.cuts, run.measured, run.said = place.cuts, place.measured, place.said
            run.faults += place.faults
            run.refusals = place.refusals
    run.seconds = time.monotonic() - start
    return run
