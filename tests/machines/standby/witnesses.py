"""Witnesses with which nobody may take over, each of which `takeover` has to refuse with its own words."""

import re
import time
from collections.abc import Iterator
from datetime import datetime, timedelta, timezone

from machines.standby.place import ANSWERS, BEHIND, Place, back, first_lost, is_alone
from machines.standby.scenarios import NO_WORD, OLDER

FORM = "at %Y-%m-%dT%H:%M:%SZ"


def wrong(before: str, now: str) -> Iterator[tuple[str, str, str]]:
    """What is wrong with each, its text, and a part of what has to be said. `before` is of before the power failed."""
    head, *seats = now.splitlines()
    later = datetime.now(timezone.utc) + timedelta(hours=1)
    name, number = re.findall(r"seat (\S+) (\d+)", now)[0]
    yield "of before", before, "make it anew"
    yield "a part of it of before", now + before, "make it anew"
    yield "of a clock that is ahead", f"{later:{FORM}}\n" + "\n".join(seats), "is to come"
    yield "without its time", "\n".join(seats), "has no line as `at"
    yield "the time behind the seats", "\n".join([*seats, head]), "has no line as `at"
    yield "a line that was cut", now + f"seat {name}\n", "neither `at TIME` nor"
    yield "without seats", head, "has no line as `seat"
    yield "without one seat", now.replace(f"seat {name} {number}\n", ""), f"No witness has the seats {name}"
    line, last = f"seat {name} {number}\n", int(number)
    yield "of an older copy", now.replace(line, f"seat {name} {last - 3}\n"), "lacks replies"
    yield "with more replies", now.replace(line, f"seat {name} {last + 5}\n"), "an older one"
    told = f"zz has 0 here, and a reply to 9 (/run/wrong, line {len(now.splitlines()) + 1})"
    yield "with a seat that nobody has", now + "seat zz 9\n", told


def bad_witnesses(place: Place) -> None:
    """The power of the first is cut. Wrong witnesses are refused, and so is a wrong name; a right witness isn't."""
    place.line.wait_for(40, 600)
    before = place.line.witness()
    seen = first_lost(place)
    place.refused("without a word", place.second, "", NO_WORD)
    own = f"--other-is-off {place.second.name}"
    place.refused("the name of another", place.second, own, "The other machine of this")
    time.sleep(1.1)
    status, said = place.pair.script(place.second, f"takeover {place.off()}")
    place.expect(status == 1 and "There is no witness" in said, f"without a witness: {status}: {said}")
    time.sleep(1.1)
    for what, text, told in wrong(before, place.line.witness()):
        place.second.put(text.rstrip("\n") + "\n", "/run/wrong")
        status, said = place.pair.script(place.second, f"takeover {place.off()} --witness /run/wrong")
        place.tell(f"a witness {what}: {said}")
        place.expect(status == 1 and told in said, f"a witness {what} isn't refused by {told!r}: {status}: {said}")
        place.refusals += status == 1
    place.taken_over("power of the first", seen, place.off())
    back(place, place.first)
    place.swap()


def late_station(place: Place) -> None:
    """While the first is alone a station asks for the first time, and no other one does. Its PC's part is missing: the
    second is refused, and names the seat, though each seat that it has a number of is as its witness says."""
    *others, late = place.line.stations
    place.work()
    for each in others:
        each.is_over.set()
    for each in others:
        each.join(ANSWERS)
    seen = place.cable_cut()
    place.word()
    late.start()
    place.line.wait_for(BEHIND, ANSWERS)
    place.first.cut()
    place.pair.address.move(None)
    is_alone(place, place.second, time.monotonic())
    told = f"No witness has the seats {late.name},"
    place.refused("a seat without a part", place.second, place.off(), told, but=late.name)
    place.refused("a seat with its part", place.second, place.off(), OLDER)
    place.pair.start(place.first)
    place.swap()
    place.taken_over("a station began while the first was alone", seen, place.off())
    place.swap()
    place.pair.cable.mend()
    place.pair.wait_joined()
