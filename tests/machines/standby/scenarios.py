"""What befalls two machines with one store, each as a function with what it expects. Each begins with the store on one
machine and both halves equal, and ends so again; the stations ask all the time."""

import time

from machines.standby.pair import JOINED, SEEN, UP
from machines.standby.place import (
    ANSWERS, BEHIND, DISK_FAILS, Cut, Place, back, first_lost, is_alone, joined_again, new_disk,
)  # fmt: skip


# What a refusal says.
NO_WORD, OLDER = "nobody knows whether", "This half is an older one"


def power_cut(place: Place) -> None:
    """(a), and with the roles exchanged (b): the power of the first is cut, the second takes over, and the first
    follows."""
    place.work()
    seen = first_lost(place)
    place.refused("without a word", place.second, "", NO_WORD)
    place.taken_over("power of the first", seen, place.off())
    back(place, place.first)
    place.swap()


def cable_then_power(place: Place) -> None:
    """(c): the cable is cut, the first is told that the second is off, goes on alone, and loses its power. The second
    is refused. The first comes back, goes on, and the second follows."""
    place.work()
    seen = place.cable_cut()
    frozen = place.line.count()
    time.sleep(3)
    place.expect(place.line.count() == frozen, "(c): a frozen machine has answered")
    place.word()
    place.line.wait_for(BEHIND, ANSWERS)
    place.first.cut()
    place.pair.address.move(None)
    is_alone(place, place.second, time.monotonic())
    place.refused("(c)", place.second, place.off(), OLDER)
    place.pair.start(place.first)
    place.swap()
    place.refused("(c), the first", place.second, "", NO_WORD)
    place.taken_over("cable, then power of the first", seen, place.off())
    place.swap()
    place.pair.cable.mend()
    place.pair.wait_joined()


def cable_then_both(place: Place) -> None:
    """(c) with a second that was off as the first was told, and comes back alone: DRBD doesn't know that its half is an
    older one, and the witness does."""
    place.work()
    moment = time.monotonic()
    place.second.cut()
    place.pair.wait_state(place.first, "^frozen", SEEN)
    seen = time.monotonic() - moment
    place.word()
    place.line.wait_for(BEHIND, ANSWERS)
    place.first.cut()
    place.pair.address.move(None)
    place.pair.start(place.second)
    place.refused("(c), behind a boot, without a word", place.second, "", NO_WORD)
    place.refused("(c), behind a boot", place.second, place.off(), OLDER)
    place.pair.start(place.first)
    place.pair.wait_joined()
    place.swap()
    place.taken_over("the second off, then power of the first", seen, "")
    place.swap()


def both_alone(place: Place) -> None:
    """(d): the cable is cut, and both think that they are alone. The first is frozen, and the second takes over by a
    word that isn't true. The first must not answer, and nothing is thrown away by itself."""
    place.work()
    seen, numbers = place.cable_cut(), place.numbers()
    is_alone(place, place.second, time.monotonic())
    place.taken_over("cable, and the first frozen", seen, place.off())
    place.pair.wait_address_gone(place.first, SEEN)
    found = place.answers(place.first, numbers)
    place.expect(not found, f"(d): the frozen machine answers {found}")
    place.pair.cable.mend()
    time.sleep(20)
    states = [place.pair.state(guest) for guest in (place.first, place.second)]
    place.tell(f"the cable is whole: {states}")
    place.expect("Primary" in states[1] and "UpToDate" in states[1], f"(d): the second is {states[1]}")
    found = place.answers(place.first, numbers)
    place.expect(not found, f"(d): the frozen machine answers behind the mended cable {found}")
    first_follows(place)


def first_follows(place: Place) -> None:
    """The line goes on over the second. The first is switched off and on, and follows; then it has the store again."""
    place.line.wait_for(BEHIND, ANSWERS)
    place.first.cut()
    place.pair.start(place.first)
    joined_again(place, place.second, place.first)
    place.swap()


def both_alone_and_told(place: Place) -> None:
    """(d) with a first that was told, too: it has acknowledged what the second lacks, and the second is refused."""
    place.work()
    cut = Cut("cable, and the first told", seen=place.cable_cut())
    place.word()
    cut.replied = place.next_reply()
    is_alone(place, place.second, time.monotonic())
    place.refused("(d), told", place.second, place.off(), OLDER)
    place.pair.cable.mend()
    place.pair.wait_joined()
    place.cuts.append(cut)


def disk_fails(place: Place) -> None:
    """(e): the disk of the second fails. The first goes on, the second is refused, and gets a new disk."""
    place.work()
    moment = time.monotonic()
    place.second.ask(DISK_FAILS, 60)
    place.pair.wait_state(place.first, "/(Diskless|Failed|DUnknown)$", SEEN)
    cut = Cut("disk of the second", seen=time.monotonic() - moment)
    cut.replied = place.next_reply()
    place.tell(f"the disk failed: {place.pair.state(place.first)}")
    place.cuts.append(cut)
    status, said = place.pair.script(place.first, "stepdown")
    place.tell(said)
    place.expect(status == 1 and "isn't up to date" in said, f"(e): stepdown is {status}: {said}")
    place.second.cut()
    is_alone(place, place.first, moment)
    if place.pair.state(place.first).startswith("frozen"):
        place.word()
    new_disk(place, place.second)
    place.line.wait_for(BEHIND, ANSWERS)


def disk_of_the_first_fails(place: Place) -> None:
    """(e) of the first: it goes on over the second's disk, hands the store over, and gets a new disk."""
    place.work()
    moment = time.monotonic()
    place.first.ask(DISK_FAILS, 60)
    place.pair.wait_state(place.first, " Diskless/UpToDate$", SEEN)
    seen = time.monotonic() - moment
    place.line.wait_for(BEHIND, ANSWERS)
    place.tell(place.pair.ask_script(place.first, "stepdown"))
    place.refused("(e), the first without a disk", place.first, "", "This half is Diskless")
    place.taken_over("disk of the first", seen, "")
    place.swap()
    # A half without a disk can't note that it is the older one, so the other machine freezes here too.
    place.second.ask("drbdadm down station", 120)
    place.second.cut()
    place.pair.wait_state(place.first, "^frozen", SEEN)
    place.word()
    new_disk(place, place.second)
    place.line.wait_for(BEHIND, ANSWERS)


def both_cut(place: Place) -> None:
    """(f): the power of both is cut at once. Both come back, and one of them takes over."""
    place.work()
    moment = time.monotonic()
    place.first.cut()
    place.second.cut()
    place.pair.address.move(None)
    place.pair.start(place.first, place.second)
    place.pair.wait_joined()
    seen = time.monotonic() - moment
    if place.chance.random() < 0.5:
        place.swap()
    place.taken_over("power of both", seen, "")
    place.swap()


def hangs(place: Place) -> None:
    """(g): the first hangs, the second takes over by a word that isn't true, and the first wakes up. It must not answer
    what changes anything, and nothing at all once it has seen that it is alone."""
    place.work()
    moment = time.monotonic()
    place.first.hang()
    numbers = place.numbers()
    place.pair.address.move(None)
    seen = is_alone(place, place.second, moment)
    place.taken_over("the first hangs", seen, place.off())
    place.first.wake()
    found = [it for it in place.answers(place.first, numbers) if "POST" in it and " 200 " in it]
    place.expect(not found, f"(g): the machine that woke up accepts {found}")
    state = place.pair.wait_state(place.first, "^frozen|^StandAlone", JOINED)
    place.tell(f"awake: {state}")
    place.pair.wait_address_gone(place.first, SEEN)
    found = place.answers(place.first, numbers)
    place.expect(not found, f"(g): the machine that woke up answers {found}")
    first_follows(place)


def upgrade(place: Place) -> None:
    """(h): the second is taken down in order, and the first goes on. Then a new program, first on the second, then by a
    handed-over store on the first."""
    place.second.ask("drbdadm down station", 120)
    place.line.wait_for(BEHIND, ANSWERS)
    place.tell(f"the second is down: {place.pair.state(place.first)}")
    place.second.ask(UP, 180)
    place.pair.wait_joined()
    digests = place.second.ask("sha256sum /opt/station-1 /opt/station-2").split()[::2]
    place.measured.append("two programs that differ" if len(set(digests)) == 2 else "the same program twice")
    for _ in range(2):
        place.work()
        place.second.ask("ln -sf /opt/station-2 /usr/local/bin/station")
        moment = time.monotonic()
        place.tell(place.pair.ask_script(place.first, "stepdown"))
        place.taken_over("stepdown and takeover", time.monotonic() - moment, "")
        served = place.second.ask("readlink /proc/$(cat /run/station.pid)/exe")
        place.expect(served == "/opt/station-2", f"(h): {served} serves, and not the new program")
        place.pair.wait_joined()
        place.swap()


def power_cut_twice(place: Place) -> None:
    """(a), and behind the resync (b)."""
    power_cut(place)
    power_cut(place)
