"""What befalls two machines where more than one thing fails: one of them stays dead behind a power failure of both, a
takeover is killed, both halves were written, or the newer half is lost."""

import time

from machines.standby.guests import Guest
from machines.standby.pair import SCRIPTS, SEEN
from machines.standby.place import ANSWERS, BEHIND, Place, back, first_lost, is_alone
from machines.standby.scenarios import NO_WORD, OLDER

SETTINGS = "/etc/station/standby.toml"
# What a half says that doesn't look for the other one any more.
SPLIT = "DRBD has stopped to look"
# How long a takeover may go on until it is killed.
KILLED = (0.5, 20)


def one_comes_back(place: Place) -> None:
    """The power of both is cut at once, and only one of them comes back, the one or the other. Whether its half is the
    newer one the witness alone says."""
    place.work()
    moment = time.monotonic()
    place.first.cut()
    place.second.cut()
    place.pair.address.move(None)
    if place.chance.random() < 0.5:
        place.swap()
    place.pair.start(place.second)
    place.tell(f"alone: {place.pair.wait_state(place.second, 'Consistent/DUnknown|UpToDate/DUnknown', SEEN)}")
    seen = time.monotonic() - moment
    place.refused("one comes back, without a word", place.second, "", NO_WORD)
    place.taken_over("power of both, one comes back", seen, place.off())
    back(place, place.first)
    place.swap()


def killed(place: Place) -> None:
    """A takeover is killed at random moments, and between `primary` and the server's start, where its machine loses its
    power too. Begun again it goes on."""
    place.work()
    seen = first_lost(place)
    words = f"takeover --witness /run/witness {place.off()}"
    place.pair.script(place.second, f"takeover {place.off()}")
    place.second.put(place.line.witness(), "/run/witness")
    for _ in range(3):
        seconds = place.chance.uniform(*KILLED)
        status, said = place.second.run(f"timeout -s KILL {seconds:.1f} {SCRIPTS}/{words}", 400)
        place.tell(f"killed behind {seconds:.1f} s: status {status}, {place.pair.state(place.second)}: {said.strip()}")
        at_work = "pidof station > /dev/null && ! grep -q ' /var/lib/station ' /proc/mounts"
        place.pair.wait_for(lambda: place.second.run(at_work)[0] != 0, SEEN, "a killed look's program runs still")
    killed_at_start(place, words)
    place.tell(f"killed at the server's start: {place.pair.state(place.second)}")
    place.second.cut()
    place.pair.start(place.second)
    place.refused("killed, and rebooted, without a word", place.second, "", NO_WORD)
    place.taken_over("a takeover was killed, and its machine", seen, place.off())
    back(place, place.first)
    place.swap()


def killed_at_start(place: Place, words: str) -> None:
    """A takeover whose process is killed as it starts the server. It has become primary, and begun again it goes on."""
    own = place.second.ask(f"cat {SETTINGS}") + "\n"
    place.second.put(own.replace("/sbin/server start", "/sbin/kill-parent"), SETTINGS)
    status, said = place.pair.script(place.second, words)
    place.tell(said)
    place.expect(status == 137, f"the takeover that is killed at the server's start ended with {status}: {said}")
    place.second.put(own, SETTINGS)
    state = place.pair.state(place.second)
    place.expect("Primary" in state, f"behind `primary` the second is {state}")
    status, said = place.pair.script(place.second, "takeover")
    place.tell(said)
    place.expect(status == 0, f"a takeover that was killed doesn't go on: {status}: {said}")


def both_written(place: Place) -> None:
    """Two words that weren't true: the second takes over from a frozen first, and the first is told to go on. Nothing
    is thrown away, nobody takes over, and the page's section joins both by the half that has the witness's numbers."""
    place.work()
    seen, numbers = place.cable_cut(), place.numbers()
    is_alone(place, place.second, time.monotonic())
    place.taken_over("both written: the second", seen, place.off())
    place.line.wait_for(3 * BEHIND, ANSWERS)
    place.word()
    written = [it for it in place.answers(place.first, numbers) if "POST" in it and " 200 " in it]
    place.expect(bool(written), "the first that was told accepts nothing")
    place.pair.cable.mend()
    for guest in (place.first, place.second):
        place.pair.wait_state(guest, "^(StandAlone|WFConnection)", SEEN)
    place.pair.wait_state(place.first, "^StandAlone", SEEN)
    states = [place.pair.state(guest) for guest in (place.first, place.second)]
    place.tell(f"both written, the cable is whole: {states}")
    place.expect(all("Primary/Unknown UpToDate" in it for it in states), f"something was thrown away: {states}")
    place.refused("both written", place.first, place.off(), SPLIT)
    joined_by_the_page(place, newer=place.second, older=place.first)
    place.swap()


def joined_by_the_page(place: Place, newer: Guest, older: Guest) -> None:
    """`Where both were written`: what the page has the operator type."""
    place.pair.address.move(None)
    for guest in (newer, older):
        place.tell(place.pair.ask_script(guest, "stepdown --alone"))
        guest.put(place.line.witness(), "/run/witness")
    status, said = place.pair.script(older, "takeover --look --witness /run/witness")
    place.tell(said)
    place.expect(status == 1 and OLDER in said, f"the older half isn't seen: {said}")
    status, said = place.pair.script(newer, "takeover --look --witness /run/witness")
    place.tell(said)
    place.expect(status == 0, f"the newer half isn't seen: {said}")
    older.ask("drbdadm disconnect station; drbdadm connect --discard-my-data station", 120)
    newer.ask("drbdadm disconnect station; drbdadm connect station", 120)
    place.pair.wait_joined()
    place.swap() if place.second is not newer else None
    place.taken_over("both written: joined", 0.0, "")
