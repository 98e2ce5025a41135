"""What befalls two machines where the cable is mended, or somebody says that the other machine is off: a person, the
plant's own power switch, or a person who comes later than DRBD's tool waits."""

import time

from machines.standby.image import STANDBY
from machines.standby.pair import SEEN
from machines.standby.place import Cut, Place, back, first_lost, is_alone
from machines.standby.power import PowerSwitch
from machines.standby.scenarios import NO_WORD

# How long DRBD's handler waits for a word, by a line of a file, and how long it does where that is tried.
HANDLER = f"{STANDBY}/fence_peer.py"
WAITS, SHORT = "LONGEST = 570", "LONGEST = 20"
# How much longer `other-is-off` waits for a handler that may be there.
LATE = 90


def cable_mended(place: Place) -> None:
    """The cable is cut. The first answers nothing, and can't hand the store over. Once the cable is whole it goes on by
    itself, and its address comes back."""
    place.work()
    cut = Cut("cable, mended", seen=place.cable_cut())
    place.pair.wait_address_gone(place.first, SEEN)
    found = place.answers(place.first, place.numbers())
    place.expect(not found, f"the frozen machine answers {found}")
    status, said = place.pair.script(place.first, "stepdown")
    place.expect(status == 1 and "frozen" in said, f"stepdown of a frozen machine is {status}: {said}")
    mended(place, cut)


def mended(place: Place, cut: Cut) -> None:
    """The cable is whole: both halves become one, and the line goes on."""
    place.pair.cable.mend()
    cut.replied = place.next_reply()
    place.pair.wait_joined()
    place.cuts.append(cut)


def goes_on(place: Place, cut: Cut) -> None:
    """The first goes on alone. The cable is mended, and the second comes back."""
    cut.replied = place.next_reply()
    place.cuts.append(cut)
    place.pair.cable.mend()
    back(place, place.second)


def fenced(place: Place) -> None:
    """The plant's power switch says that the other machine is off: the first goes on alone without anybody, and so does
    a takeover, which wants the witness still."""
    with PowerSwitch(place.pair) as switch:
        switch.install(place.first, place.second)
        place.work()
        cut = Cut("cable, the switch asked by the first", seen=place.cable_cut())
        cut.replied = place.next_reply()
        place.cuts.append(cut)
        place.expect(not place.second.is_on(), "the power switch wasn't asked")
        place.pair.cable.mend()
        back(place, place.second)
        switch.install(place.second)
        place.work()
        seen = first_lost(place)
        place.taken_over("power of the first, the switch asked", seen, "")
        place.expect(switch.asked[-1] == place.first.name, f"the power switch was asked for {switch.asked}")
        back(place, place.first)
        place.swap()


def fence_fails(place: Place) -> None:
    """The plant's power switch doesn't answer: the first stays frozen, and nobody takes over, until a word comes."""
    with PowerSwitch(place.pair) as switch:
        switch.is_working = False
        switch.install(place.first, place.second)
        place.work()
        cut = Cut("cable, the switch is dead", seen=place.cable_cut())
        is_alone(place, place.second, time.monotonic())
        place.refused("the switch doesn't answer", place.second, "", NO_WORD)
        place.pair.wait_for(lambda: len(switch.asked) > 1, SEEN, "the power switch wasn't asked by both")
        count = place.line.count()
        time.sleep(5)
        place.expect(place.line.count() == count, "a frozen machine has answered")
        place.expect(place.second.is_on(), "the power switch cut power that it didn't say")
        place.second.cut()
        place.word()
        goes_on(place, cut)


def frozen_long(place: Place) -> None:
    """DRBD's handler has ended, as nobody said anything: a cable that is mended then, and a word that comes then."""
    for guest in (place.first, place.second):
        guest.ask(f"grep -q '^{WAITS}$' /{HANDLER} && sed -i 's/^{WAITS}$/{SHORT}/' /{HANDLER}")
    place.work()
    mended(place, Cut("cable, mended behind the handler's end", seen=frozen_until_ended(place)))
    place.work()
    cut = Cut("cable, a word behind the handler's end", seen=frozen_until_ended(place))
    place.second.cut()
    place.word()
    place.tell(f"a word behind the handler's end: {place.pair.state(place.first)}")
    goes_on(place, cut)


def frozen_until_ended(place: Place, seconds: float = 120) -> float:
    """The cable is cut, and DRBD's tool has no handler any more that waits for a word. Returns as `cable_cut`."""
    seen = place.cable_cut()
    form = "ps w | grep -q '[d]rbdadm fence-peer'"
    place.pair.wait_for(lambda: place.first.run(form)[0] == 1, seconds, "the handler waits still")
    place.tell(f"the handler has ended: {place.pair.state(place.first)}")
    place.expect(place.pair.state(place.first).startswith("frozen"), "the first isn't frozen behind the handler's end")
    return seen


def frozen_ten_minutes(place: Place) -> None:
    """The same with the ten minutes that are deployed."""
    place.work()
    cut = Cut("cable, a word behind ten minutes", seen=frozen_until_ended(place, 900))
    place.second.cut()
    place.word()
    goes_on(place, cut)
