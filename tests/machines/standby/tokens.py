"""Tokens that are ended on one machine alone, behind which the other one takes the store over."""


from machines.standby.guests import Guest
from machines.standby.place import Place, back, first_lost

FILE = "/etc/station/tokens.conf"
TOKEN = "/usr/share/wanekupo/token --no-reload"
# What a takeover says of a token that lives on, and that an operator lets ask.
LIVES, LET = "This machine has tokens that {} didn't let in so: a1:1.", "may ask here by your word: a1:1"


def typed(place: Place, guest: Guest, words: str) -> str:
    """A command of the tokens' tool that has to do what it says."""
    status, said = guest.run(f"{TOKEN} {words}", 400)
    place.tell(f"{guest.name}: token {words}: status {status}: {said.strip()}")
    place.expect(status == 0, f"token {words}: status {status}: {said}")
    return said


def copied(guest: Guest, other: Guest) -> str:
    """The tokens' file of a machine, on the other one too."""
    text = guest.ask(f"cat {FILE}") + "\n"
    other.put(text, FILE)
    other.ask(f"chmod 600 {FILE}")
    return text


def ended_tokens(place: Place) -> None:
    """A token is ended on the first alone, whose power fails. The second is refused until it has ended there too. Then
    the files of before come back onto the other one: a planned change is refused until a word of the operator."""
    typed(place, place.first, "seat a1 --customer c0")
    typed(place, place.first, "add a1 > /dev/null")
    typed(place, place.first, "add a1 --look > /dev/null")
    before = copied(place.first, place.second)
    typed(place, place.first, "revoke a1:1")
    place.work()
    seen = first_lost(place)
    place.refused("a token that lives on", place.second, place.off(), LIVES.format(place.first.name))
    said = typed(place, place.second, "revoke a1:1")
    place.expect("isn't mounted here" in said, f"the machine without the store doesn't say so: {said}")
    place.taken_over("power of the first, and a token", seen, place.off())
    # The image of a machine that was off is of its memory, so it comes back without these files.
    back(place, place.first)
    place.first.put(before, FILE)
    place.first.ask(f"chmod 600 {FILE}")
    place.swap()
    typed(place, place.first, "add a1 > /dev/null")
    place.tell(place.pair.ask_script(place.first, "stepdown"))
    place.refused("a planned change", place.second, "", LIVES.format(place.first.name))
    place.taken_over("a planned change, by a word", 0.0, "--ended-tokens-may-ask")
    told = (LET, "as beta had them, 401 here: a1:3") if place.first.name == "beta" else (LET,)
    place.expect(all(it in place.said[-1] for it in told), f"the word isn't told: {place.said[-1]}")
    place.swap()
