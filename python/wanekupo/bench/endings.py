"""All the ways in which a chip's stay in a socket can end, each with its sentence.

An ending says what happened, and what the operator does. docs/line/bench.md has the same table for people, and
a test holds the two to each other. `ended_by` finds the ending of an error.
"""

import errno
import ssl
import subprocess
from dataclasses import dataclass
from typing import Any, Optional

from wanekupo.common.errors import BadJournal, BadStateFile, OutOfStep, Refused, StationError, TooLong, UnsafeFile
from wanekupo.chips.espefuse import ChangedUnasked, EspefuseFailed, NoEspefuse, NoKey, NoPort, OtherFamily
from wanekupo.chips.families import BadDump, NoMac
from wanekupo.common.texts import shown

# What an ending means for the chip and for the line: the green box; the red box; the same chip may come again, as
# nothing is lost; the chip is shipped, and comes again for its label; the line stops.
PASS, RED, AGAIN, UNLABELLED, STOP = "pass", "red", "again", "unlabelled", "stop"

GREEN_BOX, RED_BOX, ENGINEER = "take it out, green box", "take it out, red box", "call the engineer"
ONCE_MORE = "put it in once more, and where that fails too, red box"
UNTOUCHED, LEFT_IN = "touch nothing, and ", "leave the chips in, and "
ASK_WHERE = "take it out, and ask where it comes from"
NEXT_ORDER = "ask for the next order"
KEEP_FOR_NEXT = f"take it out, keep it, and {NEXT_ORDER}"
RED_AND_NEXT = f"{RED_BOX}, and {NEXT_ORDER}"
ALL_BEGUN = "Each serial number left was for a chip that was begun, also failed ones"
NEXT_OR_SCRAP = f"{KEEP_FOR_NEXT}, or, while numbers are left, have the red box scrapped"
LABEL_ANEW = "keep it apart, look at the printer, and put it in once more"


@dataclass(frozen=True)
class Ending:
    """`told` is what happened, with names in braces of what is filled in; `todo` is what the operator does."""

    name: str
    effect: str
    told: str
    todo: str

    def sentence(self, **facts: Any) -> str:
        """The one sentence that screen and page show, safe to print."""
        filled = {name: shown(str(facts.get(name) or "")) for name in FACTS}
        return f"{self.told.format(**filled).replace(' ()', '').replace(': )', ')')}: {self.todo.format(**filled)}."

    def is_last(self) -> bool:
        """Whether the chip isn't awaited any more: it doesn't go on where it was."""
        return self.effect in (PASS, RED) or self.name in SENT_AWAY

    def counts(self) -> bool:
        """Whether it counts in the row of failed chips, of which so many stop the line."""
        return self.effect in (RED, AGAIN, UNLABELLED) and self.name not in UNCOUNTED

    def is_failure(self) -> bool:
        """Whether the shift counts the chip as failed."""
        return self.counts() and not self.is_shipped() or self.name in NUMBERLESS

    def is_shipped(self) -> bool:
        """Whether the shift counts the chip as passed: also one that only lacks its label."""
        return self.name == "passed" or self.effect == UNLABELLED

    def may_be_scrapped(self) -> bool:
        """Whether the chip is begun in this order, surely the one in the socket, and at fault: its panel has Scrap."""
        return self.effect == RED and self.name not in UNSCRAPPED or self.name in (*NUMBERLESS, *TRIED)

    def is_gone(self) -> bool:
        """Whether the server has the chip as shipped or scrapped, and no hook runs for it any more."""
        return self.effect == PASS or self.name in ("shipped_before", "scrapped_before")


# What a sentence may have filled in.
FACTS = ("serial", "detail", "order", "hook", "step", "no")

# The ending of a chip that is shipped, and whose label isn't printed.
NO_LABEL = "no_label"

# The line stops, and its chip goes without coming again: those that have no number are of their order, and fail.
NUMBERLESS = ("gave_way", "no_serial")
SENT_AWAY = ("order_full", "used_up", *NUMBERLESS)

# No chip was there, or nothing was done to it now.
BEFORE = ("lost_before", "scrapped_before", "shipped_before")
UNCOUNTED = ("no_chip", "bad_traveller", "other_order", "not_released", *BEFORE)

# Of the red box: what isn't registered here, or is done with. Of the others: what failed at a chip of this order.
UNSCRAPPED = ("scrapped_before", "shipped_before", "other_order", "not_released", "coding", "bad_words")
TRIED = ("no_burn", "no_read", "hook_failed", "hook_late")

TABLE = [
    Ending("passed", PASS, "The chip is shipped as {serial}", GREEN_BOX),
    Ending("passed_before", PASS, "The chip was shipped as {serial} just before", GREEN_BOX),
    # What the server finds in a read-back, and the states of a device that it knows.
    Ending("lost", RED, "A burnt bit reads 0, and the chip is lost ({detail})", RED_BOX),
    Ending("stray", RED, "A bit reads 1 that nobody planned, and the chip is lost ({detail})", RED_BOX),
    Ending("key", RED, "The key block reads another key, and the chip is lost ({detail})", RED_BOX),
    Ending("short", RED, "The chip was burnt three times and doesn't take all bits ({detail})", RED_BOX),
    Ending("lost_before", RED, "The chip was lost before ({detail})", RED_BOX),
    Ending("scrapped_before", RED, "The chip was scrapped before", RED_BOX),
    Ending("shipped_before", RED, "The chip is shipped already, as {serial}", ASK_WHERE),
    Ending("other_order", RED, "The chip is of the order {order}", "take it out, and bring it to that order's bench"),
    Ending("other_map", RED, "The chip was registered with another fuse map", RED_BOX),
    Ending("other_wishes", RED, "The chip was planned otherwise than the recipe wishes ({detail})", RED_BOX),
    # Refusals of the server.
    Ending("not_blank", RED, "The chip has burnt what the recipe contradicts (refusal {no}: {detail})", RED_BOX),
    Ending("coding", RED, "The chip has another coding scheme (refusal 36)", RED_BOX),
    Ending("bad_words", RED, "The chip shows what the server can't take (refusal 41)", RED_BOX),
    Ending("other_hand", AGAIN, "Somebody else works on this chip (refusal {no})", "put it in once more"),
    Ending("order_full", STOP, ALL_BEGUN, NEXT_OR_SCRAP),
    Ending("used_up", STOP, "The order has no serial number left, and the chip isn't begun", KEEP_FOR_NEXT),
    Ending("gave_way", STOP, "The last serial number is another chip's, and this one isn't burnt", RED_AND_NEXT),
    Ending("no_serial", STOP, "The order has no serial number left for this chip (refusal {no})", RED_AND_NEXT),
    Ending("bad_token", STOP, "The server doesn't take this bench's token (refusal {no})", ENGINEER),
    Ending("bad_wish", STOP, "The recipe wishes for what the fuse map hasn't (refusal {no})", ENGINEER),
    Ending("no_order", STOP, "The server knows no order {order} (refusal {no})", ENGINEER),
    Ending("unknown", STOP, "The server knows no such map or chip (refusal {no})", ENGINEER),
    Ending("bad_map", STOP, "The server doesn't take the recipe's fuse map (refusal {no})", ENGINEER),
    Ending("same_key", STOP, "The key pair was used for another chip (refusal 35)", ENGINEER),
    Ending("refused", STOP, "The server refuses what this program asks ({detail})", ENGINEER),
    Ending("out_of_step", STOP, "Somebody else used this bench's seat (refusal {no})", UNTOUCHED + ENGINEER),
    Ending("older_store", STOP, "The server's store is an older one (refusal {no})", UNTOUCHED + "have it stopped"),
    # The network. A server that is away ends nothing: the bench waits.
    Ending("certificate", STOP, "The server's certificate isn't trusted", ENGINEER),
    Ending("too_long", STOP, "What answers isn't the server", ENGINEER),
    # espefuse, and the chip behind it.
    Ending("no_chip", AGAIN, "No chip answers in the socket ({detail})", "press it in, and begin again"),
    Ending("no_port", STOP, "The socket's port can't be opened ({detail})", ENGINEER),
    Ending("no_tool", STOP, "What reads the chip doesn't start ({detail})", ENGINEER),
    Ending("no_dump", AGAIN, "This is no chip of the recipe's kind ({detail})", "take it out, and look at it"),
    Ending("no_mac", AGAIN, "The chip shows no factory address ({detail})", ONCE_MORE),
    Ending("other_chip", AGAIN, "Another chip is in the socket than before", "put the first one back, and begin again"),
    Ending("changed", RED, "A block changed that nobody burns ({detail})", RED_BOX),
    Ending("no_burn", AGAIN, "espefuse can't burn the chip ({detail})", ONCE_MORE),
    Ending("no_read", AGAIN, "espefuse can't read the chip ({detail})", ONCE_MORE),
    # The recipe's own commands.
    Ending("not_released", RED, "before_register says no, and the chip isn't begun ({detail})", ASK_WHERE),
    Ending("lost_key", RED, "The chip has or awaits a key that isn't on this bench ({detail})", RED_BOX),
    Ending("no_key", STOP, "There is no key to burn ({detail})", ENGINEER),
    Ending("hook_missing", STOP, "The command {hook} doesn't start ({detail})", ENGINEER),
    Ending("hook_failed", AGAIN, "The command {hook} failed ({detail})", ONCE_MORE),
    Ending("hook_late", AGAIN, "The command {hook} took too long ({detail})", ONCE_MORE),
    Ending("no_public_key", STOP, "The command before_identity left no public key ({detail})", ENGINEER),
    Ending(NO_LABEL, UNLABELLED, "The chip is shipped as {serial}, its label is missing ({detail})", LABEL_ANEW),
    # This machine.
    Ending("disk_full", STOP, "The disk of this bench is full", LEFT_IN + ENGINEER),
    Ending("disk", STOP, "A file of this bench can't be written ({detail})", LEFT_IN + ENGINEER),
    Ending("bad_file", STOP, "A file of this bench isn't as it should be ({detail})", ENGINEER),
    Ending("own_fault", STOP, "This program has a fault of its own ({detail})", "note this sentence, and " + ENGINEER),
    # What was scanned.
    Ending("bad_traveller", AGAIN, "This traveller isn't of the order {order}", "take the traveller's own bench"),
]
ENDINGS = {it.name: it for it in TABLE}

# The server's refusals by their numbers. Those of orders and of imports aren't here, which a bench never asks for.
REFUSALS = {
    **dict.fromkeys((1, 2, 3, 4, 7, 9, 10), "refused"),
    **dict.fromkeys((6, 8), "bad_token"),
    **dict.fromkeys((13, 15), "unknown"),
    14: "no_order",
    **dict.fromkeys((16, 17), "other_hand"),
    18: "order_full",
    32: "no_serial",
    **dict.fromkeys((19, 20, 21, 23, 24, 28), "bad_wish"),
    **dict.fromkeys((22, 25, 26, 27), "not_blank"),
    **dict.fromkeys((29, 39, 40), "bad_map"),
    35: "same_key",
    36: "coding",
    41: "bad_words",
}

# What isn't right on this machine or with a chip, by the class of the error.
OF_STATION: list[tuple[type[StationError], str]] = [
    (TooLong, "too_long"),
    (NoEspefuse, "no_tool"),
    (ChangedUnasked, "changed"),
    (NoKey, "no_key"),
    (NoPort, "no_port"),
    (NoMac, "no_mac"),
    (BadStateFile, "bad_file"),
    (BadJournal, "bad_file"),
    (UnsafeFile, "bad_file"),
]

# What there is no room for: a full disk, and a user's full share of one.
FULL = (errno.ENOSPC, errno.EDQUOT)


class Ended(Exception):
    """A chip's stay in a socket has ended so; `facts` are filled into the sentence."""

    def __init__(self, name: str, **facts: Any):
        self.ending, self.facts = ENDINGS[name], facts
        super().__init__(name)


def ended_by(error: BaseException, step: str) -> Ended:
    """The ending that an error makes of a step. What nobody foresaw is this program's own fault."""
    if isinstance(error, Ended):
        return error
    if isinstance(error, OutOfStep):
        return Ended("older_store" if error.expected <= error.number else "out_of_step", no=error.no)
    if isinstance(error, Refused):
        return Ended(REFUSALS.get(error.no, "refused"), no=error.no, detail=str(error))
    if isinstance(error, StationError):
        detail = str(error).removeprefix("espefuse says: ")
        return Ended(_of_station(error, step), detail=detail, output=getattr(error, "output", ""))
    if isinstance(error, ssl.SSLCertVerificationError):
        return Ended("certificate")
    if isinstance(error, subprocess.SubprocessError):
        return Ended(_of_tool(step), detail=_said(error))
    if isinstance(error, OSError):
        return _of_machine(error)
    return Ended("own_fault", detail=f"{type(error).__name__}: {error}")


def _of_station(error: StationError, step: str) -> str:
    for kind, name in OF_STATION:
        if isinstance(error, kind):
            return name
    if isinstance(error, OtherFamily):
        return "no_dump" if step == "read" else "other_chip"
    if isinstance(error, EspefuseFailed):
        return "other_chip" if "another chip" in str(error) else _of_tool(step)
    if isinstance(error, BadDump):
        return "no_dump" if step == "read" else "no_read"
    return "bad_file"


def _of_tool(step: str) -> str:
    """By the step, what it means that espefuse failed."""
    return "no_chip" if step == "read" else "no_burn" if step.startswith("burn") else "no_read"


def _said(error: subprocess.SubprocessError) -> str:
    """What a socket's own command said last, cut to what a screen has room for."""
    if not isinstance(error, subprocess.CalledProcessError):
        return "it took too long"
    said = "\n".join(text if isinstance(text, str) else "" for text in (error.stdout, error.stderr))
    lines = [line.strip() for line in said.splitlines() if line.strip()]
    return lines[-1][:120] if lines else f"status {error.returncode}"


def _of_machine(error: OSError) -> Ended:
    if error.errno in FULL:
        return Ended("disk_full")
    name: Optional[str] = error.filename if isinstance(error.filename, str) else None
    return Ended("disk", detail=f"{name}: {error.strerror}" if name else str(error.strerror or error))
