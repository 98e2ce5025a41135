"""What went wrong, in sentences for a person at a bench: what happened, and then what to do.

No name of a class stands in them, and no control character of a server or a chip.
"""

import os
import ssl
import subprocess
import traceback

from wanekupo.common.errors import PAGES, OutOfStep, Refused, StationError
from wanekupo.common.texts import shown

# What each refusal of docs/integrate/api.md means, and what to do.
REFUSALS = {
    1: ("the request has a head that is none", "This client isn't the server's: mend it."),
    2: ("the request says no length of its body", "This client isn't the server's: mend it."),
    3: ("the request is too long", "Send less at once."),
    4: ("the request came in pieces without a length", "Look at the proxy between: it has to pass requests on whole."),
    6: ("the server doesn't know the token", "Look whether it ended. station-token's tokens work through nginx alone."),
    7: ("the server doesn't know this request", "The server is an older one than this client: compare their versions."),
    8: (
        "this token may not ask for that",
        "One that only looks changes nothing: take the seat's own. The site's report takes the manager's.",
    ),
    9: ("the request is no JSON", "This client isn't the server's: mend it."),
    10: (
        "the request lacks something, or has a word of another form",
        "Look at the words. A chip is asked for by its 12 digits: wanekupo devices shows which has a serial number.",
    ),
    13: ("the customer has imported no such map", "Import the map first: wanekupo map FILE."),
    14: ("the customer has no order of this name", "Look at the name, or make the order first."),
    15: (
        "the customer has no device of this chip",
        "Register the chip first, or look whose chip it is. Behind a restore of the store look into its page first.",
    ),
    16: ("it is there already", "Look at it: wanekupo device CHIP, or wanekupo order NAME."),
    17: ("the device's state doesn't allow it", "Look at it, and go on by its state: wanekupo device CHIP."),
    18: ("each place of the order is taken", "Take another order: each device keeps its place until it is scrapped."),
    19: ("the map has no field of this name", "Look at the names of the map's fields."),
    20: ("the field has no bit of this number", "Look at the map: the first bit of a field is 0."),
    21: ("the value doesn't fit into its field", "Look at the digits: the highest comes first."),
    22: ("a bit is to be 0 that is burnt already", "Look at the wish. Where it is right put the chip aside."),
    23: ("two of the wishes contradict each other", "Look at them: one place is to be both 0 and 1, or has two keys."),
    24: ("a wish is of another kind than its field", "Wish for a key in key fields alone, and for bits in others."),
    25: ("the key block has another key", "Look which file the key is of. Where it is right put the chip aside."),
    26: ("something can't be burnt any more, as its write lock is", "Leave it out, or put the chip aside."),
    27: ("something can't be read any more, as its read lock is burnt", "Leave it out, or put the chip aside."),
    28: ("the field has no such lock", "Look at the map, and leave the lock out."),
    29: ("the text is no fuse map", "On the server's machine station-site check FILE says where."),
    30: ("a prefix or a serial number has another form", "It has capital letters, digits and hyphens, 32 at most."),
    31: ("the order's last number has more digits than its width", "Take a greater width, or fewer numbers."),
    32: ("each serial number of the order is given", "Make another order."),
    33: ("no pool has room for the order's addresses", "Have the site get another pool."),
    34: ("another order has one of these numbers", "Take other numbers, or another prefix."),
    35: ("the issuer has given this key another serial number", "Make another key pair for this chip."),
    36: ("the chip has a coding scheme", "Put the chip aside."),
    37: ("the issuer isn't the customer's", "Look at its name, or have the site get it."),
    38: ("a row contradicts what is given already", "Look at both sources of this serial number."),
    39: ("another map has this digest", "Show it to the server's people."),
    40: ("the customer may not have more of these", "Look at the limits, and at what there is."),
    41: ("these aren't the map's blocks, or show what their locks hide", "Read the chip again, with its own map."),
    42: ("the beginning of validity is no time", "Write it as 20260101000000Z."),
}

STOPPED_HIGHER = (
    "Somebody or something else used this seat's number. Stop here, and look why before "
    "wanekupo number --resynchronize."
)
STOPPED_LOWER = (
    "The store is an older one. Unless it was restored on purpose, stop its server now, keep all stations off, and "
    f"restore it from step 1 of {PAGES}/operate/backup-and-restore.md."
)

# What a call to the machine failed with, and what to do, by the class of the error.
OF_FILES: list[tuple[type[OSError], str, str]] = [
    (FileNotFoundError, "there is no file or command {}", "Look at its name."),
    (PermissionError, "this user may not open {}", "Look whose it is, and at its mode."),
    (IsADirectoryError, "{} is a folder, and not a file", "Name a file."),
    (NotADirectoryError, "{} isn't in a folder", "Look at its name."),
]

# The words that a sentence of this package begins with. Any other first word may be the name of a file or a command,
# and stays as it was given.
OPENERS = frozenset(
    "a an another block devices each from it its line no nobody nothing number only order others some that the there "
    "these this two wanekupo what without".split()
)

OURS = os.path.dirname(os.path.dirname(os.path.abspath(__file__)))


def sentence_of(error: BaseException) -> str:
    """What happened, in one line, and what to do then."""
    if isinstance(error, OutOfStep):
        happened, advice = _stopped(error), STOPPED_LOWER if error.expected <= error.number else STOPPED_HIGHER
    elif isinstance(error, Refused):
        happened, advice = _refused(error)
    elif isinstance(error, StationError):
        happened, advice = str(error), error.advice
    elif isinstance(error, ssl.SSLCertVerificationError):
        happened = f"the server's certificate isn't trusted: {error.verify_message}"
        advice = "Nothing was sent. Look at the address, and at the certificates of --ca."
    elif isinstance(error, OSError):
        happened, advice = _of_file(error)
    elif isinstance(error, subprocess.SubprocessError):
        happened, advice = _of_command(error)
    elif isinstance(error, ValueError):
        happened, advice = str(error), ""
    else:
        happened, advice = _own_fault(error)
    return " ".join(it for it in (begun(shown(happened)).rstrip(".") + ".", shown(advice)) if it)


def begun(happened: str) -> str:
    """With a capital letter, but where the name of a file or a command begins it."""
    return happened[:1].upper() + happened[1:] if happened.partition(" ")[0] in OPENERS else happened


def _stopped(stop: OutOfStep) -> str:
    return (
        f"the seat is out of step: {stop.path} was sent with number {stop.number}, "
        f"and the server expects {stop.expected}"
    )


def _refused(refused: Refused) -> tuple[str, str]:
    meaning, advice = REFUSALS.get(refused.no, (refused.name, f"Look the number up in {PAGES}/integrate/api.md."))
    more = "".join(f", {name} {value}" for name, value in refused.more.items())
    return f"the server refused it: {meaning} (refusal {refused.no}, {refused.name}{more})", advice


def _of_file(error: OSError) -> tuple[str, str]:
    folder = os.path.dirname(os.fsdecode(error.filename)) if isinstance(error.filename, (str, bytes)) else ""
    if isinstance(error, FileNotFoundError) and folder and not os.path.exists(folder):
        return f"there is no folder {folder}", "Look at its name, or make it first."
    if error.filename is not None:
        for kind, happened, advice in OF_FILES:
            if isinstance(error, kind):
                return happened.format(error.filename), advice
    name = f"{error.filename}: " if error.filename is not None else ""
    return f"{name}{error.strerror or error}", "Look at the disk, and at the network."


def _of_command(error: subprocess.SubprocessError) -> tuple[str, str]:
    """Of a command its name alone is told: its words, and what it printed, may have what nobody else is to read."""
    command = getattr(error, "cmd", "a command")
    name, advice = command if isinstance(command, str) else command[0], "Look at the chip, its socket and the cable."
    if isinstance(error, subprocess.CalledProcessError):
        return f"the command {name} ended with status {error.returncode}", advice
    if isinstance(error, subprocess.TimeoutExpired):
        return f"the command {name} didn't end within {error.timeout:.0f} seconds", advice
    return f"the command {name} failed", advice


def _own_fault(error: BaseException) -> tuple[str, str]:
    """What nobody foresaw, with the place in this program where it arose."""
    places = [it for it in traceback.extract_tb(error.__traceback__) if it.filename.startswith(OURS)]
    place = f" in {os.path.basename(places[-1].filename)}, line {places[-1].lineno}" if places else ""
    return f"wanekupo has a fault of its own{place}: {error}", "Note this line, and report it."
