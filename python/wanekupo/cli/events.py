"""The command `events`: what stations' journals say, as IPC-CFX's messages in JSON, from where the last run stopped."""

import argparse
import contextlib
import json
import os
import sys
import time
import uuid
from http.client import HTTPConnection, HTTPException, HTTPSConnection
from pathlib import Path
from typing import Any, Iterator
from urllib.parse import urlsplit

from wanekupo.common.errors import BadSettings, BadStateFile, NoReply
from wanekupo.common.files import hold_lock, opened_own, replace_file, tested_folder
from wanekupo.common.printing import print_shown
from wanekupo.common.texts import compact_json
from wanekupo.seat.command_line import Command, add_journal_words
from wanekupo.seat.journal import OF_A_DAY, Asked, merged
from wanekupo.seat.settings import Settings

MORE = """. A message's UniqueID is made of its journal's lines: one that comes again, as where a reply was lost, has
the same. FILE has the place behind the last message that was printed, or answered with 2xx by the URL."""

# The messages, as IPC-2591 names them. What a station asks beside these is none.
TESTED = "CFX.Production.TestAndInspection.UnitsTested"
NAMES = {"device": "UnitsArrived", "ship": "UnitsDeparted", "scrap": "UnitsScrapped"}
NAMES = {**{f"/v1/{path}": f"CFX.Production.{name}" for path, name in NAMES.items()}, "/v1/readback": TESTED}

# How many seconds a listener has for a reply, and the pause before it is asked again.
LONGEST, PAUSE = 10, 0.5


def message(it: Asked, serials: dict[str, str]) -> dict[str, Any]:
    """The message of an accepted request; its unit is the chip, by its factory MAC, and has a serial number."""
    name, chip, day = NAMES[it.path], it.members["chip"], OF_A_DAY.fullmatch(Path(it.file).name)
    unique = uuid.uuid5(uuid.NAMESPACE_OID, compact_json([it.at, it.path, it.members, it.reply], sort_keys=True))
    source = day[1].rstrip("-") if day and day[1] else Path(it.file).stem
    head = {"MessageName": name, "Version": "1.7", "TimeStamp": it.at, "Source": source, "Target": None}
    unit, body = {"UnitIdentifier": chip}, {"PrimaryIdentifier": serials.get(chip, chip), "UnitCount": 1}
    if name == TESTED:
        unit["OverallResult"] = "Passed" if (it.reply or {}).get("outcome") == "match" else "Failed"
        body = {"TestMethod": "Automated"}
    body = {"$type": f"{name}, CFX", **body, "TestedUnits" if name == TESTED else "Units": [unit]}
    return {**head, "UniqueID": str(unique), "RequestID": None, "MessageBody": body}


def messages_in(journals: list[str]) -> Iterator[tuple[str, dict[str, Any]]]:
    """The messages of journals by their times, each with the file in which its reply is. A serial number is told from
    its identity on, so that a message that comes again is the same."""
    serials: dict[str, str] = {}
    for it in merged(journals):
        if it.is_done() and it.path == "/v1/identity" and it.reply:
            serials[it.members["chip"]] = str(it.reply.get("serial"))
        if it.is_done() and it.path in NAMES:
            yield os.path.realpath(it.file), message(it, serials)


def new_messages(journals: list[str], place: dict[str, str]) -> Iterator[dict[str, Any]]:
    """The messages behind a place, which goes on with each once the next one is asked for. It has the last message of
    each file: a file that doesn't have that one is another one, and is given as a whole."""
    found = list(messages_in(journals))
    given = place.keys() & {file for file, it in found if place.get(file) == it["UniqueID"]}
    for file, it in found:
        if file not in given:
            yield it
            place[file] = it["UniqueID"]
        elif place[file] == it["UniqueID"]:
            given.remove(file)


def _post(url: str, line: str, patience: float) -> None:
    """Gives a listener a message until it answers with 2xx. A redirection is followed nowhere."""
    end, parts = time.monotonic() + patience, urlsplit(url)
    kind = HTTPSConnection if parts.scheme == "https" else HTTPConnection
    while True:
        try:
            where = f"{parts.path or '/'}?{parts.query}".rstrip("?")
            with contextlib.closing(kind(parts.netloc, timeout=LONGEST)) as connection:
                connection.request("POST", where, line, {"Content-Type": "application/json"})
                status = connection.getresponse().status
            if status // 100 == 2:
                return
            raise OSError(f"status {status}")
        except (OSError, HTTPException) as error:
            if time.monotonic() + PAUSE > end:
                told = "Give the command again: it begins with this message."
                raise NoReply(f"{url} takes no message ({error})", told) from error
        time.sleep(PAUSE)


def _place_in(kept: Path) -> dict[str, str]:
    try:
        with open(opened_own(kept, os.O_RDONLY), "rb") as source:
            return dict(json.loads(source.read()))
    except FileNotFoundError:
        return {}
    except (ValueError, TypeError) as error:
        raise BadStateFile(f"{kept} has no place in journals", "Move it away: all messages come again then.") from error


def _add_arguments(parser: argparse.ArgumentParser) -> None:
    add_journal_words(parser)
    parser.add_argument("--cfx", action="store_true", required=True, help="in the form of IPC-CFX: there is no other")
    parser.add_argument("--kept", type=Path, required=True, metavar="FILE", help="where the place is, with FILE.lock")
    parser.add_argument("--post", metavar="URL", help="give each message to a listener, in place of printing it")


def _events(settings: Settings, args: argparse.Namespace) -> int:
    if args.post and not args.post.startswith(("http://", "https://")):
        raise BadSettings(f"{args.post} is no URL of http or https", "Give that of the MES.")
    tested_folder(args.kept.parent)
    with hold_lock(Path(f"{args.kept}.lock"), BadSettings(f"another run has {args.kept}", "Wait for it.")):
        place = _place_in(args.kept)
        for it in new_messages(args.journals, place):
            replace_file(args.kept, compact_json(place))  # of the message in front
            if args.post:
                _post(args.post, compact_json(it), settings.patience)
            else:
                print_shown(f"{compact_json(it)}\n")
                sys.stdout.flush()
        replace_file(args.kept, compact_json(place))
    return 0


COMMANDS = [Command("events", "give a MES what journals say, as messages of IPC-CFX", _add_arguments, _events, MORE)]
