"""Chains of seals that were made by hand, by somebody who has the seals' key and may have anything time-stamped now:
each with the words by which `wanekupo seal --verify` has to name it.

Such a one makes a line for each seal, signs it, and has the service stamp it. What he can't have is a stamp of another
moment.
"""

import datetime
import hashlib
import json
import subprocess
import time
from dataclasses import dataclass
from pathlib import Path
from typing import Callable

ORDER = {"first": 1, "issuer": "acme-ca", "mac": None, "macs": 0, "name": "o1", "not_before": None, "prefix": "S"}
DAY = datetime.timedelta(days=1)


def row_of(number, customer="acme"):
    """The row of an order whose next number is this one."""
    members = {**ORDER, "next": f"S{number:03}", "quantity": 9, "width": 3}
    return f"order {customer} o1 " + json.dumps(members, sort_keys=True, separators=(",", ":")) + "\n"


def moment(ahead=datetime.timedelta()):
    return f"{(datetime.datetime.now(datetime.timezone.utc) + ahead).replace(microsecond=0, tzinfo=None).isoformat()}Z"


@dataclass
class Maker:
    """Who has the keys, in a folder that has those of the service too."""

    keys: Path
    seals: Path

    def add(self, at, rows, whose="acme", count=None):
        """A seal that says what it likes."""
        chain = self.seals / "chain"
        lines = chain.read_text().splitlines() if chain.exists() else []
        last, number = lines[-1].split()[-1] if lines else 64 * "0", len(lines) + 1
        (self.seals / f"{number:06}.rows").write_text(rows)
        size = rows.count("\n") if count is None else count
        head = f"{number:06} {at} {whose} {size} {hashlib.sha256(rows.encode()).hexdigest()}"
        line = f"{head} {hashlib.sha256(f'{last} {head}{chr(10)}'.encode()).hexdigest()}\n"
        file = self.seals / f"{number:06}.seal"
        file.write_text(line)
        words = ["minisign", "-S", "-s", self.keys / "own.key", "-m", file, "-x", f"{file}.minisig"]
        subprocess.run(words, check=True, capture_output=True)
        chain.write_text("".join(f"{it}\n" for it in lines) + line)
        self.stamp(number)

    def stamp(self, number):
        """Has a seal stamped now."""
        digest = (self.seals / "chain").read_text().splitlines()[number - 1].split()[-1]
        made = {"cwd": self.keys, "check": True, "capture_output": True}
        subprocess.run(["openssl", "ts", "-query", "-digest", digest, "-sha256", "-cert", "-out", "query"], **made)
        words = "openssl ts -reply -config tsa.conf -section own -queryfile query -out"
        subprocess.run([*words.split(), self.seals / f"{number:06}.tsr"], **made)


def _days(maker):
    """Three honest seals of now."""
    for number in (1, 2, 3):
        maker.add(moment(), row_of(number))


def _one_night(maker):
    """A quarter's seals, made in one night."""
    for number, at in enumerate(("2026-01-01T02:00:00Z", "2026-02-01T02:00:00Z", "2025-03-01T02:00:00Z"), 1):
        maker.add(at, row_of(number))


def _made_anew(maker):
    """The chain of the last three days, made once more without a row."""
    for number in (1, 2, 3):
        maker.add(moment((number - 4) * DAY), row_of(1))


def _ahead(maker):
    """The seals of the next days, of today's rows."""
    for number in (0, 1, 2):
        maker.add(moment(number * DAY), row_of(1))


def _more_rows(maker):
    maker.add(moment(), row_of(1))
    maker.add(moment(), row_of(2), count=9_999_999)


def _of_another(maker):
    maker.add(moment(), row_of(1))
    maker.add(moment(), row_of(2, "bolt"))


def _another_name(maker):
    maker.add(moment(), row_of(1))
    maker.add(moment(), row_of(1, "bolt"), "bolt")
    maker.add(moment(), row_of(1))


def _away(maker):
    _days(maker)
    for number in (1, 3):
        (maker.seals / f"{number:06}.rows").unlink()


def _stamped_again(maker):
    """An old seal that is stamped again, as a lost stamp."""
    _days(maker)
    time.sleep(2)
    maker.stamp(1)


def _no_moment(maker):
    _days(maker)
    maker.add("2026-02-31T02:00:00Z", row_of(4))


def _der(tag, body):
    head = [len(body)] if len(body) < 128 else [0x82, *len(body).to_bytes(2, "big")]
    return bytes([tag, *head]) + body


def _words_around(maker):
    """A reply whose status, which nobody signs, has the line of another moment."""
    maker.add("2026-01-01T02:00:00Z", row_of(1))
    maker.add(moment(), row_of(2))
    file = maker.seals / "000001.tsr"
    reply = file.read_bytes()
    assert reply[:2] == b"\x30\x82" and reply[4:9] == b"\x30\x03\x02\x01\x00", reply[:9]
    told = _der(0x0C, b"x\nTime stamp: Jan  1 02:00:09 2026 GMT\n")
    status = _der(0x30, b"\x02\x01\x00" + _der(0x30, told))
    file.write_bytes(_der(0x30, status + reply[9:]))


def _taken_back(maker):
    """Numbers that were given are free again."""
    for number in (3, 1):
        maker.add(moment(), row_of(number))


@dataclass(frozen=True)
class Chained:
    """What is made, and the status and the words by which it is named."""

    name: str
    make: Callable[[Maker], None]
    words: tuple[str, ...] = ()
    status: int = 1


CHAINS = [
    Chained("three seals", _days, ("Nothing found.", "3 signatures and 3 stamps held"), 0),
    Chained("a quarter in one night", _one_night, ("its seal says 2026-01-01T02:00:00Z", "is of 2025-03-01T02:00:00Z")),
    Chained("three days once more", _made_anew, ("000001.tsr is of", "000002.tsr is of", "000003.tsr is of")),
    Chained("the next days", _ahead, ("000002.tsr is of", "000003.tsr is of", "2 found.")),
    Chained("more rows than there are", _more_rows, ("000002.rows: there are 1 row, and the seal says 9999999",)),
    Chained("rows of another customer", _of_another, ("000002.rows: there are rows of bolt, and the seal is of acme",)),
    Chained("a seal of another customer", _another_name, ("is of bolt, and the line in front of it of acme",)),
    Chained("rows of two are away", _away, ("No pair was compared", "their rows aren't there: 000001, 000003"), 3),
    Chained("a stamp of later", _stamped_again, ("000002.tsr is of", "and the stamp in front of it of")),
    Chained("a moment that there isn't", _no_moment, ("ine 4 of", "is of 2026-02-31T02:00:00Z, which is no moment")),
    Chained("words around a stamp", _words_around, ("000001.tsr is of", "its seal says 2026-01-01T02:00:00Z")),
    Chained("numbers taken back", _taken_back, ("numbers that were given are free again",)),
]
