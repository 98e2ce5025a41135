"""The newer half is lost: the older one becomes a backup, and a restore makes a store of it and of the journals."""

import io
import sqlite3
import tarfile
import time
from pathlib import Path

from common.customers import token_of

from machines.standby.books import given_twice
from machines.standby.guests import SilentGuest
from machines.standby.load import CUSTOMERS, WORK, Asking, Line
from machines.standby.pair import SEEN
from machines.standby.place import ANSWERS, BEHIND, Place, is_alone, new_disk
from machines.standby.scenarios import OLDER

# What the page has the operator type, each command by itself.
DISTRUST = " ".join(f"--distrust-lost c{customer}" for customer in range(CUSTOMERS))
TYPED = f"""
drbdadm primary --force station
mount -o nodev,nosuid,noexec /dev/drbd0 /var/lib/station
/usr/share/wanekupo/backup --program station \
  --site /etc/station/site.toml --db /var/lib/station/books.db /var/backups/station/older-half
/usr/share/wanekupo/restore /var/backups/station/older-half /etc/station/site.toml /run/stick/journals \
  {DISTRUST} --tokens /run/stick/tokens --folders /run/stick/journals.toml
"""


def newer_half_lost(place: Place) -> None:
    """The first goes on alone, and is lost with its disk. The second is refused, and is restored, as the page says. No
    number and no address comes twice, and those that were given are there."""
    place.work()
    place.cable_cut()
    place.word()
    place.line.wait_for(2 * BEHIND, ANSWERS)
    place.line.end()
    place.first.cut()
    place.pair.address.move(None)
    is_alone(place, place.second, time.monotonic())
    place.refused("the newer half is lost", place.second, place.off(), OLDER)
    stick(place)
    for words in TYPED.strip().splitlines():
        status, said = place.second.run(words, 400)
        place.tell(f"$ {words}\n{said.strip()}")
        if status:
            raise SilentGuest(f"{words}: status {status}: {said.strip()[-900:]}")
    place.swap()
    status, said = place.pair.take_over(place.first, place.line.witness, "")
    place.tell(said)
    place.expect(status == 0, f"the restored half isn't served: {said}")
    goes_on(place)
    place.pair.cable.mend()
    place.pair.wait_state(place.first, "WFConnection|StandAlone", SEEN)
    new_disk(place, place.second)
    place.was_restored = True


def stick(place: Place) -> None:
    """What the operator brings on a stick: the journals and the tokens."""
    data = io.BytesIO()
    with tarfile.open(fileobj=data, mode="w") as tar:
        texts = {"journals.toml": "[folders]\n"}
        for each in place.line.stations:
            tar.add(each.journal, f"run/stick/journals/{each.name}/{each.journal.name}")
            texts[f"tokens/{each.name}.token"] = token_of(each.customer, int(each.name[-1]))
            texts["journals.toml"] += f'{each.name} = ["{each.name}"]\n'
        for name, text in texts.items():
            found = tarfile.TarInfo(f"run/stick/{name}")
            found.size, found.mode = len(text), 0o600
            tar.addfile(found, io.BytesIO(text.encode()))
    place.second.stick.write_bytes(data.getvalue())
    place.second.ask("cd / && timeout 120 nc 10.0.2.100 10 < /dev/null > /run/stick.tar; tar xf /run/stick.tar", 200)
    place.second.ask("chown -R station:station /run/stick/journals")
    place.second.ask("mkdir -p /var/backups/station")
    place.second.ask("chown station:station /var/backups/station && chmod 700 /var/backups/station")


def goes_on(place: Place) -> None:
    """Each station takes the number that the restored store expects, and makes new orders and new devices."""
    before = place.line
    place.line = Line(place.pair.address.port, place.folder / "line-restored", 1, begin=1000)
    for old, new in zip(before.stations, place.line.stations):
        new.take_over_from(old)
    place.line.start(WORK).wait_for(4 * BEHIND, ANSWERS)


def restored_books(stored: Path, stations: list[Asking]) -> tuple[dict[str, int], list[str]]:
    """The counts of a restored store: each serial number of a station's reply is there, and none was given twice."""
    base = sqlite3.connect(stored)
    there = set(base.execute("SELECT serial, mac FROM given"))
    base.close()
    replies = [it[3] for each in stations for it in each.answered if it[0] == "/v1/identity" and it[2] == 200]
    lost = [it["serial"] for it in replies if it["serial"] not in {serial for serial, _ in there}]
    twice = given_twice(stations)
    counts = {"requests": sum(len(each.answered) for each in stations), "serials": len(replies)}
    faults = [f"the serial numbers {', '.join(lost)} are lost"] if lost else []
    return counts | {"lost": len(lost), "twice": len(twice)}, faults + twice
