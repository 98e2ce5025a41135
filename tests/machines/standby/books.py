"""The books of a store on two machines, against those of an undisturbed run of the same requests."""

import json
import re
import subprocess
from collections import Counter
from pathlib import Path

from common.customers import EVENTS, tables
from common.served import Caller, Server, station

from machines.standby.load import Asking


def taken_out(disk: Path, folder: Path) -> Path:
    """The two files of the store, out of a machine's disk that isn't mounted: the file system begins at its start."""
    folder.mkdir()
    for name in ("books.db", "books.db-wal"):
        words = ["/sbin/debugfs", "-R", f"dump /{name} {folder}/{name}", str(disk)]
        done = subprocess.run(words, capture_output=True, text=True)
        if done.returncode or not (folder / name).exists():
            raise SystemExit(f"FAILED: debugfs: {done.stderr.strip()}")
    return folder / "books.db"


def undisturbed(program: Path, site: Path, folder: Path, port: int, stations: list[Asking]) -> tuple[Path, list[str]]:
    """The store behind the same requests, which nobody disturbs, and the replies that differ."""
    db, faults = folder / "calm.db", []
    server = Server(station(str(program), str(site), str(db), port), port).wait(Server.is_listening)
    try:
        for each in stations:
            caller = Caller(port, each.token)
            for path, members, status, reply, _ in each.answered:
                calm = caller.ask("POST", path, members)
                if (calm[0], json.loads(calm[1])) != (status, reply):
                    faults.append(f"{each.name}: number {members['nr']} of {path} has another reply undisturbed")
            caller.close()
    finally:
        server.kill()
    return db, faults


def counted(stored: dict[str, list[str]], stations: list[Asking]) -> tuple[int, int]:
    """How many acknowledged steps of chips the ledger lacks, and how many it has too often, by its rows."""
    expected, have = Counter[tuple[str, str]](), Counter[tuple[str, str]]()
    for each in stations:
        for path, members, status, _, _ in each.answered:
            if status == 200 and path in EVENTS:
                expected[members["chip"], EVENTS[path]] += 1
    for row in stored["ledger"]:
        found = re.match(r"\('[^']*', '([0-9a-f]{12})', \d+, '([a-z]+)'", row)
        if found:
            have[found[1], found[2]] += 1
    return (expected - have).total(), (have - expected).total()


def given_twice(stations: list[Asking]) -> list[str]:
    """The serial numbers and the addresses to which stations have replies for two chips."""
    faults = []
    replies = [
        (each.customer, reply)
        for each in stations
        for path, _, status, reply, _ in each.answered
        if path == "/v1/identity" and status == 200
    ]
    for what in ("serial", "mac"):
        given = Counter((who, reply[what]) for who, reply in replies if reply[what])
        faults += [f"{what} {name} is given twice" for (_, name), count in given.items() if count > 1]
    return faults


def compared(stored: Path, calm: Path, stations: list[Asking]) -> tuple[dict[str, int], list[str]]:
    """The counts of both stores, and what they don't have in common."""
    rows, others = tables(stored), tables(calm)
    faults = [f"the table {name} differs" for name in rows if rows[name] != others[name]]
    faults += [] if rows["test"] == [("ok",)] else [f"SQLite finds {rows['test'][0]} in the file"]
    lost, twice = counted(rows, stations)
    faults += [f"{lost} acknowledged steps are lost"] if lost else []
    faults += [f"{twice} steps are there that nobody acknowledged"] if twice else []
    serials = sum(1 for each in stations for it in each.answered if it[0] == "/v1/identity" and it[2] == 200)
    requests = sum(len(each.answered) for each in stations)
    counts = {"requests": requests, "serials": serials, "lost": lost, "twice": twice}
    return counts, faults + given_twice(stations)
