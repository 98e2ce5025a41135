"""Stores of lives, of which C's SQLite copies most, and starts over them, for `starts` and `sizes`."""

import hashlib
import resource
import sqlite3
import subprocess
import time
from collections import Counter

from common.lives import LARGEST_ORDER, STEPS, name_of, requests
from common.program import Failed, Program

# The lives that the program makes where the others are copied.
PATTERN = 1000

# What is asked for at a start: an order, or where there is none the report, which has no line then.
SHOWN = {"devices": "order?name=o000", "bare": "order?name=o000", "imported": "report"}


def address_after(mac, count):
    """The address that comes so many after this one."""
    return mac and f"{int(mac, 16) + count:012x}"


def rows_of(base, table, order):
    """The rows of a table, each as a list."""
    return [list(row) for row in base.execute(f"SELECT * FROM {table} ORDER BY {order}")]


def note_of(entry, serial):
    """What an entry of another device notes where it has this serial number."""
    return serial if entry[4] == "identified" else entry[5]


def copies(base, size):
    """The rows of the lives from the pattern's end to this one, a tuple of a device's rows for each."""
    macs = dict(base.execute("SELECT name, mac FROM orders"))
    devices, given = rows_of(base, "device", "chip"), rows_of(base, "given", "serial")
    starts, ledger = rows_of(base, "given_start", "serial"), rows_of(base, "ledger", "id")
    for number in range(PATTERN + 1, size + 1):
        chip, serial, order = f"{number:012x}", f"L{number:09}", name_of(number)
        place, key = (number - 1) % PATTERN, hashlib.sha256(b"copy %d" % number).digest()
        customer, _, _, *others, _ = devices[place]
        device = (customer, chip, order, *others, serial)
        issuer, _, owner, _, _, _, end = given[place]
        record = (issuer, serial, owner, key, chip, address_after(macs[order], (number - 1) % LARGEST_ORDER), end)
        entries = [
            (STEPS * (number - 1) + step, row[1], chip, *row[3:5], note_of(row, serial), *row[6:])
            for step, row in enumerate(ledger[STEPS * place : STEPS * (place + 1)], 1)
        ]
        yield device, record, (issuer, serial, starts[place][2]), entries


def copy_lives(path, size):
    """Adds the lives behind the pattern, in parts of an order's length."""
    base, count, asked = sqlite3.connect(path, isolation_level=None), 0, Counter()
    base.execute("PRAGMA synchronous = OFF")
    base.execute("PRAGMA cache_size = -400000")
    base.execute("BEGIN IMMEDIATE")
    for device, record, start, entries in copies(base, size):
        base.execute("INSERT INTO device VALUES (?,?,?,?,?,?,?,?,?,?)", device)
        base.executemany("INSERT INTO ledger VALUES (?,?,?,?,?,?,?,?,?)", entries)
        base.execute("INSERT INTO given VALUES (?,?,?,?,?,?,?)", record)
        base.execute("INSERT INTO given_start VALUES (?,?,?)", start)
        asked.update(entry[6] for entry in entries)
        count += 1
        if count % LARGEST_ORDER == 0:
            base.execute("COMMIT")
            base.execute("BEGIN IMMEDIATE")
    base.execute("UPDATE orders SET cursor = min(first + quantity, ?)", (size + 1,))
    base.executemany("UPDATE seat SET last = last + ? WHERE name = ?", [(more, seat) for seat, more in asked.items()])
    base.execute("COMMIT")
    base.close()


def run(command, stream, seconds, **how):
    """What the program writes for a stream, which has to be answered whole."""
    done = subprocess.run(command, input=stream, capture_output=True, timeout=seconds, **how)
    if done.returncode or done.stderr:
        raise Failed(f"status {done.returncode}: {done.stderr.decode()}")
    return done.stdout


def processor_seconds():
    """What the programs that have ended used."""
    usage = resource.getrusage(resource.RUSAGE_CHILDREN)
    return usage.ru_utime + usage.ru_stime


def make(command, path, kind, size, seconds, is_copied):
    """Makes the store, and returns the seconds that took."""
    start = time.perf_counter()
    lives = 0 if kind == "imported" else min(size, PATTERN) if is_copied else size
    asked = requests(kind, size, lives)
    if run(command, b"".join(asked), seconds).count(b"HTTP/1.1 200 OK\r\n") != len(asked):
        raise Failed("a request was refused")
    if is_copied and kind != "imported":
        copy_lives(path, size)
    return time.perf_counter() - start


def shown(kind):
    """The request of a start."""
    return f"GET /v1/{SHOWN[kind]} HTTP/1.1\r\nAuthorization: Bearer abc\r\n\r\n".encode()


def start_of(command, asked, seconds):
    """The seconds from the program's start to its first reply, those of a processor, and its peak of memory, in KiB."""
    start, used = time.perf_counter(), processor_seconds()
    with Program(command, seconds) as program:
        program.start_writing(asked, 65536)
        program.replies.check_next()
        took, peak = time.perf_counter() - start, program.peak()
        program.writer.join()
        program.end()
    return took, processor_seconds() - used, peak
