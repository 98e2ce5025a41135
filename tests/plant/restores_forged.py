"""Journals that were forged or damaged, for test_restores.py: whose they are, what they ask, what the lost store says.

A station has its key, so it writes what it likes into the folder of that key, with digests that are right. What it
writes of another's seat is refused with file and line, before anything is moved. What the lost store has otherwise is
refused too. What only the server can refuse is named, with its line and its customer.
"""

import hashlib
import json
import os
import shutil
import sqlite3
import subprocess
import tempfile
from contextlib import closing
from pathlib import Path

from common.chip import Failed
from common.commands import command
from plant.gameday_plant import CUSTOMERS, lines_of

AT = "2031-01-01T00:00:0{}Z"
SEATS = [seat for seats in CUSTOMERS.values() for seat in seats]


def signed(line):
    """A line with the digest of what it asks, as docs/integrate/api.md has it."""
    if "asked" in line:
        text = json.dumps(line["asked"], sort_keys=True, separators=(",", ":"), ensure_ascii=False)
        line["digest"] = hashlib.sha256(f"{line['path']}\n{text}".encode()).hexdigest()
    return line


def written(lines):
    return "".join(json.dumps(it) + "\n" for it in lines)


def done(seat, number, path, asked, reply):
    """The two lines of a request that was done."""
    first = {"at": AT.format(number % 10), "seat": seat, "path": path, "asked": {**asked, "nr": number}}
    return [signed(first), {"at": first["at"], "seat": seat, "nr": number, "status": 200, "reply": reply}]


def own_folder(journals, seat):
    """The folder into which a seat's station ships, by its own number."""
    return next(it for it in sorted((journals / seat).iterdir()) if it.is_dir())


def pairs_of(journals, seat):
    """The requests of a seat with their replies."""
    lines = list(lines_of(own_folder(journals, seat)))
    return [(one, two) for one, two in zip(lines, lines[1:]) if "asked" in one and two.get("status") == 200]


def first_of(journals, path, seats):
    for seat in seats:
        for asked, reply in pairs_of(journals, seat):
            if asked["path"] == path:
                return asked, reply
    raise Failed(f"no {path} is in a journal of {seats}")


def seat_rows(store):
    with closing(sqlite3.connect(f"file:{store}?mode=ro", uri=True)) as base:
        return dict(base.execute("SELECT name, last FROM seat"))


# Whose a journal is.


def cross(seat):
    """What acme's station ships as a seat of bolt: a scrap, an order and an import, each with the right digest."""
    csv = "serial,key_sha256\nB003," + "11" * 32 + "\nB004," + "22" * 32 + "\n"
    order = {"name": "evil", "issuer": "bolt-ca", "prefix": "Z", "width": 3, "first": 1, "quantity": 900, "macs": 0}
    lines = done(seat, 1, "/v1/scrap", {"chip": "24ff00000000"}, {"chip": "24ff00000000", "state": "scrapped"})
    lines += done(seat, 2, "/v1/order", order, {"name": "evil", "next": "Z001"})
    return lines + done(seat, 3, "/v1/import", {"issuer": "bolt-ca", "csv": csv}, {"added": 2, "present": 0})


def test_foreign(bench):
    """acme's a1 ships lines of bolt's b1, under its own name and theirs, alone and behind its own lines."""
    lines = cross("b1")
    nameless = [{name: it for name, it in line.items() if name != "seat"} for line in lines]
    own = (own_folder(bench.journals, "a1"), sorted(own_folder(bench.journals, "a1").glob("*.journal"))[-1])
    count = len(own[1].read_bytes().splitlines())
    zeros = [line if "nr" in line else {**line, "digest": "0" * 64} for line in lines]
    cases = (
        ("b1-2031-01-01.journal", written(lines), 1, "is of the seat b1, and the folder a1 is of a1"),
        ("a1-2031-01-01.journal", written(lines), 1, "is of the seat b1, and the folder a1 is of a1"),
        (own[1].name, own[1].read_text() + written(lines), count + 1, "is of the seat b1, and the folder a1 is of a1"),
        ("b1-2031-01-01.journal", written(zeros), 1, "is of the seat b1"),
        ("a1-2031-01-01.journal", written([zeros[0] | {"seat": "a1"}]), 1,
         "was changed: its digest isn't that of what it asks"),
        ("a1-2031-01-01.journal", written([{k: v for k, v in lines[0].items() if k not in ("seat", "digest")}]), 1,
         "has no digest"),
        ("a1-2031-01-01.journal", '{"at":"2026', None, ""),
        ("a1-2031-01-01.journal", "[]\n", 1, "is no line of a journal"),
        ("a1-2031-01-01.journal", written(nameless), None, "has the order evil of acme, and the lost store"),
    )  # fmt: skip
    for number, (name, text, line, told) in enumerate(cases):
        journals = bench.copied(f"foreign{number}")
        file = own_folder(journals, "a1") / name
        file.write_text(text)
        where = f"line {line} of {file} {told}" if line else told
        if not told:  # a cut line alone says nothing
            continue
        _, said = bench.refuses(where, journals=[journals])
        if "acme: " not in said.stderr and line:
            raise Failed(f"no customer is named: {said}")


def test_folders(bench):
    """Two folders with one seat, a folder that the file lacks, a journal beside the folders, links, no file at all."""
    tables = (
        ('[folders]\na1 = ["a1"]\nelse = ["a1"]\n', "the seat a1 has two folders, a1 and else"),
        ('[folders]\na1 = "a1"\n', "has to be the name of a folder"),
        ('[folders]\n', "says which seats each folder in"),
        ("folders = [", "can't be read"),
        ("", "has no table [folders]"),
        ('[folders]\na1 = ["a1"]\n', "doesn't say which seats the folder"),
    )
    for number, (text, told) in enumerate(tables):
        file = bench.folder / f"table{number}.toml"
        file.write_text(text)
        bench.refuses(told, "--folders", file)
    file.chmod(0o666)
    bench.refuses("or others may write it", "--folders", file)
    bench.refuses("isn't there or empty", "--folders", bench.folder / "nothing.toml")
    journals = bench.copied("links")
    (journals / "x.journal").write_text("")
    bench.refuses("is in no station's folder", journals=[journals])
    (journals / "x.journal").unlink()
    own = own_folder(journals, "a1")
    (own / "a1-2031-01-01.journal").symlink_to(own_folder(bench.journals, "b1") / "b1-2026-11-29.journal")
    bench.refuses("is a link, and isn't followed", journals=[journals])
    (own / "a1-2031-01-01.journal").unlink()
    os.mkfifo(own / "a1-2031-01-01.journal")
    bench.refuses("is no plain file", journals=[journals])
    (own / "a1-2031-01-01.journal").unlink()
    with open(own / "a1-2031-01-01.journal", "wb") as large:
        large.truncate(3 << 30)
    bench.refuses("has more than 512 MB or 2000000 lines of journals", journals=[journals])
    shutil.move(journals / "a1", bench.folder / "aside")
    (journals / "a1").symlink_to(journals / "b1")
    bench.refuses("is a link, and isn't followed", journals=[journals])


# What the lost store says.


def test_lost(bench):
    """A station's own lines with the right digest, which the lost store has otherwise, or hasn't."""
    last = seat_rows(bench.plant.db)["a1"]
    ship = ("/v1/ship", {"chip": 12 * "f"}, {"chip": 12 * "f", "state": "shipped"})
    order = {"name": "more", "issuer": "acme-ca", "prefix": "M", "width": 3, "first": 1, "quantity": 9, "macs": 0}
    changed, reply = first_of(bench.journals, "/v1/identity", ["a1"])
    reply["reply"]["key_sha256"] = "ab" * 32
    serial = reply["reply"]["serial"]
    cases = (
        ([{"at": AT.format(0), "resynchronized": last}, *done("a1", last, *ship)],
         f"number {last} of a1, which is another"),
        (done("a1", last + 1, *ship), f"number {last + 1} of a1, and the lost store's last is {last}"),
        (done("a1", 9007199254740991, *ship), f"of a1, and the lost store's last is {last}"),
        ([{"at": AT.format(0), "resynchronized": 2}, *done("a1", 2, "/v1/order", order, {**order, "next": "M001"})],
         "has the order more of acme, and the lost store hasn't it"),
        ([{"at": AT.format(0), "resynchronized": changed["asked"]["nr"]}, changed, reply],
         f"has the serial number {serial} of acme-ca, and the lost store has another key with it"),
    )  # fmt: skip
    for number, (lines, told) in enumerate(cases):
        journals = bench.copied(f"lost{number}")
        own = own_folder(journals, "a1")
        if changed in lines:  # in the place of the line that there was, as two records would be found anyway
            replace_reply(own, changed, reply)
        else:
            (own / "a1-2031-01-01.journal").write_text(written(lines))
        _, said = bench.refuses(told, journals=[journals])
        if str(own) not in said.stderr:
            raise Failed(f"no file is named: {said}")


def test_lost_is_distrusted(bench):
    """A lost store that is older than the lines is refused, but for customers that a person distrusts in it."""
    older = bench.place()
    for name in ("books.db", "books.db-wal"):
        shutil.copy(bench.backup / name, older / name)
    bench.refuses("and the lost store's last is", folder=older)
    told = [bench.refuses(it, "--distrust-lost", "acme", folder=older) for it in ("--distrust-lost bolt", "cord: line")]
    if "acme: line" in told[0][1].stderr:
        raise Failed(f"one that is distrusted is told: {told[0]}")
    ends = bench.restore(older, *(word for name in CUSTOMERS for word in ("--distrust-lost", name)))
    if ends.returncode:
        raise Failed(f"--distrust-lost: {ends}")
    ends = bench.restore(older)
    if ends.returncode:
        raise Failed(f"a restored store is restored once more: {ends}")


def replace_reply(folder, asked, reply):
    for file in folder.glob("*.journal"):
        lines = [json.loads(line) for line in file.read_bytes().splitlines() if line.endswith(b"}")]
        for place, line in enumerate(lines):
            if line.get("asked") == asked["asked"]:
                lines[place + 1] = reply
        file.write_text(written(lines))


# One customer's line, and the others.


def shipped_before(bench):
    """A chip that a seat of acme shipped before the backup, and which seat it is."""
    with closing(sqlite3.connect(f"file:{bench.backup}/books.db?mode=ro", uri=True)) as base:
        found = base.execute("SELECT chip FROM device WHERE customer = 'acme' AND state = 'shipped'").fetchone()
    if not found:
        raise Failed("acme shipped nothing before the backup: another seed is needed")
    return found[0]


def numbers_given(store, customer=""):
    with closing(sqlite3.connect(f"file:{store}?mode=ro", uri=True)) as base:
        rows = base.execute("SELECT customer, issuer, serial, lower(hex(key)) FROM given").fetchall()
    return sorted(row for row in rows if not customer or row[0] == customer)


def test_left_out(bench):
    """A scrap of a chip that is shipped stops all, with file, line, chip and customer. The others go on by a word,
    where no token of that customer's lives."""
    chip, last = shipped_before(bench), seat_rows(bench.plant.db)["a2"]
    journals = bench.copied("strange")
    file = own_folder(journals, "a2") / "a2-2031-01-01.journal"
    file.write_text(written(done("a2", last + 1, "/v1/scrap", {"chip": chip}, {"chip": chip, "state": "scrapped"})))
    empty = Path(tempfile.mkdtemp(dir=bench.folder, prefix="empty."))
    told = f"acme: chip {chip}, scrapped in its journal and shipped in the store: refused as 17 wrong_state"
    bench.refuses(f"{told} (line 2 of {file})", journals=[journals], folder=empty)
    bench.refuses(f"line 1 of {file} has number {last + 1} of a2", journals=[journals])
    bench.refuses("--leave-out acme needs the file of station-token", "--leave-out", "acme", journals=[journals])
    tokens, token = bench.folder / "left.conf", [*command("station-token"), "--no-reload", "--file"]
    site = ["--site", bench.plant.site]
    for customer in CUSTOMERS:
        own = ["seat", *site, f"restore-{customer}", "--known", bench.plant.folder / f"tokens/restore-{customer}.token"]
        ran(*token, tokens, *own)
    (bench.folder / "a2.inner").write_text((bench.plant.folder / "stations/a2/token").read_text())
    ran(*token, tokens, "seat", *site, "a2", "--known", bench.folder / "a2.inner")
    ran(*token, tokens, "add", "a2")
    words = ("--leave-out", "acme")
    line = "First end the tokens of a2: station-token revoke a2"
    bench.refuses(line, *words, journals=[journals], tokens=tokens)
    bench.refuses("has no such customer", "--leave-out", "acne", journals=[journals], tokens=tokens)
    ran(*token, tokens, "revoke", "a2")
    folder = bench.place()
    ends = bench.restore(folder, *words, journals=[journals], tokens=tokens)
    if ends.returncode or "acme is left out, and none of its stations may go on" not in ends.stdout:
        raise Failed(f"--leave-out: {ends}")
    for customer in ("bolt", "cord"):
        if numbers_given(folder / "books.db", customer) != numbers_given(bench.plant.db, customer):
            raise Failed(f"{customer}'s numbers aren't as they were")
    if numbers_given(folder / "books.db", "acme") != numbers_given(bench.backup / "books.db", "acme"):
        raise Failed("acme has other numbers than the backup's")
    later(bench, folder)


def later(bench, folder):
    """The customer that was left out comes back over the server, by its journals: each number is as it was."""
    plant = bench.plant
    before, plant.db = plant.db, folder / "books.db"
    plant.start()
    try:
        files = [own_folder(bench.journals, seat) for seat in CUSTOMERS["acme"]]
        token = plant.folder / "tokens/restore-acme.token"
        words = ["--url", plant.url, "--token", token, "--state-file", folder / "later.json", "restore", *files]
        ran(*command("wanekupo"), *words)
    finally:
        plant.server.kill()
        plant.db = before
    if numbers_given(folder / "books.db") != numbers_given(plant.db):
        raise Failed("behind the customer's own restore the numbers aren't those of before")


def ran(*words):
    told = subprocess.run([str(it) for it in words], capture_output=True, text=True, check=False)
    if told.returncode:
        raise Failed(f"{words}: {told.stdout} {told.stderr}")
