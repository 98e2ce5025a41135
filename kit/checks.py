"""What is looked at behind the run, past the proxy: the server's books, the station's files and its log."""

from __future__ import annotations

import csv
import hashlib
import io
import json
import stat
from collections import Counter
from pathlib import Path
from typing import Any, Mapping, Optional, Sequence

from kit.findings import Findings
from kit.job import VECTORS, Job
from kit.journal import Journal, is_asked
from kit.protocol import block_digest, log_line
from kit.server import POOL, Caller

# The steps of a life; a read-back may come again as `short`.
STEPS = ["registered", "planned", "read match", "read match", "identified", "shipped"]
COLUMNS = ("registered", "planned", "settled", "identified", "shipped", "quarantined", "scrapped", "serials_left")


def read_json(file: Path) -> Any:
    try:
        return json.loads(file.read_bytes())
    except (OSError, ValueError):
        return None


def is_shipped(books: Caller, job: Job) -> bool:
    device = books.get(f"/v1/device?chip={job.mac}")
    return bool(device) and device["state"] == "shipped"


def look_at_chip(findings: Findings, books: Caller, job: Job) -> None:
    """The device, its ledger, and what is known to be burnt against the chip's own words."""
    device = books.get(f"/v1/device?chip={job.mac}")
    if not findings.held("shipped", device and device["state"] == "shipped", f"{job.mac} is {_state(device)}"):
        return
    entries = books.get(f"/v1/ledger?chip={job.mac}")["entries"]
    numbers = [entry["n"] for entry in entries]
    findings.held("shipped", numbers == list(range(1, len(entries) + 1)), f"{job.mac}: its ledger has {numbers}")
    steps = [f"read {it['note']}" if it["event"] == "read" else it["event"] for it in entries]
    steps = [step for step in steps if step != "read short"]
    findings.held("shipped", steps == STEPS, f"{job.mac}: its ledger has the steps {', '.join(steps)}")
    note = [entry["note"] for entry in entries if entry["event"] == "identified"]
    findings.held("shipped", note == [device["serial"]], f"{job.mac}: the ledger identifies {note}")
    raw = job.raw()
    burnt = {(it["block"], it["word"]): it["mask"] for it in device["bits"]}
    own = {(b, w): word for b in (0, 3) for w, word in enumerate(raw[b]) if word != "00000000"}
    findings.held("shipped", burnt == own, f"{job.mac}: {burnt} is known as burnt, and the chip has {own}")
    keys = {"BLOCK1": block_digest(raw[1])}
    findings.held("shipped", device["keys"] == keys, f"{job.mac}: its key's digest isn't that of the chip's block 1")


def _state(device: Optional[Mapping[str, Any]]) -> str:
    if not device:
        return "not registered"
    return device["state"] + (f" ({device['reason']})" if device["reason"] else "") + ", and not shipped"


def look_at_record(findings: Findings, books: Caller, job: Job, journal: Journal) -> Optional[dict[str, Any]]:
    """The record of an identity: the server's, the station's file, and the log's."""
    server = books.get(f"/v1/identity?chip={job.mac}")
    if not findings.held("record", server, f"{job.mac} has no identity"):
        return None
    findings.held("record", read_json(job.record) == server, f"{job.mac}: {job.record.name} isn't the server's record")
    told = [line["reply"] for line in journal.lines() if _is_record(line, job.mac)]
    is_logged = bool(told) and all(it == server for it in told)
    findings.held("record", is_logged, f"{job.mac}: the log's record isn't the server's")
    key = hashlib.sha256(job.public_key).hexdigest()
    findings.held("record", server["key_sha256"] == key, f"{job.mac}: the record is of another key than the chip's")
    return server


def _is_record(line: Mapping[str, Any], mac: str) -> bool:
    reply = line.get("reply")
    return isinstance(reply, dict) and reply.get("chip") == mac and "key_sha256" in reply


def look_at_once(findings: Findings, records: Sequence[tuple[Job, Mapping[str, Any]]]) -> None:
    """The serial numbers and the addresses of all records."""
    serials = Counter(record["serial"] for _, record in records)
    addresses: Counter[int] = Counter()
    for job, record in records:
        order = job.order
        own = [f"{order['prefix']}{order['first'] + n:0{order['width']}}" for n in range(order["quantity"])]
        serial = record["serial"]
        findings.held("once", serial in own, f"{serial} isn't a serial number of {job.mac}'s order")
        if order["macs"]:
            first = int(record["mac"], 16)
            mine = range(first, first + order["macs"])
            addresses.update(mine)
            findings.held("once", all(it in POOL for it in mine), f"{record['mac']} isn't in the customer's pool")
    for serial, times in serials.items():
        findings.held("once", times == 1, f"serial number {serial} is in {times} records")
    for address, times in addresses.items():
        findings.held("once", times == 1, f"address {address:012x} is in {times} records")


def look_at_report(findings: Findings, books: Caller, jobs: Sequence[Job], scrapped: Mapping[str, int]) -> None:
    """The report has each order once, with one chip shipped, and the serial numbers that are left."""
    _, text = books.ask("GET", "/v1/report")
    names, *rows = csv.reader(io.StringIO(text.decode()))
    told = {row[0]: dict(zip(names[1:], map(int, row[1:]))) for row in rows}
    shipped = Counter(job.order["name"] for job in jobs)
    quantities = {job.order["name"]: job.order["quantity"] for job in jobs}
    findings.held("report", sorted(told) == sorted(quantities), f"it has the orders {', '.join(told)}")
    for name, counts in told.items():
        left = quantities.get(name, 0) - shipped[name]
        wanted = dict.fromkeys(COLUMNS, 0)
        wanted |= {"quantity": quantities.get(name, 0), "shipped": shipped[name], "serials_left": left}
        wanted["scrapped"] = scrapped.get(name, 0)
        findings.held("report", counts == wanted, f"order {name}: it says {counts}, and {wanted} is so")


def look_at_lines(findings: Findings, journal: Journal) -> None:
    """The form of the log's lines."""
    for wrong in journal.faults():
        findings.fault("log", wrong)


def look_at_log(findings: Findings, journal: Journal, given: Mapping[int, tuple[str, Any, Any]]) -> int:
    """The whole log against what the server answered. Gives how many of its lines aren't in the clients' own bytes."""
    look_at_lines(findings, journal)
    lines = journal.lines()
    accepted = {line["nr"]: line["reply"] for line in lines if line.get("status") == 200 and "nr" in line}
    for number, (path, _, reply) in sorted(given.items()):
        told = f"number {number} (POST {path}) was accepted, and the log has "
        told += "another reply" if number in accepted else "no reply"
        findings.held("log", accepted.get(number) == reply, told)
    for number in sorted(set(accepted) - set(given)):
        findings.fault("log", f"the log has a reply to number {number}, which the server didn't accept")
    numbers = sorted(accepted)
    findings.held("log", numbers == list(range(1, len(numbers) + 1)), f"the log's accepted numbers are {numbers}")
    findings.looked("log", len(lines))
    raw = journal.data().split(b"\n")[:-1]
    return sum(line + b"\n" != log_line(told) for line, told in zip(raw, lines))


def look_for_keys(findings: Findings, files: Sequence[Path], jobs: Sequence[Job]) -> None:
    """No file has a key behind its read-back, neither in the words of a dump nor in hexadecimal digits."""
    for file in files:
        text = file.read_bytes().decode("utf-8", "replace").lower() if file.exists() else ""
        for job in jobs:
            words = job.raw()[1]
            is_burnt = any(word.strip("0") for word in words)
            shown = is_burnt and all(it in text for it in words) or job.key.hex() in text or job.key[::-1].hex() in text
            findings.held("log", not shown, f"{file.name} has the key of {job.mac}")


def look_at_vectors(findings: Findings, journal: Journal) -> None:
    """The life of the vectors: the first request of each of these paths has its digest."""
    asked = [line for line in journal.lines() if is_asked(line)]
    for path, digest in VECTORS.items():
        found = [line.get("digest") for line in asked if line.get("path") == path]
        told = f"POST {path}: the log's digest is {found[0] if found else 'not there'}, and {digest} is right"
        findings.held("vectors", found and found[0] == digest, told)


def look_at_files(findings: Findings, files: Sequence[Path]) -> None:
    for file in files:
        if not findings.held("files", file.is_file(), f"there is no {file.name}"):
            continue
        mode = stat.S_IMODE(file.stat().st_mode)
        findings.held("files", not mode & 0o077, f"{file.name} has the mode {mode:o}, and not 600")


class Others:
    """Another customer's books, which nothing that the station does may change. Its order and its chip have the names
    of the station's own."""

    def __init__(self, books: Caller):
        self.books = books
        self.chips, self.order = ("240ac4000001", "240ac4000100"), "lot-0"

    def make(self, map_text: str) -> None:
        order = {"name": self.order, "issuer": "bolt-ca", "prefix": "B", "width": 5, "first": 0, "quantity": 9}
        self.books.post("/v1/order", {**order, "macs": 2})
        digest = self.books.post("/v1/map", {"text": map_text})["map"]
        blank = [["00000000"] * words for words in (7, 8, 8, 8)]
        for chip in self.chips:
            self.books.post("/v1/device", {"chip": chip, "order": self.order, "map": digest, "blocks": blank})
        self.books.post("/v1/plan", {"chip": self.chips[0], "wishes": []})
        self.books.post("/v1/identity", {"chip": self.chips[0], "public_key": "00"})
        self.before = self.shown()

    def shown(self) -> dict[str, tuple[int, bytes]]:
        targets = ["/v1/report", "/v1/devices?after=", f"/v1/order?name={self.order}"]
        for chip in self.chips:
            targets += [f"/v1/{what}?chip={chip}" for what in ("device", "ledger", "identity")]
        return {target: self.books.ask("GET", target) for target in targets}

    def look(self, findings: Findings) -> None:
        for target, now in self.shown().items():
            findings.held("others", now == self.before[target], f"GET {target} of another customer shows another reply")
