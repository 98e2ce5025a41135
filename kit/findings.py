"""What is looked at, how often, and what was found: a row for each, and a line for each fault."""

from __future__ import annotations

import threading
from collections import Counter

# What is looked at, by a short name, in the order of the table.
ROWS = {
    "number": "one request under way, as it was until its reply; numbers go on by one",
    "again": "nothing asked for again under another number",
    "foreign": "nothing believed but the server's own replies",
    "repeated": "sent again at no reply, a page or 503, with pauses",
    "ended": "ends where its chip is shipped, and not before",
    "logged": "a request's line is in the log before it is sent",
    "replied": "a reply's line is in the log before the next request",
    "synced": "state file and log are synced before a request is sent",
    "vectors": "the requests of the test vectors have their digests",
    "log": "the log: its lines, its digests, 1..n, the server's replies, no key",
    "files": "state file and log are its user's alone (0600)",
    "shipped": "each chip: shipped, ledger 1..n, bits and keys as the chip's words",
    "record": "one identity a chip: server, file and log alike, of the chip's key",
    "once": "each serial number and address once, and of its order",
    "report": "the report's counts",
    "others": "another customer's books untouched",
    "unknown": "asks for its number where its state file is lost",
    "late": "goes on behind a late copy",
}
# How many faults of one row are printed.
MOST = 5


class Findings:
    """Counts what is looked at, and keeps each fault's line. Several threads tell it."""

    def __init__(self) -> None:
        self._turn = threading.RLock()
        self._looked: Counter[str] = Counter()
        self._faults: list[tuple[str, str]] = []  # rows and lines, as they were found
        self._left_out: dict[str, str] = {}

    def looked(self, row: str, times: int = 1) -> None:
        with self._turn:
            self._looked[row] += times

    def fault(self, row: str, line: str) -> None:
        """A fault, whose line names it to a person."""
        with self._turn:
            self._looked[row] += 1
            if (row, line) not in self._faults:
                self._faults.append((row, line))

    def held(self, row: str, is_so: object, line: str) -> bool:
        """Looks at one thing: it is so, or the line is a fault."""
        if is_so:
            self.looked(row)
        else:
            self.fault(row, line)
        return bool(is_so)

    def left_out(self, row: str, why: str) -> None:
        with self._turn:
            self._left_out[row] = why

    def count(self) -> int:
        with self._turn:
            return len(self._faults)

    def unlooked(self) -> list[str]:
        """Rows that nothing was looked at for, though they weren't left out."""
        return [name for name in ROWS if not self._looked[name] and name not in self._left_out]

    def table(self) -> str:
        """The rows, and behind them the faults' lines, the first one first: the others may be its."""
        lines = [f"{'':9}{'':72}{'looked':>7}{'faults':>7}"]
        faults = Counter(row for row, _ in self._faults)
        for name, what in ROWS.items():
            counts = f"{self._looked[name]:7}{faults[name]:7}"
            if name in self._left_out and not self._looked[name]:
                counts = f"  {self._left_out[name]}"
            elif not self._looked[name]:
                counts = "  not reached"
            lines.append(f"{name:9}{what:72}{counts}")
        shown: Counter[str] = Counter()
        for row, line in self._faults:
            shown[row] += 1
            if shown[row] <= MOST:
                lines.append(f"FAULT {row}: {line}")
        lines += [f"FAULT {row}: and {count - MOST} more" for row, count in faults.items() if count > MOST]
        return "\n".join(lines)
