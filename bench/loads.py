"""The client load.c, for shards and serving: it gets requests in files, and tells when each seat began and ended."""

import itertools
import os
import subprocess
from collections.abc import Iterable
from pathlib import Path
from typing import NamedTuple

from common.served import HOST

SOURCE = Path(__file__).resolve().parent / "load.c"

# A seat's file of requests, and the one that gets its replies.
Files = tuple[str | Path, str | Path]

# The longest that a load may take.
SECONDS = 600


class Sent(NamedTuple):
    """A seat's load: when it began and ended, and its fault, or nothing."""

    start: float
    end: float
    fault: str


def compile_load(folder: str | Path) -> str:
    """Compiles the client with cc, and gives its path."""
    path = os.path.join(folder, "load")
    subprocess.run(["cc", "-O2", "-pthread", "-o", path, SOURCE], check=True)
    return path


def write_load(path: str | Path, requests: list[tuple[str, bytes]], token: str, port: int, is_kept: bool) -> None:
    """Writes a seat's requests to a file for the client, before each its length, and leaves no writing for later."""
    with open(path, "wb") as file:
        for target, body in requests:
            lines = [f"POST {target} HTTP/1.1", f"Host: {HOST}:{port}", f"Authorization: Bearer {token}"]
            lines += [f"Content-Length: {len(body)}"] + ([] if is_kept else ["Connection: close"])
            whole = "\r\n".join([*lines, "", ""]).encode() + body
            file.write(len(whole).to_bytes(4, "little") + whole)
        file.flush()
        os.fsync(file.fileno())


def send_load(client: str, files: Iterable[Files], port: int, is_kept: bool) -> tuple[list[Sent], float]:
    """Sends the load of seats, of each a file of requests and one for replies; and the client's processor seconds."""
    words = [client, str(port), "kept" if is_kept else "new", *map(str, itertools.chain(*files))]
    ran = subprocess.run(words, stdout=subprocess.PIPE, text=True, timeout=SECONDS)
    if ran.returncode:
        raise SystemExit(f"FAILED: the client ended with status {ran.returncode}")
    *rows, last = ran.stdout.splitlines()
    seats = [Sent(float(start), float(end), fault) for start, end, fault in (row.split(" ", 2) for row in rows)]
    return seats, float(last.removeprefix("processor "))
