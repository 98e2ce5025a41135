"""Tests a station, which may be written in any language, against the server, a proxy that fails, and a simulated chip.

    python3 -m kit --station COMMAND ..            the rest of the words is the command
    python3 -m kit --chips 20 --seed 7 --station java -jar station.jar
    python3 -m kit --program P --folder F --station ./station

The command brings the chip on the bench from registered to shipped, and ends with status 0; README.md has its contract.
The kit starts it, lets faults befall its requests, kills it and the server, cuts the power of the chip, and looks at
each request and each line of the log as it comes. At the end it compares the server's books, the station's files and
its log. It prints a table and a line for each fault. The status is 1 where it found a fault, where something of the
table wasn't reached, or where --minutes cut the run, 2 for a wrong word, else 0.

What befalls which request is the seed's; the moments of kills are the machine's too. Python 3.9 or later, standard
library alone, on Linux; strace, which each distribution has, for the row `synced`.
"""

from __future__ import annotations

import argparse
import shutil
import signal
import sys
import tempfile
from pathlib import Path

from kit.course import Course, Options
from kit.server import NoServer

BUILT = Path(__file__).resolve().parents[1] / "crates" / "station" / "out" / "station"


def found_program(given: str | None) -> str | None:
    """The server's program: the one that is given, this repository's, or the installed one."""
    for name in [given] if given else [str(BUILT), "/usr/bin/station"]:
        path = shutil.which(name)
        if path:
            return str(Path(path).resolve())
    return None


def parser_of() -> argparse.ArgumentParser:
    parser = argparse.ArgumentParser(prog="kit", description="Tests a station, which may be written in any language.")
    parser.add_argument("--program", help="the server's program; else the repository's, or /usr/bin/station")
    parser.add_argument("--seed", type=int, default=1, help="what befalls which request (1)")
    parser.add_argument("--chips", type=int, default=8, help="how many chips are disturbed (8)")
    parser.add_argument("--minutes", type=float, default=10, help="behind these nothing is begun (10)")
    parser.add_argument(
        "--late-copies", choices=("claimed", "yes", "no"), default="claimed", help="the chip with a late copy"
    )
    parser.add_argument("--first", action="store_true", help="end at the first fault")
    parser.add_argument("--folder", type=Path, help="a folder to make, in which all files stay; else they are removed")
    parser.add_argument("--station", nargs=argparse.REMAINDER, required=True, metavar="COMMAND", help="the rest")
    return parser


def ran(options: Options, folder: Path) -> int:
    """The run in a folder, and what it prints."""
    course = Course(options, folder)
    try:
        course.run()
        others = course.look()
    finally:
        course.close()
    findings, station = course.findings, course.station
    print(findings.table())
    befell = sum(course.schedule.befell.values())
    print(
        f"{len(course.jobs)} chips, {course.watch.requests} requests, {befell} disturbances; {station.starts} starts "
        f"of the station, {station.kills} kills of it and {course.server.kills} of the server; seed {options.seed}"
    )
    if others:
        print(f"{others} lines of the log are JSON in other bytes than the clients write, which is taken too")
    missed = findings.unlooked()
    if missed:
        print(f"not reached: {', '.join(missed)}")
    left = options.chips - course.whole
    if left and not findings.count():
        print(f"cut by --minutes: {left} of {options.chips} disturbed chips weren't begun, or not to their end")
    return 1 if findings.count() or missed or left else 0


def stop(*_: object) -> None:
    raise KeyboardInterrupt


def main() -> int:
    signal.signal(signal.SIGTERM, stop)
    parser = parser_of()
    args = parser.parse_args()
    program = found_program(args.program)
    if not program:
        parser.error("there is no program of the server: --program names it")
    if not args.station:
        parser.error("--station wants a command behind it")
    if args.chips < 1 or args.minutes <= 0:
        parser.error("--chips and --minutes are above 0")
    options = Options(args.station, program, args.seed, args.chips, args.minutes, args.late_copies, args.first)
    try:
        if args.folder:
            args.folder.mkdir(mode=0o700)
            return ran(options, args.folder.resolve())
        with tempfile.TemporaryDirectory(prefix="kit-") as folder:
            return ran(options, Path(folder).resolve())
    except (NoServer, OSError) as error:
        print(f"kit: {error}", file=sys.stderr)
        return 2
    except KeyboardInterrupt:
        print("kit: stopped", file=sys.stderr)
        return 130


if __name__ == "__main__":
    sys.exit(main())
