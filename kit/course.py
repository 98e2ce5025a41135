"""A run: the life of the vectors without a fault, one without the state file, one with a late copy where the station
claims that it goes on behind one, and lives with faults and kills."""

from __future__ import annotations

import random
import shutil
import signal
import threading
import time
from dataclasses import dataclass
from pathlib import Path
from typing import Optional, Sequence

from kit import checks
from kit.faults import Schedule
from kit.findings import Findings
from kit.job import Job, chip_job, vector_job, write_maps
from kit.journal import Journal
from kit.proxy import Proxy
from kit.server import OTHER, RIVAL, STATION, Caller, Server
from kit.station import Station
from kit.watch import Watch

# A chip has so many starts, and so many ends that nothing explains; behind half of the starts nothing befalls it.
STARTS, ENDS = 60, 3
# Seconds: of one start, and the share of starts that are killed at any moment, with the longest time to it.
LONGEST, KILLED, TO_A_KILL = 200.0, 0.3, 0.8
# Where a station that goes on behind a late copy says so, in its folder.
CLAIMS, LATE_COPIES = "claims", "late-copies"


@dataclass
class Options:
    command: Sequence[str]
    program: str
    seed: int
    chips: int
    minutes: float
    late_copies: str  # "yes", "no", or "claimed"
    is_first: bool  # whether the run ends at the first fault


class Course:
    """The parts of a run, and its steps."""

    def __init__(self, options: Options, folder: Path):
        self.options, self.folder = options, folder
        self.findings, self.chance = Findings(), random.Random(f"kills {options.seed}")
        self.own, server = folder / "own", folder / "server"
        for made in (self.own, server, folder / "kit"):
            made.mkdir(mode=0o700)
        self.state, self.journal = self.own / "state", Journal(self.own / "log")
        self.server = Server(options.program, server)
        self.schedule = Schedule(options.seed, options.chips)
        self.watch = Watch(self.findings, self.journal)
        self.proxy = Proxy(self.server, self.schedule, self.watch)
        kit = folder / "kit"
        self.station = Station(options.command, self.own, kit, self.findings, self.watch, self.proxy.port)
        self.proxy.kill, self.proxy.is_up = self.station.kill, self.station.is_up
        self.maps = write_maps(kit)
        self.books, self.rival = Caller(self.server, STATION), Caller(self.server, RIVAL)
        self.others = checks.Others(Caller(self.server, OTHER))
        self.jobs: list[Job] = []
        self.scrapped: dict[str, int] = {}
        self.is_cut, self.was_late, self.whole = False, False, 0  # `whole` chips had all of their disturbances
        self.end = time.monotonic() + 60 * options.minutes

    def close(self) -> None:
        self.station.kill()
        self.proxy.close()
        self.server.end()

    def is_late(self) -> bool:
        return time.monotonic() > self.end

    def is_found(self) -> bool:
        """Whether the run ends at the first fault, and has one."""
        return self.options.is_first and self.findings.count() > 0

    # Starts.

    def run_once(self, job: Job, is_killed: bool) -> Optional[int]:
        """One start of the station: its status, None where it was killed."""
        environment = {"KIT_URL": self.proxy.url, "KIT_TOKEN": STATION, "KIT_STATE": str(self.state)}
        environment |= {"KIT_LOG": str(self.journal.file), **job.environment()}
        timer = threading.Timer(self.chance.uniform(0, TO_A_KILL), self.station.kill)
        timer.daemon = True
        is_begun = threading.Event()

        def begun() -> None:
            if is_killed and not is_begun.is_set():
                is_begun.set()
                timer.start()

        self.proxy.begun = begun
        self.station.start(environment)
        try:
            return self.station.wait(min(LONGEST, self.end + LONGEST - time.monotonic()))
        finally:
            timer.cancel()

    def bring(self, job: Job, is_calm: bool = False) -> bool:
        """Starts the station until the chip is shipped; False where that doesn't come."""
        self.jobs.append(job)
        ends = 0
        for start in range(STARTS):
            self.was_late = self.is_late()
            if start == STARTS // 2 or self.was_late:
                self.schedule.calm()
            is_killed = not is_calm and not self.is_late() and start < STARTS // 2 and self.chance.random() < KILLED
            status = self.run_once(job, is_killed)
            if status == 0:
                told = f"it ended with status 0, and {job.mac} isn't shipped"
                return self.findings.held("ended", checks.is_shipped(self.books, job), told)
            if status is not None:
                ends += self.explain(status)
            elif not is_calm and not self.is_found():
                self.cut_log()
            if ends == ENDS or self.is_found() or time.monotonic() > self.end + LONGEST:
                break
        if not self.is_found():
            self.findings.fault("ended", f"{job.mac} isn't shipped behind {start + 1} starts; no other chip was begun")
        return False

    def cut_log(self) -> None:
        """Leaves a line in the log that the power cut, as a killed process alone doesn't: once, behind a kill."""
        if not self.is_cut and self.journal.data().endswith(b"\n"):
            self.is_cut = True
            with self.journal.file.open("ab") as out:
                out.write(b'{"asked":{"chip":"240ac4')

    def explain(self, status: int) -> int:
        """Why the station ended by itself: 1 where that is a fault, 0 where a person had to be asked."""
        (row, waits), last = self.watch.unanswered(), self.watch.last
        is_long = status == -signal.SIGALRM
        how = f"it didn't end in {LONGEST:.0f} seconds" if is_long else f"it ended with status {status}"
        if waits:
            what = ", which isn't the server's, " if row == "foreign" else ", "
            self.findings.fault(row, f"{waits}{what}and {how} in place of sending it again")
            return 1
        no = 0
        if last and last.is_open:
            no = 6
        elif last and last.status != 200 and isinstance(last.reply, dict):
            no = last.reply.get("no", 0)
        if no == 6:
            self.findings.looked("ended")
            return 0
        told = f"{last.told()} was refused as {no}" if last and no else "its last request had its reply"
        told = told if self.watch.requests else "it sent no request"
        self.findings.fault("ended", f"{how}, and {told}. It printed last: {self.station.last_line()}")
        return 1

    # Parts.

    def run(self) -> None:
        kit = self.folder / "kit"
        self.others.make(self.maps[1].read_bytes().decode())
        goes_on = self.run_vectors(vector_job(kit / "vector", self.maps))
        goes_on = goes_on and self.run_without_file() and self.run_late_copy()
        for number in range(self.options.chips):
            if not goes_on or self.is_found() or self.is_late():
                break
            self.schedule.begin(number)
            goes_on = self.bring(chip_job(kit / f"chip-{number}", self.maps, self.options.seed, number))
            self.whole += goes_on and not self.was_late
        self.schedule.calm()
        self.proxy.wait_for_copies()
        self.findings.looked("repeated", sum(self.schedule.befell.values()))

    def run_vectors(self, job: Job) -> bool:
        """The life without a fault: what is wrong with the log and the files is found here already."""
        is_shipped = self.bring(job, is_calm=True)
        checks.look_at_vectors(self.findings, self.journal)
        checks.look_at_lines(self.findings, self.journal)
        checks.look_at_files(self.findings, [self.state, self.journal.file])
        checks.look_at_record(self.findings, self.books, job, self.journal)
        return is_shipped and not self.is_found()

    def run_without_file(self) -> bool:
        """Behind a shipped chip, with no request under way, the state file and what stands beside it get lost."""
        for file in self.own.glob("state*"):
            shutil.rmtree(file) if file.is_dir() else file.unlink()
        self.watch.asked_for_number, self.watch.has_lost_file = 0, True
        number = self.options.chips
        job = chip_job(self.folder / "kit" / f"chip-{number}", self.maps, self.options.seed, number)
        return self.bring(job, is_calm=True) and not self.is_found()

    def run_late_copy(self) -> bool:
        """A registration is held, and another seat gets the order's one place meanwhile, so that its repeat is refused
        as 18: a look at the report before it saw a free number. Then the other seat gives the place back, and the held
        copy is done. The station's next request is refused as 12."""
        claims = self.own / CLAIMS
        claimed = claims.exists() and LATE_COPIES in claims.read_text("utf-8", "replace").split()
        wanted = self.options.late_copies
        if wanted == "no" or wanted == "claimed" and not claimed:
            self.findings.left_out("late", "left out" if wanted == "no" else "not claimed")
            return True
        order = {"name": "one", "issuer": "acme-ca", "prefix": "C", "width": 5, "first": 1, "quantity": 1, "macs": 2}
        other = "240ac4ffffff"
        self.rival.post("/v1/order", order)
        digest = self.rival.post("/v1/map", {"text": self.maps[1].read_bytes().decode()})["map"]
        blank = [["00000000"] * words for words in (7, 8, 8, 8)]
        members = {"chip": other, "order": "one", "map": digest, "blocks": blank}
        number = self.options.chips + 1
        job = chip_job(self.folder / "kit" / f"chip-{number}", self.maps, self.options.seed, number, order)
        self.watch.is_late_phase, self.proxy.hold = True, "/v1/device"
        self.proxy.meanwhile = lambda: self.rival.post("/v1/device", members)
        status = self.run_once(job, False)
        if not self.proxy.held:
            self.jobs.append(job)
            self.findings.fault("late", f"it sent no registration, and ended with status {status}")
            return False
        told = f"a registration was refused as 18, and it ended with status {status}"
        self.findings.held("late", status not in (0, None), told)
        self.rival.post("/v1/scrap", {"chip": other})
        self.scrapped["one"] = 1
        self.findings.held("late", self.proxy.deliver_held() == [200], "the held copy isn't accepted")
        self.findings.held("late", self.bring(job, is_calm=True), "it doesn't go on behind a late copy")
        self.watch.is_late_phase = False
        return not self.is_found()

    def look(self) -> int:
        """The checks at the end. Gives how many lines of the log aren't in the clients' own bytes."""
        records = []
        for job in self.jobs:
            checks.look_at_chip(self.findings, self.books, job)
            if not checks.is_shipped(self.books, job):
                continue
            if record := checks.look_at_record(self.findings, self.books, job, self.journal):
                records.append((job, record))
        checks.look_at_once(self.findings, records)
        if all(checks.is_shipped(self.books, job) for job in self.jobs):
            checks.look_at_report(self.findings, self.books, self.jobs, self.scrapped)
        others = checks.look_at_log(self.findings, self.journal, self.watch.given)
        files = [self.state, self.journal.file]
        checks.look_for_keys(self.findings, files, self.jobs)
        checks.look_at_files(self.findings, files)
        self.others.look(self.findings)
        return others
