"""A house with nginx and benches, and what befalls it in a week, for test_week.py."""

import json
import os
import shlex
import shutil
import signal
import sqlite3
import time
from collections.abc import Iterable
from concurrent.futures import ThreadPoolExecutor
from contextlib import ExitStack, closing
from pathlib import Path

import pytest

from bench.benches_place import Hands
from certifying import made_ca
from common.commands import command
from common.deployed import expect, ran
from plant.house import GROUP, OWNER, House
from running import MAKE_CSR, BenchCase, Robot, Running, script
from wanekupo.common.moments import now_text
from wanekupo.plant.restore.lost_store import last_numbers
from wanekupo.standby.half import StandbyError
from wanekupo.standby.look import seats_of
from wanekupo.standby.witness import compare_numbers, highest_numbers

# The site of the first day, and the customers that station-site adds.
FIRST, CUSTOMERS = '[[customer]]\nname = "plant"\nissuer = []\n', ("east", "west", "south")
# Orders are so large that benches seldom ask for a report. A day takes a minute, so nginx gives a caller larger shares.
MACS, ORDER = 2, "--width 5 --first 1 --quantity 5000 --not-before 20260101000000Z --macs".split()
FAST = ("rate=20r/s", "rate=1000r/s"), ("rate=6r/m", "rate=600r/m")
# The number of the next year's shift; the seconds of the longest shift, and of a pause between two moments.
NEXT, SECONDS, PAUSE, WANEKUPO = 99, 3600, 1.1, command("wanekupo")


class Seat:
    """A seat's folder, and the command `wanekupo` there, by its token or by one of its customer's that looks."""

    def __init__(self, plant: "Plant", customer: str, name: str) -> None:
        self.plant, self.customer, self.name, self.folder = plant, customer, name, plant.folder / "seats" / name
        self.journals = self.folder / "journals"
        self.journals.mkdir(mode=0o700, parents=True)

    def settings(self, looks: bool = False) -> dict[str, str]:
        token = f"{self.plant.given}/{self.customer if looks else self.name}.token"
        own = {"state": f"{self.folder}/state.json", "journal": str(self.journals), "seat": self.name, "token": token}
        return own | {"url": self.plant.url, "ca": f"{self.plant.folder}/cert.pem"}

    def wanekupo(self, *words: object, looks: bool = False, status: int = 0) -> str:
        own = {f"WANEKUPO_{name.upper()}": it for name, it in self.settings(looks).items()}
        return self.plant.said([*WANEKUPO, *words], status, **own)


class Bench(Seat, Robot):
    """`wanekupo run` over two sockets, and hands that put simulated chips in. A chip that fails is scrapped."""

    SOCKETS, socket_of, recipe, scrap = BenchCase.SOCKETS, BenchCase.socket_of, BenchCase.recipe, Hands.scrap
    make, put, take = BenchCase.make, BenchCase.put, BenchCase.take

    def __init__(self, plant: "Plant", customer: str, name: str) -> None:
        Seat.__init__(self, plant, customer, name)
        Robot.__init__(self, self, [], None)
        list(map(Path.mkdir, (self.folder / "spool", self.folder / "places")))
        (self.folder / "flash.key").write_bytes(bytes(range(32)))
        (self.folder / "flash.key").chmod(0o600)
        self.csr = script(self.folder / "make-csr", MAKE_CSR)
        self.ship = script(self.folder / "ship", f'sleep 0.3; [ ! -e "{self.folder}/bad-$CHIP" ]\n')

    def begin(self, number: int, macs: list[str]) -> None:
        words = {"hooks": {"before_ship": {"command": [self.ship]}}, "top": {"order": f"shift-{number}"}, "stop": 99}
        self.waiting, self.bench = macs, Running(self.recipe(self.plant.url, server=self.settings(), **words))
        self.plant.stack.callback(lambda it=self.bench: it.is_alive() and it.kill())

    def press(self, name: str) -> None:
        """The key of a socket, or where its chip has failed the red box."""
        if self.placed[name] not in self.results:
            return Robot.press(self, name)
        self.take(name, mac := self.placed.pop(name))
        self.scrap(mac)

    def is_numbered(self) -> bool:
        return any(it["serial"] and it["state"] == "working" for it in self.bench.board()["sockets"])


class Plant(House):
    """A house with so many benches and so many chips a shift. What runs in it ends with `stack`."""

    def __init__(self, program: Path, folder: Path, benches: int, chips: int, stack: ExitStack) -> None:
        super().__init__(program, folder / "house")
        self.chips = range(max(1, chips // benches))
        self.benches, self.offices, self.places = list[Bench](), dict[str, Seat](), benches
        self.all, self.table, self.spool, self.closed, self.backup, self.seals = (
            self.folder / it for it in ("all", "journals.toml", "spool", "closed", "backups/night", "seals-1")
        )
        (folder / "first.toml").write_text(FIRST)
        self.build(folder / "first.toml")
        self.all.mkdir()
        self.spool.mkdir(mode=0o700)
        self.user = [*self.as_owner(), *WANEKUPO]
        self.seal(self.backup, self.seals)
        self.restores, self.ca, self.since = Seat(self, "", "restores"), made_ca(self.folder / "ca"), now_text()
        self.stack, nginx = stack, self.proxied(*FAST)
        self.url = str(self.other_words["--nginx"]).replace("127.0.0.1", "localhost")
        self.service("start")
        list(map(stack.callback, (nginx.wait, nginx.terminate, self.end)))

    def said(self, words: Iterable[object], status: int = 0, **own: str) -> str:
        done = ran(words, self.folder, env={**os.environ, "HOME": "/nonexistent", **own})
        expect(f"{words}: {done.stdout} {done.stderr}", done.returncode, status)
        return done.stdout

    def seats(self) -> list[Seat]:
        return [*self.benches, *self.offices.values()]

    def site_tool(self, *words: str) -> None:
        run = self.run(*words)
        expect(run.said, run.status, 0)

    def grow(self, customer: str) -> None:
        """A customer more, with a half of the benches or a quarter, an office and a seat for restores."""
        benches = [f"{customer}-{it}" for it in range(self.places // (2 if customer == CUSTOMERS[0] else 4))]
        office, first = f"{customer}-office", f"02{len(self.offices):02x}00000000"
        words = [it for seat in (*benches, office, f"restore-{customer}") for it in ("--seat", seat)]
        words += ["--issuer", f"{customer}-ca", "--pool", first, "1048576", "--to", str(self.given), "--apply"]
        self.site_tool("add-customer", customer, *words)
        words = [*shlex.split(str(self.other_words["--token-words"])), "add", office, "--look", "--to"]
        self.said([*command("station-token"), "--file", self.tokens, *words, self.given / f"{customer}.token"])
        self.benches += [Bench(self, customer, it) for it in benches]
        self.offices[customer] = Seat(self, customer, office)
        table = {it.name: [it.name] for it in self.seats()} | {"restores": [f"restore-{it}" for it in self.offices]}
        self.table.write_text("[folders]\n" + "".join(f"{name} = {its}\n" for name, its in table.items()))

    def close(self) -> None:
        """The year ends, and the next one begins in a store of its own, with a bench of each customer."""
        text, self.following = self.folder / "site-2.toml", House(self.program, self.folder / "next")
        self.site_tool("close", str(self.closed))
        words = ["--suffix", "2", "--to", str(self.given), "--server", f"127.0.0.1:{self.following.port}"]
        self.site_tool("successor", str(text), *words)
        self.following.build(text)
        self.following.service("start")
        self.stack.callback(self.following.end)
        self.offices |= {f"{it}-2": Seat(self, f"{it}-2", f"{it}-office-2") for it in CUSTOMERS}
        self.benches += [Bench(self, f"{it}-2", f"{it}-0-2") for it in CUSTOMERS]
        self.shift(NEXT, self.benches[-len(CUSTOMERS):])
        self.keep(self.following, "year", self.folder / "seals-next")

    def shift(self, number: int, benches: list[Bench], is_cut: bool = False) -> None:
        """All benches at once. One of west's chips fails."""
        for name, _, year in (it.partition("-") for it in {it.customer for it in benches}):
            words = [f"shift-{number}", f"{name}-ca{year and '-'}{year}", f"{name[0].upper()}{number:02}", *ORDER, MACS]
            self.offices[f"{name}{year and '-'}{year}"].wanekupo("make-order", *words)
        macs = {it: [f"24{number:02x}{at:02x}{chip:06x}" for chip in self.chips] for at, it in enumerate(benches)}
        bad = next(it for it in benches if it.customer.startswith("west"))
        (bad.folder / f"bad-{macs[bad][0]}").touch()
        with ThreadPoolExecutor(8) as pool:
            list(pool.map(lambda it: it.begin(number, macs[it]), benches))
            self.work(benches, is_cut)
            expect("the benches' ends", set(pool.map(lambda it: it.bench.end(), benches)), {0})

    def work(self, benches: list[Bench], is_cut: bool) -> None:
        """Until no chip is left. The first machine may die, when a chip has its number and isn't shipped yet."""
        end = time.monotonic() + SECONDS
        while left := sum(len(it.waiting) + len(it.placed) for it in benches):
            assert time.monotonic() < end, f"{left} chips are left"
            list(map(Bench.look, benches))
            if is_cut and any(map(Bench.is_numbered, benches)):
                self.take_over()
                is_cut = False
            time.sleep(0.05)
        assert not is_cut, "no chip was seen in that moment"

    def certify(self) -> dict[str, int]:
        """The requests of west's benches come to its CA: what `certify` counts, which refuses scrapped chips."""
        for file in (file for it in self.benches if it.customer == "west" for file in it.folder.glob("spool/*.csr")):
            shutil.copy(file, self.spool)
        office = self.offices["west"]
        return json.loads(office.wanekupo("certify", self.spool, "--ca-folder", self.ca, looks=True, status=1))

    def gather(self) -> None:
        """The journals come off the stations, each seat's into its folder, which the store's user reads."""
        seats = [*self.seats(), self.restores]
        for it in seats:
            (self.all / it.name).mkdir(exist_ok=True)
        with ThreadPoolExecutor(4) as pool:
            list(pool.map(lambda it: it.wanekupo("ship-journal", self.all / it.name), seats))
        for path in self.all.rglob("*"):
            shutil.chown(path, OWNER, GROUP)

    def night(self, name: str, status: int = 0) -> None:
        """A backup, its seal, and an audit by the journals that came behind it, whose status is 2 without a line."""
        time.sleep(PAUSE)
        self.moment = now_text()
        self.backup = self.keep(self, name, self.seals)
        self.gather()
        self.audit(status)

    def keep(self, house: House, name: str, seals: Path) -> Path:
        """The server of a house is stopped, backed up, sealed and started."""
        backup = house.backups / name
        words = [*command("station-backup"), "--program", self.program, "--site", house.site, "--db", house.db, backup]
        house.service("stop")
        self.said(words)
        self.seal(backup, seals)
        house.service("start")
        return backup

    def seal(self, backup: Path, seals: Path) -> None:
        seals.mkdir(exist_ok=True)
        shutil.chown(seals, OWNER, GROUP)
        self.said([*self.user, "seal", seals, "--store", backup / "books.db"])

    def audit(self, status: int = 0) -> None:
        words = ["audit", self.backup / "books.db", self.all, "--folders", self.table, "--site", self.site]
        words += ["--program", self.program, "--from", self.since, "--to", self.moment]
        assert "Nothing found." in self.said([*self.user, *words], status)

    def kill(self) -> None:
        pid = int((self.folder / "pid").read_text())
        os.kill(pid, signal.SIGKILL)
        while os.path.exists(f"/proc/{pid}"):
            time.sleep(0.01)

    def lose(self) -> None:
        """The store is lost, and restored by last night's backup and the journals. Each station goes on with the number
        that is expected."""
        self.kill()
        list(map(Path.unlink, self.db.parent.glob("books.db*")))
        self.gather()
        words = [self.backup, self.site, self.all, "--db", self.db, "--program", self.program, "--port", self.port]
        words += ["--tokens", self.tokens, "--backups", self.backups, "--folders", self.table]
        self.said([*command("station-restore"), *words])
        for file in self.db.parent.glob("restored-*/*.journal"):
            shutil.copy(file, self.restores.journals)
        self.service("start")
        list(map(lambda it: it.wanekupo("number", "--resynchronize"), self.seats()))
        self.seals, self.since = self.folder / "seals-2", now_text()

    def take_over(self) -> None:
        """The first machine dies, and the second one has the files as they are in that moment. It serves them, as they
        aren't behind the witness; last night's would be. Nobody serves the first one's again."""
        self.kill()
        self.db.parent.rename(first := self.folder / "first-machine")
        shutil.copytree(first, self.db.parent)
        self.give_away()
        parts = [f"{it.name}={shlex.join(WANEKUPO)} witness {it.journals}" for it in (*self.seats(), self.restores)]
        replies, none = highest_numbers([], parts, None, self.table), dict.fromkeys(seats_of(str(self.site)), 0)
        with closing(sqlite3.connect(first / "books.db")) as books:
            compare_numbers(none | dict(books.execute("SELECT name, last FROM seat")), replies)
        night = json.loads((self.backup / "about.json").read_text())["counts"]
        with pytest.raises(StandbyError, match="This half is an older one"):
            compare_numbers(none | last_numbers(night), replies)
        self.service("start")
