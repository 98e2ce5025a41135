"""Two benches of four sockets with virtual chips of three families, what befalls these, and the hands that put them in
and take them out."""

import contextlib
import hashlib
import os
import random
import shlex
import sys
from collections import Counter
from concurrent.futures import ThreadPoolExecutor

from common.needs import ROOT
from running import Running, script, toml
from simulated_chip import map_fields, new_chip
from support import SIMULATED, SITE, Program
from wanekupo.common.errors import Refused
from wanekupo.seat.station import Station

FAMILIES = ("esp32", "esp32s3", "esp32c3")
SEATS, SOCKETS = {"a1": "abc", "a2": "second"}, ("a", "b", "c", "d")
OFFICE = "third"

# Of hundred chips, how many have which fault, and how many fail by it for good.
FAULTS = {"stray": 3, "identity": 3, "ship": 6, "once": 5, "before": 4, "behind": 4}
OWN = ("stray", "identity", "ship")

# The endings behind which a chip comes once more, and those behind which it waits for another order.
AGAIN = ("hook_failed", "no_burn", "no_read", "no_chip", "other_hand")
NEXT = ("used_up", "order_full")

# A socket: what is in its place, with what befalls it.
SOCKET = """place={folder}/places/{name}
case "$*" in *--help*) exec {tool} "$@";; esac
[ -e "$place" ] || {{ echo 'A fatal error occurred: Failed to connect'; exit 2; }}
own={folder}/faults/$(cat "$place.mac")
run() {{ {tool} --path-efuse-file "$place" "$@"; }}
case "$*" in *execute_scripts*|*burn*) ;; *) run "$@"; exit;; esac
if [ -e "$own-before" ]; then rm "$own-before"; echo 'A fatal error occurred: The chip stopped responding'; exit 2; fi
run "$@" || exit
if [ -e "$own-behind" ]; then rm "$own-behind"; echo 'A fatal error occurred: The chip stopped responding'; exit 2; fi
if [ -e "$own-stray" ]; then run $(cat "$own-stray") >> {folder}/stray.log; rm "$own-stray"; fi
"""

CSR = """[ ! -e {folder}/faults/$CHIP-identity ] || exit 3
umask 077
openssl genpkey -algorithm ed25519 -out "$FOLDER/key.pem"
openssl req -new -key "$FOLDER/key.pem" -subj "/CN=$CHIP" -out "$FOLDER/identity.csr"
"""

SHIP = """[ ! -e {folder}/faults/$CHIP-ship ] || exit 3
[ ! -e {folder}/faults/$CHIP-once ] || {{ rm {folder}/faults/$CHIP-once; exit 4; }}
"""


def wishes_of(family):
    """A debug bit, a key as flash encryption wants it, and its locks."""
    is_first = family == "esp32"
    block = "BLOCK1" if is_first else "BLOCK_KEY0"
    burnt_as = "flash_encryption" if is_first else "XTS_AES_128_KEY"
    key = {"kind": "key", "field": block, "file": "flash.key", "burnt_as": burnt_as}
    locks = [{"kind": kind, "field": block} for kind in ("wlock", "rlock")]
    locks += [] if is_first else [{"kind": "wlock", "field": "KEY_PURPOSE_0"}]
    return [{"kind": "bit", "field": "JTAG_DISABLE" if is_first else "DIS_PAD_JTAG", "index": 0}, key, *locks]


def stray_of(family):
    """The words that burn a bit which no wish names."""
    fields = map_fields(ROOT / f"python/wanekupo/chips/families/{family}/map.toml")
    names = ("CONSOLE_DEBUG_DISABLE", "DIS_FORCE_DOWNLOAD")
    field = next(it for it in fields if it["name"] in names)
    return f"--chip {family} burn_bit BLOCK0 {field['bit']}"


class Plant:
    """A folder with a server, two orders, so many chips, simulated ones or espefuse's, and what befalls each."""

    def __init__(self, folder, size, seed, espefuse=None):
        self.folder, self.size, self.espefuse, self.chance = folder, size, espefuse, random.Random(seed)
        for name in ("places", "faults", "spool", "journals", "tables"):
            (folder / name).mkdir()
        head = '[[customer.seat]]\nname = "a1"\n'
        more = {"a2": SEATS["a2"], "office": OFFICE}
        seats = "".join(
            f'[[customer.seat]]\nname = "{name}"\ntoken = "{hashlib.sha256(token.encode()).hexdigest()}"\n'
            for name, token in more.items()
        )
        site = folder / "site.toml"
        site.write_text(SITE.read_text(encoding="utf-8").replace(head, seats + head), encoding="utf-8")
        self.program = Program(folder, site)
        self.office = Station(self.program.url, OFFICE, folder / "office.json")
        self.tool = shlex.join([sys.executable, "-B", str(SIMULATED)])
        self.tool = f"{espefuse} --virt --do-not-confirm" if espefuse else self.tool
        (folder / "flash.key").write_bytes(bytes(range(0xA0, 0xC0)))
        (folder / "flash.key").chmod(0o600)
        for name, text in (("make-csr", CSR), ("ship", SHIP)):
            script(folder / name, text.format(folder=folder))
        self.make_chips()

    def make_chips(self):
        """Chips of each family in turn, as many faults of each kind as FAULTS says, and both orders."""
        self.macs = {f"7cdfa1{place % 3:02x}{place:04x}": FAMILIES[place % 3] for place in range(self.size)}
        self.stock = {family: [mac for mac, it in self.macs.items() if it == family] for family in FAMILIES}
        names, self.faults = self.chance.sample(list(self.macs), len(self.macs)), {}
        for kind, count in FAULTS.items():
            for _ in range(max(1, round(count * len(self.macs) / 100))):
                self.faults[names.pop()] = kind
        for mac, kind in self.faults.items():
            text = stray_of(self.macs[mac]) if kind == "stray" else ""
            (self.folder / "faults" / f"{mac}-{kind}").write_text(text, encoding="ascii")
        with ThreadPoolExecutor(4) as pool:
            self.blank = dict(zip(self.macs, pool.map(self.make_chip, self.macs)))
        quantity = {"o1": max(3, len(self.macs) // 2), "o2": len(self.macs)}
        for name, count in quantity.items():
            self.office.make_order(name, "acme-ca", name.upper(), 5, 1, count)

    def make_chip(self, mac):
        """A new chip in a file, and what that has."""
        file = self.folder / f"chip-{mac}"
        new_chip(self.macs[mac], mac, file, shlex.split(self.espefuse or ""))
        return file.read_bytes()

    def recipe(self, seat, order, family):
        """The recipe's file of a bench, for an order and a family."""
        server = {"url": self.program.url, "token": f"{seat}.token", "state": f"{seat}.json", "seat": seat}
        server |= {"journal": f"journals/{seat}.journal", "spool": "spool"}
        (self.folder / f"{seat}.token").write_text(SEATS[seat], encoding="ascii")
        (self.folder / f"{seat}.token").chmod(0o600)
        sockets = {name: [self.socket(f"{seat}-{name}")] for name in SOCKETS}
        hooks = {name: {"command": [f"./{file}"]} for name, file in (("before_identity", "make-csr"),
                                                                     ("before_ship", "ship"))}  # fmt: skip
        fuse_map = str(ROOT / f"python/wanekupo/chips/families/{family}/map.toml")
        top = {"name": family, "order": order, "map": fuse_map, "family": family}
        lines = [f"{name} = {toml(it)}" for name, it in top.items()]
        tables = (("server", server), ("sockets", sockets), ("hooks", hooks), ("stop", {"lost_in_a_row": 99}))
        for name, table in tables:
            lines += [f"[{name}]", *(f"{key} = {toml(it)}" for key, it in table.items())]
        for wish in wishes_of(family):
            lines += ["[[wish]]", *(f"{name} = {toml(it)}" for name, it in wish.items())]
        file = self.folder / f"{seat}.toml"
        file.write_text("\n".join(lines) + "\n", encoding="utf-8")
        return file

    def socket(self, name):
        return script(self.folder / f"socket-{name}", SOCKET.format(folder=self.folder, name=name, tool=self.tool))

    def asked(self, chip):
        """What the server has of a chip; nothing where it isn't registered."""
        with contextlib.suppress(Refused):
            return self.office.get("/v1/device", chip=chip)
        return {}


class Hands:
    """What a person does at a bench: chips in, chips out, into the green box, the red one, or once more."""

    def __init__(self, plant, seat, family):
        self.plant, self.seat, self.order, self.family = plant, seat, "o1", family
        self.placed, self.pressed, self.tries, self.kills, self.said = {}, {}, Counter(), 0, Counter()
        self.passed, self.waits = [], False
        self.start()

    def start(self):
        self.bench = Running(self.plant.recipe(self.seat, self.order, self.family))
        self.pressed = {}

    def kill(self):
        """The bench dies, and what was in its sockets comes into others of them."""
        self.bench.kill()
        self.kills += 1
        chips = list(self.placed.values())
        for name in list(self.placed):
            self.take(name)
        for name, mac in zip(self.plant.chance.sample(SOCKETS, len(chips)), chips):
            self.put(name, mac)
        self.start()

    def place(self, name):
        return self.plant.folder / "places" / f"{self.seat}-{name}"

    def put(self, name, mac):
        self.place(name).with_suffix(".mac").write_text(mac, encoding="ascii")
        os.replace(self.plant.folder / f"chip-{mac}", self.place(name))
        self.placed[name] = mac

    def take(self, name):
        mac = self.placed.pop(name)
        os.replace(self.place(name), self.plant.folder / f"chip-{mac}")
        return mac

    def press(self, name):
        self.pressed[name] = self.bench.socket(name)["since"]
        self.bench.asked("POST", "/begin", {"socket": name})

    def look(self):
        """One look at each socket. Whether something is to be done yet."""
        board = self.bench.board()
        for name in SOCKETS:
            it, mac = socket_of(board, name), self.placed.get(name)
            if mac and it["since"] == self.pressed.get(name, it["since"]):
                if board["stopped"] or name not in self.pressed:  # a line that stands takes no key
                    self.bench.said("go")
                    self.press(name)
            elif mac and it["state"] in ("PASS", "FAIL"):
                self.sort(name, mac, it["reason"])
        if board["stopped"] and not self.placed:
            self.go_on(board["stopped"])
        stock = self.plant.stock[self.family]
        for name in SOCKETS:
            if name not in self.placed and stock and not self.waits and not self.bench.board()["stopped"]:
                self.put(name, stock.pop(0))
                self.press(name)
        if not self.placed and not stock:
            self.turn()
        return bool(self.placed) or any(self.plant.stock.values())

    def sort(self, name, mac, reason):
        """Where a chip goes, by what its socket says."""
        self.said[reason] += 1
        if reason in ("passed", "passed_before", "shipped_before"):  # the last two behind a kill
            self.passed.append(self.take(name))
        elif reason in NEXT:
            self.plant.stock[self.family].insert(0, self.take(name))
        elif reason in AGAIN and self.tries[mac] < 2:
            self.tries[mac] += 1
            self.press(name)
        else:
            self.take(name)
            self.scrap(mac)

    def scrap(self, mac):
        """The red box, at once."""
        self.bench.said(f"scrap {mac}")
        self.bench.until(lambda board: board["question"] or "No chip is scrapped" in board["notice"], "asked")
        self.bench.said("yes")
        self.bench.until(lambda board: f"{mac} is scrapped" in board["notice"], f"scrapped {mac}")

    def go_on(self, why):
        """The line stands: by its own word the next order comes, once the old one has no number left."""
        self.waits = False
        if "has no serial number left" in why or "The last serial number" in why:
            self.change("o2", self.family)
        elif "ask for the next order" in why:
            self.waits = True  # until no chip is under way on either bench
        else:
            self.plant.stopped.append(why)
            self.bench.said("go")

    def turn(self):
        """Another family, where this one has no chip left."""
        family = next((it for it in FAMILIES if self.plant.stock[it]), None)
        if family:
            self.change(self.order, family)

    def change(self, order, family):
        self.end()
        self.order, self.family = order, family
        self.start()

    def end(self):
        if self.bench.end():
            raise Failed(f"{self.seat}: {self.bench.lines[-5:]}")


class Failed(Exception):
    """A bench didn't do as it should."""


def socket_of(board, name):
    return next(it for it in board["sockets"] if it["name"] == name)
