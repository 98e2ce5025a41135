"""Each alarm of deploy/prometheus fires and ends over a served store, by Debian's prometheus, alertmanager, blackbox
exporter and node exporter.

A store is served on a small file system of its own behind nginx by deploy/nginx.conf. All of deploy/prometheus watches
it, with a second for each minute of the rules. Of each alarm the cause is made: chips are lost, an order takes the
addresses, the server is killed, the disk is filled, a certificate ends .. A message has to come that it fires, to whom
its severity says, and no other alarm may fire that isn't named beside it. Then the cause is taken away, and a message
has to come that it ended. What systemd says of the unit's bound of memory, and what the tool for backups says of the
last one, is written here. That the store fails it says in the server's place.
"""

import os
import subprocess
import time
from datetime import datetime, timedelta, timezone

import pytest
from simulated_chip import SimulatedChip
from support import DIGEST, MAP, Held

from common.commands import command
from common.deployed import expect, ran
from common.needs import ROOT
from common.ports import HOST
from common.program import Failed
from plant.network import reached
from plant.watched import DAYS_LEFT, DEPLOYED, plant_of
from wanekupo.chips.chip import bit
from wanekupo.seat.journal import Journal
from wanekupo.seat.station import Station

WATCHES = ["prometheus", "prometheus-alertmanager", "prometheus-blackbox-exporter", "prometheus-node-exporter"]
# Beside a recorder whose server is away, or whose caller went: that is what is tried.
pytestmark = [
    pytest.mark.root, pytest.mark.nginx, pytest.mark.needs(*WATCHES, "promtool", "amtool", "nft", "h2load", "sqlite3"),
    pytest.mark.filterwarnings("ignore::pytest.PytestUnhandledThreadExceptionWarning"),
]  # fmt: skip

# How long an alarm may take to fire, and to end, in seconds; and how long none may fire at the start.
FIRES, ENDS, QUIET = 60, 60, 8
SMALL = 96
UNKEPT = b'{"error":"unkept","no":50}'
REFUSED = b"HTTP/1.0 503 Unkept\r\nContent-Type: application/json\r\nContent-Length: %d\r\n\r\n" % len(UNKEPT) + UNKEPT
ALWAYS = ["--shift", "Mon-Sun 00:00-24:00"]

# How many requests a stranger sends.
STRANGE = 20_000


def ago(**span):
    return (datetime.now(timezone.utc) - timedelta(**span)).strftime("%Y-%m-%dT%H:%M:%SZ")


# ---- A line.


class Line:
    """A station at the seat of acme, which has an order and makes chips, by the server's own port."""

    def __init__(self, plant):
        self.plant, self.made = plant, 0
        self.file = plant.journals / "a1.journal"
        self.station = self.opened("a1.json", Journal(self.file))
        self.station.import_map(MAP)
        self.order("o1", 600, 0)

    def opened(self, state, journal=None, patience=60):
        url = f"http://{HOST}:{self.plant.inner_port}"
        return Station(url, "abc", self.plant.small / state, journal=journal, patience=patience)

    def order(self, name, quantity, macs):
        words = {"issuer": "acme-ca", "prefix": name.upper(), "width": 4, "first": 1}
        self.station.make_order(name, **words, quantity=quantity, macs=macs)

    def begun(self, order="o1"):
        """A chip that was registered, by its name."""
        self.made += 1
        chip = f"240ac4{self.made:06x}"
        held = Held(SimulatedChip(bytes.fromhex(chip)), {})
        self.station.register(chip, order, DIGEST, held.read())
        return chip, held

    def shipped(self, order="o1"):
        chip, _ = self.begun(order)
        self.station.plan(chip, [])
        self.station.identify(chip, bytes.fromhex(f"{self.made:064x}"))
        self.station.ship(chip)

    def lost(self):
        chip, held = self.begun()
        self.station.plan(chip, [bit("JTAG_DISABLE", 0)])
        held.chip.burn(0, 1 << 197)
        if self.station.read_back(chip, held.read()).outcome != "stray":
            raise Failed("the chip isn't stray")


# ---- The causes. Each makes the cause, waits at its `yield` until the alarm fires, and takes it away.


def chips_are_lost(plant, line):
    for _ in range(3):
        line.lost()
    waited(lambda: 3.0 in plant.watched("wanekupo_given_up_devices_total"), 20, "three lost chips are seen")
    if "ChipsAreLost" in plant.heard.firing:
        raise Failed("three lost chips are an alarm")
    line.lost()
    yield


def no_chip(plant, line):
    plant.shift = ALWAYS
    yield
    line.shipped()
    plant.shift = []


def serials_are_low(plant, line):
    line.order("o2", 6, 0)
    waited(lambda: plant.watched('wanekupo_order_serials_left{order="o2"}') == [6.0], 20, "the order is seen")
    for _ in range(5):
        line.shipped("o2")
    yield
    line.shipped("o2")


def addresses_are_low(plant, line):
    line.order("o3", 4, 1)
    line.order("o4", 4, 1)
    yield
    text = plant.place.site.read_text(encoding="utf-8")
    more = '[[customer.pool]]\nfirst = "020000000030"\ncount = 64\n'
    plant.place.site.write_text(text.replace("[[customer.seat]]", f"{more}[[customer.seat]]", 1), encoding="utf-8")
    plant.restart()


def seat_stopped(plant, line):
    with line.opened("other.json") as other:
        other.scrap(line.begun()[0])
    try:
        line.shipped()
        raise Failed("the seat isn't out of step")
    except Exception as error:
        if type(error).__name__ != "OutOfStep":
            raise
    yield
    line.station.resynchronize()


def server_is_away(plant, line):
    plant.place.server.kill()
    yield
    plant.serve()


def store_fails(plant, line):
    plant.place.recorder.said = REFUSED
    plant.place.recorder.gate.set()
    yield
    plant.place.recorder.said = None


def connections_are_low(plant, line):
    plant.connections = 100_000 + 40 + int(plant.value("wanekupo_server_requests_total"))
    token = (plant.small / "tokens/acme.token").read_text(encoding="ascii").strip()
    for _ in range(60):
        plant.place.ask(f"Bearer {token}", "/v1/order?name=none")
    yield
    plant.restart()
    waited(lambda: "ConnectionsAreLow" not in plant.heard.firing, ENDS, "ConnectionsAreLow ends by a restart")
    plant.connections = 1_000_000


def start_needs_memory(plant, line):
    plant.memory_max = str(3 * plant.value("wanekupo_start_memory_bytes") - 10)
    plant.show()
    yield
    plant.memory_max = "infinity"
    plant.show()


def store_is_nearly_full(plant, line):
    size = (plant.small / "books.db").stat().st_size
    plant.bounds = ["prlimit", f"--fsize={int(size / 0.95)}:"]
    plant.restart()
    yield
    ran(["prlimit", f"--pid={plant.place.server.process.pid}", "--fsize=unlimited:"])
    plant.bounds = []
    plant.restart()


def disk_is_nearly_full(plant, line):
    large = plant.small / "large"
    free = os.statvfs(plant.small)
    with open(large, "wb") as out:
        out.write(bytes(free.f_bavail * free.f_frsize - 2_000_000))
    yield
    large.unlink()


def backup(plant, at, ok):
    file = plant.backups / "last-backup.json"
    file.write_text(f'{{"at":"{at}","ok":{ok},"bytes":1,"said":"by the bench"}}', encoding="ascii")


def backup_is_old(plant, line):
    backup(plant, ago(hours=27), "true")
    yield
    backup(plant, ago(hours=1), "true")


def backup_failed(plant, line):
    backup(plant, ago(hours=1), "false")
    yield
    backup(plant, ago(hours=1), "true")


def stores_are_not_apart(plant, line):
    file = plant.text_folder / "apart.prom"
    done = ran([*command("wanekupo"), "apart", plant.small / "none", "--to", file])
    expect("no seals are there", done.returncode, 2)
    yield
    file.unlink()


def certificate_ends(plant, line):
    plant.certify("20")
    yield
    plant.certify(DAYS_LEFT)


def metrics_are_missing(plant, line):
    plant.is_looking = False
    yield
    plant.is_looking = True


# The alarm, what makes it fire, and which others may fire with it.
CASES = [
    ("ChipsAreLost", chips_are_lost, ()),
    ("NoChip", no_chip, ()),
    ("SerialsAreLow", serials_are_low, ()),
    ("AddressesAreLow", addresses_are_low, ()),
    ("SeatStopped", seat_stopped, ()),
    ("ServerIsAway", server_is_away, ("MetricsAreMissing",)),
    ("StoreFails", store_fails, ("MetricsAreMissing",)),
    ("ConnectionsAreLow", connections_are_low, ()),
    ("StartNeedsMemory", start_needs_memory, ()),
    ("StoreIsNearlyFull", store_is_nearly_full, ()),
    ("DiskIsNearlyFull", disk_is_nearly_full, ()),
    ("BackupIsOld", backup_is_old, ()),
    ("BackupFailed", backup_failed, ()),
    ("StoresAreNotApart", stores_are_not_apart, ()),
    ("CertificateEnds", certificate_ends, ()),
    ("MetricsAreMissing", metrics_are_missing, ()),
]
RECEIVERS = {"night": "night", "shift": "shift", "day": "morning"}


def waited(is_there, seconds, what):
    end = time.monotonic() + seconds
    while not is_there():
        if time.monotonic() > end:
            raise Failed(f"{what}: not within {seconds} seconds")
        time.sleep(0.2)


@pytest.fixture(scope="module")
def plant(program):
    with plant_of(program, SMALL) as plant:
        backup(plant, ago(hours=1), "true")
        plant.certify(DAYS_LEFT)
        plant.look()
        yield plant


@pytest.fixture(scope="module")
def line(plant):
    return Line(plant)


@pytest.fixture(scope="module")
def watched(plant, line):
    """The plant, where all watches, and no alarm fires at the start."""
    plant.watch()
    time.sleep(QUIET)
    plant.is_watched()
    waited(lambda: not plant.heard.firing, 20, f"none fires at the start: {plant.heard.firing}")
    return plant


@pytest.mark.parametrize(("words", "is_metrics"), [
    (["promtool", "check", "rules", "wanekupo.yml"], False),
    (["promtool", "check", "config", "prometheus.yml"], False),
    (["promtool", "test", "rules", DEPLOYED / "rules-test.yml"], False),
    (["promtool", "check", "metrics"], True),
    (["amtool", "check-config", "alertmanager.yml"], False),
], ids=lambda it: " ".join(it[:3]) if isinstance(it, list) else "")  # fmt: skip
def test_files(plant, tmp_path, words, is_metrics):
    """Debian's own tools over the files, as they are."""
    for name in ("prometheus.yml", "alertmanager.yml"):
        (tmp_path / name).write_bytes((DEPLOYED / name).read_bytes())
    (tmp_path / "wanekupo.yml").write_bytes((DEPLOYED / "rules.yml").read_bytes())
    given = (plant.text_folder / "wanekupo.prom").read_text(encoding="ascii") if is_metrics else None
    done = subprocess.run(words, cwd=tmp_path, input=given, capture_output=True, text=True, timeout=300)
    if done.returncode or is_metrics and done.stdout + done.stderr:
        raise Failed(f"{done.stdout}{done.stderr}")


@pytest.mark.parametrize(("address", "status"), [(HOST, 200), ("127.0.0.2", 401)])
def test_status_page(plant, address, status):
    """It is this machine's, and no other address's."""
    expect("/status", plant.place.ask(None, "/status", more=("--interface", address))[0], status)


def test_strangers(plant):
    """A stranger's requests, most of them above the rate, take none of the server's connections."""
    count = len(plant.place.recorder.heads)
    flood = ran(["h2load", "-n", STRANGE, "-c", "40", "-m", "10", f"{plant.url}/v1/report"]).stdout
    plant.look()
    left = plant.value("wanekupo_connections_left")
    if f" {STRANGE} done, 0 succeeded" not in flood or left != plant.connections - count:
        raise Failed(f"{STRANGE} requests of a stranger, {count} others: {left} connections are left. {flood}")


@pytest.mark.needs("mounts", "ip", "ss")
def test_network(program):
    """Another network reaches nginx's port alone, by the rules of station.nft and by the drop-ins of the services."""
    expect("otherwise", reached(program), "")


@pytest.mark.parametrize(("name", "make", "others"), CASES, ids=[it[0] for it in CASES])
def test_alarm(watched, line, name, make, others):
    """The alarm fires and ends, and no other does beside those that may."""
    plant, heard = watched, watched.heard
    came = len(heard.came)
    cause = make(plant, line)
    next(cause)
    waited(lambda: name in heard.firing, FIRES, f"{name} fires")
    alarm = heard.firing[name]
    page, said = alarm["page"].removeprefix("https://w/"), alarm["summary"]
    if not (ROOT / page.partition("#")[0]).exists() or "{{" in said + page or "<no value>" in said:
        raise Failed(f"{name} has the page {alarm['page']} and the summary {said}")
    if (name, "firing", RECEIVERS[alarm["severity"]]) not in heard.came[came:]:
        raise Failed(f"{name} came to another than {RECEIVERS[alarm['severity']]}: {heard.came[came:]}")
    next(cause, None)
    waited(lambda: name not in heard.firing, ENDS, f"{name} ends")
    waited(lambda: not heard.firing, ENDS, f"others end beside {name}: {heard.firing}")
    strange = {it for it, _, _ in heard.came[came:]} - {name, *others}
    if strange:
        raise Failed(f"beside {name} fired {sorted(strange)}")
