"""Attacks on the deployed form, each while an honest station of another customer works: how long that one waits.

The program serves a store of many devices of one customer, `acme`; nginx stands in front by deploy/nginx.conf, in
which ports and paths are others, its log is on, and nothing else; the tokens are outer ones by station-token. For each
attack all of this is started anew, over a copy of the store, and nginx with the files that Debian's unit gives it.
Those who attack have the tokens of `acme`, or none, and a lower priority than the server, as their machines are others.
The honest station is a seat of the customer `bolt`, at another address: it registers chips, plans, gives identities,
ships and looks, with a tenth of a second between its requests, in turn over a connection that it keeps and over a new
one. It works while the attack does, and 3 seconds more.

Each test tells a row, which `tests/all hostile --found FILE` keeps: the seconds that one report of `acme` takes with
nothing beside it, the longer of one before the attack and one behind it, once the program is at rest; the honest
station's requests; how many times something else came than the reply that it should get (then it asks again); the
middle one and the longest of its waits, each until that reply; the goal; the longest report that was answered beside
the attack, by nginx's log; the load of the machine, and how much the program got of the time of a processor that it
could have used; and what the attack counted. The goals:

    through nginx   a wait of 2 seconds and one report at most, and no failure
    directly        a wait of 1 second and one request at most (a report is the longest), and no failure
    strangers       none of the connections of `--connections` is theirs

An attack that did less than it says (connections that were held, by the kernel's table too, requests, replies) fails
too: the row says nothing then. In full, by `slow`, the store has 10,000 devices and an attack its own size and 20 s.
"""

import os
import signal
import threading
import time
from dataclasses import dataclass, field
from multiprocessing import get_context

import pytest

from common.deployed import expect
from hostile import crowds, floods
from hostile.place import HONEST, LONG, SEATS, Place, Store, established
from hostile.station import Honest

pytestmark = [
    pytest.mark.root, pytest.mark.nginx, pytest.mark.needs("h2load", "slowhttptest", "sqlite3"),
]  # fmt: skip

# How long the honest station goes on behind an attack, and how much longer than said an attack may last.
BEHIND, LATE = 3, 60

# What strangers may use up, where that is looked at: more than the honest station needs.
FEW = 5000

# The seconds above one report, or one request, that the honest station may wait.
THROUGH, DIRECTLY = 2, 1


# More than any attack has at a time: with it each has its own size.
WHOLE = 20_000


@dataclass
class Scale:
    """At most how many at a time, for how long, and the devices of the store."""

    size: int

    def __post_init__(self):
        self.seconds, self.devices = (5, 1000) if self.size < WHOLE else (20, 10_000)


@dataclass
class Attack:
    """An attack's name, what it does, how many at a time, the least that it has to count for each of these, the most
    that is its goal, and whether as many have to be held at a time. Those by strangers are tried over few
    `--connections`, none of which may be used. One that lasts has so many seconds, so that a long wait ends in it."""

    name: str
    run: object
    size: int = 1
    least: dict = field(default_factory=dict)
    most: dict = field(default_factory=dict)
    is_held: bool = False
    is_strangers: bool = False
    lasts: float = 0

    def seconds(self, scale):
        return scale.seconds if scale.size < WHOLE else max(scale.seconds, self.lasts)


def nothing(target):
    """No attack."""
    time.sleep(target.seconds)
    return {}


def held(name, run, size):
    return Attack(name, run, size, {"opened": size, "held": size}, is_held=True)


def strangers(name, run, size, requests):
    return Attack(name, run, size, {"requests": requests}, {"used": 0}, is_strangers=True)


LEDGER, PAGE = f"/v1/ledger?chip={LONG:012x}", "/v1/devices?after="
DEAREST = floods.looks("/v1/report", LEDGER, PAGE, "/v1/order?name=o000")


NGINX = [
    Attack("nothing beside it", nothing),
    held("silent connections, 2,100", crowds.silent, 2100),
    held("silent connections, 4,000", crowds.silent, 4000),
    held("half a handshake, 254 addresses of 64", crowds.half_shaken, 254 * 64),
    held("TLS and then silence", crowds.shaken, 2000),
    held("one request, kept and then silence", crowds.kept, 2000),
    held("dripping heads", crowds.heads, 1000),
    held("dripping bodies", crowds.bodies, 600),
    Attack("slowhttptest -H, slow heads", crowds.slowhttptest("slow heads"), 1000, {"held": 500}),
    Attack("slowhttptest -B, slow bodies", crowds.slowhttptest("slow bodies"), 600, {"held": 500}),
    Attack("slowhttptest -X, slow reads", crowds.slowhttptest("slow reads"), 600, {"held": 500}),
    Attack("half a request, then half-closed", crowds.half_closed, 500, {"opened": 500}),
    Attack("whole reports, half-closed", crowds.half_closed_whole, 50, {"opened": 50}),
    Attack("long replies that nobody reads", crowds.never_read, 500, {"opened": 500}),
    Attack("200 reports in flight, HTTP/2", floods.h2load(4, 50), 200, {"requests": 200}),
    Attack("reports hung up, one at a time", floods.hung_up, 1, {"requests": 20}),
    Attack("reports hung up, 50 at a time", floods.hung_up, 50, {"requests": 500}),
    Attack("reports over streams that are reset", floods.resets, 2, {"requests": 400}),
    Attack("100 streams in one connection, pages", floods.h2load(1, 100, PAGE), 100, {"requests": 500}),
    Attack("100 streams, a ledger of 16,000", floods.h2load(1, 100, LEDGER), 100, {"requests": 500}),
    Attack("ten seats, that ledger, two at a time", floods.looks(LEDGER), 20, {"requests": 20}),
    Attack("ten seats, all that is dear", DEAREST, 20, {"requests": 100}),
    Attack("imports of 500 rows, without a pause", floods.imports, 1, {"rows": 500}),
    Attack("ten seats, imports without a pause", floods.imports, 10, {"rows": 500}),
    Attack("ten stations without a pause", floods.stations, 10, {"chips": 10}),
    Attack("ten honest stations, a chip each 2 s", floods.shift, 10, {"chips": 10}, {"met": 0}),
    strangers("strangers without a token", floods.h2load(50, 10, token=""), 50, 2 * FEW),
    strangers("strangers with an unknown one", floods.h2load(50, 10, token="no"), 50, 2 * FEW),
    strangers("strangers, a connection each", floods.one_at_a_time, 20, 500),
]
DIRECT = [
    Attack("nothing beside it", nothing),
    held("silent connection, 1", crowds.silent, 1),
    Attack("silent connections, 5", crowds.silent, 5, {"opened": 5}),
    Attack("silent connections, 20", crowds.silent, 20, {"opened": 20}, lasts=60),
    Attack("one request, kept and then silence", crowds.kept, 20, {"opened": 20}),
    Attack("dripping head, 1", crowds.heads, 1, {"opened": 1}),
    Attack("dripping body, 1", crowds.bodies, 1, {"opened": 1}),
    Attack("half a request, then half-closed", crowds.half_closed, 20, {"opened": 20}),
    Attack("long replies that nobody reads, 5", crowds.never_read, 5, {"opened": 5}),
    Attack("1,000 reports in one send", floods.pipelined, 1, {"requests": 1000, "replies": 1}),
    Attack("reports hung up, one at a time", floods.hung_up, 1, {"requests": 20}),
    Attack("reports hung up, 50 at a time", floods.hung_up, 50, {"requests": 100}, lasts=60),
    Attack("imports of 500 rows, without a pause", floods.imports, 1, {"rows": 500}),
    Attack("ten stations without a pause", floods.stations, 10, {"chips": 10}),
]


# The goals that are known to be missed: the program's own port is nginx's alone for that.
MISSED_THROUGH = {"ten seats, all that is dear"}
MISSED_DIRECTLY = {
    "silent connection, 1", "silent connections, 5", "silent connections, 20", "dripping head, 1", "dripping body, 1",
    "reports hung up, one at a time", "reports hung up, 50 at a time", "ten stations without a pause",
}  # fmt: skip


def attacking(pipe, attack, target):
    """The process of an attack, in a group of its own, which ends in any case. It gives way to the server, as those who
    attack have machines of their own."""
    os.setsid()
    os.nice(5)
    signal.signal(signal.SIGTERM, signal.SIG_DFL)
    signal.alarm(int(target.seconds + LATE))
    pipe.send(attack.run(target))
    os._exit(0)


class Attacker:
    """An attack in a process of its own, so that it takes nothing of the honest station's."""

    def __init__(self, attack, target):
        self.pipe, end = get_context("fork").Pipe(duplex=False)
        self.process = get_context("fork").Process(target=attacking, args=[end, attack, target])
        self.process.start()
        end.close()

    def counts(self):
        """What it counted, once it is over."""
        try:
            return self.pipe.recv() if self.pipe.poll(LATE) else {"said": "no end"}
        except EOFError:
            return {"said": "it failed"}

    def kill(self):
        try:
            os.killpg(self.process.pid, signal.SIGKILL)
        except ProcessLookupError:
            pass
        self.process.join()


class Seen:
    """The most connections that a port had at a time, by the kernel's table; the most of the machine's load; and what
    the program got of the time of a processor that it could have used, by the kernel too."""

    def __init__(self, port):
        self.port, self.connections, self.load, self.share = port, 0, os.getloadavg()[0], 1.0
        self.is_over = threading.Event()
        self.thread = threading.Thread(target=self.look, daemon=True)
        self.thread.start()

    def look(self):
        while not self.is_over.wait(1):
            self.connections = max(self.connections, established(self.port))
            self.load = max(self.load, os.getloadavg()[0])

    def end(self):
        self.is_over.set()
        self.thread.join()


def shortfalls(scale, attack, is_direct, counts, seen):
    """What an attack did less of than it says."""
    share = min(1, scale.size / attack.size)
    least = {name: max(1, int(number * share)) for name, number in attack.least.items()}
    counted = [(name, counts.get(name, 0), number) for name, number in least.items()]
    short = [f"{name} {count} and not {number}" for name, count, number in counted if count < number]
    size = min(scale.size, attack.size)
    if attack.is_held and not is_direct and seen.connections < 0.9 * size:
        short.append(f"nginx had {seen.connections} connections and not {size}")
    return short + ([counts["said"]] if "said" in counts else [])


def strangers_used(place, honest):
    """How many connections of `--connections` neither the honest station nor this test made. The rest are used."""
    left = 0
    while place.is_up() and left < place.connections:
        try:
            place.caller("none").ask("GET", "/")
        except OSError:
            break
        left += 1
    return place.connections - left - honest.sent - place.asked


def fought(scale, attack, place):
    """The honest station's waits beside an attack, what this one counted, and what was seen."""
    honest = Honest(place.port if not place.is_direct else place.inner, place.outer[HONEST], place.context)
    honest.begin()
    size, tokens = min(scale.size, attack.size), [place.outer[seat] for seat in SEATS]
    target = crowds.Target(
        honest.port, not place.is_direct, tokens, size, attack.seconds(scale), place.store.number
    )  # fmt: skip
    before, seen, attacker = place.processor(), Seen(honest.port), Attacker(attack, target)
    try:
        waits = honest.work(time.monotonic() + attack.seconds(scale) + BEHIND)
        counts = attacker.counts()
    finally:
        attacker.kill()
        seen.end()
    ran, waited = (after - earlier for after, earlier in zip(place.processor() or before, before))
    seen.share = ran / (ran + waited) if ran + waited else 1.0
    for name in attack.most:
        counts.setdefault(name, 0)
    if attack.is_strangers:
        counts["used"] = strangers_used(place, honest)
    return waits, counts, seen


@pytest.fixture(scope="module")
def stores(program, tmp_path_factory):
    """A store of so many devices, made once, whose outer tokens are handed out."""
    made = {}

    def store_of(devices):
        if devices not in made:
            folder = tmp_path_factory.mktemp("kept")
            made[devices] = Store(folder / "store", devices).make(program).hand_out(folder)
        return made[devices]

    return store_of


def beside(scale, attack, place):
    """The row of an attack, what it did less of than it says, and which goals are missed."""
    one = place.report_seconds()
    waits, counts, seen = fought(scale, attack, place)
    if not attack.is_strangers:
        one = max(one, place.report_seconds())
    goal = one + (DIRECTLY if place.is_direct else THROUGH)
    missed = [f"a wait of {waits.longest():.3f} s, and not {goal:.2f}"] if waits.longest() > goal else []
    missed += [f"{waits.failures()} failures: {waits.told()}"] if waits.failures() else []
    missed += [f"{it} {counts[it]} and not {most}" for it, most in attack.most.items() if counts.get(it, 0) > most]
    cells = f"{one:7.2f}{len(waits.seconds):6}{waits.failures():5}{waits.middle():8.3f}{waits.longest():9.3f}"
    cells += f"{goal:7.2f}{place.longest_report():7.2f}{seen.load:5.1f}{seen.share:6.0%}"
    told = ", ".join(f"{name} {count}" for name, count in counts.items())
    return f"{attack.name:38}{cells}  {told}", shortfalls(scale, attack, place.is_direct, counts, seen), missed


def judge(attack, known, short, missed):
    """Fails where the attack did less than it says, or a goal is missed that isn't known to be."""
    expect("what it did less of than it says", short, [])
    if missed and attack.name in known:
        pytest.xfail(f"a goal that is known to be missed: {missed}")
    expect("goals that are missed", missed, [])


@pytest.mark.sizes(10, WHOLE)
@pytest.mark.parametrize("attack", NGINX, ids=lambda it: it.name)
def test_behind_nginx(program, stores, open_folder, found, attack, size):
    scale, connections = Scale(size), FEW if attack.is_strangers else 1_000_000
    with Place(program, stores(scale.devices), open_folder, connections) as place:
        row, *judged = beside(scale, attack, place)
    found(row)
    judge(attack, MISSED_THROUGH, *judged)


@pytest.mark.sizes(10, WHOLE)
@pytest.mark.parametrize("attack", DIRECT, ids=lambda it: it.name)
def test_directly(program, stores, open_folder, found, attack, size):
    """On the program's own port."""
    scale = Scale(size)
    with Place(program, stores(scale.devices), open_folder, is_direct=True) as place:
        row, *judged = beside(scale, attack, place)
    found(row)
    judge(attack, MISSED_DIRECTLY, *judged)
