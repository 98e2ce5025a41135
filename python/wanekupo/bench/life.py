"""A chip's life in a socket: read, register, plan, burn, read back, key pair, identity, ship, label.

It goes on wherever the chip was stopped, by what the server knows of it. A chip with two batches costs seven requests,
with reports at its order's end (`supply`), and seven starts of espefuse: one to read it, two a batch, and one behind
each command that may take minutes, as another chip may be there.
"""

from pathlib import Path
from typing import Any, Callable, Mapping, Optional, Protocol, Sequence, TypeVar

from wanekupo.chips.chip import shows_work
from wanekupo.bench.endings import REFUSALS, Ended, ended_by
from wanekupo.common.errors import Refused, StationError
from wanekupo.chips.espefuse import HeldKey, KeyFile, held_key, wishes_of
from wanekupo.chips.families import Blocks, Told, family_of
from wanekupo.bench.hooks import HookResult, printed_by, run_hook
from wanekupo.bench.bench_files import BenchFiles, synced_files
from wanekupo.common.files import PRIVATE, place_file
from wanekupo.seat.keys import keep_csr, sound_key_of
from wanekupo.seat.profiles import Profile
from wanekupo.seat.lot_records import addresses_of
from wanekupo.bench.parts import Part
from wanekupo.bench.recipe import RecipeCommand, Recipe, Wish
from wanekupo.chips.layout import Layout, Place, places_of, wanted_of
from wanekupo.chips.work import Work
from wanekupo.seat.replies import Device, Identity, Order, Verdict
from wanekupo.seat.station import Station
from wanekupo.bench.supply import Supply
from wanekupo.bench.turns import Leaving

Made = TypeVar("Made")

# How often a batch is burnt, where the chip doesn't show all of it.
TRIES = 3

UNKNOWN_MAP = 13

# The states behind which a plan of this bench's comes, for which keys are made.
PLANNED_ANEW = ("registered", "awaiting1", "awaiting2", "settled")

# How many fields a sentence names at the most.
SHOWN_NAMES = 4

# The outcomes of a read-back that end a chip's stay.
OUTCOMES = ("lost", "stray", "key", "short")

# What before_identity leaves one of, in the chip's folder: the public key, or a request for a certificate.
LEFT = ("pem", "der", "csr")


def _shown(names: Sequence[str]) -> str:
    """The first of these, as a sentence names them."""
    return ", ".join(names[:SHOWN_NAMES]) + (" .." if len(names) > SHOWN_NAMES else "")


def life_steps(recipe: Recipe) -> list[str]:
    """The steps of a chip's life in their order, of which a chip may pass over those that it doesn't need."""
    keys = [own.name for it in recipe.wishes if (own := it.command or it.printed)]
    burning = [f"{it} {batch}" for batch in (1, 2) for it in ("burn", "read back")] if recipe.wishes else []
    release, before, label = (
        [step] * (step.replace(" ", "_") in recipe.hooks) for step in ("before register", "before ship", "label")
    )
    identity = ["before identity", "identity"]
    return ["read", "look", *release, "register", *keys, "plan", *burning, *identity, *before, "ship", *label]


class LifeBench(Protocol):
    """What a life has of its bench."""

    recipe: Recipe
    kept: BenchFiles
    spool: Optional[Path]
    profile: Profile
    supply: Supply

    def ask(self, call: Callable[[Station], Made]) -> Made: ...

    def order(self) -> Order: ...

    def operator(self) -> str: ...

    def import_map(self) -> None: ...

    def working(self, socket: str, step: str, chip: str, serial: str) -> None: ...

    def identified(self, record: Identity) -> None: ...


class Life:
    """One stay of a chip in a socket. `keys` are those that `part` burns, by the names of their fields."""

    def __init__(self, line: LifeBench, socket: str, part: Part, keys: dict[str, KeyFile]):
        self.line, self.socket, self.part, self.keys = line, socket, part, keys
        self.chip = self.serial = self.step = ""
        self._blocks = Told([], "")
        self._known: frozenset[Place] = frozenset()

    def find(self) -> None:
        """Reads which chip is there."""
        self.step = "read"
        self._blocks = self.part.read()
        self.chip = self._blocks.chip

    def run(self) -> Ended:
        """Brings the chip as far as it goes, and says how that ended."""
        try:
            if not self.chip:
                self.line.working(self.socket, "read", "", "")
                self.find()
            self._live()
        except Leaving:
            raise
        except Exception as error:
            ended = ended_by(error, self.step)
            ended.__traceback__ = ended.__cause__ = ended.__context__ = None  # their frames have keys
            return ended
        return Ended("passed", serial=self.serial)

    def _at(self, step: str) -> None:
        """The chip is about to begin a step, which is kept before it is shown."""
        self.step = step
        self.line.kept.begun(self.chip, self.socket, step)
        self.line.working(self.socket, step, self.chip, self.serial)

    def _ask(self, call: Callable[..., Made], *words: Any) -> Made:
        """A call of the station with the chip's name and these words."""
        return self.line.ask(lambda station: call(station, self.chip, *words))

    def _live(self) -> None:
        was_begun = self.chip in self.line.kept.under_way()
        device = self._device(was_begun)
        self._make_keys(device)
        state = device.state
        if state == "registered":
            self.line.supply.test_plan()
        if state in ("registered", "settled"):
            state = self._plan()
        else:
            self._test_wishes(device)
            if state == "shipped" and not was_begun:
                raise Ended("passed_before", serial=self.serial)
            if state == "awaiting1" and not Layout(self.line.recipe.map).has_some(self._blocks, device.batch1):
                self.line.supply.test_burn()
            state = self._burn_all(state, device.batch1, device.batch2)
            if state == "settled":
                state = self._plan()
        self._test_shown()
        record = self._identify() if state == "settled" else self._ask(Station.identity)
        self.serial = record.serial
        self._keep_csr(record)
        self.line.identified(record)
        if state != "shipped":
            if self._hook("before_ship", record):
                self._see()
            self._at("ship")
            before = self.line.kept.before(self.chip)
            self._ask(Station.ship, before.reason if before else "")
        self._label(record)

    # The device.

    def _device(self, was_begun: bool) -> Device:
        """What the server knows of the chip; it is registered where that is nothing. One that another bench shipped
        isn't touched."""
        self.step = "look"
        self.line.working(self.socket, "look", self.chip, "")
        found, recipe = self._ask(Station.find_device), self.line.recipe
        if not found:
            self._test_release()
        device = found or self.line.supply.registered(self._register)
        self._known = places_of(device.burnt)
        is_known = was_begun or self.line.kept.has_passed(self.chip)
        self.serial = device.serial or ""
        if device.state == "shipped" and not is_known:
            raise Ended("shipped_before", serial=self.serial)
        if device.order != recipe.order:
            raise Ended("other_order", order=device.order)
        if device.map != recipe.digest():
            raise Ended("other_map")
        if device.state == "quarantined":
            raise Ended("lost_before", detail=device.reason)
        if device.state == "scrapped":
            raise Ended("scrapped_before")
        if found and not is_known:
            self.line.kept.elsewhere(self.chip)
        return device

    def _test_release(self) -> None:
        """Has the recipe's command say whether the chip may be begun. Where it doesn't say yes nothing is sent and
        nothing is kept of the chip; another one may be in the socket by then."""
        command = self.line.recipe.hooks.get("before_register")
        if not command:
            return
        self.step = "before register"
        self.line.working(self.socket, self.step, self.chip, "")
        try:
            run_hook(command, self._own_facts(), self.line.recipe.file.parent, self._log)
        except Ended as ended:
            if ended.ending.name == "hook_missing":
                raise
            raise Ended("not_released", detail=ended.facts["detail"]) from ended
        self._see()

    def _register(self) -> Device:
        words = (self.line.recipe.order, self.line.recipe.digest(), self._blocks)
        self._at("register")
        try:
            return self._ask(Station.register, *words)
        except Refused as refused:
            if refused.no != UNKNOWN_MAP:
                raise
        self.line.import_map()  # as behind a restore of the store
        return self._ask(Station.register, *words)

    # Burning.

    def _plan(self) -> str:
        """Has the recipe's wishes planned, and burns what of them isn't there yet. A chip that is settled is planned
        once more, since nobody knows by what wishes it was settled: what is burnt already gives an empty plan."""
        self._at("plan")
        wishes = self._wishes()
        try:
            plan = self._ask(Station.plan, wishes)
        except Refused as refused:
            if REFUSALS.get(refused.no) != "not_blank":
                raise
            told = wanted_of(Layout(self.line.recipe.map), wishes).refused(self._ask(Station.device).burnt)
            raise Ended("not_blank", no=refused.no, detail=_shown(told)) from refused
        others = wanted_of(Layout(self.line.recipe.map), wishes).others(Work((), {}), (plan.batch1, plan.batch2))
        if others:
            raise Ended("other_wishes", detail=_shown(others))
        if plan.state != "settled":
            self.line.supply.test_burn()
        return self._burn_all(plan.state, plan.batch1, plan.batch2)

    def _wishes(self) -> list[dict[str, Any]]:
        """The wishes as the server is asked. A key comes with the number of its purpose, where the family has one."""
        family = family_of(self.line.recipe.family)
        asked: list[dict[str, Any]] = []
        for wish in self.line.recipe.wishes:
            is_key = wish.kind == "key"
            if is_key and wish.field not in self.keys:
                continue  # that of a shipped chip, which isn't here any more
            asked += wishes_of(family, wish.field, self.keys[wish.field]) if is_key else [wish.asked()]
        return asked

    def _test_wishes(self, device: Device) -> None:
        """A chip that awaits a burning, or has its identity, can't be planned again. So what is burnt and awaited has
        to be what the recipe wishes. Only where no lock is awaited, the rest may come by a plan behind this one."""
        wanted, awaited = wanted_of(Layout(self.line.recipe.map), self._wishes()), (device.batch1, device.batch2)
        names = wanted.others(device.burnt, awaited)
        if not device.batch1 or device.batch2:
            names += wanted.missing([device.burnt, *awaited])
        if names:
            raise Ended("other_wishes", detail=_shown(names))

    def _test_shown(self, work: Optional[Work] = None) -> None:
        """Whatever a server says of a chip, what the recipe wishes has to stand in it, by what it shows itself. Where a
        batch is to be burnt, this is asked of the keys over which it burns a lock: nobody sees them behind it."""
        wanted = wanted_of(Layout(self.line.recipe.map), self._wishes())
        names = wanted.unseen(self._blocks)
        if work is not None:
            names = [name for name in names if name in wanted.locked(work)]
        if names:
            raise Ended("other_wishes", detail=_shown(names))

    def _burn_all(self, state: str, *batches: Work) -> str:
        """Burns the batches that are awaited, one after the other, and gives the state behind them."""
        for number, work in enumerate(batches, 1):
            if state == f"awaiting{number}":
                state = self._burn(str(number), work)
        return state

    def _burn(self, place: str, work: Work) -> str:
        """Burns a batch until the chip shows all of it, and sends what it shows: half a key would lose the chip."""
        self._test_shown(work)
        for _ in range(TRIES):
            self._at(f"burn {place}")
            self.part.burn(work)
            self._at(f"read back {place}")
            self._blocks = blocks = self.part.read()
            if blocks.chip != self.chip:
                raise Ended("other_chip")
            if shows_work(blocks, work):
                break
        verdict = self._ask(Station.read_back, blocks)
        if verdict.outcome not in (*OUTCOMES, "match"):
            raise Ended("refused", detail=verdict.outcome)
        if verdict.outcome != "match":
            raise Ended(verdict.outcome, detail=_shown(self._differing(verdict, blocks, work)))
        self._known |= places_of(work)
        return verdict.state

    def _differing(self, verdict: Verdict, blocks: Blocks, work: Work) -> list[str]:
        """The names of what a read-back found otherwise than it should be."""
        layout = Layout(self.line.recipe.map)
        if verdict.outcome == "key":
            return list(work.keys)
        if verdict.outcome == "short":
            return layout.names(places_of(verdict.rest), verdict.rest.keys)
        ones = layout.shown(blocks)
        if verdict.outcome == "stray":
            return layout.names(ones - self._known - places_of(work))
        return layout.names(layout.unhidden(self._known) - ones)

    # Keys that are burnt.

    def _make_keys(self, device: Device) -> None:
        """The key files of the wishes. One that the chip has or awaits already is never made anew."""
        burnt = {} if device.state == "registered" else device.burnt.keys
        known = {**burnt, **device.batch1.keys}
        for wish in self.line.recipe.wishes:
            key = self._key_of(wish, device, wish.field in known) if wish.kind == "key" else None
            if key is None:
                continue
            self.keys[wish.field] = key
            try:
                digest = key.digest()
            except (OSError, ValueError) as error:
                told = f"{key.path}: {error.strerror}" if isinstance(error, OSError) else str(error)
                raise Ended("lost_key" if wish.field in known else "no_key", detail=told) from error
            if known.get(wish.field, digest) != digest:
                raise Ended("lost_key", detail=f"{key.path} is another one")

    def _key_of(self, wish: Wish, device: Device, is_known: bool) -> Optional[KeyFile]:
        """The key of a wish; none of a shipped chip whose key went with it."""
        if wish.printed:
            return None if device.state == "shipped" else self._print_key(wish, wish.printed)
        file = wish.file or self.line.kept.folder_of(self.chip) / f"{wish.field}.key"
        if wish.command and not file.exists():
            if device.state == "shipped":
                return None
            if not is_known and device.state not in PLANNED_ANEW:
                raise Ended("other_wishes", detail=wish.field)
            if not is_known:
                self._make_key(wish, wish.command, file)
        return KeyFile(str(file), wish.burnt_as)

    def _print_key(self, wish: Wish, command: RecipeCommand) -> HeldKey:
        """Has a key printed, which is in memory from here on until the chip's end."""
        self._at(f"key of {wish.field}")
        facts, here = {**self._own_facts(), "FIELD": wish.field}, self.line.recipe.file.parent
        try:
            return held_key(command.name, wish.burnt_as, printed_by(command, facts, here, self._log))
        except ValueError as error:
            raise Ended("no_key", detail=str(error)) from error

    def forget_keys(self) -> None:
        for key in self.keys.values():
            if isinstance(key, HeldKey):
                key.forget()
        self.keys.clear()

    def _make_key(self, wish: Wish, command: RecipeCommand, file: Path) -> None:
        """Has a key made, whose bytes are in a synced file of its own before its plan is sent."""
        self._at(f"key of {wish.field}")
        new = file.with_suffix(".new")
        new.unlink(missing_ok=True)
        self._run(command, {"KEY_FILE": str(new)})
        if not new.is_file() or new.stat().st_size != 32:
            raise Ended("no_key", detail=f"{command.name} left no file of 32 bytes at KEY_FILE")
        place_file(new, file, PRIVATE)
        synced_files(file.parent)

    # The identity.

    def _identify(self) -> Identity:
        folder = self.line.kept.folder_of(self.chip)
        for kind in LEFT:
            (folder / f"identity.{kind}").unlink(missing_ok=True)
        self._hook("before_identity", None)
        self._see()
        synced_files(folder)
        public_key = self._public_key(folder)
        self._at("identity")
        return self._ask(Station.identify, public_key)

    def _public_key(self, folder: Path) -> bytes:
        found = {kind: folder / f"identity.{kind}" for kind in LEFT}
        data = {kind: file.read_bytes() if file.is_file() else None for kind, file in found.items()}
        if sum(it is not None for it in data.values()) != 1:
            raise Ended("no_public_key", detail="one of identity.csr, identity.pem and identity.der in FOLDER")
        try:
            return sound_key_of(self.line.profile, **data)
        except (StationError, ValueError) as error:
            raise Ended("no_public_key", detail=str(error)) from error

    def _keep_csr(self, record: Identity) -> None:
        """Keeps the request for a certificate by the serial number, also where a crash came between."""
        file = self.line.kept.folder_of(self.chip) / "identity.csr"
        if self.line.spool and file.is_file():
            keep_csr(self.line.spool, record.issuer, record.serial, file.read_bytes())

    # Hooks.

    def _hook(self, name: str, record: Optional[Identity]) -> bool:
        """Runs a command of the recipe; whether there is such a one."""
        command = self.line.recipe.hooks.get(name)
        if command:
            self._at(name.replace("_", " "))
            self._run(command, self._facts(record))
        return command is not None

    def _see(self) -> None:
        """Looks whether the chip is still there, behind a command in whose minutes another one may have come."""
        if self.part.read().chip != self.chip:
            raise Ended("other_chip")

    def _facts(self, record: Optional[Identity]) -> dict[str, str]:
        if not record:
            return {"SERIAL": "", "MAC": "", "MACS": "", "KEY_SHA256": ""}
        macs = addresses_of(record.mac, self.line.order().macs if record.mac else 0)
        if macs is None:
            raise Ended("refused", detail=f"the addresses of {record.serial} aren't those of its order")
        told = {"SERIAL": record.serial, "KEY_SHA256": record.key_sha256}
        return {**told, "MAC": record.mac or "", "MACS": " ".join(macs)}

    def _run(self, command: RecipeCommand, facts: Mapping[str, str]) -> None:
        folder = {"FOLDER": str(self.line.kept.folder_of(self.chip))}
        run_hook(command, {**self._own_facts(), **folder, **facts}, self.line.recipe.file.parent, self._log)

    def _own_facts(self) -> dict[str, str]:
        """What each hook is told."""
        order, operator = self.line.recipe.order, self.line.operator()
        return {"CHIP": self.chip, "ORDER": order, "SOCKET": self.socket, "OPERATOR": operator}

    def _log(self, done: HookResult) -> None:
        told = {"hook": done.name, "chip": self.chip, "serial": self.serial, "socket": self.socket}
        self.line.kept.log({**told, "status": done.status, "seconds": done.seconds, "output": done.output})

    def _label(self, record: Identity) -> None:
        """The label of a chip that is shipped. Where it fails the chip stays under way, and has one printed later."""
        try:
            self._hook("label", record)
        except Ended as ended:
            raise Ended("no_label", serial=record.serial, detail=ended.facts.get("detail", "")) from ended
