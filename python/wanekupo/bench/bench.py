"""`wanekupo run RECIPE`: the sockets of a bench, each a thread, over one seat.

A socket takes a chip when somebody presses its key, when a traveller of the recipe's order is scanned, or when a chip
answers, as the recipe says. The line stops after so many failed chips in a row, and where something else has to be
mended first; then a person has it go on.
"""

import argparse
import contextlib
import os
import re
import resource
import signal
import threading
from dataclasses import replace
from pathlib import Path
from typing import Callable, Iterator, Mapping, Optional, TypeVar

from wanekupo.bench.board import (
    MOST_LAST, PASSED, WORKING, Board, ShiftCounts, Socket, begun_socket, ended_socket, in_common,
)  # fmt: skip
from wanekupo.bench.old_folders import clear_old
from wanekupo.seat.settings import Settings, changed, looking_station_of, station_of
from wanekupo.bench.endings import STOP, Ended, ended_by
from wanekupo.common.errors import BadSettings
from wanekupo.chips.espefuse import KeyFile
from wanekupo.bench.bench_files import BenchFiles
from wanekupo.common.moments import now_text
from wanekupo.bench.life import Life, life_steps
from wanekupo.bench.page import Page
from wanekupo.bench.parts import part_of
from wanekupo.common.printing import warn
from wanekupo.bench.questions import Questions
from wanekupo.bench.recipe import Recipe, recipe_of
from wanekupo.bench.recipe_checks import recipe_faults
from wanekupo.seat.replies import Identity, Order
from wanekupo.bench.scrap import Scrapping
from wanekupo.bench.screen import Screen
from wanekupo.common.sentences import sentence_of
from wanekupo.seat.station import Station
from wanekupo.bench.supply import Supply
from wanekupo.bench.turns import Leaving, Turns
from wanekupo.bench.words import OTHERS, said, take

Made = TypeVar("Made")

# How many seconds a reply is asked for before the board says that the server is away, and between two looks at a socket
# whose chip begins by itself.
PATIENCE, LOOK = 3.0, 1.0

# The ending of a chip of another kind, which has no name by which it could be known.
OTHER_KIND = "no_dump"

# The status of a program that was ended by hand at once.
INTERRUPTED = 130

# The status of a bench that doesn't start.
NOT_STARTED = 2

# How long the name on a badge may be.
LONGEST_NAME = 64

# What parts the words of a traveller's code.
APART = re.compile(r"[\s,;|/]+")


class Bench:
    """A recipe's sockets over one seat. `spool` is where requests for certificates are kept, of the profile's form."""

    def __init__(self, recipe: Recipe, station: Station, kept: BenchFiles, settings: Settings):
        self.recipe, self.kept, self._url = recipe, kept, settings.url
        self.spool, self.profile = settings.spool, settings.profile
        sockets = [_found_in(name, kept) for name in recipe.sockets]
        self._station, self._counting = station, threading.Lock()
        if self.operator():
            station.operated_by(self.operator())
        words = recipe.name, recipe.order, sockets, recipe.start, kept.shift(), life_steps(recipe)
        self.board = Board(*words, self.operator(), kept.last_chips(MOST_LAST))
        self.board.under_way(kept.under_way())
        self.leaving = threading.Event()
        self._turns = Turns(station, self.board, self.leaving)
        self.supply = Supply(self.ask, recipe.order, self.board.left, self.leaving)
        self.questions, self._scrapping = Questions(self.board), Scrapping(self)
        self._begin = {name: threading.Event() for name in recipe.sockets}
        self._seen = dict.fromkeys(recipe.sockets, "")
        self._order: Optional[Order] = None
        self._threads = [threading.Thread(target=self._serve, args=[name], daemon=True) for name in recipe.sockets]
        self._opening = threading.Thread(target=self._open, daemon=True)

    # What a life has of its bench.

    def operator(self) -> str:
        """Who works here; nothing where nobody is named whom the recipe lets."""
        name = self.kept.operator() or self._station.operator()
        return name if self.recipe.display.may_work(name) else ""

    def ask(self, call: Callable[[Station], Made]) -> Made:
        return self._turns.ask(call)

    def order(self) -> Order:
        """The recipe's order."""
        if not self._order:
            self._order = self.ask(lambda station: station.order(self.recipe.order))
        return self._order

    def import_map(self) -> None:
        self.ask(lambda station: station.import_map(self.recipe.map))
        self.kept.imported(self.recipe.digest(), self._url)

    def working(self, socket: str, step: str, chip: str, serial: str) -> None:
        self.board.working(socket, step, chip, serial)
        if chip:
            self.tell_begun()

    def tell_begun(self, ended: str = "") -> None:
        """Shows which chips were begun and are worked on in no socket now, but the one whose chip has ended."""
        sockets = [self.board.socket(name) for name in self.recipe.sockets if name != ended]
        worked_on = {it.chip for it in sockets if it.state == WORKING}
        self.board.under_way({chip: it for chip, it in self.kept.under_way().items() if chip not in worked_on})

    def identified(self, record: Identity) -> None:
        """The order's numbers are given in turn, so that a record says how many are left."""
        order = self.order()
        number = record.serial.removeprefix(order.prefix)
        if number.isdecimal():
            self.supply.given(max(0, order.first + order.quantity - 1 - int(number)))

    # A bench's day.

    def start(self) -> None:
        """Sends what is under way, has the map imported, and serves the sockets."""
        self._opening.start()

    def _open(self) -> None:
        self.clear()
        try:
            self._turns.finish()
            self.order()
            self.supply.look()
            if not self.kept.has_map(self.recipe.digest(), self._url):
                self.import_map()
        except Leaving:
            return
        except Exception as error:
            self._stop_by(ended_by(error, "start"))
        for thread in self._threads:
            thread.start()

    def close(self) -> None:
        """Ends the sockets. A chip that waits for the server stays under way; another one's step is waited for."""
        self.leaving.set()
        for event in self._begin.values():
            event.set()
        for thread in (self._opening, *self._threads):
            if thread.is_alive():
                thread.join()

    def _serve(self, name: str) -> None:
        """A socket's chips, one after another."""
        while not self.leaving.is_set():
            keys: dict[str, KeyFile] = {}
            life = Life(self, name, part_of(self.recipe.sockets[name], keys, self.recipe.family), keys)
            if not self._awaited(name, life):
                continue
            try:
                ended = life.run()
            except Leaving:
                return
            finally:
                life.forget_keys()
            self._seen[name] = life.chip
            self._begin[name].clear()  # a key that is pressed from here on is the next chip's
            self._record(name, life, ended)

    def _awaited(self, name: str, life: Life) -> bool:
        """Waits for a chip to begin: for a key or a traveller, or until one answers that wasn't there before."""
        if self.recipe.start != "chip":
            self._begin[name].wait()
            if self.board.is_stopped():
                self._begin[name].clear()
            return self._begin[name].is_set() and not self.leaving.is_set()
        if self.leaving.wait(LOOK) or self.board.is_stopped() or not self._may_begin():
            return False
        try:
            life.find()
        except Exception as error:
            self._not_found(name, life, ended_by(error, "read"))
            return False
        return life.chip != self._seen[name]

    def _not_found(self, name: str, life: Life, ended: Ended) -> None:
        """No chip answers that could be begun. One of another kind fails, once; where none is, it may come again."""
        if ended.ending.effect == STOP:
            self._stop_by(ended)
        if ended.ending.name != OTHER_KIND:
            is_empty = ended.ending.name == "no_chip"
            self.board.waiting(name, "" if is_empty else ended.ending.sentence(**ended.facts))
            self._seen[name] = ""
        elif self._seen[name] != OTHER_KIND:
            self._seen[name] = OTHER_KIND
            self._record(name, life, ended)

    def _record(self, name: str, life: Life, ended: Ended) -> None:
        """Keeps and shows how a chip ended. A disk that takes nothing more stops the line."""
        took = self.board.seconds(name)
        last = ended_socket(name, ended, life.step, life.chip, life.serial, self.recipe.order, took)
        told = {"socket": name, "chip": life.chip, "serial": life.serial, "step": life.step, "seconds": last.took}
        try:
            output = {"output": ended.facts["output"]} if ended.facts.get("output") else {}
            self.kept.log({**told, "result": last.reason, "sentence": last.sentence, **output})
            self._count(last, ended)
            self.clear()
        except Exception as error:
            ended = ended_by(error, life.step)
            last = ended_socket(name, ended, life.step, life.chip, life.serial, self.recipe.order)
        if ended.ending.effect == STOP:
            self.board.stop(last.sentence)
        self.tell_begun(name)
        self.board.ended(last)

    def _count(self, last: Socket, ended: Ended) -> None:
        """Counts a chip. One that may come again stays among those that were begun."""
        with self._counting:
            goes = ended.ending.is_gone() and not self.recipe.keep_folder
            shift = self.kept.ended(last, ended, goes)
            self.board.counted(shift)
            most = self.recipe.lost_in_a_row
            if ended.ending.counts() and len(shift.row) >= most:
                row = shift.row[-most:]
                self.board.stop(said("in_a_row", count=most, common=in_common(row)))

    def _stop_by(self, ended: Ended) -> None:
        self.board.stop(ended.ending.sentence(order=self.recipe.order, **ended.facts))

    # What a person does.

    def said(self, text: str) -> None:
        """What was scanned or typed: a badge, a traveller, a socket, a word of the bench, or nothing, which begins
        all."""
        text = text.strip()
        words = [it for it in APART.split(text) if it]
        is_badge = text.startswith(self.recipe.display.badge)
        if self.questions.said(words, is_badge or bool(words) and words[0] in OTHERS):
            return
        if is_badge:
            self._works(text.removeprefix(self.recipe.display.badge).strip())
        elif words[:1] == ["stop"]:
            self.board.stop(said("you_stopped"))
        elif words[:1] in (["scrap"], ["forget"]) and not self._may_begin():
            self.board.notice(said("badge_first"))
        elif words[:1] == ["scrap"]:
            self._scrapping.begin(words[1:])
        elif words == ["go"]:
            self.go_on()
        elif words == ["shift"]:
            asked = said("shift_asked", passed=self.kept.shift().passed)
            self.questions.ask_for(asked, self.new_shift, said("shift_left"))
        elif words[:1] == ["forget"] and len(words) == 2:
            self._forget(words[1])
        elif words in (["help"], ["?"]):
            self.board.notice(said("words"))
        else:
            self._begin_by(text, words)

    def _begin_by(self, text: str, words: list[str]) -> None:
        """Begins the sockets that are named, or all that wait, where a traveller or a key may begin them."""
        named, is_traveller = self._named(text, words), self.recipe.order in words
        is_key = self.recipe.start == "key" and (bool(named) or not words)
        if self.board.is_stopped():
            self.board.notice(said("stands"))
        elif not self._may_begin():
            self.board.notice(said("badge_first"))
        elif self.recipe.start == "chip":
            self.board.notice(said("by_itself"))
        elif is_traveller or is_key:
            self.board.notice("")
            for name in named or self.recipe.sockets:
                self._begin[name].set()
        elif self.recipe.start == "key":
            self.board.notice(f"{said('no_word', text=text)} {said('words')}")
        else:
            ended = Ended("bad_traveller", order=self.recipe.order)
            self.board.notice(ended.ending.sentence(**ended.facts) if words else said("scan_first"))

    def _named(self, text: str, words: list[str]) -> list[str]:
        """The sockets that a text names and nothing else, or those that a traveller of this order names beside it."""
        names = list(self.recipe.sockets)
        if text in names:
            return [text]
        if text.isdecimal() and 1 <= int(text) <= len(names):
            return [names[int(text) - 1]]
        found = [it for it in names if it in words]
        return found if self.recipe.order in words or len(found) == len(words) else []

    def _may_begin(self) -> bool:
        """Whether somebody works here whose name the recipe asks for."""
        return self.recipe.display.may_work(self.operator())

    def pressed(self, name: str) -> None:
        """A socket's own button."""
        self._begin_by(name, [name])

    def _works(self, operator: str) -> None:
        """A badge was scanned: who works here stands in the journal from now on."""
        if not operator.isprintable() or not 0 < len(operator) <= LONGEST_NAME:
            self.board.notice(said("no_name", badge=self.recipe.display.badge))
            return
        if not self.recipe.display.may_work(operator):
            self.board.notice(said("not_listed", name=operator))
            return
        with self._on_disk():
            self.kept.log({"operator": operator})
            self.kept.operated_by(operator)
            self._station.operated_by(operator)
            self.board.works(operator)
            self.board.notice(said("named", name=operator))

    def go_on(self) -> None:
        """A person looked, and has the line go on; the failed ones in a row are counted anew."""
        with self._counting:
            shift = replace(self.kept.shift(), row=())
            with self._on_disk():
                self.kept.counted(shift)
                self.board.counted(shift)
                self.board.go_on()

    def new_shift(self) -> None:
        with self._counting, self._on_disk():
            shift, last = ShiftCounts(now_text()), self.kept.shift()
            counts = {"passed": last.passed, "first": last.first, "failed": dict(last.failed)}
            self.kept.log({"shift": shift.since, "ended": {"since": last.since, **counts}})
            self.kept.counted(shift)
            self.board.counted(shift)
            self.board.notice(said("shift_new"))

    def clear(self) -> None:
        """Removes the folders of chips that are done with. Where that fails it is told, and tried again."""
        try:
            self.kept.clear()
        except OSError as error:
            self.tell(f"The folder of a chip that is done with can't be removed. {sentence_of(error)}")

    def _forget(self, chip: str) -> None:
        """A chip that was begun won't come again. One that awaits its label is shipped."""
        with self._on_disk():
            is_shipped = self.kept.under_way().get(chip, {}).get("step") == "label"
            is_there = self.kept.forget(chip, is_shipped and not self.recipe.keep_folder)
            self.clear()
            self.tell_begun()
            self.board.notice(said("forgot" if is_there else "not_begun", chip=chip))

    def tell(self, text: str) -> None:
        """What the seat tells, as of a late copy."""
        self.board.notice(text)
        with self._on_disk():
            self.kept.log({"told": text})

    @contextlib.contextmanager
    def _on_disk(self) -> Iterator[None]:
        try:
            yield
        except OSError as error:
            ended = ended_by(error, "")
            self.board.notice(ended.ending.sentence(**ended.facts))


def _found_in(name: str, kept: BenchFiles) -> Socket:
    """What a socket shows at a start. Nobody knows what is in it by now, so none is green before it is read."""
    begun = [chip for chip, it in kept.under_way().items() if it["socket"] == name]
    if begun:
        return begun_socket(name, begun[-1])
    last = kept.last().get(name, Socket(name))
    is_green = last.state == PASSED
    return last.emptied(said("shipped_here", chip=last.chip, serial=last.serial) if is_green else "")


# The command.


def add_bench_words(parser: argparse.ArgumentParser) -> None:
    parser.add_argument("recipe", type=Path, metavar="RECIPE", help="the recipe's file")
    parser.add_argument("--port", type=int, help="the page's port on this machine, in place of the recipe's; 0 is any")
    parser.add_argument("--no-page", action="store_true", help="show no page, but the terminal alone")
    said = "remove the folders of shipped and scrapped chips that an earlier version left, or keep_folder, and end"
    parser.add_argument("--clear-folders", action="store_true", help=said)


def settings_for(recipe: Recipe, settings: Settings, arguments: Mapping[str, object]) -> Settings:
    """The settings of a bench: those of the recipe win over the configuration's, and the command line's over both."""
    own = {name: it for name, it in recipe.server.items() if arguments.get(name) is None}
    found = changed(settings, own, recipe.file.parent, f"[server] of {recipe.file}")
    if found.state is None:
        raise BadSettings("no state file is named", 'Have a line state = "a1.json" in [server] of the recipe.')
    paths = {name: it.absolute() for name, it in vars(found).items() if isinstance(it, Path)}
    return replace(found, **paths)


def main(settings: Settings, arguments: argparse.Namespace) -> int:
    """Runs a bench until it is ended by Ctrl-C or SIGTERM. What was begun is brought to its next step, and goes on at
    the next start."""
    recipe = recipe_of(arguments.recipe)
    settings = settings_for(recipe, settings, vars(arguments))
    take(recipe.display.words)
    resource.setrlimit(resource.RLIMIT_CORE, (0, 0))  # neither this program nor espefuse leaves its memory in a file
    os.chdir(recipe.file.parent)  # from where the commands of sockets and hooks count
    print("Looking at the recipe and at each socket's command: this takes some seconds.", flush=True)
    faults = recipe_faults(recipe, settings.spool)
    if faults:
        warn(*(f"{recipe.file}: {fault}." for fault in faults), "No chip was begun: mend this, and start again.")
        return NOT_STARTED
    port = recipe.page if arguments.port is None else arguments.port
    has_page = not arguments.no_page and (arguments.port is not None or recipe.page > 0)
    with contextlib.ExitStack() as stack:
        kept = stack.enter_context(contextlib.closing(BenchFiles(recipe.folder or Path(f"{settings.state}.bench"))))
        if arguments.clear_folders:
            return clear_old(kept, stack.enter_context(looking_station_of(settings)))
        tell: list[Callable[[str], None]] = []
        patient = replace(settings, patience=min(settings.patience, PATIENCE))
        is_plain = not any(it.printed for it in recipe.wishes)  # else a key that has no file has none in the state
        station = stack.enter_context(station_of(patient, tell=lambda text: tell[0](text), keeps_words=is_plain))
        bench = Bench(recipe, station, kept, settings)
        tell.append(bench.tell)
        page = Page(bench, port) if has_page else None
        ending = _ended_by_signals()
        shown: list[Page | Screen] = [*([page] if page else []), Screen(bench, page.url if page else "")]
        for it in shown:
            it.start()
            stack.callback(it.close)
        stack.callback(bench.close)
        bench.start()
        ending.wait()
    return 0


def _ended_by_signals() -> threading.Event:
    """What Ctrl-C and SIGTERM set; the second one ends the program at once, as a power cut would."""
    ending = threading.Event()

    def end(*_: object) -> None:
        if ending.is_set():
            os._exit(INTERRUPTED)
        ending.set()

    for number in (signal.SIGINT, signal.SIGTERM):
        signal.signal(number, end)
    return ending
