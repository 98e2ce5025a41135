"""The bench's word `scrap`: a person gives up a chip of the red box, by its name, behind a question.

The server forgets why a device was quarantined once it is scrapped. So the line of the request in the seat's journal
has that reason, or the ending by which this bench put the chip aside.
"""

import re
import threading
from typing import Callable, Optional, Protocol, Sequence, TypeVar

from wanekupo.bench.board import WORKING, Board
from wanekupo.bench.endings import STOP, ended_by
from wanekupo.bench.bench_files import BenchFiles
from wanekupo.bench.questions import NO, Questions
from wanekupo.bench.recipe import Recipe
from wanekupo.seat.replies import Device
from wanekupo.common.sentences import sentence_of
from wanekupo.seat.station import Station
from wanekupo.bench.turns import Leaving
from wanekupo.bench.words import reason_said, said, state_said

Made = TypeVar("Made")

# The reason where neither the server nor this bench has one.
UNKNOWN = "unknown"


class ScrapBench(Protocol):
    """What scrapping has of its bench."""

    recipe: Recipe
    kept: BenchFiles
    board: Board
    questions: Questions

    def ask(self, call: Callable[[Station], Made]) -> Made: ...

    def tell_begun(self, ended: str = "") -> None: ...

    def clear(self) -> None: ...


def chip_named(text: str) -> Optional[str]:
    """The chip that a scanned or typed text names, also with the colons of a MAC."""
    found = re.sub("[:.-]", "", text).lower()
    return found if re.fullmatch("[0-9a-f]{12}", found) else None


class Scrapping:
    """One chip at a time: its name, a question, and an answer."""

    def __init__(self, line: ScrapBench):
        self._line, self._looked_at = line, ""

    def begin(self, words: Sequence[str]) -> None:
        """The word `scrap`, with the chip's name behind it, or without."""
        self._looked_at = ""
        if words:
            self._name(words)
        else:
            self._line.questions.ask(said("scrap_name"), self._name, [NO])

    def _name(self, words: Sequence[str]) -> None:
        """A chip is named, also among other words of a label: what is known of it is asked for."""
        chips = {it for it in map(chip_named, words) if it}
        if len(chips) == 1:
            self._looked_at = chips.pop()
            self._begin(self._look, self._looked_at)
        elif list(words) in ([], [NO]):
            self._line.board.notice(said("scrap_none"))
        else:
            self._line.board.notice(f"{said('no_chip_name', text=' '.join(words))} {said('scrap_none')}")

    def _begin(self, call: Callable[..., None], *words: str) -> None:
        """A call beside the keyboard, as the server may be away. What goes wrong is told; the line may have to stop."""

        def run() -> None:
            try:
                call(*words)
            except Leaving:
                return
            except Exception as error:
                ended = ended_by(error, "scrap")
                if ended.ending.effect == STOP:
                    self._line.board.stop(ended.ending.sentence(order=self._line.recipe.order, **ended.facts))
                self._line.board.notice(said("scrap_wrong", chip=words[0], why=sentence_of(error)))

        threading.Thread(target=run, daemon=True).start()

    def _look(self, chip: str) -> None:
        """Asks whether the chip is to be scrapped, with what is known of it; or says why it can't be."""
        device = self._line.ask(lambda station: station.find_device(chip))
        refused = self._why_not(chip, device)
        if refused or not device:
            self._line.board.notice(f"{refused}. {said('scrap_none')}")
            return
        last = self._line.kept.last_word(chip)
        if self._looked_at != chip or self._line.questions.stands():
            return  # another word came meanwhile
        facts = {
            "lost": said("scrap_lost", reason=reason_said(device.reason)) if device.reason else "",
            "used": said("scrap_used", serial=device.serial) if device.serial else "",
            "said": said("scrap_said", sentence=last[1]) if last else "",
        }
        reason = device.reason or (last[0] if last else UNKNOWN)
        asked = said("scrap_asked", chip=chip, state=state_said(device.state), **facts)
        do = lambda: self._begin(self._scrap, chip, reason)
        self._line.questions.ask_for(asked, do, said("scrap_left", chip=chip))

    def _why_not(self, chip: str, device: Optional[Device]) -> str:
        """Why a chip can't be scrapped here, or nothing."""
        order = self._line.recipe.order
        if not device:
            return said("no_chip_known", chip=chip)
        if device.order != order:
            return said("of_other_order", chip=chip, other=device.order, order=order)
        if device.state == "shipped":
            return said("shipped_before", chip=chip, serial=device.serial)
        return said("scrapped_before", chip=chip) if device.state == "scrapped" else self._where(chip)

    def _where(self, chip: str) -> str:
        """Says that a chip is worked on in a socket, if one is."""
        sockets = [self._line.board.socket(name) for name in self._line.recipe.sockets]
        working = [it.name for it in sockets if (it.state, it.chip) == (WORKING, chip)]
        return said("worked_on", chip=chip, socket=working[0]) if working else ""

    def _scrap(self, chip: str, reason: str) -> None:
        worked_on = self._where(chip)
        if worked_on:
            self._line.board.notice(f"{worked_on}. {said('scrap_none')}")
            return
        self._line.ask(lambda station: station.scrap(chip, reason))
        told = said("scrap_done", chip=chip, reason=reason_said(reason))
        try:
            self._line.kept.log({"scrapped": chip, "reason": reason})
            self._line.kept.forget(chip, not self._line.recipe.keep_folder)
            self._line.clear()
        except OSError as error:
            told += said("scrap_unkept", why=sentence_of(error))
        self._line.board.scrapped(chip)
        self._line.tell_begun()
        self._line.board.notice(told)
