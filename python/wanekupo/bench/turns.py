"""One seat for several sockets: each request until its reply comes, those of one socket after those of another.

A server that is away ends no chip. The request stays under way and is sent again, and the board says so meanwhile.
"""

import threading
from typing import Callable, TypeVar

from wanekupo.bench.board import Board
from wanekupo.common.errors import NoReply, NotTheServer, Refused, UnderWay
from wanekupo.seat.station import OTHER_BODY, Station
from wanekupo.bench.words import said

Made = TypeVar("Made")

# What a proxy answers where the server behind it gives no reply.
BEHIND = (502, 504)

# How many seconds pass between two tries, beside the station's own patience.
PAUSE = 1.0


class Leaving(Exception):
    """The bench is to end while a chip is under way, which goes on at the next start."""


class Turns:
    """Calls of a station, one at a time. `leaving` says that the bench is to end."""

    def __init__(self, station: Station, board: Board, leaving: threading.Event):
        self._station, self._board, self._leaving = station, board, leaving
        self._turn = threading.Lock()

    def ask(self, call: Callable[[Station], Made]) -> Made:
        """What a call gives. While no reply comes, nobody else's request is sent: this one is under way."""
        with self._turn:
            while not self._leaving.is_set():
                try:
                    made = call(self._station)
                except UnderWay:
                    self._finish_other()
                except (NoReply, NotTheServer) as fault:
                    self._wait(fault)
                else:
                    self._board.there()
                    return made
        raise Leaving

    def finish(self) -> None:
        """Sends what an earlier start left under way."""
        self.ask(_finish)

    def _finish_other(self) -> None:
        """Sends what another chip left under way."""
        try:
            _finish(self._station)
        except (NoReply, NotTheServer) as fault:
            self._wait(fault)

    def _wait(self, fault: Exception) -> None:
        told = "other_reply" if isinstance(fault, NotTheServer) else "no_reply"
        is_proxy = isinstance(fault, NotTheServer) and fault.status in BEHIND
        self._board.away(said("proxy_reply" if is_proxy else told))
        self._leaving.wait(PAUSE)


def _finish(station: Station) -> None:
    """Sends what is under way. Its own refusal is no other chip's: its device says what became of it."""
    try:
        station.finish()
    except Refused as refused:
        if refused.no <= OTHER_BODY:
            raise
