"""What a bench asks a person, one question at a time: `yes` does it, and anything else doesn't."""

import threading
from typing import Callable, Optional, Sequence

from wanekupo.bench.board import Board

YES, NO = "yes", "no"

# What takes the words of an answer: none where the question was passed over.
Taker = Callable[[Sequence[str]], None]


class Questions:
    """The question that stands on a board, if one does."""

    def __init__(self, board: Board):
        self._board, self._turn = board, threading.Lock()
        self._taker: Optional[Taker] = None

    def ask(self, text: str, taker: Taker, answers: Sequence[str] = (YES, NO)) -> None:
        with self._turn:
            self._taker = taker
            self._board.ask(text, answers)

    def ask_for(self, text: str, call: Callable[[], None], left: str) -> None:
        """Asks whether something is to be done. `left` is said where it isn't."""

        def take(words: Sequence[str]) -> None:
            call() if [it.lower() for it in words] == [YES] else self._board.notice(left)

        self.ask(text, take)

    def stands(self) -> bool:
        return self._taker is not None

    def said(self, words: Sequence[str], is_other: bool) -> bool:
        """Takes the words as the answer, if a question stands; whether nobody else has to. Another word of the bench
        passes it over, and does its own work."""
        with self._turn:
            taker, self._taker = self._taker, None
            if taker:
                self._board.ask("", [])
        if taker:
            taker([] if is_other else words)
        return bool(taker) and not is_other
