"""The bench on a terminal: PASS and FAIL in large letters, and what is scanned or typed there.

A terminal is drawn anew at each change. Where the large letters of all sockets don't fit, each has a line. Where there
is no terminal, each change of a socket is a line.
"""

from __future__ import annotations

import os
import shutil
import sys
import textwrap
import threading
import time
from typing import TYPE_CHECKING, Any, Iterator, Mapping

from wanekupo.bench.board import FAILED, LABEL, PASSED, RESULTS, WORKING
from wanekupo.common.texts import shown
from wanekupo.bench.words import SAID, reason_said, said

if TYPE_CHECKING:
    from wanekupo.bench.bench import Bench

# The letters of the words, five rows each.
LETTERS = {
    "P": ("####", "#  #", "####", "#   ", "#   "),
    "A": (" ## ", "#  #", "####", "#  #", "#  #"),
    "S": ("####", "#   ", "####", "   #", "####"),
    "F": ("####", "#   ", "### ", "#   ", "#   "),
    "I": ("###", " # ", " # ", " # ", "###"),
    "L": ("#   ", "#   ", "#   ", "#   ", "####"),
    "B": ("### ", "#  #", "### ", "#  #", "### "),
    "E": ("####", "#   ", "### ", "#   ", "####"),
}

# White on green, on red and on violet, black on yellow and white on blue, on terminals that have colours.
COLOURS = {
    PASSED: "\x1b[1;97;42m",
    FAILED: "\x1b[1;97;41m",
    LABEL: "\x1b[1;97;45m",
    "STOPPED": "\x1b[1;30;43m",
    "AWAY": "\x1b[1;97;44m",
}
PLAIN = "\x1b[0m"

# What stands around the banners, so that they differ without their words and colours.
SIGNS = {"STOPPED": "#####", "AWAY": ". . ."}

# A terminal's first line is for typing, and isn't drawn again while somebody types: the cursor is kept, and the rest is
# cleared and drawn below.
FRESH, BELOW, BACK = "\x1b[H\x1b[2J> ", "\x1b7\x1b[2;1H\x1b[J", "\x1b8"

# How often what has no change of its own, as a step's seconds, is drawn again.
AGAIN = 1.0


def large(word: str) -> list[str]:
    """A word in large letters, a row a line; as it is where it has others."""
    word = word.split(" ")[0]
    if not set(word) <= set(LETTERS):
        return [word]
    return ["  ".join(LETTERS[letter][row] for letter in word) for row in range(5)]


def coloured(text: str, kind: str, has_colours: bool) -> str:
    return f"{COLOURS[kind]}{text}{PLAIN}" if has_colours else text


def facts_of(board: Mapping[str, Any], socket: Mapping[str, Any]) -> str:
    """A socket's chip, its step, and the seconds that it took or has taken."""
    is_working = socket["state"] == WORKING
    seconds = time.time() - socket["since"] if is_working else socket["took"]
    place = f" {socket['place']}/{board['steps']}" if socket["place"] else ""
    told = [said("chip_named", chip=socket["chip"])] if socket["chip"] else []
    told += [said("serial_named", serial=socket["serial"])] if socket["serial"] else []
    told += [f"{socket['step']}{place}"] if is_working else []
    return ", ".join(told + ([f"{max(0, int(seconds))} s"] if is_working or seconds else []))


def result_of(socket: Mapping[str, Any]) -> str:
    """What is said of a socket in one line: how its chip ended and where it goes, in brackets once it has gone."""
    state, box = socket["was"] or socket["state"], SAID["boxes"].get(socket["box"], "")
    word = f"{said(state)} {box}".strip() if state in RESULTS else box or said(state)
    return f"{said('waiting')} ({word})" if socket["was"] else word


def large_lines(board: Mapping[str, Any], socket: Mapping[str, Any], width: int, has_colours: bool) -> Iterator[str]:
    """A socket with large letters."""
    state = socket["state"]
    yield shown(f"[{socket['name']}] {facts_of(board, socket)}")
    if state not in RESULTS:
        yield shown(f"    {result_of(socket)}  {socket['sentence']}")
        return
    for line in large(said(state)):
        yield "    " + coloured(f" {line:22} ", state, has_colours)
    box = SAID["boxes"].get(socket["box"], "")
    for line in textwrap.wrap(shown(f"{box}. {socket['sentence']}"), max(20, width - 6)):
        yield f"    {line}"


def short_line(board: Mapping[str, Any], number: int, width: int, has_colours: bool) -> str:
    """A socket in one line."""
    socket = board["sockets"][number - 1]
    word = f"{number} {socket['name']:.9} {result_of(socket)}"
    line = shown(f"{word:28} {socket['sentence'] or facts_of(board, socket)}")[: width - 1]
    return coloured(line, socket["state"], has_colours) if socket["state"] in COLOURS else line


def banner_lines(kind: str, text: str, width: int, has_colours: bool) -> Iterator[str]:
    for line in textwrap.wrap(shown(f"{said(kind)} {SIGNS[kind]} {text}"), max(20, width - 8)):
        yield coloured(f"{SIGNS[kind]} {line:{max(20, width - 8)}}", kind, has_colours)


def asked_lines(board: Mapping[str, Any], width: int, has_colours: bool) -> Iterator[str]:
    """What a person has to know first: a question, what was said to the last word, and why nothing goes on."""
    if board["question"]:
        yield from textwrap.wrap(shown(f"{said('question')}: {board['question']['text']}"), width)
    yield from textwrap.wrap(shown(board["notice"]), width)
    if board["stopped"]:
        yield from banner_lines("STOPPED", f"{board['stopped']} {said('go_typed')}", width, has_colours)
    if board["away"]:
        since = time.strftime("%H:%M:%S", time.localtime(board["away"]["since"]))
        told = said("away_since", time=since, why=board["away"]["why"])
        yield from banner_lines("AWAY", told, width, has_colours)


def start_told(board: Mapping[str, Any]) -> str:
    """What is to be done for the next chip."""
    return said("stands" if board["stopped"] else board["start"])


def head_lines(board: Mapping[str, Any], width: int) -> Iterator[str]:
    """The order and the shift."""
    rest = said("left_unknown") if board["rest"] is None else said("left", count=board["rest"])
    who = said("operator", name=board["operator"]) if board["operator"] else said("nobody")
    yield shown(f"{board['product']}, {said('order', order=board['order'])}, {rest}")[:width]
    shift = board["shift"]
    failed = ", ".join(f"{reason_said(name)} {count}" for name, count in sorted(shift["failed"].items()))
    counts = f"{said('passed')} {shift['passed']}, {said('first')} {shift['first']}, {said('failed')}: {failed or 0}"
    yield from textwrap.wrap(shown(f"{who}. {said('this_shift')}: {counts}"), width)


def board_lines(board: Mapping[str, Any], width: int, height: int, has_colours: bool) -> list[str]:
    """What a terminal of this size shows of a board."""
    first = [*asked_lines(board, width, has_colours), *head_lines(board, width)]
    sockets = [line for it in board["sockets"] for line in large_lines(board, it, width, has_colours)]
    if len(first) + len(sockets) > height:
        places = range(1, len(board["sockets"]) + 1)
        sockets = [short_line(board, place, width, has_colours) for place in places]
    last = [
        shown(f"{said('begun')}: {said('chip_named', chip=it['chip'])}, {said('begun_where', **it)}")[:width]
        for it in board["under_way"]
    ]
    return [*first, *sockets, *textwrap.wrap(f"{start_told(board)} {said('help')}", width), *last][:height]


class Screen:
    """Draws the board until it is closed, and hands on what is typed."""

    def __init__(self, bench: Bench, url: str):
        self._bench, self._url = bench, url
        self._is_terminal = sys.stdout.isatty()
        self._has_colours = self._is_terminal and not os.environ.get("NO_COLOR")
        self._told: dict[str, Any] = {}
        self._rows = 0
        self._closed, self._is_fresh = threading.Event(), threading.Event()
        self._is_fresh.set()
        self._threads = [threading.Thread(target=call, daemon=True) for call in (self._draw, self._read)]

    def start(self) -> None:
        if self._url:
            print(f"page: {self._url}", flush=True)
        for thread in self._threads:
            thread.start()

    def close(self) -> None:
        """Leaves the board as it is, and the cursor below it: the shell goes on there."""
        self._closed.set()
        self._threads[0].join(2 * AGAIN)
        below = f"\x1b[{self._rows + 2};1H\x1b[J" if self._is_terminal else ""
        print(f"{below}The bench has ended. What was begun goes on at its next start.", flush=True)

    def _draw(self) -> None:
        version = -1
        while not self._closed.is_set():
            version = self._bench.board.changed_since(version, AGAIN)
            board = self._bench.board.shown()
            if self._is_terminal:
                self._draw_terminal(board)
            else:
                self._tell(board)

    def _draw_terminal(self, board: Mapping[str, Any]) -> None:
        size = shutil.get_terminal_size()
        head = [f"page: {self._url}"] if self._url else []
        lines = [*head, *board_lines(board, size.columns, size.lines - 2 - len(head), self._has_colours)]
        fresh = FRESH if self._is_fresh.is_set() else ""
        self._is_fresh.clear()
        self._rows = len(lines)
        print(fresh + BELOW + "\r\n".join(lines) + BACK, end="", flush=True)

    def _tell(self, board: Mapping[str, Any]) -> None:
        """Prints what changed, a line each."""
        now = {f"{it['name']}": f"{it['state']} {it['step']} {it['chip']} {it['sentence']}" for it in board["sockets"]}
        now["server"] = f"away, {board['away']['why']}" if board["away"] else "there"
        now["line"] = f"STOPPED: {board['stopped']}" if board["stopped"] else "goes on"
        now["bench"] = f"{start_told(board)} {said('help')}"
        now["notice"] = board["notice"]
        now["question"] = board["question"]["text"] if board["question"] else ""
        for name, told in now.items():
            if told and self._told.get(name) != told:
                print(shown(f"{name}: {told}"), flush=True)
        self._told = now

    def _read(self) -> None:
        """Takes a line of the keyboard, or of a scanner, after another; its end isn't the bench's."""
        for line in sys.stdin:
            self._is_fresh.set()
            self._bench.said(line)
        left = "by its page" if self._url else "alone"
        self._bench.board.notice(f"Nothing more can be typed here. The bench goes on {left}, until Ctrl-C ends it.")
