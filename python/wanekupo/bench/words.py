"""The operator's words, on the page and on the terminal: those of a file of the folder `words`, or of a plant's own.

A bench takes its file once, at its start, and all that is said from then on is in these words: an ending's sentence
too. A word that the file lacks stays English. A file is tried when it is taken: what a sentence has filled in is known
by then, so that none fails while a chip is in its socket.
"""

import string
import tomllib
from dataclasses import replace
from pathlib import Path
from typing import Any, Mapping

from wanekupo.bench.endings import ENDINGS, FACTS
from wanekupo.common.errors import StationError

FOLDER = Path(__file__).resolve().parent / "words"

# Tables of single texts. The one of endings has two texts each: what happened, and what the operator does.
TABLES = ("words", "boxes", "steps", "states", "reasons")

ENGLISH = tomllib.loads((FOLDER / "en.toml").read_text(encoding="utf-8"))
SAID: dict[str, dict[str, str]] = {table: dict(ENGLISH[table]) for table in TABLES}


# What is typed or scanned and is no traveller. The first of them pass a question over, and do their own work: a line
# can always be stopped.
OTHERS = ("stop", "go", "shift", "scrap", "forget", "help", "?")
TYPED = (*OTHERS, "yes", "no")


class BadWords(StationError):
    """A file of words has one that can't be said."""

    advice = "Mend that line, or take it away: what is missing is English."


def blanks_of(text: str) -> frozenset[str]:
    """The names that a text has filled in, with how each is written: as it is, or in quotes."""
    found = [(name, conversion or "", form) for _, name, form, conversion in string.Formatter().parse(text)]
    if any(form or how not in ("", "r") or name and not name.isidentifier() for name, how, form in found):
        raise ValueError("a name in braces is no plain one")
    return frozenset(name for name, _, _ in found if name is not None)


def read_words(file: Path) -> dict[str, Any]:
    """The tables of a file, of which each text can be said."""
    try:
        tables = tomllib.loads(file.read_text(encoding="utf-8"))
    except ValueError as error:
        raise BadWords(f"{file} is no TOML: {error}") from error
    other = [table for table, it in tables.items() if not isinstance(it, dict)]
    if other:
        raise BadWords(f"{file} has {other[0]}, which is no table, as [words]")
    for table in TABLES:
        _test(file, table, tables.get(table, {}), ENGLISH[table])
    endings = tables.get("endings", {})
    for place in (0, 1):
        texts = {name: it[place] if isinstance(it, list) and len(it) == 2 else None for name, it in endings.items()}
        _test(file, "endings", texts, dict.fromkeys(texts, " ".join(f"{{{name}}}" for name in FACTS)))
    return tables


def _test(file: Path, table: str, texts: Mapping[str, Any], english: Mapping[str, str]) -> None:
    for name, text in texts.items():
        where = f"{file} has in [{table}] the word {name}, which"
        if not isinstance(text, str) or not text.isprintable():
            raise BadWords(f"{where} is no text in one line" + (", or not two of them" if table == "endings" else ""))
        try:
            others = blanks_of(text) - blanks_of(english.get(name, text))
        except ValueError as error:
            raise BadWords(f"{where} can't be filled in: {error}") from error
        if others:
            raise BadWords(f"{where} has {', '.join(sorted(others))} in braces, and nothing to fill in there")


def take(file: Path) -> None:
    """Has all that is said from here on in the words of a file."""
    found = read_words(file)
    for table in TABLES:
        SAID[table].update(found.get(table, {}))
    for name, (told, todo) in found.get("endings", {}).items():
        if name in ENDINGS:
            ENDINGS[name] = replace(ENDINGS[name], told=told, todo=todo)


def said(word: str, **facts: Any) -> str:
    """A word, with what it has filled in."""
    return SAID["words"][word].format(**facts)


def step_said(step: str) -> str:
    """A step's name. What stands behind it, as a batch's number, stays."""
    begins = [it for it in SAID["steps"] if f"{step} ".startswith(f"{it} ")]
    own = max(begins, key=len, default="")
    return SAID["steps"].get(own, "") + step.removeprefix(own)


def reason_said(reason: str) -> str:
    """How the counts name an ending."""
    return SAID["reasons"].get(reason, reason.replace("_", " "))


def state_said(state: str) -> str:
    """The state of a device, as the server knows it."""
    return SAID["states"].get(state, state)
