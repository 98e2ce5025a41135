"""A recipe: what a bench has to know of one product, as a file of TOML.

`tomllib` of Python 3.11 reads it. A name that isn't known is refused: a misspelt wish would leave a fuse unburnt. Its
paths and commands count from the recipe's own folder.
"""

import hashlib
import re
import tomllib
from dataclasses import dataclass, field
from pathlib import Path
from typing import Any, Callable, Mapping, Optional, Sequence, Union

from wanekupo.chips.chip import bit, rlock, value, wlock
from wanekupo.common.errors import StationError
from wanekupo.chips.families import map_of_family, names
from wanekupo.bench.words import FOLDER as WORDS
from wanekupo.bench.words import TYPED

NAME = re.compile(r"[A-Za-z0-9._-]{1,32}")
HOOKS = ("before_register", "before_identity", "before_ship", "label")
STARTS = ("key", "scan", "chip")
LONGEST_HOOK = 60.0

# Names of the recipe, and of each of its tables.
TOP = ("name", "order", "map", "family", "start", "page", "folder", "keep_folder")
TABLES = ("server", "wish", "sockets", "hooks", "stop", "screen")
WISHES = {
    "bit": ("index",),
    "value": ("value",),
    "key": ("file", "command", "key", "timeout", "burnt_as"),
    "wlock": (),
    "rlock": (),
}


class BadRecipe(StationError):
    """A recipe lacks something, or has what can't be used."""

    advice = "Mend the recipe: man wanekupo-recipe has its form."


@dataclass(frozen=True)
class RecipeCommand:
    """A command of the recipe's, and how many seconds it may take."""

    name: str
    words: tuple[str, ...]
    timeout: float


@dataclass(frozen=True)
class Wish:
    """A wish in the server's words. A key has a file, or a command that makes one for each chip, or that prints it."""

    kind: str
    field: str
    index: int = 0
    value: str = ""
    file: Optional[Path] = None
    command: Optional[RecipeCommand] = None
    printed: Optional[RecipeCommand] = None
    burnt_as: str = ""

    def asked(self) -> dict[str, Any]:
        """As the server is asked; a key's is made of its file."""
        if self.kind == "bit":
            return bit(self.field, self.index)
        if self.kind == "value":
            return value(self.field, self.value)
        return (wlock if self.kind == "wlock" else rlock)(self.field)


@dataclass(frozen=True)
class Display:
    """What the operator sees and hears: `words` is the file with the words, `inches` the diagonal of the screen, 0
    where it has 96 pixels an inch, and `badge` how a scan begins that names who works there. `operators` are the names
    that may be there, or the form of each; without them any may, and nobody has to."""

    words: Path = WORDS / "en.toml"
    inches: float = 0
    sound: bool = True
    badge: str = "operator:"
    operators: Union[tuple[str, ...], re.Pattern[str]] = ()

    def may_work(self, name: str) -> bool:
        """Whether somebody of this name may work here; `name` is empty where nobody said one."""
        if isinstance(self.operators, re.Pattern):
            return bool(name and self.operators.fullmatch(name))
        return not self.operators or name in self.operators


@dataclass(frozen=True)
class Recipe:
    """`start` is what begins a chip: a `key`, a `scan` of its traveller, or the `chip` itself once it answers. `page`
    is the port of the page on this machine, 0 for none; `server` are settings that win over the configuration's. With
    `keep_folder` the files of a chip stay behind its last hook."""

    file: Path
    name: str
    order: str
    map: str
    family: str
    sockets: Mapping[str, tuple[str, ...]]
    wishes: tuple[Wish, ...] = ()
    hooks: Mapping[str, RecipeCommand] = field(default_factory=dict)
    server: Mapping[str, Any] = field(default_factory=dict)
    lost_in_a_row: int = 3
    start: str = "key"
    page: int = 8091
    folder: Optional[Path] = None
    keep_folder: bool = False
    display: Display = Display()
    map_file: Path = Path()

    def digest(self) -> str:
        """What the server knows the map by."""
        return hashlib.sha256(self.map.encode()).hexdigest()


def recipe_of(file: Path) -> Recipe:
    """The recipe in a file."""
    try:
        table = tomllib.loads(file.read_text(encoding="utf-8"))
    except FileNotFoundError:
        raise BadRecipe(f"there is no recipe {file}", "Look at its name.") from None
    except ValueError as error:
        raise BadRecipe(f"{file} is no TOML: {error}", "Mend that line.") from error
    try:
        return _recipe(file.absolute(), table)
    except ValueError as error:
        raise BadRecipe(f"{file}: {error}") from error


def _recipe(file: Path, table: Mapping[str, Any]) -> Recipe:
    _known(table, TOP + TABLES, "the recipe")
    here = file.parent
    map_file = _map(_text(table, "map", "the recipe"), file)
    stop = _table(table, "stop")
    _known(stop, ("lost_in_a_row",), "[stop]")
    hooks = {name: _command(name, it, here, LONGEST_HOOK) for name, it in _table(table, "hooks").items()}
    _known(hooks, HOOKS, "[hooks]")
    if "before_identity" not in hooks:
        raise ValueError("[hooks] has no before_identity, which makes each chip's key pair")
    return Recipe(
        file,
        _text(table, "name", "the recipe"),
        _name(table, "order", "the recipe"),
        map_file.read_text(encoding="utf-8"),
        _one_of(table.get("family"), names(), "family"),
        _sockets(_table(table, "sockets"), here),
        tuple(_wish(it, f"wish {place}", here) for place, it in enumerate(_tables(table, "wish"), 1)),
        hooks,
        _table(table, "server"),
        _whole(stop, "lost_in_a_row", 3, 1),
        _one_of(table.get("start", "key"), STARTS, "start"),
        _whole(table, "page", 8091, 0),
        here / _text(table, "folder", "the recipe") if "folder" in table else None,
        _truth(table, "keep_folder"),
        _display(_table(table, "screen"), here, [str(table["order"]), *_table(table, "sockets")]),
        map_file,
    )


# What a part of a recipe may be.


def _known(table: Mapping[str, Any], names: Sequence[str], where: str) -> None:
    for name in table:
        if name not in names:
            raise ValueError(f"{where} has {name!r}, and knows {', '.join(names)}")


def _table(table: Mapping[str, Any], name: str) -> Mapping[str, Any]:
    found = table.get(name, {})
    if not isinstance(found, dict):
        raise ValueError(f"{name} is no table, as [{name}]")
    return found


def _tables(table: Mapping[str, Any], name: str) -> list[Mapping[str, Any]]:
    found = table.get(name, [])
    if not isinstance(found, list) or not all(isinstance(it, dict) for it in found):
        raise ValueError(f"{name} is no list of tables, as [[{name}]]")
    return found


def _text(table: Mapping[str, Any], name: str, where: str) -> str:
    found = table.get(name)
    if not isinstance(found, str) or not found or not found.isprintable():
        raise ValueError(f"{where} has no {name}, which is a text in one line")
    return found


def _name(table: Mapping[str, Any], name: str, where: str) -> str:
    found = _text(table, name, where)
    if not NAME.fullmatch(found):
        raise ValueError(f"{where} has the {name} {found!r}, which is no name of 1 to 32 of A-Z a-z 0-9 . _ -")
    return found


def _whole(table: Mapping[str, Any], name: str, otherwise: int, least: int) -> int:
    found = table.get(name, otherwise)
    if type(found) is not int or found < least:
        raise ValueError(f"{name} is no whole number from {least} on")
    return found


def _truth(table: Mapping[str, Any], name: str) -> bool:
    found = table.get(name, False)
    if not isinstance(found, bool):
        raise ValueError(f"{name} is {found!r}, and may be true or false")
    return found


def _one_of(found: Any, names: Sequence[str], what: str) -> str:
    if found not in names:
        raise ValueError(f"{what} is {found!r}, and may be {', '.join(names)}")
    return str(found)


def _words(found: Any, where: str, here: Path) -> tuple[str, ...]:
    """The words of a command, of which the first may be a path from the recipe's folder."""
    if not isinstance(found, list) or not found or not all(isinstance(it, str) and it for it in found):
        raise ValueError(f'{where} is no command, as ["espefuse", "--port", "/dev/ttyUSB0"]')
    first = str(here / found[0]) if "/" in found[0] else found[0]
    return (first, *found[1:])


def _command(name: str, table: Any, here: Path, longest: float) -> RecipeCommand:
    if not isinstance(table, dict):
        raise ValueError(f"the hook {name} is no table, as {{ command = [..], timeout = 20 }}")
    _known(table, ("command", "timeout"), f"the hook {name}")
    return RecipeCommand(name, _words(table.get("command"), f"the hook {name}", here), _seconds(table, longest, name))


def _seconds(table: Mapping[str, Any], longest: float, where: str) -> float:
    found = table.get("timeout", longest)
    if isinstance(found, bool) or not isinstance(found, (int, float)) or not 0 < found <= 3600:
        raise ValueError(f"the timeout of {where} is no number of seconds up to 3600")
    return float(found)


def _sockets(table: Mapping[str, Any], here: Path) -> dict[str, tuple[str, ...]]:
    if not table:
        raise ValueError("[sockets] has no socket")
    for name in table:
        if not name or len(name) > 32 or not name.isprintable():
            raise ValueError(f"[sockets] has the name {name!r}, which isn't 1 to 32 letters in one line")
    return {name: _words(words, f"the socket {name!r}", here) for name, words in table.items()}


def _map(name: str, recipe: Path) -> Path:
    """The file of a map: one beside the recipe, which is no map of its own, or a family's."""
    beside = recipe.parent / name
    found = beside if beside.is_file() and not beside.samefile(recipe) else map_of_family(name)
    if not found:
        raise ValueError(f"there is no map {name} in {recipe.parent}, and no family has one of this name")
    return found


def _display(table: Mapping[str, Any], here: Path, scanned: Sequence[str]) -> Display:
    """`scanned` is what a scan may begin with that is no badge."""
    _known(table, ("words", "inches", "sound", "badge", "operators"), "[screen]")
    usual = Display()
    name = _text({"words": usual.words.name, **table}, "words", "[screen]")
    words = next((it / name for it in (here, WORDS) if (it / name).is_file()), None)
    if not words:
        raise ValueError(f"there is no file of words {name} in {here} or {WORDS}")
    inches, sound = table.get("inches", usual.inches), table.get("sound", usual.sound)
    if isinstance(inches, bool) or not isinstance(inches, (int, float)) or not (inches == 0 or 4 <= inches <= 120):
        raise ValueError("inches of [screen] is no diagonal of 4 to 120, nor 0")
    if not isinstance(sound, bool):
        raise ValueError("sound of [screen] is neither true nor false")
    badge = _text({"badge": usual.badge, **table}, "badge", "[screen]").strip()
    taken = [it for it in (*scanned, *TYPED) if it.startswith(badge)]
    if taken:
        raise ValueError(f"the badge {badge!r} of [screen] begins as {taken[0]!r} does")
    return Display(words, float(inches), sound, badge, _operators(table.get("operators", [])))


def _operators(found: Any) -> Union[tuple[str, ...], re.Pattern[str]]:
    """The names of a list, or the form that a text has."""
    if isinstance(found, list) and all(isinstance(it, str) and it for it in found):
        return tuple(found)
    try:
        return re.compile(found)
    except (re.error, TypeError) as error:
        raise ValueError(f"operators of [screen] is no list of names, and no regular expression: {error}") from None


def _wish(table: Mapping[str, Any], where: str, here: Path) -> Wish:
    kind = _one_of(table.get("kind"), tuple(WISHES), f"the kind of {where}")
    _known(table, ("kind", "field", *WISHES[kind]), where)
    made: Callable[..., Wish] = lambda **more: Wish(kind, _name(table, "field", where), **more)
    if kind == "bit":
        return made(index=_whole({"index": None, **table}, "index", 0, 0))
    if kind == "value":
        digits = _text(table, "value", where)
        if not re.fullmatch("[0-9A-Fa-f]{1,64}", digits):
            raise ValueError(f"the value of {where} isn't 1 to 64 hexadecimal digits, the highest first")
        return made(value=digits)
    if kind != "key":
        return made()
    if sum(name in table for name in ("file", "command", "key")) != 1:
        raise ValueError(f"{where} has one of file, command and key, which is a table with a command that prints it")
    burnt_as = _text({"burnt_as": table.get("field"), **table}, "burnt_as", where)
    if "file" in table:
        return made(file=here / _text(table, "file", where), burnt_as=burnt_as)
    if "key" in table:
        return made(printed=_command(f"key of {table['field']}", table["key"], here, LONGEST_HOOK), burnt_as=burnt_as)
    timeout = _seconds(table, LONGEST_HOOK, where)
    words = _words(table["command"], f"the command of {where}", here)
    return made(command=RecipeCommand(f"key of {table['field']}", words, timeout), burnt_as=burnt_as)
