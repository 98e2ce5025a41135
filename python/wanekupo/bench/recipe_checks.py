"""What of a recipe can be looked at before the first chip: a fault that is found behind it is found behind a step that
nobody can undo.

Each fault is a part of a sentence for who wrote the recipe. No chip is asked for, and nothing is sent.
"""

import difflib
import os
import shutil
import stat
from pathlib import Path
from typing import Iterator, Optional

from wanekupo.chips.espefuse import EspefuseFailed, NoEspefuse, port_fault, version_of
from wanekupo.chips.families import Family, family_of, names
from wanekupo.bench.parts import NO_FUSES
from wanekupo.bench.recipe import Recipe, Wish
from wanekupo.chips.layout import Layout, wanted_of

# The versions of espefuse whose words are known, by their first number, and how long a key is.
KNOWN, KEY_LENGTH = ("4", "5"), 32

# Who may read or write a key's file beside its owner.
OTHERS = stat.S_IRWXG | stat.S_IRWXO


def recipe_faults(recipe: Recipe, spool: Optional[Path]) -> list[str]:
    """The faults of a recipe, of the files that it names, and of the folder for requests for certificates."""
    found = [*_map_faults(recipe), *_key_faults(recipe), *_command_faults(recipe), *_tool_faults(recipe)]
    if spool and not (spool.is_dir() and os.access(spool, os.W_OK | os.X_OK)):
        found.append(f"the folder spool, {spool}, isn't there, or can't be written")
    return found


# The map, and the wishes by it.


def _map_faults(recipe: Recipe) -> Iterator[str]:
    family = family_of(recipe.family)
    try:
        layout = Layout(recipe.map)
    except (ValueError, KeyError, TypeError, AttributeError):
        yield f"its map, {recipe.map_file}, is no fuse map: station-site check says why"
        return
    if layout.name != family.name and layout.name in names():
        yield f"its map is that of an {layout.name}, and its family is {family.name}"
        return
    words = [family.words[number] for number in family.told]
    if layout.blocks != words:
        yield f"its map has blocks of {layout.blocks} words, and the family {family.name} of {words}"
        return
    told = {place: _fault(layout, family, it) for place, it in enumerate(recipe.wishes, 1)}
    faults = [f"wish {place} {fault}" for place, fault in told.items() if fault]
    yield from faults or _contradictions(layout, recipe)


def _fault(layout: Layout, family: Family, wish: Wish) -> str:
    """What is wrong with a wish, or nothing."""
    field = layout.fields.get(wish.field)
    if not field:
        near = difflib.get_close_matches(wish.field, layout.fields, 1)
        return f"has the field {wish.field}, which the map hasn't" + (f"; it has {near[0]}" if near else "")
    if wish.kind in ("bit", "value") and field.key:
        return f"is a {wish.kind} of {field.name}, which takes a key"
    if wish.kind == "bit" and wish.index >= field.count:
        return f"has the index {wish.index}, and {field.name} goes from 0 to {field.count - 1}"
    if wish.kind == "value" and int(wish.value, 16) >> field.count:
        return f"has the value {wish.value}, and {field.name} has room for {field.count} bits"
    if wish.kind == "wlock" and not layout.write_lock(field.name):
        return f"is a write lock of {field.name}, which has none"
    if wish.kind == "rlock" and not layout.read_lock(field.name):
        return f"is a read lock of {field.name}, which has none"
    return _key_fault(layout, family, wish) if wish.kind == "key" else ""


def _key_fault(layout: Layout, family: Family, wish: Wish) -> str:
    """What is wrong with a wish for a key."""
    number = family.number_of(wish.field)
    if number not in family.told[1:] or not layout.fields[wish.field].key:
        return f"is a key of {wish.field}, which is no key block"
    fitting = [wish.field, *(it.name for it in family.purposes.values() if it.block in (None, number))]
    if wish.burnt_as not in fitting:
        return f"is burnt_as {wish.burnt_as}, and a key of {wish.field} may be {', '.join(fitting)}"
    purpose = family.purposes.get(wish.burnt_as)
    beside = [family.purpose_fields.get(wish.field) if purpose and purpose.number else None]
    beside.append(purpose.bit if purpose else None)
    lacks = [name for name in beside if name and name not in layout.fields]
    return f"needs the field {lacks[0]}, which the map hasn't" if lacks else ""


def _contradictions(layout: Layout, recipe: Recipe) -> Iterator[str]:
    wanted = wanted_of(layout, [it.asked() for it in recipe.wishes if it.kind != "key"])
    for name in sorted({layout.name_of(place) for place in wanted.ones & wanted.zeros}):
        yield f"its wishes want {name} both as 0 and as 1"


# Files and commands.


def _key_faults(recipe: Recipe) -> Iterator[str]:
    for file in sorted({it.file for it in recipe.wishes if it.file}):
        try:
            found = file.stat()
            with open(file, "rb"):
                pass
        except OSError as error:
            yield f"the key {file} can't be read ({error.strerror})"
            continue
        if not stat.S_ISREG(found.st_mode) or found.st_size != KEY_LENGTH:
            yield f"the key {file} is no file of {KEY_LENGTH} bytes"
        elif found.st_mode & OTHERS:
            yield f"others may read the key {file}: chmod 600 {file}"


def _command_faults(recipe: Recipe) -> Iterator[str]:
    own = [it.command or it.printed for it in recipe.wishes]
    for it in (*recipe.hooks.values(), *own):
        if it and not shutil.which(it.words[0]):
            yield f"the command {it.name} can't be run: {it.words[0]} isn't there, or lacks chmod +x"


def _tool_faults(recipe: Recipe) -> Iterator[str]:
    for name, words in recipe.sockets.items():
        if not shutil.which(words[0]):
            yield f"the command of the socket {name} can't be run: {words[0]} isn't there, or lacks chmod +x"
        elif recipe.family != NO_FUSES and (told := _version_fault(words)):
            yield f"the command of the socket {name} is no espefuse that is known: {told}"
        elif recipe.family != NO_FUSES and (told := port_fault(words)):
            yield f"the socket {name}: {told}"


def _version_fault(words: tuple[str, ...]) -> str:
    """Why a command can't be espefuse. One that says no version of itself is left to the first dump, which has it."""
    try:
        version = version_of(words)
    except NoEspefuse:
        return ""
    except EspefuseFailed as error:
        return str(error)
    return "" if version.partition(".")[0] in KNOWN else f"its version is {version}, and {' and '.join(KNOWN)} are"
