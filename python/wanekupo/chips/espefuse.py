"""espefuse's words: how it is found, which of its versions are known, and how a batch is burnt by one start of it.

A key never reaches a screen, a log or a command line. espefuse gets it in a file of the memory (`memfd_create`) that
has no name, since `burn_block_data` doesn't turn the bytes of a key around and wants a file that has them so. Of what
espefuse prints nothing is told but where it fails: its reason, and the whole for the log, both without what could be a
key, since `burn_block_data` prints it.
"""

import argparse
import contextlib
import hashlib
import os
import re
import shlex
import shutil
import subprocess
from dataclasses import dataclass, field
from pathlib import Path
from typing import Any, Iterator, Mapping, Optional, Protocol, Sequence

from wanekupo.common.errors import StationError
from wanekupo.common.process import run_command
from wanekupo.chips.families import VERSION, Blocks, Dump, Family, Told, bytes_of, dump_of, family_of, reversed_names
from wanekupo.chips.work import Work
from wanekupo.common.texts import shown, without_secrets

# The names of the program: Debian's and version 5's, and that of version 4 as Python's own packages have it.
TOOLS = ("espefuse", "espefuse.py")

# How long one start may take, in seconds.
LONGEST = 120

# What a person does where espefuse can't be run, or fails.
INSTALL = "Install Debian 13's package esptool"
LOOK = "Look at the chip, its socket and the cable."

# espefuse's option by which it asks nothing, and a command of a shell that turns the bytes of a file around.
UNASKED = "--do-not-confirm"
TURNED = "python3 -c 'import sys; sys.stdout.buffer.write(sys.stdin.buffer.read()[::-1])'"

# What could be a key: sixteen hexadecimal digits or more, in bytes, words or one, and bytes as Python writes them.
SECRET = re.compile(r"(?:0x)?(?:[0-9a-fA-F]{2}[ ,:]?){7,}[0-9a-fA-F]{2}|\bb(['\"])(?:\\.|[^\\\n])*?\1")

# How much of the end of what espefuse printed a log gets, and of its reason a screen.
KEPT_OUTPUT, SHOWN_REASON = 1 << 16, 120

# What espefuse says where it fails, of another family's chip (4.7; 5 has a comma) and of a port; and how the last line
# of a traceback or of a word that it doesn't know begins, which it prints where nothing catches the error.
FATAL = re.compile(r"^A fatal error occurred:\s*(.*)", re.MULTILINE)
OTHER_CHIP = re.compile(r"This chip is (ESP[\w()-]+),? not (?:an? )?(ESP[\w()-]+)")
CLOSED_PORT = re.compile(r"Could not open (\S+), the port is busy or doesn't exist")
CLASS = re.compile(r"^[\w.]+: (?=.)")

# An adapter's port, which stays where it is while no chip is in. Any other, as /dev/ttyACM0, may be a chip's own.
STAYING = re.compile(r"/dev/tty(?:USB|S)\d+|/dev/serial/.*-port\d+")


class NoEspefuse(StationError):
    """There is no espefuse, or none of a version that is known."""


class EspefuseFailed(StationError):
    """espefuse didn't do what it was asked. `output` is what it printed, without what could be a key."""

    output = ""


class OtherFamily(EspefuseFailed):
    """The chip in the socket is of another family."""


class NoPort(EspefuseFailed):
    """The port of a socket isn't there, or can't be opened."""


class ChangedUnasked(StationError):
    """A block that the server isn't told isn't any more what the chip showed at first."""


class NoKey(StationError):
    """No file has the key that a batch awaits, or it can't be burnt as it is."""


class Burner(Protocol):
    """What `Station.settle` asks of a chip."""

    def read(self) -> Blocks: ...

    def burn(self, work: Work) -> None: ...


@dataclass(frozen=True)
class KeyFile:
    """A file of 32 bytes, and what it is burnt as: a purpose of the chip's family, as `XTS_AES_128_KEY`, a name of
    `burn_key` of the ESP32, as `flash_encryption`, or its block."""

    path: str
    burnt_as: str

    def bytes_there(self) -> bytes:
        return Path(self.path).read_bytes()

    def data(self) -> bytes:
        data = self.bytes_there()
        if len(data) != 32:
            raise ValueError(f"{self.path} has {len(data)} bytes, and not 32")
        return data

    def is_reversed(self) -> bool:
        """Whether the bytes stand in the block in reverse order."""
        return self.burnt_as in reversed_names()

    def burnt(self) -> bytes:
        """The bytes as they stand in the block."""
        data = self.data()
        return data[::-1] if self.is_reversed() else data

    def digest(self) -> str:
        """The SHA-256 of the bytes as they stand in the block."""
        return hashlib.sha256(self.burnt()).hexdigest()


@dataclass(frozen=True)
class HeldKey(KeyFile):
    """The same of a key that is in memory alone; `path` names what gave it."""

    held: bytearray = field(default_factory=bytearray, repr=False)

    def bytes_there(self) -> bytes:
        return bytes(self.held)

    def forget(self) -> None:
        """The bytes are zeros, and then none: what asks for them later fails."""
        self.held[:] = bytes(len(self.held))
        self.held.clear()


def held_key(name: str, burnt_as: str, printed: bytes) -> HeldKey:
    """The key that a command printed: its 32 bytes, or their 64 hexadecimal digits in a line. No error has them."""
    if len(printed) == 32:
        return HeldKey(name, burnt_as, bytearray(printed))
    if not re.fullmatch(rb"[0-9A-Fa-f]{64}\r?\n?", printed):
        raise ValueError(f"the command {name} printed neither 32 bytes nor 64 hexadecimal digits")
    return HeldKey(name, burnt_as, bytearray.fromhex(printed.decode("ascii").strip()))


def wishes_of(family: Family, field: str, file: KeyFile) -> list[dict[str, Any]]:
    """The wishes that burn a key: the key itself, the number of its purpose where the family has one, and the bit that
    goes with that purpose."""
    wishes: list[dict[str, Any]] = [{"kind": "key", "field": field, "key_sha256": file.digest()}]
    purpose = family.purposes.get(file.burnt_as)
    place = family.purpose_fields.get(field)
    if place and purpose and purpose.number:
        wishes.append({"kind": "value", "field": place, "value": f"{purpose.number:x}"})
    if purpose and purpose.bit:
        wishes.append({"kind": "bit", "field": purpose.bit, "index": 0})
    return wishes


def find_tool() -> str:
    """The program: `espefuse`, or `espefuse.py`."""
    for name in TOOLS:
        if shutil.which(name):
            return name
    raise NoEspefuse("there is no espefuse here", f"{INSTALL}, or name its command.")


def version_of(tool: Sequence[str]) -> str:
    """The version that a command of espefuse says of itself. No chip is asked."""
    found = VERSION.search(_ran([*tool, "--help"]))
    if not found:
        raise NoEspefuse(f"{tool[0]} doesn't say which version of espefuse it is", f"{INSTALL}.")
    return found[1]


def _major(version: str) -> int:
    """The words of a version: those of 4 or of 5."""
    major = version.partition(".")[0]
    if major not in ("4", "5"):
        told = f"espefuse {version} isn't known here: 4 and 5 are" if version else "espefuse doesn't say its version"
        raise NoEspefuse(told, f"{INSTALL}, which has 4.7.0.")
    return int(major)


def _ran(words: Sequence[str], files: Sequence[int] = ()) -> str:
    """What espefuse prints. Nobody is asked anything, and no error has its output, in which a key may be."""
    try:
        done = run_command(words, LONGEST, handles=files)
    except subprocess.TimeoutExpired as late:
        said = b"".join(it if isinstance(it, bytes) else b"" for it in (late.stdout, late.stderr))
        failed = EspefuseFailed(f"espefuse took more than {LONGEST} seconds", LOOK)
        failed.output = _kept(said.decode(errors="replace"))
        raise failed from None
    except OSError as error:
        raise NoEspefuse(f"{words[0]} can't be run ({error.strerror})", f"{INSTALL}, or name its command.") from None
    if done.returncode:
        failed = _failed(done.stdout, done.stderr, done.returncode)
        failed.output = _kept(done.stdout + done.stderr)
        raise failed
    return done.stdout


def _kept(output: str) -> str:
    """The end of what espefuse printed, for a log."""
    return SECRET.sub("[a key]", without_secrets(output))[-KEPT_OUTPUT:]


def _failed(out: str, err: str, status: int) -> EspefuseFailed:
    """What failed, by the line in which espefuse says why, and what to do."""
    output = out + err
    if "Type 'BURN'" in output:
        return EspefuseFailed("espefuse asks whether it may burn", f"Add {UNASKED} to its command.")
    fatal, other, port = FATAL.search(output), OTHER_CHIP.search(output), CLOSED_PORT.search(output)
    if other:
        told = f"this chip is an {other[1]}, and not an {other[2]}"
        return OtherFamily(told, "Take it out, or name its family.")
    if port:
        return _no_port(port[1], output)
    lines = [fatal[1]] if fatal else [CLASS.sub("", it) for it in err.splitlines() if it.strip()]
    if not lines:
        told = f"espefuse ended with status {status}, and didn't say why"
        return EspefuseFailed(told, "Run its command with dump by hand.")
    reason = SECRET.sub("..", without_secrets(lines[-1])).strip().rstrip(".")[:SHOWN_REASON]
    return EspefuseFailed(f"espefuse says: {reason}", LOOK)


def _no_port(port: str, output: str) -> EspefuseFailed:
    """What is told of a port that espefuse couldn't open. A chip's own isn't there where the chip isn't."""
    if not os.path.exists(port):
        kind = NoPort if STAYING.fullmatch(port) else EspefuseFailed
        return kind(f"the port {port} isn't there", "Look at the cable, and at the name: ls -l /dev/serial/by-path.")
    if "Permission denied" in output:
        return NoPort(f"this user may not open the port {port}", "Put the user into the group dialout.")
    return NoPort(f"another program has the port {port}, or it fails", "End that program, and look at the cable.")


def port_fault(tool: Sequence[str]) -> str:
    """What is wrong with the port that a command names, or nothing. A chip's own isn't there before the chip."""
    options = argparse.ArgumentParser(add_help=False, allow_abbrev=False)
    options.add_argument("--port", "-p", nargs="?", const="", default="")
    port = options.parse_known_args(tool[1:])[0].port
    if not os.path.exists(port):
        return f"there is no port {port}: plug it in, or mend its name" if STAYING.fullmatch(port) else ""
    may_not = f"this user may not open the port {port}: adduser USER dialout as root, and log in anew"
    return "" if os.access(port, os.R_OK | os.W_OK) else may_not


@dataclass(frozen=True)
class EspefuseCommand:
    """A command of espefuse, and the key that it is given behind its words, with the file that has it."""

    words: tuple[str, ...]
    key: Optional[bytes] = None
    file: Optional[KeyFile] = None


@contextlib.contextmanager
def _in_memory(contents: Sequence[bytes]) -> Iterator[list[int]]:
    """Files that have no name, which go when they are closed."""
    with contextlib.ExitStack() as stack:
        files = []
        for content in contents:
            file = os.memfd_create("wanekupo")
            stack.callback(os.close, file)
            os.write(file, content)
            files.append(file)
        yield files


def burn_commands(work: Work, shown_by: Dump, keys: Mapping[str, KeyFile]) -> list[EspefuseCommand]:
    """The commands that burn what of a batch a chip doesn't show yet, keys first and block 0 last."""
    family = shown_by.family
    found = [_key_step(shown_by, field, digest, keys.get(field)) for field, digest in work.keys.items()]
    steps = [it for it in found if it]
    for block in sorted({it.block for it in work.bits}, reverse=True):
        number = family.told[block]
        if number and family.burns != "burn_key":
            raise EspefuseFailed(f"{family.blocks[number]} takes a whole key, and no single bits", "Plan a key.")
        bits = [
            32 * it.word + place
            for it in work.bits
            if it.block == block
            for place in range(32)
            if (it.mask & ~int(shown_by.words[number][it.word], 16)) >> place & 1
        ]
        if bits:
            steps.append(EspefuseCommand(("burn_bit", f"BLOCK{number}", *map(str, bits))))
    return steps


def _key_step(shown_by: Dump, field: str, digest: str, file: Optional[KeyFile]) -> Optional[EspefuseCommand]:
    """The command that burns a key, or None where there is nothing to burn: the block has it, or it has other bits, of
    which the server's verdict is `key`."""
    if file is None or file.digest() != digest:
        raise NoKey(f"no file has the key that {field} awaits", "Give the file that was planned.")
    family = shown_by.family
    number = _block_of(family, field, file)
    key, there = file.burnt(), bytes_of(shown_by.words[number])
    if there == key or any(has & ~wants for has, wants in zip(there, key)):
        return None
    if family.burns == "burn_key":
        # Never without --no-protect-key: the locks come in the second batch, and burnt now they are `stray`.
        return EspefuseCommand(("burn_key", "--no-protect-key", file.burnt_as), file.data(), file)
    # A part of the key: the power failed meanwhile. Where it is forced, espefuse burns the same code word again.
    force = ("--force-write-always",) if any(there) else ()
    return EspefuseCommand(("burn_block_data", *force, family.blocks[number]), key, file)


def _block_of(family: Family, field: str, file: KeyFile) -> int:
    """The number of a key's block. What a key is burnt as must be a name of the family: a purpose that is misspelt
    would burn the key the wrong way round."""
    purpose = family.purposes.get(file.burnt_as)
    number = family.number_of(field)
    if number is None or number not in family.told[1:]:
        raise NoKey(f"{field} is no key block of an {family.name} that the server is told", "Look at the map.")
    if purpose is None and file.burnt_as != field or purpose and purpose.block not in (None, number):
        known = ", ".join([field, *(it.name for it in family.purposes.values() if it.block in (None, number))])
        raise NoKey(f"a key of {field} can't be burnt as {file.burnt_as}", f"There are {known}.")
    return number


# What a person types.


def typed_lines(tool: Sequence[str], family: Family, work: Work, keys: Mapping[str, KeyFile]) -> list[str]:
    """The commands by which a person burns a batch in a shell, keys first and block 0 last. None of them has a key, and
    none shows one: what `burn_block_data` prints goes nowhere. The words are those of the version that is here, and of
    4 where none is."""
    try:
        version = version_of(tool)
    except (NoEspefuse, EspefuseFailed):
        version = "4"
    is_five = _major(version) == 5
    blank = Dump(family, {number: ("00000000",) * count for number, count in family.words.items()})
    return [_typed(over_family(tool, family), it, is_five) for it in burn_commands(work, blank, keys)]


def _typed(tool: Sequence[str], step: EspefuseCommand, is_five: bool) -> str:
    command, *words = step.words
    asked = [command.replace("_", "-") if is_five else command, *words]
    if not step.file:
        return shlex.join([*tool, *asked])
    if command == "burn_key":
        return shlex.join([*tool, *asked, step.file.path])
    # Nobody sees what it asks, and its input may be the key.
    quiet = [*tool, *([] if UNASKED in tool else [UNASKED]), *asked]
    if not step.file.is_reversed():
        return f"{shlex.join([*quiet, step.file.path])} > /dev/null"
    return f"{TURNED} < {shlex.quote(step.file.path)} | {shlex.join([*quiet, '/dev/stdin'])} > /dev/null"


# What espefuse runs.


def over_family(tool: Sequence[str], family: Family) -> list[str]:
    """espefuse's command over a chip of a family, which the dumps of most families don't tell."""
    has_family = any(word in ("-c", "--chip") or word.startswith("--chip=") for word in tool)
    return [*tool, *([] if has_family else ["--chip", family.name])]


def script_of(steps: Sequence[EspefuseCommand], paths: Sequence[str], mac: str) -> str:
    """The script of `execute_scripts` of version 4, which burns all steps at once. Another chip isn't burnt."""
    shown_mac = ":".join(re.findall("..", mac))
    lines = [f'if not efuses["MAC"].get().startswith("{shown_mac}"):']
    lines.append('    raise esptool.FatalError("this is another chip than the one that was read")')
    behind = iter(paths)
    is_forced = any("--force-write-always" in step.words for step in steps)
    for step in steps:
        words = [*step.words, *([next(behind)] if step.key else [])]
        if is_forced and "--force-write-always" not in words:
            words.insert(1, "--force-write-always")  # the last command of a script decides for all of them
        lines.append(f'espefuse(esp, efuses, args, "{" ".join(words)}")')
    return "\n".join([*lines, ""])


class Espefuse:
    """A chip behind espefuse: `tool` is its command with the port and --do-not-confirm, `keys` are files by the fields
    of their keys. Without a family it is an ESP32. What a chip showed last says what of a batch is still to be burnt;
    what it showed first is what the blocks are compared with that the server isn't told."""

    def __init__(self, tool: Sequence[str], keys: Mapping[str, KeyFile], family: Optional[Family] = None):
        self.keys, self.family = keys, family or family_of("esp32")
        self.tool = over_family(tool, family) if family else list(tool)
        self._first: Optional[Dump] = None
        self._last: Optional[Dump] = None

    def dump(self) -> Dump:
        """What the chip shows now, by a start of espefuse."""
        dump = dump_of(self.family, _ran([*self.tool, "dump"]))
        _major(dump.version)
        if self._first is None or self._first.mac() != dump.mac():
            self._first = dump
        self._last = dump
        return dump

    def read(self) -> Told:
        """The blocks that the server is told. The others have to be as they were."""
        dump = self.dump()
        changed = dump.differs(self._first) if self._first else []
        if changed:
            blocks = ", ".join(f"{self.family.blocks[number]} ({number})" for number in changed)
            told = f"{blocks} isn't any more what the chip {dump.chip()} showed at first, and nobody planned that"
            raise ChangedUnasked(told, "Put the chip aside, and look which program burnt it.")
        return dump.told()

    def burn(self, work: Work) -> None:
        """Burns what of a batch isn't there yet, so that this may be done again."""
        dump = self._last or self.dump()
        steps = burn_commands(work, dump, self.keys)
        if not steps:
            return
        if _major(dump.version) == 4:
            self._last = None
            self._run_script(steps, dump.mac())
        else:
            self._run_each(steps, dump.mac())

    def _run_script(self, steps: Sequence[EspefuseCommand], mac: str) -> None:
        """All steps by one start: version 4."""
        with _in_memory([step.key for step in steps if step.key]) as keys:
            script = script_of(steps, [f"/dev/fd/{file}" for file in keys], mac)
            with _in_memory([script.encode()]) as scripts:
                _ran([*self.tool, "execute_scripts", f"/dev/fd/{scripts[0]}"], [*keys, *scripts])

    def _run_each(self, steps: Sequence[EspefuseCommand], mac: str) -> None:
        """A start for each step, behind one that looks whether it is the same chip: version 5, whose commands have
        dashes, and whose scripts have another form."""
        if self.dump().mac() != mac:
            raise EspefuseFailed("this is another chip than the one that was read", "Put that one in again.")
        self._last = None
        for step in steps:
            with _in_memory([step.key] if step.key else []) as keys:
                command = step.words[0].replace("_", "-")
                _ran([*self.tool, command, *step.words[1:], *(f"/dev/fd/{file}" for file in keys)], keys)


class NoFuses:
    """A part that espefuse doesn't read, by the name that a person or a scanner says: the family `none`."""

    def __init__(self, chip: str):
        if not re.fullmatch("[0-9a-f]{12}", chip):
            raise ValueError(f"{shown(chip)} is no name of a part, which has twelve of 0-9 a-f")
        self.chip = chip

    def read(self) -> Told:
        return Told([["00000000"]], self.chip)

    def burn(self, work: Work) -> None:
        if work.bits or work.keys:
            raise EspefuseFailed("nothing of this part can be burnt from here", "Plan it without wishes.")
