"""What is in a socket: a chip behind espefuse, or a part without fuses whose name a command prints."""

import re
from typing import Mapping, Sequence, Union

from wanekupo.bench.endings import Ended
from wanekupo.chips.espefuse import Espefuse, KeyFile, NoFuses
from wanekupo.chips.families import Told, family_of
from wanekupo.chips.work import Work
from wanekupo.common.process import run_command

# The family of parts without fuses, and how many seconds a command has that prints a part's name.
NO_FUSES, LONGEST_NAME = "none", 30


class NamedPart:
    """A part without fuses. Its socket's command prints the name: 12 hexadecimal digits, as an address or a number."""

    def __init__(self, tool: Sequence[str]):
        self._tool = list(tool)

    def read(self) -> Told:
        try:
            done = run_command(self._tool, LONGEST_NAME)
            done.check_returncode()
        except OSError as error:
            raise Ended("no_tool", detail=f"{self._tool[0]}: {error.strerror}") from error
        name = re.sub("[:-]", "", done.stdout.strip().lower())
        if not name:
            raise Ended("no_chip", detail="its command prints nothing")
        if not re.fullmatch("[0-9a-f]{12}", name):
            raise Ended("no_dump", detail="its command prints no 12 hexadecimal digits")
        return NoFuses(name).read()

    def burn(self, work: Work) -> None:
        raise Ended("bad_wish", detail="a part without fuses has none to burn")


Part = Union[Espefuse, NamedPart]


def part_of(tool: Sequence[str], keys: Mapping[str, KeyFile], family: str) -> Part:
    """What is behind a socket's command."""
    return NamedPart(tool) if family == NO_FUSES else Espefuse(tool, keys, family_of(family))
