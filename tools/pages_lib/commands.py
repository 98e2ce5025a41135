"""The page of all commands, which their own help makes, and of the manuals that are written by hand. The site and the
packages have it, and git hasn't."""

import os
import re
import subprocess
from collections.abc import Iterator

from pages_lib.rattle import TOP

PAGE = "docs/reference/commands.md"
HEAD = "# Commands and manuals\n\nWhat each command prints with `--help`, and the manuals that say more."
COMMANDS = ("wanekupo", *(f"station-{it}" for it in ("token", "site", "backup", "restore", "restart", "standby")))
NAMES = ("station.1", "station.toml.5", "wanekupo-recipe.5")
# The manuals, each with its heading's anchor.
MANUALS = {f"deploy/{name}": f"man-{name[:-2].replace('.', '')}" for name in NAMES}


def printed(*words: str, given: str = "") -> str:
    """What a command prints, as a page shows it. The help of a command's command has its name between asterisks."""
    told = os.environ | {"COLUMNS": "100"}
    done = subprocess.run(words, env=told, input=given, capture_output=True, text=True, check=True)
    return re.sub(r"(?m)^\*(.*)\*$", r"## \1", re.sub(r"(?m)^(?=[^\n*])", "    ", done.stdout.rstrip()))


def added(name: str) -> Iterator[str]:
    """What the manual of a command has beside its help, as its exit statuses."""
    _, *parts = re.split(r"(?m)^\[(.*)\]$", (TOP / f"debian/man/{name}.h2m").read_text("utf-8"))
    for title, text in zip(parts[::2], parts[1::2]):
        if title not in ("NAME", "SEE ALSO"):
            given = f".TH {name} 1\n.nh\n.ad l\n.SH {title}{text}"
            shown = printed("groff", "-man", "-rLL=96n", "-Tascii", "-P-cbou", given=given)
            yield f"## {title.capitalize()} of {name}"
            yield shown.partition(title)[2].rpartition("\n")[0].strip("\n")


def commands_page() -> str:
    """The help of each command, with what its manual adds, and each manual that is written by hand."""
    parts = [HEAD]
    for name in COMMANDS:
        told = printed("/usr/bin/python3", "-B", str(TOP / "debian/print-help"), name, "--help")
        parts += [f"## {name}", told, *added(name)]
    for name in NAMES:
        parts += [f"## man {name[:-2]}", printed("groff", "-mdoc", "-Tascii", "-P-cbou", str(TOP / "deploy" / name))]
    return "\n\n".join(parts) + "\n"
