"""The prover over the libraries that `rt ci` built, which tools/rules and tools/strength call by itself: `rt check`
makes libraries of its own, since those of the gate have statements alone."""

import shutil
import sys
from collections.abc import Sequence
from pathlib import Path

from edits import TOP
from pages_lib.rattle import crates_below

CRATES = TOP / "crates"


def kit() -> Path:
    """The folder of the toolchain."""
    return Path(shutil.which("rt") or sys.exit("there is no rt here")).resolve().parent.parent


class Libraries:
    """The libraries of this repository's crates, where they are built or in another folder, and the kit's."""

    def __init__(self, folder: Path | None = None) -> None:
        self.kit, self.below = kit(), crates_below()
        self.libraries = folder.resolve() if folder else None

    def library(self, name: str) -> Path:
        """The library of a crate: of this repository as it was built, or the kit's."""
        if name not in self.below:
            return self.kit / "rlibs" / f"{name}.rlib"
        made = self.libraries / f"{name}.rlib" if self.libraries else CRATES / name / "out" / "rlib" / f"{name}.rlib"
        return made if made.is_dir() else sys.exit(f"{name} is not built, so run rt ci first: there is no {made}")

    def words(self, crate: str, sources: Sequence[str] = ()) -> list[str]:
        """The command that checks a crate in its folder, with these crates as sources beside it."""
        words = [self.kit / "bin/rattle", "check", "--crate-name", crate, "src/lib.rt", "--jobs", "1"]
        words += ["--links", f"{crate}="]
        used = [it for name in (crate, *sources) for it in self.below[name] if it not in sources]
        for name in dict.fromkeys(["std", *used]):
            words += ["--extern", f"{name}={self.library(name)}"]
        folders, todo = {self.kit / "rlibs"}, used
        while todo:
            name = todo.pop()
            folders.add(self.library(name).parent)
            todo += self.below.get(name, ())
        for folder in sorted(folders):
            words += ["-L", f"dependency={folder}"]
        for name in sources:
            words += ["--lib", f"{name}=../{name}/src/lib.rt"]
        words += ["--antt-project", self.kit / "rattle/logic/antt-project.json"]
        return [str(it) for it in [*words, "--logic-built", self.kit / "logic_built"]]
