"""Reads the repository: its crates, their code with its contracts, and the names that each crate declares."""

import functools
import itertools
import re
import subprocess
from pathlib import Path

TOP = Path(__file__).resolve().parent.parent.parent
CRATES = TOP / "crates"

DECLARED = re.compile(r"\b(?:fn|struct|enum|trait|const|static|type|mod|ensures|ghost)\s+(\w+)")
DEFINED = re.compile(r"^ *(?:abbrev |pub |record |data )*(\w+)(?= [:(]| :)", re.MULTILINE)
COMMENTS = {".rt": "//", ".antt": "--"}


class Fault(Exception):
    """What keeps the pages from being written, in words for whoever runs the tool."""


def tracked(*patterns: str) -> list[str]:
    """The files that git knows of these patterns, where they are there."""
    done = subprocess.run(["git", "ls-files", "-z", *patterns], cwd=TOP, capture_output=True, text=True, check=True)
    return [name for name in done.stdout.split("\0") if name and (TOP / name).is_file()]


@functools.cache
def text_of(path: Path) -> str:
    """A file's text."""
    return path.read_text(encoding="utf-8", errors="replace")


@functools.cache
def code_of(path: Path) -> str:
    """A file's text without the comments of its language."""
    mark = COMMENTS.get(path.suffix)
    return re.sub(rf"(?m)(^|\s){mark}.*$", "", text_of(path)) if mark else text_of(path)


# ---- crates
@functools.cache
def crates() -> list[str]:
    """The crates of the repository."""
    return sorted(path.name for path in CRATES.iterdir() if path.is_dir())


@functools.cache
def crates_below() -> dict[str, list[str]]:
    """The crates as crates.txt has them, each with those that it stands on."""
    lines = text_of(TOP / "crates.txt").splitlines()
    rows = (line.split(":") for line in lines if ":" in line and not line.startswith("#"))
    return {name.split()[0]: others.split() for name, others in rows}


@functools.cache
def crates_in_order() -> list[str]:
    """The crates, each above those that it stands on."""
    below, done = crates_below(), list[str]()

    def put(name: str) -> None:
        for other in below.get(name, ()):
            put(other)
        if name in below and name not in done:
            done.append(name)

    for name in below:
        put(name)
    return done[::-1]


# ---- code
@functools.cache
def sources(crate: str, part: str) -> str:
    """The text of a crate's code (`src`) or definitions (`specs`), without comments."""
    return "\n".join(code_of(path) for path in sorted((CRATES / crate / part).glob("**/*.*")) if path.is_file())


@functools.cache
def declared(crate: str) -> frozenset[str]:
    """The names that a crate declares, and those that it passes on."""
    code = sources(crate, "src")
    passed = " ".join(re.findall(r"\bpub use ([^;]+);", code))
    fields = re.findall(r"\bpub (\w+):", code)
    named = (DECLARED.findall(code), DEFINED.findall(sources(crate, "specs")), fields, re.findall(r"\w+", passed))
    return frozenset(itertools.chain(*named))


@functools.cache
def functions() -> frozenset[str]:
    """The names of all functions."""
    return frozenset(name for crate in crates() for name in re.findall(r"\bfn (\w+)", sources(crate, "src")))


@functools.cache
def lead_of(crate: str) -> str:
    """The first lines of a crate's code, which say what its contracts carry."""
    roots = (CRATES / crate / "src/lib.rt", CRATES / crate / "src/main.rt")
    lines = text_of(next(path for path in roots if path.is_file())).splitlines()
    return "\n".join(line[3:].strip() for line in itertools.takewhile(lambda it: it.startswith("//!"), lines))


@functools.cache
def contracts_of(text: str, call: str) -> list[str]:
    """What stands between a function's name and its body, or its declaration's end, for each function of this name."""
    return re.findall(rf"\bfn {call}\b(.*?)(?:\n\s*\{{\n|\n\s*\{{\}}|;\n|\Z)", text, re.DOTALL)


def clauses_in(contract: str) -> list[str]:
    """The clauses of a contract, and what it supposes, each as it is written."""
    parts = re.split(r"\b(?=(?:ensures|requires)\b[ \w]*\{)", contract)
    return [part for part in parts if re.match(r"ensures\b|requires\b", part)]


def line_of(path: Path, call: str) -> int:
    """The line of a file in which a function that has a contract is declared."""
    text = text_of(path)
    for found in re.finditer(rf"\bfn {call}\b(.*?)(?:\n\s*\{{\n|\n\s*\{{\}}|;\n|\Z)", text, re.DOTALL):
        if "ensures" in found[1]:
            return text.count("\n", 0, found.start()) + 1
    return 1


def declaration_of(crate: str, name: str) -> list[str]:
    """The lines of a type's declaration, without comments and attributes. Of a trait those of its ghost members."""
    head = re.compile(rf"\s*(?:pub(?:\(\w+\))? )?(struct|enum|trait|type) {name}\b")
    for path in sorted((CRATES / crate / "src").rglob("*.rt")):
        lines = text_of(path).splitlines()
        for start, line in enumerate(lines):
            found = head.match(line)
            if found:
                end = end_of_declaration(lines, start)
                rows = [it for it in lines[start : end + 1] if it.strip() and not re.match(r"\s*(//|#\[)", it)]
                return [it for it in rows if found[1] != "trait" or it.strip().startswith(("ghost", "pub trait", "}"))]
    raise Fault(f"no type {name} in crates/{crate}/src")


def end_of_declaration(lines: list[str], start: int) -> int:
    """The line in which a declaration that begins in this one ends."""
    end = start
    while not lines[end].startswith(("}", "    }")) and not (end == start and lines[end].endswith((";", "}"))):
        end += 1
    return end


# ---- planted bugs
@functools.cache
def bodies_of(name: str) -> list[Path]:
    """The wrong bodies of a name, by crate: those that the gate tries end in `.edit`, the others in `.edit.md`."""
    return sorted(it for end in ("edit", "edit.md") for it in TOP.glob(f"crates/*/must-fail/{name}.{end}"))


def rules_of(name: str) -> list[Path]:
    """The wrong rules of a name, by crate."""
    return sorted(TOP.glob(f"crates/*/must-fail/{name}.rule.md"))


@functools.cache
def laws_with(name: str) -> frozenset[str]:
    """The crates whose laws must refuse a wrong rule."""
    return frozenset(law for rule in rules_of(name) for law in re.findall(r"^law: (\S+)$", text_of(rule), re.MULTILINE))


def rules() -> list[str]:
    """The names of all wrong rules."""
    return [path.name.removesuffix(".rule.md") for path in sorted(TOP.glob("crates/*/must-fail/*.rule.md"))]
