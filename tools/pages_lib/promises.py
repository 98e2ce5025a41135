"""The promises, as docs/promises.toml has them, and whether what they name is there."""

import dataclasses
import re
import tomllib
from collections.abc import Iterator
from pathlib import Path

from pages_lib import rattle
from pages_lib.definitions import Definitions, key_of
from pages_lib.rattle import CRATES, TOP, Fault, text_of

SOURCE = TOP / "docs/promises.toml"


@dataclasses.dataclass(frozen=True)
class Call:
    """A call with the clauses that carry a promise."""

    path: str
    name: str
    clauses: tuple[str, ...]

    @property
    def crate(self) -> str:
        return self.path.split("/")[0]

    @property
    def file(self) -> Path:
        return CRATES / self.path

    def texts(self) -> list[str]:
        """The texts of its clauses, and of what it supposes, where its contract has them all."""
        contracts = rattle.contracts_of(text_of(self.file), self.name) if self.file.is_file() else []
        for contract in (it for it in contracts if "ensures" in it):
            parts = rattle.clauses_in(contract)
            wanted = [rf"ensures {clause}\s*\{{" for clause in self.clauses or [""]]
            found = [[it for it in parts if re.match(pattern, it)] for pattern in wanted]
            if all(found):
                return [*sum(found, []), *(it for it in parts if it.startswith("requires"))]
        return []


@dataclasses.dataclass(frozen=True)
class Rule:
    """A wrong rule, with the laws that it makes false."""

    name: str
    laws: tuple[str, ...]


@dataclasses.dataclass(frozen=True)
class Promise:
    """A promise: a row of docs/promises.toml."""

    name: str
    says: str
    calls: tuple[Call, ...]
    by: str
    rests_on: tuple[str, ...]
    asked: tuple[str, ...]
    bodies: tuple[str, ...]
    rules: tuple[Rule, ...]
    tested: str


def parted(text: str) -> tuple[str, tuple[str, ...]]:
    """What stands in front of a colon, and the list behind it."""
    front, _, back = text.partition(": ")
    return front, tuple(back.split(", ")) if back else ()


def call_of(text: str) -> Call:
    """A call: `FILE CALL: CLAUSE, ..`."""
    place, clauses = parted(text)
    path, name = place.split()
    return Call(path, name, clauses)


def read_promises() -> Iterator[Promise]:
    """The promises, as they are written by hand."""
    for row in tomllib.loads(text_of(SOURCE))["promise"]:
        calls = tuple(call_of(it) for it in row.pop("calls", []))
        rules = tuple(Rule(*parted(it)) for it in row.pop("rules", []))
        rests, asked, bodies = (tuple(row.pop(part, [])) for part in ("rests_on", "asked", "bodies"))
        texts = [row.pop("name"), row.pop("says"), row.pop("by", ""), row.pop("tested", "")]
        name, says, by, tested = texts
        yield Promise(name, says, calls, by, rests, asked, bodies, rules, tested)
        if row:
            raise Fault(f"docs/promises.toml has {', '.join(row)}")


def faults(promises: list[Promise], definitions: Definitions) -> Iterator[str]:
    """What the promises name and the tree hasn't."""
    names = [it.name for it in promises]
    for promise in promises:
        for fault in faults_of(promise, definitions):
            yield f"{promise.name}: {fault}"
        if names.count(promise.name) > 1 or not re.fullmatch(r"[a-z]+(-[a-z]+)*", promise.name):
            yield f"{promise.name} is a name twice, or none"
    cited = {rule.name for promise in promises for rule in promise.rules}
    for name in rattle.rules():
        if name not in cited:
            yield f"no promise has the rule {name}"


def faults_of(promise: Promise, definitions: Definitions) -> Iterator[str]:
    """What a promise names and the tree hasn't."""
    if bool(promise.calls) == bool(promise.by):
        yield "it is carried by calls, or by something else"
    words = {word for call in promise.calls for text in call.texts() for word in re.findall(r"\w+", text)}
    cited, _ = definitions.reach(key for key in definitions.lines if key[1] in words)
    for root in promise.rests_on:
        if key_of(root) not in cited:
            yield f"no definition {root} that these clauses cite"
    for call in promise.calls:
        if not call.texts():
            yield f"no call with these clauses: {call.path} {call.name}: {', '.join(call.clauses)}"
    for name in (*promise.asked, *promise.bodies):
        if not rattle.bodies_of(name):
            yield f"no wrong body {name}"
    for name in promise.asked:
        if any(it.suffix != ".edit" for it in rattle.bodies_of(name)):
            yield f"{name} was asked for, and isn't in the gate"
    for rule in promise.rules:
        if not rattle.laws_with(rule.name):
            yield f"no rule {rule.name}"
        for law in rule.laws or ("is named",):
            if not has_law(promise, rule, law, definitions):
                yield f"{rule.name}: no law {law}"


def has_law(promise: Promise, rule: Rule, law: str, definitions: Definitions) -> bool:
    """Whether what a rule makes false is there: a field of a record, a clause of the promise's calls, or a law."""
    crates = rattle.laws_with(rule.name)
    record, _, field = law.partition(".")
    if field:
        found = (key for key in definitions.lines if key[1] == record and key[0].split(".")[1] in crates)
        lines = (line for key in found for line in definitions.lines[key])
        return any(re.match(rf"  (?:pub )?{field} :", line) for line in lines)
    if any(law in call.clauses for call in promise.calls):
        return True
    paths = (path for crate in crates for path in (CRATES / crate / "src").rglob("*.rt"))
    return any("ensures" in contract for path in paths for contract in rattle.contracts_of(text_of(path), law))
