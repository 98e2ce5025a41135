"""The figures that pages have: how many lines, planted bugs, definitions, and things of the code there are.

Lines are those of the files that git knows: code in `src`, definitions in `specs`, proofs in `proofs`, all but
for the crates of tests (`*_tests` and `test_*`), whose code is the tests. Planted bugs are the files of
`must-fail`: the gate tries those that end in `.edit`, `tools/strength` the others too, and those that end in
`.rule.md` are edits of definitions. Those that end in `.test.md`, which a test refuses and no contract can,
aren't counted.

A page has a figure where a number, or its word, stands in front of the figure's mark, as in `42<!-- =tried -->`.
PLACES has those of pages that have no mark, and of the crates' first lines, by the words around them.
"""

import functools
import re
import shutil
import subprocess
from collections.abc import Callable, Iterator

from pages_lib.audit import HEADLINE, LIVES, STREAMS, audit
from pages_lib.markdown import OF_THE_PAST, page_text, pages
from pages_lib.rattle import CRATES, TOP, code_of, lead_of, sources, tracked

NUMBER = r"\d[\d,.]*\d|\d"
NUMBERS = "no one two three four five six seven eight nine ten eleven twelve thirteen fourteen fifteen sixteen".split()
MARK = re.compile(rf"(?P<number>{NUMBER}|\b[a-z]+)<!-- =(?P<name>\w+) -->")
TESTS = ["crates/*_tests", "crates/test_*"]
KIT = re.compile(r"rattle-kit-\S+ logic (?P<logic>\w+)")

# A page or a crate's first lines, the words around a number, and which figure it is.
PLACES = [
    ("CONTRIBUTING.md", "The gate tries {} edits", "tried"),
    ("CONTRIBUTING.md", "edits, in {} of", "with_edits"),
    ("CONTRIBUTING.md", "edits, in * of {} crates", "crates"),
    ("CONTRIBUTING.md", "Tests are in {} crates at the top", "test_crates"),
    ("docs/proof/architecture.md", "Tests are {} crates at the top.", "test_crates"),
    ("crates/fuse_plan/src/lib.rt", "the lowest of the {} faults of the wishes", "plan_faults"),
    ("crates/http_frames/src/serving.rt", "for each of the {} endings", "endings"),
    ("crates/office_store/src/lib.rt", "makes the {} tables of an empty one", "tables"),
]


def lines_of(*patterns: str) -> int:
    """The lines of the files that git knows of these patterns."""
    return sum((TOP / name).read_bytes().count(b"\n") for name in tracked(*patterns))


def product_lines(part: str) -> int:
    """The lines of a part of all crates but those of tests."""
    return lines_of(f"crates/*/{part}/*", *(f":!{crates}/*" for crates in TESTS))


def edits(end: str = "") -> list[str]:
    """The planted bugs that the prover must refuse."""
    found = tracked("crates/*/must-fail/*")
    return [name for name in found if name.endswith(end) and not name.endswith(".test.md")]


def crates_of(names: list[str]) -> int:
    """How many crates these files are of."""
    return len({name.split("/")[1] for name in names})


def variants(path: str, name: str) -> int:
    """How many variants an enum has."""
    body = re.search(rf"\benum {name}\b.*?\n\}}", code_of(CRATES / path), re.DOTALL)
    return len(re.findall(r"(?m)^    [A-Z]\w*", body[0])) if body else 0


def created() -> Iterator[tuple[str, str]]:
    """The store's tables, each with its columns."""
    for name, columns in re.findall(r'"CREATE TABLE (\w+) \((.*?)\) STRICT"', sources("office_store", "src")):
        yield name, ", ".join(re.findall(r"(?:^|, )(\w+) (?:INTEGER|TEXT|BLOB)\b", columns))


# Each figure by its name.
FIGURES: dict[str, Callable[[], int | float]] = {
    "code": lambda: product_lines("src"),
    "definitions": lambda: product_lines("specs"),
    "proofs": lambda: product_lines("proofs"),
    "ratio": lambda: product_lines("proofs") / product_lines("src"),
    "tests": lambda: lines_of(*(f"{crates}/src/*" for crates in TESTS)),
    "planted": lambda: len(edits()),
    "tried": lambda: len(edits(".edit")),
    "rules": lambda: len(edits(".rule.md")),
    "with_edits": lambda: crates_of(edits(".edit")),
    "crates": lambda: crates_of(tracked("crates/*/src/*")),
    "promises": lambda: len(audit().promises),
    "believed": lambda: audit().count(HEADLINE),
    "streams": lambda: audit().count(STREAMS),
    "lives": lambda: audit().count(LIVES),
    "test_crates": lambda: len(list(CRATES.glob("*_tests"))),
    "jobs": lambda: variants("station_cli/src/job.rt", "Job"),
    "plan_faults": lambda: variants("fuse_plan/src/fault.rt", "PlanFault"),
    "endings": lambda: variants("http_frames/src/serving.rt", "Served"),
    "tables": lambda: len(list(created())),
}


@functools.cache
def figure(name: str) -> int | float:
    """A figure."""
    return FIGURES[name]()


def shown(name: str, before: str) -> str:
    """A figure in the form of what stood there: a word where it was one, else digits."""
    value = figure(name)
    if isinstance(value, float):
        return f"{value:.1f}"
    return NUMBERS[value] if before in NUMBERS and value < len(NUMBERS) else f"{value:,}"


def pattern_of(words: str) -> re.Pattern[str]:
    """Words with a number between, over line ends."""
    text = r"\s+".join(re.escape(word) for word in words.split())
    numbers = rf"{NUMBER}|{'|'.join(NUMBERS)}"
    return re.compile(text.replace(r"\*", rf"(?:{numbers})").replace(r"\{\}", rf"(?P<number>{numbers})"))


def placed(page: str, text: str, faults: list[str]) -> str:
    """A page with the figures that stand there by the words around them, where it has no marks."""
    if MARK.search(text):
        return text
    for place, words, name in PLACES:
        found = list(pattern_of(words).finditer(text)) if place == page else []
        if len(found) != 1 and place == page:
            faults.append(f"{page}: {len(found)} times '{words}'")
        elif found:
            start, end = found[0].span("number")
            text = text[:start] + shown(name, found[0]["number"]) + text[end:]
    return text


def marked(page: str, text: str, faults: list[str]) -> str:
    """A page with the figures in front of marks."""

    def put(found: re.Match[str]) -> str:
        if found["name"] not in FIGURES:
            faults.append(f"{page}: there is no figure {found['name']}")
            return found[0]
        return f"{shown(found['name'], found['number'])}<!-- ={found['name']} -->"

    return MARK.sub(put, text)


@functools.cache
def kit() -> str | None:
    """The toolchain's line (`rt version`), where there is one to ask."""
    if not shutil.which("rt"):
        return None
    return subprocess.run(["rt", "version"], capture_output=True, text=True, check=True).stdout.strip()


def with_figures(page: str, text: str, faults: list[str]) -> str:
    """A page with its figures and the toolchain's line."""
    text = marked(page, placed(page, text, faults), faults)
    return KIT.sub(of_this_logic, text) if kit() and page not in OF_THE_PAST else text


def of_this_logic(found: re.Match[str]) -> str:
    """A page's line of the toolchain where this machine's has its logic, else this machine's. The logic is what a proof
    is held to: kits of one logic prove the same."""
    own = kit() or ""
    return found[0] if own.endswith(f" logic {found['logic']}") else own


def leads_at_fault() -> Iterator[str]:
    """The numbers in crates' first lines that are others in the tree."""
    for place, words, name in PLACES:
        if place.endswith(".rt"):
            crate = place.split("/")[1]
            found = [it["number"] for it in pattern_of(words).finditer(lead_of(crate))]
            if [shown(name, it) for it in found] != found or len(found) != 1:
                yield f"{place}: '{words}' is {figure(name)}, and the page has {found or 'nothing'}"


def others_at_fault() -> Iterator[str]:
    """What stands twice and isn't the same: the whole map of the ESP32 in a test, and the toolchain on no page."""
    yield from leads_at_fault()
    text = (TOP / "python/wanekupo/chips/families/esp32/map.toml").read_text("utf-8")
    if f'r#"{text}"#' not in (TOP / "crates/base_tests/src/esp32.rt").read_text("utf-8"):
        yield "crates/base_tests/src/esp32.rt has another text than the map of the family esp32"
    if kit() and not any(KIT.search(page_text(page)) for page in pages()):
        yield "no page has the toolchain's line"
