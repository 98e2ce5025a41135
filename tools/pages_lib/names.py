"""Whether what pages and the crates' first lines name and quote is there.

- In the text of a page clauses stand behind a call in parentheses: its contract has to have clauses of these names.
- Each crate but those of tests says in its first lines what its contracts carry. A name in them stands in the crate's
  code or definitions, or is a function, and one in parentheses is declared there: a call, a clause, a definition, a
  field.
- Of the names in backticks in pages, a path has a file; `CRATE::NAME` is declared in the crate, or passed on by it,
  and `MODULE::NAME` in the module; `CRATE.MODULE.NAME` is a definition; and one with an underscore or a capital
  inside stands somewhere in the code, the proofs or the scripts, comments left out, or is the name of a planted bug.
- What is quoted stands in the sources, however the lines are cut: a block that is fenced as `rattle`; and on a page
  of promises a block behind an empty line that stands four columns in, or more, and a table's clause in backticks
  with its type.
"""

import functools
import re
from collections.abc import Iterator
from pathlib import Path

from pages_lib import rattle
from pages_lib.markdown import OF_THE_PAST, fences_of, page_text, pages, prose_of
from pages_lib.promises_page import PROMISES_PAGE
from pages_lib.rattle import CRATES, TOP, code_of, crates, declared, sources, text_of, tracked

LIST = r"\(((?:`[\w:]+`(?:,| and)?\s*)+)[^()`]*"
FOLDERS = ["bench", "clients", "debian", "deploy", "kit", "python", "tests", "tools", ".ci", "docs/openapi.yaml"]
QUOTING = ("docs/proof/promises.md",)
OF_TESTS = re.compile(r"test_|\w+_tests$")

# Names of other programs' settings, and what a build makes.
ELSEWHERE = {"reverse_proxy", "buffer_requests", "serversTransport", "min_size", "NODE_EXTRA_CA_CERTS", "ofInputStream"}
ELSEWHERE |= {"NewReader", "ContentLength", "StringContent", "ByteArrayContent", "RemoteDisconnected"}
ELSEWHERE |= {"ServicePointManager", "Expect100Continue"}
BUILT = ("crates/station/out", "out/")


def names_at_fault() -> Iterator[str]:
    """The names and quotes of all pages, and of the crates' first lines, that aren't there."""
    yield from leads_at_fault()
    yield from quotes_at_fault()
    for page in pages():
        if page not in OF_THE_PAST:
            yield from lists_at_fault(page)
            yield from marked_at_fault(page)


# ---- clauses
def lists_at_fault(page: str) -> Iterator[str]:
    """The clauses behind a call in a page's text that it hasn't. One without a crate is of the crate named last."""
    crate = None
    for found in re.finditer(rf"`(?:(\w+)::(?:\w+::)*)?(\w+)`(?:\s+{LIST})?", prose_of(page)):
        crate = found[1] if found[1] in crates() else crate
        contracts = rattle.contracts_of(sources(crate, "src"), found[2]) if crate and found[3] else []
        if contracts and re.search(r"`[a-z]", found[3]):
            named = re.findall(r"\bensures (\w+)", " ".join(contracts))
            for clause in re.findall(r"`(\w+)`", found[3]):
                if clause not in named:
                    yield f"{page}: {crate}::{found[2]} has no clause {clause}, but {' '.join(named)}"


def leads_at_fault() -> Iterator[str]:
    """The crates whose first lines say too little, and the names in them that their crates haven't."""
    for crate in (it for it in crates() if not OF_TESTS.match(it)):
        lead = rattle.lead_of(crate)
        if "\n\n" not in lead:
            yield f"{crate}: its first lines don't say what its contracts carry"
        parts = (re.findall(r"\w+", sources(crate, part)) for part in ("src", "specs"))
        words = rattle.functions().union(*parts)
        for name in re.findall(r"`(\w\w+(?:::\w+)*)`", lead):
            if not words.issuperset(name.split("::")):
                yield f"{crate}: its first lines name {name}, which isn't there"
        for inside in re.findall(LIST, lead):
            for name in re.findall(r"`([a-z]\w+)`", inside):
                if name not in declared(crate):
                    yield f"{crate}: its first lines name {name}, which isn't declared"


# ---- quotes
def joined(text: str) -> str:
    """A text with each run of blanks as one."""
    return " ".join(text.split())


def indented_blocks(text: str) -> Iterator[str]:
    """The blocks behind an empty line that stand four columns in, or more."""
    block, above = list[str](), ""
    for line in [*text.splitlines(), ""]:
        above, before = line, above
        if line.startswith("    ") and (block or not before.strip()):
            block.append(line)
        elif block:
            yield "\n".join(block)
            block = []


def quotes_of(page: str) -> Iterator[str]:
    """What a page quotes of the sources, as texts in one line."""
    for language, text in fences_of(page):
        if language == "rattle":
            parts = re.split(r"(?m)^\s*(?://.*|--.*|\.\.)?$", text)
            yield from filter(None, map(joined, parts))
    if page in QUOTING:
        yield from map(joined, indented_blocks(page_text(page)))
        yield from map(joined, re.findall(r"`(\w+ : [^`]+)`", page_text(page)))


def quotes_at_fault() -> Iterator[str]:
    """What is quoted and isn't in the sources."""
    places = ("src/**/*.rt", "specs/**/*.antt", "must-fail/*")
    paths = (path for place in places for path in CRATES.glob(f"*/{place}"))
    known = joined("\n".join(text_of(path) for path in paths)).replace(" pub ", " ")
    for page in pages():
        found = [text for text in quotes_of(page) if page != PROMISES_PAGE]
        if page in QUOTING and not found:
            yield f"{page} quotes nothing"
        for text in found:
            if text.replace(" pub ", " ").removeprefix("pub ") not in known:
                yield f"{page} quotes what isn't there: {text[:100]}"


# ---- names in backticks
def marked_at_fault(page: str) -> Iterator[str]:
    """The names in backticks of a page that aren't there."""
    for name in dict.fromkeys(re.findall(r"`([^`\n]*[^`\s][^`\n]*)`", prose_of(page))):
        if not is_there(name, (TOP / page).parent):
            yield f"{page}: `{name}` isn't there"


@functools.cache
def all_words() -> frozenset[str]:
    """Each word of code, definitions, proofs and scripts, and the names of their files and of planted bugs."""
    parts = ("src/**/*.rt", "specs/**/*.antt", "proofs/**/*.antt")
    files = [path for part in parts for path in CRATES.glob(f"*/{part}")]
    listed = [name for name in tracked(*FOLDERS) if not name.startswith("tools/pages")]
    files += [TOP / name for name in listed if Path(name).suffix not in (".md", ".db", ".svg")]
    planted = {path.name.split(".")[0] for path in CRATES.glob("*/must-fail/*")}
    words = frozenset[str]().union(*(re.findall(r"\w+", code_of(path)) for path in files))
    return words | ELSEWHERE | planted | {path.stem for path in files} | set(crates())


def has_path(name: str, folder: Path) -> bool:
    """Whether a path has a file, from the top, the page's, a crate's folder or its `src` on. NAME is any name."""
    name = re.sub(r"\bNAME\b", "*", name)
    starts, ends = ("", "crates/", "crates/*/", "crates/*/src/"), ("", ".antt", ".rt")
    places = (f"{start}{name}{end}" for start in starts for end in ends)
    return name.startswith(BUILT) or any(any(TOP.glob(place)) for place in places) or any(folder.glob(name))


def is_there(name: str, folder: Path) -> bool:
    """Whether a name of a page is there, as far as it looks like one of the repository's."""
    path, owned = name.split()[0], re.match(r"(\w+)::(\w+)", name)
    dotted = re.fullmatch(r"(\w+)\.(\w+)\.(\w+)", name)
    tops = {*crates(), *(it.name for it in TOP.iterdir()), "src", "specs", "proofs"}
    if re.match(r"[.\w]+/", path) and path.split("/")[0] in tops:
        return has_path(path, folder)
    if owned and owned[1] in crates():
        return owned[2] in declared(owned[1])
    if dotted and dotted[1] in crates():
        text = code_of(CRATES / dotted[1] / f"specs/{dotted[2]}.antt")
        return bool(re.search(rf"(?m)^[a-z ]*\b{dotted[3]}\b", text))
    modules = [code_of(path) for path in CRATES.glob(f"*/src/**/{owned[1]}.rt")] if owned else []
    if modules:
        return any(re.search(rf"\bfn {owned[2]}\b", module) for module in modules)
    if not re.fullmatch(r"\w+((::|\.)\w+)*", name):
        return True
    words = [it for it in re.split(r"::|\.", name) if "_" in it or owned or re.search(r"[a-z][A-Z]", it)]
    return all(is_word(it) for it in words)


def is_word(name: str) -> bool:
    """Whether a name is a word of the repository, or the beginning of one where it ends with an underscore."""
    return name in all_words() or name.endswith("_") and any(it.startswith(name) for it in all_words())
