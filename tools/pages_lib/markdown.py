"""The pages of the repository, and what stands on them: the Markdown files that git knows, and the list of promises,
which is made of docs/promises.toml and is no file."""

import functools
import re
from collections.abc import Iterator

from pages_lib import promises_page
from pages_lib.audit import audit
from pages_lib.promises_page import PROMISES_PAGE
from pages_lib.rattle import TOP, text_of, tracked

# Pages that say what was once: no name in them has to be there.
OF_THE_PAST = ("CHANGELOG.md", "bench/RESULTS.md", "docs/proof/tried.md")

# A page that a file names, by its path from the top, or in an error from the folder of the package's pages.
POINTER = re.compile(r"(?:\bdocs|\{PAGES\})/[\w/-]+\.(?:md|toml|yaml|png|svg)(?:#[\w-]+)?")
FENCE = re.compile(r"(?ms)^ *```.*?^ *```$")


@functools.cache
def pages() -> list[str]:
    """The pages, by their paths from the top. Descriptions of planted bugs are none."""
    return sorted({PROMISES_PAGE, *(name for name in tracked("*.md") if "/must-fail/" not in name)})


@functools.cache
def page_text(page: str) -> str:
    """A page's text."""
    return promises_page.page(audit()) if page == PROMISES_PAGE else (TOP / page).read_text("utf-8")


@functools.cache
def prose_of(page: str) -> str:
    """A page's text without what is shown as it stands."""
    return FENCE.sub("", page_text(page))


def fences_of(page: str) -> Iterator[tuple[str, str]]:
    """The fenced blocks of a page: the language, and the text."""
    yield from re.findall(r"(?ms)^```(\w*)\n(.*?)^```$", page_text(page))


def headings_in(text: str) -> list[str]:
    """The headings of a page's text."""
    return re.findall(r"(?m)^#+ (.*)$", FENCE.sub("", text))


def anchors_in(text: str) -> list[str]:
    """The anchors of a page's text: those of its headings, and its own."""
    found = list[str]()
    for heading in headings_in(text):
        anchor = re.sub(r"[^\w\- ]", "", heading.lower()).strip().replace(" ", "-")
        found.append(f"{anchor}-{found.count(anchor)}" if anchor in found else anchor)
    return found + re.findall(r'<a id="([^"]+)">', FENCE.sub("", text))


@functools.cache
def anchors_of(page: str) -> list[str]:
    """The anchors of a page: those of its headings, and its own."""
    return anchors_in(page_text(page))


def links_of(page: str) -> list[str]:
    """What a page links to."""
    return re.findall(r"\]\(([^)\s]+)\)", prose_of(page))


def links_at_fault() -> Iterator[str]:
    """The links that lead to no file, or to no place of it."""
    for page in pages():
        for link in links_of(page):
            name, _, anchor = link.partition("#")
            if ":" in name:
                continue
            aim = ((TOP / page).parent / name).resolve() if name else TOP / page
            if name and not aim.exists() or anchor and not has_anchor(str(aim.relative_to(TOP)), anchor):
                yield f"{page}: the link {link} leads nowhere"


def has_anchor(path: str, anchor: str) -> bool:
    """Whether a page has an anchor, or a file of code the line that one names."""
    if path.endswith(".md"):
        return anchor in anchors_of(path)
    line = re.fullmatch(r"L(\d+)", anchor)
    return bool(line) and int(line[1]) <= page_text(path).count("\n")


def pointers_at_fault() -> Iterator[str]:
    """The files of docs that code, scripts and settings name, and that aren't there, or have no such anchor."""
    for name in tracked():
        if name.endswith((".db", ".png")) or name.startswith("tools/pages_lib/") or name in pages():
            continue
        for found in dict.fromkeys(POINTER.findall(text_of(TOP / name))):
            path, _, anchor = found.replace("{PAGES}", "docs").partition("#")
            if not (TOP / path).is_file() or anchor and not has_anchor(path, anchor):
                yield f"{name} names {found}, which isn't there"
