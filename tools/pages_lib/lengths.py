"""How many lines the pages have: the README's first screen, and all pages together.

Neither what programs write is counted, nor the list of promises, which is made of docs/promises.toml.
"""

from collections.abc import Iterator, Mapping

from pages_lib.markdown import page_text, pages
from pages_lib.promises_page import PROMISES_PAGE

PRINTED = ("bench/RESULTS.md", "docs/proof/tried.md", PROMISES_PAGE)
README_LINES, ALL_LINES = 75, 4400


def lines_of_pages() -> dict[str, int]:
    """The lines of each page that is counted."""
    return {page: page_text(page).count("\n") for page in pages() if page not in PRINTED}


def lengths_at_fault(lines: Mapping[str, int]) -> Iterator[str]:
    """What is longer than it may be."""
    total = sum(lines.values())
    if lines["README.md"] > README_LINES:
        yield f"README.md has {lines['README.md']} lines, {README_LINES} at most"
    if total > ALL_LINES:
        yield f"the pages have {total:,} lines together, {ALL_LINES:,} at most: tell what stands twice once"
