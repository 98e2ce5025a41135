"""What `tools/pages` writes: the figures of the pages."""

import itertools
import os

from pages_lib.figures import with_figures
from pages_lib.markdown import page_text, pages
from pages_lib.promises_page import PROMISES_PAGE
from pages_lib.rattle import TOP


def written_pages(faults: list[str]) -> dict[str, str]:
    """Each page as it is to be."""
    return {page: with_figures(page, page_text(page), faults) for page in pages() if page != PROMISES_PAGE}


def difference(page: str, text: str) -> str | None:
    """The first line in which a page isn't as it is to be, or none."""
    there, wanted = page_text(page).split("\n"), text.split("\n")
    for number, (line, other) in enumerate(itertools.zip_longest(there, wanted, fillvalue=""), 1):
        if line != other:
            return f"{page}:{number} is '{excerpt(line, other)}' and is to be '{excerpt(other, line)}'"
    return None


def excerpt(line: str, other: str) -> str:
    """A line from a little before where it differs from another."""
    same = len(os.path.commonprefix([line, other]))
    return line[max(0, same - 30) : same + 50]


def put(page: str, text: str) -> None:
    """Writes a page."""
    (TOP / page).write_text(text, "utf-8")
