"""Lines that are too long to be read beside each other.

A line that begins a clause (`requires` or `ensures`) has at most 100 columns, and so has each line of the
definitions of the machine and its laws; any other line of a .rt or .antt file has 160. A line of a page has 100,
in bench, kit, python and tests 120. Texts in quotation marks, tables and indented text of pages are as long as what
they show.
"""

import re
from collections.abc import Iterator
from pathlib import Path

from pages_lib.markdown import page_text, pages
from pages_lib.rattle import CRATES, TOP, text_of

CLAUSE = re.compile(r"\s*(requires|ensures)\b")
CLAUSE_COLUMNS, CODE_COLUMNS, PAGE_COLUMNS, README_COLUMNS = 100, 160, 100, 120
READ_FIRST = [CRATES / crate / "specs" for crate in ("office_rules", "office_laws")]


def code_lines(text: str) -> Iterator[tuple[int, str]]:
    """The lines of code with their numbers, without those of texts that go over several lines."""
    in_text = False
    for number, line in enumerate(text.split("\n"), 1):
        if in_text:
            in_text = '"#' not in line
        elif 'r#"' in line and '"#' not in line.split('r#"', 1)[1]:
            in_text = True
        elif '"' not in line:
            yield number, line


def page_lines(text: str) -> Iterator[tuple[int, str]]:
    """The lines of a page with their numbers, without tables and what is shown as it stands."""
    in_fence = False
    for number, line in enumerate(text.split("\n"), 1):
        if line.lstrip().startswith("```"):
            in_fence = not in_fence
        elif not in_fence and not line.lstrip().startswith("|") and not line.startswith("    "):
            yield number, line


def page_columns(page: str) -> int:
    """How many columns a line of a page may have."""
    return README_COLUMNS if page.startswith(("bench/", "kit/", "python/", "tests/")) else PAGE_COLUMNS


def code_columns(path: Path, line: str) -> int:
    """How many columns a line of code may have."""
    is_narrow = path.parent in READ_FIRST or path.suffix == ".rt" and CLAUSE.match(line)
    return CLAUSE_COLUMNS if is_narrow else CODE_COLUMNS


def widths_at_fault() -> Iterator[str]:
    """The lines that are too long: each with its columns and how many it may have."""
    for page in pages():
        for number, line in page_lines(page_text(page)):
            if len(line) > page_columns(page):
                yield f"{page}:{number}: {len(line)} columns, {page_columns(page)} at most"
    files = (path for suffix in ("rt", "antt") for path in TOP.glob(f"crates/*/*/**/*.{suffix}"))
    for path in sorted(it for it in files if "out" not in it.parts):
        for number, line in code_lines(text_of(path)):
            if len(line) > code_columns(path, line):
                yield f"{path.relative_to(TOP)}:{number}: {len(line)} columns, {code_columns(path, line)} at most"
