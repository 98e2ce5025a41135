"""Runs the commands of the pages in docs, and of the files `.console` here, against the built program.

Every reply is compared with that of the page or the file.

    tests/all pages/test_walk.py --write             puts this run's replies into the pages
    tests/all pages/test_walk.py -k first-chip.md    one page

The commands of a page run in one bash, in a new folder in which `crates`, `kit`, `deploy` and `python` are the
repository's and `station` is the program. A page whose commands run nginx, age or minisign is skipped where there is
none. That a page runs sqlite3 in its safe mode alone is looked at in test_crafted.py.
"""

import re

import pytest

from common.needs import missing
from common.pages import ROOT, SECONDS, all_pages, commands_of, others_than_on, steps_of, walk
from common.ports import ports_in_row

# Programs that not every machine has, as a page runs them.
RARE = re.compile(r"(?:^|[|;&(]\s*)(nginx|age|minisign)\b")


def pages_with_commands():
    """The pages and files that have commands, by their paths from the top."""
    pages = (page for page in all_pages() if commands_of(page).search(page.read_text(encoding="utf-8")))
    return [str(page.relative_to(ROOT)) for page in pages]


def needs(name):
    """The programs that a page runs and that not every machine has."""
    blocks = commands_of(ROOT / name).findall((ROOT / name).read_text(encoding="utf-8"))
    steps = (step for block in blocks for step in steps_of(block))
    return sorted({program for step in steps for line in step.lines for program in RARE.findall(line)})


@pytest.mark.needs("reader", "bash", "curl", "jq", "xxd", "sqlite3", "sha256sum")
@pytest.mark.parametrize("name", pages_with_commands())
def test_a_page(program, name, is_written):
    if lacking := missing(needs(name)):
        pytest.skip(f"there is no {', '.join(lacking)}")
    page = ROOT / name
    text, told = walk(page, program, ports_in_row(4), SECONDS)
    if is_written:
        page.write_text(text, encoding="utf-8")
    else:
        others = others_than_on(told)
        told = ["\n".join([*step, "-- is to be", *page, "-- is", *now]) for step, page, now in others]
        assert not others, "\n\n".join(told)
