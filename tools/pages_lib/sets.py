"""Whether what pages list is what there is: the requests, the refusals, the store's tables, a device's states, the
limits."""

import re
from collections.abc import Callable, Hashable, Iterable, Iterator

from pages_lib.figures import created
from pages_lib.markdown import OF_THE_PAST, page_text, pages
from pages_lib.rattle import sources


def requests() -> Iterator[tuple[str, str]]:
    """The requests that the program knows."""
    code = sources("station_requests", "src")
    paths = dict(re.findall(r'const (\w+_PATH): &str = "([^"]+)"', code))
    for method, path in re.findall(r'\(Method::(GET|POST), ("[^"]+"|\w+), (?:Asks\(|Route::)', code):
        yield method, paths.get(path) or path.strip('"')


def refusals() -> set[tuple[str, str]]:
    """The numbers and names of refusals."""
    framing = re.findall(r'\{\\"error\\":\\"(\w+)\\".*?\\"no\\":(\d+)', sources("http_frames", "specs"))
    rows = re.findall(r'\brow!\((\d+), \w+, "(\w+)"\)', sources("office_commands", "src"))
    return {(number, name) for name, number in framing} | set(rows)


def states() -> set[str]:
    """The texts of a device's states."""
    return set(re.findall(r'\brow\("(\w+)"', sources("office_tables", "src")))


def listed(pattern: str) -> Callable[[str], list[Hashable]]:
    """What a pattern finds in a page."""
    return lambda page: re.findall(pattern, page_text(page), re.MULTILINE)


def listed_states(page: str) -> list[Hashable]:
    """The states in the tables of what comes next."""
    tables = re.findall(r"(?m)^\| [^|]+ \| What (?:may come|comes) next \|\n((?:\|.*\n)*)", page_text(page))
    rows = (row.split("|")[1] for table in tables for row in table.splitlines())
    return [name for row in rows for name in re.findall(r"`(\w+)`", row) if name != "unknown_device"]


# What pages list, how it is found in a page that does, and what there is.
SETS: list[tuple[str, Callable[[str], list[Hashable]], Callable[[], Iterable[Hashable]]]] = [
    ("the requests", listed(r"^\| `(GET|POST) (/\S+)` \|"), requests),
    ("the refusals", listed(r"^\| (\d+) \| `?([a-z_]+)\b[^|]*\| `?\d{3}`? \|"), refusals),
    ("the store's tables", listed(r"^\| `(\w+)` \| (\w+(?:, \w+)+) \| [^|]*primary"), created),
    ("a device's states", listed_states, states),
]


def sets_at_fault() -> Iterator[str]:
    """What pages list and the tree hasn't, and the other way round. A page lists a set that has most of it."""
    for what, found_in, there_is in SETS:
        there, told = set(there_is()), [(page, set(found_in(page))) for page in pages() if page not in OF_THE_PAST]
        lists = [(page, found) for page, found in told if 2 * len(found & there) > len(there)]
        if not lists:
            yield f"no page lists {what}"
        for page, found in lists:
            if found != there:
                more, less = sorted(map(str, found - there)), sorted(map(str, there - found))
                yield f"{page}, {what}: on the page and not there {more}, there and not on the page {less}"
