"""The pages as mkdocs wants them: a folder with a copy of each in its form, and their order.

- A link to a page stays; one to another file leads to a copy of it, as text; one to a folder leads to its README,
  or to a list of its files; one to docs/promises.toml leads to the list that is made of it.
- A heading gets the anchor that the pages link to, since mkdocs makes others where a heading has marks in it.
- What belongs to an item of a list stands four columns in.
- One page more has all headings.
"""

import json
import os
import re
import shutil
from collections.abc import Callable, Iterable, Iterator, Mapping
from pathlib import Path

from pages_lib import commands
from pages_lib.markdown import anchors_in, anchors_of, headings_in, page_text, pages
from pages_lib.promises_page import PROMISES, PROMISES_PAGE
from pages_lib.rattle import TOP, tracked
from pages_lib.sentences import ITEM, Reader

LINK = re.compile(r"\]\(([^)\s]+)\)")
HEADING = re.compile(r"(#+) (.*)")
PICTURES = (".svg", ".png")
CONTENTS, CONTENTS_HEAD = "headings.md", "# All headings\n\nWhat each page tells: look for a word with your browser."

# The parts of the site in their order: a title, and what the paths of its pages begin with.
PARTS = [
    ("First day", "docs/first-chip.md"),
    ("Operate", "docs/operate/"),
    ("Build a line", "docs/line/"),
    ("Write a station", "docs/integrate/"),
    ("Look up", "docs/reference/"),
    ("What is proved", "docs/proof/"),
    ("Project", ""),
]


class Site:
    """The folder that mkdocs reads."""

    def __init__(self, folder: Path) -> None:
        self.folder, self.order = folder, list[object]()

    def make(self) -> None:
        """Copies the pages, with what they link to, and adds that of the commands."""
        texts = {page: page_text(page) for page in pages()} | {commands.PAGE: commands.commands_page()}
        for page in texts:
            path = self.folder / page
            path.parent.mkdir(parents=True, exist_ok=True)
            lines = self.lines(page) if page in pages() else texts[page].rstrip("\n").split("\n")
            path.write_text("\n".join(lines) + "\n", encoding="utf-8")
        (self.folder / CONTENTS).write_text(contents(texts), encoding="utf-8")
        self.order = order(texts)

    def lines(self, page: str) -> Iterator[str]:
        """The lines of a page in mkdocs' form."""
        return in_form(page_text(page), anchors_of(page), lambda text: self.linked(page, text))

    def linked(self, page: str, text: str) -> str:
        """A text with its links as they have to be on the site."""
        return LINK.sub(lambda it: f"]({self.target(page, it[1])})", text)

    def target(self, page: str, target: str) -> str:
        """Where a link has to lead to on the site."""
        name, mark, anchor = target.partition("#")
        if not name or ":" in name:
            return target
        path = os.path.relpath(((TOP / page).parent / name).resolve(), TOP)
        path = PROMISES_PAGE if path == PROMISES else path
        if f"{path}/README.md" in pages():
            path, mark, anchor = f"{path}/README.md", "", ""
        if path in commands.MANUALS:
            path, mark, anchor = commands.PAGE, "#", commands.MANUALS[path]
        elif path not in pages():
            path, mark, anchor = self.copied(path), "", ""
        return os.path.relpath(path, os.path.dirname(page) or ".") + mark + anchor

    def copied(self, path: str) -> str:
        """The copy of a file for the site: a picture as it is, another as text, and of a folder its files' names."""
        copy = path if path.endswith(PICTURES) else f"{path}.txt"
        (self.folder / copy).parent.mkdir(parents=True, exist_ok=True)
        if (TOP / path).is_dir():
            (self.folder / copy).write_text("\n".join(tracked(path)) + "\n", encoding="utf-8")
        elif (TOP / path).is_file():
            shutil.copyfile(TOP / path, self.folder / copy)
        return copy

    def configuration(self, out: Path) -> str:
        """What mkdocs is told of the pages that were made: mkdocs.yml, and what `told` adds."""
        return (TOP / "mkdocs.yml").read_text("utf-8") + told(self.folder, out, self.order)


def told(folder: Path, out: Path, rows: list[object]) -> str:
    """For mkdocs: where the pages are and where the site is written, and their order."""
    parts = {"docs_dir": str(folder), "site_dir": str(out), "nav": rows}
    return "".join(f"{key}: {json.dumps(value, ensure_ascii=False)}\n" for key, value in parts.items())


def in_form(text: str, anchors: Iterable[str], linked: Callable[[str], str]) -> Iterator[str]:
    """The lines of a page's text in mkdocs' form: its headings by their anchors, its links as `linked` makes them."""
    reader, left = Reader(), iter(anchors)
    for line in text.rstrip("\n").split("\n"):
        is_code = reader.is_code(line)
        heading = None if is_code else HEADING.fullmatch(line)
        if heading:
            reader.margins = [0]
            yield f"{heading[1]} {linked(heading[2])} {{#{next(left)}}}"
        elif not line.strip() or reader.fence or line.lstrip().startswith("```"):
            yield line
        else:
            yield moved(line if is_code else linked(line), reader, is_code)


def plain(heading: str) -> str:
    """A heading's text without links."""
    return re.sub(r"\[([^\]]*)\]\([^)]*\)", r"\1", heading)


def contents(texts: Mapping[str, str]) -> str:
    """The page of all headings of these pages, in their order."""
    lines = [CONTENTS_HEAD]
    for page in in_order(texts):
        headings = [plain(it) for it in headings_in(texts[page])]
        links = [f"- [{it}]({page}#{anchor})" for it, anchor in zip(headings, anchors_in(texts[page]))]
        lines += [f"\n## {headings[0]}\n", *(links[1:] or links)]
    return "\n".join(lines) + "\n"


def moved(line: str, reader: Reader, is_code: bool) -> str:
    """A line with what belongs to an item of a list four columns in for each list that it is in."""
    depth, indent = len(reader.margins) - 1, len(line) - len(line.lstrip())
    item = None if is_code else ITEM.match(line)
    if item:
        return f"{' ' * 4 * (depth - 1)}{item[2]}{item[3]}{line[len(item[0]) :]}"
    if indent < reader.margins[-1]:
        return line
    return " " * (indent - reader.margins[-1] + 4 * depth) + line.lstrip()


def title_of(page: str, text: str) -> str:
    """A page's title."""
    headings = headings_in(text)
    return re.sub(r"[`*]", "", headings[0]) if headings else Path(page).stem


def in_order(texts: Mapping[str, str]) -> list[str]:
    """The pages in their order: the README, then each part, in which a README is the first."""
    parts = {page: next(number for number, (_, start) in enumerate(PARTS) if page.startswith(start)) for page in texts}
    return sorted(texts, key=lambda it: (it != "README.md", parts[it], not it.endswith("README.md"), it))


def order(texts: Mapping[str, str]) -> list[object]:
    """The pages as mkdocs shows them: the README, the page of all headings, then each part."""
    left = [page for page in in_order(texts) if page != "README.md"]
    found: list[object] = [{"Wanekupo": "README.md"}, {"All headings": CONTENTS}]
    for title, start in PARTS:
        rows = [{title_of(page, texts[page]): page} for page in left if page.startswith(start)]
        left = [page for page in left if not page.startswith(start)]
        found += [{title: rows}] if rows else []
    return found


def loaded_from_elsewhere(out: Path) -> Iterator[str]:
    """What pages of the site would load from another machine."""
    loads = re.compile(r"""<(?:script|link|img|iframe)\b[^>]*?\b(?:src|href)=["']?((?:https?:)?//[^"'\s>]+)""")
    for path in sorted(out.rglob("*.html")):
        for found in loads.findall(path.read_text("utf-8")):
            yield f"{path.relative_to(out)} loads {found}"
