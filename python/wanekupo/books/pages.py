"""Pages that are read on a screen and printed: one file of HTML, without a script and without anything from elsewhere.

All text is escaped, and no control character of a journal or a store comes through. The page's own policy lets nothing
in but its style, as that of the page of yields.
"""

import base64
import hashlib
from dataclasses import dataclass
from datetime import datetime, timezone
from html import escape
from pathlib import Path
from typing import Any, Iterable, Mapping, Sequence

from wanekupo import __version__
from wanekupo.common.files import replace_bytes
from wanekupo.common.moments import text_of as moment_text
from wanekupo.common.texts import csv_lines, shown
from wanekupo.books.yields import LOOKS, fill, patterns

READABLE = 0o644

STYLE = """
body { font: 14px/1.45 system-ui, sans-serif; color: #1a1a1a; background: #fff; max-width: 76rem; margin: 0 auto;
  padding: 1rem; }
h1 { font-size: 1.5rem; margin: 0 0 .25rem; }
h2 { font-size: 1.1rem; margin: 1.25rem 0 .25rem; }
p { margin: .25rem 0; }
.verdict { font-size: 1.1rem; font-weight: 600; border: 2px solid; padding: .4rem .6rem; margin: .5rem 0; }
.found { border-style: dashed; }
table { border-collapse: collapse; margin: .4rem 0; width: 100%; }
caption { text-align: left; padding: .15rem 0; }
th, td { border: 1px solid #8a8a8a; padding: .15rem .45rem; text-align: left; vertical-align: top;
  overflow-wrap: anywhere; }
td.number, th.number { text-align: right; overflow-wrap: normal; }
thead { display: table-header-group; }
tr, svg { break-inside: avoid; }
ul.looks { list-style: none; display: flex; flex-wrap: wrap; gap: .2rem 1rem; padding: 0; margin: .3rem 0; }
@page { margin: 14mm; }
@media print { body { max-width: none; padding: 0; font-size: 10px; } }
"""


def _policy() -> str:
    """What the page may load: nothing, and no style but its own."""
    digest = base64.b64encode(hashlib.sha256(STYLE.encode()).digest()).decode()
    return f"default-src 'none'; style-src 'sha256-{digest}'; base-uri 'none'; form-action 'none'"


def text(given: Any) -> str:
    """A text for HTML, in which what isn't visible stands as Python writes it."""
    return escape(shown(str(given)))


def page(title: str, parts: Iterable[str]) -> str:
    head = [
        "<!DOCTYPE html>",
        '<html lang="en">',
        "<head>",
        '<meta charset="utf-8">',
        f'<meta http-equiv="Content-Security-Policy" content="{escape(_policy())}">',
        '<meta name="viewport" content="width=device-width, initial-scale=1">',
        f"<title>{text(title)}</title>",
        f"<style>{STYLE}</style>",
        "</head>",
        "<body>",
        f"<h1>{text(title)}</h1>",
    ]
    made = paragraph(f"Made by wanekupo {__version__} at {moment_text(datetime.now(timezone.utc))}.")
    return "\n".join([*head, *parts, made, "</body>", "</html>", ""])


def _time(seconds: str) -> str:
    """How long something took."""
    if not seconds.isdecimal() or int(seconds) < 120:
        return f"{seconds} s" if seconds else ""
    minutes = int(seconds) // 60
    return f"{minutes} min" if minutes < 120 else f"{minutes // 60} h {minutes % 60} min"


def heading(title: str) -> str:
    return f"<h2>{text(title)}</h2>"


def paragraph(said: str, kind: str = "") -> str:
    return f'<p class="{kind}">{text(said)}</p>' if kind else f"<p>{text(said)}</p>"


@dataclass(frozen=True)
class Table:
    """Rows under the names of their columns, for a terminal, a page and a file. `name` is that of its file, and what
    stands in `numbers` is a column of numbers."""

    name: str
    title: str
    columns: tuple[str, ...]
    rows: Sequence[Sequence[Any]]
    numbers: frozenset[str] = frozenset()
    nothing: str = "None."

    def texts(self) -> list[list[str]]:
        return [["" if field is None else str(field) for field in row] for row in self.rows]

    def read(self) -> list[list[str]]:
        """The same as people read it: seconds as minutes or hours."""
        is_time = [name.endswith("_s") for name in self.columns]
        return [[_time(field) if its else field for field, its in zip(row, is_time)] for row in self.texts()]

    def as_html(self) -> str:
        if not self.rows:
            return f"{heading(self.title)}\n{paragraph(self.nothing)}"
        kinds = [' class="number"' if name in self.numbers else "" for name in self.columns]
        names = (text(name.removesuffix("_s").replace("_", " ")) for name in self.columns)
        head = "".join(f'<th scope="col"{kind}>{name}</th>' for name, kind in zip(names, kinds))
        rows = [
            "<tr>" + "".join(f"<td{kind}>{text(field)}</td>" for field, kind in zip(row, kinds)) + "</tr>"
            for row in self.read()
        ]
        body = "\n".join(rows)
        return f"{heading(self.title)}\n<table>\n<thead><tr>{head}</tr></thead>\n<tbody>\n{body}\n</tbody>\n</table>"

    def as_text(self) -> str:
        """A table for people on a terminal: the columns under each other, those of numbers to the right."""
        if not self.rows:
            return f"{self.title}: {self.nothing}\n"
        names = [name.removesuffix("_s") for name in self.columns]
        rows = [names, *([shown(field) for field in row] for row in self.read())]
        widths = [max(map(len, column)) for column in zip(*rows)]
        lines = []
        for row in rows:
            fields = [
                field.rjust(width) if name in self.numbers else field.ljust(width)
                for field, width, name in zip(row, widths, self.columns)
            ]
            lines.append("  ".join(fields).rstrip())
        return "\n".join([f"{self.title}:", *lines, ""])

    def as_csv(self) -> str:
        return csv_lines([self.columns, *self.texts()])


def looks() -> str:
    """How the states look, with their names."""
    items = (
        f'<li><svg width="14" height="14" aria-hidden="true"><rect width="14" height="14" fill="{fill(look.state)}" '
        f'stroke="#1a1a1a"/></svg> {look.state}</li>'
        for look in LOOKS
    )
    tiles = f'<svg width="0" height="0" aria-hidden="true"><defs>{"".join(patterns())}</defs></svg>'
    return f'{tiles}\n<ul class="looks">{"".join(items)}</ul>'


def bars(rows: Mapping[str, Mapping[str, int]]) -> str:
    """A bar for each name, by states. Its patterns are those of `looks`, which has to be on the same page."""
    most = max([1, *(sum(counts.values()) for counts in rows.values())])
    parts = [f'<svg width="100%" viewBox="0 0 1000 {max(1, len(rows)) * 26}" role="img" font-size="13">']
    for place, (name, counts) in enumerate(rows.items()):
        left, top = 300.0, place * 26
        told = ", ".join(f"{count} {state}" for state, count in counts.items() if count)
        parts.append(f'<text x="290" y="{top + 17}" text-anchor="end">{text(name)}</text><g>')
        parts.append(f"<title>{text(name)}: {text(told or 'no chips')}</title>")
        for look in LOOKS:
            width = 640 * counts.get(look.state, 0) / most
            if width:
                place_of = f'x="{left:g}" y="{top + 4}" width="{width:g}" height="17"'
                parts.append(f'<rect {place_of} fill="{fill(look.state)}" stroke="#1a1a1a" stroke-width="0.75"/>')
                left += width
        parts.append(f'</g><text x="{left + 8:g}" y="{top + 17}">{sum(counts.values())}</text>')
    return "\n".join([*parts, "</svg>"])


def write(file: Path, written: str) -> bytes:
    """Writes a page or a table: whole or not at all, for others to read. What isn't ASCII stands in UTF-8. Gives what
    was written."""
    data = written.encode("utf-8", "backslashreplace")
    replace_bytes(file, data, READABLE)
    return data
