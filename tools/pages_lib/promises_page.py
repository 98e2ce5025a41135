"""Makes the list of promises, a page of the site and of the packages: each promise with the calls that carry it, the
clause that says it where that is short, and what stands behind it. No file of the repository has it."""

import re
import textwrap
from collections.abc import Iterator, Sequence

from pages_lib import rattle
from pages_lib.audit import Audit, many
from pages_lib.promises import Call, Promise
from pages_lib.promises_text import HEAD

# Where the site and the packages have it, in the place of the file that pages link to.
PROMISES_PAGE = "docs/proof/list.md"
PROMISES = "docs/promises.toml"

COLUMNS = 100

# How many lines of its source a clause has at most that the page quotes, and how many letters in one line.
LINES, LETTERS = 5, 130


def filled(text: str, indent: str) -> list[str]:
    """A text in lines of a page's width, those behind the first so far in."""
    return textwrap.wrap(text, COLUMNS, subsequent_indent=indent, break_long_words=False, break_on_hyphens=False)


def wrapped(text: str, indent: str = "") -> str:
    """A paragraph in lines of a page's width. Links aren't broken, nor is a number of definitions."""
    whole = r"\[[^\]]*\]\([^)]*\)|\b\d+ definitions?\b"
    kept = re.sub(whole, lambda it: it[0].replace(" ", "\0"), " ".join(text.split()))
    return "\n".join(filled(kept, indent)).replace("\0", " ")


def sentence(text: str) -> str:
    """A text that begins with a capital letter and has a full stop behind it."""
    return text[:1].upper() + text[1:] + ("" if text.endswith(".") else ".")


def linked(call: Call) -> str:
    """A call, with a link to its line."""
    return f"[`{call.name}`](../../crates/{call.path}#L{rattle.line_of(call.file, call.name)})"


def quoted(call: Call) -> str:
    """What the first clause of a call says, where that is short."""
    lines = [line for line in call.texts()[0].splitlines() if line.strip() and not line.strip().startswith("//")]
    said = re.search(r"\{(.*)\}", " ".join(" ".join(lines).split()))
    return said[1].strip() if said and len(lines) <= LINES and len(said[1]) <= LETTERS else ""


def carried(call: Call, said: str) -> str:
    """A call with its clauses, and what the first of them says."""
    names = [f"`{name}`" for name in call.clauses]
    if not said:
        return f"{linked(call)} {', '.join(names)}".rstrip()
    also = f", also {', '.join(names[1:])}" if names[1:] else ""
    return f"{' '.join([linked(call), *names[:1]])}: `{said}`{also}"


def calls_of(promise: Promise, said: str) -> str:
    """The calls of a promise. The first clause of the first is the one that says it."""
    texts = (carried(call, "" if place else said) for place, call in enumerate(promise.calls))
    return sentence("; ".join(texts) or promise.by)


def fitting(head: str, names: Sequence[str]) -> str:
    """Names in one line behind a word: as many as it has room for, and how many more there are."""
    lines = (
        f"{head} {', '.join(f'`{name}`' for name in names[:count])}"
        + (f", and {len(names) - count} more" if count < len(names) else "")
        for count in range(len(names), 0, -1)
    )
    return next(line for line in lines if len(line) + len("- ") <= COLUMNS)


def items(audit: Audit, promise: Promise, said: str) -> Iterator[str]:
    """A promise: its sentence, and what stands behind it."""
    tested = f" **Only tested:** {promise.tested}." if promise.tested else ""
    yield f"*{sentence(promise.says)}*{tested}"
    rests = f" {sentence(many(audit.count(promise.name), 'definition'))}" if promise.rests_on else ""
    yield f"{calls_of(promise, said)}{rests}"
    if promise.asked or promise.bodies:
        yield fitting("**Wrong bodies:**", [*promise.asked, *promise.bodies])
    if promise.rules:
        yield fitting("**Wrong rules:**", [it.name for it in promise.rules])


def section(audit: Audit, promise: Promise, said: str) -> str:
    """A promise as a list under its name."""
    return "\n".join([f"## {promise.name}", *(wrapped(f"- {it}", "  ") for it in items(audit, promise, said))])


def page(audit: Audit) -> str:
    """The page. A clause is quoted once, under the first promise that it says."""
    parts, seen = [HEAD.format(total=wrapped(audit.total())).rstrip()], {""}
    for promise in audit.promises:
        said = quoted(promise.calls[0]) if promise.calls else ""
        parts.append(section(audit, promise, "" if said in seen else said))
        seen.add(said)
    return "\n\n".join(parts) + "\n"
