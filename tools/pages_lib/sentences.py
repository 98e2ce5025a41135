"""The sentences of a page, outside tables and code, and how long they are.

A paragraph, an item of a list and a line of a quotation end a sentence; within them `.`, `?` and `!` do, where a
blank and a capital, a digit, a quotation mark, a parenthesis or a name in backticks comes next. A colon or a
semicolon ends none. A word is what stands between blanks and has a letter or a digit; what stands in backticks is
one word, and so is a link's address none. What has fewer than four words and ends without a mark, as an item that
is a name, is no sentence. A page of fewer than ten sentences may have one long one.
"""

import dataclasses
import re
from collections.abc import Iterator

LONGEST, LONG, LONG_ONES = 40, 24, 10

ITEM = re.compile(r"^(\s*)([-*+]|\d+[.)])(\s+)")
END = re.compile(r"""(?<=[.?!])[*_)"'\]]*\s+(?=[A-Z0-9"'(*_`\[\0])""")
RULER = re.compile(r"[-=*_]{3,}")
ABBREVIATIONS = re.compile(r"\b(e\.g|i\.e|etc|cf|vs|No|approx)\.(?=\s)")


@dataclasses.dataclass(frozen=True)
class Sentence:
    """A sentence: the line of the page in which its paragraph begins, and its text."""

    line: int
    text: str

    @property
    def words(self) -> int:
        """How many words it has."""
        return sum(1 for word in self.text.split() if re.search(r"[^\W_]|\0", word))


def plain(text: str) -> str:
    """A paragraph as it is read: a name in backticks as one word, a link as its text, and no marks of form."""
    text = re.sub(r"<!--.*?-->", "", text, flags=re.DOTALL)
    text = re.sub(r"!?\[([^\]]*)\]\([^)]*\)", r"\1", text)
    text = re.sub(r"(`+)(.+?)\1", lambda it: "`" + "\0".join(it[2].split()) + "`", text, flags=re.DOTALL)
    return ABBREVIATIONS.sub(r"\1", re.sub(r"\*\*|(?<!\w)[*_]|[*_](?!\w)", "", re.sub(r"<[^>\s][^>]*>", "", text)))


class Reader:
    """Reads lines, and knows where code begins and ends: in a fence, or four columns in behind an empty line."""

    def __init__(self) -> None:
        self.fence, self.margins, self.is_in_code, self.was_empty = "", [0], False, True

    def is_code(self, line: str) -> bool:
        """Whether the next line is code, or opens or closes a fence."""
        opens, indent, item = re.match(r"\s*(```+|~~~+)", line), len(line) - len(line.lstrip()), ITEM.match(line)
        if opens and (not self.fence or opens[1] == self.fence):
            self.fence = "" if self.fence else opens[1]
            return True
        if self.fence or not line.strip():
            self.was_empty = not line.strip()
            return bool(self.fence)
        while len(self.margins) > 1 and indent < self.margins[-1] and (self.was_empty or item):
            self.margins.pop()
        self.is_in_code = indent >= self.margins[-1] + 4 and (self.is_in_code or self.was_empty)
        if item and not self.is_in_code:
            self.margins.append(len(item[0]))
        self.was_empty = False
        return self.is_in_code


def paragraphs(text: str) -> Iterator[tuple[int, str]]:
    """The paragraphs and items of lists of a page, each with its first line, without headings, tables and code."""
    reader, lines, first = Reader(), list[str](), 0
    for number, line in enumerate([*re.sub(r"(?s)<!--.*?-->", blank, text).split("\n"), ""], 1):
        bare, item = line.strip(), ITEM.match(line)
        is_text = bool(bare) and not reader.is_code(line) and bare[0] not in "#|" and not RULER.fullmatch(bare)
        if not bare:
            reader.is_code(line)
        if lines and (not is_text or item or bare[0] == ">"):
            yield first, " ".join(lines)
            lines = []
        if is_text:
            first = first if lines else number
            lines.append(line[len(item[0]) :].strip() if item else bare.lstrip("> "))


def blank(found: re.Match[str]) -> str:
    """As many lines as a comment has, empty."""
    return "\n" * found[0].count("\n")


def sentences(text: str) -> list[Sentence]:
    """The sentences of a page."""
    found = list[Sentence]()
    for line, paragraph in paragraphs(text):
        for part in END.split(plain(paragraph)):
            one = Sentence(line, part.strip())
            if one.words >= 4 or one.words and re.search(r"[.?!][\"')*_]*$", one.text):
                found.append(one)
    return found


@dataclasses.dataclass(frozen=True)
class Count:
    """How many sentences a page has, how many are long, and those that are too long."""

    sentences: int
    long: int
    longest: list[Sentence]

    def faults(self) -> Iterator[str]:
        """What is wrong with the page."""
        if LONG_ONES * self.long > max(LONG_ONES, self.sentences):
            yield f"{self.long} of {self.sentences} sentences above {LONG} words, one in {LONG_ONES} at most"
        for it in self.longest:
            yield f"line {it.line}: {it.words} words, {LONGEST} at most: {shown(it.text)}"


def shown(text: str) -> str:
    """The beginning of a sentence."""
    text = text.replace("\0", " ")
    return text if len(text) <= 90 else f"{text[:88]}.."


def counted(text: str) -> Count:
    """A page's count."""
    found = sentences(text)
    words = [it.words for it in found]
    return Count(len(found), sum(it > LONG for it in words), [it for it in found if it.words > LONGEST])
