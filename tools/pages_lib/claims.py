"""Whether what the page of claims names is there: of a clause in backticks, `FILE CALL: CLAUSE, ..`, the call with
these clauses; of a command the files, the options, and the names that it is given."""

import re
from collections.abc import Iterator

from pages_lib.markdown import prose_of
from pages_lib.names import is_word
from pages_lib.promises import call_of, read_promises
from pages_lib.rattle import TOP, rules, text_of

PAGE = "docs/proof/claims.md"
CLAUSE = re.compile(r"\w+/src/\S+ \w+(?:: .*)?")
COMMAND = re.compile(r"(?:\./check|(?:tools|tests|bench)/\w+)\b.*")


def claims_at_fault() -> Iterator[str]:
    """The clauses and commands of the page that the tree hasn't."""
    marked = re.findall(r"`([^`\n]+)`", prose_of(PAGE))
    clauses, commands = (list(filter(it.fullmatch, marked)) for it in (CLAUSE, COMMAND))
    if not clauses or not commands:
        yield f"{PAGE} names no clause, or no command"
    for clause in clauses:
        if not call_of(clause).texts():
            yield f"{PAGE}: there is no call with these clauses: {clause}"
    for command in commands:
        for word in words_at_fault(command):
            yield f"{PAGE}: `{command}`: {word} isn't there"


def words_at_fault(command: str) -> Iterator[str]:
    """The words of a command that are no file, no option of its program, and no name of the tree."""
    program, *words = command.replace("'", "").split()
    folder = program.rpartition("/")[0]
    if not (TOP / program).is_file():
        yield program
        return
    promises = {it.name for it in read_promises()}
    known = text_of(TOP / program) + text_of(TOP / "tests/conftest.py") + " -k -q -m "
    for word in words:
        if program == "tools/rules":
            is_there = word in rules()
        elif "/" in word:
            places = (f"{folder}/{word}", word, f"crates/{word.replace('/', '/must-fail/')}.*")
            is_there = any(any(TOP.glob(place)) for place in places)
        elif word.startswith("-"):
            is_there = bool(re.search(rf"(?<![-\w]){word}\b", known))
        else:
            is_there = word in promises if "-" in word else word.isdigit() or is_word(word)
        if not is_there:
            yield word
