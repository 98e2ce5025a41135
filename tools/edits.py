"""Wrong bodies: the files `crates/NAME/must-fail/*` that say what is changed, and where.

A file has a line `file:` and below it pairs of lines `old:` and `new:`; a line `test:` names the test that refuses it,
as `conversation_tests::conversations::edges_get_their_replies`. Each old text is in its file once.
"""

import pathlib
import re
from typing import NamedTuple

TOP = pathlib.Path(__file__).resolve().parent.parent
ENDS = re.compile(r"(?:\.edit(?:\.md)?|\.test\.md)$")


class Change(NamedTuple):
    """One place that an edit changes."""

    file: str
    old: str
    new: str


class Edit(NamedTuple):
    """A wrong body: the changes that make it, and the test that refuses it, where one is named."""

    path: pathlib.Path
    changes: tuple[Change, ...]
    test: str

    @property
    def crate(self) -> str:
        return self.path.parts[-3]

    @property
    def name(self) -> str:
        return self.crate + "/" + ENDS.sub("", self.path.name)

    @property
    def is_of_tests(self) -> bool:
        """Whether a test refuses it, by its line `test:`, and no contract need."""
        return bool(self.test) or self.path.name.endswith(".test.md")


def read_edit(path: pathlib.Path) -> Edit:
    """The edit of a file of lines `test:`, `file:`, `old:` and `new:`."""
    changes: list[Change] = []
    file = old = test = ""
    for key, value in re.findall(r"^(test|file|old|new): (.*)$", path.read_text(), re.M):
        if key == "test":
            test = value
        elif key == "file":
            file = value
        elif key == "old":
            old = value
        else:
            changes.append(Change(file, old, value))
    return Edit(path, tuple(changes), test)
