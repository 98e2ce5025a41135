"""What `tools/pages` counts and looks up of the pages: their lines, and what the page of claims names."""

import sys

from conftest import TOP

sys.path.insert(0, str(TOP / "tools"))

from pages_lib import claims, lengths  # noqa: E402


def test_lines():
    most = {"README.md": lengths.README_LINES, "a.md": lengths.ALL_LINES - lengths.README_LINES}
    assert list(lengths.lengths_at_fault(most)) == []
    for page, faults in (("README.md", 2), ("a.md", 1)):
        assert len(list(lengths.lengths_at_fault(most | {page: most[page] + 1}))) == faults


def test_which_pages_are_counted():
    lines = lengths.lines_of_pages()
    assert lines["README.md"] == len((TOP / "README.md").read_bytes().splitlines())
    assert {"docs/decisions.md", "kit/README.md"} < set(lines) and not set(lines) & set(lengths.PRINTED)


def test_commands():
    nobody = "test_" + "nobodys"
    for command, missing in (
        ("tests/all faults/test_kill.py --size 200 -k 'kills and not slow'", []),
        ("tools/pages --list all-of-a-run", []),
        ("tools/strength office_core office_sql/commit_in_two_transactions", []),
        ("tools/strength office_sql/commit_in_three", ["office_sql/commit_in_three"]),
        (f"tests/all faults/test_kills.py -k {nobody} --sizes 3", ["faults/test_kills.py", nobody, "--sizes"]),
        ("tools/pages --list all-of-a-walk", ["all-of-a-walk"]),
        ("tools/rules repeat_acts_again keeper_is_read_after_the_commit", ["keeper_is_read_after_the_commit"]),
        ("tools/rulers wrong", ["tools/rulers"]),
    ):
        assert list(claims.words_at_fault(command)) == missing
