"""What a run of metrics reads of a folder's journals, into which a station's key writes, is bounded."""

from pathlib import Path

import pytest

from wanekupo.common.errors import BadJournal
from wanekupo.metrics import journal_counts
from wanekupo.metrics.exposition import Samples

REPLY = '{"at":"2026-11-29T00:00:00Z","nr":1,"reply":{"no":11,"error":"e"},"status":409}\n'
# A line that a run looks at and passes over, each time anew.
NONE = "[1,1,1]\n"


@pytest.fixture
def folder(tmp_path: Path, monkeypatch: pytest.MonkeyPatch) -> Path:
    """The folder of all, in which pc7 is hostile and pc8 has a seat that stopped. A run reads four lines of each."""
    monkeypatch.setattr(journal_counts, "MOST_NEW", 4 * len(REPLY), raising=False)
    (tmp_path / "journals.toml").write_text('[folders]\npc7 = ["a1"]\npc8 = ["b1"]\n')
    for name, seat in (("pc7", "a1"), ("pc8", "b1")):
        (tmp_path / "all" / name).mkdir(parents=True)
        (tmp_path / "all" / name / f"{seat}-2026-11-29.journal").write_text(REPLY)
    return tmp_path / "all"


def run(folder: Path, kept: dict) -> tuple[str, str]:
    """What a run writes, and what it tells."""
    samples, told = Samples(), ""
    try:
        journal_counts.add_journals(samples, kept, [folder], folder.parent / "journals.toml")
    except BadJournal as error:
        told = str(error)
    return samples.text(), told


def test_what_is_new_is_read_by_several_runs(folder: Path) -> None:
    kept: dict = {}
    file = folder / "pc7/a1-2026-11-29.journal"
    file.write_text(10 * REPLY)
    for number in (4, 8, 10):
        text, told = run(folder, kept)
        assert kept["read"][str(file)] == number * len(REPLY)
        assert ("pc7 has more than" in told) is (number < 10)
        assert f'folder="pc7",part="journals"}} {int(number == 10)}' in text
        assert 'wanekupo_seat_out_of_step{seat="b1"} 1' in text and 'folder="pc8",part="journals"} 1' in text


def test_what_is_passed_over_is_bounded_too(folder: Path, monkeypatch: pytest.MonkeyPatch) -> None:
    opened = []
    lines_of = journal_counts.lines_of
    monkeypatch.setattr(journal_counts, "lines_of", lambda file, *words, **more: [
        opened.append(file), *lines_of(file, *words, **more)][1:])  # fmt: skip
    for number in range(100):
        (folder / f"pc7/0{number:02}.journal").write_text(NONE)
    _, told = run(folder, {})
    assert "is no line of a journal" in told and len(opened) < 60
