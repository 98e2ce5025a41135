"""Files that somebody hands to root: a pipe, and a link to what never ends, keep no tool from its end, nor its lock."""

import os
from collections.abc import Callable
from pathlib import Path

import pytest

from wanekupo.common.site_file import read_site_file
from wanekupo.common.token_file import inner_of
from wanekupo.standby.half import StandbyError
from wanekupo.standby.witness import read_witness

READERS = [read_site_file, inner_of, read_witness]
# What each has where all is well.
TEXTS = {read_site_file: "customer = []\n", inner_of: "abc\n", read_witness: "at 2026-11-29T09:00:00Z\nseat a1 17\n"}


@pytest.mark.parametrize("read", READERS)
def test_what_is_handed_is_read_through_a_link(tmp_path: Path, read: Callable[[str], object]) -> None:
    (tmp_path / "f").write_text(TEXTS[read])
    (tmp_path / "link").symlink_to("f")
    assert read(str(tmp_path / "link")) == read(str(tmp_path / "f"))


@pytest.mark.parametrize("read", READERS)
@pytest.mark.parametrize("what", ["pipe", "device", "large"])
def test_what_is_handed_and_never_ends(tmp_path: Path, read: Callable[[str], object], what: str) -> None:
    file = tmp_path / "f"
    if what == "pipe":
        os.mkfifo(file)
    elif what == "large":
        file.write_bytes(b"#" * ((1 << 20) + 1))
    else:
        file.symlink_to("/dev/null")  # /dev/zero would take all memory where it were read
    with pytest.raises((OSError, StandbyError), match="no plain file|has more than"):
        read(str(file))
