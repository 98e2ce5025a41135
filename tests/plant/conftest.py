"""The deployed form that tests of the plant run over."""

from collections.abc import Iterator
from pathlib import Path

import pytest

from common.deployed import Place


@pytest.fixture
def place(open_folder: Path, program: Path) -> Iterator[Place]:
    """The deployed form, whose nginx a test starts. No outer token came to the program, and no request with two."""
    place = Place(open_folder, program)
    try:
        yield place
        place.closed_to_outer()
    finally:
        place.close()
