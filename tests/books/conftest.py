"""A small plant with a morning behind it, which the tests of a file are run over."""

from collections.abc import Iterator

import pytest

from books.seal_places import run
from books.seal_plant import TOKENS, Plant, plant, work
from common.ports import free_port


@pytest.fixture(scope="module")
def made(program, tmp_path_factory) -> Iterator[Plant]:
    """The plant, which is served. In its folder are the journals of acme and bolt; of its store a copy from the middle
    of the morning in `early`, one from its end in `copy`, and a seal of that in `plant`."""
    folder = tmp_path_factory.mktemp("morning")
    with plant(str(program), folder, free_port()) as made:
        work(made, lambda: made.copied("early"))
        made.copied("copy")
        (folder / "plant").mkdir()
        status, text = run("seal", folder / "plant", "--store", folder / "copy/books.db")
        assert status == 0, text
        yield made


@pytest.fixture
def folder(made):
    return made.folder


@pytest.fixture
def looks(folder):
    """The words that ask what is left, by a token that looks of each customer."""
    for name, seat in (("acme", "a1"), ("bolt", "b1")):
        (folder / f"{name}.look").write_text(TOKENS[seat])
        (folder / f"{name}.look").chmod(0o600)
    return [word for name in ("acme", "bolt") for word in ("--left", f"{name}={folder / name}.look")]
