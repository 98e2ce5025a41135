"""The plant that tests are run over: the program, a site, a port, tokens, chips, journals; and what each test takes.

Options have small defaults. A test that can't be run here is skipped, and says why.
"""

import os
import random
import shutil
import tempfile
from collections.abc import Callable, Iterator
from pathlib import Path

import pytest

from common.needs import ROOT, missing
from common.ports import free_port

# What each marker takes of a machine.
TAKEN = {
    "nginx": ("nginx", "openssl", "curl"),
    "browser": ("chromium",),
    "root": ("root",),
    "qemu": ("qemu-system-x86_64",),
}


def pytest_addoption(parser: pytest.Parser) -> None:
    group = parser.getgroup("station", "the program, and how much is tried")
    default = os.environ.get("STATION_PROGRAM", ROOT / "crates/station/out/station")
    group.addoption("--program", type=Path, default=Path(default), help="the built program")
    group.addoption("--size", type=int, help="how many chips, kills, devices or requests, where a test has sizes")
    group.addoption("--seed", type=int, default=7, help="of random choices")
    group.addoption("--espefuse", default=os.environ.get("ESPEFUSE"), help="the words that run espefuse 4")
    group.addoption("--found", type=Path, help="a file to which tests add what they measured and counted, a line each")
    group.addoption("--write", action="store_true", help="put what a test shows into the pages that have it")


def pytest_configure(config: pytest.Config) -> None:
    """The tests of python/tests/client, whose plant some tests use, take the program from the environment."""
    os.environ["STATION_PROGRAM"] = str(config.option.program.resolve())
    os.environ["PYTHONDONTWRITEBYTECODE"] = "1"


def pytest_generate_tests(metafunc: pytest.Metafunc) -> None:
    """A test with `sizes` is run with each of its sizes, or with that of --size alone."""
    marker, chosen = metafunc.definition.get_closest_marker("sizes"), metafunc.config.option.size
    if not marker or "size" not in metafunc.fixturenames:
        return
    if chosen is None:
        short, *long = marker.args
        sizes = [short, *(pytest.param(it, marks=pytest.mark.slow) for it in long)]
        metafunc.parametrize("size", sizes, scope="module")
    else:
        metafunc.parametrize("size", [chosen], scope="module")


def pytest_collection_finish() -> None:
    """A module of python/tests/client takes the modes of files away for all; a test that wants that says so."""
    os.umask(0o022)


def pytest_runtest_setup(item: pytest.Item) -> None:
    """Skips a test where this machine lacks what its markers take."""
    needs = [need for marker in item.iter_markers("needs") for need in marker.args]
    needs += [need for name, taken in TAKEN.items() if item.get_closest_marker(name) for need in taken]
    if lacking := missing(dict.fromkeys(needs)):
        pytest.skip(f"there is no {', '.join(lacking)}")


@pytest.fixture(scope="session")
def program(request: pytest.FixtureRequest) -> Path:
    """The built program."""
    path = request.config.option.program.resolve()
    if not os.access(path, os.X_OK):
        pytest.skip(f"{path} is no program: `rt run` in crates/station builds it, or --program names another")
    return path


@pytest.fixture
def seed(request: pytest.FixtureRequest) -> int:
    """The seed of random choices."""
    return request.config.option.seed


@pytest.fixture
def chance(seed: int) -> random.Random:
    """Random choices, the same with the same seed."""
    return random.Random(seed)


@pytest.fixture
def is_written(request: pytest.FixtureRequest) -> bool:
    """Whether what a test shows is put into the pages that have it."""
    return request.config.option.write


@pytest.fixture(scope="session")
def found(request: pytest.FixtureRequest) -> Callable[[str], None]:
    """Tells a line of what a test measured or counted; it goes to the end of --found too."""

    def tell(line: str) -> None:
        print(line)
        if path := request.config.option.found:
            with open(path, "a", encoding="utf-8") as file:
                print(line, file=file)

    return tell


@pytest.fixture
def port() -> int:
    """A free port of this machine."""
    return free_port()


@pytest.fixture
def site(tmp_path: Path) -> Path:
    """A copy of the sample's site in a folder of its own: acme's seat a1 has the token abc, bolt's seat b1 hello."""
    return Path(shutil.copy(ROOT / "crates/station/data/site.toml", tmp_path / "site.toml"))


@pytest.fixture
def open_folder() -> Iterator[Path]:
    """A folder that other users may enter, as they may not enter pytest's."""
    with tempfile.TemporaryDirectory() as folder:
        os.chmod(folder, 0o755)
        yield Path(folder)
