"""A store on two machines, with the power really cut: guests of qemu, DRBD, and what a plant installs for a standby.

Two machines are joined by a cable and have one half of the store each. Four stations on this machine, by
python with journals, ask an address that is the one or the other. A SIGKILL of a machine's qemu is its power
cut, and what was in its memory is gone; a cable that hands nothing on is a cut one; SIGSTOP is a machine that hangs.
Its disk keeps what qemu was told to write, also what no flush was asked for: what a disk loses of that, `powercut`
tries.

The scenarios are those of docs/operate/second-machine.md: `ab` the power of the first, and behind a resync of the
other one; `c` the cable, then the power of the first, which has gone on alone; `c-boot` the same with a second that was
off meanwhile; `cable` a cable that is mended; `d` the cable, where the second takes over from a frozen first; `d-told`
where the first has gone on; `e` the disk of the second, `e-first` of the first; `f` the power of both, `f-one` of which
one comes back; `g` a first that hangs and wakes up; `h` a new program; `fence` the plant's power switch says that the
other machine is off, `fence-dead` it says nothing; `frozen` a word and a mended cable that come when DRBD's tool waits
no more, by a shortened wait (`frozen-10`: by the ten minutes themselves; it runs where it is named); `witness` wrong
ones; `late` a station that begins while the first is alone, whose part of the witness is missing; `tokens` a token that
is ended on one machine alone; `killed` a takeover that is killed; `both` both halves were written; `lost` the newer
half is lost; `cost` requests a second in four places; `moved` one of four programs behind nginx, which goes to the
second machine. Behind each the books are compared with those of an undisturbed run of the same requests, table by
table, out of both halves.

Each test says the requests that have a reply, the serial numbers, what was lost and what is there twice, and for each
thing that befell the seconds until DRBD saw it, how long `takeover` took (and of a processor), and from then on until
the next reply. The last lines are the rows of the page's table, with the median and the longest of these seconds. A
fault that is planted in what the guests have has to be found. It fetches Debian's kernel and drbd-utils once by apt-get
into ~/.cache/wanekupo-standby. It needs no root. `machines/standby` has what it is made of.
"""

import tempfile
from collections.abc import Callable, Iterator
from dataclasses import replace
from pathlib import Path

import pytest

from machines.standby import words
from machines.standby.guests import cut_all
from machines.standby.image import Packages, python_files
from machines.standby.pair import image_of
from machines.standby.plants import PLANTS
from machines.standby.runs import ELSE, SCENARIOS, Made, Run, set_up, tried
from machines.standby.summary import HEAD, rows, total

pytestmark = pytest.mark.needs(
    "cpio", "busybox", "/sbin/mke2fs", "/sbin/dmsetup", "nginx", "sqlite3", "/usr/bin/python3.11"
)  # fmt: skip
CACHE = Path("~/.cache/wanekupo-standby").expanduser()
# How many times as long as deployed DRBD waits, as a guest is slow; 1 on a quiet machine.
SLOWER = 3


@pytest.fixture(scope="module")
def packages() -> Packages:
    return Packages(CACHE).fetch()


@pytest.fixture(scope="module")
def folder() -> Iterator[Path]:
    """Where the disks are made: in memory, where that can be. Behind it no guest is left."""
    where = Path("/dev/shm") if Path("/dev/shm").is_dir() else None
    with tempfile.TemporaryDirectory(dir=where, prefix="standby-") as name:
        try:
            yield Path(name)
        finally:
            cut_all()


@pytest.fixture(scope="module")
def made(program: Path, packages: Packages, folder: Path) -> Made:
    """The kernel, the first file system of a guest, and the two disks of a new store."""
    image = image_of(packages, folder, [program, program], SLOWER)
    return set_up(folder / "base", Made(packages.kernel(), image.file, program))


@pytest.fixture(scope="module")
def runs(found: Callable[[str], None]) -> Iterator[list[Run]]:
    """All runs, whose table is printed at the end."""
    these: list[Run] = []
    yield these
    print("", HEAD, *rows(these), sep="\n")
    if these:
        found(total(these))


def tell_run(run: Run, found: Callable[[str], None]) -> None:
    counts = run.counts
    asked = f"{counts.get('requests', 0)} requests, {counts.get('serials', 0)} serial numbers, {run.refusals} refusals"
    lost = f"lost {counts.get('lost', 'unknown')}, twice {counts.get('twice', 'unknown')}, {len(run.faults)} faults"
    found(f"{run.name} seed {run.seed}: {asked}, {lost}, in {run.seconds:.0f} s")
    for cut in run.cuts:
        taken = f"takeover {cut.takeover:.1f} ({cut.used:.1f} of a processor), then a reply in {cut.replied:.1f}"
        found(f"    {cut.name}, seconds: seen {cut.seen:.1f}, {taken}")
    for line in run.measured:
        found(f"    {line}")
    print(*(run.said if run.faults else []), sep="\n")


@pytest.mark.qemu
@pytest.mark.slow
@pytest.mark.parametrize("name", [*(it for it in SCENARIOS if it not in ELSE), "frozen-10"])
def test_scenario(made: Made, folder: Path, runs: list[Run], found: Callable, seed: int, name: str) -> None:
    run = tried(name, seed, folder / name, made)
    runs.append(run)
    tell_run(run, found)
    assert run.faults == []


@pytest.mark.qemu
@pytest.mark.slow
@pytest.mark.parametrize("name", PLANTS)
def test_planted_fault(made: Made, packages: Packages, folder: Path, seed: int, name: str) -> None:
    """Its scenario has to fail, and to say why."""
    plant, own = PLANTS[name], folder / name
    own.mkdir()
    image = image_of(packages, own, [made.program], SLOWER, plant.edits)
    run = tried(plant.scenario, seed, own / plant.scenario, replace(made, first=image.file))
    assert [fault for fault in run.faults if plant.said in fault], run.faults


@pytest.mark.parametrize("name", ["none", *PLANTS])
def test_guest_is_prepared(program: Path, tmp_path: Path, name: str) -> None:
    """The commands and settings of the guests, with each planted fault: all that needs no package and no guest."""
    edits = PLANTS[name].edits if name in PLANTS else ()
    tree = image_of(Packages(tmp_path), tmp_path, [program], SLOWER, edits, is_made=False).tree
    assert (tree / words.HANDLER).read_text("utf-8").splitlines().count(words.WAITS) == 1
    assert len(python_files()) > 100
