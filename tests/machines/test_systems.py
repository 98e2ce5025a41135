"""Whole systems, each by a script that is run and judged: the Debian packages, the container image, the roles of
Ansible, and backups of a server under load from snapshots of Btrfs, ZFS and logical volumes.

A fresh Debian is made by debootstrap, or taken from ~/.cache/wanekupo-NAME, where an earlier run left it.
"""

import subprocess
from pathlib import Path

import pytest

from common.commands import PYTHON
from common.needs import ROOT
from machines import snapshots

pytestmark = pytest.mark.root
HERE, CACHE = Path(__file__).resolve().parent, Path("~/.cache").expanduser()


def run(*words: object) -> None:
    """Runs a script in a folder that has the tests, and fails with all that it said."""
    done = subprocess.run(
        [str(it) for it in words], cwd=ROOT / "tests", stdin=subprocess.DEVNULL, stdout=subprocess.PIPE,
        stderr=subprocess.STDOUT, text=True, check=False,
    )  # fmt: skip
    print(done.stdout)
    assert done.returncode == 0, done.stdout[-2000:]


@pytest.mark.slow
@pytest.mark.needs("debootstrap", "lintian", "curl", "openssl")
def test_package(program: Path) -> None:
    run(HERE / "package.sh", "--program", program, "--base", CACHE / "wanekupo-package")


@pytest.mark.slow
@pytest.mark.needs("debootstrap", "podman", "buildah", "crun", "catatonit", "/usr/lib/podman/netavark")
@pytest.mark.needs("iptables", "curl", "openssl")
def test_image(program: Path) -> None:
    run(HERE / "image.sh", "--program", program, "--base", CACHE / "wanekupo-image")


@pytest.mark.slow
@pytest.mark.needs("debootstrap", "ansible-playbook", "ansible-lint")
def test_role(program: Path) -> None:
    run(HERE / "role.sh", "--program", program, "--base", CACHE / "wanekupo-role")


BTRFS = [test.__name__ for _, tests in snapshots.TESTS["btrfs"] for test in tests]


@pytest.mark.needs("mkfs.btrfs", "sqlite3", "setpriv")
@pytest.mark.sizes(4, 1)
@pytest.mark.parametrize("name", BTRFS)
def test_snapshots(program: Path, open_folder: Path, size: int, name: str) -> None:
    """On Btrfs here; a backup is killed before each `size`th call. Root removes a snapshot by four calls or more, so a
    step of four has a kill among them."""
    words = ["--program", program, "--only", "btrfs", "-k", name, "--stride", size]
    run("env", f"TMPDIR={open_folder}", PYTHON, "-B", "-m", "machines.snapshots", *words)


@pytest.mark.qemu
@pytest.mark.slow
@pytest.mark.needs("busybox", "cpio", "debootstrap")
@pytest.mark.sizes(4)
@pytest.mark.parametrize("kind", ["zfs", "lvm"])
def test_snapshots_in_a_guest(program: Path, size: int, kind: str) -> None:
    words = ["--program", program, "--only", kind, "--stride", size, "--cache", CACHE / "wanekupo-snapshots"]
    run(PYTHON, "-B", "-m", "machines.snapshots", *words)
