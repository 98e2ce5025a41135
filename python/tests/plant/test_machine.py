"""What `wanekupo metrics` shows of its machine where nginx is silent, systemd refuses, a name is odd or pools touch."""

import os
import socket
import subprocess
import time
from pathlib import Path

import pytest
from wanekupo.common.errors import StationError
from wanekupo.metrics import machine
from wanekupo.metrics.exposition import Samples
from wanekupo.metrics.stock import add_addresses


def test_who_says_nothing_is_waited_for_no_longer(monkeypatch: pytest.MonkeyPatch) -> None:
    monkeypatch.setattr(machine, "LONGEST", 0.2)
    with socket.create_server(("127.0.0.1", 0)) as silent, pytest.raises(TimeoutError):
        machine.nginx_requests(f"http://127.0.0.1:{silent.getsockname()[1]}/status", None)


def test_what_systemd_refuses_says_nothing_of_a_unit(tmp_path: Path, monkeypatch: pytest.MonkeyPatch) -> None:
    """systemctl(1): a status that isn't 0 is a failure, whatever it printed."""
    (tmp_path / "systemctl").write_text("#!/bin/sh\necho MainPID=1\nexit 1\n")
    (tmp_path / "systemctl").chmod(0o700)
    monkeypatch.setenv("PATH", f"{tmp_path}:{os.environ['PATH']}")
    with pytest.raises(StationError, match="systemctl doesn't show the unit station"):
        machine.properties_of("station", "MainPID")


def test_the_start_of_a_process_of_an_odd_name(tmp_path: Path) -> None:
    """proc(5): a name stands in parentheses, and may have some itself."""
    (tmp_path / "a) S 1 (b").symlink_to("/bin/sleep")
    with subprocess.Popen([tmp_path / "a) S 1 (b", "60"]) as child:
        try:
            moment, _ = machine.start_of(child.pid)
        finally:
            child.kill()
    assert abs(moment - time.time()) < 60


def test_of_pools_that_touch_a_block_is_in_its_own_alone() -> None:
    samples = Samples()
    add_addresses(samples, "acme", [(0x020000000010, 4), (0x020000000014, 4)], [(0x020000000014, 2)])
    for first, free in (("020000000010", 4), ("020000000014", 2)):
        for name in ("free", "longest_free"):
            line = f'wanekupo_pool_{name}_addresses{{customer="acme",pool="{first}"}} {free}'
            assert line in samples.text().splitlines()
