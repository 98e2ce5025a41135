"""What asks for a restart, by metrics that the store's user may have written."""

import re
from argparse import Namespace

import pytest
from conftest import DEPLOY
from scripts import script
from wanekupo.common.store_user import LONGEST

restart = script("restart")

NOW = 1_000_000.0
GOOD = {"metrics_timestamp_seconds": "999900", "connections_left": "150000", "server_memory_bytes": "1e6",
        "start_memory_limit_bytes": "4000000", "start_memory_bytes": "2000000.4"}  # fmt: skip


def text_with(**changes: str) -> str:
    rows = {**GOOD, **changes}
    return "# HELP x y\n" + "".join(f"wanekupo_{name} {value}\n" for name, value in rows.items() if value)


def test_metrics() -> None:
    found = restart.metrics_in(text_with(), "f", NOW)
    assert found == restart.Metrics(999900, 150000, 1000000, 4000000, 2000000)


AGES = [("998800", True), ("998799", False), ("1000060", True), ("1000061", False), ("0", False), ("9e15", False)]


@pytest.mark.parametrize("moment, is_taken", AGES)
def test_age(moment: str, is_taken: bool) -> None:
    text = text_with(metrics_timestamp_seconds=moment)
    if is_taken:
        assert restart.metrics_in(text, "f", NOW)
    else:
        with pytest.raises(restart.NoRestartError, match="s old: look at wanekupo-metrics.timer"):
            restart.metrics_in(text, "f", NOW)


@pytest.mark.parametrize("value", ["", "nan", "inf", "-1", "1e300", "x", "1 2", "0x10", "\x1b[31m"])
@pytest.mark.parametrize("name", [it for it in GOOD if it != "metrics_timestamp_seconds"])
def test_no_amount(name: str, value: str) -> None:
    with pytest.raises(restart.NoRestartError, match="lack what this asks for"):
        restart.metrics_in(text_with(**{name: value}), "f", NOW)


def metrics(left: int = 200_000, held: int = 50) -> object:
    return restart.Metrics(0, left, held, 100, 1)


REASONS = [
    (metrics(), 64_000_000, []),
    (metrics(left=199_999), 0, ["199999 connections are left"]),
    (metrics(), 64_000_001, ["the log has 64 MB"]),
    (metrics(held=51), 0, ["the server holds 0 MB"]),
    (metrics(left=0, held=90), 70_500_000, ["0 connections are left", "the log has 71 MB", "the server holds 0 MB"]),
]


@pytest.mark.parametrize("found, log, wanted", REASONS)
def test_reasons(found: object, log: int, wanted: list[str]) -> None:
    args = Namespace(connections=200_000, log=64, memory=50)
    assert restart.reasons_of(args, found, log) == wanted


def test_the_units_time() -> None:
    """The unit ends no run that takes what it may: a copy, a trial start, a join, and the wait for a start behind."""
    text = (DEPLOY / "station-restart.service").read_text(encoding="utf-8")
    told = 2 * LONGEST + 3
    assert 3600 * int(re.findall(r"^TimeoutStartSec=(\d+)h$", text, re.MULTILINE)[0]) > 3 * LONGEST + 3 * told + 60
