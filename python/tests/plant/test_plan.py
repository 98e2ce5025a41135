"""The plan of a growth: what was kept is read again, and what another wrote is told."""

import json
import os
import stat

import pytest
from wanekupo.plant.site import plan as plans
from wanekupo.plant.site.plan import PLACED, PREPARED, STOPPING, GrowthPlan, SeatWish, drop_plan, keep_plan, read_plan
from wanekupo.common.token_file import TokenError

FULL = GrowthPlan(STOPPING, "/b/before-1", True, ["/o.toml"],
    [SeatWish("a1", "acme", "/t/a1.token", "line 5"), SeatWish("h", "acme")])


@pytest.mark.parametrize("plan", [GrowthPlan(), FULL, GrowthPlan(PLACED, "", False, [], [])])
def test_kept_is_read(tmp_path, plan):
    path = tmp_path / "site.growth"
    keep_plan(path, plan)
    assert read_plan(path) == plan and stat.S_IMODE(path.stat().st_mode) == 0o600
    drop_plan(path)
    assert os.listdir(tmp_path) == [] and read_plan(path) == GrowthPlan() and GrowthPlan().stage == PREPARED
    drop_plan(path)


@pytest.mark.parametrize("text", [
    "", "{", "[]", "1", "null", "{}", '{"stage": "placed"}',
    json.dumps({"stage": PREPARED, "backup": "", "others": [], "wishes": [{"seat": "a"}]}),
    json.dumps({"stage": PREPARED, "backup": "", "others": [], "wishes": [{"seat": "a", "customer": "b", "x": 1}]}),
    json.dumps({"stage": PREPARED, "backup": "", "others": [], "wishes": [1]}),
    json.dumps({"backup": "", "others": [], "wishes": []}),
])  # fmt: skip
def test_another_text_is_told(tmp_path, text):
    (tmp_path / "site.growth").write_text(text)
    with pytest.raises(TokenError, match="site.growth isn't what this command writes") as error:
        read_plan(tmp_path / "site.growth")
    assert error.value.status == 1


def test_a_plan_that_cannot_be_read_is_none_that_is_empty(tmp_path):
    (tmp_path / "site.growth").mkdir()
    with pytest.raises(IsADirectoryError):
        read_plan(tmp_path / "site.growth")


def test_a_seat_has_one_wish_the_last_one():
    plan = GrowthPlan(wishes=[SeatWish("a", "x"), SeatWish("b", "x")])
    plan.add(SeatWish("a", "x", "/new"))
    assert plan.wishes == [SeatWish("b", "x"), SeatWish("a", "x", "/new")]


def test_a_plan_that_goes_is_synced(tmp_path, monkeypatch):
    synced = []
    monkeypatch.setattr(plans, "sync", lambda path: synced.append((path, os.path.exists(tmp_path / "p"))))
    keep_plan(tmp_path / "p", GrowthPlan())
    drop_plan(tmp_path / "p")
    assert synced == [(tmp_path, False)]
