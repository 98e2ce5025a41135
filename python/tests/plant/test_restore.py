"""The command that restores: the order of its steps, what keeps a store from its place, and the status of each end."""

import argparse
import contextlib
import json
import signal
import subprocess
import sys
from pathlib import Path
from types import SimpleNamespace

import pytest
from wanekupo.plant.restore import journals as restore_journals
from wanekupo.plant.backup.copies import BackupError
from wanekupo.plant.restore.plan import CustomerPlan, RestoreError
from scripts import script
from wanekupo.common.store_user import UserError
from wanekupo.common.errors import StationError

restore = script("restore")
COUNTS = ["orders 2", "devices 3", "records 4", "seat a1 17"]


def args_of(folder, **more):
    found = {"backup": folder / "backup", "site": folder / "site.toml", "program": "P", "backups": folder,
        "leave_out": [],
             "accept_missing": [], "distrust_lost": [], "without": "", "stop": "", "port": 880,
             "db": "/db/books.db",
             "tokens": folder / "tokens.conf", "folders": folder / "journals.toml", "journals": [],
             "seat": []}  # fmt: skip
    return argparse.Namespace(**{**found, **more})


class FakePlace:
    """A place that notes what is done there."""

    def __init__(self, folder, state=None, lost=None):
        self.folder, self.db, self.work = folder, folder / "books.db", folder / "restoring"
        self.made = self.work / "books.db"
        self.calls, self.found, self.lost_store = [], state or {}, lost
        self.work.mkdir(exist_ok=True)

    def state(self):
        return self.found

    def lost(self):
        return self.lost_store

    def own_files(self):
        return [self.db, Path(f"{self.db}-wal")]

    def put_in_place(self):
        self.calls.append("put_in_place")
        return self.folder / "restored-1"

    def __getattr__(self, name):
        if name in ("locked", "sole_restore"):
            return lambda: self.within(name)
        return lambda *words: self.calls.append(name)

    @contextlib.contextmanager
    def within(self, name):
        self.calls.append(name)
        yield
        self.calls.append(f"end of {name}")

    def needs(self, backup):
        return 0


@pytest.fixture
def place(tmp_path):
    return FakePlace(tmp_path)


# ---- the server


@pytest.mark.parametrize("status", [0, 1])
def test_stop(monkeypatch, status):
    calls = []
    monkeypatch.setattr(subprocess, "run", lambda words,
        **more: calls.append(words) or subprocess.CompletedProcess(
        words, status, "", "not loaded\n"))  # fmt: skip
    if status:
        with pytest.raises(RestoreError, match="systemd doesn't stop station: not loaded$"):
            restore.stop("station")
    else:
        restore.stop("station")
    assert calls == [["systemctl", "stop", "station"]]


def test_a_signal_is_an_error():
    with pytest.raises(RestoreError, match="stopped by signal 15"):
        restore.stop_restore(15, None)


# ---- the copy


def copy_in(monkeypatch, tmp_path, place, opens, counts, about):
    """Opens with each site in turn, as `opens` says by the site's file."""
    asked = []
    monkeypatch.setattr(restore, "opened_by", lambda program, site, db: asked.append(Path(site)) or opens.pop(0))
    monkeypatch.setattr(restore, "copied_counts", lambda db, store: counts)
    found = restore.copy_in(args_of(tmp_path), place, about)
    return found, asked


@pytest.mark.parametrize("about", [{}, {"counts": COUNTS}])
def test_a_backup_that_the_newest_site_opens(monkeypatch, tmp_path, place, about):
    found, asked = copy_in(monkeypatch, tmp_path, place, [True], COUNTS, about)
    assert found == COUNTS and asked == [tmp_path / "site.toml"] and place.calls == ["begin"]


def test_a_backup_of_an_older_schema_is_opened_by_its_own_site_first(monkeypatch, tmp_path, place):
    (tmp_path / "backup").mkdir()
    (tmp_path / "backup/site.toml").write_text("")
    _, asked = copy_in(monkeypatch, tmp_path, place, [False, True, True], COUNTS, {})
    assert asked == [tmp_path / "site.toml", tmp_path / "backup/site.toml", tmp_path / "site.toml"]
    for opens, told in (([False, False], "under no site file"), ([False, True, False], "is no growth of its own")):
        with pytest.raises(RestoreError, match=told):
            copy_in(monkeypatch, tmp_path, place, opens, COUNTS, {})
    (tmp_path / "backup/site.toml").unlink()
    with pytest.raises(RestoreError, match="under no site file"):
        copy_in(monkeypatch, tmp_path, place, [False], COUNTS, {})


def test_a_backup_with_other_rows_than_it_had(monkeypatch, tmp_path, place):
    with pytest.raises(RestoreError, match="orders 1"):
        copy_in(monkeypatch, tmp_path, place, [True], COUNTS, {"counts": ["orders 1", *COUNTS[1:]]})


# ---- what keeps a store from its place


def looked(monkeypatch, tmp_path, place, rows, **more):
    copy = tmp_path / "copy/books.db"
    copy.parent.mkdir()
    monkeypatch.setattr(restore, "missing_rows", lambda one,
        other: rows if (one, other) == (copy, place.made) else None)
    found = restore.look(args_of(tmp_path, **more), place, copy)
    assert not copy.parent.exists(), "a copy in plain is left nowhere"
    return found


ROWS = [{"customer": "acme", "name": "o1"}, {"customer": "bolt", "name": "o2"}]
MANY = [*(6 * ROWS[:1]), ROWS[1]]  # one customer's rows hide none of another's
KEPT = "orders of the lost store are in no journal"


@pytest.mark.parametrize("rows, more, keeps", [
    ({"orders": ROWS}, {}, [f"acme: 1 {KEPT}: acme o1", f"bolt: 1 {KEPT}: bolt o2"]),
    ({"orders": MANY}, {}, [f"acme: 6 {KEPT}: {'; '.join(5 * ['acme o1'])}", f"bolt: 1 {KEPT}: bolt o2"]),
    ({"orders": MANY}, {"accept_missing": ["acme"]}, [f"bolt: 1 {KEPT}: bolt o2"]),
    ({"serial numbers": ROWS[:1]}, {}, ["acme: 1 serial numbers of the lost store are in no journal: acme o1"]),
    ({"orders": ROWS}, {"accept_missing": ["bolt", "acme"]}, []), ({"orders": []}, {}, []), ({"orders": None}, {}, []),
    ({"devices": ROWS, "maps": ROWS}, {}, []),
    ({"orders": ROWS}, {"leave_out": ["bolt"]}, [f"acme: 1 {KEPT}: acme o1"]),
    ({"orders": ROWS}, {"leave_out": ["acme", "bolt"]}, []),
])  # fmt: skip
def test_rows_of_the_lost_store_that_no_journal_has(monkeypatch, tmp_path, place, rows, more, keeps):
    assert looked(monkeypatch, tmp_path, place, rows, **more) == (keeps, rows)


def test_nothing_to_compare_with(tmp_path, place, capsys):
    assert restore.look(args_of(tmp_path), place, None) == ([], {}) and "nothing was there" in capsys.readouterr().out


def held(monkeypatch, tmp_path, place, found, is_opened=True, **more):
    monkeypatch.setattr(restore, "lost_copy", lambda program, site, lost, folder: (folder / lost.name, is_opened))
    monkeypatch.setattr(restore, "lost_contradictions", lambda *words: iter([tuple(it.split(": ")) for it in found]))
    monkeypatch.setattr(restore, "last_numbers", lambda counts: {"a1": 17})
    return restore.hold_against_lost(args_of(tmp_path, **more), place, [], {}, COUNTS)


def test_journals_are_held_against_the_lost_store(monkeypatch, tmp_path, place, capsys):
    assert held(monkeypatch, tmp_path, place, ["acme: x"]) is None, "no store was there"
    for path in place.own_files():
        path.write_text("")
    copy = place.work / "lost/books.db"
    assert held(monkeypatch, tmp_path, place, []) == copy
    both = [*(9 * ["acme: one"]), "acme: two", "bolt: three"]
    with pytest.raises(RestoreError, match="^acme: (one; ){5}10 such lines. bolt: three; 1 such.*--distrust-lost acme"):
        held(monkeypatch, tmp_path, place, both)
    with pytest.raises(RestoreError, match="^bolt: three; 1 such lines. .* --distrust-lost bolt"):
        held(monkeypatch, tmp_path, place, both, distrust_lost=["acme"])
    assert held(monkeypatch, tmp_path, place, both, distrust_lost=["acme", "bolt"]) == copy
    told = capsys.readouterr().out
    assert "warning: acme: one" in told and "warning: bolt: three" in told
    assert held(monkeypatch, tmp_path, place, ["acme: one"], is_opened=False) == copy
    assert "doesn't open the lost store" in capsys.readouterr().out


def test_the_rest_of_what_was_moved_is_moved_first(monkeypatch, tmp_path):
    place = FakePlace(tmp_path, {"lost": "lost-1"}, tmp_path / "lost-1/books.db")
    assert held(monkeypatch, tmp_path, place, []) and place.calls == ["put_aside"]


def test_listed(tmp_path, place, capsys):
    left = {"acme": {"c3": ("shipped", None), "c1": ("ready", "blank"), "c2": ("ready", "blank")}}
    restore.write_lists(place, left, {"orders": ROWS})
    assert json.loads((place.work / "left.json").read_text()) == json.loads(json.dumps(left))
    assert json.loads((place.work / "missing.json").read_text()) == {"orders": ROWS}
    told = capsys.readouterr().out
    assert 0 < told.index("ready and are blank: 2") < told.index("shipped and are not there: 1")


def ended(monkeypatch, tmp_path, place, keeps, **more):
    saved = []
    monkeypatch.setattr(restore, "copy_store",
        lambda *words: saved.append(words) or place.calls.append("backed up") or COUNTS)
    monkeypatch.setattr(restore, "seats_out_of_step", lambda requests, numbers: (["a1"], ["b1"]))
    monkeypatch.setattr(restore, "free_name", lambda folder, kind: folder / f"{kind}-2")
    return restore.end_restore(args_of(tmp_path, **more), place, keeps, {}), saved


def test_what_keeps_stations_puts_no_store_in_place(monkeypatch, tmp_path, place, capsys):
    status, saved = ended(monkeypatch, tmp_path, place, ["why"])
    assert (status, saved, place.calls) == (3, [], []) and "- why." in capsys.readouterr().out


def test_the_restored_store_is_backed_up_before_it_gets_its_name(monkeypatch, tmp_path, place, capsys):
    place.db = restore.STORE
    status, saved = ended(monkeypatch, tmp_path, place, [], leave_out=["bolt"])
    assert status == 0 and place.calls == ["backed up", "put_in_place"]
    assert saved == [("P", str(tmp_path / "site.toml"), str(place.made), tmp_path / "restored-2", "a restore")]
    told = capsys.readouterr().out
    assert "stop at 11 or 12 by themselves: a1" in told and "bolt is left out" in told
    assert "These may not, as their next number may be the one expected: b1" in told and "practice" not in told


def test_a_restore_elsewhere_may_be_a_practice(monkeypatch, tmp_path, place, capsys):
    """A line that goes on isn't to be resynchronized for it."""
    place.db = tmp_path / "books.db"
    assert ended(monkeypatch, tmp_path, place, [])[0] == 0
    told = capsys.readouterr().out
    assert 0 < told.index("Was this a practice? Then start nothing, and resynchronize no") < told.index("Stations may")


def test_no_backup_no_store(monkeypatch, tmp_path, place):
    monkeypatch.setattr(restore, "copy_store", lambda *words: (_ for _ in ()).throw(BackupError("full")))
    with pytest.raises(BackupError):
        restore.end_restore(args_of(tmp_path), place, [], {})
    assert place.calls == []


# ---- the order


def test_all_steps(monkeypatch, tmp_path, capsys):
    place = FakePlace(tmp_path, lost=tmp_path / "lost-1/books.db")
    acme, bolt = SimpleNamespace(name="acme"), SimpleNamespace(name="bolt")
    given = {}

    def noted(name, answer):
        def call(*words):
            place.calls.append(name)
            given[name] = words
            return answer

        return call

    for name, answer in {"check_folders": None, "gather": {"a1": "R"}, "check_backup": {"at": "T"}, "copy_in": COUNTS,
                         "hold_against_lost": None, "replay": {"acme": {}}, "number_gaps": ["gap"],
                         "look": (["row"], {}),
                         "write_lists": None, "end_restore": 3, "last_numbers": {"a1": 17}}.items():  # fmt: skip
        monkeypatch.setattr(restore, name, noted(name, answer))
    args = args_of(tmp_path, leave_out=["bolt"], without="a7,b3")
    assert restore.restore_store(args, place, {"acme": acme, "bolt": bolt}, {}, {}) == 3
    order = [it for it in place.calls if it != "last_numbers"]
    assert order == ["refuse_links", "sole_restore", "check_folders", "gather", "check_backup", "locked", "copy_in",
        "hold_against_lost",
                     "put_aside", "end of locked", "replay", "number_gaps", "look", "write_lists", "end_restore",
                     "end of sole_restore"]  # fmt: skip
    assert given["replay"][-1] == [acme], "a customer who is left out gets nothing back"
    assert given["number_gaps"][0] == [acme] and given["number_gaps"][3] == {"a7", "b3"}
    assert given["end_restore"][2] == ["gap", "row"]
    told = capsys.readouterr().out
    assert "the backup of T: orders 2" in told and f"what was there is in {tmp_path / 'lost-1'}" in told


def test_a_run_that_was_cut_at_the_end_goes_on_there(monkeypatch, tmp_path):
    place = FakePlace(tmp_path, {"placing": True})
    monkeypatch.setattr(restore, "check_folders", lambda *_: pytest.fail("all else is done"))
    assert restore.restore_store(args_of(tmp_path), place, {}, {}, {}) == 0
    assert place.calls == ["refuse_links", "sole_restore", "put_in_place", "end of sole_restore"]


# ---- words


def main(monkeypatch, text, answer, missing=""):
    monkeypatch.setattr(sys, "argv", ["restore", *text.split()])
    seen = []

    def run(args):
        seen.append(args)
        if isinstance(answer, Exception):
            raise answer
        return answer

    monkeypatch.setattr(restore, "restore_as_root", run)
    monkeypatch.setattr(restore.os, "umask", lambda mask: seen.append(mask))
    monkeypatch.setattr(restore.signal, "signal", lambda number, handler: seen.append((number, handler)))
    monkeypatch.setattr(restore.shutil, "which", lambda name: None if name == missing else f"/bin/{name}")
    return restore.main(), seen


@pytest.mark.parametrize("answer, status, told", [
    (0, 0, ""), (3, 3, ""), (RestoreError("why"), 1, "restore: why"), (BackupError("why"), 1, "restore: why"),
    (UserError("why"), 1, "restore: why"), (FileNotFoundError(2, "No such file", "/f"), 1, "restore: /f: No such file"),
    (StationError("why"), 1, "restore: why."),
])  # fmt: skip
def test_main(monkeypatch, capsys, tmp_path, answer, status, told):
    monkeypatch.chdir(tmp_path)
    found, seen = main(monkeypatch, "b s.toml a1.journal --stop station", answer)
    err = capsys.readouterr().err
    assert found == status and told in err and ("stays stopped" in err) == (status == 1)
    args = seen[-1]
    assert 0o077 in seen and {it for it in seen if isinstance(it, tuple)} == {
        (number, restore.stop_restore) for number in (signal.SIGTERM, signal.SIGINT, signal.SIGHUP)}  # fmt: skip
    assert (args.backup, args.site, args.backups) == (tmp_path / "b", tmp_path / "s.toml", tmp_path)
    assert args.journals == [str(tmp_path / "a1.journal")] and args.program == "/bin/station"


@pytest.mark.parametrize("missing", ["station", "sqlite3", "setpriv"])
def test_what_is_needed(monkeypatch, capsys, missing):
    status, seen = main(monkeypatch, "b s", 0, missing)
    assert status == 1 and "and one isn't there" in capsys.readouterr().err
    assert not any(isinstance(it, argparse.Namespace) for it in seen)


def test_the_defaults(monkeypatch):
    args = restore.restore_parser().parse_args(["b", "s"])
    assert (args.db, str(args.tokens), args.port) == ("/var/lib/station/books.db", "/etc/station/tokens.conf", 880)
    assert (args.accept_missing, args.distrust_lost, args.backups) == ([], [], None)
    assert args.without == "" and args.stop == ""


def test_journals_by_whole_paths(monkeypatch, tmp_path):
    """As another user, and in another folder: acme=PATH is a customer's, but where a file has that very name."""
    monkeypatch.chdir(tmp_path)
    (tmp_path / "a=b").write_text("")
    found = restore.absolute(["acme=x/j", "j.journal", "a=b", "/abs"])
    assert found == [f"acme={tmp_path}/x/j", f"{tmp_path}/j.journal", f"{tmp_path}/a=b", "/abs"]


# ---- root's part


def test_root_reads_the_tokens_and_stops_the_server_before_it_becomes_another(monkeypatch, tmp_path):
    calls = []

    def noted(name, answer=None):
        return lambda *words: calls.append(name) or answer

    user = SimpleNamespace(call=lambda call, told, seconds: calls.append("as the user") or 3)
    place = SimpleNamespace(refuse_server=lambda port: calls.append(("server", port)))
    monkeypatch.setattr(restore, "StoreFolder", lambda db: SimpleNamespace(db=db, user=user))
    monkeypatch.setattr(restore, "StorePlace", lambda store: place)
    for name, answer in {"customers_of": {}, "tokens_at": ({}, []), "folders_at": {}, "check_left_out": None,
        "stop": None}.items():
        monkeypatch.setattr(restore, name, noted(name, answer))
    assert restore.restore_as_root(args_of(tmp_path, stop="station")) == 3
    assert calls.index("tokens_at") < calls.index("as the user") and calls[-3:] == ["stop", ("server", 880),
        "as the user"]
    calls.clear()
    for option in ("--accept-missing", "--distrust-lost"):
        for more in ([], ["acne"]):
            words = ["b", "s", option, *more, "--db", "/db/books.db"]
            with pytest.raises(RestoreError, match=f"{option} (goes for one customer|acne: the site file has no)"):
                restore.restore_as_root(restore.restore_parser().parse_args(words))
    assert "stop" not in calls and "as the user" not in calls, "it is refused before anything is done"
    restore.restore_as_root(args_of(tmp_path))
    assert "stop" not in calls and calls[-2:] == [("server", 880), "as the user"]


# ---- what the journals bring back


def customer(name, journals=("j",)):
    return SimpleNamespace(name=name, seat=f"{name}1", token="T", journals=list(journals), asked=["requests"])


def replayed(monkeypatch, tmp_path, place, customers, opens=True):
    calls = []

    @contextlib.contextmanager
    def station(url, token, state, journal, closes_journal):
        calls.append((url, token, state.name, journal, closes_journal))
        yield "STATION"

    monkeypatch.setattr(restore, "serve_alone",
        lambda *words: calls.append(("served", *words)) or contextlib.nullcontext("URL"))
    monkeypatch.setattr(restore, "Journal", lambda path, seat: (path.name, seat))
    monkeypatch.setattr(restore, "Station", station)
    monkeypatch.setattr(restore, "Progress", lambda name: contextlib.nullcontext(name))
    monkeypatch.setattr(restore, "restore_requests", lambda it, asked, told: calls.append((it, asked, told)) or {
        "orders": 2, "left": {"c1": ("ready", "blank")}, "scrapped": [1, 2], "shipped": [3]})  # fmt: skip
    monkeypatch.setattr(restore, "opened_by", lambda program, site, db: calls.append(("opened", db)) or opens)
    return restore.replay(args_of(tmp_path), place, customers), calls


def test_replay(monkeypatch, tmp_path, place, capsys):
    """Each customer by a seat of its own, over the restored files; the program opens what comes of it."""
    left, calls = replayed(monkeypatch, tmp_path, place, [customer("acme"), customer("bolt", ()), customer("cog")])
    assert left == {name: {"c1": ("ready", "blank")} for name in ("acme", "cog")}
    assert calls[0] == ("served", "P", tmp_path / "site.toml", place.made) and calls[-1] == ("opened", place.made)
    assert calls[1] == ("URL", "T", "acme1.json", ("acme1.journal", "acme1"), True) and len(calls) == 6
    assert "acme: by the seat acme1: orders 2, scrapped 2, shipped 1; left 1" in capsys.readouterr().out
    with pytest.raises(RestoreError, match="doesn't open what it restored"):
        replayed(monkeypatch, tmp_path, place, [customer("acme")], opens=False)


def test_a_folder_that_cannot_be_read_may_have_a_journal():
    for kind in (PermissionError, OSError):
        with pytest.raises(RestoreError, match="can't read /j/b1: a journal may be there") as error:
            restore_journals._unread(kind(5, "why", "/j/b1"))
        assert ("chgrp -R station" in str(error.value)) == (kind is PermissionError)


@pytest.mark.parametrize("mode, opened", [(0o000, "pc1"), (0o700, "pc1/a1.journal")])
def test_a_missing_right_leaves_nobody_out(tmp_path, monkeypatch, mode, opened):
    """Neither a folder's nor a file's: who issues a customer's numbers again for that loses what is there."""
    folder = tmp_path / "all/pc1"
    folder.mkdir(parents=True)
    (folder / "a1.journal").write_text("")

    def refuse(path, *_):
        raise PermissionError(13, "Permission denied", str(path))

    monkeypatch.setattr(restore_journals, "lines_of" if mode else "journals_below", lambda path, **_: refuse(path))
    acme = CustomerPlan("acme", {"a1": ""}, True)
    source = restore_journals.Source(folder, frozenset({"a1"}))
    with pytest.raises(RestoreError, match=f"can't read .*{opened}: .*`chgrp -R station`") as error:
        restore_journals.take_journals([source], {"acme": acme}, [])
    assert "leave-out" not in str(error.value) and "Nothing was moved" in str(error.value)


def test_gather(monkeypatch, tmp_path, capsys):
    calls = []
    acme, bolt = customer("acme"), customer("bolt")
    monkeypatch.setattr(restore, "sources_of", lambda *words: calls.append(words) or "SOURCES")
    monkeypatch.setattr(restore, "take_journals", lambda *words: calls.append(words))
    monkeypatch.setattr(restore, "choose_seats", lambda *words: calls.append(words) or ["acme has a station"])
    monkeypatch.setattr(restore, "asked_of", lambda it: [it.name])
    monkeypatch.setattr(restore, "requests_of_seats", lambda customers: {it.name: it.asked for it in customers})
    args = args_of(tmp_path, leave_out=["cog"], journals=["/j"], seat=["a9"])
    both = {"acme": acme, "bolt": bolt}
    assert restore.gather(args, both, {"a1": "T"}, "FOLDERS") == {"acme": ["acme"], "bolt": ["bolt"]}
    assert calls == [(["/j"], both, "FOLDERS", args.folders), ("SOURCES", both, ["cog"]),
        (both, {"a1": "T"}, ["a9"], args.tokens)]
    assert capsys.readouterr().out == "warning: acme has a station\n"
