"""The lines of a seat over all its journals, as an audit takes them: their turns and numbers, and what has no reply.

Journals are made up line by line. Beside them are the time stamps of seals, and what a chain of seals tells of gaps.
"""

import hashlib
import json
import os
import shutil
import time
import tracemalloc
from collections import Counter
from pathlib import Path
from types import SimpleNamespace
from unittest import mock

from books_case import DAY
from commanding import ran

from support import FolderCase

from wanekupo.books import steps
from wanekupo.books.audit import Audit, Found, Left, Unheld, _idle_faults, _journal_faults
from wanekupo.books.audit_page import verdict
from wanekupo.books.chain import BadChain, Chain, sealed
from wanekupo.books.clocks import clock_contradictions
from wanekupo.books.given import given_twice
from wanekupo.books.matches import Seated, matched, seated, steps_by_chip
from wanekupo.books.numbers import Span, counts, spans_of
from wanekupo.books.shift import Period
from wanekupo.books.stamp import verified
from wanekupo.books.steps import book_of
from wanekupo.books.store_rows import LedgerRow, StoredSeat
from wanekupo.common.texts import compact_json
from wanekupo.seat.journal import request_digest

PERIOD = Period(f"{DAY}06:00:00Z", f"{DAY}14:00:00Z")
SHIPPED = {"n": 1, "event": "shipped", "note": "", "seat": "a1", "bits": [], "keys": {}}


def asked(at, number, chip, path="/v1/ship", **more):
    members = {"nr": number, "chip": chip, **more}
    return {"at": f"{DAY}{at}Z", "path": path, "asked": members, "digest": request_digest(path, members), "seat": "a1"}


def answered(at, number, status=200, **reply):
    return {"at": f"{DAY}{at}Z", "nr": number, "status": status, "reply": reply, "seat": "a1"}


def done(at, number, chip, path="/v1/ship"):
    return [asked(at, number, chip, path), answered(at, number)]


def goes_on(at, number):
    return {"at": f"{DAY}{at}Z", "resynchronized": number, "seat": "a1"}


def row(first, last, hour):
    """Accepted requests of chips that have their numbers' names, one a minute."""
    return [line for it in range(first, last + 1) for line in done(f"{hour}:{it:02}:00", it, f"c{it}")]


class SeatCase(FolderCase):
    def book(self, lines, name="a1"):
        file = self.folder / f"{name}.journal"
        file.write_text("".join(json.dumps(it) + "\n" for it in lines), encoding="ascii")
        return book_of([file])

    def store(self, number=0, chip="", path="/v1/ship"):
        reply = {"chip": "240ac4000001", "state": "scrapped" if path == "/v1/scrap" else "shipped"}
        digest = request_digest(path, {"nr": number, "chip": chip})
        last = StoredSeat("a1", "acme", number, digest, compact_json(reply, sort_keys=True))
        return SimpleNamespace(seats={"a1": last}, records=lambda _: [])

    def spans(self, books, store):
        """What is told of a seat, and the journals behind it."""
        journals = [seated(self.book(lines, f"j{place}"), store) for place, lines in enumerate(books)]
        (span,) = spans_of(journals, store, PERIOD)
        return [*span.told(()), *(told for _, told in span.lost)], journals


class Turns(SeatCase):
    def test_a_number_below_one(self):
        """No request has it: the server expects 1 of a new seat."""
        for number, count in ((0, 1), (-1, 1), (1, 0)):
            faults = [it for it in self.book([asked("06:00:00", number, "c1")]).faults if "first one is 1" in it.told]
            self.assertEqual(len(faults), count, number)

    def test_numbers(self):
        """What is told of a seat's numbers: the journals, the last one of the store and its chip, and the words."""
        restored = [*row(1, 5, "05"), goes_on("06:30:00", 4), *done("06:31:00", 4, "n4"), *done("06:32:00", 5, "n5")]
        pc7, pc8 = [*row(1, 3, "07"), *row(6, 6, "09")], row(4, 5, "08")
        told = [*row(1, 3, "07"), goes_on("09:00:00", 6), *row(6, 6, "09")], [goes_on("08:00:00", 4), *row(4, 5, "08")]
        one = [*row(1, 2, "07"), goes_on("07:04:00", 4), *row(4, 4, "07")]
        two = [goes_on("07:13:00", 3), *row(3, 3, "07")]
        two[1:] = [{**it, "at": f"{DAY}07:13:10Z"} for it in two[1:]]
        refused = [goes_on("07:03:20", 3), asked("07:03:20", 3, "x"), answered("07:03:20", 3, 409, no=12),
                   goes_on("07:03:30", 4), *row(4, 4, "07")]
        bare = [*row(1, 2, "05"), asked("05:03:00", 3, "c3"), goes_on("05:03:30", 4), *row(4, 5, "05")]
        late = [*row(1, 3, "07"), goes_on("15:00:00", 2), *done("15:01:00", 2, "n2"), *done("15:02:00", 3, "n3")]
        over = [*row(1, 2, "05"), asked("05:59:50", 3, "c3"), answered("06:00:10", 3), goes_on("07:00:00", 3),
                *done("07:01:00", 3, "n3")]
        cut = [*row(1, 3, "07"), goes_on("07:06:00", 3), *row(7, 7, "07")]
        for name, books, last, words in (
            ("whole", [row(1, 5, "07")], (5, "c5"), []),
            ("a restore in front", [restored], (5, "n5"), []),
            ("a restore within", [[*row(1, 3, "07"), goes_on("08:00:00", 3), *done("08:01:00", 3, "n3")]], (3, "n3"),
             ["goes on with the number 3, and line 5 of"]),
            ("a restore behind a reply of the period", [over], (3, "n3"), ["became an older one"]),
            ("lines cut behind a made-up restore", [cut], (7, "c7"),
             ["became an older one", "the numbers 3 to 6 have no line"]),
            ("the same in front", [[*row(1, 3, "05"), goes_on("06:06:00", 3), *row(7, 7, "07")]], (7, "c7"),
             ["the numbers 3 to 6 have no line"]),
            ("a gap in front of a made-up restore",
             [[*row(1, 1, "05"), *row(9, 9, "05"), goes_on("06:06:00", 6), *row(6, 7, "07")]], (7, "c7"),
             ["the numbers 2 to 4 have no line"]),
            ("a number twice", [[*row(1, 5, "07"), *done("07:06:00", 2, "x")]], (5, "c5"), ["have the number 2, and"]),
            ("the same in a journal of its own", [row(1, 5, "07"), done("07:06:00", 2, "x")], (5, "c5"),
             ["became an older one", "the numbers 3 to 5 have no line"]),
            ("a seat that moves and comes back", [pc7, pc8], (6, "c6"), []),
            ("the journals the other way round", [pc8, pc7], (6, "c6"), []),
            ("a person had it go on", list(told), (6, "c6"), []),
            ("two by turns, one of which is minutes ahead", [one, two], (4, "c4"), []),
            ("two by turns, one of which was refused", [row(1, 3, "07"), refused], (4, "c4"), []),
            ("a restore in front of another's", [bare, [goes_on("06:30:00", 3), *row(3, 4, "07")]], (4, "c4"), []),
            ("a restore behind which another goes on",
             [row(1, 5, "07"), [goes_on("08:00:00", 4), *done("08:01:00", 4, "n4"), *done("08:02:00", 5, "n5")]],
             (5, "n5"), ["goes on with the number 4, and line 7 of"]),
            ("one by another journal, whose first number was not done",
             [row(1, 4, "07"), [goes_on("08:00:00", 3), *row(5, 5, "08")]], (5, "c5"),
             ["became an older one", "the numbers 3 to 4 have no line"]),
            ("a seat that rests since a restore", [row(1, 5, "05")], (3, "c3"), []),
            ("an older store", [row(1, 5, "07")], (3, "c3"), ["this is an older store"]),
            ("a copy of before a restore", [late], (3, "c3"), []),
            ("a journal that was copied", [row(1, 5, "07"), row(1, 5, "07")], (5, "c5"), []),
        ):
            with self.subTest(name):
                found, _ = self.spans(books, self.store(*last))
                self.assertEqual([len(found), *(it in " ".join(found) for it in words)],
                                 [len(words), *(True for _ in words)], found)

    def test_a_clock_that_errs(self):
        """A line of a time far away, before or behind, lays the others of its journal nowhere else."""
        for at in ("2001-01-01T00:00:00Z", "2071-01-01T00:00:00Z"):
            first = row(1, 5, "07")
            for line in first[4:6]:
                line["at"] = at
            found, _ = self.spans([first, [goes_on("08:00:00", 4), *done("08:01:00", 4, "n4")]], self.store(4, "n4"))
            self.assertEqual(["became an older one" in it for it in found], [True], found)

    def test_many_turns(self):
        """Time grows with the lines: of a seat that goes on again and again, with numbers that it had and others."""
        again = [line for it in range(4000) for line in (goes_on("08:00:00", 2), *done("08:00:00", 2, f"n{it}"))]
        ahead = [line for it in range(1, 4001) for line in done("07:00:00", it, f"c{it}")]
        ahead += [goes_on("08:00:00", 2**53 - 1) for _ in range(8000)]
        for books, last, turns in (([[*row(1, 1, "07"), *again]], (2, "n3999"), 3999), ([ahead], (4000, "c4000"), 0)):
            begun = time.process_time()
            found, _ = self.spans(books, self.store(*last))
            self.assertEqual(len(found), turns)
            self.assertLess(time.process_time() - begun, 6)

    def test_a_folder_is_bounded(self):
        """All journals of a station's folder together, by the memory that they take."""
        (self.folder / "pc7").mkdir()
        files = [self.book(row(1, 2, "07"), f"pc7/{name}").files[0] for name in ("a", "b")]
        size = sum(Path(it).stat().st_size for it in files) + 8 * steps.OF_LINE
        seats = {"pc7": frozenset(["a1"])}
        self.assertEqual(len(steps.shipped_books(self.folder, seats, size)), 2)
        self.assertRegex(self.last_fault(seats, size - 1), "^isn't read to its end: with .*pc7/b.journal these jour")

    def last_fault(self, seats, memory):
        """What is told of the last book of a folder of all."""
        book = steps.shipped_books(self.folder, seats, memory)[-1]
        self.assertEqual(({it.place() for it in book.faults}, len(book.times)), ({str(self.folder / "pc7")}, 0))
        return book.faults[0].told

    def test_what_a_large_folder_leaves(self):
        """A station that writes for ever leaves each other one as much memory as it may have itself."""
        for name, count in (("pc6", 50), ("pc7", 2), ("pc8", 9)):
            (self.folder / name).mkdir()
            self.book(row(1, count, "07"), f"{name}/a")
        seats = {name: frozenset(["a1"]) for name in ("pc6", "pc7", "pc8")}
        size = sum(it.stat().st_size + 2 * count * steps.OF_LINE for it, count in (
            (self.folder / "pc7/a.journal", 2), (self.folder / "pc8/a.journal", 9)))
        large = (self.folder / "pc6/a.journal").stat().st_size + 100 * steps.OF_LINE
        for memory, found in ((size + large, [50, 2, 9]), (size + large - 1, [0, 2, 9])):
            self.assertEqual([len(it.steps) for it in steps.shipped_books(self.folder, seats, memory)], found)

    def test_what_a_line_takes(self):
        """Whatever a line nests, it takes no more memory than it is counted for."""
        nested = [[] for _ in range(20_000)]
        shapes = {
            "a reply": [asked("07:00:00", 1, "c", "/v1/order"), answered("07:00:00", 1, x=nested)],
            "a refusal": [asked("07:00:00", 1, "c", "/v1/identity"), answered("07:00:00", 1, 409, no=32, x=nested)],
            "no request": [asked("07:00:00", 1, "c", "/v1/x", x=nested)],
            "wishes": [asked("07:00:00", 1, "c", "/v1/plan", wishes=[{"kind": "bit"} for _ in range(5_000)])],
            "blocks": [asked("07:00:00", 1, "c", "/v1/device", blocks=[f"{it}" for it in range(20_000)])],
            "letters": [asked("07:00:00", 1, "c", "/v1/map", text=f"{20_000 * 'x'}\U0001f600")],
            "an end": done("07:01:00", 2, "c"),
        }
        for name, lines in shapes.items():
            with self.subTest(name):
                files = [Path(it) for it in self.book([*lines, *shapes["an end"]]).files]
                room = steps.Room()
                tracemalloc.start()
                book = book_of(files, room=room)
                held, _ = tracemalloc.get_traced_memory()
                tracemalloc.stop()
                self.assertLess(held, steps.MEMORY - room.bytes + 10_000, len(book.steps))

    def test_very_many_faults(self):
        (self.folder / "pc7").mkdir()
        (self.folder / "pc7/a.journal").write_text((steps.MOST_FAULTS + 1) * "\n", encoding="ascii")
        told = "more than 100000 faults"
        self.assertIn(told, steps.shipped_books(self.folder, {"pc7": frozenset(["a1"])})[0].faults[0].told)

    def test_one_bad_folder(self):
        """What a station may write that nobody can read keeps no other station's journals from being read."""
        for name in ("pc7", "pc8"):
            (self.folder / name).mkdir()
        self.book(row(1, 2, "07"), "pc8/a")
        seats = {"pc7": frozenset(["b1"]), "pc8": frozenset(["a1"])}
        bad = {
            "a pipe": lambda it: os.mkfifo(it / "b.journal"),
            "a link": lambda it: (it / "b.journal").symlink_to("/etc/passwd"),
            "a folder too deep": lambda it: (it / "1/2/3").mkdir(parents=True),
        }
        for name, make in bad.items():
            with self.subTest(name):
                make(self.folder / "pc7")
                books = list(steps.shipped_books(self.folder, seats))
                self.assertEqual([(it.name(), len(it.steps)) for it in books if it.steps], [("a1", 2)])
                (fault,) = [it for book in books for it in book.faults]
                self.assertEqual((fault.place(), fault.told[:22]), (str(self.folder / "pc7"), "isn't read to its end:"))
                shutil.rmtree(self.folder / "pc7")
                (self.folder / "pc7").mkdir()

    def test_what_nests_deep(self):
        """Nor does a member that nests deeper than Python goes, also of a path that is no request's."""
        for name in ("pc7", "pc8"):
            (self.folder / name).mkdir()
        self.book(row(1, 2, "07"), "pc8/a")
        nested = json.loads(600 * "[" + 600 * "]")
        for path, member in (("/v1/ledger", "entries"), ("/v1/devices", "devices"), ("/v1/order", "x")):
            with self.subTest(path):
                first = asked("07:00:00", 1, "c", path), answered("07:00:00", 1, **{member: nested})
                self.book([*first, *done("07:01:00", 2, "c")], "pc7/a")
                books = steps.shipped_books(self.folder, {name: frozenset(["a1"]) for name in ("pc7", "pc8")})
                self.assertEqual([len(it.steps) for it in books], [2, 2])

    def test_whose_a_folder_is(self):
        """A line counts in its seat's own folder alone; one without a name is the folder's only seat's."""
        for name in ("pc1", "pc2"):
            (self.folder / name).mkdir()
        self.book(row(1, 2, "07"), "pc1/a1")
        strange = [{**it, "seat": "b1"} for it in row(3, 4, "08")]
        self.book([*strange, *row(5, 5, "09")], "pc1/x")
        self.book([{name: it for name, it in line.items() if name != "seat"} for line in row(1, 1, "07")], "pc2/x")
        folders = {"pc1": frozenset(("a1", "a2")), "pc2": frozenset(("b1",))}
        books = list(steps.shipped_books(self.folder, folders))
        self.assertEqual([(it.seat, len(it.steps)) for it in books], [("a1", 2), ("a1", 1), ("b1", 1)])
        faults = [(it.line, it.told) for book in books for it in book.faults]
        self.assertEqual(faults, [(1, "is of the seat b1, and its folder is of a1, a2")])

    def test_order(self):
        """A chip's lines come by their numbers, whatever the journals' order and the clock."""
        one, two = done("07:00:00", 1, "c"), done("07:10:00", 2, "c", "/v1/plan")
        back = done("07:09:40", 3, "c", "/v1/scrap")
        for books in ([one, two, back], [back, two, one], [[*one, *back], two]):
            _, journals = self.spans(books, self.store(3, "c", "/v1/scrap"))
            own = [it.number for chip, (_, it) in steps_by_chip(journals) if chip == ("acme", "c")]
            self.assertEqual(own, [1, 2, 3])

    def test_replies(self):
        """A request without a reply holds a place: one at the end, or one behind which a person had the seat go on.
        Where its number was given to another it wasn't done."""
        lost = asked("07:02:00", 2, "c2")
        for name, lines, last, words, left in (
            ("under way", [*row(1, 1, "07"), lost], 2, "", [1, 2]),
            ("done", [*row(1, 1, "07"), lost, goes_on("07:02:30", 3), *row(3, 3, "07")], 3, "", [1, 2, 3]),
            ("not done", [*row(1, 1, "07"), lost, goes_on("07:02:30", 2), *done("07:03:00", 2, "x")], 2, "", [1, 2]),
            ("a reply is gone", [*row(1, 1, "07"), lost, *row(3, 3, "07")], 3, "was never answered", [1, 2, 3]),
        ):
            with self.subTest(name):
                chip = {"under way": "c2", "not done": "x"}.get(name, "c3")
                found, journals = self.spans([lines], self.store(last, chip))
                self.assertEqual((words in " ".join(found), bool(found)), (True, bool(words)), found)
                self.assertEqual([it.number for it in journals[0].book.steps], left)

    def test_one_of_two_without_a_reply(self):
        """Of two with a number, of which the replies were lost, one was done: nobody can tell which, and neither is
        missed. One alone is."""
        for others, meant in (([], [2]), ([asked("07:02:10", 2, "c9"), goes_on("07:02:20", 2)], [])):
            book = [*row(1, 1, "07"), *others, asked("07:02:30", 2, "c2"), goes_on("07:03:00", 3), *row(3, 3, "07")]
            _, journals = self.spans([book], self.store(3, "c3"))
            told = [it for chip, it in steps_by_chip(journals) if chip == ("acme", "c2")]
            self.assertEqual([it.number for _, it in matched((), told).steps], meant)
            self.assertEqual(matched([LedgerRow(1, "acme", "c2", SHIPPED)], told).entries, [])

    def test_a_request_with_two_replies(self):
        """A copy of a request gets the reply that the server keeps; a line with another one was changed."""
        one = [asked("07:00:00", 1, "c"), answered("07:00:01", 1, chip="c", state="shipped")]
        for state, meant in (("shipped", 0), ("scrapped", 1)):
            two = [asked("07:05:00", 1, "c"), answered("07:05:01", 1, chip="c", state=state)]
            found, _ = self.spans([one, two], self.store(1, "c"))
            self.assertEqual(sum("has another reply than" in it for it in found), meant, found)

    def test_times_of_what_stands_there_twice(self):
        """A request that goes on in another journal, or was refused first, was first asked at its first line."""
        first = [*row(1, 1, "07"), asked("07:02:00", 2, "c2")]
        refused = [*first, answered("07:02:00", 2, 409, no=36)]
        for books in ([first, done("09:00:00", 2, "c2")], [[*refused, *done("09:00:00", 2, "c2")]]):
            _, journals = self.spans(books, self.store(2, "c2"))
            (step,) = [it for own in journals for it in own.book.steps if it.is_done() and it.number == 2]
            self.assertEqual((step.at, step.since), (f"{DAY}09:00:00Z", f"{DAY}07:02:00Z"))
            other = self.book(row(4, 6, "07"), "other").steps
            self.assertEqual(list(clock_contradictions([(1, step), *enumerate(other, 2)])), [])

    def test_a_last_step_between_two_periods(self):
        """The store lacks it: an audit of the period in which it was answered misses it, and one of that before not."""
        lines = [*row(1, 1, "05"), asked("05:59:50", 2, "c2"), answered("06:00:10", 2)]
        for period, meant in ((PERIOD, True), (Period(f"{DAY}05:00:00Z", PERIOD.start), False)):
            store = self.store(1, "c1")
            own = seated(self.book(lines), store)
            (span,) = spans_of([own], store, period)
            is_missed = [counts(own, it, store, period) for it in own.book.steps]
            self.assertEqual((is_missed, "an older store" in " ".join(span.faults)), ([True, meant], meant))

    def test_what_counts(self):
        """Not a line that was answered behind the period under a number that the store hasn't, nor one that a restore
        took away."""
        waits = [*row(1, 1, "07"), asked("13:59:59", 2, "c2"), answered("14:00:09", 2)]
        lost = [*row(1, 1, "05"), goes_on("06:30:00", 1), *done("06:31:00", 1, "n1")]
        between = [asked("05:59:50", 2, "c2"), answered("06:00:10", 2)]
        for name, lines, last, meant in (
            ("waits", waits, (1, "c1"), [True, False]), ("is there", waits, (2, "c2"), [True, True]),
            ("restored", lost, (1, "n1"), [False, True]),
            ("answered within", [*row(1, 1, "05"), *between], (2, "c2"), [True, True]),
        ):
            with self.subTest(name):
                store = self.store(*last)
                found, (own,) = self.spans([lines], store)
                self.assertEqual(([counts(own, it, store, PERIOD) for it in own.book.steps], found), (meant, []))


class Journals(SeatCase):
    def test_lines(self):
        """A reply that stands there twice is one, and another one is found, as is a path that the server hasn't."""
        again = asked("07:02:00", 1, "c1")
        for name, lines, words in (
            ("again", [*row(1, 1, "07"), again, answered("07:02:00", 1)], ""),
            ("again, behind a restore", [*row(1, 1, "07"), again, answered("07:02:00", 1, 409, no=11)], ""),
            ("otherwise", [*row(1, 1, "07"), again, answered("07:02:00", 1, state="x")], "otherwise than before"),
            ("twice", [*row(1, 1, "07"), answered("07:02:00", 1)], "isn't asked in front of it"),
            ("no path", done("07:01:00", 1, "c1", "/v1/none"), "accepts /v1/none, which the server doesn't have"),
            ("refused", [asked("07:01:00", 1, "c1", "/v1/none"), answered("07:01:00", 1, 404, no=2)], ""),
        ):
            with self.subTest(name):
                book = self.book(lines)
                self.assertEqual((len(book.steps), len(book.faults)), (1, bool(words)), book.faults)
                self.assertTrue(words in "".join(it.told for it in book.faults), book.faults)

    def test_whose(self):
        """A journal without names is that of the seat whose last request it has with the highest number; one without a
        line is nobody's, and is passed over."""
        lines = [{name: it for name, it in line.items() if name != "seat"} for line in row(1, 2, "07")]
        seats = {it.name: it for it in (StoredSeat("a2", "acme", 1, lines[0]["digest"], "{}"),
                                        StoredSeat("b1", "bolt", 2, lines[2]["digest"], "{}"))}
        store = SimpleNamespace(seats=seats)
        self.assertEqual(seated(self.book(lines), store).seat, "b1")
        self.assertEqual(list(_journal_faults([Seated(self.book([]), "", "", "")], store)), [])

    def test_a_seat_without_a_row(self):
        """One of the site that was only refused is known; one of no site, or with an accepted line, isn't."""
        refused = [asked("07:00:00", 1, "c1"), answered("07:00:01", 1, 409, no=17)]
        for sites, lines, meant in ((("a1",), refused, []), ((), refused, ["no_seat"]),
                                    (("a1",), row(1, 1, "07"), ["no_seat"])):
            store = SimpleNamespace(seats={}, site_seats=frozenset(sites))
            own = Seated(self.book(lines), "a1", "", "")
            kinds = [it.kind for it in _journal_faults([own], store)]
            self.assertEqual([it for it in kinds if it == "no_seat"], meant)

    def test_a_seat_without_a_row_behind_a_restore(self):
        """One that has asked for nothing since a restore took all of it away is known: the store expects number 1."""
        for hour, on, kinds, meant in (("05", 1, [], False), ("07", 1, [], True), ("05", 2, ["no_seat"], True)):
            store = SimpleNamespace(seats={}, site_seats={"a1": "acme"})
            own = seated(self.book([*row(1, 3, hour), goes_on(f"{hour}:30:00", on)]), store)
            self.assertEqual(spans_of([own], store, PERIOD), [])
            self.assertEqual([it.kind for it in _journal_faults([own], store) if it.kind == "no_seat"], kinds)
            self.assertEqual({counts(own, it, store, PERIOD) for it in own.book.steps}, {meant})

    def test_entries_from_before_a_journal(self):
        """Each seat's own first line counts, and as many entries as it had numbers; those of number 1 have none."""
        pairs = [(5, SimpleNamespace(seat="a1")), (9, SimpleNamespace(seat="a2"))]
        unheld = Unheld(pairs, [Span("a1", "acme", "", 1), Span("a2", "acme", "", 3)])
        for number, seat, meant in ((7, "a2", True), (8, "a2", True), (8, "a2", False), (3, "a1", False),
                                    (3, "a3", True), (6, "a3", False)):
            left = Left(number, "acme", "c", 1, "shipped", "", seat)
            self.assertEqual(unheld.has(left), meant, left)

    def test_a_seat_without_a_journal(self):
        """Its requests are told where it has more of them than entries."""
        store = SimpleNamespace(seats={name: StoredSeat(name, "acme", 8, "", "") for name in ("a1", "a2")})
        found = [it.told for it in _idle_faults({"a1", "a2"}, Counter(a1=8, a2=6), store)]
        self.assertEqual(len(found), 1)
        self.assertIn("2 of its 8 requests are of no device", found[0])

    def test_what_lines_say_was_given_twice(self):
        """A serial number, a key of an issuer, an address: of two chips, also where one is in no store."""
        steps = [("c1", "ca", "S1", "k1", "m1"), ("c1", "ca", "S1", "k1", "m1"), ("c2", "cb", "S1", "k1", "m2"),
                 ("c3", "ca", "S1", "k3", None), ("c4", "ca", "S4", "k1", None), ("c5", "ca", "S5", "k5", "m2")]
        lines = []
        for number, (chip, issuer, serial, key, mac) in enumerate(steps, 1):
            reply = {"issuer": issuer, "serial": serial, "key_sha256": key, "mac": mac}
            lines += [asked(f"07:{number:02}:00", number, chip, "/v1/identity"),
                      answered(f"07:{number:02}:01", number, **reply)]
        own = Seated(self.book(lines), "a1", "acme", "")
        found = [("c3", "serial"), ("c4", "key_sha256"), ("c5", "mac")]
        for turn, meant in ((0, found), (1, found[1:])):
            step = own.book.steps[3]
            step.turn = turn
            step.save()
            self.assertEqual([(it[4], it[5].split()[1]) for it in given_twice([own])], meant)

    def test_what_lines_of_imports_say_was_given_twice(self):
        """A number or a key beside another one, of a chip or an import: not where both agree, and not where a restore
        took the import away."""
        def identity(number, chip, serial, key, mac=None):
            reply = {"issuer": "ca", "serial": serial, "key_sha256": key, "mac": mac}
            return [asked(f"07:{number:02}:00", number, chip, "/v1/identity"),
                    answered(f"07:{number:02}:01", number, **reply)]

        def imported(number, *rows):
            text = "".join(f"{it}\n" for it in ("serial,key_sha256", *rows))
            return [asked(f"07:{number:02}:00", number, "", "/v1/import", issuer="ca", csv=text),
                    answered(f"07:{number:02}:01", number, added=len(rows), present=0)]

        def ordered(number, name, macs):
            return [asked(f"07:{number:02}:00", number, "", "/v1/order", name=name, macs=macs),
                    answered(f"07:{number:02}:01", number)]

        def registered(number, chip, order):
            return [asked(f"07:{number:02}:00", number, chip, "/v1/device", order=order),
                    answered(f"07:{number:02}:01", number)]

        spans = [*ordered(1, "o", 2), *registered(2, "c1", "o"), *identity(3, "c1", "S1", "k1", "020000000010")]
        for name, lines, meant in (
            ("agree", [*identity(1, "c1", "S1", "k1"), *imported(2, "S1,k1"), *imported(3, "S1,K1", "S2,k2")], []),
            ("another key", [*identity(1, "c1", "S1", "k1"), *imported(2, "S1,k2")], ["the serial S1 was given twice"]),
            ("another number", [*imported(1, "S1,k1"), *identity(2, "c1", "S2", "k1")], ["the key_sha256 k1 was"]),
            ("two imports", [*imported(1, "S1,k1"), *imported(2, "S1,k2")], ["the serial S1 was given twice"]),
            ("a restore", [*imported(1, "S1,k1"), goes_on("07:05:00", 1), *imported(1, "S1,k2")], []),
            ("a chip again", [*identity(1, "c1", "S1", "k1"), goes_on("07:05:00", 1), *identity(1, "c1", "S2", "k1")],
             []),
            ("addresses apart", [*spans, *identity(4, "c2", "S2", "k2", "020000000012")], []),
            ("an address within", [*spans, *identity(4, "c2", "S2", "k2", "020000000011")], ["020000000011 was giv"]),
        ):
            with self.subTest(name):
                _, journals = self.spans([lines], self.store(4))
                told = [it[5] for it in given_twice(journals)]
                self.assertEqual((len(told), all(it in own for it, own in zip(meant, told))), (len(meant), True), told)

    def test_what_is_told_of_an_audit_that_ended(self):
        """Nothing was found where the program answered all, and nowhere else."""
        lacks = "acme isn't replayed, as these journals lack the number 1 of a1"
        one = Found("store", "", "", "", "", "a row")
        for found, why, meant in (
            ([], [], "Nothing found."), ([one], [], "1 found."),
            ([], [lacks], f"The audit could not be finished: {lacks}."),
            ([one], [lacks, "the program ended"], f"1 found. The audit could not be finished: {lacks}; the program "
                                                  "ended."),
        ):
            self.assertEqual(verdict(Audit(PERIOD, found, unfinished=why)), meant)


class Seals(FolderCase):
    def chained(self, *days):
        """A chain of a seal on each of these days of a month: its lines, and the last one's seal."""
        text = 'map acme 1 {"map":"1","text_sha256":"1"}\n'
        last, lines = 64 * "0", []
        for number, day in enumerate(days, 1):
            digest = hashlib.sha256(text.encode()).hexdigest()
            it = sealed(last, number, f"2026-01-{day:02}T02:00:00Z", "acme", 1, digest)
            (self.folder / f"{number:06}.rows").write_text(text)
            (self.folder / f"{number:06}.seal").write_text(it.line() + "\n")
            last, lines = it.seal, [*lines, it.line() + "\n"]
        (self.folder / "chain").write_text("".join(lines))
        return lines, last

    def test_a_time_that_falls_is_no_gap(self):
        """Nine days lie between the first two of these seals, and the last one is of eight days before the second."""
        self.chained(1, 10, 2)
        found, out, _ = ran("seal", "--verify", self.folder)
        self.assertEqual(found, 1, out)
        self.assertIn("chain is of 2026-01-02T02:00:00Z, and the line in front of it of 2026-01-10T02:00:00Z", out)
        self.assertIn("The last time without a seal: 216 hours, from 000001 of 2026-01-01T02:00:00Z to 000002 of", out)
        self.assertNotIn("seal: -", out)

    def test_gaps(self):
        """The longest time without a seal is told where it is above a day, and a seal that was kept has to be there."""
        lines, last = self.chained(1, 2, 3, 9, 10)
        for words, status, told in (
            ([], 0, "The longest time without a seal: 144 hours, from 000003 of 2026-01-03T02:00:00Z to 000004 of"),
            ([], 0, "The last time without a seal: 24 hours, from 000004 of 2026-01-09T02:00:00Z to 000005 of"),
            (["--last", lines[1]], 0, "Nothing found"), (["--last", last], 0, "Nothing found"),
            (["--last", 64 * "a"], 1, "The seal that --last names isn't in the chain"),
        ):
            found, out, _ = ran("seal", "--verify", self.folder, *words)
            self.assertEqual((found, told in out), (status, True), out)

    def test_the_moment_of_a_stamp(self):
        """A kept stamp is verified as of its own moment: 1795982400 by `date -u -d 2026-11-29T20:00:00Z +%s`."""
        (self.folder / "x.tsr").write_bytes(b"x")
        text = b"Time stamp: Nov 29 20:00:00 2026 GMT\n"
        service = SimpleNamespace(is_verified=mock.Mock(return_value=True))
        with mock.patch("wanekupo.books.stamp._openssl", return_value=text):
            self.assertTrue(verified(self.folder / "x.tsr", "ab", service))
        words = service.is_verified.call_args.args[1:]
        self.assertEqual(words, ("-digest", "ab", "-attime", "1795982400"))
        with mock.patch("wanekupo.books.stamp._openssl", return_value=b"no moment"):
            self.assertFalse(verified(self.folder / "x.tsr", "ab", service))

    def test_a_service_whose_clock_went_back(self):
        """A stamp of before the last one isn't taken: `--verify` would find it for ever."""
        chain = Chain(self.folder)
        for moment, is_taken in (("02:04:00", True), ("02:01:00", False), ("02:05:00", True)):
            service = SimpleNamespace(stamped=lambda _, moment=moment: f"2026-01-01T{moment}Z".encode())
            with mock.patch("wanekupo.books.chain.moment_in", Path.read_text):
                try:
                    chain.add(["a"], "2026-01-01T02:01:00Z", "acme", None, service)
                    self.assertTrue(is_taken, moment)
                except BadChain as error:
                    self.assertFalse(is_taken, error)
        self.assertEqual(len(chain.seals()), 2)
