"""Cuts the power between any two calls that a run makes on its store's files, and compares what the program makes of
what is left with an undisturbed run.

The run is the life of a chip of docs/first-chip.md over a new store, `replay --db`: where nothing is, or over
a file of no bytes. strace records its calls on the store's file, on the file as which it is made (`STORE-new`) and on
the log beside it, with their bytes, and each reply that is written. A cut is between two of these calls, each place in
its turn, and leaves of each file for itself:

- what it held when a sync of it last came back;
- of each later write nothing, all, a front, any bytes, or any of the sectors of 512 bytes, each byte below the old end
  being the old one or the written one, and behind the old end anything: what was written, zeros, random bytes, or
  bytes from elsewhere in the file;
- of each later change of the length any length between both;
- a file that was made, and whose folder wasn't synced since, may be there or not, and one that was renamed may have
  either name.

This is what the program supposes of a disk (docs/proof/trust.md); of names it supposes no more than that a file
which it made or renamed has its name once it has synced the folder. It renames one file, that of a new store, and
removes none: a call on the files that isn't known here is an error.

The file of a new store has to be the page of an empty database as C's SQLite makes it, but for the number of SQLite's
release in its header. A cut has to leave at that name what was there before, or this page whole, until something else
is written into it; and behind each run nothing has the name `STORE-new`.

Of what is left the program has to show, and to keep as rows (read with sqlite3 from a copy), the books before the
request that the cut took the reply of, or those after it: so every request whose reply was written is there. From the
same files on, that request, sent again, gets its reply, and so does the rest of the run; the books at the end are the
undisturbed ones. Where all replies were written the last request is the one that is repeated. Of some cuts (`SHARE`)
that second run is recorded too, and is cut as well, mostly before its first reply, that is while it recovers; and so
on.

What is left depends on the seed, on the number of the cut and on the numbers that the program draws for its log. What
a wrong cut left is kept in the test's folder.
"""

import collections
import concurrent.futures
import multiprocessing
import os
import random
import re
import tempfile
from dataclasses import dataclass, field
from pathlib import Path

import pytest

from common.chip import Failed, empty_page, replay_words, replies_in, rows_of, served, shows, store_at, undisturbed
from common.chip import without_release

pytestmark = pytest.mark.needs("strace")

# The stores are made in memory where there is such a disk; a run may take so many seconds; and of so many of the cuts
# there is another behind it.
MEMORY = Path("/dev/shm")
SECONDS, SHARE = 600, 0.3
SECTOR = 512
FILES = ("file", "log", "new")

# All calls by which a program can change a file or its name.
TRACED = (
    "open,openat,openat2,creat,write,writev,pwrite64,pwritev,pwritev2,truncate,ftruncate,fallocate,fsync,fdatasync,"
    "sync,syncfs,sync_file_range,rename,renameat,renameat2,unlink,unlinkat,link,linkat,symlink,symlinkat,mmap,"
    "copy_file_range,sendfile,splice,io_uring_setup"
)
STRACE = ["strace", "-f", "--seccomp-bpf", "-qq", "-y", "-xx", "-s", "67108864", "-e", f"trace={TRACED}"]
CALL = re.compile(r"^\d+ +(\w+)\((.*)\) += (-?\d+)")
TEXT = re.compile(r'"((?:\\x[0-9a-f]{2})*)"(\.\.\.)?')
DESCRIPTOR = re.compile(r"^(\d+)<((?:\\x[0-9a-f]{2})*)>")

KINDS = ("nothing", "all", "front", "bytes", "sectors")
THINNED = [bytes(255 if byte < most else 0 for byte in range(256)) for most in (1, 16, 128, 240, 255)]


class Wrong(Exception):
    """What the program made of what a cut left, and its kind."""

    def __init__(self, kind, text):
        super().__init__(text)
        self.kind = kind


@dataclass
class Call:
    """A call on a file, on the folder, or a reply's bytes."""

    name: str
    file: str = ""
    at: int = 0
    data: bytes = b""

    def __str__(self):
        more = {"write": f" {len(self.data)} bytes at {self.at}", "length": f" to {self.at}"}
        return f"{self.name} {self.file}{more.get(self.name, '')}".strip()


def text_of(digits):
    return bytes.fromhex(digits.replace("\\x", ""))


def files_at(path):
    """A store's files, and the one as which it is made."""
    return [*store_at(path), Path(f"{path}-new")]


def call_of(line, names, folder, ends):
    """The call of a line of strace, or none where it changes nothing of the files. `ends` has how far each file was
    written at its own position."""
    found = CALL.match(line)
    if not found:
        if any(hidden in line for hidden in map(hex_of, names)):
            raise Failed(f"a line that strace wrote isn't known: {line[:200]}")
        return None
    name, words, value = found[1], found[2], int(found[3])
    if name in ("open", "openat", "openat2", "creat"):
        return made(line, words, value, names)
    if name in ("rename", "renameat", "renameat2") and value == 0:
        return renamed(line, words, names)
    descriptor = DESCRIPTOR.match(words)
    path = text_of(descriptor[2]).decode() if descriptor else None
    if name == "write" and descriptor and descriptor[1] == "1" and value >= 0:
        return Call("reply", data=text_of(TEXT.search(words)[1])[:value])
    if name in ("fsync", "fdatasync") and path == folder and value == 0:
        return Call("folder")
    if path not in names:
        if any(hidden in line for hidden in map(hex_of, names)):
            raise Failed(f"a call that isn't known: {line[:200]}")
        return None
    if value >= 0 and name == "pwrite64":
        data = text_of(TEXT.search(words)[1])[:value]
        return Call("write", names[path], int(words.rpartition(", ")[2]), data)
    if value >= 0 and name == "write" and names[path] == "new":
        data, at = text_of(TEXT.search(words)[1])[:value], ends.get(path, 0)
        ends[path] = at + value
        return Call("write", "new", at, data)
    if value == 0 and name == "ftruncate":
        return Call("length", names[path], int(words.rpartition(", ")[2]))
    if value == 0 and name in ("fsync", "fdatasync"):
        return Call("sync", names[path])
    raise Failed(f"a call that isn't known or that failed: {line[:200]}")


def made(line, words, value, names):
    """The making of a file, if one of the files was made."""
    path = text_of(TEXT.search(words)[1]).decode()
    if value < 0 or path not in names or ("O_CREAT" not in words and "O_TRUNC" not in words):
        return None
    if "O_EXCL" not in words or "O_TRUNC" in words:
        raise Failed(f"a call that isn't known: {line[:200]}")
    return Call("made", names[path])


def renamed(line, words, names):
    """The renaming of a file, which has to be that of a new store to the store's name."""
    paths = [text_of(digits).decode() for digits, _ in TEXT.findall(words)]
    known = [names.get(path) for path in paths]
    if known == ["new", "file"]:
        return Call("renamed", "new")
    if any(known):
        raise Failed(f"a call that isn't known: {line[:200]}")
    return None


def hex_of(path):
    return "".join(f"\\x{byte:02x}" for byte in path.encode())


@dataclass
class File:
    """One of the files: whether it is there, and what it may be called on the disk in place of its name, where the
    empty name is none; what a sync saw of it, and the calls since; and what had its name before it, if anything did."""

    is_there: bool = False
    others: list = field(default_factory=list)
    kept: bytes = b""
    later: list = field(default_factory=list)
    before: bytes | None = None

    def sync(self):
        for call in self.later:
            end = call.at + len(call.data)
            longer = self.kept.ljust(end, b"\0")
            self.kept = longer[: call.at] + call.data + (longer[end:] if call.name == "write" else b"")
        self.later = []


def files_after(image, calls, are_syncs_ignored):
    """The files after these calls, from an image on: the bytes of each file that is there."""
    files = {name: File(name in image, [], image.get(name, b"")) for name in FILES}
    for call in calls:
        if call.name == "made":
            files[call.file].is_there, files[call.file].others = True, [""]
        elif call.name == "renamed":
            before, files["file"], files["new"] = files["file"], files["new"], File()
            files["file"].others.append("new")
            files["file"].before = before.kept if before.is_there else None
        elif call.name == "folder":
            for each in files.values():
                each.others = []
        elif call.name == "sync" and not are_syncs_ignored:
            files[call.file].sync()
        elif call.name in ("write", "length"):
            files[call.file].later.append(call)
    return files


class Chance:
    """Draws what a cut leaves."""

    def __init__(self, seed):
        self.random = random.Random(seed)

    def image(self, files):
        """What a cut leaves of the files."""
        left = {}
        for name, file in files.items():
            found = self.random.choice([name, *file.others]) if file.is_there else ""
            if found:
                left[found] = self.contents(file)
            if file.before is not None and name not in left:
                left[name] = file.before
        return left

    def contents(self, file):
        """What a cut leaves of one file: in order up to a call, all but one call, or each call for itself."""
        left, way = file.kept, self.random.choice(["order", "gap", "each", "each"])
        place = self.random.randrange(len(file.later)) if file.later else 0
        for number, call in enumerate(file.later):
            kind = self.random.choice(KINDS)
            if way != "each" and number != place:
                kind = "nothing" if way == "order" and number > place else "all"
            left = self.written(left, call, kind) if call.name == "write" else self.changed(left, call.at, kind)
        return left

    def written(self, old, call, kind):
        """What is left of a write, over an old content."""
        end = max(len(old), call.at + len(call.data))
        body = bytearray(old + self.filler(old, end - len(old)))
        part, mask = slice(call.at, call.at + len(call.data)), self.mask(kind, call)
        body[part] = mixed(body[part], call.data, mask)
        some = len(mask.rstrip(b"\0"))
        return bytes(body[: self.length(max(len(old), call.at + some if some else 0), end)])

    def changed(self, old, length, kind):
        """What is left of a change of the length, of an old content."""
        body = old + self.filler(old, length - len(old))
        if kind in ("nothing", "all"):
            return body[: length if kind == "all" else len(old)]
        return body[: self.length(*sorted((len(old), length)))]

    def length(self, least, most):
        return self.random.choice([least, most, self.random.randint(least, most)])

    def mask(self, kind, call):
        """For each byte of a write 255 where it came to the disk, else 0."""
        size = len(call.data)
        if kind in ("nothing", "all"):
            return (b"\0" if kind == "nothing" else b"\xff") * size
        if kind == "front":
            return (b"\xff" * self.random.randint(0, size)).ljust(size, b"\0")
        if kind == "bytes":
            return self.random.randbytes(size).translate(self.random.choice(THINNED))
        before = call.at % SECTOR
        count = (before + size + SECTOR - 1) // SECTOR
        sectors = self.random.randbytes(count).translate(self.random.choice(THINNED))
        return b"".join(bytes([each]) * SECTOR for each in sectors)[before : before + size]

    def filler(self, old, size):
        """What stands behind the old end: zeros, random bytes, or bytes of elsewhere."""
        if size <= 0:
            return b""
        kind = self.random.randrange(3)
        if kind == 0 or (kind == 2 and not old):
            return bytes(size)
        if kind == 1:
            return self.random.randbytes(size)
        start = self.random.randrange(len(old))
        return (old[start:] + old * (size // len(old) + 1))[:size]


def mixed(old, new, mask):
    """The new bytes where the mask has ones, else the old ones."""
    some, other, ones = (int.from_bytes(each, "little") for each in (old, new, mask))
    return ((some & ~ones) | (other & ones)).to_bytes(len(new), "little")


class Bench:
    """The program, its undisturbed run, and the calls of that run. What a wrong cut left is kept in a folder."""

    def __init__(self, program, folder, seed, kept, are_syncs_ignored=False):
        self.program, self.folder, self.seed, self.kept = program, Path(folder), seed, kept
        self.are_syncs_ignored = are_syncs_ignored
        self.run = undisturbed(program, folder)
        images = {"missing": {}, "empty": {"file": b""}}
        self.starts = [(image, self.going_on(image, 0, self.folder / name, True)) for name, image in images.items()]
        self.page = self.made(self.starts[0][1])
        if self.made(self.starts[1][1]) != self.page:
            raise Failed("a missing file and one of no bytes become other stores")

    def made(self, calls):
        """The page as which the store is made by these calls, which has to be SQLite's."""
        names = [call.name for call in calls]
        if "renamed" not in names:
            raise Failed("the store's file isn't renamed")
        made = calls[: names.index("renamed")]
        page = b"".join(call.data for call in made if call.name == "write" and call.file == "new")
        if without_release(page) != without_release(empty_page(len(page))):
            raise Failed("the page of a new store isn't that of SQLite")
        return page

    def put(self, image, folder):
        """A folder with the files of an image. Returns the store's path."""
        folder.mkdir()
        path = folder.resolve() / "books.db"
        for name, file in zip(FILES, files_at(path)):
            if name in image:
                file.write_bytes(image[name])
        return path

    def look_whole(self, before, calls, image):
        """What was made, and isn't written into since, has to be the page, or what was there."""
        is_written = any(call.name == "write" and call.file == "file" for call in calls)
        goods = (self.page, before.get("file", self.page))
        if not before.get("file") and not is_written and image.get("file", self.page) not in goods:
            raise Wrong("half made", f"the store has {len(image['file'])} bytes, which aren't the page")

    def looked(self, image, least, most, folder):
        """How many requests the books have that the program finds, which may be between these."""
        path = self.put(image, folder)
        try:
            shown = served(replay_words(self.program, path), b"".join(shows()), SECONDS)
        except Failed as failure:
            raise Wrong("refused", f"what is left isn't opened: {failure}") from failure
        if files_at(path)[2].exists():
            raise Wrong("left over", "behind a run there is a file that wasn't renamed")
        rows = rows_of(path)
        found = [count for count, books in enumerate(self.run.books) if (books.shown, books.rows) == (shown, rows)]
        if not found:
            same = [count for count, books in enumerate(self.run.books) if books.shown == shown]
            raise Wrong("other books", f"the rows are those of no number of requests, and what is shown of {same}")
        if not least <= found[0] <= most:
            kind = "older books" if found[0] < least else "newer books"
            raise Wrong(kind, f"the books are those after {found[0]} requests and not after {least} to {most}")
        return found[0]

    def going_on(self, image, answered, folder, is_recorded):
        """Has the request without a reply, or the last one, and the rest served. Returns the calls, if recorded."""
        path, first = self.put(image, folder), self.first(answered)
        words, out = replay_words(self.program, path), folder / "calls"
        stream = b"".join(self.run.asked[first:] + shows())
        replies = served([*STRACE, "-o", str(out), *words] if is_recorded else words, stream, SECONDS)
        goods = self.run.replies[first:] + self.run.books[-1].shown
        if replies != goods:
            others = [first + place + 1 for place, good in enumerate(goods) if replies[place : place + 1] != [good]]
            raise Wrong("other replies", f"sent again from request {first + 1} on, the requests {others} have others")
        if rows_of(path) != self.run.books[-1].rows:
            raise Wrong("other rows", f"sent again from request {first + 1} on, the requests leave other rows")
        if not is_recorded:
            return []
        names, ends = dict(zip(map(str, files_at(path)), FILES)), {}
        with out.open(encoding="ascii") as lines:
            return [call for line in lines if (call := call_of(line, names, str(path.parent), ends))]

    def first(self, answered):
        """The place of the request that a station sends again."""
        return min(answered, len(self.run.asked) - 1)

    def answered(self, calls, before):
        """How many requests had their replies after these calls, of a run that began where so many had."""
        count = len(replies_in(b"".join(call.data for call in calls if call.name == "reply"))[0])
        return max(before, min(self.first(before) + count, len(self.run.asked)))

    def cut(self, number):
        """Makes a cut, and perhaps others after it. Returns what they left, and what was wrong."""
        chance = Chance(f"{self.seed} {number}")
        (image, calls), answered, least, told = chance.random.choice(self.starts), 0, 0, []
        place = number % (len(calls) + 1)
        while True:
            files = files_after(image, calls[:place], self.are_syncs_ignored)
            answered = self.answered(calls[:place], answered)
            least = max(least, answered)
            told.append(f"{place} of {len(calls)} calls, {answered} replies")
            before, image = image, chance.image(files)
            is_more = not self.are_syncs_ignored and chance.random.random() < SHARE
            try:
                if not self.are_syncs_ignored:
                    self.look_whole(before, calls[:place], image)
                with tempfile.TemporaryDirectory(dir=self.folder) as folder:
                    most = min(answered + 1, len(self.run.asked))
                    found = self.looked(image, least, most, Path(folder) / "look")
                    if not self.are_syncs_ignored:
                        calls = self.going_on(image, answered, Path(folder) / "go", is_more)
            except (Wrong, Failed) as failure:
                self.keep(number, image)
                fault = f"cut {number} ({'; then '.join(told)}): {failure}"
                return "", len(told), (getattr(failure, "kind", "failed"), fault)
            if not is_more:
                return "after" if found > answered else "before", len(told), None
            least, ends = found, [place for place, call in enumerate(calls) if call.name == "reply"]
            place = chance.random.randint(0, ends[0] if chance.random.random() < 0.75 else len(calls))

    def keep(self, number, image):
        """Keeps what a cut left that something was wrong with."""
        for name, file in zip(FILES, files_at(self.kept / f"cut{number}.db")):
            if name in image:
                file.write_bytes(image[name])


BENCH = None


def cut(number):
    """A cut in a process of its own, which has the bench from the one that started it."""
    return BENCH.cut(number)


def cut_all(bench, cuts):
    """All cuts. Returns the counts and what was wrong, each with its kind."""
    global BENCH
    BENCH = bench
    jobs = len(os.sched_getaffinity(0))
    counts, wrong = collections.Counter(), []
    context = multiprocessing.get_context("fork")
    with concurrent.futures.ProcessPoolExecutor(jobs, mp_context=context) as pool:
        for what, times, fault in pool.map(cut, range(cuts), chunksize=4):
            counts["all"] += times
            counts["more"] += times > 1
            if fault:
                counts[fault[0]] += 1
                wrong.append(fault)
            else:
                counts[what] += 1
    return counts, wrong


@pytest.fixture
def folder():
    """A folder for the stores, which is gone at the end."""
    with tempfile.TemporaryDirectory(dir=MEMORY if MEMORY.is_dir() else None) as name:
        yield name


@pytest.mark.sizes(40, 3000)
def test_cuts(program, folder, tmp_path, size, seed, found):
    bench = Bench(program, folder, seed, tmp_path)
    counts, wrong = cut_all(bench, size)
    assert wrong[:20] == []
    assert counts["before"] and counts["after"] and counts["more"]
    found(
        f"{size} runs cut at {len(bench.starts[0][1]) + 1} places, {counts['more']} of them again after it, "
        f"{counts['all']} cuts: {counts['before']} left the books before the request, {counts['after']} after it; "
        f"{len(wrong)} wrong; seed {seed}"
    )


def test_a_disk_that_lies_is_found(program, folder, tmp_path, seed):
    """Where no sync of a file counts, each write since the start may be lost: wrong books have to be found, older ones
    or others. Where the program refuses what is left that counts for nothing."""
    _, wrong = cut_all(Bench(program, folder, seed, tmp_path, are_syncs_ignored=True), 60)
    assert [what for kind, what in wrong if kind.endswith("books")]
