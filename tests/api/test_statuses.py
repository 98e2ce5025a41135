"""How the built program ends: its statuses, what it prints and where, and the files of its stores.

The expected lines are those of docs/reference/program.md, and the words of the packaged unit are those of
deploy/station.service. What is tried: the words of a command line; site files, maps and stores that it refuses, with
each row of a store as it was; a stream that is cut, and an output that takes nothing; `serve` until it ends by itself,
over a port that is taken, and as the unit starts, bounds and ends it; stores whose paths are absolute, with their
modes; and the making of a store, whose page is SQLite's.
"""

import os
import re
import resource
import select
import shlex
import socket
import struct
import subprocess
from pathlib import Path

import pytest

from common.chip import MAP, ROOT, SITE, body_of, empty_page, get, replies_in, requests, rows_of, status_of
from common.chip import without_release
from common.ports import HOST, free_port
from common.served import Caller

UNIT = ROOT / "deploy/station.service"
SECONDS = 600
THOUSANDS, TENS_OF_THOUSANDS = 5000, 66_000

# The most bytes of a file of a map, and of a site.
MAP_BYTES, SITE_BYTES = 32_768, 1_048_576

# The rows of an import, and a bound that the store's file meets, as the log beside it is joined at a thousand pages.
ROWS = 500
BOUND = 6 << 20

# The number of the version, as the description of the API tells it to integrators.
(NUMBER,) = re.findall(r'^  version: "([0-9.]+)"$', (ROOT / "docs/openapi.yaml").read_text(encoding="utf-8"), re.M)

# Words that have something shown on standard output, and all that is shown.
SHOWN = {
    "--help": rb"Serves programming stations\n.*Usage: station .*\n",
    "serve --help": rb"Serves connections .*Usage: station serve .*\n",
    "replay --help": rb"Serves one stream .*Usage: station replay .*\n",
    "check-map --help": rb"Reads a fuse map.*Usage: station check-map .*\n",
    "check-site --help": rb"Reads a site.*Usage: station check-site .*\n",
    "--version": re.escape(f"station {NUMBER}\n".encode()),
    "-V": re.escape(f"station {NUMBER}\n".encode()),
}

# Words that are refused: none, others, too few, and numbers out of their range.
SERVE = "serve --site site.toml --db books.db --port 8080 --connections 7"
REFUSED = [
    "",
    "work",
    "--quiet",
    "replay",
    "replay --site site.toml books.db",
    "replay --site site.toml --existing",
    "check-map",
    "check-site",
    "check-site site.toml site.toml",
    "serve --site site.toml --port 8080 --connections 7",
    SERVE.replace("8080", "0"),
    SERVE.replace("8080", "65536"),
    SERVE.replace(" 7", " 0"),
    SERVE.replace(" 7", " 1000001"),
    SERVE.replace(" 7", " many"),
]

# Another site file in the place of the packaged unit's, in a mount of one's own.
PACKAGED = "mount -t tmpfs none /etc && mkdir /etc/station && cp site.toml /etc/station/site.toml && exec"


def unit_words(name):
    """The words of one of the unit's commands, whose lines systemd joins by a space."""
    text = UNIT.read_text(encoding="utf-8").replace("\\\n", " ")
    return shlex.split(re.search(rf"^{name}=(.*)$", text, re.MULTILINE)[1])


def import_of(number):
    """A seat's request of this number, with rows that no other number has."""
    rows = "".join(f"N{number}-{row},{number:032x}{row:032x}\n" for row in range(ROWS))
    return {"nr": number, "issuer": "acme-ca", "csv": f"serial,key_sha256\n{rows}"}


class Served:
    """`station serve` in a folder, until it ends or is killed, which is first to say that it listens."""

    def __init__(self, words, port, folder):
        pipe = subprocess.PIPE
        self.port = port
        self.process = subprocess.Popen(words, stdin=subprocess.DEVNULL, stdout=pipe, stderr=pipe, cwd=folder)
        ready, _, _ = select.select([self.process.stdout], [], [], SECONDS)
        self.line = self.process.stdout.readline() if ready else b""

    def __enter__(self):
        return self

    def __exit__(self, kind, error, trace):
        self.process.kill()
        self.process.communicate()

    def ask(self, *words, token="abc"):
        """The status of a request over a connection of its own."""
        return Caller(self.port, token, is_kept=False).ask(*words)[0]

    def send(self, request):
        """The whole replies to bytes that end a connection."""
        with socket.create_connection((HOST, self.port), SECONDS) as connection:
            connection.sendall(request)
            connection.shutdown(socket.SHUT_WR)
            return replies_in(b"".join(iter(lambda: connection.recv(65536), b"")))[0]

    def hang_up(self):
        """A connection that says nothing and is reset, so that its port is free at once."""
        with socket.socket() as connection:
            connection.setsockopt(socket.SOL_SOCKET, socket.SO_LINGER, struct.pack("ii", 1, 0))
            connection.connect((HOST, self.port))

    def end(self):
        """The status, and what else is printed."""
        out, err = self.process.communicate(timeout=SECONDS)
        return self.process.returncode, out, err


class ProgramCase:
    """A folder with the sample site, in which the program is started."""

    @pytest.fixture(autouse=True)
    def place(self, program, site):
        self.program, self.folder = program, site.parent

    def run_it(self, *words, stream=b"", before=()):
        """The status of a run with this on its input, its output, and what is on standard error."""
        done = subprocess.run(
            [*before, str(self.program), *words],
            input=stream, capture_output=True, timeout=SECONDS, check=False, cwd=self.folder,
        )  # fmt: skip
        return done.returncode, done.stdout, done.stderr

    def serve(self, *words, connections=1000000):
        """The program on a free port."""
        port = free_port()
        rest = ["--port", str(port), "--connections", str(connections)]
        return Served([str(self.program), "serve", *words, *rest], port, self.folder)

    def ends(self, line, words, stream=b"", before=()):
        """It ends with status 1 and this line, and nothing on its output."""
        assert self.run_it(*words, stream=stream, before=before) == (1, b"", line.encode() + b"\n"), words

    def both(self, *words):
        """These words of `replay` and of `serve`."""
        return ["replay", *words], ["serve", *words, "--port", str(free_port()), "--connections", "7"]

    def made(self, name="books.db"):
        """A store with the life of a chip."""
        status, out, err = self.run_it("replay", "--site", "site.toml", "--db", name, stream=b"".join(requests()))
        assert (status, err, {status_of(reply) for reply in replies_in(out)[0]}) == (0, b"", {200})
        return self.folder / name

    def files(self):
        return {path.name for path in self.folder.iterdir()}


class TestWords(ProgramCase):
    @pytest.mark.parametrize("words", SHOWN)
    def test_what_is_shown(self, words):
        """On standard output, with status 0, and nothing on standard error."""
        status, out, err = self.run_it(*words.split())
        assert (status, err) == (0, b"")
        assert re.fullmatch(SHOWN[words], out, re.DOTALL)

    @pytest.mark.parametrize("words", [*REFUSED, b"\xff"])
    def test_what_is_refused(self, words):
        """On standard error alone, with status 2, and nothing is made."""
        status, out, err = self.run_it(*words.split())
        assert (status, out, err[:7]) == (2, b"", b"error: ")
        assert self.files() == {"site.toml"}

    def test_an_output_that_takes_nothing(self):
        replay = ["replay", "--site", "site.toml"]
        for words in (["--help"], ["check-map", str(MAP)], ["check-site", "site.toml"], replay):
            with open("/dev/full", "wb") as full:
                done = subprocess.run(
                    [str(self.program), *words],
                    input=requests()[0], stdout=full, stderr=subprocess.PIPE, check=False, cwd=self.folder,
                )  # fmt: skip
            assert (done.returncode, done.stderr) == (1, b"station: write failed\n"), words


class TestFiles(ProgramCase):
    def test_a_map(self):
        assert self.run_it("check-map", str(MAP)) == (0, b"ok esp32-sample 4 7\n", b"")
        (self.folder / "none.toml").write_text("{", encoding="ascii")
        self.ends("station: map fault 1", ["check-map", "none.toml"])
        self.ends("station: cannot read no.toml", ["check-map", "no.toml"])

    def test_a_site_that_is_checked(self):
        """Nothing is made; a site grew from itself, and not from one whose customer, seat or manager it lacks."""
        text = (self.folder / "site.toml").read_text(encoding="ascii")
        there = self.files()
        for words in (["site.toml"], ["site.toml", "--from", "site.toml"]):
            assert self.run_it("check-site", *words) == (0, b"ok 2\n", b"")
        self.ends("station: cannot read no.toml", ["check-site", "no.toml"])
        self.ends("station: cannot read no.toml", ["check-site", "site.toml", "--from", "no.toml"])
        assert self.files() == there
        gone = {
            "station: store fault 1: customer bolt: it is gone, or has changed": text.replace('"bolt"', '"corp"'),
            "station: store fault 1: customer bolt, seat 1: it is gone, or has changed": text.replace('"b1"', '"b2"'),
            "station: store fault 1: manager: it is gone, or has changed": text[: text.index("[manager]")],
            "station: site fault 3: customer bolt, seat 1: the name is there already": text.replace('"b1"', '"a1"'),
        }
        for line, new in gone.items():
            (self.folder / "new.toml").write_text(new, encoding="ascii")
            self.ends(line, ["check-site", "new.toml", "--from", "site.toml"])
        (self.folder / "new.toml").write_text("{", encoding="ascii")
        self.ends("station: site fault 1", ["check-site", "site.toml", "--from", "new.toml"])

    def test_a_site_file_that_is_none(self):
        """One that is missing, a folder, one that isn't UTF-8, and one with a fault: no store is made."""
        (self.folder / "latin").write_bytes(b"# \xe9\n")
        (self.folder / "none.toml").write_text("{", encoding="ascii")
        there = self.files()
        for name in ("missing.toml", ".", "latin", "no/site.toml"):
            for words in (["replay", "--site", name], *self.both("--site", name, "--db", "books.db")):
                self.ends(f"station: cannot read {name}", words)
        for words in (["replay", "--site", "none.toml"], *self.both("--site", "none.toml", "--db", "books.db")):
            self.ends("station: site fault 1", words)
        assert self.files() == there

    def longest(self, name, start, limit):
        """Files of this start: one that a comment makes as long as one may be, and one that has a byte more."""
        text = start + b"#" * (limit - len(start))
        for path, data in ((name, text), (f"longer-{name}", text + b"#")):
            (self.folder / path).write_bytes(data)
        return name, f"longer-{name}"

    def test_a_map_over_its_limit(self):
        """It is none, though the bytes up to the limit are."""
        whole, longer = self.longest("map.toml", MAP.read_bytes(), MAP_BYTES)
        assert self.run_it("check-map", whole) == (0, b"ok esp32-sample 4 7\n", b"")
        self.ends("station: map fault 2", ["check-map", longer])

    def test_a_site_over_its_limit(self):
        """It is none, and not the site of the bytes up to the limit, which lacks what stands behind."""
        text = (self.folder / "site.toml").read_bytes()
        whole, longer = self.longest("whole.toml", text, SITE_BYTES)
        assert self.run_it("check-site", whole) == (0, b"ok 2\n", b"")
        assert self.run_it("replay", "--site", whole, "--db", "whole.db") == (0, b"", b"")
        bolt = text.index(b"[[customer]]", 1)
        one, rest = text[:bolt], text[bolt:]
        (self.folder / "cut.toml").write_bytes(one + b"#" * (SITE_BYTES - len(one) - 1) + b"\n" + rest)
        there = self.files()
        for name in (longer, "cut.toml"):
            self.ends(f"station: site fault 6: the text has more than {SITE_BYTES} bytes", ["check-site", name])
            words = ["replay", "--site", name], *self.both("--site", name, "--db", "books.db")
            for each in (["check-site", whole, "--from", name], *words):
                self.ends("station: site fault 6", each)
        assert self.files() == there

    @pytest.mark.needs("unshare")
    def test_a_missing_site_file_is_not_the_packaged_units(self):
        mounted = ["unshare", "-rm", "sh", "-c", f'{PACKAGED} "$@"', "sh"]
        here = self.run_it("replay", "--site", "/etc/station/site.toml", before=mounted)
        assert here == (0, b"", b"")
        for words in (["replay", "--site", "missing.toml"], *self.both("--site", "missing.toml", "--db", "books.db")):
            self.ends("station: cannot read missing.toml", words, before=mounted)


class TestStores(ProgramCase):
    def test_another_sites_store(self):
        path = self.made()
        rows = rows_of(path)
        other = SITE.read_text(encoding="utf-8").replace('"b1"', '"b9"')
        (self.folder / "other.toml").write_text(other, encoding="utf-8")
        for more in ([], ["--existing"]):
            for words in self.both("--site", "other.toml", "--db", "books.db", *more):
                self.ends("station: store fault 1", words, requests()[0])
                assert rows_of(path) == rows, words

    def test_no_store(self):
        """With `--existing` nothing is made, of whatever path; one that is no database is left as it is."""
        (self.folder / "empty.db").touch()
        there = self.files()
        for name in ("books.db", str(self.folder / "books.db"), "empty.db", "no/books.db"):
            for words in self.both("--site", "site.toml", "--db", name, "--existing"):
                self.ends("station: store fault 2", words)
        assert self.files() == there
        other = self.folder / "text.db"
        other.write_text("no database\n" * 1000, encoding="ascii")
        for words in self.both("--site", "site.toml", "--db", "text.db"):
            self.ends("station: store fault 3", words)
            assert other.read_text(encoding="ascii") == "no database\n" * 1000

    def test_a_store_in_use(self):
        with self.serve("--site", "site.toml", "--db", "books.db") as server:
            for words in self.both("--site", "site.toml", "--db", "books.db"):
                self.ends("station: store fault 3", words)
            assert [status_of(reply) for reply in server.send(b"".join(requests()))] == [200] * 8

    def served(self, name, connections):
        """A store that serves the life of a chip, and is killed, or ends behind its connections; its path and rows."""
        words = ["--site", "site.toml", "--db", name]
        with self.serve(*words, connections=connections) as server:
            assert [status_of(reply) for reply in server.send(b"".join(requests()))] == [200] * 8
            if connections == 1:
                assert server.end() == (0, b"", b"")
        rows = rows_of(self.folder / name)
        assert [len(rows[table]) for table in ("orders", "device", "given", "ledger")] == [1, 1, 1, 6]
        return words, rows

    def goes_on(self, words, rows):
        """Each next start finds each row, whether it serves a port or a stream: a repeat changes none."""
        again = requests()[-1] + get("/v1/order?name=o1")
        for _ in range(2):
            with self.serve(*words, connections=1) as server:
                assert [status_of(reply) for reply in server.send(again)] == [200, 200]
                assert server.end() == (0, b"", b"")
            assert rows_of(self.folder / words[-1]) == rows
        status, out, err = self.run_it("replay", *words, stream=again)
        assert (status, [status_of(reply) for reply in replies_in(out)[0]], err) == (0, [200, 200], b"")
        assert rows_of(self.folder / words[-1]) == rows

    def test_an_absolute_path(self):
        self.goes_on(*self.served(str(self.folder / "books.db"), 1))

    def test_a_server_that_is_killed(self):
        """Its rows stand in the log, by whichever path."""
        for name in ("books.db", str(self.folder / "others.db")):
            self.goes_on(*self.served(name, 7))

    def test_its_files_are_of_their_owner_alone(self, request):
        """By whichever path, and whatever the mask of modes."""
        before = os.umask(0o022)
        request.addfinalizer(lambda: os.umask(before))
        for name in ("books.db", str(self.folder / "others.db")):
            with self.serve("--site", "site.toml", "--db", name) as server:
                assert server.ask("GET", "/v1/report") == 200
                for file in (name, f"{name}-wal"):
                    assert (self.folder / file).stat().st_mode & 0o777 == 0o600, file


class TestMaking(ProgramCase):
    def bounded(self, limit):
        """A start that makes its store, none of whose files may have more bytes than this."""
        bound = ["sh", "-c", 'trap "" XFSZ; exec "$@"', "sh", "prlimit", f"--fsize={limit}"]
        return self.run_it("replay", "--site", "site.toml", "--db", "books.db", before=bound)

    def test_a_file_that_may_not_grow(self):
        """Short of a page nothing is made; with a page there is SQLite's empty database, and the next start goes on."""
        size = int.from_bytes(self.made("others.db").read_bytes()[16:18], "big")
        path, there = self.folder / "books.db", self.files()
        assert self.bounded(size - 1) == (1, b"", b"station: store fault 3\n")
        assert self.files() == there
        assert self.bounded(size) == (1, b"", b"station: store fault 3\n")
        assert self.files() - there == {"books.db", "books.db-wal"}
        assert without_release(path.read_bytes()) == without_release(empty_page(size))
        assert path.stat().st_mode & 0o777 == 0o600
        assert rows_of(self.made()) == rows_of(self.folder / "others.db")

    def test_a_log_without_its_file(self):
        """No store is made beside it, and it stays as it is."""
        log = self.folder / "books.db-wal"
        log.write_bytes(b"a log")
        there = self.files()
        for words in self.both("--site", "site.toml", "--db", "books.db"):
            self.ends("station: store fault 3", words)
            assert (self.files(), log.read_bytes()) == (there, b"a log")


class TestStreams(ProgramCase):
    def test_one_that_is_cut(self):
        """It is no failure: the requests before it got their replies, and have been done."""
        first, second = requests()[:2]
        for words in (["replay", "--site", "site.toml"], ["replay", "--site", "site.toml", "--db", "books.db"]):
            status, out, err = self.run_it(*words, stream=first + second[:-1])
            assert (status, err, len(replies_in(out)[0])) == (0, b"", 1), words
        assert len(rows_of(self.folder / "books.db")["map"]) == 1

    def test_one_without_requests(self):
        assert self.run_it("replay", "--site", "site.toml") == (0, b"", b"")


class TestServing(ProgramCase):
    def test_it_ends_behind_its_connections(self):
        """With status 0, whatever became of them; then the port is free, and the books are in the file."""
        with self.serve("--site", "site.toml", "--db", "books.db", connections=3) as server:
            assert server.line == b"listening on %b:%d\n" % (HOST.encode(), server.port)
            assert [status_of(reply) for reply in server.send(b"".join(requests()))] == [200] * 8
            assert server.send(requests()[0][:40]) == []
            assert server.ask("GET", "/v1/order?name=o1", token="no") == 401
            assert server.end() == (0, b"", b"")
        with pytest.raises(ConnectionRefusedError):
            socket.create_connection((HOST, server.port)).close()
        assert len(rows_of(self.folder / "books.db")["given"]) == 1

    def test_it_serves_as_many_as_it_is_told(self):
        """Each of thousands of connections is answered, and behind the last one it ends."""
        with self.serve("--site", "site.toml", "--db", "books.db", connections=THOUSANDS) as server:
            asked = {server.ask("GET", "/v1/order?name=o1") for _ in range(THOUSANDS)}
            assert (asked, server.end()) == ({404}, (0, b"", b""))

    @pytest.mark.slow
    def test_it_goes_on_behind_those_that_hang_up(self):
        """More of them than 16 bits count: the last connection is answered, and behind it the program ends."""
        with self.serve("--site", "site.toml", "--db", "books.db", connections=TENS_OF_THOUSANDS) as server:
            for _ in range(TENS_OF_THOUSANDS - 1):
                server.hang_up()
            assert (server.ask("GET", "/v1/order?name=o1"), server.end()) == (404, (0, b"", b""))

    def test_a_port_that_is_taken(self):
        with socket.create_server((HOST, 0)) as taken:
            port = str(taken.getsockname()[1])
            words = ["serve", "--site", "site.toml", "--db", "books.db", "--port", port, "--connections", "7"]
            self.ends("station: listen failed", words)

    def test_its_port_is_of_this_address_alone(self):
        with self.serve("--site", "site.toml", "--db", "books.db") as server:
            assert server.ask("GET", "/v1/order?name=o1") == 404
            with pytest.raises(ConnectionRefusedError):
                socket.create_connection(("127.0.0.2", server.port)).close()

    def unit(self, name, port):
        """The words of one of the unit's commands, with the paths and the port of this test."""
        changes = {
            "/usr/local/bin/station": str(self.program),
            "/etc/station/site.toml": str(self.folder / "site.toml"),
            "--port 880": f"--port {port}",
        }
        words = unit_words(name)
        for old, new in changes.items():
            words = [word.replace(old, new) for word in words]
        return words

    def test_the_packaged_unit(self):
        """Without a store it ends with a fault and makes none; with one it serves, is stopped, and is joined."""
        port = free_port()
        words = self.unit("ExecStart", port)
        assert words[:2] == ["/bin/sh", "-c"]
        none = subprocess.run(words, capture_output=True, timeout=SECONDS, check=False, cwd=self.folder)
        assert (none.returncode, none.stdout, none.stderr) == (1, b"", b"station: store fault 2\n")
        assert self.files() == {"site.toml"}
        self.made()
        rows = rows_of(self.folder / "books.db")
        with Served(words, port, self.folder) as server:
            assert server.line == b"listening on 127.0.0.1:%d\n" % port
            assert body_of(server.send(requests()[7])[0]) == body_of(server.send(requests()[7])[0])
            assert server.ask("POST", "/v1/map", {"nr": 9, "text": MAP.read_text(encoding="utf-8")}) == 200
            server.process.terminate()
            assert server.end() == (-15, b"", b"")
        rows["seat"] = rows_of(self.folder / "books.db")["seat"]
        stop = subprocess.run(
            self.unit("ExecStopPost", port),
            input=b"", capture_output=True, env={"EXIT_STATUS": "TERM"}, check=False, cwd=self.folder,
        )  # fmt: skip
        assert (stop.returncode, stop.stdout, stop.stderr) == (0, b"", b"")
        assert (self.folder / "books.db-wal").stat().st_size == 41
        assert rows_of(self.folder / "books.db") == rows

    def bounded(self, limit):
        """The unit's server on a port, under a bound that is there before."""
        port = free_port()
        return Served(["prlimit", f"--fsize={limit}", *self.unit("ExecStart", port)], port, self.folder)

    def test_the_packaged_units_bound(self):
        """By itself it bounds the files by a third of the memory."""
        self.made()
        port = free_port()
        memory = int(re.search(r"^MemTotal: *(\d+) kB", Path("/proc/meminfo").read_text(), re.MULTILINE)[1]) * 1024
        with Served(self.unit("ExecStart", port), port, self.folder) as server:
            bounds = resource.prlimit(server.process.pid, resource.RLIMIT_FSIZE)
        for bound in bounds:
            assert memory - 3 * bound < 3 * 512
            assert memory >= 3 * bound

    def test_a_store_at_its_bound(self):
        """What writes is 503, what shows is served; it is stopped and opens, and beyond the bound it is done once."""
        path = self.made()
        with self.bounded(BOUND) as server:
            numbers = range(9, 209)
            statuses = [server.ask("POST", "/v1/import", import_of(number)) for number in numbers]
            refused = numbers[statuses.index(503)]
            assert set(statuses[refused - 8 :]) == {409}
            assert server.ask("GET", "/v1/order?name=o1") == 200
            server.process.terminate()
            assert server.end() == (-15, b"", b"")
        stop = ["prlimit", f"--fsize={BOUND}", *self.unit("ExecStopPost", 0)]
        done = subprocess.run(stop, capture_output=True, env={"EXIT_STATUS": "TERM"}, check=False, cwd=self.folder)
        assert (done.returncode, done.stdout, done.stderr) == (0, b"", b"")
        for limit, status in ((BOUND, 503), (2 * BOUND, 200)):
            with self.bounded(limit) as server:
                assert server.ask("GET", "/v1/order?name=o1") == 200
                again = [server.ask("POST", "/v1/import", import_of(refused)) for _ in range(2)]
                assert again == [status] * 2
        assert len(rows_of(path)["given"]) == 1 + ROWS * (refused - 8)
