"""`station ask` beside a server: one request of a seat, done once, however the program is ended.

A chip's life as in docs/first-chip.md is asked for, a request at a time. Each reply has to be that of a run which asks
over HTTP alone, and each line of the log that of docs/integrate/api.md, by digests that are computed here. Then the
program is killed before each of its calls in turn, and started again; the books, the replies and the log have to be as
before. Refusals, a server that is away, a second process, an older state file, and a late copy end as the page says.
"""

import hashlib
import json
import shutil
import signal
import socket
import subprocess
import threading
from pathlib import Path

import pytest

from common.chip import CHIP, body_of, replay_words, requests, served, steps
from common.ports import HOST, accepted, whole_request
from common.served import Caller, Server, station

# Its statuses, by docs/reference/program.md.
DONE, FAILED, WORDS, STOPPED, WAITS, REFUSED = 0, 1, 2, 3, 5, 100

# The calls before which it is killed.
CALLS = ["openat", "flock", "write", "fsync", "rename", "connect", "sendto", "read", "recvfrom"]

# Two seats of one customer, whose tokens are `abc` and `hello`.
SITE = "".join(
    [
        '[[customer]]\nname = "acme"\nissuer = ["acme-ca"]\n',
        '[[customer.pool]]\nfirst = "020000000010"\ncount = 4\n',
        *(
            f'[[customer.seat]]\nname = "{name}"\ntoken = "{hashlib.sha256(token.encode()).hexdigest()}"\n'
            for name, token in (("a1", "abc"), ("a2", "hello"))
        ),
    ]
)


def life():
    """The path and the members of each request of the life, without its number."""
    return [(path, {name: value for name, value in members.items() if name != "nr"}) for path, members in steps()]


class Plant:
    """A server, and the words of a client of the seat `a1`."""

    def __init__(self, program, folder, port):
        self.program, self.folder, self.port = program, folder, port
        self.site, self.db = folder / "site.toml", folder / "books.db"
        self.site.write_text(SITE)
        self.token, self.state = folder / "token", folder / "a1"
        self.token.write_text("abc\n")
        self.log = Path(f"{self.state}.journal")
        self.server = None

    def serve(self):
        words = [str(word) for word in station(self.program, self.site, self.db, self.port)]
        self.server = Server(words, self.port).wait(Server.is_listening)

    def words(self, *more, port=None):
        url = f"http://{HOST}:{port or self.port}"
        return [self.program, "ask", "--url", url, "--token-file", self.token, "--state", self.state, *more]

    def ask(self, path, members, *more, before=(), port=None):
        """What a request came to: the status, the reply, and what is told."""
        text = f"POST {path}\n{json.dumps(members)}\n".encode()
        words = [*before, *map(str, self.words(*more, port=port))]
        return subprocess.run(words, input=text, capture_output=True, timeout=120, check=False)

    def lines(self):
        return [json.loads(line) for line in self.log.read_text().splitlines()]

    def done(self):
        """The requests that the log has as accepted, with their replies, in order.

        A line may be there twice, one behind the other, where the request was sent again (docs/integrate/api.md, "The
        log"): with one number and one reply it counts once.
        """
        asked, done = None, []
        for line in self.lines():
            asked = line if "asked" in line else asked
            if line.get("status") == 200:
                accepted = (asked["path"], asked["asked"], line["reply"])
                done += [accepted] if done[-1:] != [accepted] else []
        return done

    def shown(self, target, token="abc"):
        caller = Caller(self.port, token, is_kept=False)
        status, text = caller.ask("GET", target)
        assert status == 200, text
        return json.loads(text)

    def post(self, path, members, token="abc"):
        status, text = Caller(self.port, token, is_kept=False).ask("POST", path, members)
        return status, json.loads(text)

    def number(self):
        return self.post("/v1/ship", {"nr": 2**53 - 1, "chip": CHIP})[1]["expected"]


@pytest.fixture
def plant(program, tmp_path, port):
    plant = Plant(program, tmp_path, port)
    plant.serve()
    yield plant
    plant.server.kill()


def hashed(members):
    """The members that a request is known by: those of blocks by their digests."""
    blocks = members.get("blocks")
    if blocks is None:
        return members
    packed = [b"".join(bytes.fromhex(word)[::-1] for word in block) for block in blocks]
    return members | {"blocks": [hashlib.sha256(block).hexdigest() for block in packed]}


def digest_of(path, members):
    text = json.dumps(members, separators=(",", ":"), sort_keys=True, ensure_ascii=False)
    return hashlib.sha256(f"{path}\n{text}".encode()).hexdigest()


def calm_replies(plant):
    """The bodies of the replies to the life's requests, as a run over HTTP alone has them."""
    return [body_of(reply) for reply in served(replay_words(plant.program, site=plant.site), b"".join(requests()))]


def assert_log(plant, replies):
    """The log has each request of the life as accepted, once and in order, with its reply and its digest."""
    known = [(path, hashed(members)) for path, members in steps()]
    assert plant.done() == [(*each, json.loads(reply)) for each, reply in zip(known, replies, strict=True)]
    asked = [it for it in plant.lines() if "asked" in it]
    assert all(it["digest"] == digest_of(it["path"], it["asked"]) for it in asked)


def test_life(plant):
    """Each request is done with the reply of a run over HTTP alone, and the log has both."""
    replies = calm_replies(plant)
    for (path, members), reply in zip(life(), replies, strict=True):
        done = plant.ask(path, members)
        assert (done.returncode, done.stdout, done.stderr) == (DONE, reply, b"")
    assert_log(plant, replies)
    assert len(plant.lines()) == 2 * len(replies)
    assert plant.state.stat().st_mode & 0o777 == 0o600


@pytest.mark.needs("strace")
@pytest.mark.parametrize("call", CALLS)
def test_killed(plant, call):
    """Killed before each such call of a request, it is started again until it ends: nothing is done twice or lost."""
    replies, kills = calm_replies(plant), 0
    for (path, members), reply in zip(life(), replies, strict=True):
        for count in range(1, 99):
            inject = f"inject={call}:signal=SIGKILL:when={count}"
            done = plant.ask(path, members, before=["strace", "-qq", "-o", "/dev/null", "-e", inject])
            if done.returncode != -signal.SIGKILL:
                break
            kills += 1
        assert (done.returncode, done.stdout) == (DONE, reply)
    assert kills >= len(replies)
    assert plant.number() == len(replies) + 1
    assert_log(plant, replies)


def test_refused(plant):
    """A refusal is told by its number, on standard output too, and takes none."""
    (_, (path, order), *_) = life()
    assert plant.ask(path, order).returncode == DONE
    again = plant.ask(path, order)
    assert again.returncode == REFUSED + 16 and json.loads(again.stdout)["no"] == 16
    assert plant.ask(path, order | {"name": "o2", "first": 1}).returncode == DONE
    assert [asked["nr"] for _, asked, _ in plant.done()] == [1, 2]


@pytest.mark.parametrize("text", [b"", b"GET /v1/order\n{}", b"POST /v1/ship\n[]", b'POST /v1/ship\n{"nr":1}'])
def test_no_request(plant, text):
    done = subprocess.run(list(map(str, plant.words())), input=text, capture_output=True, timeout=60, check=False)
    assert done.returncode == FAILED and b"standard input has no request" in done.stderr


def test_words(plant):
    done = subprocess.run([plant.program, "ask", "--url"], capture_output=True, timeout=60, check=False)
    assert done.returncode == WORDS and done.stderr


def test_away(plant):
    """Without a server it waits as long as it may, and the request stays under way: the next process settles it."""
    (path, members), (path_2, members_2), *_ = life()
    assert plant.ask(path, members).returncode == DONE
    plant.server.kill()
    assert plant.ask(path_2, members_2, "--patience", "1").returncode == WAITS
    plant.serve()
    assert plant.ask(path_2, members_2).returncode == DONE
    assert [asked["nr"] for _, asked, _ in plant.done()] == [1, 2]


def test_one_at_a_time(plant):
    """A process that waits for its reply has the state file."""
    (path, members), *_ = life()
    with socket.create_server((HOST, 0)) as silent:
        words = list(map(str, plant.words(port=silent.getsockname()[1])))
        with subprocess.Popen(words, stdin=subprocess.PIPE) as first:
            first.stdin.write(f"POST {path}\n{json.dumps(members)}".encode())
            first.stdin.close()
            silent.accept()
            second = plant.ask(path, members)
            first.kill()
    assert second.returncode == FAILED and b"another process" in second.stderr


def test_older_state(plant):
    """By an older copy of its file it stops, stays so, and goes on behind a person's look."""
    requests_of = life()
    assert plant.ask(*requests_of[0]).returncode == DONE
    older = shutil.copy(plant.state, plant.folder / "older")
    assert plant.ask(*requests_of[1]).returncode == DONE
    shutil.copy(older, plant.state)
    assert [plant.ask(*requests_of[2]).returncode for _ in range(2)] == [STOPPED, STOPPED]
    looked = subprocess.run(list(map(str, plant.words("--looked"))), capture_output=True, timeout=60, check=False)
    assert looked.returncode == DONE
    assert plant.lines()[-1]["resynchronized"] == 3
    assert plant.ask(*requests_of[2]).returncode == DONE


class Copies:
    """A port that passes connections on, and keeps what was asked."""

    def __init__(self, port):
        self.port, self.asked = port, []
        self.listener = socket.create_server((HOST, 0))
        self.own = self.listener.getsockname()[1]
        threading.Thread(target=self.serve, daemon=True).start()

    def serve(self):
        for client in accepted(self.listener):
            with client, socket.create_connection((HOST, self.port)) as server:
                asked = whole_request(client)
                self.asked.append(asked)
                server.sendall(asked)
                while some := server.recv(65536):
                    client.sendall(some)

    def copy(self, asked):
        """A copy comes late."""
        with socket.create_connection((HOST, self.port)) as server:
            server.sendall(asked)
            return b"".join(iter(lambda: server.recv(65536), b""))


def test_late_copy(plant):
    """A copy of a refused request is accepted late: the next request finds it, and the log gets it."""
    map_request, (_, order), (_, device), *_ = life()
    for path, members in (map_request, ("/v1/order", order | {"quantity": 1}), ("/v1/device", device)):
        assert plant.ask(path, members).returncode == DONE
    copies, other = Copies(plant.port), "240ac4000002"
    refused = plant.ask("/v1/device", device | {"chip": other}, port=copies.own)
    assert refused.returncode == REFUSED + 18
    assert plant.post("/v1/scrap", {"nr": 1, "chip": CHIP}, "hello")[0] == 200
    assert b"HTTP/1.1 200 " in copies.copy(copies.asked[-1])
    done = plant.ask("/v1/plan", {"chip": other, "wishes": []})
    assert done.returncode == DONE
    assert [(path, asked["nr"]) for path, asked, _ in plant.done()][3:] == [("/v1/device", 4), ("/v1/plan", 5)]
    copies.listener.close()
