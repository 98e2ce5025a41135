"""The program with one of its allocations refused: what it is started with, how it may end, and its replies."""

import os
import subprocess
import sys
import threading
from pathlib import Path

from common.chip import Failed, body_of, replies_in, status_of

SOURCE = Path(__file__).resolve().parent / "refuse.c"
NO_MEMORY = "station: no memory"
STORE_FAULT = "station: store fault 3"
UNKEPT = b'{"error":"unkept","no":50}'
DONE = "done all the same"


def compiled(folder):
    """The library to be preloaded, which refuses one call."""
    library = Path(folder) / "refuse.so"
    subprocess.run(["gcc", "-O2", "-fPIC", "-shared", "-o", library, SOURCE], check=True)
    return library


def environment(library, number, folder):
    """What a run has to be started with, so that it is refused the call with this number."""
    count = Path(folder) / "count"
    count.write_bytes(bytes(8))
    return os.environ | {"LD_PRELOAD": str(library), "REFUSE_NUMBER": str(number), "REFUSE_COUNT": str(count)}


def calls_in(folder):
    """How many calls the run made so far."""
    return int.from_bytes((Path(folder) / "count").read_bytes(), sys.byteorder)


def outcome_of(status, line, lines):
    """What came of a run, which may end with one of these lines."""
    if status == 0 and not line:
        return DONE
    if status == 1 and line.endswith("\n") and line[:-1] in lines:
        return line[:-1]
    raise Failed(f"it ended with status {status} and {line!r}")


def alone(words, environ, seconds, lines, output):
    """What came of a run with nothing on its input, which has to print this or to end with one of the lines."""
    done = subprocess.run(words, input=b"", capture_output=True, timeout=seconds, check=False, env=environ)
    outcome = outcome_of(done.returncode, done.stderr.decode(errors="replace"), lines)
    if done.stdout != (output if outcome == DONE else b""):
        raise Failed(f"it printed {done.stdout[:80]!r}")
    return outcome


def is_unkept(reply):
    """Whether a request was answered 503."""
    return status_of(reply) == 503 and body_of(reply) == UNKEPT


class Talk:
    """The program with a pipe to it and one from it, which is asked one request after another."""

    def __init__(self, words, environ, seconds):
        pipe = subprocess.PIPE
        self.process = subprocess.Popen(words, stdin=pipe, stdout=pipe, stderr=pipe, bufsize=0, env=environ)
        self.limit = threading.Timer(seconds, self.process.kill)
        self.limit.start()

    def __enter__(self):
        return self

    def __exit__(self, kind, error, trace):
        self.limit.cancel()
        self.process.kill()
        self.process.wait()
        for pipe in (self.process.stdin, self.process.stdout, self.process.stderr):
            pipe.close()

    def ask(self, request):
        """The reply, or none where the program ended."""
        try:
            self.process.stdin.write(request)
        except BrokenPipeError:
            return None
        data = b""
        while True:
            some = os.read(self.process.stdout.fileno(), 65536)
            data += some
            replies, rest = replies_in(data)
            if replies and not rest and len(replies) == 1:
                return replies[0]
            if not some and not data:
                return None
            if not some or replies:
                raise Failed(f"a reply is {data[:80]!r}")

    def end(self):
        """The status and the line of the run, whose output has to be empty from here on."""
        self.process.stdin.close()
        rest, line = self.process.stdout.read(), self.process.stderr.read()
        status = self.process.wait()
        if rest:
            raise Failed(f"behind the last reply stands {rest[:80]!r}")
        return status, line.decode(errors="replace")
