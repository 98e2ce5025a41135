"""The program under test, with a pipe to it and one from it, and what it takes to answer requests."""

import os
import re
import signal
import subprocess
import sys
import threading
import time

CHUNK_BYTES = 65536
GOOD = b"HTTP/1.1 200 OK\r\n"
LENGTH = re.compile(rb"\r\ncontent-length: *([0-9]+)\r\n", re.IGNORECASE)
PEAK = re.compile(r"^VmHWM:\s*([0-9]+) kB$", re.MULTILINE)


class Failed(Exception):
    """The program did not answer as it should."""


class Replies:
    """The replies that a program writes, read one after another."""

    def __init__(self, descriptor):
        self.descriptor, self.bytes, self.read = descriptor, b"", 0

    def more(self):
        """Reads some more, and drops what the replies before took."""
        some = os.read(self.descriptor, CHUNK_BYTES)
        if not some:
            raise Failed("the program ended before it had answered all requests")
        self.bytes, self.read = self.bytes[self.read :] + some, 0

    def has_more(self):
        """Whether anything follows the replies that were read."""
        return self.read < len(self.bytes) or bool(os.read(self.descriptor, 1))

    def check_next(self):
        """Reads one reply, which has to be a success, and returns its body."""
        while (end := self.bytes.find(b"\r\n\r\n", self.read)) < 0:
            self.more()
        top = self.bytes[self.read : end + 4]
        length = LENGTH.search(top)
        if not top.startswith(GOOD) or not length:
            line = top.partition(b"\r\n")[0]
            raise Failed(f"a reply begins with {line!r} and not with {GOOD[:-2]!r}")
        self.read = end + 4
        while len(self.bytes) - self.read < int(length[1]):
            self.more()
        self.read += int(length[1])
        return self.bytes[self.read - int(length[1]) : self.read]


class Program:
    """The command under test, with a pipe to it and one from it, for some seconds at most."""

    def __init__(self, command, seconds):
        self.process = subprocess.Popen(
            command, stdin=subprocess.PIPE, stdout=subprocess.PIPE, bufsize=0
        )
        self.replies = Replies(self.process.stdout.fileno())
        self.writer = None
        self.is_late = False
        self.limit = threading.Timer(seconds, self.stop)

    def __enter__(self):
        self.limit.start()
        return self

    def __exit__(self, kind, error, trace):
        self.limit.cancel()
        self.process.kill()
        self.process.wait()
        if self.writer:
            self.writer.join()
        self.process.stdin.close()
        self.process.stdout.close()
        if kind is Failed and self.is_late:
            raise Failed("the program took too long") from error

    def stop(self):
        self.is_late = True
        self.process.kill()

    def write(self, data, most):
        """Writes the bytes, at most so many a write. If the program has ended, its replies tell."""
        descriptor, view = self.process.stdin.fileno(), memoryview(data)
        try:
            while view:
                view = view[os.write(descriptor, view[:most]) :]
        except BrokenPipeError:
            pass

    def start_writing(self, data, most):
        """Writes the bytes while replies are read."""
        self.writer = threading.Thread(target=self.write, args=(data, most))
        self.writer.start()

    def peak(self):
        """The most memory that the program had in RAM so far, in KiB.

        This count begins with the program. The one that `wait4` gives begins with the memory of
        the process that started it, so it would show Python's where that is more.
        """
        with open(f"/proc/{self.process.pid}/status", encoding="ascii") as status:
            peak = PEAK.search(status.read())
        if not peak:
            raise Failed("the program ended before its input did")
        return int(peak[1])

    def end(self):
        """Ends the program's input, and waits for its end."""
        self.process.stdin.close()
        if self.replies.has_more():
            raise Failed("the program wrote more than the replies")
        if status := self.process.wait():
            raise Failed(f"the program ended with status {status}")


def send(program, asked):
    """Sends the requests, and returns the seconds to the last reply and the replies' bodies."""
    data = b"".join(asked)
    start = time.perf_counter()
    program.start_writing(data, 65536)
    replies = [program.replies.check_next() for _ in asked]
    took = time.perf_counter() - start
    program.writer.join()
    return took, replies


def times_of(command, seconds, before, parts):
    """When the command had answered the requests before, and then each part's; and its peak of memory, in KiB."""
    with Program(command, seconds) as program:
        program.start_writing(b"".join(before + [asked for part in parts for asked in part]), CHUNK_BYTES)
        for _ in before:
            program.replies.check_next()
        times = [time.perf_counter()]
        for part in parts:
            for _ in part:
                program.replies.check_next()
            times.append(time.perf_counter())
        peak = program.peak()
        program.writer.join()
        program.end()
    return times, peak


def kill_after(command, seconds, is_ready=lambda: True):
    """Starts the program, and kills it so many seconds after something is so. Says whether it was still running."""
    program = subprocess.Popen(command, stdin=subprocess.PIPE, stdout=subprocess.DEVNULL)
    while not is_ready() and program.poll() is None:
        pass
    time.sleep(seconds)
    running = program.poll() is None
    program.send_signal(signal.SIGKILL)
    program.wait()
    program.stdin.close()
    return running


def status_of(measure, *words):
    """Measures, and returns the exit status: 1 where it failed, which is then printed."""
    try:
        measure(*words)
    except Failed as failure:
        print(f"FAILED: {failure}", file=sys.stderr)
        return 1
    return 0
