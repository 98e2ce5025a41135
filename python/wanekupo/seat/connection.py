"""A server's replies: asked for until they come, over a connection that is kept between requests."""

import contextlib
import http.client
import ipaddress
import re
import selectors
import socket
import ssl
import threading
import time
from typing import Any, Callable, Iterator, Mapping, Optional
from urllib.parse import SplitResult, urlsplit

from wanekupo.common.errors import NoReply, NotTheServer, StationError, TooLong
from wanekupo.seat.replies import body_of

# The status of a reply that says that nothing was done, for now: the request is sent again, as for no reply. The pauses
# between, in seconds, double.
UNKEPT = 503
FIRST_PAUSE, LONGEST_PAUSE = 0.1, 10.0

# How many seconds an unused connection is kept: of one that went without a word, as with the machine behind it, a
# request would wait for its reply in vain.
LONGEST_IDLE = 30.0

# What looks at one socket without opening another.
POLL = getattr(selectors, "PollSelector", selectors.SelectSelector)

# How many bytes a reply's body has at the most: what stands on a port shall not fill the memory here.
LONGEST_REPLY = 4 << 20

LOOKED = "Look whether the server runs, at its address, and at the network."

# What is sent as a token, and so can be: visible ASCII.
TOKEN = re.compile(r"[\x21-\x7e]+")


def _is_loopback(host: str) -> bool:
    """Whether a host is this machine, by its name alone: what a name server says of another isn't asked."""
    try:
        return host == "localhost" or ipaddress.ip_address(host).is_loopback
    except ValueError:
        return False


def address_of(url: str, insecure: bool) -> SplitResult:
    """Where the server is. A token goes to another machine by https alone, unless the caller says otherwise."""
    parts = urlsplit(url)
    if parts.scheme not in ("http", "https"):
        raise ValueError(f"the address {url} is neither http nor https: write it as https://station.example:8443")
    if not parts.hostname or "@" in parts.netloc:
        raise ValueError(f"{url}: a host, and a port where it isn't the scheme's, are all that stands behind //")
    if parts.scheme == "http" and not insecure and not _is_loopback(parts.hostname):
        told = "would send the token to another machine unencrypted, for all on the way to read"
        raise ValueError(f"{url} {told}: give an address of https, or --insecure where that may be")
    try:
        _ = parts.port  # which reads the number
    except ValueError:
        raise ValueError(f"the port of {url} is no number up to 65535") from None
    return parts


class Watchdog:
    """Shuts the connection of an exchange that isn't over in some seconds, also where bytes of its reply come again and
    again. One thread watches one exchange after another, as to start a thread takes longer than an exchange. It ends
    where it wakes and there is none."""

    def __init__(self, seconds: float):
        self._seconds, self._end, self._runs, self.is_late = seconds, 0.0, False, False
        self._watched: Optional[socket.socket] = None
        self._turn = threading.Condition()

    @contextlib.contextmanager
    def over(self, opened: socket.socket) -> Iterator[None]:
        with self._turn:
            self._watched, self._end, self.is_late = opened, time.monotonic() + self._seconds, False
            if not self._runs:
                self._runs = True
                threading.Thread(target=self._watch, daemon=True).start()
        try:
            yield
        finally:
            with self._turn:
                self._watched = None

    def rest(self) -> None:
        """Ends the thread, where there is no exchange."""
        with self._turn:
            self._turn.notify()

    def _watch(self) -> None:
        with self._turn:
            while self._watched:
                left = self._end - time.monotonic()
                if left > 0:
                    self._turn.wait(left)
                    continue
                self.is_late = True
                with contextlib.suppress(OSError):  # it is over by itself
                    socket.socket.shutdown(self._watched, socket.SHUT_RDWR)  # not TLS's, whose state is the reader's
                self._watched = None
            self._runs = False


class Server:
    """Where a seat's requests go. `patience` is how many seconds a reply is asked for, `timeout` how many a whole one
    is waited for, `context` an `ssl.SSLContext` for https. With `insecure` a token may go over http to any machine."""

    def __init__(self, url: str, token: str, patience: float, timeout: float, context: Any, insecure: bool):
        if not TOKEN.fullmatch(token):
            raise ValueError("a token is visible ASCII, without a space or a line end")
        parts = address_of(url, insecure)
        host, port = parts.hostname or "", parts.port
        self._connect: Callable[[], http.client.HTTPConnection]
        if parts.scheme == "https":
            self._connect = lambda: http.client.HTTPSConnection(host, port, timeout=timeout, context=context)
        else:
            self._connect = lambda: http.client.HTTPConnection(host, port, timeout=timeout)
        self._connection: Optional[http.client.HTTPConnection] = None
        self._used = 0.0
        self._path = parts.path.rstrip("/")
        self._fields = {"Authorization": f"Bearer {token}"}
        self._patience, self._watchdog = patience, Watchdog(timeout)

    def hang_up(self) -> None:
        self._watchdog.rest()
        if self._connection:
            self._connection.close()
            self._connection = None

    def _is_kept(self) -> bool:
        """Whether the last reply's connection is still there. One that has anything to read is closed: that is its end,
        or what nobody asked for."""
        if not self._connection or not self._connection.sock:
            return False
        with POLL() as selector:
            selector.register(self._connection.sock, selectors.EVENT_READ)
            if not selector.select(0) and time.monotonic() - self._used < LONGEST_IDLE:
                return True
        self.hang_up()
        return False

    @contextlib.contextmanager
    def _in_time(self, connection: http.client.HTTPConnection) -> Iterator[None]:
        """Ends an exchange that isn't over in time."""
        if not connection.sock:
            connection.connect()
        try:
            with self._watchdog.over(connection.sock):
                yield
        except (OSError, http.client.HTTPException):
            if not self._watchdog.is_late:
                raise
        if self._watchdog.is_late:
            raise TimeoutError("no reply in time")

    def once(self, method: str, target: str, body: Optional[bytes]) -> tuple[int, str, bytes]:
        """What one sending gets: a whole reply, or an error, behind which the connection is closed."""
        try:
            self._connection = connection = self._connection or self._connect()
            with self._in_time(connection):
                connection.request(method, self._path + target, body, self._fields)
                reply = connection.getresponse()
                data = _bounded(reply)
            kind = reply.headers.get_content_type()
            if reply.chunked:  # which the server's never are
                raise NotTheServer(f"another's reply: status {reply.status}, {kind}, without a length: {data[:60]!r}")
            if reply.headers.get("Content-Length") != str(len(data)):
                raise http.client.IncompleteRead(data)
        except BaseException:
            self.hang_up()
            raise
        self._used = time.monotonic()
        return reply.status, kind, data

    def asked(
        self, method: str, path: str, members: Mapping[str, Any], target: str, body: Optional[bytes] = None
    ) -> tuple[int, Any, bool]:
        """The status and body of a reply of the server's, and whether it was asked for more than once. It is asked for
        until it comes: no reply, a page of another and 503 say nothing of what became of the request. A certificate
        that isn't trusted is the same when it is asked again, and so is a reply that is too long."""
        end, pause, again = time.monotonic() + self._patience, FIRST_PAUSE, False
        while True:
            is_kept = self._is_kept()
            try:
                status, kind, data = self.once(method, target, body)
                told = body_of(status, kind, data, path, members)
                if status != UNKEPT:
                    return status, told, again
                fault: StationError = NoReply(f"no reply to {method} {target}: status {status}")
            except NotTheServer as page:
                fault = page
            except ssl.SSLCertVerificationError:
                raise
            except (OSError, http.client.HTTPException) as error:
                if is_kept and isinstance(error, ConnectionError):
                    again = True  # closed while the request was on its way: another connection, at once
                    continue
                fault = NoReply(f"no reply to {method} {target}: {_reason_of(error)}")
            if time.monotonic() + pause > end:
                if method == "GET":  # which leaves nothing under way
                    fault.advice = LOOKED
                raise fault
            time.sleep(pause)
            pause, again = min(2 * pause, LONGEST_PAUSE), True


def _reason_of(error: Exception) -> str:
    """Why there is no reply, in words."""
    if isinstance(error, http.client.IncompleteRead):
        return "it was cut"
    if isinstance(error, (http.client.BadStatusLine, http.client.RemoteDisconnected)):
        return "the connection ended without one"
    return (error.strerror if isinstance(error, OSError) else "") or str(error) or "the connection failed"


def _bounded(reply: http.client.HTTPResponse) -> bytes:
    """A reply's body, of which no more is read than one may have."""
    is_long = (reply.length or 0) > LONGEST_REPLY
    data = b"" if is_long else reply.read(LONGEST_REPLY + 1)
    if is_long or len(data) > LONGEST_REPLY:
        told = f"the reply, of status {reply.status}, is longer than {LONGEST_REPLY} bytes"
        raise TooLong(f"{told}: nothing of it is kept")
    return data
