"""Time stamps by a service (RFC 3161), which Debian's `openssl ts` asks for and verifies."""

import http.client
import re
import subprocess
import tempfile
import urllib.request
from dataclasses import dataclass
from pathlib import Path
from typing import Optional

from wanekupo.books.shift import seconds_between
from wanekupo.common.errors import BadSettings, NoReply, NotTheServer
from wanekupo.common.moments import moment_of

# A stamp is had within an hour behind its seal; the service's clock may be a minute behind the one of the seal.
LATEST, EARLIEST = 3600, -60

# How `openssl ts` prints the moment of a stamp.
MONTHS = "Jan Feb Mar Apr May Jun Jul Aug Sep Oct Nov Dec".split()
STAMPED = re.compile(
    rf"^Time stamp: ({'|'.join(MONTHS)}) +(\d+) (\d\d:\d\d:\d\d)(?:\.\d+)? (\d{{4}}) GMT$", re.MULTILINE
)

KIND = "application/timestamp-query"
SECONDS, LONGEST = 60, 1 << 20
AGAIN = "Nothing was added to the chain: give the same command again, or leave --tsa out."


@dataclass(frozen=True)
class Service:
    """Where it is, and the certificates by which its replies are verified. `between` are those that it leaves out."""

    url: str
    trusted: Path
    between: Optional[Path] = None

    def stamped(self, digest: str) -> bytes:
        """The service's reply over a digest, which was verified."""
        query = _openssl("-query", "-digest", digest, "-sha256", "-cert")
        with tempfile.TemporaryDirectory() as folder:
            (Path(folder) / "query").write_bytes(query)
            reply = Path(folder) / "reply"
            reply.write_bytes(self._asked(query))
            if not self.is_verified(reply, "-queryfile", str(Path(folder) / "query")):
                told = f"Look at its address and at {self.trusted}. {AGAIN}"
                raise NotTheServer(f"what {self.url} answered is no time stamp of this seal", told)
            return reply.read_bytes()

    def _asked(self, query: bytes) -> bytes:
        if not self.url.startswith(("http://", "https://")):
            told = "It begins with http:// or https://."
            raise BadSettings(f"{self.url} is no address of a time-stamp service", told)
        asked = urllib.request.Request(self.url, query, {"Content-Type": KIND})
        try:
            with urllib.request.urlopen(asked, timeout=SECONDS) as reply:
                body: bytes = reply.read(LONGEST)
                return body
        except (OSError, ValueError, http.client.HTTPException) as error:
            reason = getattr(error, "reason", error)
            told = str((reason.strerror if isinstance(reason, OSError) else "") or reason) or "what came is no HTTP"
            raise NoReply(f"no time stamp came from {self.url}: {told}", AGAIN) from error

    def is_verified(self, reply: Path, *words: str) -> bool:
        between = ["-untrusted", str(self.between)] if self.between else []
        try:
            _openssl("-verify", *words, "-in", str(reply), "-CAfile", str(self.trusted), *between)
        except NotTheServer:
            return False
        return True


def verified(reply: Path, digest: str, service: Service) -> bool:
    """Whether a kept reply is a time stamp of a digest by the service, whose certificate held at the stamp's moment."""
    try:
        moment = moment_of(moment_in(reply)) if reply.exists() else None
    except (NotTheServer, ValueError):
        return False
    return moment is not None and service.is_verified(reply, "-digest", digest, "-attime", f"{moment.timestamp():.0f}")


def moment_in(reply: Path) -> str:
    """The moment of a verified reply, by what the service signed: around that anybody may write into a reply."""
    text = _openssl("-reply", "-in", str(reply), "-token_out", "-text").decode("utf-8", "backslashreplace")
    found = STAMPED.search(text)
    if not found:
        raise NotTheServer(f"{reply} has no moment")
    month, day, time, year = found.groups()
    return f"{year}-{MONTHS.index(month) + 1:02}-{int(day):02}T{time}Z"


def is_near(at: str, moment: str) -> bool:
    """Whether a stamp of this moment can be that of a seal of this one."""
    return EARLIEST <= seconds_between(at, moment) <= LATEST


def _openssl(*words: str) -> bytes:
    try:
        done = subprocess.run(["openssl", "ts", *words], capture_output=True, check=False)
    except FileNotFoundError:
        raise BadSettings("there is no command openssl", "Install Debian's openssl.") from None
    if done.returncode:
        raise NotTheServer("openssl ts didn't take it")
    return done.stdout
