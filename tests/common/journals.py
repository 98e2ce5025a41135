"""Lines of a station's journal, for requests that a test sends itself."""

import json
import time

from wanekupo.chips.chip import redacted
from wanekupo.seat.journal import request_digest


def lines_of(seat, moment, asked, body):
    """The two lines of a request's bytes and the body of its reply, at a moment in seconds since 1970."""
    head, _, members = asked.partition(b"\r\n\r\n")
    path, told = head.split(b" ")[1].decode(), redacted(json.loads(members))
    own = {"seat": seat, "at": time.strftime("%Y-%m-%dT%H:%M:%SZ", time.gmtime(moment))}
    first = {**own, "asked": told, "path": path, "digest": request_digest(path, told)}
    return first, {**own, "nr": told["nr"], "status": 200, "reply": json.loads(body)}


def text_of(lines):
    """Lines as a journal has them."""
    return "".join(json.dumps(line, sort_keys=True, separators=(",", ":")) + "\n" for line in lines)
