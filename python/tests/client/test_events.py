"""`wanekupo events`: what a MES hears of journals that are written here, over listeners that die.

The names of messages are those of IPC-2591; an UUID of version 5 is told by RFC 9562.
"""

import json
import subprocess
import sys
import uuid

from books_case import BooksCase, device, lines_of, read, step
from commanding import ran
from support import HOST, free_port

ONE, TWO = "240ac4000001", "240ac4000002"
STEPS = [
    device("06:00:00", ONE),
    read("06:00:01", ONE, "match", "settled"),
    step("06:00:02", "identity", ONE, serial="A001"),
    step("06:00:03", "ship", ONE, state="shipped"),
    ("06:00:04", "/v1/ship", {"chip": TWO}, {"no": 15, "error": "unknown_device"}),
    device("06:00:05", TWO),
    read("06:00:06", TWO, "lost", "quarantined"),
    step("06:00:07", "scrap", TWO, state="scrapped"),
    ("06:00:08", "/v1/device", {"chip": "240ac4000003"}, None),
]
# What they are: the name behind CFX.Production, and the unit with what it is called or how it was tested.
MEANT = [
    ("UnitsArrived", ONE, ONE),
    ("TestAndInspection.UnitsTested", ONE, "Passed"),
    ("UnitsDeparted", ONE, "A001"),
    ("UnitsArrived", TWO, TWO),
    ("TestAndInspection.UnitsTested", TWO, "Failed"),
    ("UnitsScrapped", TWO, TWO),
]

# Takes so many messages into a file, and dies in front of its reply to the last; refuses the first.
LISTENER = """
import http.server, os, sys
class Listener(http.server.BaseHTTPRequestHandler):
    seen = 0
    def do_POST(self):
        data = self.rfile.read(int(self.headers["Content-Length"]))
        Listener.seen += 1
        if Listener.seen > 1:
            os.write(1, data + bytes([10]))
        if Listener.seen == int(sys.argv[2]):
            os._exit(0)
        self.send_response(503 if Listener.seen == 1 else 204)
        self.end_headers()
    log_message = lambda *words: None
http.server.HTTPServer(("127.0.0.1", int(sys.argv[1])), Listener).serve_forever()
"""


def meant(it):
    """A message as MEANT has it."""
    body, name = it["MessageBody"], it["MessageName"].removeprefix("CFX.Production.")
    assert body["$type"] == f"{it['MessageName']}, CFX" and uuid.UUID(it["UniqueID"]).version == 5
    unit = (body.get("Units") or body["TestedUnits"])[0]
    return name, unit["UnitIdentifier"], unit.get("OverallResult") or body["PrimaryIdentifier"]


class Events(BooksCase):
    over_office = True

    def events(self, *more):
        status, out, told = ran("events", self.folder / "journals", "--cfx", "--kept", self.folder / "kept", *more)
        return status, [json.loads(it) for it in out.splitlines()], told

    def setUp(self):
        super().setUp()
        (self.folder / "journals").mkdir()
        self.file = self.write("journals/line1-2026-11-27.journal", lines_of("line1", *STEPS))

    def test_each_once_from_where_it_stopped(self):
        """A refused request and one without a reply are none. Behind a new file of the same name all of it comes."""
        status, found, _ = self.events()
        self.assertEqual((status, [meant(it) for it in found], {it["Source"] for it in found}), (0, MEANT, {"line1"}))
        self.assertEqual(self.events()[:2], (0, []))
        reply = (*STEPS[-1][:3], {"state": "registered"})
        self.write(f"journals/{self.file.name}", lines_of("line1", *STEPS[:-1], reply))
        self.assertEqual([meant(it)[1] for it in self.events()[1]], ["240ac4000003"])
        self.write(f"journals/{self.file.name}", lines_of("line1", *STEPS[5:8]))
        again = self.events()[1]
        self.assertEqual([meant(it) for it in again], MEANT[3:])
        (self.folder / "kept").unlink()
        self.assertEqual(self.events()[1], again)

    def test_listeners_that_die(self):
        """Nothing is lost, and what comes again is byte for byte the same, with its UniqueID."""
        port, taken = free_port(), self.folder / "taken"
        url = f"http://{HOST}:{port}/cfx"
        status, _, told = self.events("--post", url, "--patience", "1")
        self.assertEqual((status, f"{url} takes no message" in told), (3, True))
        for count in (3, 4, 99):
            with open(taken, "ab") as out:
                listener = subprocess.Popen([sys.executable, "-c", LISTENER, str(port), str(count)], stdout=out)
            self.addCleanup(listener.wait)
            self.addCleanup(listener.kill)
            status = self.events("--post", url, "--patience", "3" if count < 99 else "60")[0]
            self.assertEqual(status, 3 if count < 99 else 0)
        lines = taken.read_bytes().splitlines()
        once = [json.loads(it) for it in dict.fromkeys(lines)]
        self.assertEqual(([meant(it) for it in once], len(lines)), (MEANT, 8))
        self.assertEqual(len({it["UniqueID"] for it in once}), 6)
        self.assertEqual(self.events("--post", url, "--patience", "1")[0], 0)
