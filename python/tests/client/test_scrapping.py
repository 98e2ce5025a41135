"""The bench's word `scrap`, on the terminal and by the page's own requests.

Expected are the sentences and rules of docs/line/bench.md, and the states of docs/integrate/api.md.
"""

import json
import os
import subprocess
import sys

from running import PYTHONPATH, BenchCase, macs_of, script
from support import DIGEST, MAC, MAP, ORDER

from wanekupo.seat.journal import strict_lines

NAMED = "24:0A:C4:00:00:01"
ASK_NAME = "Scan or type the name of the chip to be scrapped, its twelve digits, or no."


class Scrapping(BenchCase):
    """Chips of the red box."""

    over_office = True

    def failed(self, **recipe):
        """A bench whose first chip failed, and was taken out."""
        self.order()
        bench = self.run_bench(self.recipe(**recipe))
        self.put("left", MAC)
        bench.said("left")
        self.assertEqual(bench.ended("left")[0], "FAIL")
        self.take("left", MAC)
        return bench

    def stray(self):
        """The socket's command burns something else, so that the chip is quarantined."""
        words = self.socket_of("left")
        other = 'case "$*" in *execute_scripts*) set -- "$1" "$2" burn_bit BLOCK0 197;; esac'
        tool = script(self.folder / "tool", f'{other}\nexec {" ".join(words[:3])} "$@"\n')
        return self.failed(sockets={"left": [tool, *words[3:]]})

    def asked_about(self, bench):
        """The question, once it is there."""
        is_asked = lambda board: board["question"] and board["question"]["answers"] == ["yes", "no"]
        return bench.until(is_asked, "asked")["question"]["text"]

    def told(self, bench, begin):
        return bench.until(lambda board: board["notice"].startswith(begin), begin)["notice"]

    def state(self, chip=MAC):
        found = self.asked("GET", f"/v1/device?chip={chip}")[1]
        return found["state"], found["reason"]

    def lost(self):
        """What the command `lost` says of the journal: the chips and their reasons."""
        words = [sys.executable, "-B", "-m", "wanekupo", "lost", str(self.folder / "a1.journal"), "--json"]
        environment = {**os.environ, "PYTHONPATH": PYTHONPATH, "HOME": str(self.folder)}
        done = subprocess.run(words, capture_output=True, text=True, check=True, env=environment)
        return [(it["chip"], it["order"], it["reason"]) for it in map(json.loads, done.stdout.splitlines())]

    def reasons(self):
        lines = strict_lines(self.folder / "a1.journal")
        return [it.get("reason") for it in lines if it.get("path") == "/v1/scrap"]

    def test_a_chip_that_is_lost(self):
        """By a scanner: the word, the name as a MAC, the answer. The journal keeps what the server forgets."""
        bench = self.stray()
        self.assertEqual(self.state(), ("quarantined", "stray"))
        bench.typed("scrap")
        question = bench.until(lambda board: board["question"])["question"]
        self.assertEqual(question, {"text": ASK_NAME, "answers": ["no"]})
        bench.typed(NAMED)
        told = "A bit reads 1 that nobody planned, and the chip is lost (ABS_DONE_1): take it out, red box."
        asked = f"Scrap the chip {MAC} for good? It is quarantined, as stray bit. The bench said: {told}"
        self.assertEqual(self.asked_about(bench), f"{asked} Type yes; all else leaves it.")
        self.assertEqual(self.state(), ("quarantined", "stray"))
        bench.typed("yes")
        told = f"The chip {MAC} is scrapped (stray bit): it is done with."
        self.assertEqual(self.told(bench, f"The chip {MAC} is"), told)
        self.assertEqual((self.state(), bench.board()["question"]), (("scrapped", None), None))
        self.assertEqual((self.lost(), self.reasons()), ([(MAC, "o1", "stray")], ["stray"]))
        self.assertEqual(self.scrapped(), [{"scrapped": MAC, "reason": "stray"}])
        self.assertEqual(bench.end(), 0)
        self.assertIn(f"question: {asked}", "".join(bench.lines))

    def scrapped(self):
        """The lines of the bench's log on scrapped chips."""
        return [{name: it[name] for name in ("scrapped", "reason")} for it in self.logged() if "scrapped" in it]

    def test_a_chip_that_failed(self):
        """One that isn't quarantined has the bench's ending as its reason. All but yes leaves it, and begins none."""
        broken = script(self.folder / "broken", "exit 3\n")
        bench = self.failed(hooks={"before_ship": {"command": [broken]}})
        for answer in ("no", "", "left", "o1 left", MAC, "yes yes", "scrapped"):
            bench.said(f"scrap {MAC}")
            told = "It is identified. Its serial number A001 is used up for good. The bench said: The command"
            self.assertIn(told, self.asked_about(bench))
            bench.said(answer)
            self.assertEqual(bench.board()["notice"], f"The chip {MAC} isn't scrapped.")
        for word, is_stopped in (("stop", True), ("go", False)):
            bench.said(f"scrap {MAC}")
            self.asked_about(bench)
            bench.said(word)
            board = bench.board()
            self.assertEqual((board["question"], bool(board["stopped"])), (None, is_stopped))
        self.assertEqual((bench.socket("right")["state"], self.state()), ("waiting", ("identified", None)))
        self.assertEqual([it["chip"] for it in bench.board()["under_way"]], [MAC])
        bench.said(f"scrap {MAC}")
        self.asked_about(bench)
        bench.said("Yes")
        self.told(bench, f"The chip {MAC} is scrapped (command failed)")
        self.assertEqual(bench.until(lambda board: not board["under_way"])["under_way"], [])
        self.assertEqual((self.state()[0], self.lost()), ("scrapped", [(MAC, "o1", "hook_failed")]))
        socket = bench.socket("left")
        told = ("FAIL", "red", "The chip is scrapped, for good: take it out, red box.")
        self.assertEqual((socket["state"], socket["box"], socket["sentence"]), told)

    def test_what_is_not_scrapped(self):
        """No name, no chip, one of another order, one that is shipped or scrapped, and one that is worked on."""
        wait = script(self.folder / "wait", f"while [ ! -e {self.folder}/go ]; do sleep 0.05; done\n")
        self.order()
        other, scrapped, shipped = macs_of(4)[1:]
        with self.station(file="a1.json") as office:
            office.make_order(**{**ORDER, "name": "o2", "prefix": "B", "macs": 0})
            office.import_map(MAP)
            for mac, order in ((other, "o2"), (scrapped, "o1"), (shipped, "o1")):
                office.register(mac, order, DIGEST, self.chip(mac).read())
            office.scrap(scrapped)
            office.plan(shipped, [])
            office.identify(shipped, b"1")
            office.ship(shipped)
        bench = self.run_bench(self.recipe(hooks={"before_ship": {"command": [wait]}}))
        self.put("right", MAC)
        bench.said("right")
        bench.until(lambda board: board["sockets"][1]["step"] == "before ship")
        for name, told in (
            ("left", "'left' is no name of a chip, which has twelve of 0-9 a-f"),
            (f"{other} {MAC}", f"'{other} {MAC}' is no name of a chip, which has twelve of 0-9 a-f"),
            (f"o2;{other}", f"The chip {other} is of the order o2, and this is the bench of o1"),
            ("240ac4999999", "The server knows no chip 240ac4999999 of this customer"),
            (other, f"The chip {other} is of the order o2, and this is the bench of o1"),
            (scrapped, f"The chip {scrapped} was scrapped before"),
            (shipped, f"The chip {shipped} is shipped as A001, which is for good"),
            (MAC, f"The chip {MAC} is worked on in the socket right"),
        ):
            bench.said(f"scrap {name}")
            self.assertEqual(self.told(bench, told), f"{told}. No chip is scrapped.")
            self.assertIsNone(bench.board()["question"])
        (self.folder / "go").touch()
        self.assertEqual(bench.ended("right")[0], "PASS")
        self.assertEqual(self.reasons(), [])

    def test_a_chip_that_came_back_meanwhile(self):
        """It is worked on when the answer comes: it goes on, and isn't scrapped."""
        wait = script(self.folder / "wait", f"[ -e {self.folder}/go ] || exit 3\nsleep 2\n")
        bench = self.failed(hooks={"before_ship": {"command": [wait]}})
        bench.said(f"scrap {MAC}")
        self.asked_about(bench)
        (self.folder / "go").touch()
        self.put("right", MAC)
        self.assertEqual(bench.asked("POST", "/begin", {"socket": "right"})[0], 200)
        bench.until(lambda board: board["sockets"][1]["step"] == "before ship")
        bench.said("yes")
        told = f"The chip {MAC} is worked on in the socket right. No chip is scrapped."
        self.assertEqual(self.told(bench, f"The chip {MAC} is worked"), told)
        self.assertEqual(bench.ended("right")[0], "PASS")

    def test_a_server_that_is_away(self):
        """The question comes once it answers again, and a seat that another used stops the line."""
        bench = self.stray()
        self.program.kill()
        bench.said(f"scrap {MAC}")
        bench.until(lambda board: board["away"])
        bench.said("scrap")  # another word, which takes the place of that one
        self.program.start()
        bench.until(lambda board: not board["away"])
        self.assertEqual(bench.board()["question"]["text"], ASK_NAME)
        bench.said(MAC)
        self.assertIn("It is quarantined, as stray bit.", self.asked_about(bench))
        with self.station(file="other.json") as other:
            other.resynchronize()
            other.import_map(MAP)
        bench.said("yes")
        told = "Somebody else used this bench's seat (refusal 12): touch nothing, and call the engineer."
        self.assertEqual(bench.until(lambda board: board["stopped"])["stopped"], told)
        self.assertEqual(self.state(), ("quarantined", "stray"))
