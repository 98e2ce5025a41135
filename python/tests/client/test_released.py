"""Who may work at a bench, and which chips a MES lets it begin.

Expected values are those of docs/line/bench.md, and what the shell's own commands print.
"""


from running import ASK_WHERE, ENDED, BenchCase, macs_of, script
from support import MAC

from wanekupo.seat.journal import strict_lines


class Released(BenchCase):
    """Chips of which `before_register` says yes, no, or nothing in time; the bench asks it of none that is begun."""

    over_office = True
    SOCKETS = ("left",)

    def bench(self, hook, **more):
        return self.run_bench(self.recipe(hooks={"before_register": {"command": [hook], **more}}, stop=1))

    def ended_with(self, bench, mac):
        self.put("left", mac)
        bench.said("left")
        board = bench.until(lambda it: (it["sockets"][0]["chip"], it["sockets"][0]["state"] in ENDED) == (mac, True))
        self.take("left", mac)
        return tuple(board["sockets"][0][name] for name in ("state", "reason", "sentence"))

    def registered(self):
        lines = strict_lines(self.folder / "a1.journal")
        return [it["asked"]["chip"] for it in lines if it.get("path") == "/v1/device"]

    def test_one_that_says_no(self):
        """Its words are shown, and the chip is as good as before: nothing is sent or kept of it, and the line goes on.
        The same where it takes too long; one that isn't there stops the line."""
        self.order()
        no = 'echo first; echo "$CHIP of $ORDER in $SOCKET by $OPERATOR: not \x1b[31mtested" >&2; exit 4\n'
        said = (f"{MAC} of o1 in left by Bert Roth: not \\x1b[31mtested", "more than 0.3 seconds")
        for hook, detail in zip((no, "sleep 99\n"), said):
            bench = self.bench(script(self.folder / "hook", hook), timeout=0.3)
            bench.said("operator:Bert Roth")
            told = f"before_register says no, and the chip isn't begun ({detail}): {ASK_WHERE}."
            self.assertEqual(self.ended_with(bench, MAC), ("FAIL", "not_released", told))
            board = bench.board()
            self.assertEqual((board["under_way"], board["shift"]["failed"], board["stopped"]), ([], {}, ""))
            self.assertEqual((bench.socket("left")["box"], bench.socket("left")["scraps"]), ("ask", False))
            self.assertEqual(list((self.folder / "a1.json.bench" / "chips").iterdir()), [])
            (self.folder / "hook").unlink()
            self.assertEqual(self.ended_with(bench, macs_of(2)[1])[1], "hook_missing")
            self.assertEqual((self.registered(), bool(bench.board()["stopped"])), ([], True))
            bench.end()

    def test_what_comes_between(self):
        """The bench dies while it asks, and another chip is in the socket behind the answer: neither is begun."""
        self.order()
        other, place = macs_of(2)[1], self.folder / "places" / "left"
        self.put("left", other)
        self.take("left", other)
        bench = self.bench(script(self.folder / "slow", f"touch {self.folder}/asked; sleep 99\n"))
        self.put("left", MAC)
        bench.said("left")
        bench.until(lambda _: (self.folder / "asked").exists(), "asked")
        bench.kill()
        bench = self.bench(script(self.folder / "swap", f"cp {self.folder}/chip-{other} {place}\n"))
        self.assertEqual(bench.board()["under_way"], [])
        bench.said("left")
        self.assertEqual((bench.ended("left")[1], self.registered()), ("other_chip", []))

    def test_one_that_says_yes(self):
        """It is asked once of a chip: one that is begun goes on, whatever it says by then."""
        self.needs_program()
        self.order()
        asked = self.folder / "asked"
        once = script(self.folder / "once", f"echo >> {asked}; [ $(wc -l < {asked}) -eq 1 ]\n")
        hooks = {"before_register": {"command": [once]}}
        broken = {"before_ship": {"command": [script(self.folder / "broken", "exit 1\n")]}}
        bench = self.run_bench(self.recipe(hooks={**hooks, **broken}))
        self.assertEqual(self.ended_with(bench, MAC)[1], "hook_failed")
        bench.end()
        bench = self.run_bench(self.recipe(hooks=hooks))
        self.assertEqual(self.ended_with(bench, MAC)[:2], ("PASS", "passed"))
        self.assertEqual(self.ended_with(bench, macs_of(2)[1])[1], "not_released")
        self.assertEqual((self.registered(), len(asked.read_text())), ([MAC], 2))

    def test_operators_by_a_list_and_a_form(self):
        """Nothing is begun or scrapped before a badge that the recipe lets, and none other takes its place."""
        self.order()
        first = "Scan your badge first: the recipe says who may work here."
        for operators, good, bad in ((["Bert", "Anna"], "Anna", "Ann"), ("E[0-9]{4}", "E0815", "E08155")):
            bench = self.run_bench(self.recipe(server={"operator": "Joe"}, top={"screen": {"operators": operators}}))
            bench.until(lambda board: board["rest"])
            for text in ("left", f"scrap {MAC}", f"operator:{bad}", "left"):
                bench.said(text)
                told = f"The recipe's operators have no {bad!r}: who worked here still does." if bad in text else first
                self.assertEqual((bench.board()["notice"], bench.board()["operator"]), (told, ""))
            for text in (f"operator:{good}", f"operator:{bad}"):
                bench.said(text)
                self.assertEqual(bench.board()["operator"], good)
            mac = macs_of(2)[good == "Anna"]
            self.assertEqual(self.ended_with(bench, mac)[1], "passed")
            lines = [it for it in strict_lines(self.folder / "a1.journal") if "path" in it]
            self.assertEqual({it["operator"] for it in lines if it["asked"].get("chip") == mac}, {good})
            bench.end()
