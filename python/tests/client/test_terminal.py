"""How chips are begun, on a terminal and by scanners, and what is said there.

Expected values are those of docs/line/bench.md.
"""

import json
import re
import time

from running import BenchCase, Terminal, macs_of, script
from support import MAC


class Begun(BenchCase):
    """What a person types, scans and puts in."""

    def test_the_terminal(self):
        """PASS and FAIL in large letters on green and red, without colours by NO_COLOR, and never what a hook prints as
        it is."""
        broken = script(self.folder / "broken", "printf '\\033[2Jgone'; exit 3\n")
        self.order()
        for place, (colour, environment) in enumerate((("\x1b[1;97;41m", {}), ("", {"NO_COLOR": "1"}))):
            recipe = self.recipe(hooks={"before_ship": {"command": [broken]}})
            first, then = (macs_of(4)[2 * place :])[:2]
            with Terminal(recipe, environment) as terminal:
                self.put("left", first)
                terminal.type("left")
                shown = terminal.until("red box.")
                self.assertIn("Put a chip into a socket, and press Enter", terminal.until("to end."))
                self.assertIn(f"{colour} ####   ##   ###  #   ", shown)
                self.assertEqual("\x1b[1;97" in shown, bool(colour))
                self.assertIn("(\\x1b[2Jgone)", shown)
                self.assertNotIn("\x1b[2Jgone", shown)
                self.take("left", first)
            recipe = self.recipe()
            with Terminal(recipe, environment) as terminal:
                self.put("left", then)
                terminal.type("left")
                shown = terminal.until("green box.")
                self.assertIn(f"{colour.replace('41m', '42m')} ####   ##   ####  ####", shown)
                self.take("left", then)
                terminal.end()
                rows, last = re.search(r"\x1b\[(\d+);1H\x1b\[J(The bench has ended[^\r]*)", terminal.shown).groups()
                self.assertGreater(int(rows), 8)
                self.assertEqual(last, "The bench has ended. What was begun goes on at its next start.")

    def test_travellers(self):
        """One begins a chip only where it names the recipe's order."""
        self.order()
        bench = self.run_bench(self.recipe(top={"start": "scan"}))
        self.put("right", MAC)
        wrong = "This traveller isn't of the order o1: take the traveller's own bench."
        for text, notice in (("", "Scan the traveller first."), ("o2", wrong), ("right", wrong), ("o12", wrong)):
            bench.said(text)
            self.assertEqual(bench.board()["notice"], notice)
        self.assertEqual({it["state"] for it in bench.board()["sockets"]}, {"waiting"})
        bench.typed("o1;right;4711")
        self.assertEqual(bench.ended("right")[0], "PASS")
        self.assertEqual(bench.socket("left")["state"], "waiting")

    def test_words(self):
        """What isn't one is no traveller where a key begins a chip, and there is help."""
        self.order()
        bench = self.run_bench(self.recipe())
        words = "The words are: stop, go, shift (the counts begin anew), scrap (gives up a chip of the red box), "
        words += "forget CHIP (it won't come back), help."
        for text in ("halp", "3", "forget"):
            bench.said(text)
            self.assertEqual(bench.board()["notice"], f"{text!r} is no word of this bench. {words}")
        for text in ("help", "?"):
            bench.said("left right o9")
            bench.said(text)
            self.assertEqual(bench.board()["notice"], words)
        self.assertEqual({it["state"] for it in bench.board()["sockets"]}, {"waiting"})
        bench.end()
        asked = "Put a chip into a socket, and press Enter, or type its name or number. Type help for the words"
        lines = [it.strip() for it in bench.lines]
        self.assertTrue(any(it.startswith(f"bench: {asked}") for it in lines), lines)
        self.assertNotIn("notice:", lines)
        self.assertEqual(lines[-1], "The bench has ended. What was begun goes on at its next start.")

    def test_eighty_by_twenty_four(self):
        """Eight sockets have a line each, with the question first; two have large letters as long as they fit."""
        broken = script(self.folder / "broken", "echo 'the flash is write protected'; exit 3\n")
        self.order()
        names = [f"s{place}" for place in range(1, 9)]
        sockets = {name: self.socket_of(name) for name in names}
        recipe = self.recipe(hooks={"before_ship": {"command": [broken]}}, sockets=sockets, stop=3)
        with Terminal(recipe, {}, 24, 80) as terminal:
            for name, mac in zip(names, macs_of(8)):
                self.put(name, mac)
            terminal.type("")
            terminal.until("STOPPED")
            terminal.until("8 s8 FAIL AGAIN")
            for name in names:
                terminal.until(f"{name} FAIL AGAIN")
            terminal.type(f"scrap {MAC}")
            terminal.until("QUESTION")
            terminal.shown = terminal.shown.rpartition("\x1b[2;1H\x1b[J")[2]
            shown = terminal.until("\x1b8").partition("\x1b8")[0]
            lines = [it.rstrip("\r") for it in re.sub(r"\x1b\[[0-9;]*m", "", shown).split("\n")]
            self.assertLessEqual((len(lines), max(map(len, lines))), (22, 80), lines)
            self.assertTrue(lines[0].startswith("QUESTION: Scrap the chip"), lines)
            found = [re.match(r"(\d) s(\d) FAIL AGAIN", line) for line in lines]
            self.assertEqual([it[1] for it in found if it], [str(place) for place in range(1, 9)])
            self.assertTrue(any("STOPPED #####" in line and line.startswith("#####") for line in lines), lines)
            self.assertIn("This shift: passed 0, first pass 0, failed: command failed 8", " ".join(lines))
            told = "The line stands: type go, or press Go on. Type help"
            self.assertTrue(any(line.startswith(told) for line in lines), lines)
            terminal.type("help")
            self.assertIn("The words are: stop, go,", terminal.until("Type help"))

    def test_badges(self):
        """Who works here stands in the journal from then on, without another recipe."""
        self.order()
        bench = self.run_bench(self.recipe(server={"operator": "Anna"}))
        self.assertEqual(bench.until(lambda board: board["rest"])["operator"], "Anna")
        none = "A badge has a name of 1 to 64 letters in one line behind 'operator:'."
        named = "Bert Roth works here now, also behind a restart, until another badge is scanned."
        for text, name, notice in (
            ("operator:Bert Roth", "Bert Roth", named),
            ("operator:", "Bert Roth", none),
            (f"operator:{65 * 'x'}", "Bert Roth", none),
            ("operator:\x1b[2J", "Bert Roth", none),
        ):
            bench.said(text)
            self.assertEqual((bench.board()["operator"], bench.board()["notice"]), (name, notice))
        self.put("left", MAC)
        bench.said("left")
        self.assertEqual(bench.ended("left")[0], "PASS")
        lines = [json.loads(it) for it in (self.folder / "a1.journal").read_text("ascii").splitlines()]
        self.assertEqual({it.get("path"): it["operator"] for it in lines if "path" in it}["/v1/ship"], "Bert Roth")
        self.assertEqual([it["operator"] for it in self.logged() if "operator" in it], ["Bert Roth"])
        bench.kill()
        bench = self.run_bench(self.recipe(server={"operator": "Anna"}, top={"screen": {"badge": "P-"}}))
        self.assertEqual(bench.until(lambda board: board["rest"])["operator"], "Bert Roth")
        self.put("left", macs_of(2)[1])
        bench.said("left")
        bench.until(lambda board: board["shift"]["passed"] == 2)
        lines = [json.loads(it) for it in (self.folder / "a1.journal").read_text("ascii").splitlines()]
        names = [it["operator"] for it in lines if it.get("path") == "/v1/ship"]
        self.assertEqual((len(names) > 1, set(names)), (True, {"Bert Roth"}))
        bench.said("P-0815")
        self.assertEqual(bench.board()["operator"], "0815")

    def test_another_language(self):
        """The recipe's file of words, on the board and in the log; one that can't be said is refused at the start."""
        self.order()
        bench = self.run_bench(self.recipe(top={"screen": {"words": "de.toml"}}))
        self.put("left", MAC)
        bench.said("left")
        told = "Der Chip ist ausgeliefert als A001: herausnehmen, grüne Kiste."
        self.assertEqual(bench.ended("left"), ("PASS", "passed", told))
        self.assertEqual([it["sentence"] for it in self.logged() if "result" in it], [told])
        self.assertEqual(json.loads(bench.asked("GET", "/words")[2])["words"]["go_on"], "Weiter")
        self.assertEqual(bench.end(), 0)
        (self.folder / "our.toml").write_text('[words]\nleft = "{rest}"\n', encoding="ascii")
        bench = self.run_bench(self.recipe(top={"screen": {"words": "our.toml"}}))
        self.assertEqual(bench.process.wait(10), 2)
        bench.reader.join()
        told = "our.toml has in [words] the word left, which has rest in braces, and nothing to fill in there. "
        told += "Mend that line, or take it away: what is missing is English.\n"
        self.assertEqual(bench.lines, [f"{self.folder}/{told}"])

    def test_a_new_shift(self):
        """It is asked for. A chip that failed and then passed has passed, and is no first pass. The last chips stay."""
        once = script(self.folder / "once", f"[ -e {self.folder}/seen ] || {{ touch {self.folder}/seen; exit 3; }}\n")
        self.order()
        bench = self.run_bench(self.recipe(hooks={"before_ship": {"command": [once]}}))
        for name, mac in (("left", MAC), ("left", MAC), ("right", macs_of(2)[1])):
            if not (self.folder / "places" / name).exists():
                self.put(name, mac)
            before = bench.board()["shift"]
            bench.said(name)
            bench.until(lambda board, before=before: board["shift"] != before)
        shift = bench.board()["shift"]
        self.assertEqual((shift["passed"], shift["first"], shift["failed"]), (2, 1, {}))
        for answer, passed in (("no", 2), ("left", 2), ("operator:Eve", 2), ("yes", 0)):
            bench.said("shift")
            self.assertTrue(bench.board()["question"]["text"].startswith("Begin a new shift?"))
            bench.said(answer)
            self.assertEqual((bench.board()["shift"]["passed"], bench.board()["question"]), (passed, None), answer)
        self.assertEqual(bench.socket("left")["state"], "PASS")
        ended = [it["ended"] for it in self.logged() if "shift" in it]
        self.assertEqual(ended, [{"since": shift["since"], "passed": 2, "first": 1, "failed": {}}])
        self.assertEqual(bench.end(), 0)
        board = self.run_bench(self.recipe()).board()
        last = [(it["state"], it["reason"], it["chip"], it["took"] > 0) for it in board["last"]]
        told = [("PASS", "passed", it, True) for it in reversed(macs_of(2))] + [("FAIL", "hook_failed", MAC, True)]
        self.assertEqual(last, told)
        self.assertEqual([(it["state"], it["was"]) for it in board["sockets"]], [("waiting", "PASS")] * 2)

    def test_the_steps(self):
        """Each step that a chip takes is one of those that are counted, in their order."""
        self.order()
        key = {"kind": "key", "field": "BLOCK1", "command": ["./make-key"], "burnt_as": "flash_encryption"}
        wait = 'test -e next || { touch at; while [ ! -e next ]; do sleep 0.05; done; }; rm -f next at\n'
        script(self.folder / "make-key", f'head -c 32 /dev/urandom > "$KEY_FILE"; cd {self.folder}; {wait}')
        slow = script(self.folder / "slow", f"cd {self.folder}; {wait}")
        hooks = {"before_ship": {"command": [slow]}, "label": {"command": [slow]}}
        bench = self.run_bench(self.recipe(hooks=hooks, wishes=[key]))
        self.put("left", MAC)
        bench.said("left")
        for step, place in (("key of BLOCK1", 4), ("before ship", 12), ("label", 14)):
            board = bench.until(lambda board, step=step: board["sockets"][0]["step"] == step, step)
            self.assertEqual((board["sockets"][0]["place"], board["steps"]), (place, 14))
            (self.folder / "next").touch()
        self.assertEqual(bench.ended("left")[0], "PASS")

    def test_the_end_of_the_input(self):
        """The bench goes on by its page, and says so."""
        self.order()
        bench = self.run_bench(self.recipe())
        bench.process.stdin.close()
        told = "Nothing more can be typed here. The bench goes on by its page, until Ctrl-C ends it."
        self.assertEqual(bench.until(lambda board: board["notice"])["notice"], told)
        self.put("left", MAC)
        bench.said("left")
        self.assertEqual(bench.ended("left")[0], "PASS")
        self.assertEqual(bench.end(), 0)

    def test_chips_that_begin_by_themselves(self):
        """Each begins once it answers, and the next one when another answers."""
        self.order()
        bench = self.run_bench(self.recipe(top={"start": "chip"}, sockets={"left": self.socket_of("left")}))
        for place, mac in enumerate(macs_of(2), 1):
            self.put("left", mac)
            bench.until(lambda board: board["shift"]["passed"] == place)
            time.sleep(1.5)
            self.assertEqual((bench.socket("left")["state"], bench.socket("left")["chip"]), ("PASS", mac))
            self.take("left", mac)
            board = bench.until(lambda board: board["sockets"][0]["state"] == "waiting")
            # What waits says nothing of an empty socket, and still shows the last result.
            names = ("was", "box", "chip", "serial", "sentence")
            self.assertEqual([board["sockets"][0][it] for it in names], ["PASS", "green", mac, f"A00{place}", ""])
        self.assertEqual([it["result"] for it in self.logged() if "result" in it], ["passed", "passed"])
        self.put("left", mac)
        bench.until(lambda board: board["sockets"][0]["reason"] == "passed_before")
