"""The bench's page in a browser: green, red, away, stopped, names that are markup, and the keyboard alone.

It needs Debian's chromium, and is left out where there is none. With PICTURES=1 it writes the pictures of
docs/line/bench.md.
"""

import json
import os
import unittest

from browser import PROGRAM, Browser
from running import BenchCase, script, tool
from support import HOST, ROOT

PICTURES = ROOT / "docs" / "pictures"
MARKUP = "<img src=x onerror=document.title=1>&amp;"
GREEN, STRIPES = "rgb(11, 107, 44)", "repeating-linear-gradient"
MACS = [f"240ac40000{place:02x}" for place in range(1, 9)]


@unittest.skipUnless(PROGRAM, "there is no chromium")
class Page(BenchCase):
    """One browser, and a bench for each test."""

    @classmethod
    def setUpClass(cls):
        cls.browser = Browser(1280, 720)
        cls.addClassCleanup(cls.browser.close)

    def setUp(self):
        super().setUp()
        self.order(quantity=9)
        self.browser.told.clear()

    def tearDown(self):
        """The policy kept nothing of the page's own back, and it asked nobody else."""
        for told in self.browser.told:
            entry = told.get("params", {}).get("entry", {})
            self.assertNotEqual(entry.get("source"), "security", entry)
            asked = told.get("params", {}).get("request", {}).get("url", "")
            self.assertTrue(asked.startswith((f"http://{HOST}:", "about:", "data:")) or not asked, asked)

    def show(self, **recipe):
        bench = self.run_bench(self.recipe(**recipe))
        self.browser.show(f"http://{HOST}:{bench.port}/")
        return bench

    def card(self, place):
        """What a socket's card shows, and what a person sees of it who sees no colours."""
        return self.browser.value(f"""(() => {{
            const card = document.querySelector('[data-place="{place}"]'), style = getComputedStyle(card);
            return {{ name: card.children[0].textContent, word: card.children[1].innerText.trim(),
                box: card.children[2].innerText.trim(), told: card.children[3].textContent,
                colour: style.backgroundColor, image: style.backgroundImage,
                line: style.borderTopStyle, size: parseFloat(getComputedStyle(card.children[1]).fontSize) }};
        }})()""")

    def word(self, place, word):
        self.browser.until(f"document.querySelector('[data-place=\"{place}\"] .word').textContent.includes('{word}')")
        return self.card(place)

    def banner(self):
        told = "['word', 'text'].map((it) => document.getElementById(`banner-${it}`).textContent).join(' ')"
        return self.browser.value(told)

    def aloud(self):
        return self.browser.value("document.getElementById('said').textContent")

    def picture(self, name):
        if os.environ.get("PICTURES"):
            PICTURES.mkdir(exist_ok=True)
            self.browser.picture(PICTURES / f"bench-{name}.png")

    def test_green(self):
        self.show()
        self.assertEqual(self.card(0)["word"], "\u25cb waiting")
        self.put("left", MACS[0])
        self.browser.type("left")
        card = self.word(0, "PASS")
        told = "The chip is shipped as A001: take it out, green box."
        self.assertEqual((card["name"], card["word"], card["told"]), ("1 left", "\u2714 PASS", told))
        self.assertEqual(card["box"], "GREEN BOX")
        self.assertEqual((card["colour"], card["image"], card["line"]), (GREEN, "none", "solid"))
        self.assertGreater(card["size"], 60)
        self.assertEqual(self.aloud(), f"left: PASS. {told}")
        self.assertEqual(self.browser.value("document.getElementById('rest').textContent"), "Serial numbers left: 8")
        self.picture("green")

    def test_red(self):
        words = " ".join(self.socket_of("left")[2:])
        tool = script(self.folder / "tool", f'case "$*" in *execute_scripts*) set -- burn_bit BLOCK0 197;; esac\nexec '
                      f'{self.socket_of("left")[0]} {words} "$@"\n')
        bench = self.show(sockets={"left": [tool], "right": self.socket_of("right")})
        self.put("left", MACS[0])
        self.put("right", MACS[1])
        self.browser.press("Enter")
        card = self.word(0, "FAIL")
        told = "A bit reads 1 that nobody planned, and the chip is lost (ABS_DONE_1): take it out, red box."
        self.assertEqual((card["word"], card["told"], card["line"]), ("\u2718 FAIL", told, "double"))
        self.assertEqual(card["box"], "RED BOX")
        self.assertIn(STRIPES, card["image"])
        self.assertEqual(self.word(1, "PASS")["line"], "solid")
        rows = self.browser.value("[...document.querySelectorAll('#counts tr')].map((row) => row.innerText.trim())")
        told = [["passed", "1"], ["first", "pass", "1"], ["failed", "1"], ["stray", "bit", "1"]]
        self.assertEqual([row.split() for row in rows], told)
        self.assertIsNone(bench.board()["away"])
        self.picture("red")
        self.browser.call("Emulation.setEmulatedVisionDeficiency", type="achromatopsia")
        self.picture("without-colours")
        self.browser.call("Emulation.setEmulatedVisionDeficiency", type="none")

    def test_away(self):
        """The server is away, and then the bench's program."""
        wait = script(self.folder / "wait", f"while [ ! -e {self.folder}/go ]; do sleep 0.05; done\n")
        bench = self.show(hooks={"before_ship": {"command": [wait]}})
        self.put("left", MACS[0])
        self.browser.type("1")
        self.browser.until("document.querySelector('.told').textContent === 'before ship'")
        self.program.kill()
        (self.folder / "go").touch()
        self.browser.until("!document.getElementById('banner').hidden")
        self.assertRegex(self.banner(), "^AWAY The server is away since .*: leave the chips where they are, the bench")
        self.picture("away")
        self.program.start()
        self.word(0, "PASS")
        self.browser.until("document.getElementById('banner').hidden")
        bench.kill()
        self.browser.until("!document.getElementById('banner').hidden")
        self.assertIn("NO BENCH", self.banner())
        self.assertTrue(self.browser.value("document.getElementById('sockets').hidden"))

    def test_a_chip_that_was_begun(self):
        """Behind a kill its socket has the word AGAIN and its name, and no old result, until it goes on elsewhere."""
        hold = self.folder / "hold"
        wait = script(self.folder / "wait", f"while [ -e {hold} ]; do sleep 0.05; done\n")
        recipe = {"hooks": {"before_ship": {"command": [wait]}}}
        bench = self.show(**recipe)
        self.put("left", MACS[0])
        self.browser.type("left")
        self.word(0, "PASS")
        self.take("left", MACS[0])
        hold.touch()
        self.put("left", MACS[1])
        self.browser.type("left")
        self.browser.until("document.querySelector('.told').textContent === 'before ship'")
        bench.kill()
        hold.unlink()
        self.show(**recipe)
        card = self.word(0, "AGAIN")
        told = f"The chip {MACS[1]} was begun here: begin again, and it goes on."
        self.assertEqual((card["word"], card["told"]), ("\u25cb AGAIN", told))
        shown = self.browser.value("document.querySelector('[data-place=\"0\"]').innerText")
        self.assertEqual([shown.count(it) for it in ("AGAIN", f"chip {MACS[1]}")], [1, 2], shown)
        for old in ("PASS", "GREEN", "A001", MACS[0]):
            self.assertNotIn(old, shown)
        self.take("left", MACS[1])
        self.put("right", MACS[1])
        self.browser.type("right")
        self.word(1, "PASS")
        self.assertEqual(self.word(0, "waiting")["told"], "")

    def test_stopped(self):
        broken = script(self.folder / "broken", "echo 'the flash is write protected'; exit 3\n")
        bench = self.show(hooks={"before_ship": {"command": [broken]}}, stop=2)
        for place, mac in enumerate(MACS[:2], 1):
            self.put("left", mac)
            self.browser.type("left")
            bench.until(lambda board: board["shift"]["failed"].get("hook_failed") == place)
            self.take("left", mac)
        self.browser.until("!document.getElementById('banner').hidden")
        common = "all at the step 'before ship', each as 'command failed', each in the socket 'left'"
        self.assertEqual(self.banner(), f"STOPPED 2 chips failed in a row, {common}: look why before you go on.")
        self.picture("stopped")
        self.browser.type("go")
        self.browser.until("document.getElementById('banner').hidden")

    def test_names_that_are_markup(self):
        command = tool(self.folder / "tool", f"echo 'A fatal error occurred: {MARKUP}'; exit 2\n")
        name = "<b onclick=x>left</b>"
        self.show(top={"name": MARKUP}, sockets={name: [command]})
        self.browser.press("Enter")
        card = self.word(0, "FAIL")
        self.assertEqual(card["name"], f"1 {name}")
        self.assertEqual(card["told"], f"No chip answers in the socket ({MARKUP}): press it in, and begin again.")
        shown = self.browser.value("[document.title, document.getElementById('product').textContent, "
                                   "document.querySelectorAll('main img, main b, header img').length]")
        self.assertEqual(shown, [MARKUP, MARKUP, 0])
        self.picture("markup")

    def test_the_keyboard_alone(self):
        """A scanner types wherever the focus is, and each button is reached by Tab."""
        bench = self.show(top={"start": "scan"})
        self.put("left", MACS[0])
        self.browser.type("o2")
        self.browser.until("document.getElementById('notice').textContent.startsWith('This traveller')")
        for _ in range(9):
            if self.browser.value("document.activeElement.id") == "stop":
                break
            self.browser.press("Tab")
        self.assertEqual(self.browser.value("document.activeElement.id"), "stop")
        self.assertEqual(self.browser.value("getComputedStyle(document.activeElement).outlineStyle"), "solid")
        self.browser.type("o1|left")
        self.assertEqual(bench.board()["stopped"], "")
        self.word(0, "PASS")
        self.picture("keyboard")
        for word in ("stop", "go"):
            self.browser.value(f"document.getElementById('{word}').focus()")
            self.browser.press("Enter")
            bench.until(lambda board, word=word: bool(board["stopped"]) == (word == "stop"))
            self.browser.until(f"document.getElementById('{word}').hidden")

    def test_a_chip_is_scrapped(self):
        """By the button of its own panel, a question, and its answer by a button: its socket says so then."""
        broken = script(self.folder / "broken", "echo 'the flash is write protected'; exit 3\n")
        bench = self.show(hooks={"before_ship": {"command": [broken]}})
        self.put("left", MACS[0])
        self.browser.type("left")
        self.word(0, "FAIL")
        for answer, state, notice in (("no", "identified", "isn't scrapped"), ("yes", "scrapped", "is scrapped")):
            self.browser.value("document.querySelector('[data-place=\"0\"] .keys button + button').click()")
            self.browser.until("!document.getElementById('yes').hidden")
            shown = "[...document.querySelectorAll('#line button')].filter((it) => !it.hidden).map((it) => it.id)"
            self.assertEqual(self.browser.value(shown), ["yes", "no", "stop"])
            told = self.browser.value("document.getElementById('question').textContent")
            self.assertRegex(told, f"^Scrap the chip {MACS[0]} for good[?] It is identified. Its serial number A001 is "
                                   "used up for good. .*flash is write protected")  # fmt: skip
            if answer == "yes":
                self.browser.until("!document.getElementById('line').classList.contains('held')")
                self.picture("scrap")
            self.browser.value(f"document.getElementById('{answer}').click()")
            self.browser.until(f"document.getElementById('notice').textContent.includes(\"{notice}\")")
            self.browser.until("document.getElementById('question').hidden")
            self.assertEqual(self.asked("GET", f"/v1/device?chip={MACS[0]}")[1]["state"], state)
        self.assertEqual(bench.board()["notice"], f"The chip {MACS[0]} is scrapped (command failed): it is done with.")
        card = self.card(0)
        told = "The chip is scrapped, for good: take it out, red box."
        self.assertEqual((card["box"], card["told"]), ("RED BOX", told))
        self.assertTrue(self.browser.value("document.querySelector('.keys button + button').hidden"))

    def test_others_pages(self):
        """What another page, or another name of this machine, asks for is refused, and each reply has the policy."""
        bench = self.show()
        own = f"{HOST}:{bench.port}"
        good = {"Content-Type": "application/json", "Host": own}
        for status, fields in (
            (200, good),
            (200, good | {"Origin": f"http://{own}"}),
            (403, good | {"Origin": "https://evil.example"}),
            (403, good | {"Origin": "null"}),
            (403, good | {"Host": f"evil.example:{bench.port}"}),
            (403, good | {"Content-Type": "text/plain"}),
        ):
            self.assertEqual(bench.asked("POST", "/said", {"text": "stop"}, fields)[0], status, fields)
            self.assertEqual(bool(bench.board()["stopped"]), status == 200, fields)
            bench.said("go")
        self.assertEqual(bench.asked("GET", "/board?after=0", None, {"Host": "evil.example"})[0], 403)
        for path in ("/", "/page.js", "/page.css", "/words", "/board?after=0", "/none"):
            _, fields, body = bench.asked("GET", path)
            self.assertTrue(fields["Content-Security-Policy"].startswith("default-src 'none';"), path)
            self.assertNotIn(b"abc", body if path.startswith("/board") else b"")
        self.assertEqual(json.loads(bench.asked("GET", "/board?after=0")[2])["order"], "o1")
