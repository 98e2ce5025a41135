"""The bench's page as an operator has it: what is read from two metres, gloves, Enter, sounds, on four screens.

It needs Debian's chromium, and is left out where there is none. With PICTURES=1 it writes a picture of
docs/line/bench.md. What it expects is that page's: capitals of 12.8 mm (22 minutes of arc at two metres, which
is 2 * 2000 mm * tan(11')), letters at least half as wide as high (ISO 9241-303), and controls of 20 mm.
"""

import copy
import json
import math
import os
import unittest
from types import SimpleNamespace
from unittest import mock

from browser import PROGRAM, Browser
from support import ROOT

from wanekupo.bench import words
from wanekupo.bench.board import Board, ShiftCounts, Socket, ended_socket
from wanekupo.bench.endings import ENDINGS, Ended
from wanekupo.bench.page import Page
from wanekupo.bench.recipe import Display

CAPITALS = 2 * 2000 * math.tan(math.radians(11 / 60))
# Width and height in pixels, the diagonal in inches that the recipe says, and the one that the screen has.
SCREENS = [(1280, 720, 0, math.hypot(1280, 720) / 96), (1920, 1080, 24, 24), (1920, 1080, 0, 24), (1280, 800, 10, 10),
           (1024, 600, 10, 10)]  # fmt: skip
FAILED = ("hook_failed", {"hook": "before_ship", "detail": "the flash is write protected"})
STAYS = [("passed", {"serial": "T0017"}), ("stray", {"detail": "ABS_DONE_1"}), FAILED, ("bad_token", {"no": 6}),
         ("no_label", {"serial": "T0018", "detail": "no paper"}), ("other_order", {"order": "o18"}),
         ("passed", {"serial": "T0019"}), ("lost", {"detail": "JTAG_DISABLE"})]  # fmt: skip
STOPPED = ("3 chips failed in a row, all at the step 'before ship', each as 'command failed', each in the socket "
           "'left': look why before you go on.")  # fmt: skip
ASKED = ("Scrap the chip 240ac4000001 for good? It is identified. Its serial number A001 is used up for good. The "
         "bench said: The command before_ship failed (the flash is write protected): put it in once more, and where "
         "that fails too, red box. Type yes; all else leaves it.")  # fmt: skip

# What is seen of the page, in its pixels: each word from afar with the height of its capitals and how it was narrowed,
# the texts and the controls.
SEEN = """(() => {
    scrollTo(0, 0);
    const box = (it) => ['left', 'top', 'right', 'bottom'].map((side) => it.getBoundingClientRect()[side]);
    const isSeen = (it) => it.getClientRects().length > 0 && getComputedStyle(it).visibility === 'visible';
    const all = (names) => [...document.querySelectorAll(names)].filter(isSeen);
    const pen = document.createElement('canvas').getContext('2d');
    const words = all('.word, .box, #banner-word').map((it) => {
        const line = it.firstChild, text = line.lastChild, range = document.createRange(), style = getComputedStyle(it);
        range.selectNodeContents(text);
        pen.font = `${style.fontWeight} ${style.fontSize} ${style.fontFamily}`;
        const scale = new DOMMatrix(getComputedStyle(line).transform).a;
        const capital = pen.measureText('H').actualBoundingBoxAscent;
        const wide = pen.measureText(text.textContent).width * scale / text.textContent.length;
        return { text: text.textContent, lines: range.getClientRects().length, capital, wide, box: box(line),
            within: box(it.closest('.socket') ?? it.parentElement) };
    });
    const texts = all('.told, #banner-text, #question').map((it) => ({ text: it.textContent, box: box(it),
        size: parseFloat(getComputedStyle(it).fontSize), cut: it.scrollHeight - it.clientHeight }));
    const isTight = document.getElementById('sockets').className === 'tight', panels = isTight ? all('.socket') : [];
    const controls = [...all('button, input'), ...panels].map((it) => ({ text: it.textContent || it.id, box: box(it),
        cut: it.matches('button') ? it.scrollWidth - it.clientWidth : 0, isPanel: it.matches('.socket') }));
    return { words, texts, controls, isTight, width: innerWidth, height: innerHeight, panels: all('.socket').map(box) };
})()"""

# A browser's sounds, as they are begun.
RECORDER = """window.tones = [];
    window.AudioContext = class { currentTime = 0; destination = {}; resume() {} };
    window.OscillatorNode = class {
        constructor(_, told) { window.tones.push(told.type); }
        connect() {} start() {} stop() {}
    };"""


class Bench:
    """What a page has of its bench: it keeps what was said."""

    def __init__(self, sockets, display):
        names = [f"socket{place}" for place in range(1, sockets + 1)]
        self.recipe = SimpleNamespace(sockets=dict.fromkeys(names, ()), display=display)
        shift = ShiftCounts("2026-11-29T06:00:00Z", 41, {"hook_failed": 2, "stray": 1}, (), 39)
        steps = ["read", "look", "register", "plan", "burn 1"]
        self.board = Board("thermostat r3", "o17", [Socket(it) for it in names], "key", shift, steps)
        self.done = []

    def said(self, text):
        self.done.append(text)

    def pressed(self, name):
        self.done.append(name)

    def end(self, place, name, facts=None, took=13.4):
        socket, chip, facts = f"socket{place}", f"240ac40000{place:02x}", facts or {}
        self.board.working(socket, "read", chip, "")
        serial = facts.get("serial", "")
        self.board.ended(ended_socket(socket, Ended(name, **facts), "before ship", chip, serial, "o17", took))


def apart(one, other):
    """How far two boxes are from each other."""
    aside = max(one[0] - other[2], other[0] - one[2], 0)
    above = max(one[1] - other[3], other[1] - one[3], 0)
    return math.hypot(aside, above)


@unittest.skipUnless(PROGRAM, "there is no chromium")
class Screen(unittest.TestCase):
    """One browser, and a bench for each page."""

    @classmethod
    def setUpClass(cls):
        cls.browser = Browser()
        cls.addClassCleanup(cls.browser.close)
        cls.browser.call("Page.addScriptToEvaluateOnNewDocument", source=RECORDER)

    def show(self, sockets, display=Display(), ended=True):
        bench = Bench(sockets, display)
        for place in range(1, sockets + 1 if ended else 1):
            bench.end(place, *STAYS[place - 1])
        page = Page(bench, 0)
        self.addCleanup(page.close)
        page.start()
        self.browser.show(page.url)
        self.browser.until("document.querySelector('.word span') !== null")
        return bench

    def drawn(self, bench):
        """What is seen once the page shows the board."""
        self.browser.until(f"document.body.dataset.version === '{bench.board.shown()['version']}'")
        return self.browser.value(SEEN)

    def text(self, name):
        return self.browser.value(f"document.querySelector({json.dumps(name)}).textContent")

    def click(self, name):
        self.browser.value(f"document.querySelector({json.dumps(name)}).click()")

    def done(self, bench, count):
        self.browser.until("true")
        for _ in range(200):
            if len(bench.done) >= count:
                break
            self.browser.value("new Promise((done) => setTimeout(done, 10))")
        return bench.done

    def test_each_size(self):
        """With results, with the line stopped, and with a question too; and while the server is away."""
        for width, height, inches, diagonal in SCREENS:
            self.browser.size(width, height)
            mm = math.hypot(width, height) / diagonal / 25.4
            for sockets in range(1, 9):
                bench = self.show(sockets, Display(inches=inches))
                for what, change in (
                    ("results", lambda: None),
                    ("away", lambda: bench.board.away("no reply comes")),
                    ("stopped", lambda: bench.board.stop(STOPPED)),
                    ("asked", lambda: bench.board.ask(ASKED, ["yes", "no"])),
                ):
                    change()
                    with self.subTest(what, screen=(width, height, inches), sockets=sockets):
                        self.assert_fits(self.drawn(bench), mm, sockets, what)
                if (width, sockets) == (1280, 8) and inches and os.environ.get("PICTURES"):
                    self.browser.until("!document.getElementById('line').classList.contains('held')")
                    self.browser.picture(ROOT / "docs" / "pictures" / "bench-panel.png")

    def test_banners_without_their_words(self):
        """Each has a shape and a ground of its own, and another brightness."""
        self.browser.size(1280, 800)
        bench = self.show(2)
        looks = """(() => {
            const [shape, ground] = ['#banner i', '#banner'].map((it) => getComputedStyle(document.querySelector(it)));
            return [shape.clipPath, ground.backgroundImage, ground.backgroundColor + ground.color];
        })()"""
        found, speed = [], {"latency": 0, "downloadThroughput": -1, "uploadThroughput": -1}
        for kind, change in (
            ("AWAY", lambda: bench.board.away("no reply comes")),
            ("STOPPED", lambda: bench.board.stop(STOPPED)),
            ("GONE", lambda: self.browser.call("Network.emulateNetworkConditions", offline=True, **speed)),
        ):
            change()
            self.browser.until(f"document.body.classList.contains('{kind}')")
            found.append(self.browser.value(looks))
            if kind == "STOPPED":
                self.assertEqual(self.text("#notice"), "The line stands: type go, or press Go on.")
        self.browser.call("Network.emulateNetworkConditions", offline=False, **speed)
        for place in zip(*found):
            self.assertEqual(len(set(place)), 3, place)

    def test_enter_is_the_fields(self):
        """Whatever was touched before: a button, a panel's button, the ground."""
        self.browser.size(1280, 720)
        bench = self.show(2)
        done = 0
        for name, told in (
            ("#stop", ["stop"]),
            ("#shift", ["shift"]),
            ("#scrap", ["scrap"]),
            ("#sound", []),
            ("[data-place='0'] .keys button", ["socket1"]),
            ("[data-place='1'] .keys button + button", ["scrap 240ac4000002"]),
            ("h1", []),
        ):
            self.browser.value(f"document.querySelector({json.dumps(name)}).focus()")
            self.click(name)
            self.assertEqual(self.browser.value("document.activeElement.id"), "text", name)
            self.browser.press("Enter")
            done += len(told) + 1
            self.assertEqual(self.done(bench, done)[done - len(told) - 1 :], [*told, ""], name)
        self.browser.value("document.activeElement.blur()")
        self.browser.type("")
        self.assertEqual(self.done(bench, done + 1)[done:], [""])

    def test_a_double_press(self):
        """Two presses of a glove, 250 ms apart, are one; an answer is taken a second behind its question, and its
        button stands where none was."""
        asked = {"shift": ("Begin a new shift?", ["yes", "no"]), "scrap": ("Scan the chip's name.", ["no"])}
        boxes = """[...document.querySelectorAll('button')].filter((it) => it.getClientRects().length).map((it) =>
            [it.id, ...['left', 'top', 'right', 'bottom'].map((side) => it.getBoundingClientRect()[side])])"""
        pale = "parseFloat(getComputedStyle(document.getElementById('no')).opacity)"
        wait = "new Promise((done) => setTimeout(done, {}))"
        for width, height, inches, _ in SCREENS:
            self.browser.size(width, height)
            for word, question in asked.items():
                bench = self.show(2, Display(inches=inches))
                self.drawn(bench)
                bench.said = lambda text: (bench.done.append(text), bench.board.ask(*asked.get(text, ("", []))))
                before, place = self.browser.value(boxes), self.browser.place(f"#{word}")
                self.browser.touch(*place)
                self.browser.until("!document.getElementById('question').hidden")
                self.browser.value(wait.format(250))
                self.browser.touch(*place)
                answer = question[1][0]
                self.browser.touch(*self.browser.place(f"#{answer}"))
                self.assertLess(self.browser.value(pale), 0.5)
                self.assertEqual(self.done(bench, 1), [word])
                yes = [it[1:] for it in self.browser.value(boxes) if it[0] == "yes"]
                self.assertTrue(all(apart(one, it[1:]) > 0 for one in yes for it in before), (yes, before))
                self.browser.until("!document.getElementById('line').classList.contains('held')")
                self.browser.touch(*self.browser.place(f"#{answer}"))
                self.assertEqual(self.done(bench, 2), [word, answer])

    def test_the_panels_that_have_scrap(self):
        """Of STAYS the stray and the lost one, and the one whose command failed."""
        self.browser.size(1920, 1080)
        self.drawn(self.show(8))
        seen = "[...document.querySelectorAll('.socket')].filter((it) => it.querySelector('button + button')" \
               ".getClientRects().length).map((it) => it.dataset.place)"
        self.assertEqual(self.browser.value(seen), ["1", "2", "7"])

    def test_a_small_panel(self):
        """A touch shows its sentence and its buttons in the bar."""
        self.browser.size(1024, 600)
        bench = self.show(8, Display(inches=10))
        self.click("[data-place='1'] .word")
        told = "2 socket2: A bit reads 1 that nobody planned, and the chip is lost (ABS_DONE_1): take it out, red box."
        self.assertTrue(self.text("#question").startswith(told), self.text("#question"))
        shown = "[...document.querySelectorAll('#line button')].filter((it) => !it.hidden).map((it) => it.textContent)"
        self.assertEqual(self.browser.value(shown), ["Begin socket2", "Scrap", "Back"])
        self.assert_fits(self.drawn(bench), math.hypot(1024, 600) / 254, 8, "panel")
        self.click("#scrap")
        self.assertEqual(self.done(bench, 1), ["scrap 240ac4000002"])
        own = ["Begin all", "New shift", "Scrap a chip", "Sound: on", "Stop the line"]
        self.assertEqual(self.browser.value(shown), own)
        self.click("[data-place='0'] .word")
        self.click("#begin")
        self.assertEqual(self.done(bench, 2)[1:], ["socket1"])

    def test_what_is_counted(self):
        """The time of a chip stands, the last ten are listed, and the counts have the first pass and the reasons."""
        self.browser.size(1920, 1080)
        bench = self.show(1, ended=False)
        for place in range(11):
            bench.end(1, "passed", {"serial": f"T{place:04}"}, 13.4)
        self.drawn(bench)
        more = self.text(".more")
        self.assertEqual(more, "chip 240ac4000001, serial number T0010, 13 s")
        last = self.browser.value("[...document.querySelectorAll('#last tr')].map((it) => it.children[1].textContent)")
        self.assertEqual(last, [f"T{place:04}" for place in range(10, 0, -1)])
        rows = self.browser.value("[...document.querySelectorAll('#counts tr')].map((it) => it.innerText.split('\\t'))")
        told = [("passed", "41"), ("first pass", "39"), ("failed", "3"), ("command failed", "2"), ("stray bit", "1")]
        self.assertEqual([tuple(it.strip() for it in row) for row in rows], told)
        self.assertEqual(self.text("#tally"), "This shift: passed 41, first pass 39, failed 3")
        bench.board.working("socket1", "register", "240ac4000002", "")
        self.drawn(bench)
        self.assertEqual((self.text(".word bdi:last-child"), self.text(".told")), ("3/5", "register"))
        self.browser.until("document.querySelector('.more').textContent === 'chip 240ac4000002, 1 s'")
        bench.end(1, *FAILED)
        bench.board.waiting("socket1")
        self.drawn(bench)
        self.assertEqual((self.text(".word bdi:last-child"), self.text(".box bdi:last-child")), ("FAIL", "AGAIN"))
        style = self.browser.value("[getComputedStyle(document.querySelector('.word')).color, "
                                   "getComputedStyle(document.querySelector('.socket')).backgroundImage]")  # fmt: skip
        self.assertEqual((style, self.text(".told")), (["rgb(107, 107, 107)", "none"], "waiting"))

    def test_the_last_chips_are_whole(self):
        """Also those without a serial number, of a socket with a long name: no scroll bar, and no time is cut."""
        cut = """[...document.querySelectorAll('aside, #last td, #last th')].filter((it) => it.scrollWidth >
            it.clientWidth || it.getBoundingClientRect().right > innerWidth).map((it) => it.textContent)"""
        for width, height, inches, _ in SCREENS:
            self.browser.size(width, height)
            bench = self.show(1, Display(inches=inches), ended=False)
            for name in ("socket1", "the upper left one", "another"):
                last = ended_socket(name, Ended("no_label"), "label", "7cdfa1000014", "", "o17", 113.4)
                bench.board.ended(last)
            self.drawn(bench)
            self.assertEqual(self.browser.value("document.querySelectorAll('#last tr').length"), 3)
            self.assertEqual(self.browser.value(cut), [], (width, inches))

    def test_sounds(self):
        """PASS and FAIL sound once each, and not alike; what ended before the page was opened, or is off, doesn't."""
        self.browser.size(1280, 720)
        bench = self.show(2)
        self.drawn(bench)
        self.assertEqual(self.browser.value("window.tones"), [])
        for name, tones in (("passed", ["sine", "sine"]), ("stray", ["square", "square"]), ("passed_before", [])):
            self.browser.value("window.tones = []")
            if not tones:
                self.click("#sound")
                self.assertEqual(self.text("#sound"), "Sound: off")
            bench.end(1, name)
            self.drawn(bench)
            bench.board.notice("drawn once more")
            self.drawn(bench)
            self.assertEqual(self.browser.value("window.tones"), tones, name)
        self.browser.value("localStorage.clear()")
        self.show(1, Display(sound=False))
        self.assertEqual(self.text("#sound"), "Sound: off")

    def test_another_language(self):
        """Its words are as large, in the smallest panels too."""
        self.browser.size(1024, 600)
        with mock.patch.dict(ENDINGS), mock.patch.dict(words.SAID, copy.deepcopy(words.SAID)):
            words.take(words.FOLDER / "de.toml")
            bench = self.show(8, Display(inches=10))
            told = "3 Chips schlecht hintereinander, alle beim Schritt 'ausliefern': erst nachsehen, dann weiter."
            bench.board.stop(told)
            bench.board.ask(words.said("shift_asked", passed=41), ["yes", "no"])
            seen = self.drawn(bench)
        self.assertEqual((self.text("#banner-word"), self.text("#go")), ("HALT", "Weiter"))
        self.assert_words(seen, math.hypot(1024, 600) / 254)
        told = ["PASS", "FAIL", "FAIL", "FAIL", "LABEL", "FAIL", "PASS", "FAIL"]
        self.assertEqual([it["text"] for it in seen["words"]][1::2], told)
        told = ["GRÜNE", "ROTE", "ERNEUT", "RUFEN", "ERNEUT", "FRAGEN", "GRÜNE", "ROTE"]
        self.assertEqual([it["text"] for it in seen["words"]][2::2], told)

    def assert_fits(self, seen, mm, sockets, what):
        self.assertEqual(len(seen["panels"]), sockets)
        self.assertEqual(len(seen["words"]), 2 * sockets + (what in ("away", "stopped", "asked")))
        self.assert_words(seen, mm)
        whole = [0, 0, seen["width"], seen["height"]]
        for it in seen["texts"]:
            self.assert_within(it["box"], whole, it)
            self.assertLessEqual(it["cut"], 1, it)
            least = 5 if it["text"] == ASKED and seen["width"] == 1920 else 2.5
            self.assertGreaterEqual(it["size"] / mm, least, it)
        told = [it["text"] for it in seen["texts"]]
        self.assertFalse(seen["isTight"] and (seen["width"] == 1920 or sockets < 4 and what == "results"))
        self.assertTrue(seen["isTight"] or sum(": " in it for it in told) >= sockets, told)
        is_stopped, is_asked = what in ("stopped", "asked"), what == "asked"
        self.assertEqual([STOPPED in told, ASKED in told], [is_stopped, is_asked])
        for place, it in enumerate(seen["controls"]):
            self.assert_within(it["box"], whole, it)
            self.assertLessEqual(it["cut"], 0, it)
            left, top, right, bottom = it["box"]
            self.assertGreaterEqual(min(right - left, bottom - top) / mm, 19.9, it)
            for other in seen["controls"][:place]:
                least = 1.9 if it["isPanel"] or other["isPanel"] else 3.9
                self.assertGreaterEqual(apart(it["box"], other["box"]) / mm, least, (it, other))
        names = [it["text"] for it in seen["controls"]]
        self.assertEqual(["Go on" in names, "Yes" in names], [is_stopped, is_asked])

    def assert_words(self, seen, mm):
        """Each word from afar is in one line, large and wide enough, and in its panel, which is in the window."""
        for it in seen["words"]:
            self.assertEqual(it["lines"], 1, it)
            self.assertGreaterEqual(it["capital"] / mm, CAPITALS, it)
            self.assertGreaterEqual(it["wide"], 0.5 * it["capital"], it)
            self.assert_within(it["box"], it["within"], it)
            self.assert_within(it["within"], [0, 0, seen["width"], seen["height"]], it)

    def assert_within(self, inner, outer, told):
        for place, sign in enumerate((1, 1, -1, -1)):
            self.assertGreaterEqual(sign * (inner[place] - outer[place]), -1.5, told)
