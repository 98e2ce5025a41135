"""The operator's words: each language has each word and each ending, with the same names to fill in; a plant's file.

The endings are those of the table in docs/line/bench.md.
"""

import copy
import re
import string
import subprocess
import unittest
from unittest import mock

from support import ROOT, FolderCase

from wanekupo.bench import endings, life, words
from wanekupo.bench.board import Board, ShiftCounts, Socket, box_of, ended_socket, in_common, state_of
from wanekupo.bench.endings import ENDINGS, Ended
from wanekupo.bench.recipe import BadRecipe, recipe_of
from wanekupo.chips.families import BadDump

PAGE = ROOT / "docs" / "line" / "bench.md"
LANGUAGES = [it.stem for it in words.FOLDER.glob("*.toml") if it.stem != "en"]
ROW = re.compile(r"^\| `(\w+)` \| .* \| .* \| (.*) \|$", re.MULTILINE)
# Where the page's last column sends a chip, by its first words.
AGAIN = ("put it in once more", "put the first one back", "press it in", "look at the printer", "keep it apart")
AGAIN += ("take the",)
SENT = [("take it out, green box", "green"), ("take it out, red box", "red"), *((it, "again") for it in AGAIN),
        ("take it out, and", "ask"), ("", "call")]  # fmt: skip
RECIPE = """name = "thermostat"
order = "o1"
map = "esp32.toml"
family = "esp32"
[sockets]
left = ["espefuse"]
[hooks]
before_identity = { command = ["true"] }
[screen]
"""


def blanks(*texts):
    """The names that texts have in braces, with what is said of how they are written."""
    return sorted(it[1:3] for text in texts for it in string.Formatter().parse(text) if it[1] is not None)


class Words(FolderCase):
    def setUp(self):
        """What a file changes is taken back."""
        for place, values in ((ENDINGS, {}), (words.SAID, copy.deepcopy(words.SAID))):
            self.enterContext(mock.patch.dict(place, values))
        super().setUp()

    def file(self, text):
        file = self.folder / "our.toml"
        file.write_text(text, encoding="utf-8")
        return file

    def test_which_ending_each_error_has(self):
        rows = re.findall(r"^\| `(\w+)` \| refusals? ([\d, ]+)", PAGE.read_text("utf-8"), re.MULTILINE)
        page = {int(it): name for name, numbers in rows for it in numbers.replace(",", " ").split()}
        self.assertEqual(page, {**endings.REFUSALS, **dict.fromkeys((11, 12), "older_store")})
        for error, step, name in (
            (OSError(28, "full"), "look", "disk_full"), (OSError(122, "full"), "look", "disk_full"),
            (OSError(5, "fault"), "look", "disk"), (BadDump("x"), "read", "no_dump"), (BadDump("x"), "look", "no_read"),
        ):  # fmt: skip
            self.assertEqual(endings.ended_by(error, step).ending.name, name)
        told = subprocess.CalledProcessError(1, "espefuse", f"{200 * 'x'}\n", "")
        self.assertEqual(endings.ended_by(told, "look").facts["detail"], 120 * "x")

    def test_each_language(self):
        english = {table: words.ENGLISH[table] for table in words.TABLES if table != "reasons"}
        self.assertIn("de", LANGUAGES)
        for language in LANGUAGES:
            found = words.read_words(words.FOLDER / f"{language}.toml")
            for table, texts in english.items():
                self.assertEqual(set(found[table]), set(texts), (language, table))
                for name, text in texts.items():
                    self.assertEqual(blanks(found[table][name]), blanks(text), (language, table, name))
            for name, ending in ENDINGS.items():
                self.assertIn(name, found["endings"], language)
                self.assertEqual(blanks(*found["endings"][name]), blanks(ending.told, ending.todo), (language, name))
            counted = {it.name for it in ENDINGS.values() if it.is_failure()}
            for reasons in (found["reasons"], words.ENGLISH["reasons"]):
                self.assertLessEqual(counted, set(reasons), language)
                self.assertFalse([it for it in reasons.values() if "_" in it], language)

    def test_what_is_said(self):
        """A file's words, and English where it has none; an ending's sentence too."""
        words.take(words.FOLDER / "de.toml")
        own = '[words]\nyes = "Jawohl"\n[endings]\ncoding = ["Pech", "weg damit"]\nno_such = ["", ""]\n'
        words.take(self.file(own))
        self.assertEqual([words.said(it) for it in ("yes", "no", "STOPPED")], ["Jawohl", "Nein", "HALT"])
        self.assertEqual(Ended("passed").ending.sentence(serial="A1"),
                         "Der Chip ist ausgeliefert als A1: herausnehmen, grüne Kiste.")  # fmt: skip
        self.assertEqual(Ended("coding").ending.sentence(), "Pech: weg damit.")
        self.assertEqual([words.step_said(it) for it in ("read back 2", "burn 1", "key of BLOCK1", "read", "reading")],
                         ["zurücklesen 2", "brennen 1", "Schlüssel von BLOCK1", "lesen", "reading"])  # fmt: skip
        row = [type("Failure", (), {"step": "ship", "reason": "no_burn", "socket": "left"})] * 2
        told = "alle beim Schritt 'ausliefern', jeder als 'brennt nicht', jeder im Sockel 'left'"
        self.assertEqual(in_common(row), told)

    def test_what_is_refused(self):
        """Before the first chip: what can't be filled in, and what would be more than a name."""
        for text, told in (
            ("[words", "is no TOML"),
            ("words = 1", "has words, which is no table"),
            ("[words]\nyes = 1", "no text in one line"),
            ('[words]\nyes = "a\\nb"', "no text in one line"),
            ('[words]\nleft = "{coun}"', "has coun in braces"),
            ('[words]\nleft = "{count"', "can't be filled in"),
            ('[words]\nleft = "{count.__class__}"', "can't be filled in"),
            ('[words]\nleft = "{count[0]}"', "can't be filled in"),
            ('[words]\nleft = "{count:>99}"', "can't be filled in"),
            ('[words]\nleft = "{}"', "in braces"),
            ('[endings]\npassed = "one"', "or not two of them"),
            ('[endings]\npassed = ["{serial}", "{secret}"]', "has secret in braces"),
            ("[endings]\npassed = [1, 2]", "no text in one line"),
        ):
            with self.assertRaises(words.BadWords, msg=text) as caught:
                words.take(self.file(text))
            self.assertIn(told, str(caught.exception), text)
        self.assertEqual(words.said("left", count=3), "Serial numbers left: 3")

    def test_boxes(self):
        """Each ending's box is where the page sends the chip."""
        rows = dict(ROW.findall(PAGE.read_text(encoding="utf-8")))
        self.assertEqual(set(rows) - set(ENDINGS), set())
        for name, todo in rows.items():
            box = next(box for begin, box in SENT if todo.startswith(begin))
            self.assertEqual(box_of(ENDINGS[name]), box, name)
        self.assertEqual([state_of(ENDINGS[it]) for it in ("passed", "lost", "no_label")], ["PASS", "FAIL", "LABEL"])

    def test_which_panels_have_scrap(self):
        """Those of chips that are begun here, are the ones in their sockets, and failed by themselves."""
        scraps = {"lost", "stray", "key", "short", "lost_before", "other_map", "other_wishes", "not_blank", "changed",
                  "lost_key", "gave_way", "no_serial", "no_burn", "no_read", "hook_failed", "hook_late"}  # fmt: skip
        self.assertLessEqual(scraps, set(ENDINGS))
        for name in ENDINGS:
            for chip in ("240ac4000001", ""):
                board = Board("thermostat", "o1", [Socket("left")], "key", ShiftCounts("2026-11-29T06:00:00Z"))
                board.ended(ended_socket("left", Ended(name), "look", chip, "", "o1"))
                found = board.shown()["sockets"][0]["scraps"]
                self.assertEqual(found, name in scraps and bool(chip), (name, chip))
                board.scrapped(chip)
                self.assertFalse(chip and board.shown()["sockets"][0]["scraps"], name)

    def test_the_recipes_table(self):
        """[screen], and what of it is refused."""
        (self.folder / "our.toml").write_text("", encoding="ascii")
        file = self.folder / "thermostat.toml"

        def read(more):
            file.write_text(RECIPE + more, encoding="utf-8")
            return recipe_of(file).display

        found = read('words = "our.toml"\ninches = 10.1\nsound = false\nbadge = "EMP-"\noperators = ["Anna"]\n')
        told = {"words": file.with_name("our.toml"), "inches": 10.1, "sound": False, "badge": "EMP-"}
        told["operators"] = ("Anna",)
        self.assertEqual(vars(found), told)
        found = read('words = "de.toml"')
        usual = {"words": words.FOLDER / "de.toml", "inches": 0, "sound": True, "badge": "operator:", "operators": ()}
        self.assertEqual(vars(found), usual)
        for more, told in (
            ("colour = 1", "[screen] has 'colour'"),
            ('words = "no.toml"', "there is no file of words no.toml"),
            ("inches = 1", "inches of [screen]"),
            ("inches = true", "inches of [screen]"),
            ("operators = 1", "operators of [screen]"),
            ('operators = ["a", 1]', "operators of [screen]"),
            ('operators = "E["', "operators of [screen]"),
            ("sound = 1", "sound of [screen]"),
            ('badge = "o"', "begins as 'o1' does"),
            ('badge = "st"', "begins as 'stop' does"),
            ('badge = "left"', "begins as 'left' does"),
            ('badge = " "', "begins as"),
        ):
            with self.assertRaises(BadRecipe, msg=more) as caught:
                read(more)
            self.assertIn(told, str(caught.exception), more)


class Sentences(unittest.TestCase):
    def test_a_screen_has_room_for_so_much(self):
        """Of names the first four, and of what a command said its last line, 120 letters of it."""
        self.assertEqual([life._shown(list(it)) for it in ("abcd", "abcde")], ["a, b, c, d", "a, b, c, d .."])
        error = subprocess.CalledProcessError(1, "espefuse", f"first\n{150 * 'y'}\n \n")
        self.assertEqual(endings._said(error), 120 * "y")
