"""The settings of the command `wanekupo`, and the examples that its package has.

Expected values are those of docs/reference/files.md and docs/line/bench.md.
"""

import contextlib
import os
import re
import tempfile
import unittest
from itertools import chain
from pathlib import Path

from support import MAC, ROOT

from wanekupo.bench import recipe
from wanekupo.seat.profiles import profile_of
from wanekupo.seat.settings import Settings, settings_of, token_of
from wanekupo.common.errors import BadSettings


class Config(unittest.TestCase):
    def test_what_wins(self):
        """The command line over the environment, that over the user's file, that over the machine's."""
        for given, expected in (
            ("line environment user machine", "line"),
            ("environment user machine", "environment"),
            ("user machine", "user"),
            ("machine", "machine"),
            ("", Settings().seat),
        ):
            with self.subTest(given), self.folder() as folder:
                files = [folder / "user", folder / "machine"]
                for file in files:
                    if file.name in given:
                        file.write_text(f'seat = "{file.name}"\n', encoding="utf-8")
                line = {"seat": "line" if "line" in given else None, "chip": MAC}
                environment = {"WANEKUPO_SEAT": "environment"} if "environment" in given else {}
                self.assertEqual(settings_of(line, environment, files).seat, expected)

    @staticmethod
    @contextlib.contextmanager
    def folder():
        with tempfile.TemporaryDirectory() as folder:
            yield Path(folder)

    def test_each_setting(self):
        """As the three say it; a path counts from the folder of the file that has it."""
        with self.folder() as folder:
            file = folder / "wanekupo.toml"
            file.write_text(
                'url = "https://station.example"\ntoken = "a1.token"\nstate = "/var/a1.json"\njournal = "journals"\n'
                'ca = "~/ca.pem"\ninsecure = true\npatience = 7\nseat = "a1"\noperator = "Zoë"\nspool = "spool"\n'
                'profile = "matter-dac:FFF1:8000"\n',
                encoding="utf-8",
            )
            home = Path(os.path.expanduser("~"))
            expected = Settings(
                "https://station.example",
                folder / "a1.token",
                Path("/var/a1.json"),
                folder / "journals",
                home / "ca.pem",
                True,
                7.0,
                "a1",
                "Zoë",
                folder / "spool",
                profile_of("matter-dac:FFF1:8000"),
            )
            self.assertEqual(settings_of({}, {}, [file]), expected)
            named = {f"WANEKUPO_{name.upper()}": str(value) for name, value in vars(expected).items()}
            self.assertEqual(settings_of({}, named, []), expected)
            # --config stands in the place of both files
            other = folder / "other"
            other.write_text('seat = "other"\n', encoding="utf-8")
            self.assertEqual(settings_of({"config": str(other)}, {}, [file]), Settings(seat="other"))

    def test_what_is_refused(self):
        """With the name of the file, and what is wrong with it."""
        for text, told in (
            ('tokn = "a1"\n', "'tokn'"),
            ("url = 7\n", "url"),
            ('patience = "soon"\n', "patience"),
            ("patience = true\n", "patience"),
            ("insecure = 2\n", "insecure"),
            ('seat = "../a1"\n', "seat"),
            ("token =\n", "line 1"),
            ('journal = "journals/"\n', "journal"),
        ):
            with self.subTest(text), self.folder() as folder:
                file = folder / "wanekupo.toml"
                file.write_text(text, encoding="utf-8")
                with self.assertRaises(BadSettings) as found:
                    settings_of({}, {}, [file])
                self.assertIn(str(file), str(found.exception))
                self.assertIn(told, str(found.exception))
        with self.folder() as folder:
            file = folder / "wanekupo.toml"
            file.write_text('url = "http://127.0.0.1:1"\n', encoding="utf-8")
            file.chmod(0o666)
            with self.assertRaises(BadSettings):
                settings_of({}, {}, [file])
            with self.assertRaises(BadSettings):
                settings_of({"config": str(folder / "none")}, {}, [])

    def test_a_token_that_strangers_may_read(self):
        """It is refused with what to type; the group of a service may read it."""
        with self.folder() as folder:
            file = folder / "a1.token"
            file.write_text("abc\n", encoding="ascii")
            for mode in (0o600, 0o400, 0o640):
                file.chmod(mode)
                self.assertEqual(token_of(Settings(token=file)), "abc")
            for mode in (0o644, 0o604, 0o660, 0o602):
                file.chmod(mode)
                with self.assertRaises(BadSettings) as found:
                    token_of(Settings(token=file))
                self.assertIn(f"chmod 600 {file}", found.exception.advice, oct(mode))


class Example(unittest.TestCase):
    """What the package has in its examples, beside the page on benches, and its man page of a recipe."""

    def setUp(self):
        self.page = (ROOT / "docs" / "line" / "bench.md").read_text(encoding="utf-8")

    def test_its_files(self):
        """The page, which shows none of them, has a link to each, by which a reader finds it."""
        names = {it.name for it in (ROOT / "deploy" / "thermostat").iterdir()}
        self.assertEqual(names, {"thermostat.toml", "make-csr", "flash", "label", "read-csr", "dac", "unwrap-key"})
        self.assertEqual(set(re.findall(r"\]\(\.\./\.\./deploy/thermostat/([\w.-]+)\)", self.page)), names)

    def test_the_man_page(self):
        """It has each name that a recipe may have, and each variable that a hook gets, by the program's own code."""
        code = (ROOT / "python/wanekupo/bench/recipe.py").read_text(encoding="utf-8")
        named = re.findall(r"_known\(\w+, \(([^)]*)\)", code)
        names = {*recipe.TOP, *recipe.TABLES, *recipe.HOOKS, *recipe.STARTS, *chain(*recipe.WISHES.values())}
        names |= {*recipe.WISHES, *re.findall(r'"(\w+)"', "".join(named))}
        life = (ROOT / "python/wanekupo/bench/life.py").read_text(encoding="utf-8")
        names |= set(re.findall(r'"([A-Z][A-Z_0-9]+)":', life))
        self.assertLessEqual({"order", "burnt_as", "lost_in_a_row", "inches", "before_ship", "KEY_SHA256"}, names)
        man = (ROOT / "deploy" / "wanekupo-recipe.5").read_text(encoding="utf-8")
        self.assertEqual([name for name in sorted(names) if not re.search(rf"\b{name}\b", man)], [])
