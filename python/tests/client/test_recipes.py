"""What is said of a recipe that isn't one, before the first chip.

Expected are the sentences of docs/line/bench.md's rules, and that nothing is sent.
"""

import json

from running import MAP_FILE, SECONDS, BenchCase, Running, script, tool

BIT, KEY = "JTAG_DISABLE", 'field = "BLOCK1"\nfile = "flash.key"'
JTAG = f'kind = "bit"\nfield = "{BIT}"\nindex = 0'
NO_TOOL = "the command of the socket left is no espefuse that is known: "


class Recipes(BenchCase):
    """A recipe in which one thing is changed, or several."""

    LOOKED = "Looking at the recipe and at each socket's command: this takes some seconds."
    NONE_BEGUN = "No chip was begun: mend this, and start again."

    def said_of(self, *changes):
        """What the bench says of the recipe with these changes; it doesn't start, and sends nothing."""
        text = self.recipe().read_text(encoding="utf-8")
        for old, new in changes:
            self.assertIn(old, text)
            text = text.replace(old, new, 1)
        (self.folder / "bad.toml").write_text(text, encoding="utf-8")
        return self.said_by("bad.toml")

    def said_by(self, name):
        """What the bench says of a recipe with which it doesn't start, behind the line that it looks at it."""
        bench = Running(self.folder / name)
        self.assertEqual((bench.process.wait(SECONDS), bench.port), (2, 0), name)
        bench.gone()
        self.assertNotIn("Traceback", "".join(bench.lines))
        lines = "".join(bench.lines).splitlines()
        return lines[1:] if lines[0] == self.LOOKED else ["", *lines]

    def test_faults(self):
        """A name that isn't known, a value that can't be, and what is no TOML."""
        cases = [
            ('kind = "bit"', 'kind = "bits"', "the kind of wish 1 is 'bits', and may be bit, value, key, wlock, rlock"),
            ("index = 0", "index = -1", "index is no whole number from 0 on"),
            ('burnt_as = "flash', 'burned_as = "flash', "wish 2 has 'burned_as', and knows kind, field, file"),
            ('order = "o1"', 'order = "o 1"', "the recipe has the order 'o 1', which is no name"),
            ('order = "o1"', 'orders = "o1"', "the recipe has 'orders', and knows name, order"),
            ('esp32/map.toml"', 'esp32/none.toml"', f"esp32/none.toml in {self.folder}, and no family has one"),
            ('"before_identity"', '"before_ship"', "[hooks] has no before_identity"),
            ('"url"', '"urls"', "has 'urls', which is no setting"),
            ("[stop]", "[stop", "is no TOML"),
            ('order = "o1"', 'order = "o1"\nkeep_folder = 1', "keep_folder is 1, and may be true or false"),
            ('"timeout" = 20', '"timeout" = 0', "the timeout of before_identity is no number of seconds"),
        ]
        for old, new, told in cases:
            self.assertIn(told, "\n".join(self.said_of((old, new))))

    def of_wishes(self):
        """Changes of wishes, each with its sentence."""
        yield BIT, "JTAG_DISABEL", "wish 1 has the field JTAG_DISABEL, which the map hasn't; it has JTAG_DISABLE."
        yield "index = 0", "index = 1", "wish 1 has the index 1, and JTAG_DISABLE goes from 0 to 0."
        yield f'field = "{BIT}"', 'field = "BLOCK1"', "wish 1 is a bit of BLOCK1, which takes a key."
        too_wide = f'kind = "value"\nfield = "{BIT}"\nvalue = "2"'
        yield JTAG, too_wide, "wish 1 has the value 2, and JTAG_DISABLE has room for 1 bits."
        locks = 'kind = "wlock"\nfield = "CODING_SCHEME"\n[[wish]]\nkind = "rlock"\nfield = "JTAG_DISABLE"'
        yield JTAG, locks, "wish 2 is a read lock of JTAG_DISABLE, which has none."
        both = f'{JTAG}\n[[wish]]\nkind = "value"\nfield = "{BIT}"\nvalue = "0"'
        yield JTAG, both, "its wishes want JTAG_DISABLE both as 0 and as 1."
        yield KEY, KEY.replace("BLOCK1", BIT), "wish 2 is a key of JTAG_DISABLE, which is no key block."
        told = "wish 2 is burnt_as flash_encription, and a key of BLOCK1 may be BLOCK1, flash_encryption."
        yield '"flash_encryption"', '"flash_encription"', told
        yield 'esp32/map.toml"', 'esp32s3/map.toml"', "its map is that of an esp32s3, and its family is esp32."

    def of_files(self):
        """Changes of files and commands, each with its sentence."""
        script(self.folder / "silent", "exit 2\n")
        script(self.folder / "older", "echo 'espefuse.py v3.3'\n")
        for name, size, mode in (("short.key", 31, 0o600), ("open.key", 32, 0o640)):
            (self.folder / name).write_bytes(bytes(size))
            (self.folder / name).chmod(mode)
        here, left = self.folder, f'"left" = {json.dumps(self.socket_of("left"))}'
        yield '"flash.key"', '"none.key"', f"the key {here}/none.key can't be read (No such file or directory)."
        yield '"flash.key"', '"short.key"', f"the key {here}/short.key is no file of 32 bytes."
        yield '"flash.key"', '"open.key"', f"others may read the key {here}/open.key: chmod 600 {here}/open.key."
        yield "/make-csr", "/none", f"the command before_identity can't be run: {here}/none isn't there, or"
        yield '"spool" = "spool"', '"spool" = "none"', f"the folder spool, {here}/none, isn't there, or can't"
        told = "the command of the socket left can't be run: none-such isn't there, or lacks chmod +x."
        yield left, '"left" = ["none-such"]', told
        tool(self.folder / "there", "exit 2\n")
        gone = "the socket left: there is no port /dev/ttyUSB77: plug it in, or mend its name."
        yield left, '"left" = ["./there", "--port", "/dev/ttyUSB77"]', gone
        yield left, '"left" = ["./silent"]', f"{NO_TOOL}espefuse ended with status 2, and didn't"
        yield left, '"left" = ["./older"]', f"{NO_TOOL}its version is 3.3, and 4 and 5 are."

    def test_what_is_looked_at_before_the_first_chip(self):
        """What would be found behind a step that nobody can undo: a sentence for each fault, and nothing is sent."""
        self.assertIn(f'map = "{MAP_FILE}"', self.recipe().read_text(encoding="utf-8"))
        together = [(BIT, "JTAG_DISABEL"), ('"flash.key"', '"none.key"'), ("/make-csr", "/none")]
        together += [('"spool" = "spool"', '"spool" = "none"')]
        alone = [([(old, new)], [said]) for old, new, said in [*self.of_wishes(), *self.of_files()]]
        for changes, told in [*alone, (together, ["wish", "key", "command", "spool"])]:
            lines = self.said_of(*changes)
            self.assertEqual(lines[len(told) :], [self.NONE_BEGUN])
            for line, said in zip(lines, told):
                self.assertIn(said, line)

    def test_a_map_of_the_recipes_name(self):
        """A recipe isn't its own map, and one that is no map is named."""
        text = self.recipe().read_text(encoding="utf-8").replace(str(MAP_FILE), "esp32.toml")
        (self.folder / "esp32.toml").write_text(text.replace('"flash.key"', '"none.key"'), encoding="utf-8")
        told = [f"{self.folder}/esp32.toml: the key {self.folder}/none.key can't be read (No such file or directory)."]
        self.assertEqual(self.said_by("esp32.toml"), [*told, self.NONE_BEGUN])
        (self.folder / "bad.toml").write_text(text, encoding="utf-8")
        told = f"its map, {self.folder}/esp32.toml, is no fuse map: station-site check says why."
        self.assertEqual(self.said_by("bad.toml"), [f"{self.folder}/bad.toml: {told}", self.NONE_BEGUN])
