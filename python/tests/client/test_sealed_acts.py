"""What root had done is sealed with a plant's books: `wanekupo seal --store COPY --acts FILE`."""


from commanding import ran
from support import StationCase

LINE = '{"at":"2026-11-30T23:00:00Z","login":"anna","what":"station-token revoke a1"}'


class SealedActs(StationCase):
    def test_lines_that_go(self):
        """A later seal finds a line that is gone or another one, and that the file was left out."""
        self.program.copied(self.folder / "copy")
        copy, file, one = self.folder / "copy" / "books.db", self.folder / "acts", "The line 1 of what root had done"
        for later, told in (
            ([LINE, "\u00b5", "third"], "Nothing found."),
            ([LINE], "The line 2 of what root had done: is gone."),
            (["first", "\u00b5"], f"{one}: text was {LINE}, and is first."),
            ([], f"{one}: is gone."),
        ):
            (seals := self.folder / str(len(list(self.folder.iterdir())))).mkdir()
            for lines in ([LINE, "\u00b5"], later):
                file.write_text("".join(f"{it}\n" for it in lines) + "cut", encoding="utf-8")
                words = ["--acts", file] if lines else []
                self.assertEqual(ran("seal", seals, "--store", copy, *words)[::2], (0, ""))
            status, out, _ = ran("seal", "--verify", seals)
            self.assertEqual((status, told in out), (int(told != "Nothing found."), True), out)
            rows = (seals / "000001.rows").read_bytes().splitlines()
            self.assertTrue(rows == sorted(rows) and rows[1].startswith(b"act 0000000002 {"), rows)
        for words in (["--customer", "acme"], ["--verify"]):
            self.assertEqual(ran("seal", seals, *words, "--acts", file)[0], 2)
