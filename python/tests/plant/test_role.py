"""What the role for a station does in the folder of the bench's user, who may put a link there at any moment."""

import re
import subprocess

import pytest
from conftest import DEPLOY

ROLE = DEPLOY / "ansible/roles/wanekupo_station"


def test_root_names_nothing_in_the_benchs_folder():
    text = "".join(it.read_text() for it in sorted((ROLE / "tasks").glob("*.yml")))
    named = re.findall(r"^ *(path|dest|src|chdir|creates): .*wanekupo_bench_folder.*$", text, re.MULTILINE)
    assert named == ["path"], "the folder itself, which is in one of root's"
    assert text.count("wanekupo_bench_runs") == 3


# What root starts in another user's name, on pages, by hand, in the manual and in the roles.
STARTS = "env -i -C / PATH=/usr/local/bin:/usr/bin:/usr/sbin setsid -w runuser -l -s /bin/sh -c exec $@ --"


def test_root_hands_no_words_over():
    """Each command in another user's name begins with an empty environment, in /, without root's terminal, and without
    the keys of root's session: of Debian's PAM `runuser -l` alone makes a new one (`pam_keyinit force`)."""
    top = DEPLOY.parent
    pages = [*sorted((top / "docs").rglob("*.md")), *sorted(DEPLOY.glob("*.[158]"))]
    files = [*pages, DEPLOY / "by-hand.sh", *sorted(ROLE.parent.rglob("*.yml"))]
    texts = {it: re.sub(r"[\s,\"'\\&]+(?:- )?", " ", it.read_text()) for it in files}
    found = {it.name: (text.count("runuser"), text.count(STARTS)) for it, text in texts.items() if "runuser" in text}
    assert {"by-hand.sh", "station.1", "store.yml", "main.yml"} <= set(found)
    assert all(there == clean for there, clean in found.values()), found


def command(name):
    """A text of sh that the role runs as the bench's user."""
    found = re.search(rf"^{name}: \|\n((?:  .*\n)+)", (ROLE / "vars/main.yml").read_text(), re.MULTILINE)
    return ["sh", "-ec", found[1].replace("\n  ", "\n").strip(), "sh"]


def done(words, given=""):
    return subprocess.run(words, input=given, capture_output=True, text=True, check=True).stdout


def test_a_file_is_put_whole_in_a_links_place(tmp_path):
    puts, file, other = command("wanekupo_bench_puts"), tmp_path / "seat.token", tmp_path / "other"
    other.write_text("theirs")
    file.symlink_to(other)
    assert done([*puts, str(file)], "mine") == "changed\n" and done([*puts, str(file)], "mine") == ""
    assert (file.read_text(), other.read_text(), file.is_symlink()) == ("mine", "theirs", False)
    assert file.stat().st_mode & 0o777 == 0o600 and len(list(tmp_path.iterdir())) == 2
    (tmp_path / "folder").mkdir()
    with pytest.raises(subprocess.CalledProcessError):
        done([*puts, str(tmp_path / "folder")], "mine")


def test_folders_are_made_once(tmp_path):
    makes = [*command("wanekupo_bench_makes"), str(tmp_path), "journals", "spool"]
    assert done(makes) == "changed\n" and done(makes) == "\n"
    assert [it.stat().st_mode & 0o777 for it in (tmp_path / "journals", tmp_path / "spool")] == [0o700] * 2
    (tmp_path / "spool").rmdir()
    (tmp_path / "spool").symlink_to("/nowhere")
    with pytest.raises(subprocess.CalledProcessError):
        done(makes)
