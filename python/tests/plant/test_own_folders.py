"""Folders in which nobody else puts a file or another folder, and bytes that are signed where nobody replaces them."""

import contextlib
import os
import subprocess
from pathlib import Path
from types import SimpleNamespace

import pytest

from wanekupo.common import files
from wanekupo.common.errors import BadSettings, UnsafeFile
from wanekupo.common.signing import BadSignature, Signer, is_public, verify
from wanekupo.lots.authority import Authority, NotCertified
from wanekupo.lots.certificates import _serials_in


def _folder(above: Path, mode: int) -> Path:
    """A private folder in one of this mode."""
    own = above / "shared" / "own"
    own.mkdir(parents=True)
    own.chmod(0o700)
    own.parent.chmod(mode)
    return own


@pytest.mark.parametrize("mode", [0o755, 0o700, 0o1777])
def test_folder_in_whose_place_nobody_puts_another(tmp_path: Path, mode: int) -> None:
    files.tested_folder(_folder(tmp_path, mode))


def test_folder_in_one_that_all_write(tmp_path: Path) -> None:
    own = _folder(tmp_path, 0o777)
    with pytest.raises(UnsafeFile, match=f"others can write {own.parent}, and put another folder in the place of"):
        files.tested_folder(own)


def test_folder_in_one_that_a_group_writes(tmp_path: Path, monkeypatch: pytest.MonkeyPatch) -> None:
    """A user's own group is himself; one of another name isn't."""
    own = _folder(tmp_path, 0o775)
    group, user = "wanekupo.common.files.grp.getgrgid", "wanekupo.common.files.pwd.getpwuid"
    monkeypatch.setattr(user, lambda _: type("", (), {"pw_gid": 7, "pw_name": "mara"}))
    monkeypatch.setattr(group, lambda _: type("", (), {"gr_gid": 7, "gr_name": "mara", "gr_mem": ["mara"]}))
    files.tested_folder(own)
    for name, members in (("staff", []), ("mara", ["mara", "otto"])):
        other = type("", (), {"gr_gid": 7, "gr_name": name, "gr_mem": members})
        monkeypatch.setattr(group, lambda _, it=other: it)
        with pytest.raises(UnsafeFile, match="others can write"):
            files.tested_folder(own)


def test_folder_of_another_user_above(tmp_path: Path, monkeypatch: pytest.MonkeyPatch) -> None:
    own = _folder(tmp_path, 0o755)
    found, stat = os.stat(own.parent), os.stat
    other = os.stat_result([*found[:4], found.st_uid + 4711, *found[5:10]])
    monkeypatch.setattr(os, "stat", lambda it, **words: other if Path(it) == own.parent else stat(it, **words))
    with pytest.raises(UnsafeFile, match="others can write"):
        files.tested_folder(own)


@pytest.mark.parametrize("own, above, is_read", [(0o755, 0o1777, True), (0o755, 0o777, False), (0o1777, 0o755, False)])
def test_folder_that_root_reads(monkeypatch: pytest.MonkeyPatch, own: int, above: int, is_read: bool) -> None:
    """A sticky folder keeps another user from putting one in the place of root's, and not from adding files."""
    modes = {Path("/above"): above, Path("/above/own"): own}
    monkeypatch.setattr(files.os, "geteuid", lambda: 0)
    monkeypatch.setattr(files.os, "lstat", lambda it: SimpleNamespace(st_uid=0, st_mode=modes.get(Path(it), 0o755)))
    with contextlib.nullcontext() if is_read else pytest.raises(UnsafeFile, match="others than root write /above"):
        files.tested_reading(Path("/above/own"))


@pytest.mark.parametrize("name", ["ca.cnf", "ca.pem"])
@pytest.mark.parametrize("mode, is_taken", [(0o644, True), (0o664, False), (0o646, False)])
def test_file_by_which_a_ca_signs(tmp_path: Path, name: str, mode: int, is_taken: bool) -> None:
    """Who writes ca.cnf has openssl load a library as the CA's user: an authority takes none that others write."""
    for it in ("ca.cnf", "ca.pem"):
        (tmp_path / it).write_text("")
        (tmp_path / it).chmod(mode if it == name else 0o644)
    if is_taken:
        before = os.umask(0)
        with contextlib.closing(Authority(tmp_path)) as authority:
            authority.take("acme-ca")
        os.umask(before)
        assert [(tmp_path / it).stat().st_mode & 0o777 for it in ("issued", "issuer")] == [0o755, 0o644]
        with pytest.raises(NotCertified, match="certifies for acme-ca, and not for bolt-ca"):
            authority.take("bolt-ca")
        return
    with pytest.raises(BadSettings, match=f"others can write {tmp_path / name}, by which the CA signs"):
        Authority(tmp_path)


@pytest.mark.parametrize("mode", [0o640, 0o604])
def test_key_of_a_ca_that_others_read(tmp_path: Path, mode: int) -> None:
    for it in ("ca.cnf", "ca.pem", "ca.key"):
        (tmp_path / it).touch(mode=0o644)
    (tmp_path / "ca.key").chmod(mode)
    with pytest.raises(BadSettings, match=f"others can read {tmp_path / 'ca.key'}, which has a secret of the CA"):
        Authority(tmp_path)


def test_what_is_signed_is_not_what_another_put_there(tmp_path: Path) -> None:
    words = "req -x509 -newkey ec -pkeyopt ec_paramgen_curve:prime256v1 -nodes -subj /CN=plant -days 1"
    words = f"openssl {words} -keyout key.pem -out cert.pem"
    subprocess.run(words.split(), cwd=tmp_path, check=True, capture_output=True)
    signer, file = Signer(cms=tmp_path / "cert.pem", cms_key=str(tmp_path / "key.pem")), tmp_path / "o1.csv"
    file.write_bytes(b"serial\nFORGED\n")
    signer.sign(file, b"serial\nA1\n")
    with pytest.raises(BadSignature):
        verify(file, cms=tmp_path / "cert.pem")
    file.write_bytes(b"serial\nA1\n")
    verify(file, cms=tmp_path / "cert.pem")


def test_who_verifies_names_one_key_and_has_its_command(tmp_path: Path, monkeypatch: pytest.MonkeyPatch) -> None:
    names = [tmp_path / it for it in ("file", "file.p7s", "cert.pem")]
    for it in names:
        it.write_text("-----BEGIN CERTIFICATE-----")
    for given, told in (((None, None), "isn't said whose"), ((tmp_path / "key.pub", names[2]), "two signatures are")):
        with pytest.raises(BadSettings, match=told):
            verify(names[0], *given)
    monkeypatch.setenv("PATH", str(tmp_path))
    with pytest.raises(BadSettings, match="there is no command openssl"):
        verify(names[0], cms=names[2])


def test_requests_come_in_the_order_of_their_numbers(tmp_path: Path) -> None:
    numbers = [f"A{it:02}" for it in range(30)]
    for it in (*numbers[1::2], *numbers[::2]):
        (tmp_path / f"{it}.csr").touch()
    assert list(_serials_in(tmp_path)) == numbers


def test_public_keys_of_minisign(tmp_path: Path) -> None:
    """The first one is of minisign's own page; the others are longer, a secret one's beginning, and none."""
    key = "RWQf6LRCGA9i53mlYecO4IzT51TGPpvWucNSCh1CBM0QTaLn73Y7GFO3"
    for text, is_one in ((f"x\n{key}\n", True), (f"x\n{key}AAAA", False), ("x\nRWRTY0Iy", False), (key, False)):
        (tmp_path / "key").write_text(text)
        assert is_public(tmp_path / "key") is is_one
