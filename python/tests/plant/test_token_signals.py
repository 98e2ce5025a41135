"""A signal while a token ends: its file, nginx and the other machine know of it, or none does."""

import os
import signal
from pathlib import Path

import pytest
from scripts import script

from wanekupo.common import token_file
from wanekupo.common.token_file import Outer, TokenSeat, Tokens, put, read, tokens_of, tokens_text

token = script("token")
NOW = "2026-06-15T12:00"
A1 = TokenSeat("a1", "acme", "abc")
OUTER = Outer(number=1, seat="a1", token="a1:1", looks=False, mark="0" * 12, since=NOW, text=f"wanekupo_{1:064x}")


@pytest.mark.parametrize("number", [signal.SIGHUP, signal.SIGINT, signal.SIGTERM])
def test_a_signal_waits_until_nginx_has_it(tmp_path: Path, monkeypatch: pytest.MonkeyPatch, number: int) -> None:
    """Whoever types `revoke` and loses the line in the middle has the token end: its file alone says nothing."""
    for module in (token, token_file):
        monkeypatch.setattr(module, "current_minute", lambda: NOW)
    file = tmp_path / "tokens.conf"
    put(file, tokens_text(Tokens({"a1": A1}, [OUTER])))
    told, left = file.with_name("told"), file.with_name("left")
    monkeypatch.setattr(token, "test_nginx", lambda _: (os.kill(os.getpid(), number), (True, ""))[1])
    monkeypatch.setattr(token, "reload_nginx", lambda *_: told.touch() or "")
    monkeypatch.setattr(token, "left_to_the_other", lambda *_: left.touch())
    child = os.fork()
    if not child:
        signal.signal(number, signal.SIG_DFL)
        token.run_token(token.token_parser().parse_args(["--file", str(file), "revoke", "a1"]))
        os._exit(0)
    _, status = os.waitpid(child, 0)
    assert os.WIFSIGNALED(status) and os.WTERMSIG(status) == number, "the run ends by it"
    assert told.exists() and left.exists() and tokens_of(read(file), file).outers[0].ended == NOW
