"""The list of the outer tokens that may ask the machine which has the store: it lies beside the store, on the volume.

A token that was ended on one machine alone would live on behind a takeover of the other. So `station-token` and
`takeover` leave this list, and `takeover` holds this machine's tokens against it. It has their names, marks and ends,
and no token. The store's user writes it: who has that user's rights can hide that a token has ended, and can make none.
"""

import os
import re
from pathlib import Path

from wanekupo.common.errors import PAGES
from wanekupo.standby.half import Half, StandbyError, print_told
from wanekupo.common.store_user import MINUTE, StoreFolder, UserError, read_small
from wanekupo.common.token_file import Tokens, TokenError, is_past, living, read, tokens_of
from wanekupo.common.files import replace_file

NOTE = "tokens.living"
TOKEN = re.compile(r"(@?[A-Za-z0-9._-]{1,32}:\d{1,9}) [0-9a-f]{12} (?:all|look) (-|\d{4}-\d\d-\d\dT\d\d:\d\d)")
MOST = 1 << 20


def here(half: Half) -> Tokens:
    """The tokens of this machine."""
    path = Path(half.settings.tokens)
    try:
        text = read(path)
        return Tokens() if text is None else tokens_of(text, path)
    except (TokenError, OSError, UnicodeDecodeError) as error:
        raise StandbyError(f"The tokens of this machine can't be read: {error}.") from None


def listed_tokens(folder: int) -> set[str] | None:
    """The lines of the list in a store's folder, but for tokens whose time is past; None where there is none that
    `station-token` wrote, so that who may write there keeps no operator from a takeover."""
    try:
        lines = read_small(Path(NOTE), folder, MOST).decode("ascii").splitlines()
    except FileNotFoundError:
        return None
    except (UserError, OSError, UnicodeDecodeError) as error:
        print_told(f"{NOTE} beside the store can't be read: {error}")
        return None
    found = {line: TOKEN.fullmatch(line) for line in lines}
    if not all(found.values()):
        print_told(f"{NOTE} beside the store isn't what `station-token` writes: look who wrote it")
        return None
    return {line for line, token in found.items() if token and not is_past(token[2].strip("-"))}


def leave(half: Half, tokens: Tokens) -> None:
    """Writes the list beside the store, which this machine has."""
    if half.state().is_frozen:
        raise StandbyError("This machine's writes are frozen. Once they aren't, type `station-token write`.")
    text = "".join(f"{line}\n" for line in living(tokens))
    try:
        store = StoreFolder(half.folder / "books.db")
        try:
            store.user.call(lambda: replace_file(half.folder / NOTE, text), seconds=MINUTE)
        finally:
            os.close(store.handle)
    except (UserError, OSError) as error:
        told = "Mend that, and type `station-token write`"
        raise StandbyError(f"{NOTE} can't be written beside the store: {error}. {told}.") from None


def names_of(lines: set[str]) -> str:
    return ", ".join(sorted(line.partition(" ")[0] for line in lines))


def test_tokens(half: Half, there: set[str] | None, is_known: bool) -> None:
    """Refuses tokens that could not ask the machine which had the store, unless the operator has said that they may."""
    own, other = set(living(here(half))), half.other_name()
    if lacking := (there or set()) - own:
        print_told(f"tokens that this machine hasn't as {other} had them, 401 here: {names_of(lacking)}")
    if not (more := own - (there or set())):
        return
    if is_known:
        print_told(f"tokens that {other} didn't let in so, and that may ask here by your word: {names_of(more)}")
        return
    why = f"{other} didn't let in so" if there is not None else f"{other} may have ended, as the volume has no list"
    raise StandbyError(
        f"This machine has tokens that {why}: {names_of(more)}. Copy the files of {other} as step 8 of "
        f"{PAGES}/operate/second-machine.md does, or end here what was ended there (`station-token revoke NAME`), and "
        "type the same again. Where nobody knows, and they may ask, add --ended-tokens-may-ask."
    )
