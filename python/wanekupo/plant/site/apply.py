"""The steps that put a new text in front of a store: stop, back up, put in place, start, wait, and ask with each token.

Each is noted before it is begun, and may be done twice. Once the new text is in place no step takes it back, as the
store may hold it from the first moment of a start on: the new text opens a store of either.
"""

import contextlib
import http.client
import os
import shlex
import signal
import socket
import ssl
import stat
import threading
import time
import urllib.parse
from pathlib import Path

from wanekupo.plant.trial_copy import Backup
from wanekupo.common.process import own_command
from wanekupo.common.store_user import LONGEST, MINUTE, PLAIN, SMALL, STOPS, UserError, shown
from wanekupo.common.token_file import HEALTH, PREFIX, TokenError, alone, read, tokens_of
from wanekupo.common.files import sync

from wanekupo.plant.site.place import Place, text_in
from wanekupo.plant.site.plan import PLACED, PREPARED, STOPPING, GrowthPlan, SeatWish, drop_plan, keep_plan
from wanekupo.plant.site.trials import tried_over_backup

# The number of restarts from which on a start is held for failed, and how long one answer may take, in seconds.
FAILED, PATIENCE = 3, 90
# How long a worker of nginx of before a reload may still take a new connection.
RELOADED = 10.0
# An order that nobody has: asked for it, the server says 404 to a seat, and 401 to whom it doesn't know.
ASKED = "/v1/order?name=station-site-asks"


class Stopped(TokenError):
    """Somebody stopped this run by a signal."""

    def __init__(self, number: int):
        super().__init__(1, f"stopped by signal {number}, and the server runs as before")


def say(text: str) -> None:
    print(text, flush=True)


def apply(place: Place, plan: GrowthPlan) -> None:
    """From wherever a run before this one was cut to the end. Whoever stops it leaves the server started, with the new
    text once that is in place."""
    try:
        if plan.stage in (PREPARED, STOPPING):
            stop_and_back_up(place, plan)
            put_in_place(place, plan)
        start(place, plan)
        for wish in plan.wishes:
            give_token(place, wish)
    except BaseException as error:
        start_behind(place)
        if plan.stage == STOPPING:
            plan.backup = ""
            noted(place, plan, PREPARED)
        if plan.stage != PLACED or not isinstance(error, Stopped):
            raise
        raise TokenError(5, f"stopped in the middle: {place.site} may have the new text; apply goes on") from error
    keep_with_backup(place, plan)
    place.next.unlink(missing_ok=True)
    drop_plan(place.plan)
    say("done")


def start_behind(place: Place) -> None:
    """Starts the server behind an error, which no signal keeps from it. None is ignored, since what is started then
    would ignore it too."""
    before = {it: signal.signal(it, lambda *_: None) for it in STOPS}
    try:
        place.service(place.args.start)
    finally:
        for it, handler in before.items():
            signal.signal(it, handler)


def noted(place: Place, plan: GrowthPlan, stage: str) -> None:
    plan.stage = stage
    keep_plan(place.plan, plan)


# ---- stop, back up, put in place


def stop_and_back_up(place: Place, plan: GrowthPlan) -> None:
    """The server is stopped and the store backed up."""
    left, user = plan.backup, place.user
    plan.backup = str(place.backups / f"before-{time.strftime('%Y-%m-%dT%H%M%S')}-{os.getpid()}")
    noted(place, plan, STOPPING)
    if left:  # by a run that was cut: it may be half a backup
        user.run("rm", "-rf", "--", left)
    is_stopped, said = place.service(place.args.stop)
    if not is_stopped:
        raise TokenError(1, f"the server wasn't stopped: {said}")
    say("the server is stopped")
    words = ["--program", place.program, "--site", str(place.site), "--db", str(place.db), plan.backup]
    done = user.run(own_command("station-backup"), *words, seconds=4 * LONGEST)  # it copies, starts and compares
    if done.returncode:
        raise TokenError(1, f"no backup, so nothing was changed: {shown(done.stderr).strip()}")
    say(shown(done.stdout).strip())
    if not plan.is_tried:
        made = Backup(Path(plan.backup), place.size(), is_encrypted=False)
        tried_over_backup(place, made, text_in(place.site), text_in(place.next))
        say("a copy of that backup took the new text")


def put_in_place(place: Place, plan: GrowthPlan) -> None:
    """The new text takes the site file's name, with the owner and the mode of the old one."""
    before = place.site.stat()
    made = place.site.with_name(place.site.name + ".new")
    made.unlink(missing_ok=True)
    handle = os.open(made, os.O_WRONLY | os.O_CREAT | os.O_EXCL | os.O_NOFOLLOW, 0o600)
    with open(handle, "wb") as file:
        file.write(text_in(place.next).encode())
        file.flush()
        os.fchown(file.fileno(), before.st_uid, before.st_gid)
        os.fchmod(file.fileno(), stat.S_IMODE(before.st_mode))
        os.fsync(file.fileno())
    noted(place, plan, PLACED)
    os.replace(made, place.site)
    sync(place.site.parent)
    say(f"{place.site} has the new text")


# ---- start and wait


def start(place: Place, plan: GrowthPlan) -> None:
    """Starts the server, and waits until it answers."""
    if place.next.exists() and text_in(place.next) != text_in(place.site):  # a run was cut right before that
        place.service(place.args.stop)
        put_in_place(place, plan)
    if not is_up(place):
        is_started, said = place.service(place.args.start)
        if not is_started or not is_answering(place):
            tell_failed(place, plan, said)
    say("the server is up")


def is_answering(place: Place) -> bool:
    """Whether the server answers within the time that it is given; a service that starts it again and again is down."""
    before, end = restarts(place), time.monotonic() + place.args.wait
    while not is_up(place):
        if time.monotonic() > end or restarts(place) - before >= FAILED:
            return False
        time.sleep(0.2)
    return True


def restarts(place: Place) -> int:
    done = place.ran(*shlex.split(place.args.restarts))
    return int(done.stdout) if done.stdout.strip().isdigit() else 0


def is_up(place: Place) -> bool:
    try:
        return status_of(f"http://127.0.0.1:{place.args.port}/", "") == 401
    except (OSError, http.client.HTTPException):
        return False


def tell_failed(place: Place, plan: GrowthPlan, said: str) -> None:
    """Which text the store holds by now. The service is started again, as its cause may go away by itself."""
    place.service(place.args.stop)
    old = Path(plan.backup, "site.toml")
    try:
        text = place.user.run("cat", "--", str(old), seconds=MINUTE).stdout
        held = place.held_text([text_in(place.site), *([text] if text else [])])
        if held == text_in(place.site):
            told = f"The store holds the new text by now: start it with that alone, which is {place.site}."
        elif held == text:
            told = f"The store still holds the old text. The new one, in {place.site}, opens it too: leave it there."
        else:
            told = "The store holds another text than these two."
    except (TokenError, UserError, OSError, UnicodeError) as error:
        told = f"Which text the store holds isn't known: {error}. Start it with {place.site}, which opens either."
    finally:
        place.service(place.args.start)
    what = f"the server doesn't start ({said or 'its journal says why: journalctl -u station'})."
    raise TokenError(4, f"{what}\n{told}\nThe old text is in {old}. Once it starts, give the same command again.")


# ---- ask, and give tokens


def status_of(url: str, token: str, certificate: str = "") -> int:
    """The status of an answer. Where the server listens its user may answer a byte at a time for ever, or name another
    place: so all of it has a bound, and root asks nobody else. nginx is this machine's own: its certificate has to be
    the one of its file."""
    at = urllib.parse.urlsplit(url)
    asked = http.client.HTTPConnection(at.hostname or "", at.port, timeout=PATIENCE)
    if at.scheme == "https":
        context = ssl.create_default_context(cafile=certificate or None)
        if certificate:
            context.check_hostname = False
            context.verify_flags |= ssl.VERIFY_X509_PARTIAL_CHAIN
        asked = http.client.HTTPSConnection(at.hostname or "", at.port, timeout=PATIENCE, context=context)
    own = {"Authorization": f"Bearer {token}"} if token else {}
    with contextlib.closing(asked):
        asked.connect()
        late = threading.Event()
        bound = threading.Timer(PATIENCE, _cut, (asked.sock, late))
        bound.daemon = True
        bound.start()
        try:
            asked.request("GET", f"{at.path or '/'}?{at.query}".rstrip("?"), headers={"Connection": "close", **own})
            status = asked.getresponse().status
        finally:
            bound.cancel()
    if late.is_set():
        raise TimeoutError("it took too long")
    return status


def _cut(connection: socket.socket, late: threading.Event) -> None:
    """Ends a connection of which an answer is still read."""
    late.set()
    with contextlib.suppress(OSError):
        connection.shutdown(socket.SHUT_RDWR)


def answer_of(who: str, url: str, token: str, certificate: str = "") -> int:
    """The status of an answer; where there is none, the steps that are done stay so."""
    try:
        return status_of(url, token, certificate)
    except (OSError, http.client.HTTPException) as error:
        raise TokenError(5, f"{who} gives no answer: {getattr(error, 'reason', None) or error}") from None


def token_within(place: Place, wish: SeatWish) -> str:
    seat = tokens_of(read(place.tokens) or "", place.tokens).seats.get(wish.seat)
    if not seat:
        raise TokenError(5, f"the seat {wish.seat} isn't in {place.tokens} any more: station-token seat, by its lines")
    return seat.inner


def give_token(place: Place, wish: SeatWish) -> None:
    """Asks with a seat's own token, makes its outer one where it has to have one, and asks with that through nginx."""
    answered = answer_of("the server", f"http://127.0.0.1:{place.args.port}{ASKED}", token_within(place, wish))
    if answered not in (200, 404):
        raise TokenError(5, f"the server answers {answered} to the seat {wish.seat}, and should know it")
    if not wish.to:
        if wish.seat == HEALTH:  # nginx asks with it, by the tokens' file
            token_run(place, wish, "write")
        say(f"the seat {wish.seat} of {wish.customer} is known")
        return
    token = outer_token(place, wish)
    if not place.args.nginx:
        say(f"the seat {wish.seat} of {wish.customer} is known; its token is in {wish.to}")
        return
    end = time.monotonic() + RELOADED
    while (answered := answer_of("nginx", f"{place.args.nginx}{ASKED}", token, place.args.certificate)) == 401:
        if time.monotonic() > end:
            break
        time.sleep(0.2)
    if answered not in (200, 404):
        raise TokenError(5, f"nginx answers {answered} to the token in {wish.to}, and should be 404 or 200")
    say(f"the seat {wish.seat} of {wish.customer} is known, and nginx takes the token in {wish.to}")


def outer_token(place: Place, wish: SeatWish) -> str:
    """The seat's outer token out of its file. A file whose token nginx's file doesn't have is what a run left that was
    cut before the token was anybody's: it goes, and another one is made."""
    path = Path(wish.to)
    with alone(place.tokens, place.args.patience):
        outers = tokens_of(read(place.tokens) or "", place.tokens).open_ones()
        seat_of = {it.text: it.seat for it in outers if it.text}
        text = own_text(path)
        if text and not (text.startswith(PREFIX) and seat_of.get(text, wish.seat) == wish.seat):
            raise TokenError(5, f"{path} is there, and is no file of a token of {wish.seat}: move it away")
        is_there = text in seat_of
        if text is not None and not is_there:
            path.unlink()
    token_run(place, wish, *(["write"] if is_there else ["add", wish.seat, "--holder", wish.holder, "--to", wish.to]))
    return own_text(path) or ""


def own_text(path: Path) -> str | None:
    """What a file has, and None where there is none: a plain one of this user's own, whoever writes its folder."""
    try:
        handle = os.open(path, PLAIN)
    except FileNotFoundError:
        return None
    except OSError as error:
        raise TokenError(5, f"{path} can't be read: {error.strerror}. Look who made it, and move it away") from None
    with open(handle, encoding="ascii", errors="replace") as file:
        found = os.fstat(handle)
        if not stat.S_ISREG(found.st_mode) or found.st_uid != os.geteuid() or found.st_mode & 0o022:
            raise TokenError(5, f"{path} is no plain file of this user's own: look who made it, and move it away")
        return file.read(SMALL).strip()


def token_run(place: Place, wish: SeatWish, *words: str) -> None:
    done = place.ran(*place.token_words(), *words)
    if done.returncode:
        raise TokenError(5, f"{wish.seat}: {done.stderr.strip()}")


def keep_with_backup(place: Place, plan: GrowthPlan) -> None:
    """The new text opens each backup of before, so it lies with the newest one."""
    if not plan.backup:
        return
    words = ("dd", "status=none", f"of={plan.backup}/site.grown.toml")
    try:
        done = place.user.run(*words, given=text_in(place.site), seconds=MINUTE)
        told = shown(done.stderr).strip() if done.returncode else ""
    except UserError as error:  # a pipe may lie there, which nobody reads
        told = str(error)
    if told:
        say(f"keep a copy of {place.site} with the backup {plan.backup}: {told}")
