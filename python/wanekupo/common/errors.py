"""What a station can't do by itself."""

from typing import Any, Mapping

from wanekupo.common.texts import shown


# Where the package has its pages.
PAGES = "/usr/share/doc/wanekupo-client/docs"


class StationError(Exception):
    """What a station can't do by itself. Its text says what happened; it may have words of a server, and is safe to
    print. `advice` says in whole sentences what a person does then."""

    advice = ""

    def __init__(self, text: str = "", advice: str = ""):
        super().__init__(text)
        if advice:
            self.advice = advice

    def __str__(self) -> str:
        return shown(super().__str__())


class PlantError(Exception):
    """What a tool of a plant refuses or can't do: a sentence, and the status with which the tool ends."""

    status = 1


def cause_of(error: BaseException) -> str:
    """What went wrong, in words: of a call to the machine the file, or both of a copy, and the cause."""
    if isinstance(error, OSError) and error.strerror:
        files = " to ".join(str(it) for it in (error.filename, error.filename2) if it)
        return ": ".join(it for it in (files, error.strerror) if it)
    return str(error) or type(error).__name__


class Refused(StationError):
    """A refusal of docs/integrate/api.md: `no` and `name` are those of the table, `more` is what else the body says."""

    def __init__(self, status: int, body: Mapping[str, Any]):
        self.status, self.no, self.name = status, body["no"], body["error"]
        self.body = dict(body)
        self.more = {name: value for name, value in body.items() if name not in ("no", "error")}
        super().__init__(" ".join([f"{self.no} {self.name}", *(f"{name} {self.more[name]}" for name in self.more)]))


class OutOfStep(Refused):
    """A refusal as 11 or 12: the numbers of the seat aren't those of its state file. Somebody else asks with its token,
    two stations share it, or the store was restored. `path` and `number` were asked, `expected` is the server's. A
    request that was sent before is still under way, as it may be done; another one is forgotten but for a late copy.

    The seat stops: it sends nothing, also behind a start, and each request ends so until `resynchronize`, which a
    person calls who knows why (docs/integrate/station.md). Where `expected` isn't above `number` the store is an older
    one, restored or damaged: who didn't restore it on purpose stops its server first, and restores it
    (docs/operate/backup-and-restore.md)."""

    def __init__(self, refused: Refused, path: str, number: int):
        super().__init__(refused.status, refused.body)
        # Refused as 12 the number is the last that was accepted; judged anew, it is the next one.
        following = number + (self.no == 12)
        self.path, self.number, self.expected = path, number, refused.more.get("expected", following)


class BadSettings(StationError):
    """The configuration, the environment or the command line lacks something, or has what can't be used."""


class NoReply(StationError):
    """No reply within the station's patience. A POST is still under way, and `finish` sends it again."""

    advice = (
        "Look whether the server runs and the network is there. A request that was sent stays under way: wanekupo "
        "finish sends it again."
    )


class NotTheServer(StationError):
    """A proxy's page, or what else isn't one of the server's replies, until the station's patience ended. A POST is
    still under way. `status` is the page's."""

    status = 0
    advice = (
        "Look at the address, and at the proxy between. A request that was sent stays under way: wanekupo finish sends "
        "it again."
    )


class TooLong(StationError):
    """A reply longer than `connection.LONGEST_REPLY`, of which nothing is kept. A POST is still under way."""

    advice = "Look what answers at the server's address."


class UnderWay(StationError):
    """Another request is under way: `finish` it first."""

    advice = "Send it again by wanekupo finish, and then this one."


class BadStateFile(StationError):
    """The state file is in use, another seat's, or damaged."""

    advice = "Look which file this seat's is: one seat has one, and one program at a time."


class UnsafeFile(StationError):
    """A file, or its folder, that another user could have put there, or could replace."""

    advice = "The files of a station are one user's, in a folder that nobody else writes."


class BadJournal(StationError):
    """The journal is in use, or has a line that isn't one."""


class TwoRecords(BadJournal):
    """Journals have two records of one serial number, which differ: two chips may carry it."""

    advice = (
        "Find both chips, and withdraw one of them. Take its record out of a copy of its journal, and begin again with "
        "that copy."
    )


class BadKey(StationError):
    """A file has no public key, or no request for a certificate whose signature holds."""


class Differs(StationError):
    """A restored store answers otherwise than the lost one did."""

    advice = f"A journal is missing, or two clocks differ: look into {PAGES}/operate/backup-and-restore.md."


class NoPeriod(StationError):
    """The end isn't behind the beginning."""


class OtherReports(StationError):
    """Two reports aren't those of one customer, or of the site, over one store, the earlier one first."""

    advice = "They are another customer's, or the store was restored: then subtract until the restore, and behind it."
