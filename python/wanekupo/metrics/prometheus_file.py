"""`wanekupo metrics`: what a plant watches, as a file for Prometheus' node exporter (its textfile collector).

Each part stands alone: one that can't be had is absent from the file, a metric says so, and the others are there. No
part needs a token that may change anything.
"""

import argparse
import json
import os
import time
from dataclasses import replace
from datetime import datetime
from functools import partial
from pathlib import Path
from typing import Any, Callable, Iterator, Optional

from wanekupo.seat.command_line import Command, told_as_error
from wanekupo.seat.settings import Settings, context_of, looking_station_of
from wanekupo.common.errors import StationError
from wanekupo.metrics.exposition import Samples
from wanekupo.common.files import opened_own, replace_file
from wanekupo.metrics.hours import shift_hours
from wanekupo.metrics.journal_counts import add_journals
from wanekupo.metrics.machine import add_backup, add_requests, add_server, add_store
from wanekupo.common.printing import print_shown, warn
from wanekupo.common.sentences import sentence_of
from wanekupo.common.site_file import SiteFileError, read_site_file
from wanekupo.seat.station import Station
from wanekupo.metrics.stock import add_addresses, add_customer, add_orders, add_site, learn_blocks, table_of

# The file of the manager's token among those of customers, each of which is NAME.token.
MANAGER, ENDING = "@manager", ".token"

# How long a reply is asked for, and waited for, and how long the server is asked at all, in seconds: what else there is
# to say is written also where the server doesn't answer.
PATIENCE, TIMEOUT, LONGEST = 10, 60, 150

# The mode of a file that the exporter, another user, reads.
READABLE = 0o644

Part = Callable[[Samples], None]

SAID = """. Each part is looked at where its option is given. A part that can't be had is a line on standard error, and
0 in wanekupo_metrics_success; the file is written all the same, and the status is 0."""


class Kept:
    """What a run leaves for the next one, in a file: counts that go on, and orders that never change."""

    def __init__(self, file: Optional[Path]):
        self.file, self.data = file, dict[str, Any]()
        if file and file.exists():
            with open(opened_own(file, os.O_RDONLY), "rb") as source:
                self.data = json.loads(source.read())
            if not isinstance(self.data, dict) or not all(isinstance(part, dict) for part in self.data.values()):
                raise ValueError(f"{file} has another form")

    def part(self, name: str) -> dict[str, Any]:
        part: dict[str, Any] = self.data.setdefault(name, {})
        return part

    def write(self) -> None:
        if self.file:
            replace_file(self.file, json.dumps(self.data, separators=(",", ":")))


def _kept_of(file: Optional[Path]) -> Kept:
    """What was kept. A file that is damaged is begun anew: the counts of journals begin again with it."""
    try:
        return Kept(file)
    except (ValueError, RecursionError):
        warn(f"{file} is damaged, and is written anew.")
        kept = Kept(None)
        kept.file = file
        return kept


class Run:
    """One run: the settings, the words, what is kept; which start of the server this is, where that is known, and the
    orders of each customer whose report there was."""

    def __init__(self, settings: Settings, args: argparse.Namespace):
        self.settings, self.args, self.kept = settings, args, _kept_of(args.kept)
        self.start: Optional[str] = None
        self.reported: dict[str, list[str]] = {}
        self.end = time.monotonic() + LONGEST

    def station(self, token: Path) -> Station:
        left = self.end - time.monotonic()
        if left <= 0:
            raise StationError("the parts before took too long", "Look at them first.")
        times = {"timeout": min(TIMEOUT, left), "patience": min(self.settings.patience, PATIENCE, left)}
        return looking_station_of(replace(self.settings, token=token), **times)

    # Parts, each by its name and its customer.

    def parts(self) -> Iterator[tuple[str, str, Part]]:
        args = self.args
        if args.unit:
            yield "server", "", self._server
        if args.db:
            yield "store", "", partial(add_store, store=args.db)
        if args.status:
            yield "requests", "", self._requests
        if args.backups:
            yield "backup", "", partial(add_backup, folder=args.backups, has_unit=bool(args.unit))
        if args.journals:
            words = {"kept": self.kept.part("journals"), "folders": args.journals, "owners": args.folders}
            yield "journals", "", partial(add_journals, **words)
        if args.shift:
            yield "shift", "", self._shift
        if args.tokens:
            yield from self._customers(args.tokens)

    def _customers(self, folder: Path) -> Iterator[tuple[str, str, Part]]:
        tokens = {file.name.removesuffix(ENDING): file for file in sorted(folder.glob(f"*{ENDING}"))}
        if not tokens:
            yield "report", "", partial(self._no_token, folder=folder)
        manager = tokens.pop(MANAGER, None)
        for customer, token in tokens.items():
            yield "report", customer, partial(self._report, customer=customer, token=token)
            if self.args.site:
                yield "addresses", customer, partial(self._addresses, customer=customer, token=token)
        if manager:
            yield "site", "", partial(self._site, token=manager)

    def _no_token(self, _: Samples, folder: Path) -> None:
        raise StationError(f"{folder} has no file *{ENDING}", "Put a token that looks there for each customer.")

    def _server(self, samples: Samples) -> None:
        self.start = add_server(samples, self.args.unit)

    def _requests(self, samples: Samples) -> None:
        if self.start is None:
            raise StationError("it isn't known when the server was started", "Give --unit, and look at that part.")
        words = (self.args.status, context_of(self.settings), self.args.passed, self.start, self.args.connections)
        add_requests(samples, self.kept.part("requests"), *words)

    def _shift(self, samples: Samples) -> None:
        samples.add("wanekupo_in_shift", any(it.has(datetime.now()) for it in self.args.shift))

    def _report(self, samples: Samples, customer: str, token: Path) -> None:
        with self.station(token) as station:
            rows = table_of(station.get("/v1/report"))
        add_customer(samples, customer, rows, len(rows))
        add_orders(samples, customer, rows, self.args.orders)
        self.reported[customer] = [row["order"] for row in rows]

    def _addresses(self, samples: Samples, customer: str, token: Path) -> None:
        if customer not in self.reported:
            raise StationError("the orders aren't known, as there is no report", "Look at that part.")
        try:
            found = read_site_file(self.args.site).customers.get(customer)
        except SiteFileError as error:
            raise StationError(str(error), "Name the file that the server runs with.") from error
        if found is None:
            raise StationError(f"{self.args.site} has no customer {customer}", "Name the token's file by its customer.")
        blocks = self.kept.part("blocks").setdefault(customer, {})
        with self.station(token) as station:
            learn_blocks(station, self.reported[customer], blocks)
        own = [blocks[name] for name in self.reported[customer] if blocks[name]]
        add_addresses(samples, customer, found.pools, own)

    def _site(self, samples: Samples, token: Path) -> None:
        """The customers whose own reports there aren't."""
        with self.station(token) as station:
            add_site(samples, station.get("/v1/site/report"), list(self.reported))


def collected(run: Run) -> Samples:
    """All parts, and of each whether it was had. One that failed has no metrics but those of other journals."""
    begun, found = time.time(), Samples()
    for name, customer, part in run.parts():
        own, is_had = Samples(), 1
        try:
            part(own)
        except Exception as error:  # whatever it is, the other parts are looked at, and this one is told
            warn(f"{name}{f' of {customer}' if customer else ''}: {sentence_of(error)}")
            own, is_had = own if name == "journals" else Samples(), 0
        found.merge(own)
        labels = {"part": name, **({"customer": customer} if customer else {})}
        found.add("wanekupo_metrics_success", is_had, **labels)
    found.add("wanekupo_metrics_timestamp_seconds", time.time())
    found.add("wanekupo_metrics_duration_seconds", round(time.time() - begun, 3))
    return found


def _metrics(settings: Settings, args: argparse.Namespace) -> int:
    run = Run(settings, args)
    text = collected(run).text()
    if args.to:
        replace_file(args.to, text, READABLE)
    else:
        print_shown(text)
    run.kept.write()
    return 0


def _add_metrics(parser: argparse.ArgumentParser) -> None:
    add = parser.add_argument
    add("--to", type=Path, metavar="FILE", help="the file that the exporter reads, as wanekupo.prom; else it is shown")
    add("--kept", type=Path, metavar="FILE", help="what a run leaves for the next one")
    add("--tokens", type=Path, metavar="FOLDER", help=f"a file CUSTOMER{ENDING} each, and {MANAGER}{ENDING}")
    add("--site", type=Path, metavar="FILE", help="the site file, for the addresses of its pools")
    add("--db", type=Path, metavar="FILE", help="the store's file")
    add("--unit", metavar="NAME", help="the server's unit, as station")
    add("--status", metavar="URL", help="nginx's page of its counts")
    said = "with --status, nginx's file of what it passed on to the server, a byte each"
    add("--passed", type=Path, default=Path("/var/log/nginx/passed"), metavar="FILE", help=said)
    add("--connections", type=int, default=1_000_000, metavar="N", help="the server's own --connections")
    add("--backups", type=Path, metavar="FOLDER", help="the folder of backups")
    add("--journals", type=Path, action="append", metavar="FOLDER", help="a folder of journals; may come again")
    said = "which seats each folder of journals has"
    add("--folders", type=Path, default=Path("/etc/station/journals.toml"), metavar="FILE", help=said)
    said = "the plant's hours, as 'Mon-Fri 06:00-14:00'; may come again"
    add("--shift", type=told_as_error(shift_hours), action="append", metavar="HOURS", help=said)
    add("--orders", type=int, default=100, metavar="N", help="at most so many open orders of each customer")


COMMANDS = [Command("metrics", "write what a plant watches, for Prometheus", _add_metrics, _metrics, SAID)]
