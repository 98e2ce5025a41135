"""The command `wanekupo`: rows of commands, the options that all of them have, and how it ends.

`argparse` of the standard library reads the words, and shows the help.
"""

import argparse
import io
import os
import sys
from typing import Optional, Sequence

from wanekupo import __version__
from wanekupo.cli import change_commands as asking
from wanekupo.cli import apart
from wanekupo.cli import audit
from wanekupo.bench import bench
from wanekupo.lots import certificates
from wanekupo.cli import events
from wanekupo.cli import look
from wanekupo.cli import show_commands as looking
from wanekupo.lots import manifest
from wanekupo.metrics import prometheus_file as metrics
from wanekupo.cli import reports
from wanekupo.cli import seal
from wanekupo.cli import shift as shift_report
from wanekupo.cli import ship_journal as shipping
from wanekupo.cli import witness
from wanekupo.seat.settings import FILES, settings_of
from wanekupo.common.errors import NoReply, NotTheServer, OutOfStep, Refused, TooLong
from wanekupo.common.printing import warn
from wanekupo.seat.command_line import Command
from wanekupo.common.sentences import sentence_of

DONE, REFUSED, NOT_SENT, NO_REPLY, QUARANTINED, STOPPED = range(6)
INTERRUPTED = 130

SAID = "A programming station's side of Wanekupo: it looks at what the server has, and asks for what it does."
ENDS = (
    "Settings come from the command line, the environment (WANEKUPO_URL, WANEKUPO_TOKEN ..), ~/.config/wanekupo.toml "
    "and /etc/wanekupo/client.toml, in this order. Exit status: 0 done, 1 refused, 2 not sent, 3 no reply, 4 done and "
    "the device quarantined, 5 the seat is out of step, 130 stopped by hand."
)


# An example of each command, behind its help: the settings are those of a configuration file.
EXAMPLES = {
    "run": "run thermostat.toml",
    "order": "order o17",
    "device": "device 7cdfa1000001",
    "ledger": "ledger 7cdfa1000001",
    "identity": "identity 7cdfa1000001 --csr request.csr",
    "devices": "devices --order o17 --state quarantined",
    "report": "report --order o17",
    "site-report": "site-report --token manager.token",
    "make-order": "make-order o17 acme-ca T --width 4 --first 1 --quantity 2000 --macs 1 --not-before 20270101000000Z",
    "map": "map esp32s3.toml",
    "register": "register o17 MAP --part 020000000001",
    "plan": "plan 7cdfa1000001 --bit DIS_PAD_JTAG=0 --wlock BLOCK_KEY0",
    "burn": "burn 7cdfa1000001 --family esp32s3 --key BLOCK_KEY0=flash.key:XTS_AES_128_KEY",
    "readback": "readback 7cdfa1000001 dump.txt --family esp32s3",
    "settle": "settle 7cdfa1000001 --family esp32s3 --key BLOCK_KEY0=flash.key:XTS_AES_128_KEY",
    "ship": "ship 7cdfa1000001",
    "scrap": "scrap 7cdfa1000001",
    "import": "import acme-ca serials.csv",
    "finish": "finish",
    "number": "number",
    "restore": "restore line1.journal line2.journal",
    "issued": "issued line1.journal",
    "lost": "lost line1.journal --from 2026-12-01T06:00 --to 2026-12-01T14:00",
    "yield": "yield monday.csv friday.csv",
    "manifest": "manifest o17 --out o17.csv --minisign lots.key",
    "certify": "certify spool --ca-folder acme-ca",
    "verify": "verify spool/T0001.pem --trusted acme-ca/ca.pem",
    "shift": "shift acme=line1.journal --from 2026-12-01T06:00 --to 2026-12-01T14:00 --html shift.html",
    "seal": "seal acme-seals --customer acme --minisign seals.key",
    "apart": "apart one/000007.rows two/000007.rows",
    "look": "look 2026/books.db find 24:0a:c4:00 --customer acme",
    "audit": "audit copy/books.db journals/ --from 2026-12-01T00:00Z --to 2026-12-02T00:00Z --html audit.html",
    "events": "events journals/ --cfx --kept given.json --post https://mes.example/cfx",
    "metrics": "metrics --to wanekupo.prom --kept kept.json --tokens /etc/station/metrics",
    "ship-journal": "ship-journal station@gather.example:line1 --journal journals/",
    "witness": "witness journals/",
}

COMMANDS = [
    Command("run", "run a recipe: chip after chip, green or red", bench.add_bench_words, bench.main),
    *looking.COMMANDS,
    *asking.COMMANDS,
    *reports.COMMANDS,
    *manifest.COMMANDS,
    *certificates.COMMANDS,
    *shift_report.COMMANDS,
    *seal.COMMANDS,
    *apart.COMMANDS,
    *look.COMMANDS,
    *audit.COMMANDS,
    *events.COMMANDS,
    *metrics.COMMANDS,
    *shipping.COMMANDS,
    *witness.COMMANDS,
]

# The commands that may have a request under way where they are stopped. The others only look: they begin anew.
ASKING = frozenset({"run", "restore", *(row.name for row in asking.COMMANDS)})
GOES_ON, AGAIN = "What was under way goes on with: wanekupo finish.", "Give the same command again."


def _common(is_told: bool) -> argparse.ArgumentParser:
    """The options of every command, which stand before or behind its name. The help of one command names them alone."""
    common = argparse.ArgumentParser(add_help=False, argument_default=argparse.SUPPRESS)
    group = common.add_argument_group("settings")
    group.add_argument("--config", metavar="FILE", help="this configuration file, in place of the usual ones")
    group.add_argument("--url", help="where the server is")
    group.add_argument("--token", metavar="FILE", help="the file with the seat's token")
    group.add_argument("--state-file", dest="state", metavar="FILE", help="the seat's state file")
    group.add_argument("--journal", metavar="FILE", help="the seat's journal: a file, or a folder with a file a day")
    group.add_argument("--ca", metavar="FILE", help="the certificates to trust, in place of the system's")
    said = "send the token over http to another machine too"
    group.add_argument("--insecure", action=argparse.BooleanOptionalAction, help=said)
    group.add_argument("--patience", metavar="SECONDS", help="how long a reply is asked for")
    group.add_argument("--seat", metavar="NAME", help="the seat's name, for the journal")
    group.add_argument("--operator", metavar="NAME", help="who sits there, for the journal")
    group.add_argument("--spool", metavar="FOLDER", help="where requests for certificates are kept")
    group.add_argument("--profile", metavar="NAME", help="what certificates may be: plain, 802.1ar, matter-dac:VID:PID")
    said = "the token is a new one of the same seat, whose state file goes on with it"
    group.add_argument("--new-token", action="store_true", help=said)
    if not is_told:
        for it in common._actions:
            it.help = argparse.SUPPRESS
    return common


def client_parser() -> argparse.ArgumentParser:
    made = argparse.ArgumentParser(
        prog="wanekupo", description=SAID, epilog=ENDS, parents=[_common(True)], allow_abbrev=False
    )
    made.add_argument("--version", action="version", version=f"wanekupo {__version__}")
    subparsers = made.add_subparsers(dest="command", metavar="COMMAND")
    common = _common(False)
    for row in COMMANDS:
        example = f"Example: wanekupo {EXAMPLES[row.name]}"
        one = subparsers.add_parser(
            row.name, parents=[common], allow_abbrev=False, help=row.said, description=f"{row.said}{row.more}",
            epilog=f"{example}. The settings, as --url and --token, are those of: wanekupo --help.",
        )  # fmt: skip
        row.add_arguments(one)
        one.set_defaults(run=row.run)
    return made


def exit_status(error: BaseException) -> int:
    if isinstance(error, OutOfStep):
        return STOPPED
    if isinstance(error, Refused):
        return REFUSED
    return NO_REPLY if isinstance(error, (NoReply, NotTheServer, TooLong)) else NOT_SENT


def main(words: Optional[Sequence[str]] = None) -> int:
    if isinstance(sys.stdout, io.TextIOWrapper):
        sys.stdout.reconfigure(errors="backslashreplace")  # a name with letters that the terminal hasn't is no fault
    args = client_parser().parse_args(words)
    if args.command is None:
        names = ", ".join(row.name for row in COMMANDS)
        warn(f"No command is named. There are {names}: wanekupo --help says what each does.")
        return NOT_SENT
    try:
        settings = settings_of(vars(args), os.environ, FILES)
        status = int(args.run(settings, args))
        sys.stdout.flush()
        return status
    except BrokenPipeError:
        # Who reads has enough, as `head` has: that is no fault, and nothing more is printed.
        os.dup2(os.open(os.devnull, os.O_WRONLY), sys.stdout.fileno())
        return DONE
    except KeyboardInterrupt:
        warn(f"Stopped by hand. {GOES_ON if args.command in ASKING else AGAIN}")
        return INTERRUPTED
    except Exception as error:
        warn(sentence_of(error))
        return exit_status(error)
