"""The instructions of a request and of a start, by valgrind's callgrind, for `instructions` and `sizes`."""

import os
import re
import shutil
from collections import Counter
from typing import NamedTuple

from common.lives import SITE, requests
from common.ports import free_port
from common.program import Program, send
from common.served import Server, station

# A function's name without the types that it is made for.
TYPES = re.compile(r"::<[#=<'].*$|::<.*>$")


class Counts(NamedTuple):
    """Instructions: those of all, and of each function by itself, with all it calls, and for each caller."""

    total: int
    own: Counter
    whole: Counter
    arcs: Counter


def counts_in(path):
    """The counts of callgrind's file (valgrind's manual, 'Callgrind Format Specification')."""
    own, called, arcs, names, total = Counter(), Counter(), Counter(), {}, 0
    function = callee = None

    def name_of(text):
        number, _, name = text.partition(" ")
        if name:
            names[number] = TYPES.sub("", name)
        return names[number]

    with open(path, encoding="utf-8") as file:
        for line in file:
            key, is_named, rest = line.rstrip("\n").partition("=")
            if is_named and key == "fn":
                function = name_of(rest)
            elif is_named and key == "cfn":
                callee = name_of(rest)
            elif line[0] in "+-*0123456789" and function:
                cost = int(line.split()[-1])
                if callee:
                    # A function that calls itself is in its own cost already.
                    if callee != function:
                        called[function] += cost
                        arcs[(function, callee)] += cost
                    callee = None
                else:
                    own[function] += cost
            elif line.startswith(("totals:", "summary:")):
                total = int(line.split()[1])
    return Counts(total, own, own + called, arcs)


def without(more, less):
    """The counts of the one without those of the other."""
    parts = [Counter(many) for many in more[1:]]
    for many, few in zip(parts, less[1:]):
        many.subtract(few)
    return Counts(more.total - less.total, *parts)


def run(words, seconds, asked, kept):
    """Has the program answer the requests, one after another, and returns the counts."""
    command = ["valgrind", "-q", "--tool=callgrind", f"--callgrind-out-file={kept}", "--separate-recs=1", *words]
    with Program(command, seconds) as program:
        for one in asked:
            program.write(one, 65536)
            program.replies.check_next()
        program.end()
    return counts_in(kept)


def counted(args, keeper, folder):
    """The counts of the lives over a keeper."""
    site, kind = os.path.join(folder, "site.toml"), "devices" if args.addresses else "bare"
    with open(site, "w", encoding="utf-8") as file:
        file.write(SITE)
    before, asked = requests(kind, args.lives, 0), requests(kind, args.lives, args.lives)
    found = []
    for name, stream in (("before", before), ("lives", asked)):
        words = [os.path.abspath(args.program), "replay", "--site", site]
        words += ["--db", os.path.join(folder, f"{name}.db")] if keeper == "file" else []
        kept = os.path.join(folder, name)
        found.append(run(words, args.seconds, stream, kept))
        if args.out and name == "lives":
            shutil.copy(kept, f"{args.out}.{keeper}")
    return without(found[1], found[0])


def start_counted(args, folder):
    """The counts of a start over a closed store of some lives, made without valgrind."""
    site, kept = os.path.join(folder, "site.toml"), os.path.join(folder, "start")
    with open(site, "w", encoding="utf-8") as file:
        file.write(SITE)
    words = [os.path.abspath(args.program), "replay", "--site", site, "--db", os.path.join(folder, "starts.db")]
    with Program(words, args.seconds) as program:
        send(program, requests("devices" if args.addresses else "bare", args.starts, args.starts))
        program.end()
    counts = run([*words, "--existing"], args.seconds, [], kept)
    if args.out:
        shutil.copy(kept, f"{args.out}.start")
    return counts


def served_counted(program, args, folder):
    """The instructions of a start of `serve` over the store of a folder that `start_counted` made, until its port is
    listened on; it ends behind its one connection."""
    port, kept = free_port(), os.path.join(folder, "served")
    site, path = os.path.join(folder, "site.toml"), os.path.join(folder, "starts.db")
    words = station(os.path.abspath(program), site, path, port)
    counted = ["valgrind", "-q", "--tool=callgrind", f"--callgrind-out-file={kept}", *words[:-1], "1"]
    server = Server(counted, port)
    try:
        server.wait(Server.is_listening, args.seconds).process.wait(args.seconds)
    finally:
        server.kill()
    return counts_in(kept).total
