"""A site of four programs behind one nginx, of which one moves to another machine: the other three go on meanwhile."""

import contextlib
import time
from collections.abc import Iterator
from pathlib import Path

from common.customers import site_text, token_of
from common.served import Server, station

from machines.standby.books import compared, undisturbed
from machines.standby.load import CUSTOMERS, Line
from machines.standby.network import Router, free_ports
from machines.standby.place import ANSWERS, BEHIND, Cut, Place

# The customers whose programs are on this machine, each with one seat. The first two customers' store is on the pair.
OTHERS = range(CUSTOMERS, CUSTOMERS + 3)


@contextlib.contextmanager
def others(program: Path, folder: Path) -> Iterator[dict[int, int]]:
    """Three programs on this machine, each with a store and a customer of its own: their ports."""
    ports, servers = dict(zip(OTHERS, free_ports(len(OTHERS)))), []
    try:
        for customer, port in ports.items():
            site = folder / f"site-{customer}.toml"
            site.write_text(site_text([customer], 1), encoding="utf-8")
            servers.append(Server(station(str(program), str(site), str(folder / f"books-{customer}.db"), port), port))
        for server in servers:
            server.wait(Server.is_listening)
        yield ports
    finally:
        for server in servers:
            server.kill()


def moved(place: Place) -> None:
    """The store of the pair goes to the second machine, and nginx sends its seats there. How long each part stood is
    measured: the moved one by its own stations, which go through nginx too."""
    program, folder = place.program, place.folder
    own = [each.token for each in place.line.stations]
    with others(program, folder) as ports:
        tokens = {token_of(customer, 0): port for customer, port in ports.items()}
        router = Router(folder / "router", tokens | dict.fromkeys(own, place.first.port))
        try:
            place.pair.address.move(router.port)
            rest = [Line(router.port, folder / f"line-{customer}", 1, [customer], 1).start() for customer in OTHERS]
            place.line.wait_for(BEHIND, ANSWERS)
            moment = time.monotonic()
            place.tell(place.pair.ask_script(place.first, "stepdown"))
            place.tell(place.pair.ask_script(place.second, "takeover"))
            router.move(own, place.second.port)
            cut = Cut("a part moves", takeover=time.monotonic() - moment)
            place.line.wait_for(BEHIND, ANSWERS)
            cut.replied = place.line.longest_stand(moment)
            stand = max(line.longest_stand(moment) for line in rest)
            place.measured.append(f"the moved part stood {cut.replied:.1f} s, the others {stand:.1f} s")
            place.cuts.append(cut)
            for line in (place.line, *rest):
                line.end()
        finally:
            router.close()
    for customer, line in zip(OTHERS, rest):
        place.faults += differences(customer, line, program, folder)
    place.swap()


def differences(customer: int, line: Line, program: Path, folder: Path) -> list[str]:
    """What the books of a program of this machine don't have in common with those of an undisturbed run."""
    calm_folder = folder / f"calm-{customer}"
    calm_folder.mkdir()
    site = folder / f"site-{customer}.toml"
    calm, faults = undisturbed(program, site, calm_folder, free_ports(1)[0], line.stations)
    _, found = compared(folder / f"books-{customer}.db", calm, line.stations)
    return [f"customer {customer}: {fault}" for fault in faults + found]
