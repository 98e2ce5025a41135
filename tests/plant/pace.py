"""Whether nginx answers a station as fast as without what is beside it: another nginx of the same machine, at which
nobody else asks, tells how fast that is in the same seconds."""

import math
import ssl
import time
from concurrent.futures import ThreadPoolExecutor

from common.deployed import Place
from wanekupo.seat.station import Station


def asked_at(place: Place, first: int = 0) -> list[int]:
    """How many requests of a station nginx answers in two seconds, behind a first few without a pause, and how many in
    the same seconds the other nginx. A station waits a tenth of a second, and takes no 503."""
    ports = place.port, place.nginx("quiet.conf")
    context = ssl.create_default_context(cafile=place.folder / "etc/cert.pem")
    named = [(f"https://localhost:{it}", place.outer["bolt"], f"{place.folder}/{it}.json") for it in ports]
    stations = [Station(*it, 0, context=context) for it in named]
    answered(stations[0], first)
    end = time.monotonic() + 2
    with stations[0], stations[1], ThreadPoolExecutor(2) as pool:
        return list(pool.map(lambda it: answered(it, 20, 0.1, end), stations))


def answered(station: Station, most: int, pause: float = 0, end: float = math.inf) -> int:
    """How many of so many requests a station was answered, where it began them before the end."""
    count = 0
    while count < most and time.monotonic() < end:
        station.get("/v1/devices", after="")
        count += 1
        time.sleep(pause)
    return count


def goes_on(beside: int, alone: int) -> str:
    """Says ok where nginx answers three requests for each four of the other's, and else how many."""
    return "ok" if alone > 3 and 4 * beside >= 3 * alone else f"{beside} requests, and {alone} at the other nginx"
