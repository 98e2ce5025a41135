"""The life of a chip by espefuse, from the bench to its shipment: a sample of the package wanekupo.

Stopped anywhere, and the server too, it goes on where it is started again. It wants an order o1, and in its folder the
map, the flash key and the public key of the chip's key pair. A plant runs `wanekupo run` in its place.
"""

import sys

from wanekupo.chips.chip import bit, chip_of, key, rlock, wlock
from wanekupo.chips.espefuse import Espefuse, KeyFile
from wanekupo.seat.journal import Journal
from wanekupo.seat.replies import identity_of
from wanekupo.seat.station import Station
from wanekupo.common.texts import shown

flash_key = KeyFile("flash.key", "flash_encryption")
bench = Espefuse(["espefuse.py", "--port", "/dev/ttyUSB0", "--do-not-confirm"], {"BLOCK1": flash_key})
wishes = [bit("JTAG_DISABLE", 0), key("BLOCK1", flash_key.digest()), wlock("BLOCK1"), rlock("BLOCK1")]

with Station("http://127.0.0.1:8080", "abc", "a1.json", journal=Journal("a1.journal")) as station:
    done = station.finish()  # what was under way when it was stopped is done now
    if done and done.path == "/v1/identity":
        print(identity_of(done.reply), flush=True)
    digest = station.import_map(open("esp32.toml", encoding="utf-8").read())
    blocks = bench.read()
    chip = chip_of(blocks)
    device = station.find_device(chip) or station.register(chip, "o1", digest, blocks)
    if device.state == "registered":
        station.plan(chip, wishes)
    device = station.settle(chip, bench)
    if device.state == "settled":
        print(station.identify(chip, open("public.key", "rb").read()), flush=True)
    device = station.device(chip)
    if device.state == "identified":
        print(shown(station.ship(chip)))
    elif device.state != "shipped":
        sys.exit(shown(f"{chip} isn't shipped: {device.state} {device.reason or ''}"))
