#!/usr/bin/env python3
"""A station over the package wanekupo for the kit: the chip on the bench, from registered to shipped (../README.md)."""

import json
import os
import sys
from pathlib import Path

from wanekupo.chips.chip import chip_of
from wanekupo.common.errors import Refused
from wanekupo.chips.espefuse import Espefuse, KeyFile
from wanekupo.seat.journal import Journal
from wanekupo.seat.station import Station

job = json.loads(Path(os.environ["KIT_JOB"]).read_text("utf-8"))
keys = {field: KeyFile(key["file"], key["burnt_as"]) for field, key in job["keys"].items()}
bench = Espefuse([os.environ["KIT_CHIP"]], keys)
seat = os.environ["KIT_URL"], os.environ["KIT_TOKEN"], os.environ["KIT_STATE"]

Path(os.environ["KIT_STATE"]).with_name("claims").write_text("late-copies\n")  # it goes on behind a late copy
with Station(*seat, journal=Journal(os.environ["KIT_LOG"])) as station:
    station.finish()
    try:
        station.order(job["order"]["name"])
    except Refused:
        station.make_order(**job["order"])
    for name in job["maps"]:
        try:
            digest = station.import_map(Path(name).read_bytes().decode("utf-8"))
        except Refused as refused:
            print(f"{name}: {refused}")
    blocks = bench.read()
    chip = chip_of(blocks)
    device = station.find_device(chip) or station.register(chip, job["order"]["name"], digest, blocks)
    if device.state == "registered":
        station.plan(chip, job["wishes"])
    device = station.settle(chip, bench)
    if device.state == "settled":
        station.identify(chip, Path(job["public_key"]).read_bytes())
    if station.device(chip).state in ("identified", "shipped"):
        Path(job["record"]).write_text(json.dumps(station.get("/v1/identity", chip=chip)), "utf-8")
    if station.device(chip).state == "identified":
        station.ship(chip)
    sys.exit(0 if station.device(chip).state == "shipped" else 1)
