"""A store is lost under load, day after day, is restored from last night's backup and the journals, and goes on.

Eight stations of three customers work: they make orders with addresses, import maps and serial numbers, burn simulated
chips by their plans, read them back, give them identities, ship some and scrap some. Each day the server is stopped for
a backup, and works again. Then its disk is gone at a random moment of the load: the process is killed, and the store's
files are removed. The journals come off the stations by `wanekupo ship-journal`, station-restore puts the backup back
and brings back what the journals have; on every other day it is killed itself, at two random calls, and begun again.
Each station is told to go on with the number that is expected, treats the chips that it has as the page says
(docs/operate/backup-and-restore.md), and works on in the restored store.

At the end of each day the journals of all days are read by json alone: each serial number of an issuer and each address
stands for one chip, each chip has one of them, and the store has each of them with its key. What a station asks for,
and the moments, are the seed's; what falls into which moment is the machine's.
"""

import tempfile
from pathlib import Path

import pytest

from common.chip import Failed
from common.users import another_user, umask
from plant.gameday_plant import Plant


@pytest.mark.needs("reader", "sqlite3", "rsync")
@pytest.mark.sizes(2, 20)
def test_days(program, seed, size):
    """`size` days."""
    with umask(0o077), another_user(), tempfile.TemporaryDirectory() as folder:
        plant = Plant(program, Path(folder), seed)
        try:
            for number in range(1, size + 1):
                day(plant, number)
        finally:
            if plant.server:
                plant.server.kill()


def day(plant, number):
    plant.start()
    plant.work(plant.random.uniform(0.3, 1))
    plant.server.kill()
    backup = plant.back_up()
    plant.start()
    plant.work(plant.random.uniform(0.5, 3), is_lost=True)
    plant.gather()
    said = plant.restore(backup, is_killed=number % 2 == 1)
    if "Stations may go on: " not in said:
        raise Failed(said)
    plant.start()
    for line in plant.lines:
        line.go_on()
    plant.work(plant.random.uniform(0.3, 1))
    plant.server.kill()
    assert min(plant.check()) > 0, "no serial number or no address was given"
