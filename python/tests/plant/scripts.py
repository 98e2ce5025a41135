"""The modules of commands, by the names that tests have for them."""

import importlib
from types import ModuleType

MODULES = {
    "token": "wanekupo.plant.token",
    "site": "wanekupo.plant.site.command",
    "backup": "wanekupo.plant.backup.command",
    "restore": "wanekupo.plant.restore.command",
    "restart": "wanekupo.plant.restart",
}


def script(name: str) -> ModuleType:
    """The module of a command, as `token` or `standby/takeover`."""
    return importlib.import_module(MODULES.get(name) or "wanekupo." + name.replace("/", ".").replace("-", "_"))
