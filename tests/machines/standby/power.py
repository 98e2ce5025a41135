"""A plant's power switch, which a machine may ask to cut the other one's power."""

import contextlib
import socket
import threading

from common.ports import accepted

from machines.standby.guests import Guest
from machines.standby.pair import Pair

SETTINGS = "/etc/station/standby.toml"


class PowerSwitch:
    """It listens behind the port to which each guest's /sbin/switch-off leads, cuts the power that it is asked for, and
    says so once that is done. One that isn't working answers nothing."""

    def __init__(self, pair: Pair):
        self.pair, self.is_working, self.asked = pair, True, list[str]()
        self.listener = socket.create_server(("127.0.0.1", pair.switch_port))
        self.thread = threading.Thread(target=self.serve, daemon=True)

    def __enter__(self) -> "PowerSwitch":
        self.thread.start()
        return self

    def __exit__(self, *_: object) -> None:
        with contextlib.suppress(OSError):
            self.listener.shutdown(socket.SHUT_RDWR)
        self.listener.close()

    def install(self, *guests: Guest) -> None:
        """Has these machines ask it, by the setting of the plant."""
        for guest in guests:
            guest.ask(f"echo 'fence = \"/sbin/switch-off {self.pair.other(guest).name}\"' >> {SETTINGS}")

    def serve(self) -> None:
        for caller in accepted(self.listener):
            with caller, contextlib.suppress(OSError, KeyError):
                caller.settimeout(20)
                name = caller.makefile().readline().removeprefix("off ").strip()
                self.asked.append(name)
                if self.is_working:
                    self.pair.guests[name].cut()
                    caller.sendall(f"{name} is off\n".encode())
