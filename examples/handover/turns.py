"""Two programs play two controllers on one bus by turns.

    python3 turns.py PATH/i3cbus hub|stale_hub [--unnamed]

Each program is given the bus as its own controller, by `bus.of`. With --unnamed it is given the bus itself, so that its lines
are sent by whoever is active. The status is 1 where a program sends a line without the role.
"""

import os
import sys

sys.path.insert(0, os.path.join(os.path.dirname(os.path.abspath(__file__)), "../../clients/python"))

from daskreyf import Bus, NotActive
from hub import Hub
from second import Second
from stale_hub import StaleHub

HUBS = {"hub": Hub, "stale_hub": StaleHub}
ROUNDS = 3


def play(bus: Bus, kind: type[Hub], named: bool) -> None:
    """Lets both programs have their turns, and tells each when it gets the role."""
    programs = [kind(bus.of("hub") if named else bus), Second(bus.of("second") if named else bus)]
    for _ in range(ROUNDS):
        for program in programs:
            if program.has_role:
                program.turn()
            active = bus.show().active
            for other in programs:
                other.has_role = other.has_role or (other is not program and other.address == active)


def main(path: str, kind: str, *options: str) -> int:
    with Bus(path) as bus:
        bus.main("hub", pid=0x020400000001, bcr=0x46, dcr=0xC0)
        bus.attach("sensor", pid=0x020400000010, bcr=0x06, dcr=0x44)
        bus.attach("second", pid=0x020400000020, bcr=0x46, dcr=0xC1)
        try:
            play(bus, HUBS[kind], "--unnamed" not in options)
        except NotActive as refused:
            print(f"a program goes on without the role: {refused}")
            return 1
    return 0


if __name__ == "__main__":
    sys.exit(main(*sys.argv[1:]))
