"""A sensor hub that meets every order of what its sensors do: python3 example_every.py PROGRAM SCENE [--careless]

clients/every.i3c is such a scene. If no interrupt is lost in any order, the program says so. Otherwise it prints an order in
which one is lost, as a script that `i3cbus run` replays.

Any frame may serve an interrupt in its header. A careless hub forgets that where it writes.
"""

from __future__ import annotations

import sys

from daskreyf import Bus, Joining, NoAnswer, Record, Served, Unmet, every

RATE = 0x05
"""What the hub writes to a sensor's first register."""


class SensorHub:
    """The firmware: it gives each sensor an address and a rate, and reads those that interrupt."""

    def __init__(self, bus: Bus, is_careless: bool) -> None:
        self._bus = bus
        self._is_careless = is_careless
        self._pending: list[Record] = []

    def assign(self) -> None:
        """Gives addresses and rates, until no device is without."""
        while devices := self._bus.daa():
            for device in devices:
                self._set_rate(device.address)

    def handle(self) -> None:
        """Handles interrupts and serves whoever asks, until nobody does."""
        while self._pending or self._bus.asking:
            if self._pending:
                self._read(self._pending.pop(0))
            else:
                self._notice(self._bus.serve())

    def _set_rate(self, address: int) -> None:
        try:
            self._bus.write(address, bytes([RATE]))
        except NoAnswer:
            pass  # the sensor is gone; its frame has served a request for all that
        if not self._is_careless:
            self._notice(self._bus.answer.served)

    def _read(self, record: Record) -> None:
        try:
            self._bus.read(record.address)
        except NoAnswer:
            pass
        self._notice(self._bus.answer.served)
        self._bus.forget(record.number)

    def _notice(self, served: Served | None) -> None:
        match served:
            case Record():
                self._pending.append(served)
            case Joining():
                self.assign()


def main() -> int:
    if len(sys.argv) < 3:
        sys.exit(__doc__)
    program, scene, *options = sys.argv[1:]
    orders = 0
    try:
        for bus in every(program, scene):
            with bus:
                hub = SensorHub(bus, is_careless="--careless" in options)
                hub.assign()
                hub.handle()
                while bus.wait():
                    hub.handle()
            orders = bus.order
    except Unmet as unmet:
        print(unmet.script, end="")
        return 1
    print(f"all {orders} orders: no interrupt is lost")
    return 0


if __name__ == "__main__":
    sys.exit(main())
