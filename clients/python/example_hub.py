"""A sensor hub as a program that is tried on a driven bus: python3 example_hub.py [PROGRAM]

The hub gives addresses, sets each sensor's rate, and reads whoever interrupts. It knows the bus alone, and no device's state.
"""

from __future__ import annotations

import sys
from dataclasses import dataclass

from daskreyf import Assigned, Bus, Device, Joining, NoAnswer, Record, TurnedDown

RATE = 0x05
"""What the hub writes to a sensor's first register."""


@dataclass(frozen=True)
class Reading:
    """An interrupt that was handled: whose it was, its mandatory byte, and the first register, or None if it left."""

    address: int
    byte: int | None
    rate: int | None


class SensorHub:
    """The firmware: what a controller does with its bus."""

    def __init__(self, bus: Bus) -> None:
        self._bus = bus

    def assign(self) -> tuple[Assigned, ...]:
        """Gives an address and a rate to each device that has none."""
        devices = self._bus.daa()
        for device in devices:
            self._bus.write(device.address, bytes([RATE]))
        return devices

    def handle(self) -> list[Reading]:
        """Serves whoever asks, and reads each device that interrupted."""
        readings = []
        # a frame of any kind may record an interrupt, also the read of the device before
        while self._bus.records or self._serve():
            if self._bus.records:
                readings.append(self._read(self._bus.records.pop(0)))
        return readings

    def _serve(self) -> bool:
        """Serves the first request. False if nobody asks, or it is turned down."""
        if not self._bus.asking:
            return False
        match self._bus.serve():
            case Joining():
                self.assign()
            case TurnedDown():
                return False
        return True

    def _read(self, record: Record) -> Reading:
        try:
            return Reading(record.address, record.byte, self._bus.read(record.address)[0])
        except NoAnswer:
            return Reading(record.address, record.byte, None)


def hub_of_two(bus: Bus) -> tuple[SensorHub, Device, Device]:
    """A hub with two sensors that have no address yet. Both interrupt with a mandatory byte."""
    bus.main("hub", pid=0x020400000001, bcr=0x46, dcr=0xC0)
    light = bus.attach("light", pid=0x020400000010, bcr=0x06, dcr=0x44)
    heat = bus.attach("heat", pid=0x020400000020, bcr=0x06, dcr=0x45)
    return SensorHub(bus), light, heat


def main() -> int:
    with Bus(sys.argv[1] if len(sys.argv) > 1 else "i3cbus") as bus:
        hub, light, heat = hub_of_two(bus)
        for device in hub.assign():
            print(f"{device.pid:012X} is at {device.address:02X}")
        heat.raise_interrupt(0x2A)
        light.raise_interrupt(0x11)
        print("asking:", *bus.asking)
        for reading in hub.handle():
            print(f"{reading.address:02X} interrupted with {reading.byte:02X}, rate {reading.rate:02X}")
        print("asking:", *bus.asking)
    return 0


if __name__ == "__main__":
    sys.exit(main())
