"""The program of the second controller: it has a use of the sensor for two turns, and gives the role back."""

from daskreyf import Sender

SENSOR = 0x09
HUB = 0x08


class Second:
    """What it does in each of its turns, while it has the role."""

    address = 0x0A

    def __init__(self, bus: Sender) -> None:
        self.bus = bus
        self.has_role = False
        self.wrote = False

    def turn(self) -> None:
        if self.wrote:
            self.give_role()
        else:
            self.write()

    def write(self) -> None:
        self.bus.write(SENSOR, b"\x02")
        print("second writes 02")
        self.wrote = True

    def give_role(self) -> None:
        self.bus.send_list()
        self.bus.handover(HUB)
        print("second gives the role away")
        self.has_role = False
