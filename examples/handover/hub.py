"""The program of the main controller: it starts a measurement, gives the role away, and reads when it has the role again."""

from daskreyf import Sender

SENSOR = 0x09
SECOND = 0x0A


class Hub:
    """What it does in each of its turns, while it has the role."""

    address = 0x08

    def __init__(self, bus: Sender) -> None:
        self.bus = bus
        self.has_role = True
        self.started = False

    def turn(self) -> None:
        if self.started:
            self.read()
        else:
            self.start()
            self.give_role()

    def start(self) -> None:
        self.bus.daa()
        self.bus.write(SENSOR, b"\x01")
        print("hub writes 01")
        self.started = True

    def give_role(self) -> None:
        self.bus.send_list()
        self.bus.handover(SECOND)
        print("hub gives the role away")
        self.has_role = False

    def read(self) -> None:
        print(f"hub reads {self.bus.read(SENSOR)[:1].hex()}")
