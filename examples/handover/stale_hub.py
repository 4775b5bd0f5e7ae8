"""The hub's program with the commonest bug of a handover: it forgets that it has given the role away, and goes on."""

from hub import SENSOR, Hub


class StaleHub(Hub):
    def give_role(self) -> None:
        super().give_role()
        self.has_role = True  # the bug

    def read(self) -> None:
        self.bus.write(SENSOR, b"\x03")
        print("hub writes 03")
        super().read()
