"""Tests of the sensor hub of example_hub.py on a driven bus.

I3CBUS=PATH python3 -m unittest test_hub
"""

from __future__ import annotations

import os
import unittest

from daskreyf import Bus, Kinds, ListStale, Masked, NoAnswer, Policy, Record, Torn, TurnedDown, WantsRole
from example_hub import RATE, Reading, hub_of_two

LIGHT, HEAT = 0x09, 0x0A
"""The addresses of the two sensors: the smaller PID gets the smaller one."""


class HubTest(unittest.TestCase):
    """Each test has a bus of its own, on which both sensors have their addresses."""

    def setUp(self) -> None:
        self.bus = self.enterContext(Bus(os.environ.get("I3CBUS", "i3cbus")))
        self.hub, self.light, self.heat = hub_of_two(self.bus)
        self.hub.assign()

    def test_each_sensor_has_an_address_and_its_rate(self) -> None:
        self.assertEqual((self.light.address, self.heat.address), (LIGHT, HEAT))
        self.assertEqual(self.bus.read(HEAT), bytes([RATE] + 15 * [0]))

    def test_an_interrupt_is_recorded_once(self) -> None:
        self.light.raise_interrupt(0x2A)
        self.assertEqual(self.bus.asking, ("light",))
        recorded = Record(number=1, slot=1, raised=1, address=LIGHT, byte=0x2A)
        self.assertEqual(self.bus.serve(), recorded)
        self.assertEqual(self.bus.asking, ())
        self.assertIsNone(self.bus.serve())
        self.assertEqual(self.bus.show().records, (recorded,))

    def test_the_read_of_one_sensor_finds_the_other_ones_interrupt(self) -> None:
        self.heat.raise_interrupt(0x02)
        self.light.raise_interrupt(0x01)
        self.assertEqual(self.hub.handle(), [Reading(LIGHT, 0x01, RATE), Reading(HEAT, 0x02, RATE)])
        # six frames: an assignment, two writes, one `serve` for light, and two reads, whose first one served heat
        symbols = self.bus.symbols()
        self.assertEqual(symbols.count("S"), 6)
        self.assertIn("S 0A/R+ 02.0 Sr 7E/W+ Sr 09/R+ 05.1", " ".join(symbols))

    def test_a_sensor_that_dies_with_its_byte_records_nothing(self) -> None:
        self.light.raise_interrupt(0x2A)
        self.light.cut(9)
        self.assertEqual(self.bus.serve(), Torn())
        self.assertEqual(self.hub.handle(), [])
        self.assertIsNone(self.light.address)

    def test_a_sensor_that_dies_before_it_is_read_has_interrupted(self) -> None:
        self.light.raise_interrupt(0x2A)
        self.bus.serve()
        self.light.drop()
        self.assertEqual(self.hub.handle(), [Reading(LIGHT, 0x2A, None)])

    def test_a_newcomer_joins_and_gets_its_rate(self) -> None:
        late = self.bus.attach("late", pid=0x020400000005, bcr=0x06, dcr=0x46)
        self.assertEqual(self.bus.asking, ())
        late.ask_join()
        self.assertEqual(self.bus.asking, ("late",))
        self.assertEqual(self.hub.handle(), [])
        self.assertEqual(late.address, 0x0B)
        self.assertEqual(self.bus.read(0x0B)[0], RATE)

    def test_a_request_that_is_turned_down_goes_on(self) -> None:
        self.bus.policy(Policy.JOINS)
        self.light.raise_interrupt(0x2A)
        self.assertEqual(self.bus.serve(), TurnedDown())
        self.assertEqual(self.bus.asking, ("light",))
        self.bus.policy(Policy.ALL)
        self.assertEqual(self.hub.handle(), [Reading(LIGHT, 0x2A, RATE)])

    def test_disabled_interrupts_are_refused(self) -> None:
        self.bus.disec(Kinds.INTERRUPTS, LIGHT)
        with self.assertRaises(Masked):
            self.light.raise_interrupt(0x2A)
        self.heat.raise_interrupt(0x2B)
        with self.assertRaises(NoAnswer) as refused:
            self.bus.read(0x50)
        self.assertEqual(refused.exception.about, "50")
        self.assertEqual(self.bus.asking, ("heat",))

    def test_the_role_goes_to_a_second_controller(self) -> None:
        second = self.bus.attach("second", pid=0x020400000030, bcr=0x46, dcr=0xC1)
        self.hub.assign()
        second.ask_role()
        self.assertEqual(self.bus.serve(), WantsRole(0x0B))
        with self.assertRaises(ListStale):
            self.bus.handover(0x0B)
        self.bus.send_list()
        self.assertEqual(self.bus.handover(0x0B), 0x0B)
        self.assertEqual(self.bus.show().active, 0x0B)


if __name__ == "__main__":
    unittest.main()
