"""Tests of the client itself: each line has its method, and what goes wrong has its error.

I3CBUS=PATH python3 -m unittest test_daskreyf
"""

from __future__ import annotations

import contextlib
import io
import os
import re
import signal
import subprocess
import tempfile
import traceback
import unittest
import unittest.mock
from collections.abc import Callable, Generator
from pathlib import Path

import daskreyf
from daskreyf import Answer, Assigned, Bus, BusDetails, BusGone, BusState, Device, DeviceDetails, DeviceState, EveryBus, Kinds
from daskreyf import LegacyTarget, Nobody, Policy, ReadLength, Record, Refused, Term, Torn, TurnedDown, every

PROGRAM = os.environ.get("I3CBUS", "i3cbus")


def with_hub(bus: Bus) -> Device:
    return bus.main("hub", pid=0x020400000001, bcr=0x46, dcr=0xC0)


def with_target(bus: Bus, name: str = "t") -> Device:
    return bus.attach(name, pid=0x020400000010, bcr=0x06, dcr=0x44)


class LinesTest(unittest.TestCase):
    """Each line of docs/FORMATS.md by its method."""

    def setUp(self) -> None:
        self.bus = self.enterContext(Bus(PROGRAM))

    def test_the_start(self) -> None:
        self.assertEqual(self.bus.legacy("clock", 0x68, 0x40), LegacyTarget("clock", 0x68))
        self.assertEqual(with_hub(self.bus).slot, 0)
        self.assertEqual(with_target(self.bus).slot, 1)
        hub, target = DeviceState("hub", 0x08, 0), DeviceState("t", None, 0)
        self.assertEqual(self.bus.show(), BusState(0x08, (hub, target), (LegacyTarget("clock", 0x68),), ()))

    def test_the_log_from_a_number_on(self) -> None:
        with_hub(self.bus)
        target = with_target(self.bus)
        self.bus.daa()
        for byte in (0x11, 0x12, 0x13):
            target.raise_interrupt(byte)
            self.bus.serve()
        self.assertEqual(self.bus.show().records, tuple(self.bus.records))
        self.assertEqual(self.bus.show(1), self.bus.show())
        self.assertEqual(self.bus.show(2).records, (Record(2, 1, 2, 0x09, 0x12), Record(3, 1, 3, 0x09, 0x13)))
        self.assertEqual(self.bus.show(4).records, ())
        self.assertEqual(self.bus.answer.lines[-1], "records 3")
        self.assertEqual(len(self.bus.records), 3)

    def test_a_log_that_gets_shorter(self) -> None:
        with_hub(self.bus)
        target = with_target(self.bus)
        self.bus.daa()
        for byte in (0x11, 0x12, 0x13):
            target.raise_interrupt(byte)
            self.bus.serve()
        self.bus.forget(2)
        self.assertEqual(self.bus.show().records, (Record(3, 1, 3, 0x09, 0x13),))
        self.assertEqual(self.bus.answer.lines[-2], "records 1")
        self.bus.forget(1)
        self.bus.forget(4)
        self.assertEqual(self.bus.show().records, ())
        target.raise_interrupt(0x14)
        self.assertEqual(self.bus.serve(), Record(4, 1, 4, 0x09, 0x14))
        self.assertEqual(len(self.bus.records), 4)

    def test_all_of_the_bus(self) -> None:
        with_hub(self.bus)
        joiner = with_target(self.bus)
        self.bus.disec(Kinds.INTERRUPTS | Kinds.ROLES)
        joiner.ask_join()
        hub = DeviceDetails("hub", 0x020400000001, 0x46, 0xC0, Kinds(11), Kinds(0))
        target = DeviceDetails("t", 0x020400000010, 0x06, 0x44, Kinds.JOINS, Kinds.JOINS)
        self.assertEqual(self.bus.show_all(), BusDetails(self.bus.show(), (hub, target), False, False))
        self.bus.send_list()
        self.bus.open_daa()
        self.assertEqual((self.bus.show_all().listed, self.bus.show_all().in_session), (True, True))

    def test_the_records_of_each_active_controller(self) -> None:
        with_hub(self.bus)
        self.bus.attach("c", pid=0x020400000020, bcr=0x46, dcr=0xC1)
        target = with_target(self.bus)
        self.bus.daa()
        for byte in (0x11, 0x12):
            target.raise_interrupt(byte)
            self.bus.serve()
        self.assertEqual(self.bus.show_all().terms, (Term(0, 1, 2),))
        self.bus.send_list()
        self.bus.handover(0x0A)
        target.raise_interrupt(0x13)
        self.bus.serve()
        details = self.bus.show_all()
        self.assertEqual(details.terms, (Term(0, 1, 2), Term(1, 3, 3)))
        self.assertEqual([it.name for it in details.devices], ["hub", "c", "t"])
        self.assertEqual((details.listed, details.in_session), (False, False))

    def test_an_assignment_of_one_line(self) -> None:
        with_hub(self.bus)
        with_target(self.bus)
        self.assertEqual(self.bus.daa(), (Assigned(0x09, 0x020400000010, 0x06, 0x44),))
        self.assertEqual(self.bus.daa(), ())
        self.assertEqual(
            " ".join(self.bus.symbols()),
            "S 7E/W+ 07.0 Sr 7E/R+ =0204000000100644 @13+ Sr 7E/R- P S 7E/W+ 07.0 Sr 7E/R- P",
        )
        self.assertEqual(self.bus.frames(1), ("S 7E/W+ 07.0 Sr 7E/R- P",))
        self.assertEqual(len(self.bus.frames(3)), 2)

    def test_an_assignment_of_rounds(self) -> None:
        with_hub(self.bus)
        with_target(self.bus)
        self.assertIsNone(self.bus.open_daa())
        with self.assertRaises(daskreyf.SessionOpen):
            self.bus.serve()
        self.assertEqual(self.bus.round(), Assigned(0x09, 0x020400000010, 0x06, 0x44))
        self.assertIsNone(self.bus.round())
        self.bus.end_daa()
        with self.assertRaises(daskreyf.NoSession):
            self.bus.round()

    def test_a_round_that_nobody_takes(self) -> None:
        with_hub(self.bus)
        target = with_target(self.bus)
        self.bus.open_daa()
        target.cut(73)
        self.assertEqual(self.bus.round(), Nobody())
        self.assertIsNone(self.bus.round())
        self.bus.end_daa()

    def test_transfers(self) -> None:
        self.bus.legacy("clock", 0x68, 0x40)
        with_hub(self.bus)
        self.assertIsNone(self.bus.write(0x68, b"\x12\xab"))
        self.assertEqual(self.bus.read(0x68), b"\x12\xab" + bytes(14))
        self.assertIsNone(self.bus.write(0x68, b""))
        with self.assertRaises(daskreyf.TooLong):
            self.bus.write(0x68, bytes(17))

    def test_static_addresses(self) -> None:
        self.bus.declare(0x20, 0x020400000010, 0x06, 0x44)
        with self.assertRaises(daskreyf.IdentityTwice):
            self.bus.declare(0x21, 0x020400000010, 0x06, 0x44)
        with self.assertRaises(daskreyf.LegacyTwice):
            self.bus.legacy("clock", 0x20, 0x40)
        with_hub(self.bus)
        target = with_target(self.bus)
        with self.assertRaises(daskreyf.BadAddress) as refused:
            self.bus.setdasa(0x20, 0x08)
        self.assertEqual(refused.exception.about, "08")
        self.assertIsNone(self.bus.setdasa(0x20, 0x30))
        target.raise_interrupt(0x11)
        self.assertEqual(self.bus.setnewda(0x30, 0x31), Record(1, 1, 1, 0x30, 0x11))
        self.assertEqual(target.address, 0x31)
        with self.assertRaises(daskreyf.NoAnswer):
            self.bus.setdasa(0x20, 0x30)
        with self.assertRaises(daskreyf.BusMade):
            self.bus.declare(0x22, 0x020400000011, 0x06, 0x44)

    def test_data_of_a_device(self) -> None:
        with_hub(self.bus)
        target = with_target(self.bus)
        self.bus.attach("plain", pid=0x020400000020, bcr=0x02, dcr=0x45)
        self.bus.daa()
        self.assertEqual(self.bus.get_pid(0x09), 0x020400000010)
        self.assertEqual((self.bus.get_bcr(0x09), self.bus.get_dcr(0x09)), (0x06, 0x44))
        self.assertEqual((self.bus.get_mwl(0x09), self.bus.get_mrl(0x09)), (16, ReadLength(16, 1)))
        self.assertEqual(self.bus.get_mrl(0x0A), ReadLength(16, None))
        self.assertEqual((self.bus.get_mxds(0x09), self.bus.get_caps(0x09)), (b"\x00\x00", b"\x00\x01"))
        self.assertFalse(self.bus.get_status(0x09))
        target.raise_interrupt(0x11)
        self.bus.policy(Policy.NONE)
        self.assertTrue(self.bus.get_status(0x09))
        self.assertEqual(self.bus.answer.served, TurnedDown())
        self.bus.policy(Policy.ALL)
        self.assertFalse(self.bus.get_status(0x09))
        self.assertEqual(self.bus.records, [Record(1, 1, 1, 0x09, 0x11)])
        with self.assertRaises(daskreyf.NoAnswer):
            self.bus.get_pid(0x50)
        target.cut(27)
        with self.assertRaises(daskreyf.NoEnd):
            self.bus.get_bcr(0x09)

    def test_maximum_lengths(self) -> None:
        self.bus.legacy("clock", 0x68, 0x40)
        with_hub(self.bus)
        target = with_target(self.bus)
        self.bus.daa()
        self.assertIsNone(self.bus.write(0x09, b"\x11\x22\x33"))
        self.assertIsNone(self.bus.set_mwl(2))
        self.assertIsNone(self.bus.set_mrl(3, 0x09))
        self.assertEqual((self.bus.get_mwl(0x09), self.bus.get_mrl(0x09)), (2, ReadLength(3, 1)))
        with self.assertRaises(daskreyf.TooLong):
            self.bus.write(0x09, b"\x44\x55\x66")
        self.assertIsNone(self.bus.write(0x09, b"\x44\x55"))
        self.assertEqual(self.bus.read(0x09), b"\x44\x55\x33")
        self.assertIsNone(self.bus.write(0x68, bytes(16)))
        self.assertEqual(self.bus.read(0x68), bytes(16))
        with self.assertRaises(daskreyf.NoAnswer) as refused:
            self.bus.set_mwl(1, 0x50)
        self.assertEqual(refused.exception.about, "50")
        target.raise_interrupt(0x11)
        self.assertEqual(self.bus.set_mrl(1), Record(1, 1, 1, 0x09, 0x11))
        target.cut(18)
        with self.assertRaises(daskreyf.NoEnd):
            self.bus.read(0x09)

    def test_two_controllers(self) -> None:
        hub, second = self.bus.of("hub"), self.bus.of("second")
        with self.assertRaises(daskreyf.NoBus):
            hub.serve()
        with_hub(self.bus)
        self.bus.attach("second", pid=0x020400000030, bcr=0x46, dcr=0xC1)
        target = with_target(self.bus)
        self.assertEqual([given.address for given in hub.daa()], [0x09, 0x0A])
        with self.assertRaises(daskreyf.NotActive):
            second.send_list()
        self.assertIsNone(hub.send_list())
        self.assertEqual(hub.handover(0x0A), 0x0A)
        target.raise_interrupt(0x2B)
        with self.assertRaises(daskreyf.NotActive) as refused:
            hub.write(0x09, b"\x2a")
        self.assertIsNone(refused.exception.about)
        self.assertEqual(self.bus.asking, ("t",))
        self.assertEqual(second.write(0x09, b"\x2a"), Record(1, 2, 1, 0x09, 0x2B))
        self.assertEqual(second.read(0x09)[:2], b"\x2a\x00")
        self.assertEqual(self.bus.read(0x09)[:2], b"\x2a\x00")
        self.assertIsNone(second.open_daa())
        with self.assertRaises(daskreyf.NotActive):
            hub.end_daa()
        self.assertIsNone(second.round())
        second.end_daa()
        with self.assertRaises(daskreyf.NoName):
            self.bus.of("nobody").serve()
        with self.assertRaises(daskreyf.BadLine):
            self.bus.line("as second raise t 2C")

    def test_sixteen_identities_are_declared(self) -> None:
        for number in range(16):
            self.bus.declare(0x20 + number, number, 0x06, 0x44)
        with self.assertRaises(daskreyf.TooManyDeclared):
            self.bus.declare(0x30, 16, 0x06, 0x44)

    def test_all_slots_have_a_device(self) -> None:
        with_hub(self.bus)
        devices = [self.bus.attach(f"d{number}", number, 0x06, 0x44) for number in range(1, 64)]
        with self.assertRaises(daskreyf.SlotTaken):
            self.bus.attach("more", 64, 0x06, 0x44)
        self.bus.daa()
        self.assertEqual(devices[52].address, 0x3D)
        self.assertEqual(devices[62].address, 0x48)
        self.assertEqual(len(self.bus.show().devices), 64)
        devices[62].raise_interrupt(0x3F)
        self.assertEqual(self.bus.serve(), Record(1, 63, 1, 0x48, 0x3F))

    def test_kinds_resets_and_lists(self) -> None:
        with_hub(self.bus)
        target = with_target(self.bus)
        self.bus.daa()
        self.assertIsNone(self.bus.disec(Kinds.INTERRUPTS | Kinds.JOINS))
        with self.assertRaises(daskreyf.Masked):
            target.raise_interrupt(0x11)
        self.assertIsNone(self.bus.enec(Kinds.INTERRUPTS, 0x09))
        self.assertEqual(target.raise_interrupt(0x11), 1)
        recorded = Record(1, 1, 1, 0x09, 0x11)
        self.assertEqual(self.bus.send_list(), recorded)
        self.assertEqual(self.bus.records, [recorded])
        self.assertIsNone(self.bus.reset())
        self.assertIsNone(target.address)

    def test_an_interrupt_without_a_byte(self) -> None:
        with_hub(self.bus)
        plain = self.bus.attach("plain", pid=0x020400000020, bcr=0x02, dcr=0x00)
        self.bus.daa()
        plain.raise_interrupt()
        self.assertEqual(self.bus.serve(), Record(1, 1, 1, 0x09, None))

    def test_a_refused_frame_has_served(self) -> None:
        with_hub(self.bus)
        target = with_target(self.bus)
        self.bus.daa()
        target.raise_interrupt(0x11)
        target.cut(9)
        with self.assertRaises(daskreyf.NoAnswer) as refused:
            self.bus.read(0x09)
        self.assertEqual((refused.exception.about, refused.exception.answer.served), ("09", Torn()))

    def test_a_policy_by_its_word(self) -> None:
        with_hub(self.bus)
        self.bus.policy(Policy("none"))
        self.assertEqual(self.bus.answer, Answer(2))

    def test_a_policy_of_several_kinds(self) -> None:
        with_hub(self.bus)
        target = with_target(self.bus)
        self.bus.daa()
        target.raise_interrupt(0x11)
        self.bus.policy(Policy.ROLES, Policy.JOINS)
        self.assertEqual(self.bus.serve(), TurnedDown())
        for wrong in ((Policy.JOINS, Policy.JOINS), (Policy.JOINS, Policy.ALL), (Policy.NONE, Policy.INTERRUPTS)):
            with self.assertRaises(daskreyf.BadLine):
                self.bus.policy(*wrong)
        self.bus.policy(Policy.ROLES, Policy.INTERRUPTS)
        self.assertEqual(self.bus.serve(), Record(1, 1, 1, 0x09, 0x11))

    def test_a_policy_with_exceptions(self) -> None:
        with_hub(self.bus)
        target = with_target(self.bus)
        light = self.bus.attach("light", 0x020400000011, 0x06, 0x45)
        self.bus.daa()
        target.raise_interrupt(0x11)
        self.bus.policy(Policy.ALL, but=[target])
        self.assertEqual(self.bus.serve(), TurnedDown())
        self.bus.policy(Policy.JOINS, Policy.INTERRUPTS, but=[light, target])
        self.assertEqual(self.bus.serve(), TurnedDown())
        for wrong in ((Policy.NONE, [target]), (Policy.ALL, [target, target])):
            with self.assertRaises(daskreyf.BadLine):
                self.bus.policy(wrong[0], but=wrong[1])
        light.drop()
        with self.assertRaises(daskreyf.NoDevice):
            self.bus.policy(Policy.ALL, but=[light])
        self.assertEqual(self.bus.serve(), TurnedDown())
        self.bus.policy(Policy.ALL)
        self.assertEqual(self.bus.serve(), Record(1, 1, 1, 0x09, 0x11))

    def test_lines_of_ones_own(self) -> None:
        self.assertEqual(self.bus.line(""), Answer(1))
        self.assertEqual(self.bus.line("# a comment, \0 and \N{MICRO SIGN}"), Answer(2))
        with self.assertRaises(daskreyf.BadLine):
            self.bus.line("show\0")
        with self.assertRaises(daskreyf.NoBus):
            self.bus.line("show")
        self.assertEqual(self.bus.line("main hub 020400000001 46 C0"), Answer(5, ("hub slot 0 at 08",)))

    def test_names_that_look_like_answers(self) -> None:
        with_hub(self.bus)
        names = ("ok", "refused", "asking", "record", "records", "09", "waiting", "0")
        for slot, name in enumerate(names, 1):
            self.bus.attach(name, pid=0x020400000010 + slot, bcr=0x06, dcr=0x44)
            self.assertEqual(self.bus.answer.lines, (f"{name} slot {slot}",))
        self.bus.daa()
        for name in names:
            self.bus.line(f"raise {name} 11")
        self.assertEqual([device.name for device in self.bus.show().devices], ["hub", *names])
        for slot, name in enumerate(names, 1):
            self.assertEqual(self.bus.asking, (name,))
            self.assertEqual(self.bus.serve(), Record(slot, slot, 1, 0x08 + slot, 0x11))
        self.assertEqual(self.bus.asking, ())

    def test_all_that_want_to_join_ask(self) -> None:
        with_hub(self.bus)
        self.bus.line("attach asking 020400000010 06 44")
        self.bus.line("attach records 020400000011 06 44")
        self.bus.line("ask-join records")
        self.assertEqual(self.bus.asking, ("records",))
        self.bus.line("ask-join asking")
        self.assertEqual(self.bus.asking, ("asking", "records"))
        self.bus.line("drop records")
        self.assertEqual(self.bus.asking, ("asking",))


class FaultsTest(unittest.TestCase):
    """What goes wrong with the program or its words."""

    def test_words_that_no_line_has(self) -> None:
        with Bus(PROGRAM) as bus:
            for wrong in (
                lambda: bus.line("show\nshow"),
                lambda: bus.read(0x100),
                lambda: bus.read(-1),
                lambda: with_hub(bus).cut(65536),
                lambda: bus.show(0),
                lambda: bus.show(1 << 64),
                lambda: bus.forget(0),
                lambda: bus.forget(1 << 64),
                lambda: bus.set_mwl(0),
                lambda: bus.set_mrl(17, 0x09),
                lambda: bus.policy("some"),  # type: ignore[arg-type]
            ):
                self.assertRaises(ValueError, wrong)
            self.assertEqual(bus.show().active, 0x08)

    def test_the_status_of_the_end(self) -> None:
        bus = Bus(PROGRAM)
        with_hub(bus)
        self.assertEqual((bus.close(), bus.close()), (0, 0))
        self.assertRaisesRegex(BusGone, "closed", bus.serve)
        bus = Bus(PROGRAM)
        self.assertRaises(daskreyf.NoBus, bus.serve)
        self.assertEqual(bus.close(), 1)

    def test_a_program_that_is_missing(self) -> None:
        self.assertRaises(FileNotFoundError, Bus, "./no-such-program")

    def test_a_program_that_dies(self) -> None:
        bus = Bus(PROGRAM)
        with_hub(bus)
        bus._process.kill()
        with self.assertRaises(BusGone) as gone:
            bus.serve()
        self.assertEqual((gone.exception.status, bus.close()), (-signal.SIGKILL, -signal.SIGKILL))

    def test_a_program_that_says_why_it_ends(self) -> None:
        bus = Bus(["sh", "-c", "read line; echo 'i3cbus: memory' >&2; exit 2"])
        with self.assertRaisesRegex(BusGone, "i3cbus has ended: status 2: i3cbus: memory"):
            bus.serve()

    def test_an_answer_that_breaks_off(self) -> None:
        bus = Bus(["sh", "-c", "read line; echo quiet"])
        self.assertRaisesRegex(BusGone, "in the midst of an answer: status 0", bus.serve)

    def test_a_program_that_no_longer_reads(self) -> None:
        bus = Bus(["sh", "-c", "exec <&-; echo ready; sleep 0.2"])
        self.assertEqual(os.read(bus._from, 6), b"ready\n")
        self.assertRaisesRegex(BusGone, "no longer reads: status", bus.serve)

    def test_the_fault_at_the_end_is_told(self) -> None:
        with self.assertRaisesRegex(BusGone, "status 2"):
            with Bus(["sh", "-c", "exit 2"]):
                pass

    def test_an_answer_that_comes_in_pieces(self) -> None:
        bus = Bus(["sh", "-c", "read line; printf 'ok 10 w'; sleep 0.1; printf 'aiting 0\\no'; sleep 0.1; echo 'k 1'; read line"])
        self.assertEqual(bus.line("show"), Answer(1, ("ok 10 waiting 0",)))
        bus.close()

    def test_a_refusal_that_is_not_known(self) -> None:
        bus = Bus(["sh", "-c", "read line; echo refused 1 OfLater; read line"])
        with self.assertRaises(Refused) as refused:
            bus.line("of a later engine")
        self.assertEqual((type(refused.exception), refused.exception.why), (Refused, "OfLater"))
        bus.close()


def _kept_in(sent: list[bytes], send: Callable[[Bus, bytes], None]) -> Callable[[Bus, bytes], None]:
    """The same call, which also keeps what is sent."""

    def kept(bus: Bus, lines: bytes) -> None:
        sent.append(lines)
        send(bus, lines)

    return kept


class EveryTest(unittest.TestCase):
    """Programs that meet every order. What is expected is written down by hand, from the scenes."""

    START = "main hub 020400000001 46 C0\nattach light 020400000010 06 44\nattach heat 020400000020 06 45\n"
    ADDRESSED = START + "daa\n"
    """The first four lines of scenes: light is at 09, and heat at 0A."""

    def setUp(self) -> None:
        self.folder = Path(self.enterContext(tempfile.TemporaryDirectory()))

    def scene(self, lines: str, start: str = ADDRESSED) -> Path:
        scene = self.folder / "scene.i3c"
        scene.write_text(start + lines)
        return scene

    def every(self, lines: str, start: str = ADDRESSED, most: int | None = None) -> Generator[EveryBus, None, None]:
        """Every order of a scene of these lines."""
        return every(PROGRAM, self.scene(lines, start), most)

    def run_script(self, script: str) -> subprocess.CompletedProcess[str]:
        return subprocess.run([PROGRAM, "run", "-"], input=script, stdout=subprocess.PIPE, text=True)

    def test_each_order_of_two_tracks(self) -> None:
        # served: what each `serve` comes to; | is a `wait` in which something happens; light: it asks, as is told then
        wanted = [
            # before the first `serve`: both lines, of which either may be first; light's; heat's
            ("recorded", "raise drop serve"),
            ("recorded | quiet", "raise serve drop serve"),
            ("quiet | light recorded", "drop serve raise serve"),
            # both lines come later, in the first `wait`; light's comes there, and heat's before or behind the next `serve`;
            # heat's comes there, and light's before or behind the next `serve`
            ("quiet | light recorded", "serve raise drop serve"),
            ("quiet | light recorded", "serve raise drop serve"),
            ("quiet | light recorded | quiet", "serve raise serve drop serve"),
            ("quiet | recorded", "serve drop raise serve"),
            ("quiet | quiet | light recorded", "serve drop serve raise serve"),
        ]
        met = []
        for bus in self.every("any\ntrack\nraise light 2A\ntrack\ndrop heat\nclose\n"):
            with bus:
                self.assertEqual(bus.order, len(met) + 1)
                told = [self.served(bus)]
                while bus.wait():
                    told += ["|", *bus.asking, self.served(bus)]
                script = bus.script()
                self.assertTrue(script.startswith(self.ADDRESSED))
                words = " ".join(line.split()[0] for line in script.removeprefix(self.ADDRESSED).splitlines())
                met.append((" ".join(told), words.replace("drop raise", "raise drop")))
                self.assertEqual(bus.records, [Record(1, 1, 1, 0x09, 0x2A)])
                replayed = self.run_script(script)
                self.assertEqual(replayed.returncode, 0)
                self.assertEqual(replayed.stdout.count("recorded 1\n"), 1)
        # which of two lines that change different devices comes first makes no difference, and one way is enough
        wanted = [(told, words.replace("drop raise", "raise drop")) for told, words in wanted]
        self.assertEqual(sorted(met), sorted(wanted))

    def served(self, bus: EveryBus) -> str:
        """What a `serve` comes to, where light's one interrupt is all that there is."""
        served = bus.serve()
        self.assertIn(served, (None, Record(1, 1, 1, 0x09, 0x2A)))
        return "recorded" if served else "quiet"

    def test_nothing_is_left_to_wait_for(self) -> None:
        waits = []
        for bus in self.every("any\ntrack\nask-join heat\nraise light 2A\nclose\n"):
            waits.append((bus.wait(), bus.asking, bus.wait(), bus.asking, bus.wait(), bus.asking))
        asked = ("light",)
        # heat has an address, so its line is refused; the first `wait` runs one line, or both
        self.assertCountEqual(waits, [(True, (), True, asked, False, asked), (True, asked, False, asked, False, asked)])

    def test_nobody_is_known_to_ask_when_an_order_begins(self) -> None:
        asking = []
        for bus in self.every("any\ntrack\nraise light 2A\nclose\n"):
            asking.append(bus.asking)
            bus.send_list()
            bus.wait()
            asking.append(bus.asking)
        # `list` has served light, or light asks after it
        self.assertCountEqual(asking, [(), (), (), ("light",)])

    def test_lines_that_are_known_go_with_the_next_one(self) -> None:
        sent: list[bytes] = []
        numbers = []
        with unittest.mock.patch.object(EveryBus, "_send", autospec=True, side_effect=_kept_in(sent, EveryBus._send)):
            for bus in self.every("any\ntrack\nraise light 2A\nclose\n"):
                bus.policy(Policy.ALL)
                numbers.append(bus.answer.number)
                bus.serve()
                while bus.wait():
                    bus.serve()
                numbers.append(bus.answer.number)
        first = [b"policy all\n", b"serve\n", b"wait\n", b"again\n", b"same\n"]
        # light's interrupt comes before the first `serve`, or in the wait behind it
        self.assertEqual(sent, [*first, b"policy all\nserve\n", b"wait\n", b"serve\n", b"wait\n", b"again\n"])
        self.assertEqual(numbers, [1, 3, 6, 10])

    def test_another_line_behind_one_that_is_known(self) -> None:
        with self.assertRaises(daskreyf.Differs) as differs:
            for bus in self.every("any\ntrack\nraise light 2A\nclose\n"):
                with bus:
                    bus.policy(Policy.ALL)
                    bus.serve() if bus.order == 1 else bus.reset()
        self.assertEqual(differs.exception.due, "serve")
        self.assertTrue(differs.exception.__notes__[0].endswith(f"replays:\n{self.ADDRESSED}policy all"))

    def test_a_scene_without_tracks_has_one_order(self) -> None:
        orders = [(bus.order, bus.wait(), bus.serve()) for bus in self.every("any\nclose\n")]
        self.assertEqual(orders, [(1, False, None)])

    def test_an_assignment_frame_by_frame(self) -> None:
        light = Assigned(0x09, 0x020400000010, 0x06, 0x44)
        heat = Assigned(0x0A, 0x020400000020, 0x06, 0x45)
        for name in (None, "hub"):
            found = []
            for bus in self.every("any\ntrack\ndrop heat\nclose\n", start=self.START):
                found.append(bus.daa() if name is None else bus.of(name).daa())
                lines = ("assigned 09 020400000010 06 44", "assigned 0A 020400000020 06 45")[: len(found[-1])]
                self.assertEqual((bus.answer.lines, bus.answer.assigned), ((*lines, "done"), found[-1]))
                self.assertIsNone(bus.answer.served)
            # heat leaves before `open`, or before a round: light's, its own, or the one that nobody takes; or behind them
            self.assertCountEqual(found, [(light,)] * 3 + [(light, heat)] * 2)

    def test_an_assignment_that_turns_a_request_down(self) -> None:
        scene = "raise light 2A\nany\ntrack\nclose\n"
        # heat comes back without an address, so that the assignment has a round for it
        for bus in self.every("drop heat\nattach heat 020400000020 06 45\n" + scene):
            bus.daa()
            self.assertEqual(bus.answer.lines, ("turned down", "assigned 0A 020400000020 06 45", "done"))
            self.assertEqual((bus.answer.served, bus.answer.asking, bus.asking), (TurnedDown(), ("light",), ("light",)))
            bus.daa()
            self.assertEqual((bus.answer.lines, bus.answer.asking), (("turned down", "done"), None))

    def test_an_assignment_without_an_address_left(self) -> None:
        answers = ("open; echo ok 1", "assigned 09 020400000010 06 44; echo ok 2", "refused 3 NoAddress", "ended; echo ok 4")
        play = "".join(f"read line; echo {answer}; " for answer in answers)
        with EveryBus(["sh", "-c", play], "scene.i3c") as bus:
            with self.assertRaises(daskreyf.NoAddress) as refused:
                bus.daa()
            self.assertEqual(refused.exception.answer.assigned, (Assigned(0x09, 0x020400000010, 0x06, 0x44),))
            self.assertIs(bus.answer, refused.exception.answer)
        self.assertEqual(bus.close(), 0)

    # What doesn't hold

    STRANDED = "any\ntrack\nraise light 2A\nclose\nexpect waiting 0\n"
    BROKEN = (
        "# line 9 breaks: expect waiting 0\n# waiting 1\n# run this script to see it\n"
        + ADDRESSED
        + "serve\nraise light 2A\nexpect waiting 0\n"
    )
    """The one order of `STRANDED` in which a single `serve` leaves something waiting."""

    def test_an_expectation_behind_the_tracks(self) -> None:
        with self.assertRaises(daskreyf.Unmet) as unmet:
            for bus in self.every(self.STRANDED):
                with bus:
                    bus.serve()
        self.assertEqual(unmet.exception.answer.lines, ("unmet 9 waiting 1",))
        self.assertEqual(unmet.exception.script, self.BROKEN)
        self.assertRegex(str(unmet.exception), r"^line \d+: Unmet: unmet 9 waiting 1$")
        self.assertEqual(len(unmet.exception.__notes__), 1)
        self.assertIn(", which `i3cbus run` replays:\n" + self.BROKEN.rstrip(), unmet.exception.__notes__[0])
        # the notes are part of what unittest and pytest print
        self.assertIn(self.BROKEN, "".join(traceback.format_exception(unmet.exception)))
        replayed = self.run_script(self.BROKEN)
        self.assertEqual((replayed.returncode, replayed.stdout.splitlines()[-1]), (3, "unmet 10 waiting 1"))

    def test_an_expectation_behind_a_frame(self) -> None:
        scene = "raise light 2A\nraise heat 2B\nany\nalways waiting 2\ntrack\nclose\n"
        with contextlib.redirect_stderr(io.StringIO()) as told:
            with self.assertRaises(daskreyf.Unmet) as unmet:
                for bus in self.every(scene):
                    with bus:
                        bus.serve()
        answer = unmet.exception.answer
        self.assertEqual(answer.lines, ("recorded 1", "unmet 8 waiting 1"))
        self.assertEqual((answer.record, answer.served), (Record(1, 1, 1, 0x09, 0x2A), Record(1, 1, 1, 0x09, 0x2A)))
        self.assertEqual(answer.asking, ("heat",))
        self.assertEqual((bus.records, bus.asking), ([Record(1, 1, 1, 0x09, 0x2A)], ("heat",)))
        self.assertEqual(len(unmet.exception.__notes__), 1)
        self.assertTrue(unmet.exception.script.endswith("raise light 2A\nraise heat 2B\nserve\nexpect waiting 2\n"))
        self.assertEqual((told.getvalue(), bus.close()), ("", 3))

    def test_an_expectation_that_the_program_passes_over(self) -> None:
        with self.assertRaises(daskreyf.Over), contextlib.redirect_stderr(io.StringIO()) as told:
            for bus in self.every("any\ntrack\nraise light 2A\nexpect light waiting 0\nclose\n"):
                with self.assertRaises(daskreyf.Unmet):
                    bus.wait()
        self.assertEqual((told.getvalue(), bus.close()), ("", 3))

    def test_a_failure_has_its_order_as_a_note(self) -> None:
        failures: list[BaseException] = []
        with contextlib.redirect_stderr(io.StringIO()) as told:
            for bus in self.every("any\ntrack\nraise light 2A\nclose\n"):
                # as a subtest does, in which the loop goes on; pytest's failures are no `Exception`
                try:
                    with bus:
                        bus.serve()
                        raise BaseException("no luck") if bus.records else AssertionError("no luck")
                except BaseException as error:
                    failures.append(error)
        notes = [error.__notes__ for error in failures]
        self.assertCountEqual(
            [note.partition("\n")[2] for (note,) in notes],
            [self.ADDRESSED + "serve", self.ADDRESSED + "raise light 2A\nserve"],
        )
        # `serve` has two answers, and the last of them is tried first
        self.assertEqual([note.partition(",")[0] for (note,) in notes], ["In order 1 (I3CBUS_ORDER=1)", "In order 2 (I3CBUS_ORDER=0)"])
        self.assertEqual((told.getvalue(), bus.close()), ("", 0))

    def test_an_interruption_has_no_note(self) -> None:
        with contextlib.redirect_stderr(io.StringIO()), self.assertRaises(KeyboardInterrupt) as interrupted:
            for bus in self.every("any\nclose\n"):
                with bus:
                    raise KeyboardInterrupt
        self.assertFalse(hasattr(interrupted.exception, "__notes__"))

    def test_a_failure_outside_of_with_is_told_on_standard_error(self) -> None:
        def fails(catches: bool) -> None:
            for bus in self.every("any\nclose\n"):
                bus.serve()
                if catches:
                    with contextlib.suppress(daskreyf.BadLine):
                        bus.line("no line")
                raise AssertionError("no luck")

        for catches in (False, True):
            with contextlib.redirect_stderr(io.StringIO()) as told, self.assertRaises(AssertionError) as failed:
                fails(catches)
            self.assertEqual(told.getvalue(), f"In order 1 (I3CBUS_ORDER=0), which `i3cbus run` replays:\n{self.ADDRESSED}serve\n")
            self.assertFalse(hasattr(failed.exception, "__notes__"))

    # What is refused

    def test_a_program_that_differs(self) -> None:
        runs = 0
        with self.assertRaises(daskreyf.Differs) as differs:
            for bus in self.every("any\ntrack\nraise light 2A\nclose\n"):
                with bus:
                    runs += 1
                    bus.serve() if runs == 1 else bus.reset()
        self.assertEqual((differs.exception.due, differs.exception.answer.lines), ("serve", ("due serve",)))
        # behind `serve`, `again` and `same`
        self.assertRegex(str(differs.exception), r"^line 4: Differs: 'serve' was due$")
        self.assertEqual(differs.exception.__notes__, [f"In order 2 (I3CBUS_ORDER=-), which `i3cbus run` replays:\n{self.ADDRESSED}".rstrip()])
        self.assertEqual(bus.close(), 1)

    def test_a_run_that_ends_where_an_earlier_one_went_on(self) -> None:
        with self.assertRaises(daskreyf.Differs) as differs:
            for bus in self.every("any\ntrack\nraise light 2A\nclose\n"):
                with bus:
                    if bus.order == 1:
                        bus.serve()
        self.assertEqual(differs.exception.due, "serve")
        self.assertEqual(len(differs.exception.__notes__), 1)
        self.assertEqual(bus.close(), 1)

    def test_as_many_orders_as_may_be(self) -> None:
        scene = "any\ntrack\nraise light 2A\nclose\n"
        orders = []
        with self.assertRaises(daskreyf.Most):
            for bus in self.every(scene, most=1):
                orders.append((bus.order, bus.serve()))
        self.assertEqual((len(orders), bus.close()), (1, 1))
        # there are two: light interrupts before `serve`, or behind it
        for bus in self.every(scene, most=2):
            orders.append((bus.order, bus.serve()))
        self.assertEqual([order for order, _ in orders], [1, 1, 2])
        self.assertCountEqual([served for _, served in orders[1:]], [None, Record(1, 1, 1, 0x09, 0x2A)])
        self.assertEqual(bus.close(), 0)
        self.assertRaises(ValueError, next, self.every(scene, most=0))

    TWO_TRACKS = "any\ntrack\nraise light 2A\ntrack\ndrop heat\nclose\n"

    def runs(self, which: daskreyf.Part | daskreyf.One | daskreyf.Drawn | None = None) -> list[tuple[str, str]]:
        """What `TWO_TRACKS` comes to in each order that is tried, under its choices."""
        runs = []
        for bus in every(PROGRAM, self.scene(self.TWO_TRACKS), which=which):
            told = [self.served(bus)]
            while bus.wait():
                told += ["|", *bus.asking, self.served(bus)]
            runs.append((bus.choices(), " ".join(told)))
        self.assertEqual(bus.close(), 0)
        return runs

    def test_each_order_alone_by_its_choices(self) -> None:
        runs = self.runs()
        self.assertEqual(len({choices for choices, _ in runs}), 8)
        for choices, told in runs:
            self.assertEqual(self.runs(daskreyf.One(choices)), [(choices, told)])
            with unittest.mock.patch.dict(os.environ, {"I3CBUS_ORDER": choices}):
                self.assertEqual(self.runs(daskreyf.Part(1, 2)), [(choices, told)])

    def test_parts_of_the_orders(self) -> None:
        runs = self.runs()
        parts = [self.runs(daskreyf.Part(number, 3)) for number in (1, 2, 3)]
        self.assertCountEqual([run for part in parts for run in part], runs)
        self.assertNotIn([], parts)

    def test_drawn_orders(self) -> None:
        drawn = self.runs(daskreyf.Drawn(20, 7))
        self.assertEqual((len(drawn), drawn), (20, self.runs(daskreyf.Drawn(20, 7))))
        self.assertLessEqual(set(drawn), set(self.runs()))
        self.assertNotEqual(drawn, self.runs(daskreyf.Drawn(20, 8)))

    def test_a_failure_tells_how_to_try_its_order_alone(self) -> None:
        with self.assertRaises(daskreyf.Unmet) as unmet:
            for bus in self.every(self.STRANDED):
                with bus:
                    bus.serve()
        (note,) = unmet.exception.__notes__
        found = re.search(r"\(I3CBUS_ORDER=([0-9.]+)\)", note)
        assert found
        with unittest.mock.patch.dict(os.environ, {"I3CBUS_ORDER": found[1]}), self.assertRaises(daskreyf.Unmet) as again:
            for bus in self.every(self.STRANDED):
                self.assertEqual(bus.order, 1)
                with bus:
                    bus.serve()
        self.assertEqual(again.exception.script, unmet.exception.script)

    def test_choices_that_no_order_has(self) -> None:
        with unittest.mock.patch.dict(os.environ, {"I3CBUS_ORDER": "99"}), self.assertRaises(daskreyf.NoOrder):
            for bus in self.every(self.TWO_TRACKS):
                with bus:
                    bus.serve()
        self.assertEqual(bus.close(), 1)

    def test_no_line_behind_the_last_order(self) -> None:
        with EveryBus(PROGRAM, self.scene("any\nclose\n")) as bus:
            self.assertIsNone(bus.serve())
            self.assertFalse(bus.again())
            for line in (bus.serve, bus.again, bus.wait, bus.show):
                self.assertRaises(daskreyf.Over, line)
        self.assertEqual(bus.close(), 1)

    def test_lines_that_every_order_has_not(self) -> None:
        for bus in self.every("any\nclose\n"):
            with self.assertRaises(daskreyf.ManyFrames):
                bus.line("daa")
            with self.assertRaises(daskreyf.ManyFrames):
                bus.line("as hub daa")
            self.assertRaises(daskreyf.NoPast, bus.symbols)
            self.assertRaises(daskreyf.NoPast, bus.frames, 1)
            self.assertRaises(daskreyf.NoPast, bus.show_all)
            self.assertRaises(daskreyf.BadLine, bus.line, "expect waiting 0")
            self.assertEqual([device.name for device in bus.show().devices], ["hub", "light", "heat"])
        self.assertEqual(bus.close(), 1)

    def test_a_bus_that_meets_one_order(self) -> None:
        with Bus(PROGRAM) as bus:
            for word in ("wait", "again", "script"):
                self.assertRaises(daskreyf.BadLine, bus.line, word)

    # The end

    def test_a_scene_that_cannot_be_met(self) -> None:
        for lines, why in (
            ("any\ntrack\n", "scene: refused NoClose"),
            ("any\ntrack\nrise light 2A\nclose\n", "scene: refused BadLine 7"),
            ("", "scene: it has no block, or several"),
        ):
            with contextlib.redirect_stderr(io.StringIO()) as told:
                with self.assertRaisesRegex(BusGone, f"status 2: i3cbus: {why}") as gone:
                    for bus in self.every(lines):
                        with bus:
                            bus.serve()
            self.assertEqual((gone.exception.status, told.getvalue()), (2, ""))
            self.assertFalse(hasattr(gone.exception, "__notes__"))

    def test_a_scene_that_is_missing(self) -> None:
        with self.assertRaisesRegex(BusGone, "status 2"):
            for bus in every(PROGRAM, self.folder / "no-such-scene.i3c"):
                bus.serve()

    def test_a_client_that_closes_in_the_midst(self) -> None:
        bus = EveryBus(PROGRAM, self.scene("any\ntrack\nraise light 2A\nclose\n"))
        bus.serve()
        self.assertEqual(bus.close(), 1)
        self.assertRaisesRegex(BusGone, "closed", bus.wait)
        with contextlib.redirect_stderr(io.StringIO()) as told:
            for bus in self.every("any\nclose\n"):
                bus.serve()
                break
        self.assertEqual(bus.close(), 1)
        self.assertTrue(told.getvalue().startswith("In order 1 (I3CBUS_ORDER="))


if __name__ == "__main__":
    unittest.main()
