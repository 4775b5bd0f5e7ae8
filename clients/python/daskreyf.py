"""An I3C Basic bus that a Python program drives, line by line, through `i3cbus drive`.

    with Bus("i3cbus") as bus:
        hub = bus.main("hub", pid=0x020400000001, bcr=0x46, dcr=0xC0)
        sensor = bus.attach("sensor", pid=0x020400000010, bcr=0x06, dcr=0x44)
        bus.daa()
        sensor.raise_interrupt(0x2A)
        record = bus.serve()

Each method sends one line and waits for its answer. A line that the engine refuses raises the exception of that name, and
has changed nothing but for the cuts that a frame takes. Numbers in brackets are sections of MIPI I3C Basic v1.1.1.

By `every` a program meets every order of what the devices do: see there.

docs/DRIVING.md has the protocol, and docs/FORMATS.md each line with its refusals. A `Bus` is for one thread.
"""

from __future__ import annotations

import abc
import contextlib
import enum
import functools
import operator
import os
import re
import subprocess
import sys
from collections.abc import Generator, Sequence
from dataclasses import dataclass, field
from types import TracebackType
from typing import NoReturn, Self

REGISTERS = 16
"""The registers of a device or a legacy target, and the most bytes of one transfer."""

_PIECE = 65536
# as much as any pipe takes at once
_WAITING = 4096
_RECORD = re.compile(r"record (\d+) slot (\d+) raise (\d+) at ([0-9A-F]{2}) byte ([0-9A-F]{2}|--)")
_ASKING = re.compile(r"asking( |$)")
# What is none of the program's lines to the bus: a word of the engine's own, or a comment.
_ASIDE = re.compile(r"again|script|choices|same|(#.*)?")
# What a line is answered that didn't come to the bus.
_UNHEARD = re.compile(r"refused [0-9]+ (BadLine|ManyFrames|NoPast)( .*)?")
# The lines that print a name first: what looks like a line `asking` is a device of that name.
_NAMING = ("legacy", "main", "attach")


# What the engine tells


@dataclass(frozen=True)
class Record:
    """An interrupt that the active controller accepted. [5.1.6]"""

    number: int
    """Its place in the log, from 1."""
    slot: int
    """The slot of the device that raised it."""
    raised: int
    """Its number among the accepted raises of that slot."""
    address: int
    """The dynamic address that it came from."""
    byte: int | None
    """The mandatory byte, or None for a device that sends none."""


@dataclass(frozen=True)
class TurnedDown:
    """A request that the policy, or this frame, doesn't accept. The device keeps asking."""


@dataclass(frozen=True)
class Torn:
    """An interrupt whose byte was lost with its device. Nothing was recorded."""


@dataclass(frozen=True)
class Joining:
    """A device asked to join, and may. The next assignment gives it an address. [5.1.5]"""


@dataclass(frozen=True)
class WantsRole:
    """The device at this address asked for the controller's role. A `handover` would give it. [5.1.7]"""

    address: int


Served = Record | TurnedDown | Torn | Joining | WantsRole
"""What became of a request that came up in a frame's first header. It is None where nobody asked."""

_PLAIN: dict[str, Served] = {"turned down": TurnedDown(), "torn": Torn(), "joining": Joining()}


@dataclass(frozen=True)
class Assigned:
    """A device with the dynamic address that a round gave it. [5.1.4.2]"""

    address: int
    pid: int
    bcr: int
    dcr: int


@dataclass(frozen=True)
class Nobody:
    """A round in which no device took the address."""


@dataclass(frozen=True)
class ReadLength:
    """How many bytes a device gives at most. [5.1.9.3.6]"""

    read: int
    """To a private read."""
    interrupt: int | None
    """In an interrupt, the mandatory byte counted; None for a device that sends none."""


@dataclass(frozen=True)
class DeviceState:
    """A device that is present: its address, or None without one, and how many of its interrupts wait."""

    name: str
    address: int | None
    waiting: int


@dataclass(frozen=True)
class LegacyTarget:
    """A legacy I2C target, which has a static address."""

    name: str
    address: int


@dataclass(frozen=True)
class BusState:
    """The bus, as `show` prints it, or `show N`."""

    active: int
    """The address of the active controller."""
    devices: tuple[DeviceState, ...]
    """By slots."""
    legacies: tuple[LegacyTarget, ...]
    """By addresses."""
    records: tuple[Record, ...]


class Kinds(enum.IntFlag):
    """Kinds of events, as ENEC and DISEC have them. [5.1.9.3.1]"""

    INTERRUPTS = 1
    ROLES = 2
    JOINS = 8


@dataclass(frozen=True)
class DeviceDetails:
    """What a device that is present is, and what it may and wants to signal."""

    name: str
    pid: int
    bcr: int
    dcr: int
    enabled: Kinds
    wish: Kinds
    """`JOINS` for a device that asked for an address, `ROLES` for one that asked for the role, or neither."""


@dataclass(frozen=True)
class Term:
    """The records that were made while one device was the active controller."""

    slot: int
    first: int
    """The number of the first of them, counted from the log's beginning, also if a `forget` took it."""
    last: int


@dataclass(frozen=True)
class BusDetails:
    """All of the bus, as `show all` prints it."""

    state: BusState
    devices: tuple[DeviceDetails, ...]
    """By slots."""
    listed: bool
    """Whether no address has changed since the last `list`."""
    in_session: bool
    """Whether an assignment is open."""
    terms: tuple[Term, ...] = ()
    """The terms of active controllers in which interrupts were recorded, the oldest first."""


@dataclass(frozen=True)
class Answer:
    """The answer to a line."""

    number: int
    """The line's number, from 1."""
    lines: tuple[str, ...] = ()
    """What the line printed, as `run` prints it, without the refusal."""
    record: Record | None = None
    """The interrupt that the line added to the log."""
    asking: tuple[str, ...] | None = None
    """Who asks now, as `Bus.asking` has it; None where that hasn't changed."""

    @property
    def served(self) -> Served | None:
        """What the line's frame served first."""
        return _served(self.lines[0], self.record) if self.lines else None

    @property
    def assigned(self) -> tuple[Assigned, ...]:
        """The devices that got an address, in the order of the rounds."""
        return tuple(_assigned(line) for line in self.lines if line.startswith("assigned "))


# What goes wrong


class BusGone(Exception):
    """The program has ended, couldn't be spoken to any more, or said what the protocol doesn't have."""

    def __init__(self, what: str, status: int | None = None) -> None:
        super().__init__(what)
        self.status = status
        """The program's exit status, where it has ended; negative for a signal."""


class Refused(Exception):
    """The engine refused a line. `why` is the reason's name; `about` its address or number, as it was printed."""

    def __init__(self, why: str, about: str | None, answer: Answer) -> None:
        super().__init__(f"line {answer.number}: {why}" + (f" {about}" if about else ""))
        self.why = why
        self.about = about
        self.answer = answer
        """What the line printed before: what its frame served, and the rounds of a `daa`."""


class BadLine(Refused):
    """This is no line of docs/FORMATS.md."""


class NoBus(Refused):
    """`main` hasn't come yet."""


class BusMade(Refused):
    """`main` has come: no other one may, and nothing more is declared."""


class NameTaken(Refused):
    """A present device or a legacy target has this name."""


class NoName(Refused):
    """Nobody was ever called so."""


class LegacyAddress(Refused):
    """A static address is from 08 to 77."""


class LegacyTwice(Refused):
    """A legacy target or a declared identity has this address."""


class TooManyLegacy(Refused):
    """There are sixteen legacy targets."""


class IdentityTwice(Refused):
    """The identity is declared at another static address."""


class TooManyDeclared(Refused):
    """Sixteen identities are declared."""


class NotCapable(Refused):
    """The device can't do this by its BCR, or the table has nobody at that address. [5.1.1.2.1]"""


class SlotTaken(Refused):
    """All slots have a device."""


class NoDevice(Refused):
    """The device is gone, or is a legacy target."""


class ActiveStays(Refused):
    """The active controller doesn't leave, and isn't cut in a frame of its own."""


class IsActive(Refused):
    """The device is the active controller."""


class NoAddress(Refused):
    """The device has no dynamic address; or there is none left to give."""


class HasAddress(Refused):
    """The device has a dynamic address already."""


class ByteMismatch(Refused):
    """The BCR wants a mandatory byte and none was given, or the other way round."""


class Masked(Refused):
    """Events of this kind are disabled. [5.1.9.3.1]"""


class Full(Refused):
    """Eight interrupts of the device wait, or its slot's count is used up."""


class SessionOpen(Refused):
    """An assignment is open."""


class NoSession(Refused):
    """No assignment is open."""


class NoAnswer(Refused):
    """Nobody at this address acknowledged, or the table has nobody there."""


class BadAddress(Refused):
    """The address can't be given: it is out of range, somebody's, or a static one."""


class NoEnd(Refused):
    """The last T of the read said that more bytes would come."""


class TooLong(Refused):
    """A write has sixteen bytes at most, or as many as the maximum length of the device."""


class ListStale(Refused):
    """Addresses have changed since the last `list`. [5.1.9.3.7]"""


class NotActive(Refused):
    """The controller that the line is of isn't the active one. Nothing was sent."""


class ManyFrames(Refused):
    """On an `EveryBus` a line sends one frame at most. Its `daa` sends one after the other, and isn't refused."""


class NoPast(Refused):
    """An `EveryBus` doesn't keep symbols, frames and earlier controllers."""


class Unmet(Refused):
    """An expectation of the scene doesn't hold. The last line of `answer` has its number, and what is there instead."""

    script = ""
    """The order in which it doesn't hold: a script of `i3cbus run`, whose last line is this expectation."""

    def __str__(self) -> str:
        return f"{super().__str__()}: {self.answer.lines[-1]}"


class Differs(Refused):
    """The program isn't determined by what it is told: an earlier run was told the same, and sent another line here."""

    @property
    def due(self) -> str:
        """The line that the earlier run sent."""
        return self.answer.lines[-1].removeprefix("due ")

    def __str__(self) -> str:
        return f"{super().__str__()}: {self.due!r} was due"


class Most(Refused):
    """As many orders were tried as may be, and some are left; or there are too many states before one line."""


class Over(Refused):
    """
    No order is left, or none will begin any more: all were tried that were to be, or an earlier line was `Unmet`, `Differs`,
    `Most` or `NoOrder`.
    """


class NoOrder(Refused):
    """The line has no answer of the number that `One`, or `I3CBUS_ORDER`, has for it."""


_REFUSALS = {refusal.__name__: refusal for refusal in Refused.__subclasses__()}


# What a line is given


class Policy(enum.StrEnum):
    """Which requests the controller accepts."""

    ALL = "all"
    NONE = "none"
    JOINS = "joins"
    ROLES = "roles"
    INTERRUPTS = "interrupts"


@dataclass(frozen=True)
class Device:
    """A device that was put on a bus. Its name may be given away again once it has left."""

    bus: Bus = field(repr=False, compare=False)
    name: str
    slot: int
    pid: int
    bcr: int
    dcr: int

    def drop(self) -> None:
        """`drop`: the device loses power between two frames."""
        self.bus.line(f"drop {self.name}")

    def raise_interrupt(self, byte: int | None = None) -> int:
        """`raise`: queues an interrupt, with a mandatory byte where the BCR says so. Gives its number, from 1. [5.1.6]"""
        line = f"raise {self.name}" + ("" if byte is None else f" {_hex(byte, 2)}")
        return int(self.bus.line(line).lines[0].split()[1])

    def ask_join(self) -> None:
        """`ask-join`: the device wants an address. [5.1.5]"""
        self.bus.line(f"ask-join {self.name}")

    def ask_role(self) -> None:
        """`ask-role`: the device wants to be the controller. [5.1.7]"""
        self.bus.line(f"ask-role {self.name}")

    def cut(self, bit: int) -> None:
        """`cut`: the device loses power in the next frame, from this bit on, as docs/BUS.md counts them."""
        self.bus.line(f"cut {self.name} {_bit(bit)}")

    @property
    def address(self) -> int | None:
        """The dynamic address, or None without one. It is looked up by `show`."""
        for device in self.bus.show().devices:
            if device.name == self.name:
                return device.address
        return None


class Sender(abc.ABC):
    """Who sends a controller's lines: `Bus` as the active controller, whichever that is, and `Controller` as one by its name."""

    @abc.abstractmethod
    def _sent(self, text: str) -> Answer:
        """Sends a line of a controller, and gives its answer."""

    @abc.abstractmethod
    def _own(self, answer: Answer) -> str:
        """The line of the frame itself, which comes behind what it served."""

    @abc.abstractmethod
    def _assign(self, sender: Sender) -> Answer:
        """Plays a whole assignment, whose lines are the sender's, and gives the answer of a `daa`."""

    def serve(self) -> Served | None:
        """`serve`: a frame that serves the first request. None if nobody asks."""
        return self._sent("serve").served

    def enec(self, kinds: int, address: int | None = None) -> Served | None:
        """`enec`: enables kinds of events, of all or of one. [5.1.9.3.1]"""
        return self._events("enec", kinds, address)

    def disec(self, kinds: int, address: int | None = None) -> Served | None:
        """`disec`: disables kinds of events, of all or of one. [5.1.9.3.1]"""
        return self._events("disec", kinds, address)

    def _events(self, word: str, kinds: int, address: int | None) -> Served | None:
        to = "" if address is None else f" {_hex(address, 2)}"
        return self._sent(f"{word} {_hex(kinds, 2)}{to}").served

    def reset(self) -> Served | None:
        """`reset`: takes all addresses back but the active controller's, by RSTDAA. [5.1.9.3.3]"""
        return self._sent("reset").served

    def send_list(self) -> Served | None:
        """`list`: tells all devices who has which address, by DEFTGTS. [5.1.9.3.7]"""
        return self._sent("list").served

    def read(self, address: int) -> bytes:
        """`read`: the registers of a device or a legacy target, all sixteen or as many as `set_mrl` allows. [5.1.2.3]"""
        return bytes.fromhex(self._own(self._sent(f"read {_hex(address, 2)}")).split()[1])

    def write(self, address: int, data: bytes) -> Served | None:
        """`write`: replaces the first registers, by sixteen bytes at most, or as `set_mwl` allows. [5.1.2.3]"""
        return self._sent(f"write {_hex(address, 2)} {data.hex().upper()}".rstrip()).served

    def setdasa(self, fixed: int, address: int) -> Served | None:
        """`setdasa`: gives a dynamic address to the device at a static one, while it has none. [5.1.9.3.10]"""
        return self._sent(f"setdasa {_hex(fixed, 2)} {_hex(address, 2)}").served

    def setnewda(self, old: int, address: int) -> Served | None:
        """`setnewda`: gives another dynamic address to the device at this one. [5.1.9.3.11]"""
        return self._sent(f"setnewda {_hex(old, 2)} {_hex(address, 2)}").served

    def get_pid(self, address: int) -> int:
        """`getpid`: the provisioned ID of the device at this address. [5.1.9.3.12]"""
        return int.from_bytes(self._told("getpid", address), "big")

    def get_bcr(self, address: int) -> int:
        """`getbcr`: its bus characteristics. [5.1.9.3.13]"""
        return int.from_bytes(self._told("getbcr", address), "big")

    def get_dcr(self, address: int) -> int:
        """`getdcr`: its device characteristics. [5.1.9.3.14]"""
        return int.from_bytes(self._told("getdcr", address), "big")

    def get_status(self, address: int) -> bool:
        """`getstatus`: whether an interrupt of the device waits, disabled or not. [5.1.9.3.15]"""
        return self._told("getstatus", address)[1] != 0

    def get_mwl(self, address: int) -> int:
        """`getmwl`: the most bytes that it takes in a write. [5.1.9.3.5]"""
        return int.from_bytes(self._told("getmwl", address), "big")

    def get_mrl(self, address: int) -> ReadLength:
        """`getmrl`: the most bytes that it gives to a read, and in an interrupt. [5.1.9.3.6]"""
        told = self._told("getmrl", address)
        return ReadLength(int.from_bytes(told[:2], "big"), told[2] if len(told) > 2 else None)

    def get_mxds(self, address: int) -> bytes:
        """`getmxds`: the limits of its speed, for writes and for reads; 00 is none. [5.1.9.3.18]"""
        return self._told("getmxds", address)

    def get_caps(self, address: int) -> bytes:
        """`getcaps`: its capabilities, as the two bytes of GETCAPS. [5.1.9.3.19]"""
        return self._told("getcaps", address)

    def set_mwl(self, length: int, address: int | None = None) -> Served | None:
        """`setmwl`: the device at the address, or everybody, takes this number of bytes in a write at most. [5.1.9.3.5]"""
        return self._length("setmwl", length, address)

    def set_mrl(self, length: int, address: int | None = None) -> Served | None:
        """`setmrl`: the device at the address, or everybody, gives this number of bytes to a read at most. [5.1.9.3.6]"""
        return self._length("setmrl", length, address)

    def _length(self, word: str, length: int, address: int | None) -> Served | None:
        to = "" if address is None else f" {_hex(address, 2)}"
        return self._sent(f"{word} {_most(length)}{to}").served

    def _told(self, word: str, address: int) -> bytes:
        """What a device tells, where it is asked by this word."""
        return bytes.fromhex(self._own(self._sent(f"{word} {_hex(address, 2)}")).split()[1])

    def handover(self, address: int) -> int:
        """`handover`: offers the role to the device at the address, by GETACCCR. Gives the new controller's. [5.1.7]"""
        return int(self._own(self._sent(f"handover {_hex(address, 2)}")).split()[1], 16)

    def daa(self) -> tuple[Assigned, ...]:
        """`daa`: a whole assignment by ENTDAA. Gives who got an address; `NoAddress` has that in `answer`. [5.1.4.2]"""
        return self._assign(self).assigned

    def open_daa(self) -> Served | None:
        """`open`: opens an assignment, whose rounds are sent one by one."""
        return self._sent("open").served

    def round(self) -> Assigned | Nobody | None:
        """`round`: one round of the open assignment. None if no device is left."""
        line = self._own(self._sent("round"))
        if line == "done":
            return None
        return Nobody() if line == "nobody" else _assigned(line)

    def end_daa(self) -> None:
        """`end`: ends the open assignment."""
        self._sent("end")


@dataclass(frozen=True)
class Controller(Sender):
    """A controller by its name. Each of its lines is refused as `NotActive` while another one is active."""

    bus: Bus = field(repr=False, compare=False)
    name: str

    def _sent(self, text: str) -> Answer:
        return self.bus.line(f"as {self.name} {text}")

    def _own(self, answer: Answer) -> str:
        return self.bus._own(answer)

    def _assign(self, sender: Sender) -> Answer:
        return self.bus._assign(sender)


class Bus(Sender):
    """A bus of its own, in a program of its own, which lives until `close`."""

    def __init__(self, program: str | Sequence[str] = "i3cbus") -> None:
        """Starts the program, which is named by its path or by words that `drive` is put behind."""
        self._start(program)

    def _start(self, program: str | Sequence[str], *options: str) -> None:
        """Starts the program with `drive` and these options."""
        words = [program] if isinstance(program, str) else list(program)
        self._process = subprocess.Popen(
            [*words, "drive", *options],
            stdin=subprocess.PIPE,
            stdout=subprocess.PIPE,
            stderr=subprocess.PIPE,
            bufsize=0,
        )
        assert self._process.stdin is not None and self._process.stdout is not None
        self._to = self._process.stdin.fileno()
        self._from = self._process.stdout.fileno()
        self._number = 0
        self.answer = Answer(0)
        """The answer to the last line, also to one that was refused."""
        self.asking: tuple[str, ...] = ()
        """The devices that drive the first request of the next frame: one, or all that want to join, by slots."""
        self.records: list[Record] = []
        """The interrupts that were recorded, in their order. Whoever has handled them may clear it."""

    def __enter__(self) -> Self:
        return self

    def __exit__(
        self,
        kind: type[BaseException] | None,
        error: BaseException | None,
        trace: TracebackType | None,
    ) -> None:
        status = self.close()
        if kind is None and status not in (0, 1):
            raise BusGone(f"i3cbus ended with status {status}", status)

    def close(self) -> int:
        """Ends the bus and its program. Gives its status: 0, or 1 if a line was refused; 2 after a fault of its own."""
        if self._process.returncode is None:
            self._end()
        return self._process.wait()

    # The start

    def legacy(self, name: str, address: int, lvr: int) -> LegacyTarget:
        """`legacy`: a legacy I2C target, from 08 to 77, before `main`."""
        self.line(f"legacy {name} {_hex(address, 2)} {_hex(lvr, 2)}")
        return LegacyTarget(name, address)

    def declare(self, address: int, pid: int, bcr: int, dcr: int) -> None:
        """`declare`: devices of this identity have a static address, from 08 to 77; before `main`. [5.1.1.2.3]"""
        self.line(f"declare {_hex(address, 2)} {_identity(pid, bcr, dcr)}")

    def main(self, name: str, pid: int, bcr: int, dcr: int, decline: bool = False) -> Device:
        """`main`: starts the bus with its controller."""
        return self._place("main", name, pid, bcr, dcr, decline)

    def attach(self, name: str, pid: int, bcr: int, dcr: int, decline: bool = False) -> Device:
        """`attach`: puts a device into the first free slot. One that declines never takes the role over."""
        return self._place("attach", name, pid, bcr, dcr, decline)

    def _place(self, word: str, name: str, pid: int, bcr: int, dcr: int, decline: bool) -> Device:
        answer = self.line(f"{word} {name} {_identity(pid, bcr, dcr)}{' decline' if decline else ''}")
        return Device(self, name, int(answer.lines[0].split()[2]), pid, bcr, dcr)

    # What the controller does, beside the lines of `Sender`

    def of(self, name: str) -> Controller:
        """`as`: this bus for the program of the controller with this name, whose lines are sent as that one."""
        return Controller(self, name)

    def policy(self, policy: Policy, *more: Policy, but: Sequence[Device] = ()) -> None:
        """
        `policy`: which requests are accepted from here on. Several kinds are accepted together, `ALL` and `NONE` alone. What
        a device drives that stands behind `but` is turned down: 8 devices at most, each once, or none.
        """
        kinds = [Policy(word).value for word in (policy, *more)]
        names = ["but", *(device.name for device in but)] if but else []
        self.line(" ".join(("policy", *kinds, *names)))

    # What is looked at

    def show(self, first: int = 1) -> BusState:
        """`show`: the bus, with its whole log, or of that the records from a number on."""
        return _state(self.line("show" if first == 1 else f"show {_place(first)}").lines)

    def forget(self, last: int) -> None:
        """`forget`: the records up to this number leave the log. The numbers of records go on, and `records` stays as it is."""
        self.line(f"forget {_place(last)}")

    def show_all(self) -> BusDetails:
        """`show all`: the same, what each device is, may and wants, whether the list is current and a session open, and which
        records were made under which active controller."""
        lines = self.line("show all").lines
        state = _state(lines)
        end = next(index for index, line in enumerate(lines) if line in ("list current", "list stale"))
        devices = lines[end - len(state.devices) : end]
        listed, session, *terms = lines[end:]
        return BusDetails(
            state, tuple(map(_details, devices)), listed == "list current", session == "session open", tuple(map(_term, terms))
        )

    def symbols(self) -> tuple[str, ...]:
        """`symbols`: the last symbols on the wire, 256 at most, as docs/FORMATS.md writes them."""
        return tuple(self.line("symbols").lines[0].split())

    def frames(self, count: int) -> tuple[str, ...]:
        """`frames`: the last frames of these symbols that are whole, as many or fewer, the oldest first."""
        return self.line(f"frames {count}").lines

    # Lines and answers

    def _sent(self, text: str) -> Answer:
        return self.line(text)

    def _assign(self, sender: Sender) -> Answer:
        return sender._sent("daa")

    def line(self, text: str) -> Answer:
        """Sends a line, without its line feed, and gives its answer. Raises the `Refused` of the reason if it is refused."""
        if "\n" in text:
            raise ValueError("a line has no line feed")
        *lines, last = self._exchange(text)
        # an expectation that doesn't hold is told behind all else
        unmet: list[str] = [lines.pop()] if last == f"refused {self._number} Unmet" and lines else []
        self.answer = self._parse(text, lines, unmet)
        if self.answer.record is not None:
            self.records.append(self.answer.record)
        if self.answer.asking is not None:
            self.asking = self.answer.asking
        if last.startswith("refused "):
            _, _, why, *about = last.split(" ")
            raise _REFUSALS.get(why, Refused)(why, " ".join(about) or None, self.answer)
        return self.answer

    def _parse(self, text: str, lines: list[str], unmet: list[str]) -> Answer:
        """The answer whose lines these are, without the last one, and with the line of what is unmet."""
        word = text.partition(" ")[0]
        asking: tuple[str, ...] | None = None
        record: Record | None = None
        if lines and word not in _NAMING and _ASKING.match(lines[-1]):
            asking = tuple(lines.pop().split()[1:])
        if lines and word != "show":
            record = _record(lines[-1])
        return Answer(self._number, (*(lines[:-1] if record else lines), *unmet), record, asking)

    def _own(self, answer: Answer) -> str:
        if not answer.lines:
            self._fail("i3cbus answered a frame without a line of its own")
        return answer.lines[-1]

    def _exchange(self, text: str) -> list[str]:
        """Sends a line and reads its answer."""
        self._number += 1
        return self._ask(_line_of(text))

    def _ask(self, lines: bytes) -> list[str]:
        """
        Sends lines, the last of which has the bus's number, and reads their answers. If that is interrupted the bus is over, as
        its next answer would be another's.
        """
        try:
            self._send(lines)
            return self._receive()
        except BaseException:
            self._process.kill()
            self._end()
            raise

    def _send(self, line: bytes) -> None:
        if self._process.returncode is not None:
            raise BusGone("the bus is closed", self._process.returncode)
        try:
            while line:
                line = line[os.write(self._to, line) :]
        except BrokenPipeError:
            self._fail("i3cbus no longer reads")

    def _receive(self) -> list[str]:
        """The lines of the answer. Nothing comes behind the last one before another line is sent."""
        answer = b""
        while True:
            piece = os.read(self._from, _PIECE)
            if not piece:
                self._fail("i3cbus has ended in the midst of an answer" if answer else "i3cbus has ended")
            answer += piece
            if answer.endswith(b"\n") and _ends(self._number, answer[answer.rfind(b"\n", 0, -1) + 1 : -1].decode("latin-1")):
                return answer.decode("latin-1").split("\n")[:-1]

    def _fail(self, what: str) -> NoReturn:
        """Says why the program is gone, with its status and what it told on standard error."""
        told = self._end()
        status = self._process.wait()
        raise BusGone(f"{what}: status {status}" + (f": {told}" if told else ""), status)

    def _end(self) -> str:
        """Closes the program's input, waits for its end, and gives what it told on standard error."""
        process = self._process
        assert process.stdin is not None and process.stdout is not None and process.stderr is not None
        process.stdin.close()
        told = "" if process.stderr.closed else process.stderr.read().decode("utf-8", "replace").strip()
        process.wait()
        process.stderr.close()
        process.stdout.close()
        return told


def _line_of(text: str) -> bytes:
    """A line as it is sent."""
    return text.encode("utf-8", "surrogateescape") + b"\n"


def _ends(number: int, line: str) -> bool:
    """Whether the line ends the answer to the line with this number. No other line looks so, whatever devices are called."""
    if line == f"ok {number}":
        return True
    refused = f"refused {number} "
    return line.startswith(refused) and line[len(refused) : len(refused) + 1].isupper()


_ORDER = "I3CBUS_ORDER"
"""The variable of the environment that has the choices of the one order that `every` tries."""


@dataclass(frozen=True)
class Part:
    """The orders of part `number` of `of` parts, counted from 1. The parts have each order among them."""

    number: int
    of: int

    def _words(self) -> tuple[str, ...]:
        return ("--part", f"{self.number}/{self.of}")


@dataclass(frozen=True)
class One:
    """One order, by its choices, as `EveryBus.choices` tells them."""

    choices: str

    def _words(self) -> tuple[str, ...]:
        return ("--order", self.choices)


@dataclass(frozen=True)
class Drawn:
    """So many orders that are drawn: each line's answer by itself. Equal seeds draw equal orders."""

    count: int
    seed: int = 0

    def _words(self) -> tuple[str, ...]:
        return ("--random", str(self.count), "--seed", str(self.seed))


class EveryBus(Bus):
    """
    A bus on which a scene's events happen, in another order in each run of the program. `every` yields it, run by run.

    The bus is there when the first line comes: `main` is a line of the scene. `records` and `asking` are those of this run.
    `close` gives 0 if all orders were tried and all holds, 3 if an expectation doesn't hold, 2 after a fault, otherwise 1.
    """

    def __init__(
        self,
        program: str | Sequence[str],
        scene: str | os.PathLike[str],
        most: int | None = None,
        which: Part | One | Drawn | None = None,
    ) -> None:
        """
        Starts the program with a scene, a file of `explore` with one block. It tries the orders of `which`, or all; and `most`
        orders at most.
        """
        if most is not None and most < 1:
            raise ValueError(f"one order is tried at least, and not {most}")
        bound: list[str] = [] if most is None else ["--most", str(most)]
        chosen: tuple[str, ...] = () if which is None else which._words()
        self._start(program, "--every", os.fspath(scene), *bound, *chosen)
        self.order = 1
        """The number of the order, from 1."""
        self._is_noted = False
        # The lines of this run, and those of the run before that may come again; how many of them this run has come by, and how
        # many are answered as in the run before. Such a line waits until another one is sent.
        self._turns: list[tuple[str, list[str]]] = []
        self._at = 0
        self._same = 0
        self._waits = b""

    def __exit__(
        self,
        kind: type[BaseException] | None,
        error: BaseException | None,
        trace: TracebackType | None,
    ) -> None:
        """Ends one run of the program, and not the bus. What goes wrong in it gets the order as a note."""
        if error is not None and not isinstance(error, (KeyboardInterrupt, SystemExit, GeneratorExit)):
            self._note(error)

    def wait(self) -> bool:
        """`wait`: the program has nothing to do until something happens. False where nothing is left to, whoever asks."""
        return self.line("wait").lines[0] == "happened"

    def mark(self, text: str) -> bool:
        """
        `mark`: TEXT, 1 to 64 hexadecimal digits, stands for all that decides what the program does next. True where the program
        said so before, with the bus and what is left to happen as they are now: then this run ends here, since what is behind
        it is tried elsewhere.
        """
        return self.line(f"mark {text}").lines[:1] == ("known",)

    def script(self) -> str:
        """`script`: what ran in this order so far, as a script of `i3cbus run`."""
        return "".join(f"{line}\n" for line in self._exchange("script")[:-1])

    def choices(self) -> str:
        """`choices`: the answers that the lines of this order took so far, by which `One` finds it again."""
        return self._exchange("choices")[0].split()[1]

    def again(self) -> bool:
        """`again`: this run of the program is over, and the next order begins. False where all were tried that were to be."""
        answer = self.line("again")
        word, number, *_ = answer.lines[0].split()
        self.asking = answer.asking or ()
        self.records = []
        if word in ("all", "tried"):
            return False
        self.order = int(number)
        self._at = 0
        self._same = int(self._exchange("same")[0].split()[1])
        return True

    def _exchange(self, text: str) -> list[str]:
        """
        Sends a line and reads its answer, unless the run before sent it here and was answered as this run is: then it is
        answered from there, and goes to the engine with the next line that isn't.
        """
        if self._at < self._same and self._turns[self._at][0] == text:
            return self._known()
        answer = super()._exchange(text)
        if not _ASIDE.fullmatch(text) and not _UNHEARD.fullmatch(answer[-1]) and not (text.startswith("mark ") and answer[0] == "known"):
            self._turns[self._at :] = [(text, answer)]
            self._at += 1
        return answer

    def _known(self) -> list[str]:
        """The answer that the next line got in the run before, whose last line has another number here."""
        text, (*lines, last) = self._turns[self._at]
        line = _line_of(text)
        if len(self._waits) + len(line) > _WAITING:
            self._ask(b"")
        self._waits += line
        self._at += 1
        self._number += 1
        word, _, why = last.partition(" ")
        return [*lines, " ".join((word, str(self._number), *why.split(" ")[1:]))]

    def _ask(self, lines: bytes) -> list[str]:
        """Sends lines behind those that wait, and gives the answer to the last one."""
        waits, self._waits = self._waits, b""
        answer = super()._ask(waits + lines)
        first = 0
        if waits and lines:
            first = 1 + next(index for index, line in enumerate(answer) if _ends(self._number - 1, line))
        return answer[first:]

    def line(self, text: str) -> Answer:
        """Sends a line, as every `Bus` does. `Unmet` and `Differs` get the order as a note."""
        self._is_noted = False
        try:
            return super().line(text)
        except (Unmet, Differs) as error:
            if isinstance(error, Unmet):
                error.script = self.script()
            self._note(error)
            raise

    def _assign(self, sender: Sender) -> Answer:
        """Sends the assignment frame by frame, so that devices come and go between its rounds."""
        asked = self.asking
        lines = list(sender._sent("open").lines[:-1])
        try:
            while lines[-1:] != ["done"]:
                lines += sender._sent("round").lines
        except NoAddress as error:
            error.answer = self._whole(lines, asked)
            sender._sent("end")
            self.answer = error.answer
            raise
        sender._sent("end")
        self.answer = self._whole(lines, asked)
        return self.answer

    def _whole(self, lines: list[str], asked: tuple[str, ...]) -> Answer:
        """The answer to an assignment of several lines, before which these devices asked."""
        return Answer(self._number, tuple(lines), None, None if self.asking == asked else self.asking)

    def _note(self, error: BaseException) -> None:
        """Gives the exception the order as a note, unless it has that."""
        order = self._told_order()
        if order and order not in getattr(error, "__notes__", ()):
            error.add_note(order)
        self._is_noted = True

    def _tell_left(self) -> None:
        """Tells standard error the order in which the loop was left, unless an exception has it as a note."""
        if not self._is_noted and (order := self._told_order()):
            print(order, file=sys.stderr)

    def _told_order(self) -> str:
        """What is told of the order; nothing where the program is gone."""
        with contextlib.suppress(BusGone):
            alone = f"{_ORDER}={self.choices()}"
            return f"In order {self.order} ({alone}), which `i3cbus run` replays:\n{self.script().rstrip()}"
        return ""


def every(
    program: str | Sequence[str],
    scene: str | os.PathLike[str],
    most: int | None = None,
    which: Part | One | Drawn | None = None,
) -> Generator[EveryBus, None, None]:
    """
    Lets a program meet every order of a scene's events. The loop's body is one run of the program. What it sends may depend
    on the answers of this run, and on nothing else: no clock, no random number, no run before.

        for bus in every("i3cbus", "scene.i3c"):
            with bus:
                hub = SensorHub(bus)
                hub.assign()
                hub.handle()
                while bus.wait():  # something happened; False: nothing is left to happen
                    hub.handle()
                assert hub.seen == [0x2A]

    An order in which an expectation of the scene doesn't hold raises `Unmet`, also where the loop goes on. A program that
    isn't determined raises `Differs`. With `most`, `Most` is raised where orders are left: all were tried only if the loop
    ends by itself.

    What is raised in `with bus` gets the order as a note, which a traceback shows. If the loop is left without that, the
    order is told on standard error. Where the environment has `I3CBUS_ORDER`, as the note has it, that order is tried alone,
    whatever `which` says.
    """
    alone = os.environ.get(_ORDER)
    bus = EveryBus(program, scene, most, One(alone) if alone else which)
    try:
        yield bus
        while bus.again():
            yield bus
    except GeneratorExit:
        bus._tell_left()
        raise
    finally:
        bus.close()


def _hex(value: int, digits: int) -> str:
    """A number in capital hexadecimal digits, as lines want it."""
    if not 0 <= value < 16**digits:
        raise ValueError(f"{value:#x} has more than {digits} hexadecimal digits, or is negative")
    return f"{value:0{digits}X}"


def _identity(pid: int, bcr: int, dcr: int) -> str:
    return f"{_hex(pid, 12)} {_hex(bcr, 2)} {_hex(dcr, 2)}"


def _bit(bit: int) -> int:
    if not 0 <= bit <= 65535:
        raise ValueError(f"a bit number is from 0 to 65535, and not {bit}")
    return bit


def _place(place: int) -> int:
    if not 1 <= place < 1 << 64:
        raise ValueError(f"a record's number is from 1 on, in 64 bits, and not {place}")
    return place


def _most(length: int) -> int:
    if not 1 <= length <= REGISTERS:
        raise ValueError(f"a maximum length is from 1 to {REGISTERS}, and not {length}")
    return length


def _address(text: str) -> int | None:
    return None if text == "--" else int(text, 16)


def _record(line: str) -> Record | None:
    found = _RECORD.fullmatch(line)
    if found is None:
        return None
    number, slot, raised, address, byte = found.groups()
    return Record(int(number), int(slot), int(raised), int(address, 16), _address(byte))


def _state(lines: tuple[str, ...]) -> BusState:
    """The bus of the lines of `show`, or of the first lines of `show all`."""
    words = [line.split() for line in lines[1:]]
    count = next(index for index, line in enumerate(words) if len(line) == 2)
    return BusState(
        int(lines[0].split()[1], 16),
        tuple(DeviceState(it[0], _address(it[1]), int(it[3])) for it in words[:count] if len(it) == 4),
        tuple(LegacyTarget(it[0], int(it[1], 16)) for it in words[:count] if len(it) == 3),
        tuple(record for record in map(_record, lines[1 + count :]) if record),
    )


def _details(line: str) -> DeviceDetails:
    words = line.split()
    enabled = functools.reduce(operator.or_, map(_kind, words[9:-2]))
    return DeviceDetails(words[1], int(words[3], 16), int(words[5], 16), int(words[7], 16), enabled, _kind(words[-1]))


def _term(line: str) -> Term:
    """The records under one active controller, as a line of `show all` has them."""
    words = line.split()
    return Term(int(words[2]), int(words[4]), int(words[6]))


def _kind(word: str) -> Kinds:
    """The kind of a word of `show all`."""
    return {"interrupt": Kinds.INTERRUPTS, "role": Kinds.ROLES, "join": Kinds.JOINS}.get(word, Kinds(0))


def _assigned(line: str) -> Assigned:
    _, address, pid, bcr, dcr = line.split()
    return Assigned(int(address, 16), int(pid, 16), int(bcr, 16), int(dcr, 16))


def _served(line: str, record: Record | None) -> Served | None:
    if record is not None:
        return record
    if line.startswith("wants role "):
        return WantsRole(int(line.split()[2], 16))
    return _PLAIN.get(line)
