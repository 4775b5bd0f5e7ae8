#!/usr/bin/env python3
"""check_every.py WORK BINARY SCENE..: whether sysfs had the engine's devices in each order of the scenes, by the kernel's log.

WORK has the files of a run: `log`, and of each scene `NAME.status`. The status is 0 if nothing is wrong. At the end of an order
the engine's devices are those that `show` prints with an address. A device that differs is told apart by what Linux was answered
in this order:

- `unseen`: Linux lists it, and each frame to it was answered since it got its address. No controller can know that it is gone.
- `silent`: Linux lists it, though the last frame to it wasn't answered.
- `busy`: the core refused the address that the device got, as it has that address for another device (EBUSY).
- `wrong`: anything else.

The script of a shortest order of each kind goes to `KIND.i3c` in WORK, and so does that of `warned`: one in which the core warned.
"""

from __future__ import annotations

import re
import subprocess
import sys
from collections import Counter
from collections.abc import Iterator
from pathlib import Path
from typing import NamedTuple

sys.dont_write_bytecode = True
import check  # noqa: E402
from check import ANSWER, AT, IN_SYSFS, SENT, Exchange, Row, small  # noqa: E402

KINDS = ("same", "unseen", "silent", "busy", "wrong")
"""From the best to the worst. An order is of the worst kind of its devices."""
LEAST = 500
ATTACHED = re.compile(r"attach (\w+) (\w+) (..) (..)")
DECLARED = re.compile(r"declare (..) (\w+) .. ..")
ASSIGNED = re.compile(r"assigned (..) (\w+) .. ..")
BUSY = re.compile(r"Failed to add I3C device at address (\d+), error -16")
RECORD = re.compile(r"record (\d+) slot \d+ raise \d+ at .. byte (..)")
HANDLED = re.compile(r"daskreyf-client 0-\w+: interrupt, payload \[(..)?\]")
UNHANDLED = re.compile(r"an interrupt of .., but no (slot|handler)")
WARNING = re.compile(r"WARNING: .* at ([\w/.]+):(\d+) ")
SERIOUS = re.compile(r"\bBUG\b|Oops|Kernel panic|the engine is gone|general protection")


class Order(NamedTuple):
    """One binding of the bus: its part of the log, and the lines that Linux sent in it."""

    scene: str
    log: list[str]
    exchanges: list[Exchange]

    @property
    def played(self) -> list[Exchange]:
        """What was sent before the tables were compared: the last lines are `show`, `script`, those of the unbinding, `again`."""
        return self.exchanges[: max(i for i, each in enumerate(self.exchanges) if each.line == "show")]

    @property
    def shown(self) -> list[str]:
        return self.exchanges[len(self.played)].answers

    @property
    def script(self) -> list[str]:
        return next(each.answers[:-1] for each in self.exchanges if each.line == "script")


class Told:
    """What a controller is told by the answers to its lines: who has which address, and who didn't answer."""

    def __init__(self, statics: dict[str, str]) -> None:
        self.statics = statics
        self.at: dict[str, str] = {}
        self.silent: set[str] = set()

    def hear(self, each: Exchange) -> None:
        kind, *words = each.line.lower().split() or [""]
        if each.done and kind == "reset":
            self.at.clear()
            self.silent.clear()
        elif each.done and kind == "setdasa":
            self.give(words[1], self.statics[words[0]])
        elif each.done and kind == "setnewda":
            self.give(words[1], self.at.pop(words[0]))
        elif address := self.asked(kind, words):
            self.silent.discard(address)
            if re.match(r"refused \d+ (NoAnswer|NoEnd)", each.answers[-1]):
                self.silent.add(address)
        for found in filter(None, map(ASSIGNED.fullmatch, each.answers)):
            self.give(found[1].lower(), small(found[2]))

    @staticmethod
    def asked(kind: str, words: list[str]) -> str | None:
        """The address that a line is for, if it is for one."""
        if kind in ("enec", "disec"):
            return words[1] if len(words) == 2 else None
        return words[0] if kind in ("read", "write", "setnewda") or kind.startswith("get") else None

    def give(self, address: str, pid: str) -> None:
        self.at = {a: p for a, p in self.at.items() if p != pid} | {address: pid}
        self.silent.discard(address)

    def knows(self, row: Row) -> bool:
        return self.at.get(row.address) == row.pid


def orders_of(log: list[str], scenes: list[str]) -> Iterator[Order]:
    """The orders in the log: each ends with the answer to `again`."""
    part: list[str] = []
    left = iter(scenes)
    scene, is_over, is_last = next(left), False, False
    for line in log:
        part.append(line)
        is_over = is_over or line == f"{SENT}again"
        is_last = is_last or (is_over and line.startswith(f"{ANSWER}all "))
        if is_over and re.fullmatch(rf"{ANSWER}(ok \d+|refused \d+ .*)", line):
            yield Order(scene, part, check.exchanges(part))
            scene = next(left, "none") if is_last else scene
            part, is_over, is_last = [], False, False


def linux_rows(order: Order) -> set[Row]:
    """The devices in sysfs, as the guest told them behind its line `== table`."""
    told = order.log[order.log.index("== table") :]
    return {Row(*found.groups()) for found in map(IN_SYSFS.fullmatch, told) if found}


def identities(order: Order) -> dict[str, tuple[str, str, str]]:
    """PID, BCR and DCR of each device, by its name."""
    found = filter(None, map(ATTACHED.match, order.script))
    return {each[1]: (small(each[2]), small(each[3]), small(each[4])) for each in found}


def engine_rows(order: Order) -> set[Row]:
    """The targets that have an address, by `show` at the end of the order."""
    known = identities(order)
    found = filter(None, map(AT.fullmatch, order.shown))
    return {Row(each[2].lower(), *known[each[1]]) for each in found if each[1] in known and each[2] != "--"}


def told_in(order: Order) -> Told:
    """What Linux was told up to the table."""
    statics = {each[1].lower(): small(each[2]) for each in map(DECLARED.fullmatch, order.script) if each}
    told = Told(statics)
    for each in order.played:
        told.hear(each)
    return told


def kinds_of(order: Order) -> set[str]:
    """The kinds of this order's differences."""
    linux, engine, told = linux_rows(order), engine_rows(order), told_in(order)
    busy = {f"{int(found[1]):02x}" for found in map(BUSY.search, order.log) if found}
    known = set(identities(order).values())
    kinds = set()
    for row in linux - engine:
        refused = {row.address, *(address for address, pid in told.at.items() if pid == row.pid)} & busy
        if (row.pid, row.bcr, row.dcr) not in known:
            kinds.add("wrong")
        elif told.knows(row):
            kinds.add("silent" if row.address in told.silent else "unseen")
        else:
            kinds.add("busy" if refused else "wrong")
    for row in engine - linux:
        kinds.add("busy" if row.address in busy else "wrong")
    for row in engine:
        if not told.knows(row) or row.address in told.silent:
            kinds.add("wrong")  # the answers tell where each device is
    return kinds


def kind_of(order: Order) -> str:
    return max(kinds_of(order), key=KINDS.index, default="same")


def is_handled(order: Order) -> bool:
    """Each interrupt that was recorded was handled once, in their order, unless the driver says that there is no handler."""
    told = [line for each in order.exchanges if each.kind not in ("show", "script") for line in each.answers]
    recorded = [found[2].lower() for found in map(RECORD.fullmatch, told) if found]
    handled = [found[1] or "--" for found in map(HANDLED.match, order.log) if found]
    unhandled = sum(map(bool, map(UNHANDLED.search, order.log)))
    rest = iter(recorded)
    return all(byte in rest for byte in handled) and len(recorded) == len(handled) + unhandled


def is_quiet(order: Order) -> bool:
    """Nobody asks at the end."""
    asking = [line for each in order.played for line in each.answers if line.split(" ")[0] == "asking"]
    return not asking or asking[-1] == "asking"


def is_warned(order: Order) -> bool:
    return any(map(WARNING.search, order.log))


def is_disabled(order: Order) -> bool:
    """Each DISEC of this order to one device was answered."""
    return all(each.done for each in order.exchanges if each.kind == "disec")


def check_warnings(log: list[str], orders: list[Order]) -> None:
    """
    The core warns where it takes back an interrupt's handler, behind a DISEC that wasn't answered. It does so in two lines, one
    right behind the other.
    """
    places = {(found[1], int(found[2])) for found in map(WARNING.search, log) if found}
    lines = [line for _, line in places]
    warned = [order for order in orders if is_warned(order)]
    known = {path for path, _ in places} <= {"drivers/i3c/master.c"} and (not lines or max(lines) - min(lines) <= 1)
    told = ", ".join([f"{len(warned)} orders", *(f"{path}:{line}" for path, line in sorted(places))])
    check.check("the core warns at most behind a DISEC without an answer", known and not any(map(is_disabled, warned)), told)


def keep_shortest(work: Path, orders: list[Order], kind: str) -> None:
    if orders:
        shortest = min(orders, key=lambda order: len(order.script))
        (work / f"{kind}.i3c").write_text("".join(f"{line}\n" for line in shortest.script))


def check_scene(work: Path, binary: str, path: str, orders: list[Order]) -> None:
    """The engine tried all orders, and answers the same lines with the same without Linux."""
    name = Path(path).stem
    status = (work / f"{name}.status").read_text().strip()
    check.check(f"{name}: all orders were tried, and no line differed", status == "0", f"{len(orders)} orders")
    sent = "".join(f"{each.line}\n" for order in orders for each in order.exchanges)
    again = subprocess.run([binary, "drive", "--every", path], input=sent, capture_output=True, text=True, check=False)
    answers = [line.removeprefix(ANSWER) for order in orders for line in order.log if line.startswith(ANSWER)]
    check.check(f"{name}: the same lines have the same answers without Linux", again.stdout.splitlines() == answers)


def check_found(binary: str) -> None:
    """The scripts of what Linux gets wrong run as their comments say."""
    for path in sorted((Path(__file__).parent / "found").glob("*.i3c")):
        ran = subprocess.run([binary, "run", "--test", path], capture_output=True, text=True, check=False)
        check.check(f"found/{path.name} meets what it expects", ran.returncode == 0, ran.stderr.strip())


def main() -> int:
    work, binary, scenes = Path(sys.argv[1]), sys.argv[2], sys.argv[3:]
    log = [check.STAMP.sub("", line) for line in (work / "log").read_text(errors="replace").splitlines()]
    orders = list(orders_of(log, scenes))
    kinds = [kind_of(order) for order in orders]
    for scene in scenes:
        check_scene(work, binary, scene, [order for order in orders if order.scene == scene])
        counts = Counter(kind for kind, order in zip(kinds, orders) if order.scene == scene)
        print("       tables:", ", ".join(f"{counts[kind]} {kind}" for kind in KINDS if counts[kind]))
    for kind in KINDS[1:]:
        keep_shortest(work, [order for order, its in zip(orders, kinds) if its == kind], kind)
    keep_shortest(work, [order for order in orders if is_warned(order)], "warned")
    check.check("enough orders in one boot", len(orders) >= LEAST, f"{len(orders)}")
    counts = Counter(kinds)
    check.check("each table differs at most as Linux is known to", not counts["wrong"], str(dict(counts)))
    check.check("each interrupt was handled once, or has no handler", all(map(is_handled, orders)))
    check.check("nobody asks at the end of an order", all(map(is_quiet, orders)))
    check_warnings(log, orders)
    check.check("no oops", not any(map(SERIOUS.search, log)))
    check.check("the scenario came to its end", "== end" in log)
    check_found(binary)
    return check.failures > 0


if __name__ == "__main__":
    sys.exit(main())
