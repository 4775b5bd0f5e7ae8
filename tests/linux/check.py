#!/usr/bin/env python3
"""check.py WORK BINARY: whether Linux saw what the engine did, by the kernel's log, the lines that it sent, and the status.

WORK has the files of a run: `log`, `script` and `status`. The status is 0 if all holds.
"""

import re
import subprocess
import sys
from collections import Counter
from pathlib import Path
from typing import NamedTuple

SENT = "daskreyf > "
ANSWER = "daskreyf < "
STAMP = re.compile(r"^\[ *[\d.]+\] ")
RECORD = re.compile(r"record (\d+) slot (\d+) raise \d+ at .. byte (..)")
SLOT = re.compile(r"(\w+) slot (\d+)")
AT = re.compile(r"(\w+) (..) waiting \d+")
DEVICE = re.compile(r"device (\w+) pid (\w+) bcr (\w+) dcr (\w+) .*")
IN_SYSFS = re.compile(r"(..) pid (\w+) bcr (\w+) dcr (\w+)")
LENGTHS = re.compile(r"daskreyf-client .*: probe 0: address .., max_read_len (\d+), max_ibi_len (\d+)")
LIST = re.compile(r"daskreyf-i3c .*: DEFSLVS of the core: ([\w ]+)")
BYTE = re.compile(r"(\w\w)\.\d")
READ = re.compile(r"daskreyf-i3c .*: CCC .. of ..: ([\w ]+)")
HANDLED = re.compile(r"daskreyf-client 0-(\w+): interrupt, payload \[(..)?\]")
TROUBLE = re.compile(r"WARNING|BUG|Call Trace|the engine is gone|no slot|Kernel panic")
DEFTGTS = " 7E/W+ 08.0 "
DATA = ("pid", "bcr", "dcr", "status", "mwl", "mrl", "mxds", "caps")
OF_ALL = ("getpid", "getbcr", "getdcr", "getmwl", "getmrl")
"""What the core asks each device that it adds."""
NEEDED = {"setdasa", "setnewda", "setmwl", "setmrl", *(f"get{datum}" for datum in DATA)}
LONG = 900
"""The kernel's log has no longer lines."""

failures = 0


class Exchange(NamedTuple):
    """A line that Linux sent, and its answer."""

    line: str
    answers: list[str]

    @property
    def kind(self) -> str:
        return self.line.split(" ", 1)[0]

    @property
    def done(self) -> bool:
        return self.answers[-1].startswith("ok ")


class Row(NamedTuple):
    """A device as sysfs tells it."""

    address: str
    pid: str
    bcr: str
    dcr: str


def check(what: str, holds: bool, more: str = "") -> None:
    global failures
    print("ok    " if holds else "WRONG ", what, more)
    failures += not holds


def small(digits: str) -> str:
    """A hexadecimal number as sysfs prints it."""
    return f"{int(digits, 16):x}"


def exchanges(log: list[str]) -> list[Exchange]:
    """The lines that were sent, each with its answer."""
    found: list[Exchange] = []
    for line in log:
        if line.startswith(SENT):
            found.append(Exchange(line.removeprefix(SENT), []))
        elif line.startswith(ANSWER):
            found[-1].answers.append(line.removeprefix(ANSWER))
    return found


def step(log: list[str], number: int) -> list[str]:
    """The log of a step of the scenario."""
    first, last = (next(i for i, line in enumerate(log) if line.startswith(f"== {n} ")) for n in (number, number + 1))
    return log[first:last]


def in_engine(part: list[str]) -> list[Row]:
    """The targets with an address, by the `show all` in this part of the log."""
    told = next(each.answers for each in exchanges(part) if each.line == "show all")
    at = {found[1]: found[2].lower() for found in map(AT.fullmatch, told) if found}
    devices = [found.groups() for found in map(DEVICE.fullmatch, told) if found]
    hub = next(line.split()[1].lower() for line in told if line.startswith("active "))
    rows = [Row(at[name], small(pid), small(bcr), small(dcr)) for name, pid, bcr, dcr in devices]
    return sorted(row for row in rows if row.address not in (hub, "--"))


def check_devices(log: list[str]) -> None:
    """After the first start, the joins, and the second start, sysfs has the engine's devices."""
    for number, when, count in ((1, "at the start", 6), (7, "after joins", 8), (10, "bound again", 8)):
        part = step(log, number)
        linux = sorted(Row(*found.groups()) for found in map(IN_SYSFS.match, part) if found)
        same = linux == in_engine(part) and len(linux) == count
        check(f"addresses, PIDs, BCRs and DCRs in sysfs {when}", same, f"{len(linux)} devices")


def entries(data: list[str]) -> set[tuple[str, ...]]:
    """The entries of a list of devices, behind its count. Linux writes FC where its controller has no static address."""
    return {(*data[i : i + 3], data[i + 3].replace("fc", "00")) for i in range(1, len(data), 4)}


def check_lists(log: list[str]) -> None:
    """The list that the core wanted to send is the engine's, with static addresses, but for the order."""
    for number, when in ((1, "at the start"), (10, "bound again")):
        before = log[: log.index(step(log, number + 1)[0])]
        core = [found[1].split() for found in map(LIST.fullmatch, before) if found][-1]
        frames = next(each.answers for each in exchanges(step(log, number)) if each.line.startswith("frames "))
        engine = BYTE.findall([frame for frame in frames if DEFTGTS in frame][-1].split(DEFTGTS)[1].lower())
        check(f"the list of devices {when}", entries(core) == entries(engine), f"{len(engine) // 4} entries")


def check_start(log: list[str]) -> None:
    """Before the first step Linux asked each device for what it tells of it, and gave the wanted addresses."""
    start = exchanges(log[: log.index(step(log, 1)[0])])
    devices = in_engine(step(log, 1))
    done = Counter(each.kind for each in start if each.done)
    wanted = dict.fromkeys(OF_ALL, len(devices))
    wanted["getmxds"] = sum(int(row.bcr, 16) & 1 for row in devices)
    wanted["getcaps"] = sum(int(row.bcr, 16) >> 5 & 1 for row in devices)
    asked = {kind: done[kind] for kind in wanted}
    check("each device was asked for what Linux tells of it", asked == wanted, str(asked))
    given = {each.line: each.answers[-1].split(" ", 2)[2:] for each in start if each.kind in ("setdasa", "setnewda")}
    moved = {"setdasa 24 31": [], "setdasa 25 32": ["NoAnswer 25"], "setnewda 0A 30": []}
    check("wanted addresses were given; one that has them isn't there yet", given == moved, ", ".join(given))


def check_codes(log: list[str]) -> None:
    """Each kind of code was sent and done, and what Linux read is what the engine told."""
    done = Counter(each.kind for each in exchanges(log) if each.done)
    check("each code was sent and done", NEEDED <= done.keys(), f"{sum(done[kind] for kind in NEEDED)} frames")
    told, pairs = "", []
    for line in log:
        if line.startswith(ANSWER) and line.removeprefix(ANSWER).split()[0] in DATA:
            told = line.split()[-1].lower()
        elif found := READ.fullmatch(line):
            pairs.append((told, found[1].replace(" ", "")))
    check("what was read is what the engine told", bool(pairs) and all(a == b for a, b in pairs), f"{len(pairs)} read")
    lengths = [found.groups() for found in map(LENGTHS.fullmatch, log) if found]
    check("the core has the engine's lengths", {read for read, _ in lengths} == {"16"}, f"{len(lengths)} probes")


def pids_of_slots(script: list[str], answers: list[str]) -> dict[str, str]:
    """The PID of the device in each slot. A name that comes back has the same PID here."""
    pids = {words[1]: small(words[2]) for words in map(str.split, script) if words[:1] == ["attach"]}
    names = {found[2]: found[1] for found in map(SLOT.fullmatch, answers) if found}
    return {slot: pids[name] for slot, name in names.items() if name in pids}


def check_interrupts(log: list[str], script: list[str], answers: list[str]) -> None:
    """What the handlers of each device got is what the engine recorded of it, in that order."""
    pids = pids_of_slots(script, answers)
    records = {int(found[1]): found for found in map(RECORD.fullmatch, answers) if found}
    recorded: dict[str, list[str]] = {}
    for number in sorted(records):
        recorded.setdefault(pids[records[number][2]], []).append(records[number][3].lower())
    handled: dict[str, list[str]] = {}
    for found in filter(None, map(HANDLED.match, log)):
        handled.setdefault(found[1], []).append(found[2] or "--")
    counts = f"{len(records)} records, {sum(map(len, handled.values()))} handled, {len(handled)} devices"
    check("each record was handled once, in its device's order", recorded == handled, counts)


def check_again(work: Path, binary: str, answers: list[str]) -> None:
    """The lines that Linux sent have the same answers without it."""
    with open(work / "script", encoding="ascii") as script:
        again = subprocess.run([binary, "drive"], stdin=script, capture_output=True, text=True, check=False)
    lines = again.stdout.splitlines()
    same = all(a == b or (len(a) > LONG and a.startswith(b[:LONG])) for a, b in zip(lines, answers))
    check("the same lines have the same answers without Linux", same and len(lines) == len(answers), f"{len(lines)} lines")


def main() -> int:
    work, binary = Path(sys.argv[1]), sys.argv[2]
    log = [STAMP.sub("", line) for line in (work / "log").read_text(errors="replace").splitlines()]
    script = (work / "script").read_text().splitlines()
    answers = [line.removeprefix(ANSWER) for line in log if line.startswith(ANSWER)]
    check_devices(log)
    check_lists(log)
    check_start(log)
    check_codes(log)
    check_interrupts(log, script, answers)
    check("no frame was sent to find out who asks", "quiet" not in answers, f"{script.count('serve')} served")
    check("no warning and no oops", not any(map(TROUBLE.search, log)))
    check("the scenario came to its end", "== end" in log)
    check("status 1: some lines were refused on purpose", (work / "status").read_text().strip() == "1")
    check_again(work, binary, answers)
    kinds = sorted(Counter(line.split(" ", 1)[0] for line in script).items())
    print("lines:", ", ".join(f"{count} {kind}" for kind, count in kinds))
    return failures > 0


if __name__ == "__main__":
    sys.exit(main())
