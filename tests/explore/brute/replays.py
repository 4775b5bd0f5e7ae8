"""Whole orders, each as a plain script that `i3cbus run` runs from its start, and what they come to."""
import subprocess
from dataclasses import dataclass, field

from brute import facts, plans

MOST_REPLAYS = 6000
READ_AT = [f'{address:02X}' for address in range(0x08, 0x12)]
# the number of the last bit that a frame can have, by docs/BUS.md: a request in its first header takes 18 bits at most, and
# `serve` and a round have nothing behind theirs. A list has eight entries at most here, and a write four bytes
LAST_BITS = {'serve': 9, 'enec': 45, 'disec': 45, 'reset': 27, 'list': 9 * (2 + 4 * 8) + 18, 'read': 171, 'write': 63,
             'setdasa': 45, 'setnewda': 45, 'getpid': 90, 'getbcr': 45, 'getdcr': 45, 'getstatus': 54, 'getmwl': 54,
             'getmrl': 63, 'getmxds': 54, 'getcaps': 54, 'setmwl': 54, 'setmrl': 54, 'handover': 45, 'open': 27, 'daa': 27,
             'round': 73}


class Failed(Exception):
    """The program ended in a way that no script should end it."""


def is_refused(output):
    return bool(output) and output[-1].startswith('refused ')


def is_expected(plan, line):
    return any(plans.word_of(plan.text(number)) == 'expect' for number in line.expects)


def bits_of(line):
    """How many bits are tried in this line's frame: each that it can have, and one behind."""
    return LAST_BITS[plans.word_of(line)] + 2


@dataclass
class Replay:
    """A whole order, as it ran."""

    turns: tuple  # of each line its track and its way
    lines: list
    cuts: dict  # of each line by its index the names of the devices that are cut in its frame, each with its bit
    views: list  # the bus behind each line, where it was looked at
    before: facts.View  # the bus in front of all blocks
    printed: list  # what each line printed
    refused_front: list  # the numbers of the lines up to `main` that were refused
    end: str  # all that can be seen of the bus at its end
    shown: tuple  # what `show` prints there
    breaks: int  # the first line behind which something that is expected doesn't hold, or the number of lines

    def unmet(self, plan):
        """The numbers of the expectations that don't hold behind the line that breaks."""
        view = self.views[self.breaks]
        return [number for number in self.lines[self.breaks].expects if not facts.is_met(plan.text(number), view)]

    def is_broken(self):
        return self.breaks < len(self.lines)

    def refused(self):
        return sum(1 for output in self.printed if is_refused(output))

    def unexpected(self, plan):
        """The numbers of the lines that were refused with no `expect` behind them."""
        ran = {line.number for line, output in zip(self.lines, self.printed) if is_refused(output) and not is_expected(plan, line)}
        return ran | set(self.refused_front)

    def view_before(self, index):
        return self.views[index - 1] if index else self.before


def numbered(program, path):
    """What `run --numbers` prints for each line of a script."""
    done = subprocess.run([program, 'run', '--numbers', path], stdin=subprocess.DEVNULL, capture_output=True, check=False)
    if done.returncode not in (0, 1) or done.stderr:
        raise Failed(f'status {done.returncode}: {done.stderr.decode()}')
    printed = {}
    for line in done.stdout.decode().splitlines():
        number, _, text = line.partition(': ')
        printed.setdefault(int(number), []).append(text)
    return printed


def names_of(plan):
    """Each name of the file with a line that attaches its device."""
    attaching = {}
    for line in plan.lines:
        words = line.split(' ')
        if words[0] in ('main', 'attach'):
            attaching.setdefault(words[1], 'attach ' + ' '.join(words[1:]))
    return attaching


def addresses_of(plan):
    """The addresses at which registers are looked at."""
    named = [line.split(' ')[2] for line in plan.lines if plans.word_of(line) in ('setnewda', 'legacy')]
    return READ_AT + sorted(set(named) - set(READ_AT))


def lengths_of(plan):
    """Lines that tell maximum lengths, where a line of the file sets one, and by which a read gives all registers again."""
    if not any(plans.word_of(line) in ('setmwl', 'setmrl') for line in plan.lines):
        return []
    return [f'{word} {address}' for address in addresses_of(plan) for word in ('getmwl', 'getmrl')] + ['setmrl 16']


def questions(plan):
    """Lines behind an order's end, whose answers tell what `show all` doesn't: the table, which identity each address is kept
    for, maximum lengths, and registers. Those of the active controller are read once another one is active."""
    names = names_of(plan)
    reads = lengths_of(plan) + [f'read {address}' for address in addresses_of(plan)]
    back = [f'drop {name}' for name in names] + list(names.values())
    offers = [f'handover {address}' for address in addresses_of(plan)]
    return ['end', 'policy all', 'serve', 'list', 'frames 1', 'daa', *reads, *back, 'daa', 'list', *offers, *reads]


def rounds(plan):
    """Lines whose answers tell who hears an open session. They change the table, so they aren't asked with the others."""
    return ['round'] * len(names_of(plan))


class Followed:
    """What lines leave behind that nothing prints later: names, accepted raises, the policy, cuts that wait, and how many
    interrupts were ever recorded, of which the log may have forgotten some."""

    def __init__(self):
        self.places = {}
        self.raised = {}
        self.policy = 'all'
        self.cuts = {}
        self.recorded = 0

    def follow(self, line, printed):
        words = line.split(' ')
        if plans.sends_frame(line):
            self.cuts = {}
        for told in printed:
            if told.startswith('recorded '):
                self.recorded = int(told.split(' ')[1])
        if is_refused(printed):
            return
        if words[0] == 'policy':
            self.policy = self.meant(words[1:])
        elif words[0] in ('main', 'attach'):
            self.give(words[1], int(printed[0].split(' ')[2]))
        elif words[0] == 'raise':
            number = int(printed[0].split(' ')[1])
            self.raised.setdefault(self.places[words[1]], []).append((number, words[2:]))
        elif words[0] == 'cut':
            slot = self.places[words[1]]
            self.cuts[slot] = min(int(words[2]), self.cuts.get(slot, 65535))

    def meant(self, words):
        """A policy, with the slots of the devices that it excepts."""
        kinds, _, names = ' '.join(words).partition(' but ')
        return f'{kinds} but {sorted(self.places[name] for name in names.split())}' if names else kinds

    def give(self, name, slot):
        """A name stands for a slot; who stood there stands there no more."""
        for other, place in self.places.items():
            if place == slot:
                self.places[other] = None
        self.places[name] = slot

    def end(self, shown):
        """What waits in each slot, and the rest. Which interrupts wait: the last ones, since the oldest go first."""
        queues = {}
        for name, count in shown.waiting.items():
            slot = self.places[name]
            queues[slot] = self.raised.get(slot, [])[-count:] if count else []
        counts = {slot: raises[-1][0] for slot, raises in sorted(self.raised.items())}
        return f'{self.policy} {self.recorded} {sorted(self.cuts.items())} {list(self.places.items())} {sorted(queues.items())} {counts}'


@dataclass
class Written:
    """The script of an order, with the numbers of its lines."""

    lines: list = field(default_factory=list)
    begun: int = 0  # the `show all` in front of the blocks
    ran: list = field(default_factory=list)  # each line of the order
    looks: list = field(default_factory=list)  # the `show all` behind each, where there is one
    asked: list = field(default_factory=list)  # the questions behind the order's end

    def add(self, line):
        self.lines.append(line)
        return len(self.lines)


class Player:
    """Runs orders of a plan."""

    def __init__(self, program, plan, path):
        self.program = program
        self.plan = plan
        self.path = path
        self.questions = questions(plan)
        self.count = 0

    def written(self, lines, cuts, asked):
        """The script of an order with these cuts, and with questions behind it."""
        script = Written()
        for line in self.plan.front:
            script.add(line)
        script.begun = script.add('show all')
        for index, line in enumerate(lines):
            for cut in cut_lines(cuts, index):
                script.add(cut)
            script.ran.append(script.add(line.text) if line.text else None)
            script.looks.append(script.add('show all') if is_looked_at(lines, index) else None)
        script.asked = [script.add(line) for line in asked]
        return script

    def run(self, script):
        """What each line of a script printed, by its number."""
        self.count += 1
        if self.count > MOST_REPLAYS:
            raise Failed(f'more than {MOST_REPLAYS} replays')
        with open(self.path, 'w', encoding='ascii') as file:
            file.write('\n'.join(script.lines) + '\n')
        return numbered(self.program, self.path)

    def answers(self, lines, cuts, asked):
        """What other questions behind the order's end are answered, in a replay of their own."""
        script = self.written(lines, cuts, asked)
        return answered(asked, script, self.run(script))

    def play(self, turns, cuts):
        """Runs an order whole, with these cuts."""
        lines = [line for _, line in turns]
        script = self.written(lines, cuts, self.questions)
        printed = self.run(script)
        followed = Followed()
        for number in range(1, script.begun):
            followed.follow(script.lines[number - 1], printed.get(number, []))
        before = facts.View(facts.read_shown(tuple(printed[script.begun])), dict(followed.places), '')
        views = views_of(lines, script, printed, followed, cuts)
        last = printed[script.looks[-1]] if script.looks else printed[script.begun]
        shown = facts.read_shown(tuple(last))
        seen = [line for line in last if not line.startswith('under slot ')]
        told = answered(self.questions, script, printed)
        if shown.is_open:
            told += self.answers(lines, cuts, rounds(self.plan))
        ways = tuple((track, way_of(line, cuts.get(index, {}))) for index, (track, line) in enumerate(turns))
        bus = next(index for index, line in enumerate(last) if line.startswith('device '))
        return Replay(
            turns=ways,
            lines=lines,
            cuts=cuts,
            views=views,
            before=before,
            printed=[printed.get(number, []) for number in script.ran],
            refused_front=[number for at, number in enumerate(self.plan.front_numbers, 1) if is_refused(printed.get(at, []))],
            end='\n'.join([*seen, followed.end(shown), *told]),
            shown=tuple(last[:bus]),
            breaks=self.first_break(lines, views),
        )

    def first_break(self, lines, views):
        for index, line in enumerate(lines):
            if not all(facts.is_met(self.plan.text(number), views[index]) for number in line.expects):
                return index
        return len(lines)

    def replays(self, turns):
        """An order in each of its ways: uncut, and with each device at risk cut at each bit of each frame in which it can be
        cut, and both of two. Where one comes back and is cut again, these too. Each replay has one cut more than the one
        that it is made of: of a later frame, or of the same frame's second device."""
        waiting = [({}, None, (0, -1))]
        while waiting:
            cuts, without, (index, place) = waiting.pop()
            replay = self.play(turns, cuts)
            last = min(replay.breaks + 1, len(turns))
            if without and replay.views[index].is_there(replay.lines[index].risks[place]):
                # the bit is behind the frame's last one; only another cut of the frame can change where that is
                if replay.end != without.end or replay.printed != without.printed:
                    raise Failed(f'a cut behind the last bit did something: {cuts}')
                last = min(last, index + 1)
            else:
                yield replay
            for later, second, name, bit in later_cuts(replay, index, place, last):
                waiting.append((with_cut(cuts, later, name, bit), replay, (later, second)))


def later_cuts(replay, index, place, last):
    """Each cut of a later frame than this, up to the one before the last, or of a later device in the same frame: the frame's
    index, the device's place among those at risk, its name, and the bit."""
    for later in range(index, last):
        line = replay.lines[later]
        for second, name in enumerate(line.risks):
            if (later, second) > (index, place) and is_at_risk(replay, later, name):
                yield from ((later, second, name, bit) for bit in range(bits_of(line.text)))


def with_cut(cuts, index, name, bit):
    return {**cuts, index: {**cuts.get(index, {}), name: bit}}


def cut_lines(cuts, index):
    """The lines in front of a frame that cut devices in it."""
    return [f'cut {name} {bit}' for name, bit in cuts.get(index, {}).items()]


def way_of(line, bits):
    """The number of a line's way. A device that is cut at a bit has 1 more, and 0 if it isn't cut. Two devices have numbers in
    the order of the larger one; of those that are as large first where the first device has it, and the other grows."""
    ways = [bits[name] + 1 if name in bits else 0 for name in line.risks]
    if len(ways) < 2:
        return sum(ways)
    one, other = ways
    return one * one + other if one > other else other * other + other + one


def is_looked_at(lines, index):
    """Whether something is expected behind a line, or whether a device is at risk there is asked."""
    is_risky = lines[index].risks or index + 1 < len(lines) and lines[index + 1].risks
    return bool(lines[index].expects or is_risky or index + 1 == len(lines))


def views_of(lines, script, printed, followed, cuts):
    """The bus behind each line that is looked at."""
    views = []
    for index, line in enumerate(lines):
        output = printed.get(script.ran[index], [])
        for cut in cut_lines(cuts, index):
            followed.follow(cut, [])
        if line.text:
            followed.follow(line.text, output)
        came_to = '' if not line.text else output[-1] if is_refused(output) else 'done'
        look = script.looks[index]
        shown = facts.read_shown(tuple(printed[look])) if look else None
        views.append(facts.View(shown, dict(followed.places), came_to) if look else None)
    return views


def is_at_risk(replay, index, name):
    """Whether a device is there in front of a line, and isn't the active controller."""
    view = replay.view_before(index)
    return view.is_there(name) and view.active() != name


def answered(asked, script, printed):
    """What questions were answered. The frame that is told is the list's, and no older one."""
    told = []
    is_sent = False
    for line, number in zip(asked, script.asked):
        output = printed.get(number, [])
        if line == 'list':
            is_sent = output[-1] == 'done'
        if line != 'frames 1' or is_sent:
            told.append(f'{line}: ' + ' / '.join(output))
    return told
