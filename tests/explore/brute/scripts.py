"""Scripts with tracks, made from a number: the same number gives the same script, with each version of Python."""
from itertools import combinations
from math import factorial, prod

from brute import plans, replays

HUB = 'main hub 020400000001 46 C0'
# a controller, a target whose interrupts have a byte, one whose interrupts have none, and one that may come late
DEVICES = {
    'c': 'attach c 020400000020 46 C1',
    't': 'attach t 020400000030 06 44',
    'u': 'attach u 020400000010 02 45',
    'x': 'attach x 020400000040 06 47',
}
BY_IDENTITY = ['u', 'c', 't', 'x']
# how many orders a script has, the least and the most; each as often as it stands here
SIZES = [(2, 12), (2, 12), (12, 60), (12, 60), (12, 60), (60, 250), (60, 250), (250, 2000)]
# the same of replays, where a device may lose power at any bit
CUT_SIZES = [(60, 200), (60, 200), (200, 600), (200, 600), (600, 2000)]
# and where each of two devices may
DOUBLE_SIZES = [(100, 600), (600, 2000)]
# in scripts behind this number two devices may lose power
SINGLE = 300


class Dice:
    """Numbers that look like chance, from a seed."""

    def __init__(self, seed):
        self.state = seed * 2862933555777941757 + 3037000493
        for _ in range(4):
            self.below(2)

    def below(self, most):
        self.state = (self.state * 6364136223846793005 + 1442695040888963407) % 2**64
        return (self.state >> 33) % most

    def pick(self, values):
        return values[self.below(len(values))]

    def chance(self, percent):
        return self.below(100) < percent

    def byte(self):
        return f'{self.below(256):02X}'


class Bus:
    """The devices of a script, with the addresses that they get at its start."""

    def __init__(self, dice):
        self.dice = dice
        count = dice.pick([1, 2, 2, 3])
        names = ['c', 't', 'u']
        while len(names) > count:
            names.remove(dice.pick(names))
        self.names = names
        self.late = dice.chance(40) and count < 3
        ranked = [name for name in BY_IDENTITY if name in names]
        self.addresses = {name: f'{9 + rank:02X}' for rank, name in enumerate(ranked)}

    def front(self):
        """The lines before the blocks."""
        dice = self.dice
        lines = ['legacy eep 50 20'] if dice.chance(15) else []
        lines.append(HUB)
        lines += [DEVICES[name] for name in self.names]
        if self.late and dice.chance(50):
            lines += ['daa', DEVICES['x']]
        else:
            lines += [] if dice.chance(15) else ['daa']
        lines += [self.raised(dice.pick(self.names))] if dice.chance(30) else []
        lines += ['list'] if dice.chance(20) else []
        return lines

    def raised(self, name):
        return f'raise {name}' if name == 'u' else f'raise {name} {self.dice.byte()}'

    def name(self):
        return self.dice.pick(self.names)

    def address(self):
        return self.addresses[self.name()]


def raises(bus):
    name = bus.name()
    return [bus.raised(name) for _ in range(bus.dice.pick([1, 1, 2, 3]))]


def serves(bus):
    return ['serve'] * bus.dice.pick([1, 1, 2, 3])


def masks(bus):
    dice = bus.dice
    kinds = dice.pick(['01', '01', '0B', '02'])
    to = f' {bus.address()}' if dice.chance(50) else ''
    return [f'disec {kinds}{to}', f'enec {kinds}{to}'][: dice.pick([1, 2, 2, 2])]


def hands(bus):
    if 'c' not in bus.names:
        return masks(bus)
    return ['list', f'handover {bus.addresses["c"]}'] + (['serve'] if bus.dice.chance(30) else [])


def roles(bus):
    return ['ask-role c', 'serve'] if 'c' in bus.names else serves(bus)


def drops(bus):
    name = bus.name()
    back = [DEVICES[name], f'ask-join {name}', 'daa']
    return [f'drop {name}'] + back[: bus.dice.pick([0, 0, 1, 2, 3])]


def joins(bus):
    if not bus.late:
        return drops(bus)
    return [DEVICES['x'], 'ask-join x'] + bus.dice.pick([[], ['serve'], ['daa']])


def sessions(bus):
    return ['open'] + ['round'] * bus.dice.pick([1, 2]) + ['end']


def assigns(bus):
    return ['daa']


def transfers(bus):
    dice = bus.dice
    address = bus.address()
    write = f'write {address} ' + ''.join(dice.byte() for _ in range(1 + dice.below(3)))
    return dice.pick([[write], [f'read {address}'], [write, f'read {address}'], [write, write[:-2] + dice.byte()]])


def policies(bus):
    but = [f'all but {bus.name()}', f'joins interrupts but {bus.name()}']
    return ['policy ' + bus.dice.pick(['none', 'joins', 'roles', 'interrupts', *but]), 'serve', 'policy all']


def forgets(bus):
    return [['forget 1'], ['serve', 'forget 2'], ['forget 1', 'serve']][bus.dice.below(3)]


def resets(bus):
    return ['reset', 'daa']


def moves(bus):
    return [f'setnewda {bus.address()} {bus.dice.pick(["20", "21", "0C"])}']


def asks(bus):
    return [f'{bus.dice.pick(["getstatus", "getstatus", "getbcr", "getmrl"])} {bus.address()}']


def limits(bus):
    dice = bus.dice
    to = f' {bus.address()}' if dice.chance(50) else ''
    address = bus.address()
    transfer = dice.pick([f'write {address} {dice.byte()}{dice.byte()}', f'read {address}', f'getmrl {address}'])
    return [f'{dice.pick(["setmwl", "setmrl"])} {1 + dice.below(3)}{to}', transfer][: dice.pick([1, 2, 2])]


def cuts(bus):
    return [f'cut {bus.name()} {bus.dice.below(30)}', bus.dice.pick(['serve', f'enec 01 {bus.address()}', 'list'])]


TRACKS = [raises, raises, serves, serves, masks, masks, hands, hands, roles, drops, drops, joins, joins, sessions,
          assigns, transfers, transfers, policies, policies, forgets, resets, moves, asks, limits, cuts]


def track_of(bus):
    lines = bus.dice.pick(TRACKS)(bus)
    if bus.dice.chance(35):
        lines = lines + bus.dice.pick(TRACKS)(bus)
    return lines[:4]


def fact(bus):
    """A fact that may hold or not."""
    dice = bus.dice
    name = dice.pick(bus.names + ['hub'])
    return dice.pick([
        f'{name} at {bus.address()}', f'{name} at any', f'{name} at none', f'{name} gone', f'{name} waiting {dice.below(3)}',
        f'waiting {dice.below(3)}', f'records {dice.below(3)}', f'active {name}', 'assigned', 'listed', 'open', 'done',
        'refused Masked', f'refused NoAnswer {bus.address()}', 'refused SessionOpen', f'record {name} -- {dice.below(2)}',
        f'record {name} {dice.byte()} {dice.below(2)}', 'refused NoDevice',
    ])


def claim(bus):
    return ('not ' if bus.dice.chance(40) else '') + fact(bus)


def likely(bus):
    """Facts that hold in most orders."""
    return bus.dice.pick([
        'hub at 08 or not active hub', 'not hub gone', 'active hub or active c', f'not {bus.name()} waiting 4',
        'records 0 or not records 9', 'not refused Full', 'open or not open', 'waiting 0 or not records 7',
    ])


def of_cuts(bus, name):
    """Facts that a device breaks only if it loses power, and for some only at some bits."""
    return bus.dice.pick([
        f'not {name} gone or refused NoAnswer {bus.addresses[name]}', f'not {name} gone or not done',
        f'not {name} gone or records 0', f'not {name} gone or waiting 0', f'{name} at any or not records 1',
        f'not {name} gone or not listed', f'{name} at {bus.addresses[name]} or not assigned',
        f'not {name} gone or records 0 or waiting 0',
    ])


def claims(bus, hopeful):
    if hopeful:
        return likely(bus)
    return ' or '.join(claim(bus) for _ in range(bus.dice.pick([1, 1, 2, 2, 3])))


def asks_before(words):
    """Whether facts ask what the line before came to."""
    return any(claim.removeprefix('not ').split(' ')[0] in ('done', 'refused') for claim in words.split(' or '))


class Script:
    """Puts a script together."""

    def __init__(self, number):
        self.dice = Dice(number)
        self.is_double = number > SINGLE
        self.is_cut = self.dice.chance(35) or self.is_double
        self.bus = Bus(self.dice)
        self.risk = ''
        # nothing is expected, or what holds in most orders, or anything
        self.mood = self.dice.pick(['none', 'none', 'hopeful', 'any', 'any', 'any'])

    def expecting(self, percent):
        if self.mood == 'none' or not self.dice.chance(percent):
            return []
        return ['expect ' + self.claims() for _ in range(self.dice.pick([1, 1, 1, 2]))]

    def claims(self):
        if self.mood == 'any' and self.risk and self.dice.chance(70):
            return of_cuts(self.bus, self.risk)
        return claims(self.bus, self.mood == 'hopeful' or self.dice.chance(35))

    def of_state(self, word, percent):
        """An expectation that doesn't ask what the line before came to."""
        if self.mood == 'none' or not self.dice.chance(percent):
            return []
        words = self.claims()
        return [] if asks_before(words) else [f'{word} {words}']

    def block(self):
        lines = ['any']
        if self.is_cut:
            self.risk = self.bus.name()
            lines.append(f'anywhere {self.risk}')
            if self.is_double:
                others = [name for name in (*self.bus.names, 'hub') if name != self.risk]
                lines.append(f'anywhere {self.bus.dice.pick(others)}')
        lines += self.of_state('always', 40)
        for _ in range(self.dice.pick([2, 2, 3, 3, 4])):
            lines += ['track', *(self.risky_track() if self.is_cut and self.dice.chance(25) else self.track())]
        return lines + ['close', *self.of_state('expect', 25)]

    def track(self):
        lines = []
        for line in track_of(self.bus):
            for frame in self.written(line):
                lines += [frame, *self.expecting(35)]
        return lines

    def written(self, line):
        """A `daa` by its frames, where a device may lose power in each: it is refused there."""
        return ['open', 'round', 'round', 'end'] if line == 'daa' and self.is_cut else [line]

    def risky_track(self):
        """A device at risk that comes back and may be lost once more, or a command to it that may be done all the same."""
        address = self.bus.addresses[self.risk]
        if self.dice.chance(40):
            return ['serve', DEVICES[self.risk], 'serve']
        command = self.dice.pick([f'enec 01 {address}', f'disec 01 {address}', f'write {address} 11', 'serve'])
        fact = self.dice.pick([f'refused NoAnswer {address}', 'not done', 'records 0'])
        return [command, f'expect not {self.risk} gone or {fact}'] if self.mood == 'any' else [command]

    def text(self):
        lines = [f'# {self.mood}'] + self.bus.front() + self.block()
        if self.dice.chance(15):
            lines += self.block()
        for _ in range(self.dice.below(3)):
            lines.append(self.dice.pick(['serve', 'serve', 'daa', 'list']))
            lines += self.expecting(60)
        return '\n'.join(lines) + '\n'


def orders_in(tracks):
    lengths = [len(track) for track in tracks]
    return factorial(sum(lengths)) // prod(factorial(length) for length in lengths)


def replays_of(plan):
    """About how many replays the walk makes: each order; each with a cut at each bit; and with two of them, where there may
    be a second device to cut, or the same once more."""
    orders = prod(orders_in(tracks) for tracks in plan.blocks)
    lines = [line for tracks in plan.blocks for track in tracks for line in track]
    bits = [(name, replays.bits_of(line.text)) for line in lines for name in line.risks]
    back = {line.text.split(' ')[1] for line in lines if line.in_block and line.text.startswith('attach ')}
    pairs = sum(one * other for (first, one), (second, other) in combinations(bits, 2) if first != second or first in back)
    return orders * (1 + sum(count for _, count in bits) + pairs)


def script_of(number):
    """The script of this number: the first of those that its dice throw that has the size that they throw, too."""
    script = Script(number)
    least, most = script.dice.pick(DOUBLE_SIZES if script.is_double else CUT_SIZES if script.is_cut else SIZES)
    while True:
        text = script.text()
        if least <= replays_of(plans.plan_of(text)) <= most:
            return text
