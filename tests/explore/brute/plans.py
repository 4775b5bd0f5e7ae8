"""The plan of a file: the lines before the blocks, and the blocks of tracks that run from there (docs/EXPLORING.md).

This is a reading of its own, for files that are in order: it refuses nothing.
"""
from dataclasses import dataclass, field

FRAMES = ('serve', 'enec', 'disec', 'reset', 'list', 'read', 'write', 'setdasa', 'setnewda', 'getpid', 'getbcr', 'getdcr',
          'getstatus', 'getmwl', 'getmrl', 'getmxds', 'getcaps', 'setmwl', 'setmrl', 'handover', 'open', 'round', 'daa')


@dataclass
class Line:
    """A line that runs, or, without a text, a place where something is expected."""

    number: int
    text: str
    risks: tuple = ()  # the devices that may lose power in its frame
    in_block: bool = False
    expects: list = field(default_factory=list)  # the numbers of the lines that say what is expected behind it


@dataclass
class Plan:
    """A file by its parts. A line outside of blocks is a block of one track."""

    lines: list  # the file's lines
    front: list = field(default_factory=list)  # those up to `main`
    front_numbers: list = field(default_factory=list)
    blocks: list = field(default_factory=list)  # of each block its tracks, each a list of lines

    def text(self, number):
        return self.lines[number - 1]

    def is_risky(self):
        return any(line.split(' ')[0] == 'anywhere' for line in self.lines)


def word_of(line):
    return line.split(' ')[0]


def sends_frame(line):
    return word_of(line) in FRAMES


class Reader:
    """Reads a file line by line."""

    def __init__(self, text):
        self.plan = Plan(text.splitlines())
        self.last = None  # the line that the next `expect` is about
        self.tracks = None  # of the open block
        self.risks = ()
        self.always = []

    def read(self):
        has_bus = False
        for number, line in enumerate(self.plan.lines, 1):
            if not line or line.startswith('#'):
                continue
            if has_bus:
                self.take(number, line)
            else:
                self.plan.front.append(line)
                self.plan.front_numbers.append(number)
                has_bus = word_of(line) == 'main'
        return self.plan

    def take(self, number, line):
        word = word_of(line)
        if word == 'any':
            self.tracks, self.risks, self.always = [], (), []
        elif word == 'anywhere':
            self.risks += (line.split(' ')[1],)
        elif word == 'always':
            self.always.append(number)
            self.expect(number)
        elif word == 'expect':
            self.expect(number)
        elif word == 'track':
            self.end_track()
            self.tracks.append([])
        elif word == 'close':
            self.end_track()
            self.plan.blocks.append(self.tracks)
            self.tracks = None
        else:
            self.add(number, line)

    def expect(self, number):
        """What a line expects is about the line before, or about a place of its own where there is none."""
        if self.last is None:
            self.last = Line(number, '')
            self.plan.blocks.append([[self.last]])
        self.last.expects.append(number)

    def end_track(self):
        """What has to hold always is tested behind each line's own expectations."""
        if self.tracks:
            for line in self.tracks[-1]:
                line.expects.extend(self.always)
        self.last = None

    def add(self, number, line):
        self.last = Line(number, line)
        if self.tracks is None:
            self.plan.blocks.append([[self.last]])
            return
        self.last.in_block = True
        self.last.risks = self.risks if sends_frame(line) else ()
        self.tracks[-1].append(self.last)


def plan_of(text):
    return Reader(text).read()


def interleavings(tracks):
    """Every order of a block's tracks, as the numbers of its tracks turn by turn. The first track goes first."""
    left = [len(track) for track in tracks]
    order = []

    def go_on():
        if len(order) == sum(len(track) for track in tracks):
            yield tuple(order)
            return
        for track, count in enumerate(left):
            if count:
                left[track] -= 1
                order.append(track)
                yield from go_on()
                order.pop()
                left[track] += 1

    return list(go_on())


def orders_of(plan):
    """Every order of all blocks, as (track, line) turn by turn."""
    orders = [[]]
    for tracks in plan.blocks:
        orders = [before + turns_of(tracks, order) for before in orders for order in interleavings(tracks)]
    return orders


def turns_of(tracks, order):
    gone = [0] * len(tracks)
    turns = []
    for track in order:
        turns.append((track, tracks[track][gone[track]]))
        gone[track] += 1
    return turns
