"""What facts say of a bus, as `show all` prints it (docs/FORMATS.md), and whether they hold (docs/EXPLORING.md)."""
from dataclasses import dataclass, field
from functools import lru_cache


@dataclass(frozen=True)
class Shown:
    """The bus as `show all` printed it."""

    active: str  # the active controller's address
    addresses: dict  # of each device that is there
    waiting: dict
    records: tuple  # (slot, byte) of each
    is_listed: bool
    is_open: bool


@lru_cache(maxsize=4096)
def read_shown(lines):
    """What these lines of `show all` say."""
    active, addresses, waiting, records = '', {}, {}, []
    for line in lines:
        words = line.split(' ')
        if words[0] == 'active':
            active = words[1]
        elif words[0] == 'record':
            records.append((int(words[3]), words[9]))
        elif len(words) == 4 and words[2] == 'waiting':
            addresses[words[0]] = words[1]
            waiting[words[0]] = int(words[3])
    return Shown(active, addresses, waiting, tuple(records), 'list current' in lines, 'session open' in lines)


@dataclass
class View:
    """The bus behind a line."""

    shown: Shown
    places: dict  # of each name that was given: its slot, or None where another device took that
    came_to: str  # 'done', the refusal as it was printed, or '' where no line is before

    def active(self):
        names = [name for name, address in self.shown.addresses.items() if address == self.shown.active]
        return names[0]

    def slot(self, name):
        return self.places.get(name)

    def is_there(self, name):
        return name in self.shown.addresses

    def count(self, name, byte):
        return self.shown.records.count((self.slot(name), byte))

    def holds(self, words):
        """Whether a fact of these words holds."""
        shown = self.shown
        match words:
            case ['assigned']:
                return '--' not in shown.addresses.values()
            case ['listed']:
                return shown.is_listed
            case ['open']:
                return shown.is_open
            case ['done']:
                return self.came_to == 'done'
            case ['refused', *_]:
                return self.came_to == ' '.join(words)
            case ['active', name]:
                return self.active() == name
            case ['waiting', count]:
                return sum(shown.waiting.values()) == int(count)
            case ['records', count]:
                return len(shown.records) == int(count)
            case ['record', name, byte, count]:
                return self.slot(name) is not None and self.count(name, byte) == int(count)
            case [name, 'gone']:
                return not self.is_there(name)
            case [name, 'at', 'any']:
                return self.is_there(name) and shown.addresses[name] != '--'
            case [name, 'at', 'none']:
                return self.is_there(name) and shown.addresses[name] == '--'
            case [name, 'at', address]:
                return self.is_there(name) and shown.addresses[name] == address
            case [name, 'waiting', count]:
                return self.is_there(name) and shown.waiting[name] == int(count)
        raise ValueError(' '.join(words))

    def there(self, words):
        """What is there, where this fact doesn't hold: the fact as it would hold."""
        shown = self.shown
        match words:
            case ['assigned'] | ['listed'] | ['open']:
                return 'not ' + words[0]
            case ['done'] | ['refused', *_]:
                return self.came_to
            case ['active', _]:
                return 'active ' + self.active()
            case ['waiting', _]:
                return f'waiting {sum(shown.waiting.values())}'
            case ['records', _]:
                return f'records {len(shown.records)}'
            case ['record', name, byte, _]:
                return f'{name} gone' if self.slot(name) is None else f'record {name} {byte} {self.count(name, byte)}'
            case [name, 'waiting', _]:
                return f'{name} waiting {shown.waiting[name]}' if self.is_there(name) else f'{name} gone'
            case [name, *_]:
                address = shown.addresses.get(name)
                return f'{name} gone' if address is None else f'{name} at ' + address.replace('--', 'none')
        raise ValueError(' '.join(words))


def claims_of(line):
    """The claims of an `always` or `expect`: of each its words, and whether it is negated."""
    claims = []
    for claim in line.split(' ', 1)[1].split(' or '):
        words = claim.split(' ')
        claims.append((words[1:], True) if words[0] == 'not' else (words, False))
    return claims


def is_met(line, view):
    return any(view.holds(words) != negated for words, negated in claims_of(line))


def unmet(line, view):
    """What is there, where a line's facts don't hold: the first one as it would hold."""
    words, negated = claims_of(line)[0]
    return ' '.join(words) if negated else view.there(words)
