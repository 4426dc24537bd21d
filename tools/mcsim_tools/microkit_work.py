"""The work file of a Microkit board: what its domains do, and how often interrupts come.

Times are microseconds in the file and ticks here: work is rounded up, times between down."""
from __future__ import annotations

import pathlib
from collections.abc import Mapping, Sequence
from dataclasses import dataclass
from typing import Any, NamedTuple, Optional

from . import digits, named, system
from .faults import Fault
from .microkit_board import LONGEST, Board, Domain

LONGEST_DELAY = 2**20
LONGEST_CALL = 2**16
# the functions of a domain that are called with the number of a channel
NOTIFIED, PROTECTED = 'notified', 'protected'
TOP = ('call', 'delay', 'domain', 'chain')
OF_DOMAIN = ('init', NOTIFIED, PROTECTED, 'irq', 'deadline')
OF_INTERRUPT = ('period', 'start', 'count', 'at')
OF_CHAIN = ('from', 'to', 'deadline')
ITEMS = '`compute N` in microseconds of 1 or more, `notify ID`, `call ID` and `spin`'

Tables = Mapping[str, Any]
# an item's word, and its ticks or the number of a channel
Item = tuple[str, int]
# a function and the number of a channel or an interrupt
Handler = tuple[str, int]


@dataclass(frozen=True)
class Timing:
    """When an interrupt comes, in ticks: as the keys of a source."""

    period: int
    start: int
    count: int
    at: tuple[int, ...]


class Chain(NamedTuple):
    """A way from an interrupt to a domain, or to the handler of one of its channels."""

    name: str
    begin: tuple[Domain, int]
    end: tuple[Domain, Optional[int]]
    deadline: int


class Work:
    """What a work file says."""

    def __init__(self, path: pathlib.Path, board: Board) -> None:
        self.path, self.board, self.tick = path, board, board.tick
        tables: Tables = system.tables_of(path, system.read_bytes(path))
        self.keys(tables, '', TOP)
        self.call = self.cost(tables, 'call', LONGEST_CALL)
        self.delay = self.cost(tables, 'delay', LONGEST_DELAY)
        self.domains = self.table(tables, '', 'domain')
        names = [domain.name for domain in board.protection_domains()]
        for name in self.domains:
            if name not in names:
                raise self.fault('domain', f'no protection_domain has the name {name!r}: '
                                 f'{named.known(name, names)}')
            self.keys(self.table(self.domains, 'domain', name), f'domain.{name}', OF_DOMAIN)
        self.chains = [self.chain(name, self.table(chains, 'chain', name))
                       for chains in [self.table(tables, '', 'chain')] for name in chains]

    # ---- what is wrong, and plain values

    def fault(self, where: str, text: str) -> Fault:
        return Fault(f'{self.path}: {where}{": " if where else ""}{text}')

    def keys(self, table: Tables, where: str, allowed: Sequence[str]) -> None:
        for key in table:
            if key not in allowed:
                raise self.fault(where, f'the key {key!r} is none of {", ".join(allowed)}')

    def table(self, tables: Tables, where: str, key: str) -> Tables:
        table = tables.get(key, {})
        if not isinstance(table, dict):
            raise self.fault(where, f'{key} is no table')
        return table

    def number(self, value: object, where: str, least: int = 1, what: str = 'microseconds') -> int:
        if isinstance(value, bool) or not isinstance(value, int) or not least <= value <= LONGEST:
            raise self.fault(where, f'is to be a whole number of {what}, {least} or more')
        return value

    def up(self, microseconds: int) -> int:
        """Whole ticks, at least one."""
        return max(1, -(-microseconds // self.tick))

    def cost(self, tables: Tables, key: str, most: int) -> int:
        """A cost at the top, in ticks [default: one tick]."""
        ticks = self.up(self.number(tables[key], key)) if key in tables else 1
        if ticks > most:
            raise self.fault('', f'{key} is {ticks} ticks, of at most {most}')
        return ticks

    def down(self, value: object, where: str) -> int:
        """A time between, of at least a tick."""
        microseconds = self.number(value, where)
        if microseconds < self.tick:
            raise self.fault(where, f'{microseconds} us is below a tick of {self.tick} us')
        return microseconds // self.tick

    # ---- domains

    def of(self, domain: Domain) -> Tables:
        table: Tables = self.domains.get(domain.name, {})
        return table

    def deadline(self, domain: Domain) -> int:
        """The deadline of a domain in ticks, or 0."""
        told = self.of(domain)
        where = f'domain.{domain.name}.deadline'
        return self.down(told['deadline'], where) if 'deadline' in told else 0

    def init(self, domain: Domain) -> Optional[list[Item]]:
        """What a domain does once, if the file says it."""
        told = self.of(domain)
        where = f'domain.{domain.name}.init'
        return self.items(domain, told['init'], where) if 'init' in told else None

    def handlers(self, domain: Domain) -> dict[Handler, list[Item]]:
        """What a domain does for its channels and interrupts."""
        callers = [id for id, end in domain.ends.items() if end.other.ends[end.id].may_call]
        makers = [id for id, end in domain.ends.items() if end.other.ends[end.id].may_notify]
        found: dict[Handler, list[Item]] = {}
        for function, ids, what in (
            (NOTIFIED, [*domain.interrupts, *makers], 'no interrupt, and no channel that notifies'),
            (PROTECTED, callers, 'no channel whose other end has pp'),
        ):
            where = f'domain.{domain.name}.{function}'
            for key, items in self.table(self.of(domain), f'domain.{domain.name}', function).items():
                id = digits.number(key)
                if id not in ids:
                    there = named.known('', map(str, sorted(ids)))
                    raise self.fault(where, f'{domain.name} has {what}, of id {key}: {there}')
                assert id is not None
                found[function, id] = self.items(domain, items, f'{where}.{key}')
        return found

    def items(self, domain: Domain, items: object, where: str) -> list[Item]:
        if not isinstance(items, list) or not all(isinstance(item, str) for item in items):
            raise self.fault(where, 'is to be a list of texts')
        return [self.item(domain, item, f'{where} item {place}')
                for place, item in enumerate(items, 1)]

    def item(self, domain: Domain, item: str, where: str) -> Item:
        words = item.split()
        if words == ['spin']:
            return 'spin', 0
        number = digits.number(words[1]) if len(words) == 2 else None
        if number is not None and words[0] == 'compute' and 1 <= number <= LONGEST:
            return 'compute', self.up(number)
        if number is not None and words[0] in ('notify', 'call'):
            self.check_channel(domain, words[0], number, where)
            return words[0], number
        raise self.fault(where, f'{item!r} is none of {ITEMS}')

    def check_channel(self, domain: Domain, word: str, id: int, where: str) -> None:
        end = domain.ends.get(id)
        if end is None:
            there = named.known('', map(str, sorted(domain.ends)))
            raise self.fault(where, f'{domain.name} has no channel {id}: {there}')
        if word == 'notify' and not end.may_notify:
            raise self.fault(where, f'channel {id} of {domain.name} has notify="false"')
        if word == 'call' and not end.may_call:
            raise self.fault(where, f'channel {id} of {domain.name} has no pp="true"')

    def timings(self, domain: Domain) -> dict[int, Timing]:
        """When the interrupts of a domain come, by their ids, of those that the file has."""
        where = f'domain.{domain.name}.irq'
        found: dict[int, Timing] = {}
        for key, told in self.table(self.of(domain), f'domain.{domain.name}', 'irq').items():
            id = digits.number(key)
            if id not in domain.interrupts:
                there = named.known('', map(str, sorted(domain.interrupts)))
                raise self.fault(where, f'{domain.name} has no interrupt of id {key}: {there}')
            assert id is not None
            found[id] = self.timing(told, f'{where}.{key}')
        return found

    def timing(self, told: object, where: str) -> Timing:
        if not isinstance(told, dict):
            return Timing(self.down(told, where), 0, 0, ())
        self.keys(told, where, OF_INTERRUPT)
        period = self.down(told.get('period'), f'{where}.period')
        start = self.number(told.get('start', 0), f'{where}.start', 0) // self.tick
        count = self.number(told.get('count', 0), f'{where}.count', 0, 'interrupts')
        dates = told.get('at', [])
        if not isinstance(dates, list):
            raise self.fault(f'{where}.at', 'is to be a list of whole numbers of microseconds')
        at = tuple(self.number(date, f'{where}.at', 0) // self.tick for date in dates)
        if any(date >= period for date in at) or list(at) != sorted(set(at)):
            raise self.fault(f'{where}.at', 'its numbers are to rise below the period, in ticks')
        return Timing(period, start, count, at)

    # ---- chains

    def chain(self, name: str, told: Tables) -> Chain:
        where = f'chain.{name}'
        self.keys(told, where, OF_CHAIN)
        if not named.NAME.fullmatch(name):
            raise self.fault(where, f'the name is none of mcsim, which has {named.NAMES}')
        begin, id = self.place(told.get('from'), f'{where}.from')
        if id is None or id not in begin.interrupts:
            there = named.known('', map(str, sorted(begin.interrupts)))
            raise self.fault(f'{where}.from', f'{begin.name} has no such interrupt: {there}')
        deadline = self.down(told['deadline'], f'{where}.deadline') if 'deadline' in told else 0
        return Chain(name, (begin, id), self.place(told.get('to'), f'{where}.to'), deadline)

    def place(self, told: object, where: str) -> tuple[Domain, Optional[int]]:
        """A domain, with the number of an interrupt or a channel if there is one behind it."""
        words = told.split() if isinstance(told, str) else []
        id = digits.number(words[1]) if len(words) == 2 else None
        if not 1 <= len(words) <= 2 or len(words) == 2 and id is None:
            raise self.fault(where, 'is to be a text: DOMAIN, or DOMAIN ID')
        domain = self.board.domains.get(words[0])
        if domain is None or domain.is_guest:
            names = [one.name for one in self.board.protection_domains()]
            raise self.fault(where, f'no protection_domain has the name {words[0]!r}: '
                             f'{named.known(words[0], names)}')
        return domain, id


# ---- a work file to fill in


HEAD = """\
# What the domains of {board} do. Times are whole microseconds. Fill in each "?".
#
# A handler is a list of items: "compute N"; "notify ID" and "call ID" over one of the domain's
# channels; "spin", which never ends. An empty list does nothing. Remove a handler that nobody
# activates. A deadline counts from the activation; a chain, from an interrupt to an answer:
#   [chain.NAME]
#   from = "DOMAIN ID"      # the interrupt of this id
#   to = "DOMAIN ID"        # the domain that answers; with an ID, in that channel's handler
#   deadline = 500
"""


def template(board: Board, name: str) -> str:
    """A work file of a board, with what is to be filled in."""
    lines = [HEAD.format(board=name) + 'call = "?"                  # what a system call takes']
    if len({domain.core for domain in board.domains.values()}) > 1:
        lines.append('delay = "?"                 # from a notify to its arrival on another core')
    for domain in board.protection_domains():
        lines += ['', *of_domain(domain, board.tick)]
    return '\n'.join(lines) + '\n'


def of_domain(domain: Domain, tick: int) -> list[str]:
    """The lines of a domain."""
    passive = ', passive' if domain.is_passive else ''
    lines = [f'[domain.{domain.name}]', f'# core {domain.core}, priority {domain.priority}, '
             f'budget {domain.budget * tick} in {domain.period * tick}{passive}']
    for word, ids in (
        ('notify', [id for id, end in domain.ends.items() if end.may_notify]),
        ('call', [id for id, end in domain.ends.items() if end.may_call]),
    ):
        if ids:
            names = ', '.join(f'{word} {id} ({domain.ends[id].other.name})' for id in sorted(ids))
            lines.append(f'# it may {names}')
    handlers = [*handlers_of(domain)]
    if not handlers:
        return [*lines, 'init = ["?"]                # nothing activates it: it does this once']
    is_served = domain.is_passive and not any(one.startswith(NOTIFIED) for one, _ in handlers)
    lines += [] if is_served else ['# deadline = "?"']
    lines += [f'irq.{id} = "?"'.ljust(28) + f'# the period of interrupt {one.number}'
              for id, one in sorted(domain.interrupts.items())]
    return lines + [f'{key} = ["?"]'.ljust(28) + f'# {who}' for key, who in handlers]


def handlers_of(domain: Domain) -> list[tuple[str, str]]:
    """The handlers that a domain may have, and who activates each."""
    found = [(id, NOTIFIED, f'interrupt {one.number}') for id, one in domain.interrupts.items()]
    for id, end in domain.ends.items():
        back = end.other.ends[end.id]
        found += [(id, NOTIFIED, f'{end.other.name} notifies')] * back.may_notify
        found += [(id, PROTECTED, f'{end.other.name} calls')] * back.may_call
    return [(f'{function}.{id}', who) for id, function, who in sorted(found)]
