"""The system description of a seL4 Microkit board: its domains, guests, channels and interrupts.

Elements and attributes that Microkit's manual has are read, and others are refused with their
line. A rule of Microkit that the board breaks is a remark."""
from __future__ import annotations

import pathlib
import xml.parsers.expat
from collections.abc import Iterator
from dataclasses import dataclass, field
from typing import NamedTuple, Optional

from . import named, system
from .faults import Fault

# what Microkit gives to a domain without a budget, in microseconds
DEFAULT_BUDGET = 1000
MOST_PRIORITY = 254
# the greatest number of a channel or an interrupt: two of 64 bits are for calls and faults
MOST_ID = 61
MOST_DOMAINS = 63
MOST_CORES = 64
LONGEST = 2**40


class Kind(NamedTuple):
    """The attributes and the elements that an element may have."""

    attributes: tuple[str, ...] = ()
    inside: tuple[str, ...] = ()


SCHEDULED = ('name', 'priority', 'budget', 'period')
# elements that say nothing of time may have whatever they have
UNTIMED = ('memory_region', 'program_image', 'map', 'setvar', 'ioport')
KINDS = {
    'system': Kind((), ('memory_region', 'protection_domain', 'channel')),
    'protection_domain': Kind(
        (*SCHEDULED, 'passive', 'stack_size', 'cpu', 'smc', 'fpu', 'id', 'setvar_id'),
        ('program_image', 'map', 'irq', 'setvar', 'ioport', 'protection_domain', 'virtual_machine'),
    ),
    'virtual_machine': Kind(SCHEDULED, ('vcpu', 'map')),
    'vcpu': Kind(('id', 'cpu', 'setvar_id')),
    'irq': Kind(('irq', 'id', 'trigger', 'setvar_id', 'pin', 'ioapic', 'vector', 'polarity',
                 'pcidev', 'handle')),
    'channel': Kind((), ('end',)),
    'end': Kind(('pd', 'id', 'pp', 'notify', 'setvar_id')),
}


@dataclass
class Element:
    """An element of the description, and the line where it begins."""

    name: str
    words: dict[str, str]
    line: int
    inside: list[Element] = field(default_factory=list)

    def called(self) -> str:
        """The element with its name, for texts."""
        name = self.words.get('name', self.words.get('pd'))
        return f'{self.name} {name}' if name else self.name


class Description:
    """The file of a description; faults and remarks name it with a line."""

    def __init__(self, path: pathlib.Path) -> None:
        self.path = path
        # what no system can say of the board, and the rules that it breaks
        self.remarks: list[str] = []
        self.root = self.parsed(system.read_bytes(path))
        self.check(self.root)

    def parsed(self, text: bytes) -> Element:
        """The root of the text."""
        top = Element('', {}, 0)
        stack = [top]
        parser = xml.parsers.expat.ParserCreate()

        def begin(name: str, words: dict[str, str]) -> None:
            stack.append(Element(name, words, parser.CurrentLineNumber))
            stack[-2].inside.append(stack[-1])

        parser.StartElementHandler = begin
        parser.EndElementHandler = lambda name: stack.pop()
        try:
            parser.Parse(text, True)
        except xml.parsers.expat.ExpatError as error:
            said = xml.parsers.expat.ErrorString(error.code)
            raise Fault(f'{self.path}:{error.lineno}: not XML: {said}') from None
        root = top.inside[0]
        if root.name != 'system':
            raise self.fault(root, f'a description is a <system>, not a <{root.name}>')
        return root

    def check(self, root: Element) -> None:
        """Refuses elements and attributes that are not Microkit's."""
        rest = [root]
        while rest:
            at = rest.pop()
            kind = KINDS[at.name]
            for key in at.words:
                if key not in kind.attributes:
                    near = named.known(key, kind.attributes)
                    raise self.fault(at, f'{key!r} is no attribute of a <{at.name}>: {near}')
            for inner in at.inside:
                if inner.name not in kind.inside:
                    raise self.fault(inner, f'a <{inner.name}> is no part of a <{at.name}>')
            rest += [inner for inner in reversed(at.inside) if inner.name not in UNTIMED]

    def fault(self, at: Element, text: str) -> Fault:
        return Fault(f'{self.path}:{at.line}: {text}')

    def leave_out(self, at: Element, text: str) -> None:
        """Adds a remark on something that the system can't say."""
        self.remarks.append(f'{self.path}:{at.line}: left out: {text}')

    def broken(self, at: Element, text: str) -> None:
        """Adds a remark on a rule of Microkit."""
        self.remarks.append(f'{self.path}:{at.line}: Microkit refuses this: {text}')

    def word(self, at: Element, key: str) -> str:
        if key not in at.words:
            raise self.fault(at, f'<{at.name}> has no {key}')
        return at.words[key]

    def number(
        self, at: Element, key: str, least: int, most: int, default: Optional[int] = None,
    ) -> int:
        """A number as Microkit writes it: decimal or 0x, with underscores."""
        if default is not None and key not in at.words:
            return default
        text = self.word(at, key)
        try:
            number = int(text.replace('_', ''), 16 if text.lower().startswith('0x') else 10)
        except ValueError:
            number = -1
        if not least <= number <= most:
            raise self.fault(
                at, f'{key} {text!r} of {at.called()} is no number of {least} to {most}')
        return number

    def truth(self, at: Element, key: str, default: bool) -> bool:
        text = at.words.get(key, str(default).lower())
        if text not in ('true', 'false'):
            raise self.fault(at, f'{key} {text!r} of {at.called()} is neither true nor false')
        return text == 'true'

    def name(self, at: Element) -> str:
        name = self.word(at, 'name')
        if not named.NAME.fullmatch(name):
            raise self.fault(at, f'the name {name!r} is none of mcsim, which has {named.NAMES}')
        return name


@dataclass(frozen=True)
class Interrupt:
    """A device's interrupt, and the number by which its domain knows it."""

    number: int
    id: int
    at: Element


@dataclass(frozen=True)
class End:
    """What an end of a channel leads to."""

    other: Domain
    # the channel's number at the other end
    id: int
    may_notify: bool
    may_call: bool
    at: Element


@dataclass
class Domain:
    """A protection domain, or a virtual processor of a guest, with times in ticks."""

    name: str
    core: int
    priority: int
    budget: int
    period: int
    at: Element
    is_guest: bool = False
    is_passive: bool = False
    interrupts: dict[int, Interrupt] = field(default_factory=dict)
    ends: dict[int, End] = field(default_factory=dict)

    def take_id(self, description: Description, at: Element, id: int) -> None:
        if id in self.ends or id in self.interrupts:
            raise description.fault(at, f'the id {id} of {self.name} is taken')


class Board:
    """The domains, guests and channels of a description."""

    def __init__(self, description: Description, tick: int) -> None:
        self.description, self.tick = description, tick
        self.domains: dict[str, Domain] = {}
        self.numbers: set[int] = set()
        root = description.root
        self.take_domains(root, 0)
        for at in root.inside:
            if at.name == 'channel':
                self.take_channel(at)
        many = len(list(self.protection_domains()))
        if not many:
            raise description.fault(root, 'the description has no protection_domain')
        if many > MOST_DOMAINS:
            description.broken(root, f'{many} protection domains, of at most {MOST_DOMAINS}')

    def protection_domains(self) -> Iterator[Domain]:
        """The domains without the guests."""
        return (domain for domain in self.domains.values() if not domain.is_guest)

    def ticks(self, at: Element, key: str, microseconds: int) -> int:
        whole, rest = divmod(microseconds, self.tick)
        if rest:
            raise self.description.fault(
                at, f'{key} {microseconds} us of {at.called()} is no whole number of ticks '
                f'of {self.tick} us')
        return whole

    def take(self, name: str, at: Element, scheduled: Element, core: int) -> Domain:
        """A thread's part of the description: its name, its core, and how it is scheduled."""
        description = self.description
        if name in self.domains:
            raise description.fault(at, f'the name {name} is used twice')
        budget = description.number(scheduled, 'budget', 1, LONGEST, DEFAULT_BUDGET)
        period = description.number(scheduled, 'period', 1, LONGEST, budget)
        if budget > period:
            description.broken(
                scheduled, f'budget {budget} of {scheduled.called()} is above its period '
                f'{period}; the period is made {budget}')
            period = budget
        priority = description.number(scheduled, 'priority', 0, MOST_PRIORITY, 0)
        found = Domain(name, core, priority, self.ticks(scheduled, 'budget', budget),
                       self.ticks(scheduled, 'period', period), at)
        self.domains[name] = found
        return found

    def take_domains(self, parent: Element, core: int) -> None:
        for at in parent.inside:
            if at.name == 'protection_domain':
                self.take_domain(at, core, parent.name == 'protection_domain')

    def take_domain(self, at: Element, core: int, is_nested: bool) -> None:
        description = self.description
        core = description.number(at, 'cpu', 0, MOST_CORES - 1, core)
        domain = self.take(description.name(at), at, at, core)
        domain.is_passive = description.truth(at, 'passive', False)
        if is_nested and 'id' not in at.words:
            description.broken(at, f'the nested domain {domain.name} has no id')
        for inner in at.inside:
            if inner.name == 'irq':
                self.take_interrupt(domain, inner)
            elif inner.name == 'virtual_machine':
                self.take_machine(domain, inner)
        self.take_domains(at, core)

    def take_interrupt(self, domain: Domain, at: Element) -> None:
        description = self.description
        key = 'irq' if 'irq' in at.words or 'vector' not in at.words else 'vector'
        number = description.number(at, key, 0, 2**32 - 1)
        id = description.number(at, 'id', 0, MOST_ID)
        if number in self.numbers:
            raise description.fault(at, f'the interrupt {number} is taken')
        domain.take_id(description, at, id)
        self.numbers.add(number)
        domain.interrupts[id] = Interrupt(number, id, at)

    def take_machine(self, monitor: Domain, at: Element) -> None:
        description = self.description
        name = description.name(at)
        processors = [inner for inner in at.inside if inner.name == 'vcpu'] or [at]
        for place, processor in enumerate(processors):
            own = name
            if len(processors) > 1:
                own += f'_{description.number(processor, "id", 0, MOST_ID, place)}'
            if not named.NAME.fullmatch(own):
                raise description.fault(
                    processor, f'the name {own!r} of a virtual processor is none of mcsim, '
                    f'which has {named.NAMES}')
            core = description.number(processor, 'cpu', 0, MOST_CORES - 1, monitor.core)
            self.take(own, processor, at, core).is_guest = True
        description.leave_out(
            at, f'what virtual_machine {name} does inside, and its exits to {monitor.name}: '
            'it computes without end')

    def take_channel(self, at: Element) -> None:
        description = self.description
        ends = at.inside
        if len(ends) != 2:
            raise description.fault(at, f'a channel has two ends, not {len(ends)}')
        domains = [self.domain_of(end) for end in ends]
        if domains[0] is domains[1]:
            raise description.fault(at, f'both ends of a channel are at {domains[0].name}')
        ids = [description.number(end, 'id', 0, MOST_ID) for end in ends]
        calls = [description.truth(end, 'pp', False) for end in ends]
        for place, end in enumerate(ends):
            own, other, id = domains[place], domains[1 - place], ids[place]
            own.take_id(description, end, id)
            may_notify = description.truth(end, 'notify', True)
            own.ends[id] = End(other, ids[1 - place], may_notify, calls[place], end)
            if calls[place] and own.priority >= other.priority:
                description.broken(
                    end, f'{own.name} calls {other.name} (its channel {id}), whose priority '
                    f'{other.priority} is not above {own.priority}')
        if all(calls):
            description.broken(at, 'both ends of a channel have pp')

    def domain_of(self, end: Element) -> Domain:
        name = self.description.word(end, 'pd')
        domain = self.domains.get(name)
        if domain is None or domain.is_guest:
            names = [one.name for one in self.protection_domains()]
            raise self.description.fault(
                end, f'no protection_domain has the name {name!r}: {named.known(name, names)}')
        return domain
