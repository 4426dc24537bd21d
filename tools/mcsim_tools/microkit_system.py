"""The system of a Microkit board and its work file, in version 3 of the file.

A domain is a thread, a context and a notification of its name, with a handler for each channel
and interrupt. A passive domain that others call is a server; if it is notified as well, it is a
thread too, whose handlers call that server. A call to a domain that has a context is a signal
of the request, and a wait for the answer."""
from __future__ import annotations

from collections.abc import Callable, Iterable, Sequence
from typing import Any

from .microkit_board import Board, Domain, Element
from .microkit_work import NOTIFIED, PROTECTED, Chain, Handler, Item, Tables, Timing, Work

# badges are bits of a word
BITS = 32
LONGEST_NAME = 32


class Roles:
    """What each domain is made of: its handlers, the badge of each, and its names."""

    def __init__(self, board: Board, work: Work) -> None:
        self.board, self.work = board, work
        domains = list(board.protection_domains())
        self.told = {domain.name: work.handlers(domain) for domain in domains}
        self.init = {domain.name: work.init(domain) for domain in domains}
        self.names = {domain.name for domain in board.domains.values()}
        self.handlers = {domain.name: self.handlers_of(domain) for domain in domains}
        self.badges = {domain.name: self.badges_of(domain) for domain in domains}
        self.notes = {domain.name: self.note_of(domain) for domain in domains}

    def fresh(self, wanted: str) -> str:
        """A name that nothing has yet, near the one that is wanted."""
        name, count = wanted[:LONGEST_NAME], 1
        while name in self.names:
            count += 1
            name = f'{wanted[:LONGEST_NAME - len(str(count))]}{count}'
        self.names.add(name)
        return name

    def note_of(self, domain: Domain) -> str:
        """The notification of a domain. Notifications and servers share their names."""
        name = domain.name
        return self.fresh(f'{name}_notified') if self.is_server(domain) else name

    def used(self, domain: Domain) -> dict[Handler, Element]:
        """The handlers of a domain that something activates, with the element that says so."""
        found: dict[Handler, Element] = {
            (NOTIFIED, id): one.at for id, one in domain.interrupts.items()}
        for id, end in domain.ends.items():
            lists = [*self.told[end.other.name].values(), self.init[end.other.name] or []]
            words = {word for items in lists for word, number in items if number == end.id}
            found |= {(NOTIFIED, id): end.at} if 'notify' in words else {}
            found |= {(PROTECTED, id): end.at} if 'call' in words else {}
        return found

    def handlers_of(self, domain: Domain) -> dict[Handler, list[Item]]:
        """The handlers of a domain in the order in which it goes through them."""
        told = self.told[domain.name]
        found = dict(told)
        for handler, at in self.used(domain).items():
            if handler not in told:
                function, id = handler
                self.board.description.leave_out(
                    at, f'what {function}({id}) of {domain.name} does: {self.work.path} has no '
                    'such handler')
                found[handler] = []
        return {handler: found[handler] for handler in sorted(found, key=self.place_of(domain))}

    @staticmethod
    def place_of(domain: Domain) -> Callable[[Handler], tuple[bool, int, int]]:
        """The order of handlers: notified from 0 up, then requests by the client's priority."""
        def key(handler: Handler) -> tuple[bool, int, int]:
            function, id = handler
            is_request = function == PROTECTED
            return is_request, -domain.ends[id].other.priority if is_request else 0, id
        return key

    def badges_of(self, domain: Domain) -> dict[Handler, int]:
        """A bit for each handler: that of its number if it is free, else the lowest free one."""
        handlers = self.handlers[domain.name]
        found: dict[Handler, int] = {}
        for handler in handlers:
            if handler[1] < BITS and 1 << handler[1] not in found.values():
                found[handler] = 1 << handler[1]
        free = [1 << bit for bit in range(BITS) if 1 << bit not in found.values()]
        for handler in [one for one in handlers if one not in found]:
            if free:
                found[handler] = free.pop(0)
            else:
                self.board.description.leave_out(
                    domain.at, f'{handler[0]}({handler[1]}) of {domain.name}: a word has '
                    f'{BITS} badges')
        return found

    def of(self, domain: Domain, function: str) -> list[Handler]:
        """The handlers of one function that have a badge."""
        return [one for one in self.badges[domain.name] if one[0] == function]

    def is_server(self, domain: Domain) -> bool:
        """Whether it works on the contexts of those who call it."""
        return domain.is_passive and bool(self.of(domain, PROTECTED))

    def is_thread(self, domain: Domain) -> bool:
        """Whether it has a context of its own that is used."""
        return not self.is_server(domain) or bool(self.of(domain, NOTIFIED))

    def is_loop(self, domain: Domain) -> bool:
        """Whether it waits for something."""
        return bool(self.badges[domain.name])


class Written:
    """The system's tables, with comments on their rows."""

    def __init__(self, board: Board, work: Work) -> None:
        self.board, self.work, self.roles = board, work, Roles(board, work)
        self.rows: dict[str, list[Tables]] = {
            key: [] for key in ('context', 'note', 'server', 'source', 'thread', 'chain')}
        self.comments: dict[tuple[str, int], list[str]] = {}
        self.head = 'No interrupt comes.'
        self.under_way: list[str] = []
        self.servers: set[str] = set()
        # the name of each interrupt's source, by its domain and number there
        self.sources: dict[tuple[str, int], str] = {}
        domains = list(board.domains.values())
        for domain in domains:
            self.put_domain(domain)
        self.cores = max(domain.core for domain in domains) + 1
        self.put_sources()
        for chain in work.chains:
            self.put_chain(chain)

    def tables(self) -> Tables:
        """The whole system."""
        top = {'version': 3, 'cores': self.cores, 'delay': self.work.delay, 'call': self.work.call}
        return {**top, **{key: rows for key, rows in self.rows.items() if rows}}

    def put(self, section: str, row: Tables, *comments: str) -> None:
        if comments:
            self.comments[section, len(self.rows[section])] = list(comments)
        self.rows[section].append(row)

    def leave_out(self, at: Element, text: str) -> None:
        self.board.description.leave_out(at, text)

    # ---- domains

    def put_domain(self, domain: Domain) -> None:
        if domain.is_guest:
            self.put_context(domain)
            self.put('thread', self.thread(domain, ['spin']), 'a guest: it computes without end')
            return
        roles = self.roles
        if roles.is_loop(domain) and roles.init[domain.name] is not None:
            raise self.work.fault(f'domain.{domain.name}.init', f'{domain.name} has handlers, and '
                                  'the run begins when it waits for them')
        if roles.is_server(domain):
            self.put_server(domain)
        if roles.is_thread(domain):
            self.put_thread(domain)
        elif self.work.deadline(domain):
            raise self.work.fault(f'domain.{domain.name}.deadline', f'{domain.name} is a server, '
                                  'and its callers have deadlines')

    def put_context(self, domain: Domain) -> None:
        self.put('context', {'name': domain.name, 'core': domain.core, 'budget': domain.budget,
                             'period': domain.period})

    def thread(self, domain: Domain, script: Sequence[str], **keys: int) -> Tables:
        head = {'name': domain.name, 'context': domain.name, 'priority': domain.priority}
        return {**head, **keys, 'script': list(script)}

    def put_thread(self, domain: Domain) -> None:
        """The thread of a domain, with its context and notification."""
        deadline = self.work.deadline(domain)
        keys = {'deadline': deadline} if deadline else {}
        self.put_context(domain)
        if not self.roles.is_loop(domain):
            script = whole(self.script(domain, self.roles.init[domain.name] or []))
            self.put('thread', self.thread(domain, script or ['compute 1'], rounds=1, **keys),
                     f'nothing activates {domain.name}: it ends after its init')
            return
        note = self.roles.notes[domain.name]
        self.put('note', {'name': note, 'core': domain.core}, self.badges_comment(domain))
        script = [f'wait {note}']
        for handler in self.loop_of(domain):
            script += self.handler(domain, handler)
        self.put('thread', self.thread(domain, script, **keys))

    def loop_of(self, domain: Domain) -> list[Handler]:
        """The handlers of a domain's thread."""
        is_server = self.roles.is_server(domain)
        return [one for one in self.roles.handlers[domain.name]
                if one in self.roles.badges[domain.name]
                and not (is_server and one[0] == PROTECTED)]

    def badges_comment(self, domain: Domain) -> str:
        """Who makes each badge of a domain's notification."""
        badges = self.roles.badges[domain.name]
        return 'badges: ' + ', '.join(
            f'{badges[one]} {self.maker(domain, one)}' for one in self.loop_of(domain))

    @staticmethod
    def maker(domain: Domain, handler: Handler) -> str:
        function, id = handler
        if id in domain.interrupts:
            return f'interrupt {domain.interrupts[id].number}'
        who = f'{domain.ends[id].other.name} (channel {id})'
        return f'{who} calls' if function == PROTECTED else who

    def handler(self, domain: Domain, handler: Handler) -> list[str]:
        """A handler of a domain's thread."""
        badge = self.roles.badges[domain.name][handler]
        if self.roles.is_server(domain):
            return [f'on {badge}', f'call {domain.name} {badge}']
        script = self.script(domain, self.roles.handlers[domain.name][handler])
        if handler[0] == PROTECTED:
            end = domain.ends[handler[1]]
            script.append(f'signal {self.answer(end.other, end.id)} 1')
        return [f'on {badge}', *whole(script)]

    def put_server(self, domain: Domain) -> None:
        """A passive domain, behind the servers that it calls. Each is put once."""
        if domain.name in self.servers:
            return
        self.servers.add(domain.name)
        self.under_way.append(domain.name)
        script: list[str] = []
        for handler, items in self.roles.handlers[domain.name].items():
            if handler in self.roles.badges[domain.name]:
                badge = self.roles.badges[domain.name][handler]
                script += [f'on {badge}', *self.script(domain, items)]
        self.under_way.pop()
        badges = self.roles.badges[domain.name]
        who = ', '.join(f'{badges[one]} {self.maker(domain, one)}' for one in badges)
        row = {'name': domain.name, 'core': domain.core, 'priority': domain.priority}
        self.put('server', {**row, 'script': script}, f'badges: {who}')

    # ---- items

    def script(self, domain: Domain, items: Iterable[Item]) -> list[str]:
        """The items of a script."""
        script: list[str] = []
        for word, number in items:
            if word == 'notify':
                script += self.notify(domain, number)
            elif word == 'call':
                script += self.call(domain, number)
            else:
                script.append('spin' if word == 'spin' else f'compute {number}')
        return script

    def notify(self, domain: Domain, id: int) -> list[str]:
        end = domain.ends[id]
        badge = self.roles.badges[end.other.name].get((NOTIFIED, end.id))
        return [f'signal {self.roles.notes[end.other.name]} {badge}'] if badge else []

    def call(self, domain: Domain, id: int) -> list[str]:
        end = domain.ends[id]
        other = end.other
        badge = self.roles.badges[other.name].get((PROTECTED, end.id))
        if badge is None:
            return []
        if not self.roles.is_server(other):
            answer = self.answer(domain, id)
            return [f'signal {self.roles.notes[other.name]} {badge}', f'wait {answer}']
        what = f'the calls of {domain.name} to {other.name} (its channel {id})'
        if other.core != domain.core:
            self.leave_out(end.at, f'{what}: a server serves its own core')
            return []
        if other.name in self.under_way:
            self.leave_out(end.at, f'{what}: they go in a circle')
            return []
        self.put_server(other)
        return [f'call {other.name} {badge}']

    def answer(self, client: Domain, id: int) -> str:
        """The notification by which a client is answered over one of its channels."""
        key = f'{client.name}_answer{id}'
        if key not in self.roles.notes:
            name = self.roles.notes[key] = self.roles.fresh(key)
            server = client.ends[id].other.name
            self.put('note', {'name': name, 'core': client.core},
                     f'{server} answers {client.name} (channel {id})')
        return self.roles.notes[key]

    # ---- interrupts and chains

    def put_sources(self) -> None:
        """The interrupts, once all domains wait and what that cost is replenished."""
        found: list[tuple[Domain, int, Timing]] = []
        for domain in self.board.protection_domains():
            timings = self.work.timings(domain)
            found += [(domain, id, timing) for id, timing in timings.items()]
            for id in sorted(domain.interrupts.keys() - timings.keys()):
                one = domain.interrupts[id]
                self.leave_out(one.at, f'interrupt {one.number} of {domain.name}: '
                               f'{self.work.path} has no irq.{id}')
        # a time slice, of which budget and period are equal, is never replenished
        periods = [one.period for one in self.board.domains.values() if one.budget < one.period]
        begin = max([0, *periods, *(timing.period for _, _, timing in found)])
        if found:
            self.head = f'All domains wait when the first interrupts come, from {begin} on.'
        for domain, id, timing in found:
            badge = self.roles.badges[domain.name].get((NOTIFIED, id))
            if badge is None:
                continue
            name = f'irq{domain.interrupts[id].number}'
            self.sources[domain.name, id] = name
            row = {'name': name, 'note': self.roles.notes[domain.name], 'badge': badge,
                   'period': timing.period, 'start': begin + timing.start}
            row |= {'count': timing.count} if timing.count else {}
            self.put('source', {**row, **({'at': list(timing.at)} if timing.at else {})})

    def put_chain(self, chain: Chain) -> None:
        (begin, interrupt), (end, id) = chain.begin, chain.end
        where = f'chain.{chain.name}'
        source = self.sources.get((begin.name, interrupt))
        if source is None:
            self.leave_out(begin.interrupts[interrupt].at,
                           f'chain {chain.name}: its interrupt is left out')
            return
        if not (self.roles.is_loop(end) and self.roles.is_thread(end)):
            raise self.work.fault(f'{where}.to', f'{end.name} waits for nothing on a context')
        row: dict[str, Any] = {'name': chain.name, 'source': source, 'thread': end.name}
        if id is not None:
            badge = self.roles.badges[end.name].get((NOTIFIED, id))
            if badge is None:
                raise self.work.fault(f'{where}.to', f'{end.name} has no notified({id})')
            row['badges'] = badge
        self.put('chain', {**row, **({'deadline': chain.deadline} if chain.deadline else {})})


def whole(script: list[str]) -> list[str]:
    """A thread's handler, which may not end with a wait: a tick of work stands behind it."""
    return [*script, 'compute 1'] if script and script[-1].startswith('wait ') else script
