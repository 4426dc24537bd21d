"""Small random systems in which threads share notifications: pools of workers, locks that a round begins with, and semaphores."""
from __future__ import annotations

import random
from typing import Any

from checks.random_systems import Tables

# the part of the pools that is of version 3
NEW = 0.3
# what workers are like: all begin their rounds with the wait alone, and have a deadline; some have none; all have a last round; each has a handler for one
# of two bits; or anything
KINDS = ('plain', 'plain', 'mixed', 'finite', 'bits', 'any', 'any')


class Pools:
    """A system that is made part by part."""

    def __init__(self, rng: random.Random) -> None:
        self.rng = rng
        self.kind = rng.choice(KINDS)
        self.is_new = self.kind == 'bits' or rng.random() < NEW
        self.cores = rng.choice([1, 2, 2, 3])
        self.period = rng.choice([10, 20, 30, 40])
        self.contexts: list[dict[str, Any]] = []
        self.notes: list[dict[str, Any]] = []
        self.threads: list[dict[str, Any]] = []
        self.sources: list[dict[str, Any]] = []
        self.servers: list[dict[str, Any]] = []

    def made(self) -> Tables:
        rng = self.rng
        for number in range(rng.choice([1, 1, 1, 2])):
            kind = rng.choice(['pool', 'pool', 'pool', 'lock', 'semaphore'])
            self.share(f'{kind}{number}', kind)
        if rng.random() < 0.4:
            self.thread('Load', 0, [f'compute {rng.randint(5, 60)}'], priority=rng.randint(4, 9), start=rng.choice([0, 0, rng.randint(0, 30)]))
        parts = {'context': self.contexts, 'note': self.notes, 'thread': self.threads, 'source': self.sources, 'server': self.servers}
        tables: Tables = {'version': 3 if self.is_new else 2, 'cores': self.cores, 'delay': rng.choice([1, 1, 2, 5])}
        tables |= {name: rows for name, rows in parts.items() if rows}
        if self.cores > 1 and rng.random() < 0.3:
            tables['link'] = [{'maker': self.cores - 1, 'home': 0, 'delay': rng.choice([1, 3, 10])}]
        if rng.random() < 0.2:
            tables['order'] = [self.order(rng.choice(self.contexts)) for _ in range(rng.randint(1, 2))]
        return tables

    # ---- what is shared

    def share(self, note: str, kind: str) -> None:
        """A notification with those that wait for it and those that signal it."""
        rng, home = self.rng, rng_core(self.rng, self.cores)
        self.note(note, home)
        gives_back = kind == 'lock' or kind == 'semaphore' and rng.random() < 0.5
        if kind == 'pool' or not gives_back:
            self.clock(note, home)
        elif self.is_new:
            self.notes[-1]['word'] = 1
        else:
            self.thread(f'Init_{note}', home, [f'signal {note} 1'], priority=10, rounds=1)
        if gives_back and rng.random() < 0.2:
            self.clock(f'{note}', home, 'Other')
        for number in range(rng.randint(2, 4)):
            self.worker(f'W{number}_{note}', note, home, gives_back)

    def clock(self, note: str, home: int, name: str = 'Clock') -> None:
        """Signals again and again: a thread on some core, or a source."""
        rng = self.rng
        badge = str(rng.choice([1, 1, 2, 3])) if self.is_new else '1'
        if self.is_new and rng.random() < 0.5:
            source = {'name': f'{name}_{note}', 'note': note, 'badge': int(badge), 'period': rng.choice([3, 7, self.period]), 'start': rng.randint(0, 30)}
            self.sources.append(source | ({'count': rng.randint(1, 4)} if rng.random() < 0.3 else {}))
            return
        ways: list[list[str]] = [[], [f'compute {rng.randint(1, 6)}', f'signal {note} 1'], ['yield'], ['compute 1', f'signal {note} {badge}', 'yield']]
        then = rng.choice(ways)
        ends = {'rounds': rng.randint(1, 3)} if rng.random() < 0.3 else {}
        self.thread(f'{name}_{note}', rng.choice([home, self.cores - 1]), [f'signal {note} {badge}', *then], priority=rng.choice([9, 9, 1]), **ends)

    def worker(self, name: str, note: str, home: int, gives_back: bool) -> None:
        """A thread that waits for the notification, by its first item mostly."""
        rng, kind = self.rng, self.kind
        work = [f'compute {rng.randint(1, 12)}', *([f'signal {note} 1'] if gives_back else []), *(['yield'] if rng.random() < 0.3 else [])]
        if rng.random() < 0.1:
            # for what nobody signals: the round never ends
            self.note(f'quiet{home}', home)
            work += [f'wait quiet{home}', 'compute 1']
        more = {'rounds': rng.randint(1, 3)} if kind == 'finite' or rng.random() < 0.2 else {}
        more |= {'start': rng.randint(1, 30)} if rng.random() < 0.3 else {}
        if rng.random() < {'mixed': 0.5, 'any': 0.8}.get(kind, 1):
            more['deadline'] = rng.randint(1, 8) if kind == 'bits' else rng.choice([rng.randint(1, 12), self.period // 2, self.period, 2 * self.period])
        self.thread(name, home, self.script(note, home, work), priority=rng.randint(1, 8), **more)

    def script(self, note: str, home: int, work: list[str]) -> list[str]:
        """The script of a worker."""
        rng, chance = self.rng, self.rng.random() if self.kind == 'any' else 1
        if self.kind == 'bits':
            return [f'wait {note}', f'on {rng.randint(1, 2)}', *work]
        if chance < 0.15:
            return ['compute 1', f'wait {note}', *work]
        if chance < 0.3:
            return [f'wait {note}', 'compute 1', f'wait {note}', *work]
        if self.is_new and chance < 0.45:
            return [f'wait {note}', f'on {rng.randint(1, 3)}', *work]
        if self.is_new and chance < 0.6:
            return [f'call {self.server(note, home)} 1', *work]
        return [f'wait {note}', *work]

    def server(self, note: str, home: int) -> str:
        """A server that waits for the notification."""
        name = f'v_{note}'
        if all(server['name'] != name for server in self.servers):
            self.servers.append({'name': name, 'core': home, 'priority': 9, 'script': [f'wait {note}', 'compute 1']})
        return name

    # ---- notifications, threads and contexts

    def note(self, name: str, core: int) -> None:
        if all(note['name'] != name for note in self.notes):
            self.notes.append({'name': name, 'core': core})

    def thread(self, name: str, core: int, script: list[str], **more: int) -> None:
        rng, period = self.rng, self.rng.choice([self.period, 2 * self.period])
        budget = period if rng.random() < 0.15 else rng.randint(1, max(1, period // 2))
        context: dict[str, Any] = {'name': f'c{len(self.contexts)}', 'core': core, 'budget': budget, 'period': period}
        if budget < period and rng.random() < 0.3:
            context['extra_refills'] = rng.choice([1, 8])
        if budget < period and rng.random() < 0.3:
            context['mode'] = rng.choice(['bandwidth', 'sporadic'])
        self.contexts.append(context)
        self.threads.append({'name': name, 'context': context['name'], **more, 'script': script})

    def order(self, context: dict[str, Any]) -> dict[str, Any]:
        """An order that the program accepts: it leaves the context of its kind."""
        rng = self.rng
        period = rng.randint(5, 40)
        budget = period if context['budget'] == context['period'] else rng.randint(1, period - 1)
        return {'at': rng.randint(0, 60), 'core': context['core'], 'context': context['name'], 'budget': budget, 'period': period}


def rng_core(rng: random.Random, cores: int) -> int:
    """The core of a notification: the first one mostly."""
    return 0 if rng.random() < 0.8 else rng.randrange(cores)


def pool_of(rng: random.Random) -> Tables:
    """A random system of version 2 or 3 in which threads share a notification. Few are refused."""
    return Pools(rng).made()
