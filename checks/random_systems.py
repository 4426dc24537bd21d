"""Small random systems, as the text of files or as tables, of version 2 and of version 3."""
from __future__ import annotations

import json
import random
import tomllib
from collections.abc import Sequence
from typing import Any, NamedTuple

Tables = dict[str, Any]
# the part of the systems that is of version 3
NEW = 0.4
GREATEST_WORD = 2**32 - 1


class Context(NamedTuple):
    name: str
    core: int
    budget: int
    period: int
    extra_refills: int
    is_bandwidth: bool

    def text(self) -> str:
        lines = [f'[[context]]\nname = "{self.name}"\ncore = {self.core}\nbudget = {self.budget}\nperiod = {self.period}\n']
        lines += [f'extra_refills = {self.extra_refills}\n'] if self.extra_refills else []
        lines += ['mode = "bandwidth"\n'] if self.is_bandwidth else []
        return ''.join(lines)


class Note(NamedTuple):
    name: str
    core: int

    def text(self) -> str:
        return f'[[note]]\nname = "{self.name}"\ncore = {self.core}\n'


class System(NamedTuple):
    """A system: the lines before its contexts, its contexts, its notifications, and the text of its threads."""

    head: str
    contexts: list[Context]
    notes: list[Note]
    threads: str

    def text(self) -> str:
        parts = [*(context.text() for context in self.contexts), *(note.text() for note in self.notes)]
        return ''.join([self.head, *parts, self.threads])


def contexts_of(rng: random.Random, cores: int) -> list[Context]:
    """Up to three contexts a core. One with a budget below its period may have further refills, and be in bandwidth mode."""
    found = []
    for number in range(rng.randint(1, 3 * cores)):
        period = rng.randint(2, 20)
        budget = rng.randint(1, period)
        extra = rng.choice([0, 0, 1, 3, 8]) if budget < period else 0
        is_bandwidth = budget < period and rng.random() < 0.3
        found.append(Context(f'c{number}', rng.randrange(cores), budget, period, extra, is_bandwidth))
    return found


def item_of(rng: random.Random, notes: Sequence[Note], home: int) -> str:
    """An item of a script; a thread waits at home alone."""
    kind = rng.choice(['compute', 'compute', 'compute', 'signal', 'wait', 'yield']) if notes else rng.choice(['compute', 'yield'])
    if kind == 'compute':
        return f'compute {rng.randint(1, 9)}'
    if kind == 'yield':
        return kind
    note = rng.choice(notes)
    if kind == 'signal':
        return f'signal {note.name} {2 ** rng.randrange(31)}'
    return f'wait {note.name}' if note.core == home else 'compute 1'


def script_of(rng: random.Random, notes: Sequence[Note], home: int) -> list[str]:
    """One to five items, of which the last is no wait."""
    items = [item_of(rng, notes, home) for _ in range(rng.randint(1, 5))]
    if items[-1].startswith('wait'):
        items.append(f'compute {rng.randint(1, 4)}')
    return items


def thread_text(rng: random.Random, context: Context, notes: Sequence[Note]) -> str:
    script = ', '.join(f'"{item}"' for item in script_of(rng, notes, context.core))
    rounds = f'rounds = {rng.randint(1, 5)}\n' if rng.random() < 0.4 else ''
    start = rng.choice([0, 0, rng.randint(0, 30)])
    names = f'name = "t{context.name}"\ncontext = "{context.name}"\n'
    return f'[[thread]]\n{names}priority = {rng.randint(1, 6)}\nstart = {start}\n{rounds}script = [{script}]\n'


def links_text(rng: random.Random, cores: int) -> str:
    """Delays of their own for some pairs of cores, in some systems."""
    pairs = [(maker, home) for maker in range(cores) for home in range(cores) if maker != home]
    links = rng.sample(pairs, rng.randint(0, len(pairs))) if rng.random() < 0.4 else []
    return ''.join(f'[[link]]\nmaker = {maker}\nhome = {home}\ndelay = {rng.choice([1, 2, 5, 20, 100])}\n' for maker, home in links)


def system_of(rng: random.Random) -> System:
    """A system of 1 to 8 cores without orders; it may be one that the program refuses."""
    cores = rng.choice([1, 2, 2, 3, 3, 4, 8])
    notes = [Note(f'n{number}', rng.randrange(cores)) for number in range(rng.randint(0, cores))]
    contexts = contexts_of(rng, cores)
    head = f'version = 2\ncores = {cores}\ndelay = {rng.choice([1, 1, 2, 3, 10, 50])}\n'
    threads = ''.join(thread_text(rng, context, notes) for context in contexts)
    return System(head + links_text(rng, cores), contexts, notes, threads)


def text_of(tables: Tables) -> str:
    """The TOML text of a system's tables: numbers and texts at the top, and tables of them and of lists of them."""
    lists = {name: rows for name, rows in tables.items() if isinstance(rows, list)}
    lines = [f'{name} = {json.dumps(value)}' for name, value in tables.items() if name not in lists]
    for name, rows in lists.items():
        for row in rows:
            lines += [f'[[{name}]]', *(f'{key} = {json.dumps(value)}' for key, value in row.items())]
    return '\n'.join(lines) + '\n'


def random_text(rng: random.Random) -> str:
    """The text of a system of version 2 or 3 without orders."""
    return text_in_some_version(rng, system_of(rng))


def text_in_some_version(rng: random.Random, system: System) -> str:
    """The text of a system, or of what becomes of it in version 3."""
    return text_of(with_version_3(rng, tomllib.loads(system.text()))) if rng.random() < NEW else system.text()


def with_version_3(rng: random.Random, tables: Tables) -> Tables:
    """A system of version 2 as one of version 3, with servers, handlers, sources, chains and first words. Some are refused, as those of version 2 are."""
    return Newer(rng, tables).made()


class Newer:
    """A system that gets what version 3 adds."""

    def __init__(self, rng: random.Random, tables: Tables) -> None:
        self.rng, self.tables = rng, tables
        self.notes = [Note(note['name'], note['core']) for note in tables.get('note', [])]
        self.core_of = {context['name']: context['core'] for context in tables['context']}
        scripts = [item.split() for thread in tables['thread'] for item in thread['script']]
        self.badges = [1, 2, 4, *(int(item[2]) for item in scripts if item[0] == 'signal')]
        self.servers: list[dict[str, Any]] = []

    def made(self) -> Tables:
        tables, rng = self.tables, self.rng
        for context in tables['context']:
            self.set_mode(context)
        for note in tables.get('note', []):
            if rng.random() < 0.2:
                note['word'] = rng.choice([self.badge(), self.badge(), GREATEST_WORD])
        for number in range(rng.choice([0, 1, 2, 3, 4, 5])):
            core = rng.choice(list(self.core_of.values()))
            priority = rng.choice([7, 7, rng.randint(0, 8)])
            self.servers.append({'name': f'v{number}', 'core': core, 'priority': priority, 'script': self.server_script(core)})
        for thread in tables['thread']:
            thread['script'] = self.thread_script(thread['script'], self.core_of[thread['context']])
        sources = [self.source(f's{number}') for number in range(rng.choice([0, 1, 1, 2, 3]) if self.notes else 0)]
        chains = [self.chain(f'e{number}', sources) for number in range(rng.choice([0, 0, 1, 2]) if sources and self.waiting() else 0)]
        more = {'server': self.servers, 'source': sources, 'chain': chains}
        return {**tables, 'version': 3, **{name: rows for name, rows in more.items() if rows}}

    def badge(self) -> int:
        """One of the badges that there are, or two of them together."""
        return self.rng.choice(self.badges) | (self.rng.choice(self.badges) if self.rng.random() < 0.3 else 0)

    def set_mode(self, context: dict[str, Any]) -> None:
        """The mode of a context that has one: without the key it is bandwidth."""
        if context['budget'] == context['period']:
            return
        if 'mode' not in context:
            context['mode'] = 'sporadic'
        elif self.rng.random() < 0.5:
            del context['mode']

    def item(self, core: int) -> str:
        """An item that version 2 has not, or one that it has."""
        here = [server['name'] for server in self.servers if server['core'] == core]
        chance = self.rng.random()
        if here and chance < 0.5:
            return f'call {self.rng.choice(here)} {self.badge()}'
        return 'spin' if chance > 0.98 else item_of(self.rng, self.notes, core)

    def handlers(self, core: int) -> list[str]:
        """Some handlers, of which some are empty."""
        found = []
        for _ in range(self.rng.randint(1, 3)):
            found += [f'on {self.badge()}', *(self.item(core) for _ in range(self.rng.choice([0, 1, 1, 2, 3])))]
        return found

    def server_script(self, core: int) -> list[str]:
        before = [self.item(core) for _ in range(self.rng.randint(1, 3))]
        return before + self.handlers(core) if self.rng.random() < 0.4 else before

    def thread_script(self, script: list[str], core: int) -> list[str]:
        """The script with calls, or an event loop."""
        own = [note.name for note in self.notes if note.core == core]
        if own and self.rng.random() < 0.5:
            between = [self.item(core)] if self.rng.random() < 0.2 else []
            return with_last_waits_followed([f'wait {self.rng.choice(own)}', *between, *self.handlers(core)])
        for _ in range(self.rng.randint(0, 2)):
            script = [*script, self.item(core)]
            self.rng.shuffle(script)
        return with_last_waits_followed(script)

    def source(self, name: str) -> dict[str, Any]:
        rng, period = self.rng, self.rng.choice([self.rng.randint(1, 12), self.rng.randint(10, 60)])
        found = {'name': name, 'note': rng.choice(self.notes).name, 'badge': self.badge(), 'period': period}
        if rng.random() < 0.6:
            found['start'] = rng.randint(0, 40)
        if rng.random() < 0.3:
            found['count'] = rng.randint(0, 6)
        if rng.random() < 0.4:
            found['at'] = sorted(rng.sample(range(period), rng.randint(1, min(period, 4))))
        return found

    def waiting(self) -> list[dict[str, Any]]:
        """The threads that wait."""
        return [thread for thread in self.tables['thread'] if any(item.startswith('wait ') for item in thread['script'])]

    def chain(self, name: str, sources: list[dict[str, Any]]) -> dict[str, Any]:
        thread = self.rng.choice(self.waiting())
        badges = self.badge() if thread['script'][0].startswith('wait ') and self.rng.random() < 0.5 else 0
        deadline = self.rng.choice([0, self.rng.randint(1, 60)])
        return {'name': name, 'source': self.rng.choice(sources)['name'], 'thread': thread['name'], 'badges': badges, 'deadline': deadline}


def with_last_waits_followed(script: list[str]) -> list[str]:
    """The script with an item behind each wait, other than the first item, that stands last or directly before a handler."""
    found = []
    for place, item in enumerate(script):
        found.append(item)
        is_bare = place + 1 == len(script) or script[place + 1].startswith('on ')
        if is_bare and item.startswith('wait ') and (place or len(script) == 1):
            found.append('compute 1')
    return found
