"""Random systems of event loops: sources, handlers, servers, signals within a core and to others, and contexts of all kinds.

Most are such that response-time analysis has bounds: servers are priority ceilings, budgets last, and nobody waits within a job. Some break each of these
rules, so that a bound that ignores it is seen to be wrong."""
from __future__ import annotations

import random
from typing import Any

Tables = dict[str, Any]
BADGES = (1, 2, 4)
# the badge of signals
SIGNALLED = 8
# how far a run goes: some dozens of periods
HORIZON = 1500


class Maker:
    """Makes one system."""

    def __init__(self, rng: random.Random) -> None:
        self.rng = rng
        self.call = rng.choice([1, 1, 1, 2])
        self.cores = rng.choice([1, 1, 2])
        self.has_budgets = rng.random() < 0.5
        self.tables: Tables = {'version': 3, 'cores': self.cores, 'delay': rng.randint(1, 5), 'call': self.call}
        self.tables |= {section: [] for section in ('context', 'note', 'server', 'source', 'thread')}
        # what a job of each thread takes at most, as far as its own script says it
        self.need: dict[str, int] = {}
        # the ticks of each server for a call, and the ceiling of each core
        self.server_cost: dict[str, int] = {}

    def made(self) -> Tables:
        for core in range(self.cores):
            self.servers(core)
            for number in range(self.rng.randint(2, 5)):
                self.loop(core, number)
            if self.rng.random() < 0.25:
                self.guest(core)
        self.send_signals()
        for thread in self.tables['thread']:
            self.context(thread)
        return {section: rows for section, rows in self.tables.items() if rows != []}

    # ---- servers

    def servers(self, core: int) -> None:
        """Up to three servers. The second one may call the first one."""
        ceilings = self.rng.choices([(70, 80, 90), (64, 64, 64), (25, 45, 65)], [7, 2, 1])[0]
        for number, priority in enumerate(ceilings[: self.rng.randint(0, 3)]):
            name, work = f's{core}{number}', self.rng.randint(1, 8)
            script = [f'compute {work}']
            if number and self.rng.random() < 0.4:
                inner = self.rng.randrange(number)
                # the earlier server is to be the higher one
                priority, other = min(priority, ceilings[inner] - self.rng.choice([0, 3])), f's{core}{inner}'
                script.insert(self.rng.randint(0, 1), f'call {other} 1')
                work += self.server_cost[other]
            if self.rng.random() < 0.01:
                script.append('yield')
            self.server_cost[name] = work + 2 * self.call
            self.tables['server'].append({'name': name, 'core': core, 'priority': priority, 'script': script})

    def items(self, core: int) -> list[str]:
        """What a handler does: some work, and perhaps a call."""
        script = [f'compute {self.rng.randint(1, 6)}']
        own = [row['name'] for row in self.tables['server'] if row['core'] == core]
        if own and self.rng.random() < 0.6:
            script.insert(self.rng.randint(0, 1), f'call {self.rng.choice(own)} 1')
        return script

    def cost(self, items: list[str]) -> int:
        words = [item.split() for item in items]
        return sum(int(word[1]) if word[0] == 'compute' else self.server_cost[word[1]] if word[0] == 'call' else self.call for word in words)

    # ---- threads

    def loop(self, core: int, number: int) -> None:
        """An event loop with its sources."""
        rng, name = self.rng, f't{core}{number}'
        badges = BADGES[: rng.choice([1, 1, 2, 3])]
        script, total = [f'wait {name}'], self.call
        if rng.random() < 0.2:
            script.append('compute 1')
            total += len(badges)
        handlers = [3, 4] if len(badges) > 1 and rng.random() < 0.2 else list(badges)
        for badge in handlers:
            own = self.items(core)
            script += [f'on {badge}', *own]
            total += self.cost(own)
        if rng.random() < 0.01:
            script.append('yield')
        self.need[name] = total
        self.tables['note'].append({'name': name, 'core': core})
        self.tables['thread'].append({'name': name, 'context': name, 'priority': rng.choice([10, 20, 30, 40, 50, 60]) + rng.choice([0, number]), 'script': script})
        for badge in badges:
            self.source(name, badge, total)

    def source(self, name: str, badge: int, total: int) -> None:
        rng = self.rng
        period = rng.randint(4, 20) * total + rng.randint(0, 9)
        row: Tables = {'name': f'{name}_{badge}', 'note': name, 'badge': badge, 'period': period}
        if rng.random() < 0.25:
            # jitter, or a burst
            within = rng.choice([3 * period, max(3, total)])
            row |= {'period': 3 * period, 'at': sorted(rng.sample(range(within), 3))}
        if rng.random() < 0.05:
            row['count'] = rng.randint(1, 9)
        self.tables['source'].append(row)

    def guest(self, core: int) -> None:
        """A thread that never waits, and perhaps calls a server each time."""
        name = f'g{core}'
        own = [row['name'] for row in self.tables['server'] if row['core'] == core]
        script = [f'call {self.rng.choice(own)} 1', 'compute 3'] if own and self.rng.random() < 0.5 else ['spin']
        self.need[name] = 5
        self.tables['thread'].append({'name': name, 'context': name, 'priority': self.rng.choice([1, 1, 1, 1, 1, 35]), 'script': script})

    def send_signals(self) -> None:
        """Some handlers signal other threads, which have a handler for that."""
        loops = [row for row in self.tables['thread'] if row['name'] in {note['name'] for note in self.tables['note']}]
        for thread in loops:
            if self.rng.random() < 0.3:
                other = self.rng.choice(loops)
                if other is thread:
                    continue
                thread['script'].append(f'signal {other["name"]} {SIGNALLED}')
                self.need[thread['name']] += self.call
                if f'on {SIGNALLED}' not in other['script']:
                    work = self.rng.randint(1, 3)
                    # handlers of signals stand first, and the last handler is the one that signals
                    place = next(place for place, item in enumerate(other['script']) if item.startswith('on'))
                    other['script'][place:place] = [f'on {SIGNALLED}', f'compute {work}']
                    self.need[other['name']] += work

    def context(self, thread: Tables) -> None:
        """A time slice, or a budget that mostly lasts."""
        rng, name = self.rng, thread['name']
        core, need = int(name[1]), self.need[name]
        row: Tables = {'name': name, 'core': core}
        kind = rng.choice(['slice', 'sporadic', 'bandwidth']) if self.has_budgets else 'slice'
        if kind == 'slice':
            row |= dict.fromkeys(('budget', 'period'), rng.randint(2, 60))
        else:
            budget = max(1, rng.choice([1, 2, 4, 4, 6, 6, 8, 8]) * need // 2)
            period = budget + rng.choice([1, need, 3 * need])
            row |= {'budget': budget, 'period': period, 'mode': kind, 'extra_refills': rng.choice([0, 1, 16, 64])}
        self.tables['context'].append(row)


def pipeline(rng: random.Random) -> Tables:
    """Time slices alone. H delays X, so the signals of X come to Y in bursts; Y delays Z and may signal W, on either core. A chain
    goes over them."""
    cores = {'H': 0, 'X': 0, 'Y': rng.choice([0, 1]), 'W': rng.choice([0, 1])}
    cores['Z'] = cores['Y']
    signals: list[list[str]] = [[], ['signal W 2']]
    scripts = {
        'H': (50, [f'compute {rng.randint(8, 30)}']), 'X': (rng.choice([20, 30]), ['compute 1', 'signal Y 1']),
        'Y': (rng.choice([40, 25, 60]), ['on 1', f'compute {rng.randint(1, 4)}', *rng.choice(signals), 'on 2', 'compute 2']),
        'W': (rng.choice([15, 45, 5]), ['on 1', 'compute 3', 'on 2', f'compute {rng.randint(1, 4)}']), 'Z': (10, [f'compute {rng.randint(3, 14)}']),
    }
    periods = {'H': rng.randint(60, 150), 'X': rng.randint(14, 28), 'Y': rng.randint(50, 120), 'W': rng.randint(30, 90), 'Z': rng.randint(70, 170)}
    is_long = 'signal W 2' in scripts['Y'][1]
    return {
        'version': 3, 'cores': 2, 'delay': rng.randint(1, 6), 'call': 1,
        'context': [{'name': name, 'core': core, 'budget': 9, 'period': 9} for name, core in cores.items()],
        'note': [{'name': name, 'core': core} for name, core in cores.items()],
        'source': [{'name': name, 'note': name, 'badge': 1 + (name == 'Y'), 'period': period} for name, period in periods.items()],
        'thread': [
            {'name': name, 'context': name, 'priority': priority, 'script': [f'wait {name}', *script]} for name, (priority, script) in scripts.items()
        ],
        'chain': [{'name': 'way', 'source': 'X', 'thread': 'W' if is_long else 'Y', 'badges': 2 if is_long else 1}],
    }


def system_of(rng: random.Random) -> Tables:
    """A random system, whose sources begin at 0."""
    return pipeline(rng) if rng.random() < 0.15 else Maker(rng).made()


def phased(rng: random.Random, tables: Tables) -> Tables:
    """The same system with other phases: all sources together, or each anywhere; at once, or when threads wait with full budgets."""
    first, apart = rng.choice([0, 300, 300]), rng.choice([0, 1, 2, 2])
    sources = [row | {'start': first + rng.randrange((1, 8, row['period'])[apart])} for row in tables.get('source', [])]
    return {**tables, 'source': sources}
