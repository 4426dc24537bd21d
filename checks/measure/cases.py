"""Systems on which a run's cost is measured beside another program: few and many threads and cores, short delays, idle time, orders, many refills."""
from __future__ import annotations

import random
from collections.abc import Callable
from typing import NamedTuple

Value = int | str | list[str]
WORD = 2**32 - 1


def written(value: Value) -> str:
    if isinstance(value, list):
        return '[' + ', '.join(f'"{item}"' for item in value) + ']'
    return f'"{value}"' if isinstance(value, str) else str(value)


class System:
    """The text of a system, table by table."""

    def __init__(self, **keys: Value) -> None:
        self.head = ''.join(f'{key} = {written(value)}\n' for key, value in ({'version': 1, 'cores': 1, 'delay': 1} | keys).items())
        self.tables: dict[str, list[str]] = {kind: [] for kind in ('context', 'note', 'thread', 'order')}

    def add(self, kind: str, **keys: Value) -> None:
        rows = ''.join(f'{key} = {written(value)}\n' for key, value in keys.items())
        self.tables[kind].append(f'\n[[{kind}]]\n{rows}')

    def text(self) -> str:
        return self.head + ''.join(row for rows in self.tables.values() for row in rows)


def rows() -> str:
    """One thread whose budget is a tick of three: hardly anything but rows."""
    system = System()
    system.add('context', name='a', core=0, budget=1, period=3)
    system.add('thread', name='A', context='a', priority=5, script=['compute 1000'])
    return system.text()


def mixed(threads: int = 200) -> str:
    """200 threads on one core: some compute, some wait, some signal."""
    draw = random.Random(2)
    system = System()
    for number in range(20):
        system.add('note', name=f'n{number}', core=0)
    for number in range(threads):
        period = int(10 ** draw.uniform(1, 4))
        budget = min(max(1, int(period * draw.uniform(0.2, 1.6) / threads)), period) if number % 20 else period
        system.add('context', name=f'c{number}', core=0, budget=budget, period=period, extra_refills=draw.choice([0, 0, 1, 4]))
        if number % 20 == 0:
            script, priority = [f'compute {draw.randint(1, 50)}', 'yield'], draw.randint(0, 3)
        elif number % 5 == 1:
            script, priority = [f'wait n{draw.randrange(20)}', f'compute {draw.randint(1, 5)}'], draw.randint(100, 255)
        elif number % 5 == 2:
            script = [f'compute {draw.randint(1, 5)}', f'signal n{draw.randrange(20)} {draw.randint(1, WORD)}', 'yield']
            priority = draw.randint(20, 200)
        else:
            script = [f'compute {draw.randint(1, max(1, budget * 2))}', 'yield'] if number % 2 else [f'compute {draw.randint(1, 100)}']
            priority = draw.randint(4, 255)
        start = draw.randint(0, period)
        system.add('thread', name=f't{number}', context=f'c{number}', priority=priority, start=start, deadline=period, script=script)
    return system.text()


def many_cores(cores: int = 64, threads: int = 32, delay: int = 1000) -> str:
    """64 cores of 32 threads, some of which signal other cores."""
    draw = random.Random(3)
    system = System(cores=cores, delay=delay)
    for core in range(cores):
        for number in range(8):
            system.add('note', name=f'n{core}_{number}', core=core)
    for core in range(cores):
        for number in range(threads):
            name = f'{core}_{number}'
            period = int(10 ** draw.uniform(2.3, 4))
            budget = min(period - 1, max(1, int(period * draw.uniform(0.5, 1.6) / threads)))
            system.add('context', name=f'c{name}', core=core, budget=budget, period=period, extra_refills=draw.choice([0, 0, 2]))
            if number % 4 == 0:
                other = draw.randrange(cores)
                script = [f'compute {draw.randint(1, 3)}', f'signal n{other}_{draw.randrange(8)} {draw.randint(1, WORD)}', 'yield']
                priority = draw.randint(20, 200)
            elif number % 4 == 1:
                script, priority = [f'wait n{core}_{draw.randrange(8)}', f'compute {draw.randint(1, 4)}'], draw.randint(100, 255)
            else:
                script, priority = [f'compute {draw.randint(1, 30)}'], draw.randint(0, 255)
            start = draw.randint(0, period)
            system.add('thread', name=f't{name}', context=f'c{name}', priority=priority, start=start, deadline=2 * period, script=script)
    return system.text()


def idle(cores: int = 4, threads: int = 4) -> str:
    """Four cores on which little happens in 2^40 ticks."""
    draw = random.Random(4)
    system = System(cores=cores)
    longest = (2**40 * 3 * cores * threads) // 10**6
    for core in range(cores):
        for number in range(threads):
            period = longest + draw.randint(-(10**5), 10**5)
            system.add('context', name=f'c{core}_{number}', core=core, budget=10, period=period)
            start = draw.randint(0, period)
            system.add('thread', name=f't{core}_{number}', context=f'c{core}_{number}', priority=number, start=start, deadline=period, script=['compute 1000'])
    return system.text()


def refills(threads: int = 16) -> str:
    """Contexts of up to 66 refills, whose threads are preempted all the time."""
    draw = random.Random(5)
    system = System(min_budget=1)
    for number in range(threads):
        system.add('context', name=f'c{number}', core=0, budget=900 // threads * 3, period=4000 + number, extra_refills=64)
        system.add('thread', name=f't{number}', context=f'c{number}', priority=10 + number, start=number, script=['compute 7', 'compute 3000'])
    for number in range(8):
        period = draw.randint(15, 60)
        system.add('context', name=f'p{number}', core=0, budget=1, period=period)
        system.add('thread', name=f'P{number}', context=f'p{number}', priority=200 + number, start=draw.randint(0, period), script=['compute 1000'])
    return system.text()


def close(cores: int, threads: int, notes: int, refills: tuple[int, ...]) -> str:
    """Many cores whose signals take one tick."""
    draw = random.Random(cores)
    system = System(cores=cores)
    for core in range(cores):
        for number in range(notes):
            system.add('note', name=f'n{core}_{number}', core=core)
    for core in range(cores):
        for number in range(threads):
            period = draw.randint(20, 400)
            name = f'{core}_{number}'
            budget = max(1, period // threads)
            system.add('context', name=f'c{name}', core=core, budget=budget, period=period, extra_refills=draw.choice(refills))
            signal = f'signal n{draw.randrange(cores)}_{draw.randrange(notes)} 1'
            scripts = [f'compute {draw.randint(1, 3)}', signal, 'yield'], [f'wait n{core}_{draw.randrange(notes)}', 'compute 2'], ['compute 9']
            priority, start = draw.randint(0, 255), draw.randint(0, period)
            system.add('thread', name=f't{name}', context=f'c{name}', priority=priority, start=start, script=scripts[number % 3])
    return system.text()


def tight() -> str:
    """16 cores of 8 threads whose signals take one tick."""
    return close(16, 8, 4, (0, 3))


def closer() -> str:
    """64 cores of 8 threads whose signals take one tick."""
    return close(64, 8, 1, (0,))


def waiters(threads: int = 2000) -> str:
    """A thread is woken in each tick, each by a notification of its own."""
    draw = random.Random(8)
    system = System()
    for number in range(threads):
        system.add('note', name=f'n{number}', core=0)
        system.add('context', name=f'c{number}', core=0, budget=50, period=100)
        system.add('thread', name=f't{number}', context=f'c{number}', priority=200, script=[f'wait n{number}', 'compute 1'])
    for number in range(4):
        system.add('context', name=f's{number}', core=0, budget=100, period=100)
        script = [f'signal n{draw.randrange(threads)} 1' for _ in range(1024)]
        system.add('thread', name=f'S{number}', context=f's{number}', priority=5, script=script)
    return system.text()


def orders(threads: int = 512, many: int = 4096) -> str:
    """Two cores of 512 threads, whose contexts get 4,096 orders."""
    draw = random.Random(9)
    system = System(cores=2, delay=50)
    for core in range(2):
        for number in range(threads):
            period = draw.randint(500, 5000)
            name = f'{core}_{number}'
            system.add('context', name=f'c{name}', core=core, budget=max(1, period // 100), period=period, extra_refills=2)
            start = draw.randint(0, period)
            system.add('thread', name=f't{name}', context=f'c{name}', priority=draw.randint(0, 255), start=start, script=['compute 3', 'yield'])
    for number in range(many):
        core, thread, period = draw.randrange(2), draw.randrange(threads), draw.randint(500, 5000)
        budget, refills = max(1, period // 50), draw.randrange(4)
        system.add('order', at=100_000 - number * 24, core=core, context=f'c{core}_{thread}', budget=budget, period=period, extra_refills=refills)
    return system.text()


def many_threads(threads: int = 4096) -> str:
    """4,096 threads on one core."""
    draw = random.Random(10)
    system = System()
    for number in range(threads):
        period = draw.randint(2 * threads, 6 * threads)
        system.add('context', name=f'c{number}', core=0, budget=2, period=period)
        start = draw.randint(0, period)
        system.add('thread', name=f't{number}', context=f'c{number}', priority=draw.randint(0, 255), start=start, script=['compute 1', 'yield'])
    return system.text()


def line(threads: int = 512) -> str:
    """So many threads that wait for one notification."""
    draw = random.Random(12)
    system = System()
    system.add('note', name='n', core=0)
    for number in range(threads):
        system.add('context', name=f'c{number}', core=0, budget=50, period=100)
        system.add('thread', name=f't{number}', context=f'c{number}', priority=draw.randint(100, 255), script=['wait n', 'compute 1'])
    system.add('context', name='s', core=0, budget=100, period=100)
    system.add('thread', name='S', context='s', priority=5, script=['signal n 1'])
    return system.text()


class Case(NamedTuple):
    """A system, and the horizon of its runs."""

    name: str
    text: Callable[[], str]
    horizon: int


CASES = (
    Case('one thread, hardly anything but rows', rows, 10**6),
    Case('200 threads on one core', mixed, 10**5),
    Case('64 cores of 32 threads, delay 1000', many_cores, 3 * 10**4),
    Case('4 cores, mostly idle', idle, 2**37),
    Case('many small refills, preemption', refills, 10**5),
    Case('16 cores of 8 threads, delay 1', tight, 2 * 10**4),
    Case('64 cores of 8 threads, delay 1', closer, 10**4),
    Case('a wake in each tick, 2,000 waiters', waiters, 10**5),
    Case('4,096 orders', orders, 10**5),
    Case('4,096 threads on one core', many_threads, 10**5),
    Case('512 waiters of one notification', line, 2 * 10**4),
)

