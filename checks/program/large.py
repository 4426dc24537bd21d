"""Systems that are too large to be seen at once, for the checks of pages: many threads on many cores, and a long run."""
from __future__ import annotations

import random
from collections.abc import Iterator

CORES, THREADS = 63, 32
PERIODS = (500, 800, 1000, 1500, 2000, 3000, 4000, 6000)
MANY_HORIZON, LONG_HORIZON = 4000, 5_000_000

# a device, a driver, a program between it and a client, and work in the background; now and then the client is late
LONG = '''version = 2
cores = 3
delay = 2
context = [
    { name = "nic", core = 2, budget = 2, period = 139, mode = "bandwidth" },
    { name = "driver", core = 0, budget = 60, period = 250, extra_refills = 8, mode = "bandwidth" },
    { name = "between", core = 0, budget = 100, period = 250, extra_refills = 8, mode = "bandwidth" },
    { name = "client", core = 1, budget = 90, period = 250, extra_refills = 8, mode = "bandwidth" },
    { name = "back", core = 1, budget = 40, period = 1000, mode = "bandwidth" },
]
note = [{ name = "irq", core = 0 }, { name = "rx", core = 0 }, { name = "app", core = 1 }]
thread = [
    { name = "Nic", context = "nic", priority = 200, script = ["signal irq 1", "yield"] },
    { name = "Driver", context = "driver", priority = 200, deadline = 20, script = ["wait irq", "compute 6", "signal rx 1"] },
    { name = "Between", context = "between", priority = 150, deadline = 60, script = ["wait rx", "compute 12", "signal app 1"] },
    { name = "Client", context = "client", priority = 100, deadline = 30, script = ["wait app", "compute 16"] },
    { name = "Back", context = "back", priority = 101, deadline = 2000, script = ["compute 39", "yield"] },
]
'''


def many_threads(seed: int = 7) -> str:
    """2,016 threads, which run once in each of their periods; the deadlines of many are too short."""
    rng, rows = random.Random(seed), ['version = 1', f'cores = {CORES}', 'delay = 50']
    for core in range(CORES):
        for place in range(THREADS):
            period = rng.choice(PERIODS)
            budget, deadline, priority = max(4, period // rng.choice((24, 30, 36, 40, 48))), int(period * rng.uniform(.3, 1)), rng.randrange(1, 200)
            name = f'{core}_{place}'
            rows += ['[[context]]', f'name = "c{name}"', f'core = {core}', f'budget = {budget}', f'period = {period}']
            rows += ['[[thread]]', f'name = "t{name}"', f'context = "c{name}"', f'priority = {priority}', f'deadline = {deadline}']
            rows += [f'script = ["compute {budget - 1}", "yield"]']
    return '\n'.join(rows) + '\n'


def systems() -> Iterator[tuple[str, str, int]]:
    """The name of each system, its text, and how far it is run."""
    yield 'many_threads.toml', many_threads(), MANY_HORIZON
    yield 'long_run.toml', LONG, LONG_HORIZON
