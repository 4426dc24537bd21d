"""Small systems and schedules that were worked out by hand, for the tests."""
from __future__ import annotations

import contextlib
import io
import pathlib
import sys
import tomllib
from collections.abc import Callable
from typing import NamedTuple, Optional
from unittest import mock

TOOLS = pathlib.Path(__file__).resolve().parent.parent
sys.path.insert(0, str(TOOLS))
sys.path.append(str(TOOLS.parent))
from checks import forked
from mcsim_tools import frame
from mcsim_tools import system as systems
from mcsim_tools.reading import Holding, Listener, Post, Reading, Round, Stood, Untaken, read
from mcsim_tools.source import Told
from mcsim_tools.system import Context, System, Thread

# runs a tool in a process of its own, as subprocess.run does
run_tool = forked.tools().run

# 2 ticks in 5 for a computation of 5
ONE = '''
version = 1
cores = 1
delay = 1
context = [{ name = "a", core = 0, budget = 2, period = 5 }]
thread = [{ name = "A", context = "a", priority = 5, rounds = 1, deadline = 10, script = ["compute 5"] }]
'''
ONE_ROWS = '''
0 0 release A
0 0 run A
2 0 stop A spent 2 until 5
5 0 release A
5 0 run A
7 0 stop A spent 2 until 10
10 0 release A
10 0 run A
11 0 round A 1 11
11 0 stop A done 1
'''
# work that is done once in each period, always in 3 ticks, though the round begins where the one before ended
LOOP = '''
version = 1
cores = 1
delay = 1
context = [{ name = "a", core = 0, budget = 3, period = 10 }]
thread = [{ name = "Loop", context = "a", priority = 9, deadline = 5, script = ["compute 2", "yield"] }]
'''
LOOP_ROWS = '''
0 0 release Loop
0 0 run Loop
3 0 round Loop 1 3
3 0 stop Loop yield 3 until 10
10 0 release Loop
10 0 run Loop
13 0 round Loop 2 10
13 0 stop Loop yield 3 until 20
'''
# a device signals at 1, 2, 3, 4 and 5; W takes 3 ticks for each word, a wait costs one, and a signal is under way for 2
PAIR = '''
version = 1
cores = 2
delay = 2
context = [{ name = "w", core = 0, budget = 20, period = 20 }, { name = "d", core = 1, budget = 9, period = 9 }]
note = [{ name = "n", core = 0 }]
thread = [
    { name = "W", context = "w", priority = 5, deadline = 4, script = ["wait n", "compute 3"] },
    { name = "D", context = "d", priority = 5, rounds = 1, script = ["signal n 1", "signal n 1", "signal n 2", "signal n 2", "signal n 1"] },
]
'''
PAIR_ROWS = '''
0 0 release W
0 0 run W
0 1 release D
0 1 run D
1 0 stop W wait 1
1 1 signal D n 1
2 1 signal D n 1
3 0 arrive n 1 from 1
3 0 wake W n 1
3 0 run W
3 1 signal D n 2
4 0 arrive n 1 from 1
4 0 hold n 1
4 1 signal D n 2
5 0 arrive n 2 from 1
5 0 hold n 3
5 1 signal D n 1
5 1 round D 1 5
5 1 stop D done 5
6 0 round W 1 3
6 0 arrive n 2 from 1
6 0 hold n 3
7 0 got W n 3
7 0 arrive n 1 from 1
7 0 hold n 1
10 0 round W 2 3
11 0 got W n 1
'''
# two devices interrupt at 2, and the first one again at 12; D has a handler for each badge
HANDLERS = '''
version = 3
cores = 1
delay = 1
context = [{ name = "d", core = 0, budget = 9, period = 20, mode = "sporadic" }]
note = [{ name = "n", core = 0 }]
thread = [{ name = "D", context = "d", priority = 5, deadline = 5, script = ["wait n", "on 1", "compute 2", "on 2", "compute 3"] }]
source = [{ name = "s", note = "n", badge = 1, period = 10, start = 2 }, { name = "k", note = "n", badge = 2, period = 10, start = 2, count = 1 }]
'''
HANDLERS_ROWS = '''
0 0 release D
0 0 run D
1 0 stop D wait 1
2 0 interrupt s n 1
2 0 wake D n 1
2 0 interrupt k n 2
2 0 hold n 2
2 0 run D
4 0 round D 1 2
5 0 got D n 2
8 0 round D 2 3
9 0 stop D wait 7
12 0 interrupt s n 1
12 0 wake D n 1
12 0 run D
'''
# s interrupts every other tick from 2 on, and each handling of it takes 5; no handler takes the badge of k, which comes at 3
BUSY = '''
version = 3
cores = 1
delay = 1
context = [{ name = "d", core = 0, budget = 20, period = 20 }]
note = [{ name = "n", core = 0 }]
thread = [{ name = "D", context = "d", priority = 5, deadline = 8, script = ["wait n", "on 1", "compute 5"] }]
source = [{ name = "s", note = "n", badge = 1, period = 2, start = 2 }, { name = "k", note = "n", badge = 4, period = 100, start = 3 }]
'''
BUSY_ROWS = '''
0 0 release D
0 0 run D
1 0 stop D wait 1
2 0 interrupt s n 1
2 0 wake D n 1
2 0 run D
3 0 interrupt k n 4
3 0 hold n 4
4 0 interrupt s n 1
4 0 hold n 5
6 0 interrupt s n 1
6 0 hold n 5
7 0 round D 1 5
8 0 got D n 5
8 0 interrupt s n 1
8 0 hold n 1
10 0 interrupt s n 1
10 0 hold n 1
12 0 interrupt s n 1
12 0 hold n 1
13 0 round D 2 5
'''
# L has the server v and no budget when H calls it
TAKEN = '''
version = 3
cores = 1
delay = 1
context = [{ name = "l", core = 0, budget = 3, period = 10, mode = "sporadic" }, { name = "h", core = 0, budget = 20, period = 100, mode = "sporadic" }]
server = [{ name = "v", core = 0, priority = 40, script = ["compute 5"] }]
thread = [
    { name = "L", context = "l", priority = 10, rounds = 1, script = ["call v 1"] },
    { name = "H", context = "h", priority = 30, start = 4, rounds = 1, deadline = 9, script = ["call v 1"] },
]
'''
TAKEN_ROWS = '''
0 0 release L
0 0 run L
1 0 enter L v
3 0 stop L spent 3 until 10
4 0 release H
4 0 run H
5 0 stop H call 1
10 0 release L
10 0 run L
13 0 stop L spent 3 until 20
20 0 release L
20 0 run L
21 0 leave L v
21 0 enter H v
21 0 round L 1 21
21 0 stop L done 1
21 0 run H
'''


def system(text: str) -> System:
    return systems.system_of(tomllib.loads(text))


def told(text: str, rows: str, horizon: Optional[int]) -> Told:
    return Told(system(text), iter(rows.strip().splitlines()), horizon)


class Heard(Listener):
    """Keeps all that a reading tells."""

    def __init__(self, hears_holdings: tuple[str, ...] = ()) -> None:
        self.hears_holdings = hears_holdings
        self.stands: list[Stood] = []
        self.rounds: list[Round] = []
        self.open: list[Round] = []
        self.posts: list[Post] = []
        self.orders: list[tuple[str, int]] = []
        self.holdings: list[tuple[int, list[list[int]], bool]] = []
        self.nevers: list[str] = []
        self.signals: list[str] = []
        self.words: list[tuple[str, list[str], int, int]] = []

    def stood(self, stood: Stood) -> None:
        self.stands.append(stood)

    def round_ended(self, ended: Round) -> None:
        self.rounds.append(ended)

    def round_open(self, open_round: Round) -> None:
        self.open.append(open_round)

    def posted(self, post: Post) -> None:
        self.posts.append(post)

    def under_way(self, note: str, signal: object) -> None:
        self.signals.append(note)

    def ordered(self, context: Context, moment: int) -> None:
        self.orders.append((context.name, moment))

    def holds(self, holding: Holding) -> None:
        self.holdings.append((holding.moment, [list(refill) for refill in holding.refills], holding.is_used))

    def untaken(self, untaken: Untaken) -> None:
        self.words.append((untaken.note, [thread.name for thread in untaken.by], untaken.word, untaken.since))

    def never(self, thread: Thread, horizon: int) -> None:
        self.nevers.append(thread.name)


def heard(text: str, rows: str, horizon: Optional[int], hears: tuple[str, ...] = ()) -> tuple[Heard, Reading]:
    listener = Heard(hears)
    return listener, read(told(text, rows, horizon), listener)


class Ended(NamedTuple):
    """What a tool came to."""

    status: int
    stdout: str
    stderr: str


def ran(name: str, main: Callable[[], Optional[int]], *words: object) -> Ended:
    """Runs a tool with these words, within this process."""
    out, said = io.StringIO(), io.StringIO()
    with mock.patch.object(sys, 'argv', [name, *map(str, words)]), contextlib.redirect_stdout(out), contextlib.redirect_stderr(said):
        status = frame.guarded(main)
    return Ended(status, out.getvalue(), said.getvalue())
