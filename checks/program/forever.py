#!/usr/bin/env python3
"""Checks that claims of mcscheck --forever hold for three more periods, on 100 random systems, 40 of shared waits, 80 with chains, and some whose findings
are known.

Of each set of cores that is said to repeat, mcsim runs three more periods: their rows are those of the first one, later, and their missed deadlines and
lost signals are as many. All lines are those of a second, plain reading (`checks/program/forever_reading.py`) of these rows, byte by byte, as text and as JSON,
and so are the statuses. Where nothing is ever to be found, nothing is at four horizons. Of a set that is not said to repeat, the lines are those of the
rows up to the horizon. Of each chain that is said to repeat the answers of three more periods come again, and its lines are those of a second reading
(`checks/program/forever_chains.py`); if the status is 0, mcscheck finds nothing late of it at any of some horizons. The last line but one says of how many
chains, on sets that repeat, that was found. A kind of line or of status that was seen nowhere is a failure: a test that sees nothing of it tells nothing."""
from __future__ import annotations

import collections
import pathlib
import random
import sys
import tomllib
from collections.abc import Sequence
from typing import Any, Optional

sys.dont_write_bytecode = True
sys.path[0] = str(pathlib.Path(__file__).resolve().parents[2])
from checks import common
from checks.common import TOP, Count, Ran
from checks.program import forever_chains, forever_reading as forever, reading, verdicts, ways
from checks.program.forever_chains import ChainTold
from checks.program.forever_reading import Claim, Told
from checks.program.reading import Tables, Values
from checks.program.verdicts import System, allowing, differing
from checks.random_pools import pool_of
from checks.random_systems import text_of

SYSTEMS = TOP / 'examples' / 'systems'
# systems with their horizon, how many sets repeat, and the kinds of what is found
KNOWN = {
    SYSTEMS / 'loop_and_its_clock.toml': (1000, 1, set()),
    SYSTEMS / 'loop_by_its_budget.toml': (1000, 1, set()),
    SYSTEMS / 'car_gateway_as_found.toml': (3000, None, {'miss', 'lost', 'overdue', 'untaken'}),
}
# A's word of 16, 56, .. is held while A waits for its budget, and B takes it at 26, 66, .. within its rounds. It is older than the deadline of A from 21 to 25,
# and no round of A is late
TAKEN = '''version = 1
cores = 2
delay = 1
context = [
    { name = "a", core = 0, budget = 2, period = 40 },
    { name = "b", core = 0, budget = 9, period = 40 },
    { name = "clock", core = 1, budget = 40, period = 40 },
]
note = [{ name = "n", core = 0 }, { name = "m", core = 0 }]
thread = [
    { name = "A", context = "a", priority = 5, deadline = 5, script = ["wait n", "compute 1"] },
    { name = "B", context = "b", priority = 9, script = ["wait m", "wait n", "compute 1"] },
    { name = "Clock", context = "clock", priority = 1, script = [
        "compute 9", "signal n 1", "compute 4", "signal n 1", "compute 8", "signal m 1", "compute 16",
    ] },
]
'''
# where the guest is in its script never comes again, and decides nothing else
GUEST = '''version = 1
cores = 1
delay = 1
context = [{ name = "loop", core = 0, budget = 3, period = 10 }, { name = "guest", core = 0, budget = 10, period = 10 }]
thread = [
    { name = "Loop", context = "loop", priority = 9, deadline = 5, script = ["compute 2", "yield"] },
    { name = "Guest", context = "guest", priority = 1, script = ["compute 1000000"] },
]
'''
# core 0 stands at 272 as at 172, but for what is left of the guest's compute: at 1434 it signals, and Loop is overdue from then on
SIGNALS = '''version = 1
cores = 1
delay = 1
context = [
    { name = "loop", core = 0, budget = 3, period = 10 },
    { name = "guest", core = 0, budget = 10, period = 10 },
    { name = "alarm", core = 0, budget = 10, period = 10 },
]
note = [{ name = "n", core = 0 }]
thread = [
    { name = "Loop", context = "loop", priority = 9, deadline = 5, script = ["compute 2", "yield"] },
    { name = "Alarm", context = "alarm", priority = 10, script = ["wait n", "compute 1000000000"] },
    { name = "Guest", context = "guest", priority = 1, script = ["compute 1000", "signal n 1"] },
]
'''
# a thread that may as well spin, and three that may not
GUESTS: tuple[dict[str, Any], ...] = ({}, {}, {}, {'deadline': 500}, {'rounds': 9}, {'script': ['compute 9', 'yield']})
HORIZONS = (30, 100, 400, 1000, 1000, 1500)
# of systems with chains
FAR = (30, 200, 400, 800, 800)
# a schedule of more rows takes the plain reading too long
MOST_ROWS = 10_000
# horizons at which nothing is late of a chain, if nothing is ever found
LATER = 3
REFUSED = (['--show=table'], ['--show=findings'], ['--why', 'Loop', '1'], ['--format=csv'])
# what the random systems have to show
SEEN = (
    'status 0', 'status 1', 'status 5', 'status 6', 'a set of several cores', 'a core of a larger set', 'repeats', 'open', 'at rest', 'rounds that go on',
    'miss in each period', 'miss before alone', 'miss so far', 'lost in each period', 'lost before alone', 'lost so far', 'overdue', 'overdue so far',
    'never', 'never so far', 'greatest', 'no greatest', 'throttled never', 'throttled', 'ends no round', 'ends rounds', 'clean', 'a lost signal that is allowed',
    'a chain', 'a chain so far', 'a chain with answers', 'a chain with answers so far', 'a chain with interrupts under way', 'a chain from one core to another',
    'a chain that is open', 'clean with a chain', 'slow in each period', 'slow before alone', 'slow so far', 'unanswered in each period',
    'unanswered before alone', 'unanswered so far',
    'computes', 'computes so far', 'computes and is never throttled', 'an order', 'interrupts without end', 'interrupts that ended', 'a server that is entered', 'clean without a deadline', 'untaken', 'untaken so far',
)


class Trial:
    """The two programs, and what the systems have shown."""

    def __init__(self, simulator: pathlib.Path, checker: pathlib.Path) -> None:
        self.simulator, self.checker = simulator, checker
        self.count = Count()
        self.seen: collections.Counter[str] = collections.Counter()
        # chains that begin and end on a set that repeats, and those that are said to repeat
        self.on_sets = self.repeating = 0
        # those of the latest system
        self.chains: list[ChainTold] = []

    def check(self, system: System, words: Sequence[str]) -> Ran:
        return common.run([self.checker, '--forever', f'--horizon={system.horizon}', *words], system.text.encode())

    def same(self, system: System, words: Sequence[str], ran: Ran, wanted: Ran) -> None:
        self.seen[f'status {ran.status}'] += 1
        differs = ran != wanted
        self.count.expect(f'{system.kept(differs)} --forever --horizon={system.horizon} {" ".join(words)}: {differing(ran, wanted)}', not differs)

    def rows(self, system: System, far: int) -> Ran:
        return common.run([self.simulator, f'--horizon={far}'], system.text.encode())

    def agrees(self, system: System, words: Sequence[str] = (), allowed: Sequence[str] = ()) -> list[Told]:
        """Tries a system with these words, of which some allow signals to be lost."""
        self.chains = []
        ran = self.check(system, words)
        # what is wrong with the file is told as ever
        start = self.rows(system, 0)
        if start.status:
            self.same(system, words, ran, start._replace(stderr=start.stderr.replace(b'mcsim: ', b'mcscheck: ', 1)))
            return []
        claims = forever.claims_of(ran.stdout.decode())
        all_told = self.told(system, claims, forever_chains.chain_claims_of(ran.stdout.decode()))
        if all_told is None:
            return []
        told, chains = all_told
        self.chains = chains
        wrong = [f'cores {each.group.name}: {broken}' for each in told for broken in each.broken(allowed)]
        wrong += [f'chain {chain.claim.chain}: {broken}' for chain in chains for broken in chain.broken()]
        self.count.expect(f'{system.kept(wrong)} --forever --horizon={system.horizon}: {wrong}', not wrong)
        tables = tomllib.loads(system.text)
        values, status = forever.values_of(tables, told, allowed, chains), forever.status_of(tables, told, allowed, chains)
        self.same(system, words, ran, Ran(status, forever.text_of(values).encode(), b''))
        words = [*words, '--format=json']
        self.same(system, words, self.check(system, words), Ran(status, forever.json_of(values).encode(), b''))
        self.tell(told, allowed)
        self.tell_chains(tables, told, chains)
        is_clean = status == 0 and any(chain.deadline for chain in chains)
        if is_clean:
            self.never_late(system, max(chain.last for chain in chains))
        self.seen['clean with a chain'] += is_clean
        self.seen['clean without a deadline'] += status == 6 and not any(chain.is_open for chain in chains) and all(each.claim.is_clean for each in told)
        return told

    def never_late(self, system: System, far: int) -> None:
        """No answer of a chain is late or overdue up to any horizon, if nothing is ever found."""
        for horizon in sorted({0, far, *(random.Random(system.name).randrange(far + 1) for _ in range(LATER))}):
            ran = common.run([self.checker, f'--horizon={horizon}', '--show=findings'], system.text.encode())
            late = [line for line in ran.stdout.decode().splitlines() if line.split()[2:3] in (['slow'], ['unanswered'])]
            self.count.expect(f'{system.kept(late)} --horizon={horizon}: {late}', not late)

    def told(self, system: System, claims: Sequence[Claim], of_chains: Sequence[forever_chains.ChainClaim]) -> Optional[tuple[list[Told], list[ChainTold]]]:
        """What is to be told where this is claimed, if it is claimed of each set and each chain, and its schedule is not too long."""
        tables = tomllib.loads(system.text)
        names, sets = [claim.cores for claim in claims], [each.name for each in forever.core_sets(tables)]
        self.count.expect(f'{system.kept(names != sets)}: claims of {names}, and the sets are {sets}', names == sets)
        chains, named = [part['name'] for part in tables.get('chain', [])], [claim.chain for claim in of_chains]
        self.count.expect(f'{system.kept(named != chains)}: claims of {named}, and the chains are {chains}', named == chains)
        if names != sets or named != chains:
            return None
        ends = [*(claim.far(system.horizon) for claim in claims), *(claim.far(system.horizon) for claim in of_chains)]
        text = self.rows(system, max(ends, default=0)).stdout.decode()
        if text.count('\n') > MOST_ROWS:
            self.seen['too long'] += 1
            return None
        return forever.told_of(tables, text, claims, system.horizon), forever_chains.chains_told_of(tables, text, of_chains, system.horizon)

    def tell(self, told: Sequence[Told], allowed: Sequence[str]) -> None:
        """Counts what was seen."""
        for each in told:
            so_far = '' if each.claim.start is not None else ' so far'
            self.seen['a set of several cores'] += len(each.group.cores) > 1
            self.seen['a core of a larger set'] += each.group.own != each.group.cores
            self.seen['open' if so_far else 'repeats'] += 1
            self.seen['clean'] += each.claim.is_clean
            self.seen['a lost signal that is allowed'] += each.is_allowed(allowed)
            self.seen['an order'] += bool(each.tables.get('order')) and not so_far
            self.seen['interrupts without end'] += not so_far and any(row.kind == 'interrupt' for row in each.rows_in(0))
            self.seen['interrupts that ended'] += not so_far and bool(list(each.last_interrupts()))
            self.seen['a server that is entered'] += not so_far and any(row.kind == 'enter' for row in each.rows_in(0))
            if not so_far:
                self.seen['at rest'] += not each.rows_in(0)
                self.seen['rounds that go on'] += bool(each.numbers(0))
                # what is found at no horizon that was tried, and not said to be found at none
                self.seen['not said to be clean'] += not each.claim.is_clean and not list(each.not_clean(allowed))
            for values in each.values(allowed):
                self.tell_line(values, so_far)

    def tell_chains(self, tables: Tables, told: Sequence[Told], chains: Sequence[ChainTold]) -> None:
        """Counts what was seen of chains."""
        places = {context['name']: context['core'] for context in tables.get('context', [])}
        cores = {thread['name']: places[thread['context']] for thread in tables.get('thread', [])}
        homes = {source['name']: next(note['core'] for note in tables['note'] if note['name'] == source['note']) for source in tables.get('source', [])}
        for chain in chains:
            both = {cores[chain.part['thread']], homes[chain.part['source']]}
            self.on_sets += any(each.claim.start is not None and both.issubset(each.group.cores) for each in told)
            self.repeating += chain.claim.start is not None
            so_far = '' if chain.claim.start is not None else ' so far'
            self.seen[f'a chain{so_far}'] += 1
            self.seen[f'a chain with answers{so_far}'] += chain.head()['answers'] > 0
            self.seen['a chain with interrupts under way'] += not so_far and bool(chain.without_answer(chain.end))
            self.seen['a chain from one core to another'] += not so_far and len(both) > 1
            self.seen['a chain that is open'] += chain.is_open
            for values in chain.findings():
                self.seen[f'{values["kind"]}{so_far or (" in each period" if values["each_period"] else " before alone")}'] += 1

    def tell_line(self, values: Values, so_far: str) -> None:
        kind = values['kind']
        if kind in ('overdue', 'never', 'untaken'):
            self.seen[f'{kind}{so_far}'] += 1
        elif kind in ('miss', 'lost'):
            self.seen[f'{kind}{so_far or (" in each period" if values["each_period"] else " before alone")}'] += 1
        elif kind == 'computes':
            self.seen[f'{kind}{so_far}'] += 1
            self.seen['computes and is never throttled'] += 'throttled' in values
        elif kind == 'thread':
            self.seen['greatest' if values['greatest'] is not None else 'no greatest'] += 1
            self.seen['throttled never' if 'throttled' in values else 'throttled'] += 1
            self.seen['ends no round' if 'ends_no_round_from' in values else 'ends rounds'] += 1

    def known(self) -> None:
        """The systems whose findings are known."""
        for file, (horizon, repeating, kinds) in KNOWN.items():
            told = self.agrees(System(file.stem, file.read_text(), horizon))
            found = {values['kind'] for each in told for values in each.findings(())}
            self.count.expect(f'{file.stem}: found {found}', found == kinds and bool(told))
            if repeating is not None:
                clean = sum(each.claim.is_clean for each in told)
                self.count.expect(f'{file.stem}: {clean} sets in which nothing is ever found', clean == repeating == len(told))
        self.taken()
        self.guests()
        self.refused(next(iter(KNOWN)))

    def taken(self) -> None:
        """A word that is older than the deadline of a thread that waits for it first, and that another one takes within its rounds."""
        told = self.agrees(System('taken', TAKEN, 1000))
        self.count.expect(f'taken: {[each.claim for each in told]}', [each.claim.is_clean for each in told] == [True, True])
        ends = [common.run([self.checker, f'--horizon={horizon}'], TAKEN.encode()).status for horizon in (1000, 1022)]
        self.count.expect(f'taken: status {ends} at horizons 1000 and 1022', ends == [0, 0])

    def guests(self) -> None:
        """A guest that only computes is no reason not to repeat; one that signals later is."""
        told = self.agrees(System('guest', GUEST, 1000))
        self.count.expect(f'guest: {[each.claim for each in told]}', [each.claim.is_clean for each in told] == [True])
        told = self.agrees(System('signals', SIGNALS, 1000))
        self.count.expect(f'signals: {[each.claim for each in told]}', [each.claim.start for each in told] == [None])

    def refused(self, file: pathlib.Path) -> None:
        """Words that do not go with the option: one line says so."""
        for words in REFUSED:
            ran = common.run([self.checker, file, '--forever', *words])
            is_good = ran.status == 2 and not ran.stdout and ran.stderr.startswith(b'mcscheck: --') and ran.stderr.count(b'\n') == 1
            self.count.expect(f'--forever {" ".join(words)}: {ran}', is_good)
        ran = common.run([self.checker, file, '--forever', '--allow-lost=tik'])
        self.count.expect(f'a notification that is not there: {ran}', ran == Ran(2, b'', reading.unknown_note('tik', ['tick']).encode()))


def random_system(name: str) -> tuple[System, list[str], list[str]]:
    """A random system with the words of a run, and which signals may be lost."""
    rng = random.Random(name)
    tables: Tables = verdicts.tables_of(rng)
    notes = [note['name'] for note in tables.get('note', [])]
    allowed = [note for note in notes if rng.random() < 0.5] if rng.random() < 0.3 else []
    words = [*allowing(allowed), *['--workers=2'] * (rng.random() < 0.3)]
    if rng.random() < 0.4:
        add_guest(rng, tables)
    return System(name.replace(' ', '-'), text_of(tables), rng.choice(HORIZONS)), words, allowed


def with_chains(rng: random.Random) -> str:
    """A random system with chains, mostly one whose sources and budgets come together soon."""
    tables = tomllib.loads(ways.with_chains(rng))
    if rng.random() < 0.7:
        for part in [*tables.get('source', []), *tables.get('context', [])]:
            if max(part.get('budget', 0), *part.get('at', [0])) < 20:
                part['period'] = rng.choice([20, 20, 40])
    return text_of(tables)


def edged(system: System, chains: Sequence[ChainTold], rng: random.Random) -> Optional[System]:
    """The system where each chain that repeats with answers has a deadline that its answers of a period just meet or just miss, and no other chain has one."""
    tables = tomllib.loads(system.text)
    for part, chain in zip(tables['chain'], chains):
        part.pop('deadline', None)
        if chain.claim.start is not None and (answers := chain.answers(*chain.period(0))):
            part['deadline'] = max(1, max(answer.latency for answer in answers) - rng.choice([0, 0, 1]))
    has_one = any('deadline' in part for part in tables['chain'])
    return System(f'{system.name}-edged', text_of(tables), system.horizon) if has_one else None


def add_guest(rng: random.Random, tables: Tables) -> None:
    """Adds a thread that only computes, or nearly so."""
    period = rng.choice([10, 20, 40])
    context = {'name': 'of_guest', 'core': rng.randrange(tables['cores']), 'budget': rng.randint(1, period), 'period': period}
    thread: dict[str, Any] = {'name': 'Guest', 'context': 'of_guest', 'priority': rng.choice([0, 1, 1, 5, 255])}
    script = [f'compute {rng.choice([1, 7, 19, 53, 1000, 1000000])}' for _ in range(rng.choice([1, 1, 2, 3]))]
    tables.setdefault('context', []).append(context)
    tables.setdefault('thread', []).append({**thread, 'script': script, **rng.choice(GUESTS)})


def main() -> None:
    words = common.asking_random(__doc__, 100).parse_args()
    simulator = common.built_program(words.program)
    trial = Trial(simulator, common.beside(simulator, 'mcscheck'))
    trial.known()
    # what the known systems show does not count
    trial.seen.clear()
    for number in range(words.systems):
        trial.agrees(*random_system(f'{words.seed} {number}'))
    for number in range(words.systems * 2 // 5):
        trial.agrees(System(f'pool-{number}', text_of(pool_of(random.Random(f'{words.seed} {number}'))), 400))
    for number in range(words.systems * 4 // 5):
        rng = random.Random(f'chains for ever {words.seed} {number}')
        system = System(f'{words.seed}-chains-{number}', with_chains(rng), rng.choice(FAR))
        trial.agrees(system)
        if trial.chains and (system_edged := edged(system, trial.chains, rng)):
            notes = [note['name'] for note in tomllib.loads(system.text)['note']]
            trial.agrees(system_edged, allowing(notes), notes)
    print(f'{trial.repeating} of {trial.on_sets} chains on sets that repeat are said to repeat')
    trial.count.expect_all(trial.seen, SEEN)
    trial.count.end()


if __name__ == '__main__':
    main()
