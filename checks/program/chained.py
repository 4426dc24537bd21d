"""What mcscheck has to write of a system with its chains, found a second time: the reading of the rows, with that of each chain.

A file without a chain has what the reading of rows has, and nothing more."""
from __future__ import annotations

import functools
from collections.abc import Iterator, Sequence

from checks.program.chain_reading import Answer, ChainReading, read_chain
from checks.program.reading import COLUMNS, KINDS, OF_CHAINS, Reading, Tables, Values, csv_text, percentile

# columns behind the others, in a file with a chain
OF_ANSWERS = ('chain', 'latency', 'deadline', 'origin')
MORE = {
    'findings': OF_ANSWERS, 'jobs': OF_ANSWERS,
    'table': ('chain', 'interrupts', 'answers', 'least', 'greatest', 'total', 'p50', 'p90', 'p99', 'deadline', 'margin'),
}
# the other columns in which a line of chains has a value, by its kind
OWN = {
    **dict.fromkeys(OF_CHAINS, ('moment', 'core', 'kind')), 'answer': ('moment', 'core', 'kind', 'thread', 'number'), 'chain': ('kind',),
}


class Chained(Reading):
    """A system with chains, and the rows of its schedule up to a horizon."""

    kinds = (*KINDS, *OF_CHAINS)

    def __init__(self, tables: Tables, text: str, horizon: int) -> None:
        super().__init__(tables, text, horizon)
        self.chains = [read_chain(tables, chain, text) for chain in tables['chain']]

    @functools.cached_property
    def all_found(self) -> list[tuple[str, str]]:
        """The kind and the line of all that is found. Slow answers of one time follow what the rows of that time show, chain by chain; chains that are
        unanswered follow what is found of threads and notifications at the horizon, and what is unjudged follows them."""
        of_rows = [(row.moment, found) for row in self.rows if (found := self.found(row))]
        slow = [(int(line.split()[0]), ('slow', line)) for chain in self.chains for line in chain.slow()]
        # the order of those that have one time stays
        timed = sorted([*of_rows, *slow], key=lambda found: found[0])
        unanswered = [('unanswered', line) for chain in self.chains if (line := self.left(chain))]
        return [*(found for _, found in timed), *self.at_end(), *unanswered, *self.unjudged_lines()]

    def left(self, chain: ChainReading) -> str:
        """The line of a chain with an interrupt that had to be answered by the horizon, or nothing."""
        core = self.contexts[self.threads[chain.chain['thread']]['context']]['core']
        left = chain.left(self.horizon)
        return f'{self.horizon} {core} {left}' if left else ''

    def with_deadlines(self) -> list[ChainReading]:
        return [chain for chain in self.chains if chain.chain.get('deadline')]

    def deadlines(self) -> int:
        return super().deadlines() + len(self.with_deadlines())

    def judged(self) -> int:
        """What is judged of threads, and of chains with a deadline each answer and an interrupt that had to be answered by the horizon."""
        return super().judged() + sum(len(chain.answers) + bool(self.left(chain)) for chain in self.with_deadlines())

    def jobs(self) -> Iterator[str]:
        """The line of each round that ended, and behind it those of what it answers, chain by chain."""
        for line in super().jobs():
            yield line
            _, _, _, thread, _, number, *_ = line.split()
            for chain in self.chains:
                if chain.chain['thread'] == thread:
                    yield from (answer_line(chain, answer) for answer in chain.answers if answer.number == int(number))

    def values(self, line: str) -> Values:
        _, _, kind, *words = line.split()
        if kind != 'answer':
            return super().values(line)
        chain = next(chain for chain in self.chains if chain.chain['name'] == words[0])
        answer = next(answer for answer in chain.answers if answer_line(chain, answer) == line)
        values = {
            'moment': answer.moment, 'core': answer.core, 'kind': kind, 'thread': chain.chain['thread'], 'number': answer.number, 'chain': words[0],
            'latency': answer.latency,
        }
        deadline = chain.chain.get('deadline', 0)
        return {**values, **({'deadline': deadline} if deadline else {}), 'origin': answer.origin}

    def table(self) -> list[Values]:
        return [*super().table(), *map(figures, self.chains)]

    def rows_text(self, show: str, rows: Sequence[Values]) -> str:
        return csv_text((*COLUMNS[show], *MORE[show]), (cells(show, values) for values in rows))


def answer_line(chain: ChainReading, answer: Answer) -> str:
    """The line of an answer. A chain without a deadline names none."""
    deadline = chain.chain.get('deadline', 0)
    times = f'round {answer.number} origin {answer.origin} latency {answer.latency}'
    return f'{answer.moment} {answer.core} answer {chain.chain["name"]} {times}' + (f' deadline {deadline}' if deadline else '')


def figures(chain: ChainReading) -> Values:
    """What the table tells of a chain."""
    latencies, deadline = sorted(answer.latency for answer in chain.answers), chain.chain.get('deadline', 0)
    greatest = latencies[-1] if latencies else None
    return {
        'kind': 'chain', 'chain': chain.chain['name'], 'interrupts': len(chain.interrupts), 'answers': len(latencies),
        'least': latencies[0] if latencies else None, 'greatest': greatest, 'total': sum(latencies),
        **{f'p{percent}': percentile(latencies, percent) for percent in (50, 90, 99)}, 'deadline': deadline or None,
        'margin': deadline - greatest if deadline and greatest is not None else None,
    }


def cells(show: str, values: Values) -> list[object]:
    """The cells of a line: those of a chain stand behind the others, and so does its deadline."""
    if values['kind'] not in OWN:
        return [*map(values.get, COLUMNS[show]), *[None] * len(MORE[show])]
    own = {name: values[name] for name in OWN[values['kind']]}
    return [*map(own.get, COLUMNS[show]), *map(values.get, MORE[show])]


def reading_of(tables: Tables, text: str, horizon: int) -> Reading:
    """The reading of a system, of its chains too if it has some."""
    return (Chained if tables.get('chain') else Reading)(tables, text, horizon)
