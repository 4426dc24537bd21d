#!/usr/bin/env python3
"""Checks from rows that a thread in bandwidth mode runs at most its budget in any period, on random systems of versions 2 and 3.

Random systems of versions 2 and 3 run four times. Without orders: with all their contexts in bandwidth mode, where none may have more than the budget, and with none, where
some must, or else the systems show nothing. With orders: in bandwidth mode none may have more than the budget in force between two orders, and in the other mode none may
run for more than the budget of each period that begins since the last order. A context whose budget is its period is left out."""
from __future__ import annotations

import collections
import pathlib
import random
import sys
import tomllib
from collections.abc import Callable, Sequence
from typing import Any, NamedTuple

sys.dont_write_bytecode = True
sys.path[0] = str(pathlib.Path(__file__).resolve().parents[2])
from checks import common
from checks.common import Count
from checks.random_systems import Tables, random_text, text_of

HORIZON = 200


def in_mode(tables: Tables, is_bandwidth: bool) -> Tables:
    """The system with each context that may be in bandwidth mode in that mode, or in the other."""
    mode = {'mode': 'bandwidth' if is_bandwidth else 'sporadic'}
    return {**tables, 'context': [context | mode if is_limited(context) else context for context in tables['context']]}


def is_limited(context: dict[str, Any]) -> bool:
    return bool(context['budget'] < context['period'])


def ticks_run(rows: str) -> dict[str, list[int]]:
    """For each thread the ticks that it runs, from a moment of `run` to the next of `stop`."""
    begun: dict[str, int] = {}
    ticks: dict[str, list[int]] = collections.defaultdict(list)
    for row in rows.splitlines():
        moment, _, word, *rest = row.split()
        if word == 'run':
            begun[rest[0]] = int(moment)
        elif word == 'stop':
            ticks[rest[0]] += range(begun.pop(rest[0]), int(moment))
    for thread, since in begun.items():
        ticks[thread] += range(since, HORIZON)
    return ticks


def fullest(ticks: Sequence[int], period: int) -> int:
    """How many ticks the fullest stretch of a period has; the stretches that begin with one of the ticks are enough."""
    most = last = 0
    for first, begin in enumerate(ticks):
        while last < len(ticks) and ticks[last] < begin + period:
            last += 1
        most = max(most, last - first)
    return most


def with_orders(rng: random.Random, tables: Tables) -> Tables:
    """The system with one to three orders for each context that may be in bandwidth mode; they leave it so."""
    orders = []
    for context in filter(is_limited, tables['context']):
        for _ in range(rng.randint(1, 3)):
            budget = rng.randint(1, 9)
            form = {'budget': budget, 'period': budget + rng.randint(1, 30), 'extra_refills': rng.randint(0, 3)}
            orders.append({'at': rng.randrange(HORIZON), 'core': context['core'], 'context': context['name'], **form})
    return {**tables, 'order': orders}


class Span(NamedTuple):
    """The ticks from an order, or from 0, up to the next order, and the configuration in force."""
    begin: int
    end: int
    budget: int
    period: int

    def within(self, ticks: Sequence[int]) -> list[int]:
        return [tick for tick in ticks if self.begin <= tick < self.end]

    def is_over_budget(self, ticks: Sequence[int]) -> bool:
        """Whether a period within has more of these ticks than the budget."""
        return fullest(self.within(ticks), self.period) > self.budget

    def is_over_demand(self, ticks: Sequence[int]) -> bool:
        """Whether more of these ticks come up to one of them than the budgets of the periods that begin before its end."""
        return any(number > self.budget * -((self.begin - tick - 1) // self.period) for number, tick in enumerate(self.within(ticks), 1))


def spans_of(tables: Tables, context: dict[str, Any]) -> list[Span]:
    orders = sorted((order for order in tables.get('order', []) if order['context'] == context['name']), key=lambda order: int(order['at']))
    begins = [0, *(order['at'] for order in orders)]
    return [Span(begin, end, form['budget'], form['period']) for begin, end, form in zip(begins, [*begins[1:], HORIZON], [context, *orders], strict=True)]


def found_over(program: pathlib.Path, tables: Tables, is_over: Callable[[Span, Sequence[int]], bool]) -> list[str] | None:
    """The contexts whose threads run for more than they may between two orders, or None where the system is refused."""
    ran = common.run([program, '--horizon', str(HORIZON)], text_of(tables).encode())
    if ran.status:
        return None
    ticks = ticks_run(ran.stdout.decode())
    limited = [context for context in tables['context'] if is_limited(context)]
    return [context['name'] for context in limited if any(is_over(span, ticks[f't{context["name"]}']) for span in spans_of(tables, context))]


def main() -> None:
    words = common.asking_random(__doc__, 1000).parse_args()
    program = common.built_program(words.program)
    count, over_sporadic = Count(), 0
    for number in range(words.systems):
        tables = tomllib.loads(random_text(random.Random(f'{words.seed} {number}')))
        ordered = with_orders(random.Random(f'orders {words.seed} {number}'), tables)
        over_sporadic += bool(found_over(program, in_mode(tables, False), Span.is_over_budget))
        for what, found in (
            ('run for more than their budget', found_over(program, in_mode(tables, True), Span.is_over_budget)),
            ('run for more than the budget in force', found_over(program, in_mode(ordered, True), Span.is_over_budget)),
            ('run for more than the budgets since the last order', found_over(program, in_mode(ordered, False), Span.is_over_demand)),
        ):
            if found is not None:
                count.expect(f'system {number} of seed {words.seed}: {found} {what}', not found)
    print(f'{over_sporadic} systems have a sporadic context that gives more than its budget within a period')
    count.expect('no system has one, so that these systems show nothing', over_sporadic > 0)
    count.end()


if __name__ == '__main__':
    main()
