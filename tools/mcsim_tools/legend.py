"""What the signs of a picture mean: those that stand in it."""
from __future__ import annotations

from collections.abc import Callable, Mapping
from typing import NamedTuple, Optional

from .packing import OUTCOMES, Packed
from .reading import BLOCKED, HELD, LOST, MERGED, READY, RUNNING, STANDINGS, THROTTLED
from .style import BAR
from .tally import MISS, OVERDUE

# states of budgets above which a page may show them by columns
MANY_HELD = 500
HELD_BACK = (OUTCOMES.index(HELD), OUTCOMES.index(MERGED))
# pixels of a line of the legend, of a letter at most, of a sample, and between two entries
ROW, LETTER, SAMPLE, GAP = 26, 6.6, 26, 14
Draw = Callable[[int, int], str]


class Item(NamedTuple):
    text: str
    draw: Draw


def box(look: str, height: float, wide: int = 18, up: float = 0) -> Draw:
    return lambda x, y: f'<rect class="{look}" x="{x}" y="{y - 4 - height / 2 - up:g}" width="{wide}" height="{height:g}"/>'


def sign(name: str, look: str, low: int = 7) -> Draw:
    return lambda x, y: f'<use class="{look}" href="#{name}" x="{x + 9}" y="{y + low}"/>'


def both(*parts: Draw) -> Draw:
    return lambda x, y: ''.join(part(x, y) for part in parts)


def at_end(name: str, look: str) -> Draw:
    return lambda x, y: f'<use class="{look}" href="#{name}" x="{x + 18}" y="{y - 8}"/>'


def dot(x: int, y: int) -> str:
    return f'<circle class="ink" cx="{x + 2}" cy="{y + 1}" r="2.1"/>'


def line(x: int, y: int) -> str:
    return f'<path class="join" d="M{x + 2} {y + 1}C{x + 2} {y - 8} {x + 16} {y - 1} {x + 16} {y - 11}"/>'


def way(begin: int, end: int, more: str = '') -> Draw:
    return lambda x, y: f'<path class="way{more}" d="M{x + begin} {y - 4}H{x + end}"/>'


def hatched(x: int, y: int) -> str:
    return f'<rect style="fill:url(#hatch0)" x="{x}" y="{y - 8}" width="18" height="8"/>'


def items(drawn: Mapping[str, int], column_width: Optional[int]) -> list[Item]:
    """The signs that were drawn, in the order in which a reader meets them."""
    is_single = column_width is None
    known = [
        (drawn.get('running') or drawn.get('on'), Item('running', box('running c0', BAR))),
        (drawn.get('other'), Item('another thread, without a lane', box('other', BAR))),
        (drawn.get('ready'), Item('ready: waits for the core', box('ready c0', 7))),
        (drawn.get('throttled'), Item('throttled: waits for a replenishment', hatched)),
        (drawn.get('blocked'), Item('blocked: waits for a signal' + (' or a server' if drawn.get('call') else ''), box('blocked', 1.6))),
        (drawn.get('up'), Item('activation of a round', sign('up', 'ink'))),
        (drawn.get('down'), Item('its deadline' + (' (if met, not shown in crowded lanes)' if drawn.get('left out') else ''), sign('down', 'ink'))),
        (drawn.get('resp'), Item('response time: from the activation to the end of the round', both(box('resp', 1.4), at_end('end', 'ink')))),
        (drawn.get('queued'), Item('activated, not begun yet', box('queued', 1.4))),
        (drawn.get('late') and is_single, Item('deadline missed, or overdue', both(box('late', 4), at_end('endlate', 'bad')))),
        (drawn.get('late') and not is_single, Item('below a lane: rounds missed; above it: signals lost', box('late', 4))),
        (drawn.get('join'), Item('signal, joined to where it takes effect', both(line, dot))),
        (drawn.get('way'), Item("a chain's way, where it is pointed at; thin while it is pending", both(way(0, 10), way(11, 18, ' waits')))),
        (drawn.get('made') and not drawn.get('join'), Item('signal made', dot)),
        (drawn.get('interrupt'), Item('interrupt', sign('irq', 'ink', BAR))),
        (drawn.get('hold'), Item('pending: no thread waits yet', sign('hold', 'soft', BAR + 2))),
        (drawn.get('free'), Item('lock given back: it is free', sign('free', 'soft', BAR + 2))),
        (drawn.get('lost'), Item('lost: its bits are already set', sign('lost', 'bad', BAR + 1))),
        (drawn.get('order'), Item('reconfiguration (order) by SchedControl', sign('order', 'order', BAR - 1))),
        (drawn.get('inside'), Item('a server: who is inside, and below who waits', both(box('on c0', BAR, up=2), box('waits c1', 5, up=-8)))),
        (drawn.get('plot'), Item('budget: usable now, replenished later' + ('; pale in columns: not all the time' if drawn.get('levels') else ''), both(box('use c0', 7, up=-3), box('come1', 7, up=4)))),
        (drawn.get('traced'), Item('below a lane: runs in the trace', box('traced c0', 10))),
        (drawn.get('differs'), Item('the core does not run the same thread in the trace', box('differs', 3))),
        (drawn.get('part'), Item('where both part', lambda x, y: f'<path class="part" d="M{x + 9} {y - 11}V{y + 3}"/>')),
        (not is_single, Item(f'each column is {column_width:,} ticks, and shows shares of them' if column_width else '', lambda x, y: '')),
    ]
    return [item for is_there, item in known if is_there]


def of_page(packed: Packed, has_others: bool) -> dict[str, int]:
    """What a page may show of a schedule."""
    outcomes, stood = packed.posts[6::9], [sum(counts.stood[standing] for counts in packed.of.values()) for standing in range(len(STANDINGS))]
    rounds, has_deadlines = sum(counts.rounds for counts in packed.of.values()) + len(packed.open_rounds), any(thread.deadline for thread in packed.threads)
    locks = set(packed.locks())
    is_late = any(packed.found[kind] for kind in (MISS, OVERDUE))
    return {
        'running': stood[RUNNING], 'other': has_others, 'ready': stood[READY], 'throttled': stood[THROTTLED], 'blocked': stood[BLOCKED],
        'call': any(packed.queued.values()), 'up': rounds, 'down': has_deadlines, 'left out': True, 'resp': rounds, 'queued': outcomes.count(OUTCOMES.index(HELD)),
        'late': is_late, 'join': any(packed.posts[2::9]), 'interrupt': any(packed.posts[7::9]), 'hold': any(outcome in HELD_BACK and note not in locks for outcome, note in zip(outcomes, packed.posts[4::9])),
        'free': any(outcome in HELD_BACK and note in locks for outcome, note in zip(outcomes, packed.posts[4::9])),
        'lost': outcomes.count(OUTCOMES.index(LOST)), 'order': len(packed.orders), 'plot': any(packed.held), 'levels': packed.held_count > MANY_HELD, 'way': any(packed.ways), 'inside': any(packed.served.values()),
    }


def legend_of_page(packed: Packed, has_others: bool) -> str:
    """The legend of a page: each entry with its own small picture, so that they flow as the window allows."""
    return ''.join(f'<span><svg width="24" height="26" aria-hidden="true">{draw(3, 17)}</svg>{text}</span>' for text, draw in items(of_page(packed, has_others), None))


def legend(drawn: Mapping[str, int], column_width: Optional[int], top: int, wide: float) -> tuple[str, int]:
    """The legend from `top` on, in lines of this width; and its height."""
    x, y, parts = 10, top, []
    for text, draw in items(drawn, column_width):
        need = int(SAMPLE + LETTER * len(text) + GAP)
        if x + need > wide and x > 10:
            x, y = 10, y + ROW
        parts.append(f'{draw(x, y)}<text class="small" x="{x + SAMPLE}" y="{y - 1}">{text}</text>')
        x += need
    return ''.join(parts), y - top + ROW - 6
