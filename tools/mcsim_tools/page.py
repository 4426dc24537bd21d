"""A page: one file, nothing from a network. It holds a schedule as numbers, and its scripts draw what is in view."""
from __future__ import annotations

import html
import json
import pathlib
from collections.abc import Mapping, Sequence
from typing import Any, Optional

from . import style
from .chains import Chains, Figures
from .legend import legend_of_page
from .packing import Packed
from .reading import STANDINGS
from .scale import Unit
from .style import Theme
from .system import Thread

HERE = pathlib.Path(__file__).resolve().parent
# in the order in which the page runs them
SCRIPTS = ('page_data.js', 'page_lanes.js', 'page_draw.js', 'page_words.js', 'page_view.js', 'page_overview.js', 'page_lists.js', 'page_chains.js', 'page.js')


def escaped(text: object) -> str:
    return html.escape(str(text), quote=True)


def script_json(value: object) -> str:
    """JSON that may stand within a script element."""
    return json.dumps(value, ensure_ascii=False, separators=(',', ':')).replace('<', '\\u003c')


def thread_words(packed: Packed, thread: Thread) -> dict[str, Any]:
    """What the page has of a thread, with its counts over the whole run."""
    counts, context = packed.of[thread.name], thread.context
    return {
        'name': thread.name, 'core': thread.core, 'prio': thread.priority, 'context': context.name, 'budget': context.budget, 'period': context.period,
        'deadline': thread.deadline, 'rounds': counts.rounds, 'greatest': counts.greatest, 'missed': counts.missed,
        'open': 'never activated' if counts.is_never else 'overdue' if counts.is_overdue else '', 'lost': packed.of_notes(packed.lost, thread),
        'merged': packed.of_notes(packed.merged, thread), 'stood': counts.stood,
    }


def chain_words(packed: Packed, figures: Figures, moments: Sequence[int], horizon: int) -> dict[str, Any]:
    """What the page has of a chain, over the whole run."""
    chain, is_known = figures.chain, figures.answered > 0
    return {
        'name': chain.name, 'source': packed.source_place[chain.source], 'thread': packed.place[chain.thread], 'deadline': chain.deadline,
        'interrupts': len(moments), 'answered': figures.answered, 'least': figures.least if is_known else None,
        'greatest': figures.greatest if is_known else None, 'total': figures.total, 'slow': figures.slow, 'unanswered': figures.unanswered(moments, horizon),
    }


def chains_of(packed: Packed, chains: Optional[Chains], horizon: int) -> list[dict[str, Any]]:
    return [chain_words(packed, figures, chains.sources.moments[figures.chain.source], horizon) for figures in chains.figures.values()] if chains else []


def data(packed: Packed, unit: Unit, heading: Mapping[str, Any]) -> dict[str, Any]:
    """All that the page knows but for the arrays."""
    place = packed.place
    return {
        **heading, 'a': packed.begin, 'b': packed.end, 'detail': packed.detail, 'heldEnd': packed.held_end, 'tick': None if unit.tick is None else float(unit.tick), 'unit': unit.name,
        'cores': packed.system.cores, 'threads': [thread_words(packed, thread) for thread in packed.threads], 'standings': STANDINGS,
        'notes': packed.notes, 'sources': packed.sources, 'servers': packed.servers, 'serverCores': packed.server_cores(),
        'slow': [[packed.chain_place[one.chain.name], one.origin, one.moment] for one in packed.slow], 'locks': packed.locks(),
        'findings': [[one.kind, one.core, one.begin, one.end, one.name, place[one.thread.name] if one.thread else -1, one.said(unit)] for one in packed.findings],
        'more': packed.left_out, 'summary': packed.summary(),
        **moving(packed), 'things': packed.count,
        'columns': None if packed.columns is None else [packed.columns.begin, packed.columns.width, packed.columns.many],
    }


def data_of_part(packed: Packed) -> dict[str, Any]:
    """What a page asks for beyond its detail: single things of a window, with threads and notifications numbered as on the page."""
    packed.columns = None
    arrays, parts = packed.text()
    found = {'a': packed.begin, 'b': packed.end, 'detail': packed.detail, 'heldEnd': packed.held_end, 'columns': None, **moving(packed), 'arrays': parts}
    return {'data': found, 'arrays': arrays}


def moving(packed: Packed) -> dict[str, Any]:
    """What is open at the end of a window, and its orders."""
    place = packed.place
    return {
        'open': [[place[one.thread.name], one.activated, one.begun, one.end] for one in packed.open_rounds],
        'sent': [[note, place[signal.maker.name], signal.made] for note, signal in packed.sent if signal.maker],
        'orders': [[place[packed.system.thread_of[context.name].name], moment, context.name] for context, moment in packed.orders
                   if context.name in packed.system.thread_of],
    }


def page(packed: Packed, unit: Unit, heading: Mapping[str, Any], theme: Theme, live: Optional[int] = None) -> str:
    """The text of a page. A live one has a number, and follows the file that it shows."""
    scripts = [*SCRIPTS, 'live.js'] if live is not None else SCRIPTS
    arrays, parts_of_arrays = packed.text()
    parts = {
        'TITLE': escaped(heading['title']), 'THEME': theme.value, 'PICTURE': str(live or ''),
        'STYLE': style.style(theme) + (HERE / 'page.css').read_text(encoding='utf-8'), 'LEGEND': legend_of_page(packed, len(heading['chosen']) < len(packed.threads)), 'SIGNS': style.SIGNS + style.patterns(range(style.LOOKS_OF_THREADS)),
        'DATA': script_json({**data(packed, unit, heading), 'arrays': parts_of_arrays}), 'ARRAYS': arrays,
        'SCRIPT': '\n'.join((HERE / name).read_text(encoding='utf-8') for name in scripts),
    }
    head, *rest = (HERE / 'page.html').read_text(encoding='utf-8').split('@@')
    # the template's pieces are text and names of parts in turn
    return head + ''.join(parts[piece] if place % 2 == 0 else piece for place, piece in enumerate(rest))


def fault_page(fault: str) -> str:
    """The page of a file of which there is no picture yet: it looks again."""
    script = 'setTimeout(() => location.reload(), 500)'
    css = (HERE / 'page.css').read_text(encoding='utf-8')
    head = f'<head><meta charset="utf-8"><title>mcsim live</title><style>{css}</style></head>'
    return f'<!doctype html><html lang="en">{head}<body><p id="fault">{escaped(fault)}</p><script>{script}</script></body></html>'
