#!/usr/bin/env python3
"""Checks that the worked theorems of crates/mcs_worked are those of the files in crates/mcs_corpus/data; with --write, writes them.

A theorem is `schedule SYSTEM HORIZON ≡ ROWS`, proved by computing. A system NAME is a file `NAME.toml`. In the folder `NAME` its run `schedule`, or
else its run `both`, has two files: `RUN.words`, of which only `--horizon N` counts, and `RUN.stdout`, of which lines of reports are passed over. All
systems with such a run up to moment 10,000 at most are taken, in the order of their names. The lines do not tell until when a woken thread waits for its
budget, so that date is the one of the model of the rules. After --write run `rt fmt` and `rt check` in the crate; how the files are laid out makes no
difference here."""
from __future__ import annotations

import pathlib
import re
import sys
import tomllib
from collections.abc import Iterable, Sequence
from typing import Any

sys.dont_write_bytecode = True
sys.path[0] = str(pathlib.Path(__file__).resolve().parents[2])
from checks import common
from checks.common import DATA, TOP, Count
from checks.program import model


PROOFS = TOP / 'crates' / 'mcs_worked' / 'proofs'
# each file with the folders from which it comes
FILES = {'Schedules.antt': ('examples', 'worked'), 'Random.antt': ('random_one', 'random_several')}

# a table of a file
Table = dict[str, Any]
# the date with which a thread, by its number, stands in the release queue after a moment
Dates = dict[tuple[int, int], int]

HEAD = """-- Written by checks/proofs/theorems.py from {parts}: schedules of systems, each by computing.
use Rattle.std.specs.Prelude.{{{prelude}}}
use Rattle.mcs_ticks.specs.declared.row.Row.{{Row}}
use Rattle.mcs_ticks.specs.declared.row.What.TheVariants as row
use Rattle.mcs_ticks.specs.declared.row.Why.TheVariants as why
use Rattle.mcs_script.specs.declared.item.Item.TheVariants.{{{items}}}
use Rattle.mcs_system.specs.System.{{System}}
use Rattle.mcs_core.specs.Clock.{{schedule}}
use Rattle.mcs_worked.specs.Parts.{{{words}}}
"""

DEFAULT_HORIZON = 1000

# Computing goes over each moment, so runs past this horizon are left out.
LONGEST = 10_000

CAUSES = {
    'spent': 'Spent', 'yield': 'Yield', 'wait': 'Wait', 'call': 'Call', 'done': 'Done', 'preempt': 'Preempt', 'order': 'Order',
}
ITEMS = ['Compute', 'Signal', 'Wait', 'Yield', 'On', 'Spin', 'Enter', 'Leave']
WORDS = ['context', 'bandwidth_context', 'note', 'note_with', 'server', 'thread', 'order', 'link', 'source', 'beat', 'chain', 'at']


def sequence(terms: Sequence[str]) -> str:
    return '(' + ' ∷ '.join([*terms, '[]']) + ')' if terms else '[]'


def applied(term: str) -> str:
    return f'({term})' if ' ' in term else term


class Numbers:
    """The number of each name. Servers go on from the notifications."""

    def __init__(self, system: Table) -> None:
        def places(kind: str, first: int = 0) -> dict[str, int]:
            return {part['name']: first + place for place, part in enumerate(system.get(kind, []))}

        self.contexts, self.threads, self.sources = places('context'), places('thread'), places('source')
        notes = places('note')
        self.notes = notes | places('server', len(notes))
        self.servers = {part['name']: part for part in system.get('server', [])}
        # threads that stopped since the server that they call was taken
        self.calling: set[str] = set()


def called_items(script: Sequence[str], badge: int) -> list[str]:
    """The items of a server's script that stand before its first `on`, or in a handler that has a bit of the badge."""
    items, taken = [], True
    for text in script:
        word, *rest = text.split()
        if word == 'on':
            taken = int(rest[0]) & badge != 0
        elif taken:
            items.append(text)
    return items


def item_terms(text: str, priority: int, numbers: Numbers) -> list[str]:
    """The items of a step: of a call, `Enter`, what the server does for this badge, and `Leave`. This priority is in force before it."""
    word, *rest = text.split()
    if word == 'compute':
        return [f'Compute {rest[0]}']
    if word == 'signal':
        return [f'Signal {numbers.notes[rest[0]]} {rest[1]}']
    if word == 'wait':
        return [f'Wait {numbers.notes[rest[0]]}']
    if word == 'on':
        return [f'On {rest[0]}']
    if word == 'call':
        server = numbers.servers[rest[0]]
        inside = script_terms(called_items(server['script'], int(rest[1])), server['priority'], numbers)
        number = numbers.notes[rest[0]]
        return [f'Enter {number} {server["priority"]}', *inside, f'Leave {number} {priority}']
    return [word.capitalize()]


def script_terms(script: Sequence[str], priority: int, numbers: Numbers) -> list[str]:
    return [term for text in script for term in item_terms(text, priority, numbers)]


def name_term(part: Table) -> str:
    return f'(codes "{part["name"]}")'


def context_term(part: Table, version: int) -> str:
    # round robin has no mode
    default = 'bandwidth' if version == 3 and part['budget'] < part['period'] else 'sporadic'
    word = 'bandwidth_context' if part.get('mode', default) == 'bandwidth' else 'context'
    return f'{word} {name_term(part)} {part["core"]} {part["budget"]} {part["period"]} {part.get("extra_refills", 0)}'


def note_term(part: Table) -> str:
    if part.get('word', 0):
        return f'note_with {name_term(part)} {part["core"]} {part["word"]}'
    return f'note {name_term(part)} {part["core"]}'


def server_term(part: Table) -> str:
    return f'server {name_term(part)} {part["core"]}'


def thread_term(part: Table, numbers: Numbers) -> str:
    script = sequence([applied(term) for term in script_terms(part['script'], part['priority'], numbers)])
    return (
        f'thread {name_term(part)} {numbers.contexts[part["context"]]} {part["priority"]} {part.get("start", 0)} '
        f'{part.get("rounds", 0)} {part.get("deadline", 0)} {script}'
    )


def order_term(part: Table, numbers: Numbers) -> str:
    return f'order {part["at"]} {numbers.contexts[part["context"]]} {part["budget"]} {part["period"]} {part.get("extra_refills", 0)}'


def link_term(part: Table) -> str:
    return f'link {part["maker"]} {part["home"]} {part["delay"]}'


def source_term(part: Table, numbers: Numbers) -> str:
    return f'source {name_term(part)} {numbers.notes[part["note"]]} {part["badge"]}'


def beat_terms(number: int, part: Table) -> list[str]:
    """Those of the source with this number, one for each number of `at` that has a date."""
    places, count = part.get('at', [0]), part.get('count', 0)
    terms = []
    for place, after in enumerate(places):
        if count and count <= place:
            break
        dates = (count - place - 1) // len(places) + 1 if count else 0
        terms.append(f'beat {number} {part.get("start", 0) + after} {part["period"]} {dates}')
    return terms


def chain_term(part: Table, numbers: Numbers) -> str:
    return (
        f'chain {name_term(part)} {numbers.sources[part["source"]]} {numbers.threads[part["thread"]]} {part.get("badges", 0)} '
        f'{part.get("deadline", 0)}'
    )


def field(name: str, terms: Sequence[str]) -> str:
    """A field of the system, a part on a line of its own."""
    if not terms:
        return f'  {name} = [];\n'
    return f'  {name} =\n      ' + '\n      ∷ '.join([*terms, '[]']) + ';\n'


def system_definition(name: str, system: Table, numbers: Numbers) -> str:
    contexts = [context_term(part, system['version']) for part in system.get('context', [])]
    servers = [server_term(part) for part in system.get('server', [])]
    notes = [note_term(part) for part in system.get('note', [])] + servers
    threads = [thread_term(part, numbers) for part in system.get('thread', [])]
    orders = [order_term(part, numbers) for part in system.get('order', [])]
    links = [link_term(part) for part in system.get('link', [])]
    sources = [source_term(part, numbers) for part in system.get('source', [])]
    beats = [term for number, part in enumerate(system.get('source', [])) for term in beat_terms(number, part)]
    chains = [chain_term(part, numbers) for part in system.get('chain', [])]
    return (
        f'abbrev pub {name}_system : System\n{name}_system = record {{\n'
        f'  cores = {system["cores"]};\n  delay = {system["delay"]};\n'
        f'  call = {system.get("call", 1)};\n  min_budget = {system.get("min_budget", 1)};\n'
        + field('contexts', contexts) + field('notes', notes) + field('threads', threads) + field('orders', orders)
        + field('links', links) + f'  servers = {len(servers)};\n' + field('sources', sources) + field('beats', beats)
        + field('chains', chains) + '}\n'
    )


def option_term(date: int | None) -> str:
    return 'None' if date is None else f'(Some {date})'


def dates_of(system: Table, horizon: int) -> Dates:
    """The dates of the threads that are woken, or let into a server, and have to wait for their budgets, by the model of the rules."""
    world = model.World(model.System(system))
    dates: Dates = {}
    for moment in range(horizon + 1):
        for row in world.turn():
            if row.kind in ('wake', 'enter'):
                dates |= {(moment, thread): date for thread, date in world.cores[row.core].releases if thread == row.what[0]}
    return dates


def what_term(word: str, rest: Sequence[str], numbers: Numbers, until: str) -> str:
    """A row's term; `until` is that of a thread that the row wakes."""
    if word in ('release', 'run'):
        return f'row.{word.capitalize()} {numbers.threads[rest[0]]}'
    if word == 'stop':
        if rest[1] == 'call':
            numbers.calling.add(rest[0])
        date = option_term(int(rest[4]) if len(rest) > 3 else None)
        return f'row.Stop {numbers.threads[rest[0]]} why.{CAUSES[rest[1]]} {rest[2]} {date}'
    if word == 'signal':
        return f'row.Signal {numbers.threads[rest[0]]} {numbers.notes[rest[1]]} {rest[2]}'
    if word == 'arrive':
        return f'row.Arrive {numbers.notes[rest[0]]} {rest[1]} {rest[3]}'
    if word == 'wake':
        return f'row.Wake {numbers.threads[rest[0]]} {numbers.notes[rest[1]]} {rest[2]} {until}'
    if word == 'got':
        return f'row.Got {numbers.threads[rest[0]]} {numbers.notes[rest[1]]} {rest[2]}'
    if word == 'hold':
        return f'row.Hold {numbers.notes[rest[0]]} {rest[1]}'
    if word == 'round':
        return f'row.Round {numbers.threads[rest[0]]} {rest[1]} {rest[2]}'
    if word == 'order':
        return f'row.Order {numbers.contexts[rest[0]]}'
    if word == 'interrupt':
        return f'row.Interrupt {numbers.sources[rest[0]]} {numbers.notes[rest[1]]} {rest[2]}'
    # as values, a server's rows are those of a notification
    if word == 'enter':
        entered = f'{numbers.threads[rest[0]]} {numbers.notes[rest[1]]} 1'
        if rest[0] not in numbers.calling:
            return f'row.Got {entered}'
        numbers.calling.discard(rest[0])
        return f'row.Wake {entered} {until}'
    if word == 'leave':
        return f'row.Signal {numbers.threads[rest[0]]} {numbers.notes[rest[1]]} 1'
    raise ValueError(word)


def row_term(line: str, numbers: Numbers, dates: Dates) -> str:
    moment, core, word, *rest = line.split()
    until = option_term(dates.get((int(moment), numbers.threads[rest[0]]))) if word in ('wake', 'enter') else ''
    return f'at {moment} {core} ({what_term(word, rest, numbers, until)})'


def horizon_of(words: Sequence[str]) -> int:
    return int(words[words.index('--horizon') + 1]) if '--horizon' in words else DEFAULT_HORIZON


def run_of(path: pathlib.Path) -> pathlib.Path | None:
    """The run of a system that has rows, or None: the path of its files without their ending."""
    runs = [path.with_suffix('') / run for run in ('schedule', 'both')]
    return next((run for run in runs if run.with_suffix('.words').exists()), None)


def computes(path: pathlib.Path) -> bool:
    """Whether the system has a run with rows that is short enough."""
    run = run_of(path)
    return run is not None and horizon_of(run.with_suffix('.words').read_text().split()) <= LONGEST


def theorem(path: pathlib.Path) -> str:
    """The definition of a system and of its rows, and the theorem."""
    name = path.stem
    system = tomllib.loads(path.read_text())
    numbers = Numbers(system)
    run = run_of(path)
    assert run
    horizon = horizon_of(run.with_suffix('.words').read_text().split())
    lines = [line for line in run.with_suffix('.stdout').read_text().splitlines() if line[:1].isdigit()]
    dates = dates_of(system, horizon)
    rows = '\n    ∷ '.join([*(row_term(line, numbers, dates) for line in lines), '[]'])
    rows = f'    {rows}' if lines else '    []'
    return (
        system_definition(name, system, numbers)
        + f'\nabbrev pub {name}_rows : List Row\n{name}_rows =\n{rows}\n'
        + f'\n{name} : schedule {name}_system {horizon} ≡ {name}_rows\n{name} = refl\n'
    )


def imports(names: Iterable[str], text: str) -> str:
    """Those of the names that stand in the text, but for what stands in quotes."""
    text = re.sub(r'"[^"]*"', '', text)
    return ', '.join(name for name in names if re.search(rf'(?<![.\w]){re.escape(name)}(?!\w)', text))


def systems_of(parts: Sequence[str]) -> list[pathlib.Path]:
    """The files of the systems of these folders, in the order of their names."""
    found = (path for part in parts for path in (DATA / part).glob('*.toml') if computes(path))
    return sorted(found, key=lambda path: path.stem)


def text_of(parts: Sequence[str], theorems: Sequence[str]) -> str:
    """A file of theorems, whose head imports what they need."""
    body = '\n'.join(theorems)
    head = HEAD.format(
        parts=' and '.join(str((DATA / part).relative_to(TOP)) for part in parts),
        prelude='◌≡◌, ' + imports(['List', '[]'], body) + ', ◌∷◌, ' + imports(['Some', 'None', 'refl', 'codes'], body),
        items=imports(ITEMS, body),
        words=imports(WORDS, body),
    )
    return head + '\n' + body


def without_layout(text: str) -> str:
    return ''.join(text.split())


def compare(name: str, parts: Sequence[str], count: Count) -> None:
    """Whether a file has the theorem of each system as it would be written now, and nothing else."""
    kept = without_layout((PROOFS / name).read_text())
    theorems = {path: theorem(path) for path in systems_of(parts)}
    for path, text in theorems.items():
        count.expect(f'{name} has another theorem than that of {path.relative_to(DATA)}, or none', without_layout(text) in kept)
    count.expect(f'{name} is not what --write writes', without_layout(text_of(parts, [*theorems.values()])) == kept)


def main() -> None:
    parser = common.asking(__doc__)
    parser.add_argument('--write', action='store_true', help='writes the files of theorems')
    words = parser.parse_args()
    count = Count()
    for name, parts in FILES.items():
        if words.write:
            (PROOFS / name).write_text(text_of(parts, [theorem(path) for path in systems_of(parts)]))
        compare(name, parts, count)
    count.end()


if __name__ == '__main__':
    main()
