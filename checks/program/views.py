#!/usr/bin/env python3
"""Checks in a headless Chromium that pages of tools/view show what the rows say, also when they are zoomed, searched and clicked.

Each system is drawn as a page and opened. Bars, signs and lines that stand in the page are counted, and the ticks of a thread's bars summed, and held
against the rows, which are read here once more in another way. Then the wheel is turned, the picture is drawn aside, a bar is pointed at, and a
finding and a thread of the table are chosen: what is drawn stays the same, and the page throws nothing. At last a page of tools/live follows its file."""
from __future__ import annotations

import collections
import contextlib
import json
import os
import pathlib
import random
import subprocess
import sys
import tempfile
import time
import tomllib
from collections.abc import Iterator, Sequence
from typing import Any, Optional

sys.dont_write_bytecode = True
sys.path[0] = str(pathlib.Path(__file__).resolve().parents[2])
from checks import common, random_systems, tool
from checks.common import DATA, TOP, Count, Word
from checks.program import browser, large, reading
from checks.program.browser import Browser

HORIZONS = (12, 60, 300)
# the example that is used by keys alone
BY_KEYS = 'overload_is_counted.toml'
SYSTEMS = 12
# all lanes are drawn, with every thing by itself; a lock that is free is held by nobody, as any word that nobody took
COUNTED = """(() => {
  const found = {}, scale = view.wide / view.span;
  const tell = (name, many) => found[name] = (found[name] || 0) + many;
  Object.assign(view.drawer, { crowded: 0, most: Infinity });
  view.isPrinting = true;
  Object.assign(view, { lo: view.schedule.a, hi: view.schedule.a + view.span });
  view.show();
  for (const sign of document.querySelectorAll('#plot g.M use')) tell(sign.getAttribute('href').slice(1).replace(/-s$/, '').replace('free', 'hold'), 1);
  for (const lane of document.querySelectorAll('g.T')) for (const bar of lane.querySelectorAll('rect')) {
    const kind = bar.classList[0];
    tell(kind, 1);
    tell(lane.dataset.name + ' ' + kind, Math.round(bar.getAttribute('width') / scale));
  }
  tell('on', document.querySelectorAll('#plot rect.on').length);
  for (const band of document.querySelectorAll('#plot g.S rect')) tell(band.classList[0], 1);
  view.isPrinting = false;
  return found;
})()"""
IN_LANES = "(() => { const box = $('scroll').getBoundingClientRect(); return [view.left + view.wide / 2, box.top + 12]; })()"
# whether the lane and the time of a finding are in view
IS_SHOWN = """finding => {
  const row = finding.thread < 0 ? view.rows.ofCore(finding.core) : view.rows.of(finding.thread), { scrollTop, clientHeight } = $('scroll');
  const isLane = row && row.top + row.high > scrollTop && row.top < scrollTop + clientHeight;
  return [findings.text(finding), !!isLane, view.lo <= finding.end && finding.end <= view.hi];
}"""
# whether the thread of a finding has bars of its own, and not columns
IS_SINGLE = """finding => {
  const lane = document.querySelector(`#plot .T[data-name="${finding.thread < 0 ? '' : view.schedule.threads[finding.thread].name}"]`);
  return finding.thread < 0 || lane !== null && lane.querySelector('rect[data-i^="s."]') !== null;
}"""
LARGEST_PAGE = 10_000_000
COUNTS = ('rounds', 'greatest', 'missed', 'lost', 'merged')
STANDINGS = ('pending', 'ready', 'running', 'throttled', 'blocked', 'done')
KINDS = ('miss', 'overdue', 'untaken', 'lost', 'never')
TABLE = """Object.fromEntries(view.schedule.threads.map(thread =>
  [thread.name, { ...thread, ...Object.fromEntries(view.schedule.standings.map((standing, place) => [standing, thread.stood[place]])) }]))"""
# slow answers that a page lists at most
LISTED_SLOW = 2_000
# of a chain what a page and mcscheck say
FIGURES = ('chain', 'interrupts', 'answers', 'least', 'greatest', 'total', 'deadline')
CHAINS = """view.schedule.chains.map(chain =>
  [chain.name, chain.interrupts, chain.answered, chain.least, chain.greatest, chain.total, chain.deadline || null, chain.unanswered])"""
SLOW = 'view.schedule.slow.map(([chain, origin, end]) => [view.schedule.chains[chain].name, origin, end])'
DRAWN = 'new Promise(done => requestAnimationFrame(() => requestAnimationFrame(done)))'
PLACE = "[view.lo, view.hi].join()"
A_BAR = """(() => {
  const bars = [...document.querySelectorAll('g.T rect.running')].map(bar => bar.getBoundingClientRect()), low = document.querySelector('#scroll').getBoundingClientRect().bottom;
  const bar = bars.find(bar => bar.width > 3 && bar.bottom < low && bar.left > 176 && bar.right < innerWidth);
  return bar ? [bar.x + bar.width / 2, bar.bottom - 2] : null;
})()"""
TIP = "document.querySelector('#tip').style.display === 'block' ? document.querySelector('#tip').textContent : ''"

Row = list[str]


class Expected:
    """What a page has to have, from all rows of a schedule at once."""

    def __init__(self, system: bytes, text: str, horizon: int) -> None:
        tables = tomllib.loads(system.decode())
        self.threads = {thread['name']: thread for thread in tables['thread']}
        self.with_thread = {thread['context'] for thread in tables['thread']}
        servers = reading.scripts_of(tables)
        items = (item for thread in self.threads.values() for item in reading.items_of(servers, thread['script']))
        self.waited = {item[1] for item in items if item[0] == 'wait'}
        self.firsts = {note['name']: note.get('word', 0) for note in tables.get('note', [])}
        self.rows = [line.split() for line in text.splitlines()]
        self.horizon = horizon
        self.count: collections.Counter[str] = collections.Counter()
        for name in self.threads:
            own = [row for row in self.rows if row[2] in ('run', 'stop', 'release', 'wake', 'enter') and row[3] == name]
            # a thread that runs enters a server and stands as before
            before: list[Row] = [[], *own]
            self.stands(name, [row for row, last in zip(own, before) if row[2] != 'enter' or last[2] == 'stop' and last[4] == 'call'])
            self.rounds(name)
        self.signals()
        self.servers()
        self.count['on'] = self.count['running']

    def standing(self, row: Row, after: Optional[Row]) -> Optional[str]:
        if row[2] in ('run', 'release'):
            return {'run': 'running', 'release': 'ready'}[row[2]]
        if row[2] in ('wake', 'enter'):
            # what follows the wake says what it was; where nothing does, the page knows more than these rows
            return 'unknown' if after is None else 'throttled' if after[2] == 'release' else 'ready'
        return 'throttled' if len(row) == 8 else {'wait': 'blocked', 'call': 'blocked', 'done': None}.get(row[4], 'ready')

    def stands(self, name: str, own: Sequence[Row]) -> None:
        """How a thread stands, as (begin, end, standing); the last one goes on beyond the horizon, which is a moment too."""
        ends = [int(row[0]) for row in own[1:]] + [self.horizon + 1]
        kinds = [self.standing(row, after) for row, after in zip(own, [*own[1:], None])]
        self.segments = [(int(row[0]), end, kind) for row, end, kind in zip(own, ends, kinds) if int(row[0]) < end]
        for begin, end, kind in self.segments:
            length = min(end, self.horizon) - begin
            if kind and length:
                self.count[kind] += 1
                self.count[f'{name} {kind}'] += length

    def first_ready(self, begun: int) -> Optional[int]:
        """The first tick from a round's beginning on in which the thread is ready or runs; none follows the horizon."""
        moments = (max(begin, begun) for begin, end, kind in self.segments if end > begun and kind in ('ready', 'running'))
        return next((moment for moment in moments if moment < self.horizon), None)

    def rounds(self, name: str) -> None:
        """Activations, deadlines and ends of a thread's rounds, and of the one that is open at the horizon."""
        script = self.threads[name]['script']
        note = script[0].split()[1] if script[0].startswith('wait ') else None
        begun, activated, first_set, is_done = self.segments[0][0] if self.segments else None, None, None, False
        if note and self.is_heard(note, self.firsts[note]):
            first_set = 0
        word = self.firsts.get(note or '', 0)
        for moment, _, kind, *rest in self.rows:
            if kind == 'hold' and rest[0] == note:
                word = int(rest[1])
                first_set = int(moment) if first_set is None and self.is_heard(note, word) else first_set
            elif kind == 'got' and rest[1] == note:
                activated = first_set if rest[0] == name and activated is None and reading.has_work(script, word) else activated
                first_set, word = None, 0
            elif kind == 'wake' and rest[0] == name and note and activated is None and reading.has_work(script, int(rest[2])):
                activated = int(moment)
            elif kind == 'round' and rest[0] == name and begun is not None:
                self.round(name, activated if note else self.first_ready(begun), int(moment))
                begun, activated = int(moment), None
            elif kind == 'stop' and rest[:2] == [name, 'done']:
                is_done = True
        if is_done:
            return
        if note:
            # a word that is held is no round's
            self.round(name, activated, None)
        elif begun is not None:
            self.round(name, self.first_ready(begun), None)

    def is_heard(self, note: str, word: int) -> bool:
        """Whether a word of a notification leaves something to do to a thread that waits for it first."""
        scripts = [thread['script'] for thread in self.threads.values()]
        return any(script[0].split() == ['wait', note] and reading.has_work(script, word) for script in scripts)

    def round(self, name: str, activated: Optional[int], end: Optional[int]) -> None:
        if activated is None:
            return
        deadline = self.threads[name].get('deadline', 0)
        due, until = activated + deadline, self.horizon if end is None else end
        is_bad = bool(deadline) and (due <= until if end is None else due < until)
        self.count['up'] += 1
        self.count['down'] += bool(deadline) and due <= self.horizon
        self.count['late'] += is_bad and due < until
        if end is not None:
            self.count['endlate' if is_bad else 'end'] += 1

    def signals(self) -> None:
        words = collections.Counter(self.firsts)
        for row in self.rows:
            if row[2] == 'signal':
                self.count['made'] += 1
            elif row[2] == 'interrupt' and row[4] in self.waited:
                self.count['irq'] += 1
            elif row[2] == 'hold':
                if row[3] in self.waited:
                    self.count['lost' if words[row[3]] == int(row[4]) else 'hold'] += 1
                words[row[3]] = int(row[4])
            elif row[2] == 'got':
                words[row[4]] = 0
            elif row[2] == 'order' and row[3] in self.with_thread:
                self.count['order'] += 1


    def servers(self) -> None:
        """Who is inside a server, and who waited until it was let in, or waits still. Nothing is drawn of what takes no time."""
        inside: dict[str, int] = {}
        waits: dict[str, int] = {}
        for moment, _, kind, *rest in self.rows:
            if kind == 'enter':
                inside[rest[1]] = int(moment)
                self.count['waits'] += rest[0] in waits and waits.pop(rest[0]) < int(moment)
            elif kind == 'leave':
                self.count['inside'] += inside.pop(rest[1]) < int(moment)
            elif kind == 'stop' and rest[1] == 'call':
                waits[rest[0]] = int(moment)
        self.count['inside'] += sum(begin < self.horizon for begin in inside.values())
        self.count['waits'] += sum(begin < self.horizon for begin in waits.values())


def is_apart(kind: str) -> bool:
    """Whether a kind is counted by itself. At the end of the rows the page knows whether a thread that was woken is ready or throttled, and they do not."""
    return kind.split()[-1] not in ('ready', 'throttled', 'unknown', 'resp', 'queued', 'late') or kind == 'late'


def differences(found: dict[str, int], wanted: dict[str, int]) -> list[str]:
    kinds = {*found, *wanted}
    apart = ((kind, found.get(kind, 0), wanted.get(kind, 0)) for kind in sorted(filter(is_apart, kinds)))
    said = [f'{kind}: {one} in the page, {two} in the rows' for kind, one, two in apart if one != two]
    for stem in {kind.rpartition(' ')[0] for kind in kinds}:
        both = [[counts.get(f'{stem} {kind}'.strip(), 0) for kind in ('ready', 'throttled', 'unknown')] for counts in (found, wanted)]
        # what is not known from the rows is one of both in the page
        more = [one - two for one, two in zip(*both)]
        if sum(more) or min(more[:2]) < 0 or both[0][2]:
            said.append(f'{stem} ready, throttled, unknown: {both[0]} in the page, {both[1]} in the rows')
    return said


def hands(page: Browser, horizon: int) -> list[str]:
    """What goes wrong where the page is used: zoomed, drawn aside, pointed at, and chosen from."""
    found, before = [], page.value(COUNTED)
    if (place := page.value(A_BAR)) is not None:
        page.mouse('mouseMoved', *place)
        page.value(DRAWN)
        if not page.value(TIP):
            found.append('a bar that is pointed at tells nothing')
    all_, (x, y) = page.value(PLACE), page.value(IN_LANES)
    page.wheel(x, y, -600)
    page.value(DRAWN)
    near = page.value(PLACE)
    for kind, by, buttons in (('mousePressed', 0, 1), ('mouseMoved', 80, 1), ('mouseReleased', 80, 0)):
        page.mouse(kind, x + by, y, button='left', clickCount=1, buttons=buttons)
    page.value(DRAWN)
    if horizon > 60 and not all_ != near != page.value(PLACE):
        found.append('the wheel does not zoom, or the hand does not move')
    if page.value(COUNTED) != before:
        found.append('zooming changes what is drawn')
    found += chosen(page)
    page.value("document.querySelector('#threads tbody tr').dispatchEvent(new Event('mouseover', { bubbles: true }))")
    if page.value("document.querySelectorAll('.lane.hi').length") < 1:
        found.append('a thread of the table has no lane')
    return found + page.faults()


def chosen(page: Browser, most: int = 12) -> list[str]:
    """What goes wrong where findings are clicked: each brings its lane and its time, whatever is in view before."""
    found = []
    for place in range(min(most, page.value("document.querySelectorAll('#list .finding').length"))):
        page.value(f"document.querySelectorAll('#list .finding')[{place}].click()")
        page.value(DRAWN)
        said, is_lane, is_time = page.value(f'({IS_SHOWN})(findings.list[{place}])')
        if not is_lane:
            found.append(f'{said}: a click does not bring its lane')
        if not is_time:
            found.append(f'{said}: a click does not bring its time')
    return found


# the lanes in order, those that are pinned, and the cores that are folded
LANES = "[...[view.rows, view.pins].map(rows => rows.list.filter(row => row.kind === 'thread').length), view.lanes.folded.size, view.hi - view.lo]"


def by_keys(page: Browser) -> list[str]:
    """What goes wrong where a page is used by keys alone: each changes what it should."""
    page.value('view.all(), view.show()')
    found, start = [], page.value(LANES)

    def press(*keys: str) -> list[float]:
        for key in keys:
            text = {'text': key} if len(key) == 1 else {'text': '\r'} if key == 'Enter' else {}
            for kind in ('keyDown', 'keyUp'):
                page.call('Input.dispatchKeyEvent', type=kind, key=key, **text)
        page.value(DRAWN)
        lanes: list[float] = page.value(LANES)
        return lanes

    def focus(selector: str) -> None:
        page.value(f"document.querySelector('{selector}').focus()")

    if not press('+')[3] < start[3] or press('0') != start:
        found.append('+ and 0 do not zoom')
    focus('#main .head[data-thread]')
    if press('Enter', 'Enter')[:2] != [start[0] - 1, 1]:
        found.append('the menu of a lane does not pin it')
    focus('#top .head[data-thread]')
    if press('Enter', 'Enter') != start:
        found.append('the menu of a lane does not free it')
    focus('#main .head[data-thread]')
    if press('Enter', 'ArrowDown', 'ArrowDown', 'ArrowDown', 'Enter')[0] != start[0] - 1:
        found.append('the menu of a lane does not remove it')
    name = page.value("view.schedule.threads[0].name")
    if press('/', *name, 'Enter') != start:
        found.append('the search does not bring a lane back')
    page.value('document.activeElement.blur()')
    focus('#main .head[data-core]')
    if press('Enter', 'Enter')[:3] != [start[0] - 1, 0, 1]:
        found.append('the menu of a core does not fold it')
    if press('n') and page.value('findings.list.length') and page.value("document.querySelectorAll('#list [aria-current=true]').length") != 1:
        found.append('n does not choose a finding')
    return found + page.faults()


def told(page: Browser, checker: pathlib.Path, system: pathlib.Path, horizon: int) -> list[str]:
    """How the table and the findings of a page differ from what mcscheck says of the same run."""
    ran = common.run([checker, system, '--horizon', str(horizon), '--format', 'json'])
    lines = [json.loads(line) for line in ran.stdout.decode().splitlines()]
    threads = {line['thread']: line for line in lines if line['kind'] == 'thread'}
    findings = [[line['kind'], line['moment'], line.get('thread') or line.get('note')] for line in lines if line['kind'] in KINDS]
    rows: dict[str, dict[str, Any]] = page.value(TABLE)
    said = []
    for name, line in threads.items():
        wanted = {key: line[key] for key in COUNTS if key in line}
        wanted |= {key: line[f'ticks_{key}'] for key in STANDINGS}
        # the page does not tell apart for what a thread waits
        wanted['blocked'] += line['ticks_server']
        shown = {key: rows[name][key] for key in wanted}
        if shown != wanted:
            said.append(f'the table has {shown} of {name}, and mcscheck {wanted}')
    if sorted(page.value('findings.list.map(one => [one.kind, one.end, one.name])')) != sorted(findings):
        said.append('the findings are not those of mcscheck')
    return said + told_of_chains(page, lines)


def told_of_chains(page: Browser, lines: Sequence[dict[str, Any]]) -> list[str]:
    """How the chains of a page differ from what mcscheck says of them."""
    left = {line['chain']: line['origin'] for line in lines if line['kind'] == 'unanswered'}
    wanted = [[*map(line.get, FIGURES), left.get(line['chain'])] for line in lines if line['kind'] == 'chain']
    slow = sorted([line['chain'], line['origin'], line['moment']] for line in lines if line['kind'] == 'slow')
    said = []
    if (shown := page.value(CHAINS)) != wanted:
        said.append(f'the page has the chains {shown}, and mcscheck {wanted}')
    if len(slow) < LISTED_SLOW and sorted(page.value(SLOW)) != slow:
        said.append('the slow answers are not those of mcscheck')
    return said


# what the live page says: how many bars show a thread that runs, and its fault
LIVE = "[document.querySelectorAll('#plot g.T rect.running').length, $('fault').hidden ? '' : $('fault').textContent.split('\\n')[0]]"
# so long a machine with much to do may take, which else takes half a second
FOLLOWS = 30


@contextlib.contextmanager
def live_page(system: pathlib.Path, program: pathlib.Path, *more: Word) -> Iterator[str]:
    """The address of the live page of a system."""
    command: list[Word] = [sys.executable, TOP / 'tools' / 'live', system, '--program', program, *more]
    with subprocess.Popen(command, stdout=subprocess.PIPE, text=True) as running:
        assert running.stdout
        try:
            yield running.stdout.readline().strip()
        finally:
            running.terminate()


def try_live(page: Browser, program: pathlib.Path, folder: pathlib.Path, count: Count) -> None:
    """A file is saved with another budget, with a fault, and as it was: the page follows each time."""
    file, text = folder / 'live.toml', (DATA / 'examples' / 'depletes_and_refills.toml').read_text()
    key = text.splitlines().index('priority = 5') + 1
    # 5 ticks with 2 in 5 are run in three pieces, with 5 in 5 in one
    saved = [(text, [3, '']), (text.replace('budget = 2', 'budget = 5'), [1, '']),
             (text.replace('priority = 5', 'priority = 256'), [1, f'{file}:{key}: out of range at thread 1 priority']), (text, [3, ''])]
    file.write_text(text)
    with live_page(file, program, '--horizon', '12') as address:
        page.open(address)
        page.value('ready')
        for text, wanted in saved:
            file.write_text(text)
            until = time.monotonic() + FOLLOWS
            while (found := page.value(LIVE)) != wanted and time.monotonic() < until:
                time.sleep(0.05)
            count.expect(f'the live page shows {found} where it should show {wanted}', found == wanted)
            if wanted[1]:
                said = page.value("$('fault').textContent")
                count.expect(f'the live page does not explain a fault: {said}', 'priority = 256' in said and '0 to 255' in said)
    count.expect(f'the live page throws {page.faults()}', not page.faults())


# what of a window is drawn singly: how often each kind of bar and sign, beyond the detail too
IN_WINDOW = """(() => {
  view.window(150000, 150900);
  view.show();
  const found = {}, tell = name => { found[name] = (found[name] ?? 0) + 1; };
  for (const bar of document.querySelectorAll('#plot g.T rect, #plot g.C rect')) tell(bar.classList[0] + ' ' + bar.closest('g').dataset.name);
  for (const sign of document.querySelectorAll('#plot g.M use')) tell(sign.getAttribute('href') + ' ' + sign.closest('g').dataset.name);
  return found;
})()"""


def try_part(trial: Trial) -> None:
    """A live page shows a window beyond its detail as a page that holds the whole run does."""
    page, file, horizon = trial.page, trial.folder / 'parts.toml', 200_000
    file.write_text(large.LONG)
    drawn = trial.drawn(file, horizon)
    trial.count.expect(f'{file.name}: {drawn.stderr!r}', not drawn.status)
    page.open((trial.folder / 'page.html').as_uri())
    page.value('ready')
    wanted = page.value(IN_WINDOW)
    with live_page(file, trial.program, '--horizon', str(horizon), '--most', '1000', '--limit', '600') as address:
        page.open(address)
        page.value('ready')
        page.value(IN_WINDOW)
        until = time.monotonic() + FOLLOWS
        # what moves the window puts off what the page asks for
        while page.value('view.source === view.schedule') and time.monotonic() < until:
            time.sleep(0.05)
        found = page.value(IN_WINDOW)
        is_blunt = page.value("!$('blunt').hidden")
        trial.count.expect(f'beyond its detail a live page shows {found}, and not {wanted}; {is_blunt}', found == wanted and not is_blunt)
    trial.count.expect(f'the live page throws {page.faults()}', not page.faults())


# an interrupt each 20 ticks from 10 on; that of 10 is answered at 26, that of 30 at 41
PACKETS = '''version = 3
cores = 2
delay = 3
context = [
    { name = "driver", core = 0, budget = 10, period = 20, extra_refills = 4 },
    { name = "filter", core = 1, budget = 12, period = 20, extra_refills = 4 },
    { name = "busy", core = 1, budget = 5, period = 30, extra_refills = 4 },
]
note = [{ name = "irq", core = 0 }, { name = "data", core = 1 }]
source = [{ name = "nic", note = "irq", badge = 1, period = 20, start = 10 }]
thread = [
    { name = "Driver", context = "driver", priority = 50, script = ["wait irq", "compute 2", "signal data 1"] },
    { name = "Filter", context = "filter", priority = 50, script = ["wait data", "compute 5"] },
    { name = "Busy", context = "busy", priority = 60, start = 16, script = ["compute 5"] },
]
chain = [{ name = "packet", source = "nic", thread = "Filter", deadline = 12 }]
'''
FIRST_BAR = "(() => { const box = [...document.querySelectorAll('g.T[data-name=Driver] rect.running')][1].getBoundingClientRect(); return [box.x + 3, box.y + 5]; })()"
CHAIN_WORDS = ('chain packet: 10 to 26, latency 16, deadline 12: slow by 4', '10 interrupt of nic to irq; Driver signals at 13: running 3',
               '13 signal of Driver to data, arrives at 16; Filter ends its round at 26: running 5, ready 5')


def try_chain(trial: Trial) -> None:
    """The way of a chain is drawn where a piece of it is pointed at, and where its answer is chosen from the list of those that are slow."""
    page, file, wrong = trial.page, trial.folder / 'packets.toml', []
    file.write_text(PACKETS)
    drawn = trial.drawn(file, 40)
    trial.count.expect(f'{file.name}: {drawn.stderr!r}', not drawn.status)
    page.open((trial.folder / 'page.html').as_uri())
    page.value('ready')
    page.mouse('mouseMoved', *page.value(FIRST_BAR))
    page.value(DRAWN)
    tip, paths = page.value(TIP), page.value("document.querySelectorAll('#ways path').length")
    if not all(line in tip for line in CHAIN_WORDS) or paths < 5:
        wrong.append(f'a bar on a way says {tip!r}, with {paths} lines')
    page.mouse('mouseMoved', 5, 5)
    page.value(DRAWN)
    if page.value("document.querySelectorAll('#ways path').length"):
        wrong.append('a way stays where nothing is pointed at')
    row = page.value("[...document.querySelectorAll('#chaintable tbody tr')].map(row => [...row.cells].map(cell => cell.textContent))")
    if row != [['packet', 'nic', 'Filter', '2', '1', '16', '16', '16', '12', '1', '–']]:
        wrong.append(f'the list of chains is {row}')
    page.value("view.lanes.remove(0), view.arrange(), document.querySelector('#slow .finding').click()")
    page.value(DRAWN)
    if page.value("[document.querySelectorAll('#ways path').length > 4, view.lanes.has(0)]") != [True, True]:
        wrong.append('a slow answer that is chosen has no way, or a thread on it no lane')
    trial.count.expect(f'{file.name}: {wrong}', not wrong + page.faults())


class Trial:
    """Systems that are drawn and looked at."""

    def __init__(self, program: pathlib.Path, page: Browser, folder: pathlib.Path) -> None:
        self.program, self.page, self.folder, self.count, self.counted = program, page, folder, Count(), 0
        self.checker = common.checker_of(program)

    def drawn(self, system: pathlib.Path, horizon: int) -> common.Ran:
        words: list[Word] = [system, '--horizon', str(horizon), '-o', self.folder / 'page.html']
        return tool.run('view', *words, env={**os.environ, 'MCSIM': str(self.program)})

    def look(self, system: pathlib.Path, horizon: int) -> None:
        text = common.run([self.program, system, '--horizon', str(horizon)])
        if text.status:
            # a random system that is refused
            return
        drawn = self.drawn(system, horizon)
        found = [drawn.stderr.decode().strip()] if drawn.status else self.seen(system, text.stdout.decode(), horizon)
        shown = system.read_text() if found and self.folder in system.parents else ''
        self.count.expect(f'{system.name} to {horizon}: {found}\n{shown}', not found)

    def seen(self, system: pathlib.Path, text: str, horizon: int) -> list[str]:
        self.page.open((self.folder / 'page.html').as_uri())
        self.page.value('ready')
        counted: dict[str, Any] = self.page.value(COUNTED)
        self.counted += sum(many for kind, many in counted.items() if ' ' not in kind)
        if system.name == BY_KEYS:
            wrong = by_keys(self.page)
            self.count.expect(f'{system.name} by keys: {wrong}', not wrong)
            self.page.open((self.folder / 'page.html').as_uri())
            self.page.value('ready')
        found = differences(counted, Expected(system.read_bytes(), text, horizon).count) + hands(self.page, horizon)
        return found + (told(self.page, self.checker, system, horizon) if self.checker else [])

    def large(self, system: pathlib.Path, horizon: int) -> list[str]:
        page = self.page
        page.open((self.folder / 'page.html').as_uri())
        page.value('ready')
        found, size = [], (self.folder / 'page.html').stat().st_size
        if size > LARGEST_PAGE:
            found.append(f'the page has {size} bytes')
        many = page.value('findings.list.length')
        for place in sorted({0, 1, many // 3, many // 2, many - 1}):
            page.value(f'findings.go({place})')
            page.value(DRAWN)
            said, is_lane, is_time = page.value(f'({IS_SHOWN})(findings.list[{place}])')
            if not (is_lane and is_time and page.value(f'({IS_SINGLE})(findings.list[{place}])')):
                found.append(f'{said}: it is not shown singly, in its lane')
        # the last thread of the file, by its name
        name = page.value('view.schedule.threads.at(-1).name')
        page.value(f"$('find').value = '{name}', $('find').oninput(), $('find').onkeydown(new KeyboardEvent('keydown', {{ key: 'Enter' }}))")
        if not page.value(f"!!document.querySelector('#plot .lane.hi[data-name=\"{name}\"]')"):
            found.append(f'the search does not bring the lane of {name}')
        return found + page.faults() + (told(page, self.checker, system, horizon) if self.checker else [])


def try_large(trial: Trial) -> None:
    """Two large systems: each page tells what mcscheck tells, and each finding that is clicked is seen singly, with its lane."""
    for name, system, horizon in large.systems():
        file = trial.folder / name
        file.write_text(system)
        drawn = trial.drawn(file, horizon)
        found = [drawn.stderr.decode().strip()] if drawn.status else trial.large(file, horizon)
        trial.count.expect(f'{name} to {horizon}: {found}', not found)


def main() -> None:
    words = common.asking_random(__doc__, SYSTEMS).parse_args()
    program = common.built_program(words.program)
    if not browser.found():
        count = Count()
        count.skip('pages in a browser, since no Chromium is installed')
        count.end()
    rng = random.Random(words.seed)
    with tempfile.TemporaryDirectory() as folder, Browser(1400, 1000) as page:
        trial = Trial(program, page, pathlib.Path(folder))
        for file in sorted((DATA / 'examples').glob('*.toml')):
            trial.look(file, 60)
        for number in range(words.systems):
            file = trial.folder / f'random_{number}.toml'
            file.write_text(random_systems.random_text(rng))
            trial.look(file, rng.choice(HORIZONS))
        try_large(trial)
        try_chain(trial)
        try_live(page, program, trial.folder, trial.count)
        try_part(trial)
    print(f'{trial.counted} bars and signs were counted')
    trial.count.end()


if __name__ == '__main__':
    main()
