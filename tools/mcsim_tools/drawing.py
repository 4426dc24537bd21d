"""The drawer of pictures: a scene, or the columns of a long window, as an SVG. A page draws by its own scripts, with the same style and signs."""
from __future__ import annotations

import collections
import html
from collections.abc import Collection
from dataclasses import dataclass
from typing import Optional

from . import legend, style
from .lanes import Lanes
from .locks import locks_of
from .reading import BLOCKED, HELD, LOST, MERGED, READY, RUNNING, STANDINGS, THROTTLED, WOKE, Post, Round, Stood
from .scale import TICKS, Scale, Unit
from .scene import LOSSES, MISSED, ROUNDS, Columns, Held, Scene, Stay, others_on
from .style import BAR, CORE, HEAD, PLOT, TRACE, Theme
from .system import System, Thread
from .tally import NEVER, OVERDUE, Finding

LEFT, RIGHT = 176, 64
# pixels of a tick at most, of a picture at least
WIDEST_TICK, NARROWEST = 34.0, 320.0
# more lines between lanes hide the lanes
JOINS = 160
# where the signs above a bar, more than a few, stand closer on average, they are small and leave the bar free
CROWDED, FEW = 18.0, 4
LETTER = 6.6
HEIGHT = {RUNNING: float(BAR), READY: 7.0, THROTTLED: 8.0, BLOCKED: 1.6}
SAID_OF = {WOKE: 'wakes {}', HELD: 'is held', MERGED: 'is merged into the word', LOST: 'is lost: its bits were there already'}
STOPPED_BY = {'yield': 'after its yield', 'spent': 'its budget is spent', 'wake': 'woken before its budget is back'}


def escaped(text: object) -> str:
    return html.escape(str(text), quote=True)


def number(value: float) -> str:
    """A number of an SVG, to a hundredth of a pixel."""
    return f'{value:.2f}'.rstrip('0').rstrip('.')


@dataclass(frozen=True)
class Frame:
    """How a picture is asked for."""

    width: int = 1200
    theme: Theme = Theme.AUTO
    unit: Unit = TICKS


@dataclass
class Mark:
    """A sign in a lane, whose form waits for how crowded the lane is."""

    sign: str
    look: str
    moment: int
    base: int
    said: str


class Picture:
    """A drawing of a window. `heading` and `under` stand above it; `end` is that of the whole schedule."""

    def __init__(self, system: System, lanes: Lanes, begin: int, end: int, frame: Frame, heading: str, under: str) -> None:
        self.system, self.lanes, self.begin, self.end, self.frame, self.heading, self.under = system, lanes, begin, end, frame, heading, under
        span = max(1, end - begin)
        wide = max(NARROWEST, min(WIDEST_TICK * span, frame.width))
        self.unit = frame.unit
        self.left = max(LEFT, *(int(28 + LETTER * .92 * len(self.label(thread))) for thread in lanes.shown), 0)
        self.scale = Scale(begin, end, self.left, wide)
        # bars by lane, and lines between lanes
        self.bars: list[str] = []
        self.joins: list[str] = []
        self.marks: dict[str, list[Mark]] = collections.defaultdict(list)
        self.order_lines: list[str] = []
        self.names: list[str] = []
        self.labels: list[str] = []
        # what the legend explains
        self.drawn: collections.Counter[str] = collections.Counter()
        self.column_width: Optional[int] = None

    # ---- parts

    def text(self, ticks: int) -> str:
        """A time or a length in the unit of the picture."""
        return self.unit.text(ticks)

    def span(self, begin: int, end: int) -> str:
        return f'{self.text(begin)} to {self.text(end)}: {self.text(end - begin)}'

    def label(self, thread: Thread) -> str:
        """What stands below a thread's name."""
        unit, name = self.unit, f' {self.unit.name}' * (self.unit.tick is not None)
        said = f'prio {thread.priority}, {unit.short(thread.context.budget)}/{unit.short(thread.context.period)}{name}'
        return said + (f', due {unit.short(thread.deadline)}{name}' if thread.deadline else '')

    def bar(self, kind: str, begin: float, end: float, top: float, height: float, said: str = '', more: str = '') -> str:
        """A rectangle from one moment to another, within the window."""
        self.drawn[kind.split()[0]] += 1
        begin, end = max(begin, self.begin), min(end, self.end)
        title = f'<title>{escaped(said)}</title></rect>' if said else '</rect>'
        wide = max((end - begin) * self.scale.tick, .05)
        return f'<rect class="{kind}" x="{number(self.scale.x(begin))}" y="{number(top)}" width="{number(wide)}" height="{number(height)}"{more}>{title}'

    def is_seen(self, begin: float, end: float) -> bool:
        return begin < self.end and end > self.begin and begin < end

    def mark(self, thread: str, sign: str, look: str, moment: int, said: str) -> None:
        if self.begin <= moment <= self.end:
            self.marks[thread].append(Mark(sign, look, moment, self.lanes.base[thread], said))

    # ---- single things

    def draw_scene(self, scene: Scene, findings: list[Finding]) -> None:
        own: dict[str, list[str]] = {thread.name: [] for thread in self.lanes.shown}
        on: dict[int, list[str]] = {core: [] for core in self.lanes.core_at}
        for stood in scene.stood:
            if stood.thread.name in own and self.is_seen(stood.begin, stood.end):
                own[stood.thread.name].append(self.standing(stood))
            if stood.standing == RUNNING and stood.thread.core in on and self.is_seen(stood.begin, stood.end):
                on[stood.thread.core].append(self.on_core(stood))
        for one in scene.rounds:
            if one.thread.name in own:
                own[one.thread.name] += self.round(one)
        self.locks = locks_of((post.note, post.maker) for post in scene.posts)
        for post in scene.posts:
            self.post(post)
        for sent in scene.sent:
            maker = sent.signal.maker
            if maker and maker.name in own:
                self.mark(maker.name, 'made', 'ink', sent.signal.made, f'signal of {maker.name} at {self.text(sent.signal.made)} to {sent.note}, still under way')
        self.bars += [f'<g class="C" data-core="{core}">{"".join(parts)}</g>' for core, parts in on.items()]
        self.bars += [f'<g class="T" data-name="{escaped(name)}">{"".join(parts)}</g>' for name, parts in own.items()]
        self.bars += [self.stay(one) for one in scene.stays if one.server in self.lanes.server_at and self.is_seen(one.begin, one.end)]
        self.refills(scene.held)
        self.orders(scene)
        self.margin(findings)

    def standing(self, stood: Stood) -> str:
        name, standing = stood.thread.name, stood.standing
        said = f'{name} {STANDINGS[standing]} {self.span(stood.begin, stood.end)}'
        if standing == THROTTLED:
            said += ', ' + STOPPED_BY.get(stood.why, f'after a stop by {stood.why}')
        elif standing == BLOCKED and stood.why == 'call':
            said += ', its call waits for a server'
            self.drawn['call'] += 1
        colour = f' c{self.lanes.colour[name]}' if standing in (RUNNING, READY) else ''
        height = HEIGHT[standing]
        return self.bar(STANDINGS[standing] + colour, stood.begin, stood.end, self.lanes.base[name] - height, height, said)

    def on_core(self, stood: Stood) -> str:
        name, core = stood.thread.name, stood.thread.core
        colour = self.lanes.colour.get(name)
        top = self.lanes.core_at[core]
        begin, end = max(stood.begin, self.begin), min(stood.end, self.end)
        if (end - begin) * self.scale.tick > LETTER * len(name) + 6:
            middle = (self.scale.x(begin) + self.scale.x(end)) / 2
            self.labels.append(f'<text class="{style.name_look(colour)}" x="{number(middle)}" y="{top + 14}" text-anchor="middle">{escaped(name)}</text>')
        said = f'core {core}: {name} {self.span(stood.begin, stood.end)}'
        look = 'other' if colour is None else f'on c{colour}'
        return self.bar(look, begin, end, top, CORE, said, f' data-n="{escaped(name)}"')

    def stay(self, one: Stay) -> str:
        """Who is inside a server, and in a strip below who waits for it."""
        name, colour, top = one.thread.name, self.lanes.colour.get(one.thread.name), self.lanes.server_at[one.server]
        if one.is_inside and (min(one.end, self.end) - max(one.begin, self.begin)) * self.scale.tick > LETTER * len(name) + 6:
            middle = (self.scale.x(max(one.begin, self.begin)) + self.scale.x(min(one.end, self.end))) / 2
            self.labels.append(f'<text class="{style.name_look(colour)}" x="{number(middle)}" y="{top + 11}" text-anchor="middle">{escaped(name)}</text>')
        said = f'server {one.server}: {name} {"is inside" if one.is_inside else "waits for it"} {self.span(one.begin, one.end)}'
        look = ('inside' if one.is_inside else 'waits') + (' other' if colour is None else f' c{colour}')
        return self.bar(look, one.begin, one.end, top if one.is_inside else top + BAR, BAR if one.is_inside else 5, said)

    def round(self, one: Round) -> list[str]:
        """The line of a response from the activation on, with what is beyond the deadline in red, and the signs at its ends."""
        thread, base = one.thread, self.lanes.base[one.thread.name]
        is_open, is_bad = one.number == 0, one.is_missed or one.is_overdue
        what = f'{thread.name}: a round that is open' if is_open else f'{thread.name} round {one.number}'
        said = f'{what} since {self.text(one.activated)}' if is_open else f'{what}: {self.text(one.activated)} to {self.text(one.end)}, response {self.text(one.response)}'
        said += f', deadline {self.text(thread.deadline)}' if thread.deadline else ''
        parts = []
        if one.begun > one.activated and self.is_seen(one.activated, one.begun):
            parts.append(self.bar('queued', one.activated, one.begun, base + 3.3, 1.4, f'{said}; it was queued until {self.text(one.begun)}'))
        begin = max(one.activated, one.begun)
        if self.is_seen(begin, one.end):
            parts.append(self.bar('resp', begin, one.end, base + 3.3, 1.4, said))
        if is_bad and self.is_seen(one.due, one.end):
            parts.append(self.bar('late', one.due, one.end, base + 2, 4, f'{said}: {"overdue" if is_open else "missed"} by {self.text(one.end - one.due)}'))
        self.mark(thread.name, 'up', 'ink', one.activated, f'{thread.name}: activation at {self.text(one.activated)}')
        if thread.deadline and (not is_open or one.due <= self.end):
            due = f'{thread.name}: deadline at {self.text(one.due)} of the activation at {self.text(one.activated)}' + (', missed' if is_bad else '')
            self.mark(thread.name, 'down', 'bad' if is_bad else 'ink', one.due, due)
        if not is_open:
            said += f': missed by {self.text(one.end - one.due)}' if is_bad else ''
            self.mark(thread.name, 'endlate' if is_bad else 'end', 'bad' if is_bad else 'ink', one.end, said)
        return parts

    def post(self, post: Post) -> None:
        maker, thread, base = post.maker, post.thread, self.lanes.base
        what = f'interrupt of {post.source}' if post.source else f'signal of {maker.name if maker else f"core {post.core}"}'
        said = f'{what} at {self.text(post.made)} to {post.note}, badge {post.badge}'
        said += f', arrives at {self.text(post.arrived)}' * (post.arrived > post.made) + ': ' + SAID_OF[post.outcome].format(thread.name if thread else 'nobody')
        if maker and maker.name in base:
            self.mark(maker.name, 'made', 'ink', post.made, said)
        if not thread or thread.name not in base:
            return
        if post.source:
            self.mark(thread.name, 'interrupt', 'bad' if post.outcome == LOST else 'ink', post.arrived, said)
        if post.outcome in (HELD, MERGED):
            self.mark(thread.name, 'free' if post.note in self.locks else 'hold', 'soft', post.arrived, said)
        elif post.outcome == LOST:
            self.mark(thread.name, 'lost', 'bad', post.arrived, said)
        if maker and maker.name in base and maker is not thread and post.made >= self.begin and post.arrived <= self.end:
            self.joins.append(self.join(post, base[maker.name], base[thread.name], said))

    def join(self, post: Post, maker: int, thread: int, said: str) -> str:
        """A line from the sign of the making to that of the arrival."""
        top, low = maker - BAR, thread - BAR - (HEAD - 1 if thread > maker else 2)
        bend = (low - top) / 2
        begin, end = number(self.scale.x(post.made)), number(self.scale.x(post.arrived))
        path = f'M{begin} {number(top)}C{begin} {number(top + bend)} {end} {number(low - bend)} {end} {number(low)}'
        return f'<path class="join" d="{path}"><title>{escaped(said)}</title></path>'

    def orders(self, scene: Scene) -> None:
        heights = {}
        for context, moment in scene.orders:
            thread = self.system.thread_of.get(context.name)
            if not thread or thread.name not in self.lanes.base or not self.begin <= moment <= self.end:
                continue
            core = context.core
            heights[core] = max(self.lanes.base[one.name] for one in self.lanes.on(core)) - self.lanes.core_at[core] + 6
            self.mark(thread.name, 'order', 'order', moment, f'order for context {context.name} at {self.text(moment)}')
            self.order_lines.append(f'<use class="orderline" href="#ol{core}" x="{number(self.scale.x(moment))}" y="{self.lanes.core_at[core]}"/>')
        self.order_forms = ''.join(f'<path id="ol{core}" d="M0 0V{height}"/>' for core, height in heights.items())

    # more lines above the lanes, and from when to when there is a trace
    more = ''
    traced = (0.0, 0.0)
    order_forms = ''
    locks: Collection[str] = ()

    def margin(self, findings: list[Finding]) -> None:
        """Words beside the lanes of threads that are in default at the end."""
        for finding in findings:
            if finding.kind in (OVERDUE, NEVER) and finding.thread and finding.thread.name in self.lanes.base and finding.end <= self.end:
                word = 'overdue' if finding.kind == OVERDUE else 'never'
                self.drawn[finding.kind] += 1
                at = f'x="{number(self.left + self.scale.wide + 6)}" y="{self.lanes.base[finding.thread.name] + 3}"'
                title = f'<title>{escaped(finding.name)}: {escaped(finding.said(self.unit))}</title>'
                self.names.append(f'<text class="badtext" {at}>{word}{title}</text>')

    # ---- what contexts hold

    def greatest_budget(self, thread: Thread) -> int:
        return max([thread.context.budget, *(order.budget for order in self.system.orders[thread.context.name])])

    def refills(self, held: list[Held]) -> None:
        """Below what can be used now, above it in greys what comes back later, in order of dates. The sum is the budget."""
        paths: dict[str, list[list[str]]] = {}
        for one in held:
            if one.thread.name in self.lanes.plot_at:
                self.holding(one, paths.setdefault(one.thread.name, [[], [], [], []]))
        for name, own in paths.items():
            thread = self.system.threads[name]
            said = f'{name}: what context {thread.context.name} holds: in colour what it may use now, in grey what comes back, the first below'
            looks = (f'use c{self.lanes.colour[name]}', 'come1', 'come2', 'come3')
            parts = ''.join(f'<path class="{look}" d="{"".join(path)}"/>' for look, path in zip(looks, own) if path)
            self.bars.append(f'<g class="H" data-name="{escaped(name)}"><title>{escaped(said)}</title>{parts}</g>')
            self.drawn['plot'] += 1

    def holding(self, one: Held, own: list[list[str]]) -> None:
        unit, base = PLOT / self.greatest_budget(one.thread), self.lanes.plot_at[one.thread.name] + PLOT
        cuts = [one.begin, *(date for date, _ in one.refills if one.begin < date < one.end), one.end]
        for cut, after in zip(cuts, cuts[1:]):
            begin, end = max(cut, self.begin), min(after, self.end)
            if begin >= end:
                continue
            now = sum(amount for date, amount in one.refills if date <= cut)
            # while it runs, what is used comes back a period later
            left, right = (now - (begin - one.begin), now - (end - one.begin)) if one.is_used else (now, now)
            x, until = number(self.scale.x(begin)), number(self.scale.x(end))
            own[0].append(f'M{x} {number(base)}V{number(base - left * unit)}L{until} {number(base - right * unit)}V{number(base)}Z')
            if one.is_used:
                own[3].append(f'M{x} {number(base - left * unit)}V{number(base - now * unit)}H{until}V{number(base - right * unit)}Z')
            level = now
            for place, (_, amount) in enumerate(refill for refill in one.refills if refill[0] > cut):
                top = number(base - (level + amount) * unit)
                own[1 + place % 2].append(f'M{x} {number(base - level * unit)}V{top}H{until}V{number(base - level * unit)}Z')
                level += amount

    # ---- columns

    def draw_columns(self, columns: Columns, overdue: list[Round], findings: list[Finding]) -> None:
        """Each column shows shares of time; what is missed or lost is counted in it, and nothing is left out."""
        self.column_width = columns.width
        many = min(columns.many, -(-(self.end - self.begin) // columns.width))
        stacks = Stacks(self, columns, many)
        self.each = f'{self.text(columns.width)}' + ' ticks' * (self.unit.tick is None)
        said = f'its share of each column of {self.each}'
        for core, top in self.lanes.core_at.items():
            stack = stacks.begin(top + CORE, CORE)
            parts = (f'<path class="on c{self.lanes.colour[thread.name]}" d="{stack.add(columns.cells[thread.name][RUNNING])}">'
                     f'<title>core {core}: {escaped(thread.name)}, {said}</title></path>' for thread in self.lanes.on(core))
            others = f'<path class="other" d="{stack.add(self.others(core, columns))}"><title>core {core}: threads without a lane, {said}</title></path>'
            self.bars.append(f'<g class="C" data-core="{core}">{"".join(parts)}{others}</g>')
        for thread in self.lanes.shown:
            self.bars.append(f'<g class="T" data-name="{escaped(thread.name)}">{self.thread_columns(thread, columns, stacks, many)}{self.beyond(thread, overdue)}</g>')
        self.margin(findings)

    def others(self, core: int, columns: Columns) -> list[int]:
        """The ticks of a core, column by column, in which a thread without a lane ran."""
        names = [name for name in columns.cells if name not in self.lanes.base and (name == others_on(core) or self.core_of(name) == core)]
        found = [sum(cells) for cells in zip(*(columns.cells[name][RUNNING] for name in names))]
        self.drawn['other'] += any(found)
        return found

    def core_of(self, name: str) -> Optional[int]:
        return self.system.threads[name].core if name in self.system.threads else None

    def thread_columns(self, thread: Thread, columns: Columns, stacks: Stacks, many: int) -> str:
        base, cells, colour = self.lanes.base[thread.name], columns.cells[thread.name], self.lanes.colour[thread.name]
        stack, parts = stacks.begin(base, BAR), []
        for standing, look in ((RUNNING, f'running c{colour}'), (READY, f'ready c{colour}'), (THROTTLED, 'throttled')):
            if path := stack.add(cells[standing]):
                self.drawn[STANDINGS[standing]] += 1
                title = f'<title>{escaped(thread.name)}: {STANDINGS[standing]}, {self.each} a column</title>'
                parts.append(f'<path class="{look}" d="{path}">{title}</path>')
        for k in range(many):
            begin = self.begin + k * columns.width
            end = min(self.end, begin + columns.width)
            where = f'{thread.name} {self.text(begin)} to {self.text(end)}'
            if cells[MISSED][k]:
                parts.append(self.bar('late', begin, end, base + 1.5, 5, f'{where}: {cells[MISSED][k]:,} of {cells[ROUNDS][k]:,} rounds missed'))
            if cells[LOSSES][k]:
                parts.append(self.bar('late', begin, end, base - BAR - 6, 3, f'{where}: {cells[LOSSES][k]:,} signals lost'))
        return ''.join(parts)

    def beyond(self, thread: Thread, overdue: list[Round]) -> str:
        """Where a thread is beyond the deadline of a round that has not ended."""
        said = f'{thread.name} is overdue'
        return ''.join(self.bar('late', one.due, one.end, self.lanes.base[thread.name] + 1.5, 5, said) for one in overdue
                       if one.thread is thread and self.is_seen(one.due, one.end))

    # ---- the whole

    def background(self) -> str:
        parts = [self.bar('core', self.begin, self.end, top, CORE) for top in self.lanes.core_at.values()]
        # a strip is as long as its trace
        parts += [self.bar('core', *self.traced, top, CORE) for top in self.lanes.trace_core_at.values()]
        parts += [self.bar('core', self.begin, self.end, top, BAR + 5) for top in self.lanes.server_at.values()]
        parts += [self.bar('lane', *self.traced, top, TRACE) for top in self.lanes.trace_at.values()]
        for thread in self.lanes.shown:
            top, name = self.lanes.base[thread.name] - BAR - HEAD, f' data-name="{escaped(thread.name)}"'
            parts.append(self.bar('lane', self.begin, self.end, top, HEAD + BAR + 8, more=name))
            if thread.name in self.lanes.plot_at:
                parts.append(self.bar('lane', self.begin, self.end, self.lanes.plot_at[thread.name], PLOT))
        return ''.join(parts)

    def lane_names(self) -> str:
        parts = [f'<text class="b" x="8" y="{top + 14}">core {core}</text>' for core, top in self.lanes.core_at.items()]
        parts += [f'<text x="17" y="{top + 14}">in the trace</text>' for top in self.lanes.trace_core_at.values()]
        parts += [f'<text class="small" x="{self.left - 8}" y="{top + 9}" text-anchor="end">trace</text>' for top in self.lanes.trace_at.values()]
        parts += [f'<text x="17" y="{top + 12}">server {escaped(server)}</text>' for server, top in self.lanes.server_at.items()]
        for thread in self.lanes.shown:
            base, colour = self.lanes.base[thread.name], self.lanes.colour[thread.name]
            name = thread.name if len(thread.name) <= 22 else thread.name[:21] + '…'
            said = self.label(thread)
            parts.append(f'<rect class="c{colour}" x="8" y="{base - BAR - 5}" width="4" height="{BAR + 9}"/>'
                         f'<text x="17" y="{base - 6}">{escaped(name)}<title>{escaped(thread.name)}: priority {thread.priority}, context {escaped(thread.context.name)}'
                         f' with {self.text(thread.context.budget)} in {self.text(thread.context.period)}</title></text><text class="small" x="17" y="{base + 5}">{said}</text>')
            if thread.name in self.lanes.plot_at:
                budget = self.greatest_budget(thread)
                parts.append(f'<text class="small" x="{self.left - 8}" y="{self.lanes.plot_at[thread.name] + 10}" text-anchor="end">budget {self.unit.short(budget)} {self.unit.name}</text>')
        return ''.join(parts)

    def axis(self) -> str:
        parts = []
        for moment in self.scale.moments():
            x, text = number(self.scale.x(moment)), self.text(moment)
            parts.append(f'<path class="grid" d="M{x} {self.lanes.top - 6}V{self.lanes.bottom}"/>')
            parts += [f'<text class="small" x="{x}" y="{y}" text-anchor="middle">{text}</text>' for y in (self.lanes.top - 10, self.lanes.bottom + 12)]
        return ''.join(parts)

    def is_crowded(self, marks: list[Mark]) -> bool:
        above = sum(mark.sign in style.ABOVE for mark in marks)
        return above > FEW and self.scale.wide < CROWDED * above

    def signs(self) -> str:
        """The signs by lane."""
        parts = []
        for name, marks in self.marks.items():
            is_crowded = self.is_crowded(marks)
            uses = []
            for mark in marks:
                sign, is_bad = mark.sign, mark.look == 'bad'
                if is_crowded and sign in style.LEFT_OUT and not is_bad:
                    self.drawn['left out'] += sign == 'down'
                    continue
                self.drawn[sign] += 1
                small = '-s' if is_crowded and sign in style.SMALL else ''
                x, title = number(self.scale.x(mark.moment)), f'<title>{escaped(mark.said)}</title>'
                form = style.LOOKS.get(sign, sign)
                uses.append(f'<use class="{mark.look}" href="#{form}{small}" x="{x}" y="{mark.base}">{title}</use>')
            parts.append(f'<g class="M" data-name="{escaped(name)}">{"".join(uses)}</g>')
        return ''.join(parts)

    def svg(self) -> str:
        joins = self.joins if len(self.joins) <= JOINS else []
        self.drawn['join'] = len(joins)
        back, signs = self.background(), self.signs()
        explained, high = legend.legend(self.drawn, self.column_width, self.lanes.bottom + 30, self.left + self.scale.wide + RIGHT)
        wide, tall = number(self.left + self.scale.wide + RIGHT), self.lanes.bottom + 30 + high
        clip = f'<rect x="{self.left - 6}" y="{self.lanes.top - 8}" width="{number(self.scale.wide + 12)}" height="{self.lanes.bottom - self.lanes.top + 12}"/>'
        return '\n'.join([
            f'<svg xmlns="http://www.w3.org/2000/svg" width="{wide}" height="{tall}" viewBox="0 0 {wide} {tall}" role="img">',
            f'<title>{escaped(self.heading)}: {escaped(self.under)}</title>',
            f'<style>{style.style(self.frame.theme, bool(self.lanes.trace_core_at))}</style>',
            f'<defs>{style.SIGNS}{style.patterns(self.lanes.colour.values())}{self.order_forms}<clipPath id="plot">{clip}</clipPath></defs>',
            f'<rect class="bg" width="100%" height="100%"/><text class="h" x="8" y="20">{escaped(self.heading)}</text>',
            f'<text class="small" x="8" y="35">{escaped(self.under)}</text>{self.more}',
            f'<g clip-path="url(#plot)"><g>{back}</g></g><g id="axis">{self.axis()}</g>',
            f'<g clip-path="url(#plot)"><g>{"".join(self.bars)}</g><g id="joins">{"".join(joins)}</g>',
            f'<g id="marks">{"".join(self.order_lines)}{signs}</g><g id="labels">{"".join(self.labels)}</g></g>',
            f'<g id="names">{self.lane_names()}{"".join(self.names)}</g><g id="legend">{explained}</g></svg>',
            ''])


class Stack:
    """Shares that stand on each other, column by column; `edges` are the places of the columns, `ticks` how many each has."""

    def __init__(self, edges: list[str], ticks: list[int], base: float, height: float) -> None:
        self.edges, self.ticks, self.base, self.height = edges, ticks, base, height
        self.below = [0] * len(ticks)

    def add(self, cells: list[int]) -> str:
        """A path round these shares, where there are some; stretches of columns that are alike are one."""
        parts, k, many = [], 0, len(self.ticks)
        while k < many:
            if not cells[k]:
                k += 1
                continue
            first = k
            while k < many and cells[k]:
                k += 1
            parts.append(self.outline(cells, first, k))
        self.below = [one + two for one, two in zip(self.below, cells)]
        return ''.join(parts)

    def y(self, ticks: int, k: int) -> str:
        return f'{self.base - self.height * ticks / self.ticks[k]:.1f}'.removesuffix('.0')

    def outline(self, cells: list[int], first: int, after: int) -> str:
        """The tops from left to right, then the bottoms back."""
        tops = self.steps([(k, self.y(self.below[k] + cells[k], k)) for k in range(first, after)])
        lows = [(k, self.y(self.below[k], k)) for k in range(first, after)]
        back, level = [], None
        for k, y in reversed(lows):
            if y != level:
                back.append(f'H{self.edges[k + 1]}' * (level is not None) + f'V{y}')
                level = y
        return f'M{self.edges[first]} {lows[0][1]}{tops}H{self.edges[after]}{"".join(back)}H{self.edges[first]}Z'

    def steps(self, tops: list[tuple[int, str]]) -> str:
        parts, level = [], None
        for k, y in tops:
            if y != level:
                parts.append(f'H{self.edges[k]}' * (level is not None) + f'V{y}')
                level = y
        return ''.join(parts)


class Stacks:
    """Stacks over the columns of a picture."""

    def __init__(self, picture: Picture, columns: Columns, many: int) -> None:
        moments = [picture.begin + k * columns.width for k in range(many)] + [picture.end]
        self.edges = [number(picture.scale.x(moment)) for moment in moments]
        self.ticks = [end - begin for begin, end in zip(moments, moments[1:])]

    def begin(self, base: float, height: float) -> Stack:
        return Stack(self.edges, self.ticks, base, height)
