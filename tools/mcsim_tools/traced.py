"""A measured trace in a picture: a strip below each core and below each thread, in the ticks of the
schedule, and what differs."""
from __future__ import annotations

from collections.abc import Sequence
from dataclasses import dataclass

from . import comparing, style
from .comparing import Side, Spell
from .compare import POOR, Beside, fit_said, parting_of
from .drawing import LETTER, Picture, escaped, number
from .measured import Trace
from .reading import Post, Stood
from .scene import Shown
from .style import BETWEEN, CORE, TRACE

# pixels below which spells that follow each other are not drawn singly, and of what differs at least
FINE, LEAST = 0.5, 1.5


class Both(Shown):
    """Keeps what is drawn of a schedule, and its spells up to the horizon, to which a trace is fitted."""

    ran: comparing.Ran

    def stood(self, stood: Stood) -> None:
        self.ran.stood(stood)
        super().stood(stood)

    def posted(self, post: Post) -> None:
        self.ran.posted(post)
        super().posted(post)


@dataclass(frozen=True)
class Traced:
    """A trace that lies beside a schedule, and all its spells in ticks."""

    found: Beside
    trace: Trace

    @property
    def side(self) -> Side:
        return comparing.side_of(self.trace).scaled(self.found.fit.unit, self.found.fit.offset)

    def draw(self, picture: Picture) -> None:
        side = self.side
        picture.traced = side.ends
        for core, top in picture.lanes.trace_core_at.items():
            spells = side.spells.get(core, [])
            picture.bars.append(f'<g class="X" data-core="{core}">{"".join(self.on_core(picture, core, spells, top))}</g>')
            picture.bars.append(''.join(self.differences(picture, core, top)))
        for name, top in picture.lanes.trace_at.items():
            own = [spell for spell in side.spells.get(picture.system.threads[name].core, []) if spell.name == name]
            look, parts = f'traced c{picture.lanes.colour[name]}', []
            for spell in self.seen(picture, own):
                parts.append(picture.bar(look, spell.begin, spell.end, top, TRACE, f'{name} ran in the trace {self.span(spell)}'))
            picture.bars.append(f'<g class="X" data-name="{escaped(name)}">{"".join(parts)}</g>')
        self.part(picture)
        picture.more = self.heading(picture.left + picture.scale.wide)

    def seen(self, picture: Picture, spells: Sequence[Spell]) -> list[Spell]:
        """The spells of the window; what is too fine is drawn as one with the spell before, or is left out."""
        found: list[Spell] = []
        for spell in spells:
            if not picture.is_seen(spell.begin, spell.end):
                continue
            last = found[-1] if found else None
            if last is None or (spell.end - last.begin) * picture.scale.tick >= FINE:
                found.append(spell)
            elif last.name == spell.name:
                found[-1] = last._replace(end=spell.end)
        return found

    @staticmethod
    def span(spell: Spell) -> str:
        return f'from {spell.begin:.1f} to {spell.end:.1f}: {spell.end - spell.begin:.1f} ticks'

    def on_core(self, picture: Picture, core: int, spells: Sequence[Spell], top: int) -> list[str]:
        parts = []
        for spell in self.seen(picture, spells):
            colour = picture.lanes.colour.get(spell.name)
            begin, end = (picture.scale.x(min(max(time, picture.begin), picture.end)) for time in (spell.begin, spell.end))
            if end - begin > LETTER * len(spell.name) + 6:
                at = f'x="{number((begin + end) / 2)}" y="{top + 14}" text-anchor="middle"'
                picture.labels.append(f'<text class="{style.name_look(colour)}" {at}>{escaped(spell.name)}</text>')
            look = 'other' if colour is None else f'on c{colour}'
            parts.append(picture.bar(look, spell.begin, spell.end, top, CORE, f'core {core} in the trace: {spell.name} {self.span(spell)}'))
        return parts

    def differences(self, picture: Picture, core: int, top: int) -> list[str]:
        """Between both strips of a core, where it does not run the same thread in both."""
        found = self.found
        ours, theirs = (side.spells.get(core, []) for side in (found.ours, self.side))
        parts = []
        for begin, end in comparing.differing(ours, theirs, max(found.begin, 0), found.until, found.fit.tolerance):
            if picture.is_seen(begin, end):
                said = f'core {core} does not run the same thread in both from {begin:.1f} to {end:.1f}'
                parts.append(picture.bar('differs', begin, max(end, begin + LEAST / picture.scale.tick), top - BETWEEN + 2, BETWEEN - 4, said))
        return parts

    def part(self, picture: Picture) -> None:
        """A line where both part, over all that its core has."""
        parting = self.found.parting
        if parting is None or not picture.begin <= parting.time <= picture.end or parting.core not in picture.lanes.core_at:
            return
        lanes, x = picture.lanes, number(picture.scale.x(parting.time))
        below = [top for core, top in lanes.core_at.items() if core > parting.core]
        low = (min(below) - 12 if below else lanes.bottom) - 2
        picture.drawn['part'] += 1
        picture.order_lines.append(f'<path class="part" d="M{x} {lanes.core_at[parting.core] - 4}V{low}"><title>{escaped(parting.why)}</title></path>')

    def heading(self, wide: float) -> str:
        """The line above the lanes that says where both part; the first half of it if it is too long."""
        said, parted = fit_said(self.found, self.trace), parting_of(self.found)[0]
        if self.found.fit.matched < POOR:
            parted = f'few runs agree, so --unit or --offset may be wrong; {parted}'
        short = parted if LETTER * len(parted) < wide else parted.partition(': ')[0]
        look = 'small' if self.found.is_same else 'badtext'
        return f'<text class="{look}" x="8" y="50"><title>{escaped(parted)}; {escaped(said)}</title>{escaped(short)}</text>'
