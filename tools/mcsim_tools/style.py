"""How pictures look: colours, in light and in dark, and signs.

Threads have the colours of Okabe and Ito without their vermilion; a red stands for what is missed, overdue or lost alone, and no sign rests on
colour alone. The dark is chosen by `prefers-color-scheme` in the style of the SVG itself, without variables, so that renderers which know none
draw it too."""
from __future__ import annotations

import enum
from collections.abc import Iterable
from typing import Optional

BAR, HEAD, LANE, CORE, PLOT, SERVER = 14, 10, 33, 20, 22, 24
# of a measured trace: the strip of a thread, what lies between both strips of a core, and a line above
TRACE, BETWEEN, LINE = 10, 7, 15
# of each thread of a core in turn: the colour in the light, in the dark, and of a name on it
COLOURS = (
    ('#0072B2', '#1f77bd', '#fff'), ('#E69F00', '#E69F00', '#000'), ('#009E73', '#0fa57c', '#000'), ('#CC79A7', '#CC79A7', '#000'),
    ('#56B4E9', '#8ccdf2', '#000'), ('#F0E442', '#F0E442', '#000'),
)
YELLOW = 5
# what is drawn over a colour, so that more threads than there are colours look different: nothing, and lines of these paths in a square of 6 pixels
LINES = ('', 'M-1 1L1 -1M0 6L6 0M5 7L7 5', 'M-1 5L1 7M0 0L6 6M5 -1L7 1', 'M0 3H6')
LOOKS_OF_THREADS = len(COLOURS) * len(LINES)
RED, RED_IN_DARK = '#D5280B', '#ff4f38'

LIGHT = """
text{font:11px system-ui,-apple-system,"Segoe UI","DejaVu Sans",Arial,Helvetica,sans-serif;fill:#1f2328}
.small{fill:#59636e}.h{font-size:14px;font-weight:600}.b{font-weight:600}
.bg{fill:#fff}.lane{fill:#f6f8fa}.core{fill:#e7eaee}.grid{stroke:#d8dde3;stroke-width:1}
.ready{fill-opacity:.38}.hl{stroke:#6e7781;stroke-width:1.4}.other{fill:#b6bec7}.ql{stroke:#fff;stroke-width:1.6;stroke-opacity:.75;fill:none}
.resp{fill:#57606a}.queued{fill:#57606a;fill-opacity:.45}.ink{fill:#1f2328;stroke:#1f2328}.soft{fill:#fff;stroke:#1f2328}
.join{fill:none;stroke:#57606a;stroke-width:1;stroke-opacity:.55}
.late{fill:@RED@}.bad{fill:@RED@;stroke:@RED@}.badtext{fill:@RED@;font-weight:600}
.order{fill:#fff;stroke:#1f2328;stroke-width:1.4}.orderline{stroke:#1f2328;stroke-dasharray:2 3;stroke-width:1}
.come1{fill:#8c959f;fill-opacity:.55}.come2{fill:#8c959f;fill-opacity:.34}.come3{fill:#8c959f;fill-opacity:.2}.use{fill-opacity:.85}.waits{fill-opacity:.45}
text.nq{fill:#000;stroke:#fff;stroke-width:3;paint-order:stroke}
"""
DARK = """
text{fill:#e6edf3}.small{fill:#9aa4af}.bg{fill:#12161b}.lane{fill:#1a2027}.core{fill:#252d36}.grid{stroke:#303841}
.ink{fill:#e6edf3;stroke:#e6edf3}.resp,.queued{fill:#b1bac4}.soft,.order{fill:#12161b;stroke:#e6edf3}.join{stroke:#b1bac4}.orderline{stroke:#e6edf3}
.hl{stroke:#9aa4af}.other{fill:#4b5663}.ql{stroke:#12161b}text.nq{fill:#fff;stroke:#12161b}.late{fill:@RED@}.bad{fill:@RED@;stroke:@RED@}.badtext{fill:@RED@}
"""
# of a measured trace, in the light and in the dark
TRACED = '.differs{fill:@RED@}.part{stroke:@RED@;stroke-width:1.4;stroke-dasharray:4 3}'
# after the colours of threads: what is hatched or grey whoever stands so
AFTER = ''.join(f'.c{number}{{fill:url(#q{number})}}' for number in range(len(COLOURS), LOOKS_OF_THREADS)) + '.throttled{fill:url(#hatch)}.blocked{fill:#8c959f}'
# yellow is faint on white
YELLOW_EDGE = f'rect.c{YELLOW}{{stroke:#9a9000;stroke-width:.8;vector-effect:non-scaling-stroke}}'

# A sign stands at x, and at y the base line of its lane: the bar is above it, the line of a response below. Crowded lanes have the signs whose
# names end in `-s`, which leave the bar free.
SIGNS = f"""<pattern id="hatch0" width="5" height="5" patternUnits="userSpaceOnUse" patternTransform="rotate(45)"><path class="hl" d="M0 0V5"/></pattern>
<pattern id="hatch" width="5" height="5" patternUnits="userSpaceOnUse" patternTransform="rotate(45)"><path class="hl" d="M0 0V5"/></pattern>
<path id="up" d="M0 0V-{BAR + HEAD - 2}M-3 -{BAR + HEAD - 6}L0 -{BAR + HEAD}L3 -{BAR + HEAD - 6}Z"/>
<path id="up-s" stroke="none" d="M-2.6 -{BAR + 1}L0 -{BAR + 6.5}L2.6 -{BAR + 1}Z"/>
<path id="down" d="M0 0V-{BAR + HEAD}M-3 -{BAR + 6}L0 -{BAR}L3 -{BAR + 6}Z"/>
<path id="down-s" d="M-2.4 -{BAR + 6}L0 -{BAR + 1}L2.4 -{BAR + 6}Z"/>
<path id="hold" d="M-3.2 -{BAR + 3.5}L0 -{BAR + 9}L3.2 -{BAR + 3.5}Z"/>
<path id="hold-s" d="M-2.2 -{BAR + 5.5}L0 -{BAR + 9.5}L2.2 -{BAR + 5.5}Z" stroke-width=".8"/>
<circle id="free" cy="-{BAR + 5.5}" r="2.6"/>
<path id="lost" d="M-3.5 -{BAR + 9}L3.5 -{BAR + 2}M-3.5 -{BAR + 2}L3.5 -{BAR + 9}" stroke-width="2"/>
<path id="lost-s" d="M-2.5 -{BAR + 8}L2.5 -{BAR + 3}M-2.5 -{BAR + 3}L2.5 -{BAR + 8}" stroke-width="1.5"/>
<circle id="made" cy="-{BAR}" r="2.1"/><circle id="end" cy="4" r="2.4"/><circle id="end-s" cy="4" r="1.6" stroke="none"/>
<path id="endlate" d="M-3.6 4L0 .4L3.6 4L0 7.6Z"/><path id="endlate-s" d="M-2.6 4L0 1.4L2.6 4L0 6.6Z"/>
<path id="irq" d="M-3 -{BAR + HEAD}H3M0 -{BAR + HEAD}V-{BAR + 2}" stroke-width="1.6"/>
<path id="order" d="M0 -{BAR + 9}L4.5 -{BAR + 3}L0 -{BAR - 3}L-4.5 -{BAR + 3}Z"/>"""
# which signs crowded lanes have in another form, and which they leave out where nothing is wrong
SMALL = ('up', 'down', 'hold', 'lost', 'end', 'endlate')
LEFT_OUT = ('made', 'interrupt', 'down')
# signs that look like another
LOOKS = {'interrupt': 'irq'}
# signs that stand above a bar, or reach over it
ABOVE = ('up', 'down', 'hold', 'free', 'lost')


class Theme(enum.Enum):
    AUTO, LIGHT, DARK = 'auto', 'light', 'dark'


def patterns(used: Iterable[int]) -> str:
    """The colours with lines over them that are used."""
    plain = len(COLOURS)
    return ''.join(f'<pattern id="q{number}" width="6" height="6" patternUnits="userSpaceOnUse"><rect width="6" height="6" class="c{number % plain}"/>'
                   f'<path class="ql" d="{LINES[number // plain]}"/></pattern>' for number in sorted(set(used)) if number >= plain)


def name_look(colour: Optional[int]) -> str:
    """The class of a name that stands on a bar."""
    return 'small' if colour is None else f'n{colour}' if colour < len(COLOURS) else 'nq'


def colours(place: int) -> str:
    return ''.join(f'.c{number}{{fill:{colour[place]}}}text.n{number}{{fill:{colour[2]}}}' for number, colour in enumerate(COLOURS))


def style(theme: Theme, has_trace: bool = False) -> str:
    """The style sheet of a picture."""
    traced = TRACED if has_trace else ''
    light = (LIGHT + traced).replace('@RED@', RED) + colours(0) + YELLOW_EDGE
    dark = (DARK + traced).replace('@RED@', RED_IN_DARK) + colours(1)
    if theme is Theme.DARK:
        return light + dark + AFTER
    return light + (f'@media (prefers-color-scheme:dark){{{dark}}}' if theme is Theme.AUTO else '') + AFTER
