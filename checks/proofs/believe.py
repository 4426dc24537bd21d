#!/usr/bin/env python3
"""Checks that docs/BELIEVE.md has all definitions on which its contracts rest, and no others.

--write writes them there. Each part of the page begins with clauses of some calls (ROOTS). The
script follows the names that these clauses cite to definitions in specs/, from there to the types
and traits of src/, and so on to the last one. A definition stands after all that it cites. Types
are tables, and each call has its head. The script writes what stands between two marks; all else
is written by hand.

It fails in these cases:
- a clause does not cite what it did
- a definition is cited and not on the page, or on the page and not cited
- nothing says what a definition or a word of the library is
- the first part is too long to be read in two hours
- the page differs from what --write writes"""
from __future__ import annotations

import pathlib
import sys
from collections.abc import Collection, Iterable, Iterator
from typing import NamedTuple

sys.dont_write_bytecode = True
sys.path[0] = str(pathlib.Path(__file__).resolve().parents[2])
from checks import common
from checks.common import TOP, Count
from checks.proofs import believe_lines
from checks.proofs.believe_calls import Clause, Root, begin_with
from checks.proofs.believe_definitions import Definition, all_behind, definition_of
from checks.proofs.believe_names import Place, Word
from checks.proofs.believe_order import in_order
from checks.proofs.believe_page import comment_of, is_plain, is_repeated, lines_of, mark, places_in, region_in, region_of
from checks.proofs.believe_types import is_type

PAGE = TOP / 'docs' / 'BELIEVE.md'
# lines of the first part that an engineer reads in two hours, at 400 an hour
MOST_LINES = 800

WHOLE = 'mcs_team/src/whole.rt'
TO_SINK = 'mcs_team/src/to_sink.rt'
REPORTING = 'mcs_team/src/reporting.rt'
SERVER_LAWS = 'mcs_server_laws/src/lib.rt'
CHECK = 'mcs_check/src/run.rt'
WHY = 'mcs_explain/src/why.rt'
FOREVER = 'mcs_check_forever/src/run.rt'
RUN = 'mcs_cli/src/streams.rt'
WATCH = 'mcs_chain/src/watch.rt'
TALLIES = 'mcs_chain/src/tallies.rt'


def blamed(file: str, call: str) -> tuple[Clause, ...]:
    """The clauses of a call that say when it blames its source or its target."""
    return Clause(file, call, 'source_blamed', ()), Clause(file, call, 'target_blamed', ())


# a further part is a line here, and its marks on the page
ROOTS = (
    Root('schedule', (
        Clause(WHOLE, 'simulate', 'rows', ('schedule',)),
        Clause(WHOLE, 'simulate', 'reports', ('reports_of', 'schedule')),
        Clause(WHOLE, 'simulate_alone', 'rows', ('schedule',)),
        Clause(WHOLE, 'simulate_alone', 'reports', ('reports_of', 'schedule')),
        Clause(TO_SINK, 'simulate_to', 'given', ('Given', 'schedule')),
        Clause(TO_SINK, 'simulate_to', 'reports', ('reports_of', 'schedule')),
        Clause(TO_SINK, 'schedule_to', 'given', ('Given', 'schedule')),
        Clause(REPORTING, 'report', 'reports', ('reports_of', 'schedule')),
    ), has_invariants=False),
    Root('systems', (
        Clause(TO_SINK, 'simulate_to', 'fault', ('IsFlowFault',)),
        Clause(TO_SINK, 'schedule_to', 'fault', ('IsFlowFault',)),
    )),
    Root('headline', (
        Clause(WHOLE, 'probe', 'views', ('views_before',)),
        Clause(WHOLE, 'probe', 'budgets', ('BudgetsStand',)),
        Clause(WHOLE, 'simulate', 'headline', ('Headline',)),
        Clause(WHOLE, 'simulate_alone', 'headline', ('Headline',)),
        Clause(TO_SINK, 'simulate_to', 'headline', ('Headline',)),
        Clause(TO_SINK, 'schedule_to', 'headline', ('Headline',)),
        Clause(REPORTING, 'report', 'headline', ('Headline',)),
    )),
    Root('laws', (
        Clause(WHOLE, 'simulate', 'demand', ('AreWithinDemand',)),
        Clause(WHOLE, 'simulate', 'bandwidth', ('RunsWithinBandwidth',)),
        Clause(WHOLE, 'simulate_alone', 'demand', ('AreWithinDemand',)),
        Clause(WHOLE, 'simulate_alone', 'bandwidth', ('RunsWithinBandwidth',)),
        Clause(TO_SINK, 'simulate_to', 'demand', ('AreWithinDemand',)),
        Clause(TO_SINK, 'simulate_to', 'bandwidth', ('RunsWithinBandwidth',)),
        Clause(TO_SINK, 'schedule_to', 'bandwidth', ('RunsWithinBandwidth',)),
        Clause(REPORTING, 'report', 'demand', ('AreWithinDemand',)),
    )),
    Root('servers', (
        Clause(SERVER_LAWS, 'interrupts_are_posted', 'turns', ('TurnsTellDates',)),
        Clause(SERVER_LAWS, 'interrupts_are_posted', 'schedules', ('SchedulesTellDates',)),
        Clause(SERVER_LAWS, 'interrupts_are_posted', 'posted', ('InterruptsArePosted',)),
        Clause(SERVER_LAWS, 'servers_exclude', 'one_holder', ('ScriptsNest', 'ServersExclude')),
        Clause(SERVER_LAWS, 'servers_exclude', 'no_circle', ('ScriptsNest', 'NoneEntersTwice')),
        Clause(SERVER_LAWS, 'ready_holders_are_not_overtaken', 'runs_above', ('AreCeilings', 'RunsAbove')),
        Clause(SERVER_LAWS, 'ready_holders_are_not_overtaken', 'none_calls', ('AreCeilings', 'NoneCalls')),
        Clause(SERVER_LAWS, 'ready_holders_are_not_overtaken', 'none_overtakes', ('AreCeilings', 'NoneOvertakes')),
        Clause(SERVER_LAWS, 'ready_holders_are_not_overtaken', 'calls_wait', ('AreCeilings', 'CallsWait')),
    )),
    Root('bytes', (Clause(RUN, 'run', 'run', ('IsRun',)), *blamed(RUN, 'run'))),
    Root('accepted', (
        Clause(SERVER_LAWS, 'accepted_scripts_nest', 'nest', ('AcceptedScriptsNest',)),
        Clause(SERVER_LAWS, 'accepted_scripts_nest', 'exclude', ('AcceptedServersExclude',)),
        Clause(SERVER_LAWS, 'accepted_scripts_nest', 'priorities', ('AcceptedHavePriorities',)),
    ), about='files and the clock'),
    # (its one clause has no name)
    Root('verdict', (Clause('mcs_verdict/src/all.rt', 'find_all', '', ('findings',)),)),
    # (most clauses of a method have no name)
    Root('chains', (
        Clause(WATCH, 'Watch::new', '', ('watch_of',)),
        Clause(WATCH, 'Watch::see', '', ('watch_of',)),
        Clause(WATCH, 'Watch::due', '', ('all_due',)),
        Clause(WATCH, 'Watch::slow', '', ('all_slow_many',)),
        Clause(WATCH, 'Watch::unanswered', '', ('all_unanswered',)),
        Clause(TALLIES, 'Tallies::new', '', ('tallies_of',)),
        Clause(TALLIES, 'Tallies::see', '', ('tallies_of',)),
        Clause(TALLIES, 'Tallies::figures', '', ('all_figures',)),
    )),
    Root('check', (Clause(CHECK, 'check', 'check', ('IsCheck',)), *blamed(CHECK, 'check'))),
    Root('why', (Clause(WHY, 'explain', 'explained', ('IsExplained',)), *blamed(WHY, 'explain'))),
    Root('forever', (
        Clause(FOREVER, 'foretell', 'foretold', ('IsForetelling',)),
        *blamed(FOREVER, 'foretell'),
    )),
)


class Part(NamedTuple):
    """A part of the page: its definitions, its words of the library, and its text."""

    root: Root
    found: dict[Place, Definition]
    words: set[Word]
    region: str


def part_of(root: Root, seen: dict[Place, Definition], said: set[Word], count: Count) -> Part:
    """A part, after parts with these definitions and these words."""
    begins = [begin_with(clause, count) for clause in root.clauses]
    begin = {place for places, _ in begins for place in places}
    if root.has_invariants:
        begin |= {place for definition in seen.values() for place in definition.holds}
    behind = all_behind(begin, count, root.has_invariants)
    found = {place: definition for place, definition in behind.items() if place not in seen}
    pieces = in_order(found)
    is_whole = sum(map(len, pieces)) == len(found)
    count.expect(f'definitions of the part {root.mark} cite each other in a circle', is_whole)
    cited = [*(words for _, words in begins), *(definition.words for definition in found.values())]
    words = {word for group in cited for word in group} - said
    return Part(root, found, words, region_of(root, pieces, words, {*seen, *found}))


def check_lines(definitions: Iterable[Definition], count: Count) -> None:
    """Checks that each definition has a line, or a name that says enough. A type always has a line."""
    for definition in definitions:
        why = f'nothing says what {definition.place} is: SAYS of checks/proofs/believe_lines.py has no line for it'
        needs_none = not is_type(definition) and (is_plain(definition.place) or is_repeated(definition))
        count.expect(why, bool(comment_of(definition)) or needs_none)


def check_length(part: Part, count: Count) -> None:
    """Checks that the first part can be read at once."""
    much = sum(map(lines_of, part.found.values()))
    count.expect(f'the part {part.root.mark} has {much} lines, more than {MOST_LINES}', much <= MOST_LINES)


def compare(page: str, part: Part, count: Count) -> None:
    """Checks that the page has the text of a part between its marks."""
    mark, kept = part.root.mark, region_in(page, part.root)
    if kept is None:
        count.expect(f'{PAGE.name} has no marks for the part {mark}', False)
        return
    wanted, there = part.found.keys(), places_in(kept)
    for place in sorted(wanted - there):
        count.expect(f'{place} is cited, and not in the part {mark} of {PAGE.name}', False)
    for place in sorted(there - wanted):
        count.expect(f'{place} is in the part {mark} of {PAGE.name}, and not cited', False)
    count.expect(f'the part {mark} of {PAGE.name} is not what checks/proofs/believe.py --write writes', kept == part.region)


def check_tables(seen: Collection[Place], words: set[Word], count: Count) -> None:
    """Checks that each line for a definition or a word is of use, and that no word lacks one."""
    lines = {Place(file, name) for file, names in believe_lines.SAYS.items() for name in names}
    plain = {Place(file, name) for file, names in believe_lines.PLAIN.items() for name in names}
    spare = sorted((lines | plain) - set(seen))
    count.expect(f'lines for definitions that nothing cites: {", ".join(map(str, spare))}', not spare)
    unseen = sorted(believe_lines.HEADS.keys() - {place.file for place in seen})
    count.expect(f'lines for files that nothing cites: {", ".join(unseen)}', not unseen)
    count.expect(f'lines that repeat a name, which PLAIN could list: {", ".join(map(str, repeated()))}', not repeated())
    told = {Word(name, module) for module, names in believe_lines.WORDS.items() for name in names}
    for word in sorted(words - told):
        count.expect(f'WORDS of checks/proofs/believe_lines.py does not say what {word} is', False)
    idle = sorted(told - words)
    count.expect(f'words that nothing uses: {", ".join(map(str, idle))}', not idle)


def repeated() -> list[Place]:
    """The definitions of which SAYS just repeats the head."""
    found = (definition_of(Place(file, name)) for file, names in believe_lines.SAYS.items() for name in names)
    return sorted(definition.place for definition in found if definition and is_repeated(definition))


def parts(count: Count) -> Iterator[Part]:
    """All parts of the page, in order."""
    seen: dict[Place, Definition] = {}
    said: set[Word] = set()
    for root in ROOTS:
        part = part_of(root, seen, said, count)
        yield part
        seen |= part.found
        said |= part.words


def main() -> None:
    parser = common.asking(__doc__)
    parser.add_argument('--write', action='store_true', help='writes the definitions to the page')
    asked = parser.parse_args()
    count = Count()
    page = PAGE.read_text()
    made = [*parts(count)]
    check_length(made[0], count)
    for part in made:
        begins = mark(part.root, 'begins')
        check_lines(part.found.values(), count)
        if asked.write:
            page = page.replace(begins + (region_in(page, part.root) or ''), begins + part.region)
        compare(page, part, count)
    check_tables([place for part in made for place in part.found], {word for part in made for word in part.words}, count)
    if asked.write:
        PAGE.write_text(page)
    count.end()


if __name__ == '__main__':
    main()
