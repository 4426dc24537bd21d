#!/usr/bin/env python3
"""Lists the lazy bodies that the contracts let through: the old value, a refusal at once, an empty answer.

It takes each public function with a contract, in the crates for the headline, reports, verdicts, why, tables and for all time. For each it writes the
three laziest bodies that fit its types: the old value (it changes nothing, or gives what it was given), out of memory at once (or the fault that stands
for it), and an empty answer (`None`, false, 0, a list without elements, `Ok(())`). A body that the prover proves survives.

The bodies are written beside the functions in a copy of the crate, under their signatures and clauses, and are checked by the kit's own means (those of
rt plant). Many are checked at once, which is sound: each function is checked against the contracts of the others, and never against their bodies.

What came of each is kept in checks/proofs/lazy.csv. A contract that speaks of `Ok` alone lets a refusal through by its nature, so the table names for
each survivor a test that fails with it, or `none`. If a body is as right as the one that stands there, somebody has written `right: WHY` in its place.
With --tests the survivors that have no test yet are written into a copy of the sources, and the tests and programs above them are built, unproved, and
run with each.

Without CRATE it fails if a survivor of the table names no test that is there. Then it tries five contracts, and fails if a body survives there for which
the table names no test. With --all it tries all crates. The last line is 'N passed, M failed'; a survivor whose test is `none` fails."""
from __future__ import annotations

import argparse
import contextlib
import csv
import io
import os
import pathlib
import re
import shutil
import sys
import tempfile
import time
from collections.abc import Iterable, Iterator, Mapping, Sequence
from typing import Any, NamedTuple

sys.dont_write_bytecode = True
sys.path[0] = str(pathlib.Path(__file__).resolve().parents[2])
from checks import common
from checks.common import TOP, Count
from checks.proofs import edits, edits_table, edits_together, lazy_bodies, lazy_tests, take

TABLE = TOP / 'checks' / 'proofs' / 'lazy.csv'
CRATES = TOP / 'crates.txt'
# what is below the headline, reports and verdicts; programs and worked systems; and laws, which have no body
LEFT_OUT = (
    'mcs_ticks', 'mcs_refills', 'mcs_script', 'mcs_ready', 'mcs_release', 'mcs_notify', 'mcs_mail', 'mcs_histogram', 'mcs_fields', 'mcs_merge', 'mcs_origins',
    'mcs_control', 'mcs_system', 'mcs_hints', 'mcs_core', 'mcs_load', 'mcs_stretch', 'mcs_check_words', 'mcsim', 'mcscheck', 'mcs_c', 'mcs_corpus', 'mcs_worked',
    'mcs_laws', 'mcs_verdict_laws', 'mcs_server_laws',
)
# what ./test tries: contracts of one crate, since each crate is loaded anew
FIVE = ('all::find_all', 'all::find_unended', 'all::keep_finding', 'Finder::new', 'Watch::see')
FIVE_OF = 'mcs_verdict'
# how the kit's kinds are called here
SURVIVES, GAVE_UP, NO_TEST = 'survives', 'gave up', 'none'
CAME = {'proves': SURVIVES, 'refused': 'refused', 'elsewhere': "a call's requires", 'not-judged': GAVE_UP}
# the minutes that a crate may take
MINUTES = 90
PROGRAMS = ('mcscheck', 'mcsim')


class Row(NamedTuple):
    """What came of a lazy body, which test fails with it if it survives, and the digest of the sources on which it was tried."""

    crate: str
    function: str
    kind: str
    body: str
    came: str
    why: str
    test: str
    digest: str

    @property
    def key(self) -> tuple[str, str, str]:
        return self.crate, self.function, self.body

    @property
    def name(self) -> str:
        return f'{self.crate} {self.function}: {{ {self.body} }}'


class Kit(NamedTuple):
    """The kit's programs as modules."""

    rt: Any
    plant: Any

    @property
    def bodies(self) -> Any:
        return self.plant.bodies


def loaded() -> Kit:
    """rt and rt-plant, over the same crates."""
    rt = edits.kit()
    if edits.keeps(rt):
        rt.share_work(False)
    return Kit(rt, edits_together.plant_of(rt))


def crates_of(crates: str) -> list[str]:
    """The crates of crates.txt whose bodies are tried."""
    return [name for name in edits_table.below(crates) if name not in LEFT_OUT and not name.startswith(('mcs_tests_', 'example_'))]


def source_of(kit: Kit, crate: Any) -> Any:
    """The functions and types of a crate, and those of the libraries below it."""
    source = kit.bodies.Source(crate.folder)
    source.read('src/lib.rt')
    source.read_specs()
    for name, rlib in kit.plant.libraries(crate).items():
        if name not in (*kit.rt.rtlib.SEALED, 'libc', 'os'):
            source.add_library(name, f'{rlib}/lang')
    while any(kit.plant.Plant.stem.encode() in text for text in source.data.values()):
        kit.plant.Plant.stem += '_'
    return source


def path_of(function: Any) -> str:
    """A function's path without the crate and without its place."""
    shown: str = function.shown.split(' ', 1)[1]
    return shown.removeprefix('::')


def planted(kit: Kit, source: Any, functions: Iterable[Any]) -> list[tuple[Any, lazy_bodies.Lazy]]:
    """The kit's plants of the lazy bodies, each with what it is."""
    found: list[tuple[Any, lazy_bodies.Lazy]] = []
    for function in functions:
        for lazy in lazy_bodies.lazy(kit.bodies, kit.bodies.Bodies(source, function)):
            found.append((kit.plant.Plant(function, kit.bodies.Body(lazy.text), len(found)), lazy))
    return found


def judge(kit: Kit, copy: Any, plants: Sequence[Any]) -> None:
    """Has the kit judge each plant: those beside their functions at once, those in methods of traits in their places."""
    copy.judge(copy.compiled([it for it in plants if not it.f.in_trait]))

    def find(functions: Iterable[Any]) -> None:
        copy.judge_in_place([kit.plant.Plant(it, kit.bodies.Body(kit.bodies.NEVER), 0) for it in dict.fromkeys(functions)])

    in_trait = [it for it in plants if it.f.in_trait]
    find(it.f for it in in_trait if len(it.f.symbols) > 1)
    copy.judge_in_place([it for it in in_trait if len(it.f.symbols) == 1])
    find(it.f for it in in_trait if it.kind == 'proves' and not it.f.is_found)
    for it in in_trait:
        if it.kind == 'proves' and not it.f.is_found:
            it.kind, it.why = 'not-judged', 'no line of the check could be told to be of this method'


def functions_of(kit: Kit, crate: Any, source: Any, copy: Any, only: Sequence[str]) -> list[Any]:
    """The public functions with a contract, or those of these paths. A method of a trait is told by a check of its module as it stands."""

    def chosen(said: str) -> list[Any]:
        lines = dict(re.findall(rf'(?m)^fn ({crate.name}::\S+): (.*)', said))
        with contextlib.redirect_stdout(io.StringIO()):
            functions, _ = kit.plant.chosen(crate, source, lines, '')
        # (a function that gives nothing and changes nothing is a law: its contract is all that it is)
        return [it for it in functions if (path_of(it) in only if only else it.ret or it.mutates)]

    functions = chosen('')
    modules = sorted({'::'.join(it.module) for it in functions if it.in_trait})
    # (without a name all of the crate is checked)
    return chosen(copy.check(modules if all(modules) else []) or '') if modules and not only else functions


def rows_of(crate: str, digest: str, plants: Iterable[tuple[Any, lazy_bodies.Lazy]]) -> list[Row]:
    """The rows of the plants that fit the types."""
    rows = []
    for plant, lazy in plants:
        if plant.kind != 'not-source':
            why = ' '.join(str(plant.why).split())[:edits.SHOWN]
            rows.append(Row(crate, path_of(plant.f), lazy.kind, lazy.text, CAME.get(plant.kind, plant.kind), why, '', digest))
    return rows


def has_libraries(kit: Kit, crate: Any, may_prove: bool) -> bool:
    """Whether the libraries below a crate are there, proved now if that may be."""
    below = crate.below()
    if may_prove:
        return not any(low.build_rlib(['--jobs', '1'], anew=False) for low in below)
    if edits.keeps(kit.rt):
        for low in below:
            low.is_built() or kit.rt.take_rlib(low)
    return all(map(take.given_by(kit.rt, below, TOP), below))


def try_crate(kit: Kit, crate: Any, digest: str, only: Sequence[str], may_prove: bool) -> list[Row] | None:
    """The rows of a crate, or None if what is below it is not proved."""
    with contextlib.redirect_stdout(sys.stderr):
        if not has_libraries(kit, crate, may_prove):
            return None
        if edits.keeps(kit.rt):
            kit.rt.adopt(crate, is_alone=False)
    crate.out = io.StringIO()
    source = source_of(kit, crate)
    with tempfile.TemporaryDirectory(prefix='lazy-') as folder:
        copy = kit.plant.Copy(crate, source, folder, ['--jobs', '1'], 60 * MINUTES)
        functions = functions_of(kit, crate, source, copy, only)
        plants = planted(kit, source, functions)
        judge(kit, copy, [plant for plant, _ in plants])
    return rows_of(crate.name, digest, plants)


def read(table: pathlib.Path) -> dict[tuple[str, str, str], Row]:
    """The rows of the table; none if there is no table."""
    if not table.is_file():
        return {}
    with table.open(newline='') as file:
        return {row.key: row for row in (Row(**each) for each in csv.DictReader(file))}


def merged(old: dict[tuple[str, str, str], Row], crate: str, rows: Iterable[Row]) -> list[Row]:
    """The table with these rows for a crate. The test of a body that still survives stays."""
    kept = [row for row in old.values() if row.crate != crate]
    return kept + [row._replace(test=old[row.key].test if row.came == SURVIVES and row.key in old else row.test) for row in rows]


def shares(names: Sequence[str], part: int, parts: int) -> list[str]:
    """The crates of one of the parts."""
    return [name for at, name in enumerate(names) if at % parts == part - 1]


def told(row: Row) -> str:
    return f'{row.came:<16} {row.kind:<12} {row.name}' + (f'  ({row.why})' if row.why else '')


def held(count: Count, rows: Iterable[Row], known: dict[tuple[str, str, str], Row]) -> None:
    """Counts the bodies of the five contracts: each is refused, or the table names a test that fails with it."""
    for row in rows:
        said = known.get(row.key)
        is_known = said is not None and said.came == SURVIVES and said.test not in ('', NO_TEST)
        count.expect(f'{told(row)}: the table names no test that fails with it', row.came in CAME.values() and (row.came != SURVIVES or is_known))


def standing(rows: Iterable[Row], now: Mapping[str, str]) -> str:
    """How much of the table there is, and of which crates it is not of these sources, whose digests are given by crate."""
    digests = {row.crate: row.digest for row in rows}
    stale = [name for name in now if name in digests and digests[name] != now[name]]
    missing = [name for name in now if name not in digests]
    return f'crates in the table: {len(digests)}; stale: {" ".join(stale) or "none"}; not tried: {" ".join(missing) or "none"}'


def is_there(test: str, top: pathlib.Path = TOP) -> bool:
    """Whether the test that the table names is in the sources: a function of a crate, a worked system of mcs_corpus, a command of a page, or the reason why
    a body is right."""
    place, _, what = test.partition(': ')
    if what.startswith('data/'):
        return (top / place / what).is_dir()
    if place.startswith('crates/'):
        begins = re.compile(rf'\bfn {re.escape(what.rpartition("::")[2])}\b')
        return any(begins.search(file.read_text(encoding='utf-8')) for file in (top / place / 'src').rglob('*.rt'))
    page, _, command = what.partition(': ')
    if place == 'checks/pages/pages.py':
        return (top / page).is_file() and command in (top / page).read_text(encoding='utf-8')
    return place == 'right' and bool(what)


def named(rows: Iterable[Row], top: pathlib.Path = TOP) -> Count:
    """Counts the survivors of the table: each names a test that is there."""
    count = Count()
    for row in rows:
        if row.came == SURVIVES:
            count.expect(f'{row.name}: the table names no test that is there: {row.test or NO_TEST}', is_there(row.test, top))
    return count


def try_five(kit: Kit, crates: dict[str, Any]) -> Count:
    """Tries five contracts, over libraries that are there."""
    sources, known = edits_table.Sources(TOP), read(TABLE)
    count = named(known.values())
    rows = try_crate(kit, crates[FIVE_OF], '', FIVE, may_prove=False)
    if rows is None:
        count.skip(f'what {FIVE_OF} stands on is not proved here: ./test proves it')
        return count
    print(standing(known.values(), {name: sources.of_crate(name) for name in crates_of(CRATES.read_text())}))
    held(count, rows, known)
    count.expect(f'{FIVE_OF} has not all of {", ".join(FIVE)}', {row.function for row in rows} == set(FIVE))
    return count


def try_all(kit: Kit, crates: dict[str, Any], names: Sequence[str]) -> Iterator[tuple[str, list[Row] | None]]:
    """Tries crates one after another, and puts what came of them into the table."""
    sources = edits_table.Sources(TOP)
    for at, name in enumerate(names):
        print(f'{name}: {at + 1} of {len(names)} crates, {time.strftime("%H:%M")}', file=sys.stderr, flush=True)
        rows = try_crate(kit, crates[name], sources.of_crate(name), (), may_prove=True)
        if rows is not None:
            write(TABLE, merged(read(TABLE), name, rows))
        yield name, rows


def write(table: pathlib.Path, rows: Iterable[Row]) -> None:
    edits_table.write_rows(table, Row._fields, rows)


class Bench:
    """A copy of the sources with the survivors that have no test, in which the tests and programs above them are built."""

    def __init__(self, kit: Kit, room: pathlib.Path, rows: Iterable[Row]) -> None:
        self.kit, self.room, self.saved = kit, room, room / 'saved'
        self.numbers = {row.key: at + 1 for at, row in enumerate(rows)}
        self.tests: dict[tuple[str, str, str], str] = {}
        (room / 'sources').mkdir()
        lazy_tests.copied(TOP, room / 'sources', self.saved)
        os.environ['RT_ALLOW_C'] = lazy_tests.LOWEST
        self.crates = {crate.name: crate for crate in kit.rt.rtlib.crates_below(str(room / 'sources'))}
        for name in dict.fromkeys(crate for crate, _, _ in self.numbers):
            self.plant(name)

    def plant(self, crate: str) -> None:
        """Writes the bodies of a crate into its copy."""
        source = self.kit.bodies.Source(self.crates[crate].folder)
        source.read('src/lib.rt')
        found = {path_of(it): it for it in source.functions}
        places: dict[str, list[lazy_tests.Place]] = {}
        for (of, function, body), number in self.numbers.items():
            if of == crate:
                place = lazy_tests.Place(found[function].opens, number, body)
                places.setdefault(found[function].file, []).append(place)
        for file, those in places.items():
            path = pathlib.Path(self.crates[crate].folder, file)
            path.write_bytes(lazy_tests.with_bodies(path.read_bytes(), those))

    def left(self, crate: Any) -> list[tuple[str, str, str]]:
        """The bodies at or below a crate that have no test yet."""
        names = {crate.name, *(low.name for low in crate.below())}
        return [key for key in self.numbers if key[0] in names and key not in self.tests]

    def try_tests(self, crate: Any) -> None:
        """Builds the tests of a crate, or a program, and looks which of the bodies left they fail with."""
        program = self.room / crate.name
        print(f'{crate.name}: builds, for {len(self.left(crate))} bodies, {time.strftime("%H:%M")}', file=sys.stderr, flush=True)
        said = lazy_tests.built(self.kit.rt, crate, self.saved, program)
        if said is not None:
            print(f'{crate.name} was not built: {said}', file=sys.stderr)
            return
        runner, right = self.kit.rt.rtlib.RUNNER, dict[str, str]()
        without = {*lazy_tests.failing_pages(program, 0, right)} if crate.is_program else {*lazy_tests.failing(runner, program, 0)}
        for key in self.left(crate):
            number = self.numbers[key]
            fails = lazy_tests.failing_pages(program, number, right) if crate.is_program else lazy_tests.failing(runner, program, number, without)
            if found := next(fails, None):
                self.tests[key] = found if crate.is_program else f'crates/{crate.name}: {found}'
                print(f'{" ".join(key)}: {self.tests[key]}', flush=True)

    def try_all(self) -> None:
        """Tries the tests, lowest crate first, and then the programs."""
        testers = [crate for crate in self.crates.values() if not crate.is_program and crate.has_tests()]
        for crate in [*testers, *(self.crates[name] for name in PROGRAMS)]:
            if self.left(crate):
                self.try_tests(crate)


def name_tests(kit: Kit, names: Sequence[str]) -> Count:
    """Looks for the tests of the survivors of these crates, and puts them into the table."""
    rows = [row for row in read(TABLE).values() if row.crate in names and row.came == SURVIVES and row.test in ('', NO_TEST)]
    with tempfile.TemporaryDirectory(prefix='lazy-') as room:
        bench = Bench(kit, pathlib.Path(room), rows)
        bench.try_all()
    known = read(TABLE)
    for row in rows:
        known[row.key] = known[row.key]._replace(test=bench.tests.get(row.key, NO_TEST))
    write(TABLE, known.values())
    count = Count()
    for row in rows:
        count.expect(f'{row.name}: no test fails with it', row.key in bench.tests)
    return count


def asked(words: Sequence[str], known: Sequence[str]) -> argparse.Namespace:
    parser = common.asking(__doc__)
    parser.add_argument('crates', nargs='*', metavar='CRATE', help='a crate whose bodies are tried, for the table')
    parser.add_argument('--all', action='store_true', dest='has_all', help='all crates')
    parser.add_argument('--tests', action='store_true', help='try no contract: find the tests that fail with the survivors of these crates, or of all')
    parser.add_argument('--shard', type=edits.shard_of, default=(1, 1), metavar='K/N', help='only the K-th of N parts of the crates')
    given = parser.parse_args(words)
    for name in given.crates:
        if name not in known:
            parser.error(f'{name} is not tried; these are: {" ".join(known)}')
    return given


def main(words: Sequence[str]) -> None:
    known = crates_of(CRATES.read_text())
    given = asked(words, known)
    if not shutil.which('rt'):
        count = Count()
        count.skip('rt is not on PATH, so no body can be tried')
        count.end()
    kit = loaded()
    crates = {crate.name: crate for crate in kit.rt.rtlib.crates_below(str(TOP))}
    names = shares(given.crates or (known if given.has_all or given.tests else ()), *given.shard)
    if given.tests:
        name_tests(kit, names).end()
    if not names:
        try_five(kit, crates).end()
    count = Count()
    for name, rows in try_all(kit, crates, names):
        count.expect(f'{name}: what is below it is not proved', rows is not None)
        for row in rows or []:
            print(told(row), flush=True)
    count.end()


if __name__ == '__main__':
    try:
        main(sys.argv[1:])
    except KeyboardInterrupt:
        sys.exit(130)
