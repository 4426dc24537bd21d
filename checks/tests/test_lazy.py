"""Tests of lazy.py without the prover: which bodies fit a function, what a table keeps, and how a body is written into a source."""
from __future__ import annotations

import contextlib
import io
import pathlib
import re
import tempfile
import types
import unittest
from typing import Any

from checks import common
from checks.proofs import lazy, lazy_bodies, lazy_tests
from checks.proofs.lazy import Row


def words(text: str) -> list[str]:
    return re.findall(r'\w+|[^\w\s]', text)


def split(tokens: list[str]) -> list[list[str]]:
    """The parts between the commas that no bracket holds."""
    parts: list[list[str]] = [[]]
    depth = 0
    for token in tokens:
        depth += (token in '([{<') - (token in ')]}>')
        if token == ',' and not depth:
            parts.append([])
        else:
            parts[-1].append(token)
    return [part for part in parts if part]


def named(kind: list[str]) -> tuple[str, str, list[list[str]]]:
    """The name of a type, its path and its arguments, as the kit tells them."""
    at = kind.index('<') if '<' in kind else len(kind)
    path = ''.join(kind[:at])
    return (kind[at - 1], path, split(kind[at + 1:-1])) if re.fullmatch(r'[\w:]+', path) else ('', '', [])


KIT = types.SimpleNamespace(split=split, named=named, without_attributes=lambda tokens: tokens)


class Bodies:
    """A function as the kit reads it, with the values of its types."""

    def __init__(self, head: str, body: str = 'todo', values: tuple[str, ...] = (), **known: Any) -> None:
        found = re.fullmatch(r'fn (\w+)\((.*?)\)(?: -> (.*))?', head)
        assert found
        params = [words(part) for part in found[2].split(', ') if part]
        own = [param for param in params if 'self' in param]
        given = [(param[0], param[2:]) for param in params if 'self' not in param]
        mutates = any('mut' in param for param in params)
        block = types.SimpleNamespace(ty=['Watch'])
        self.f = types.SimpleNamespace(
            name=found[1], takes_self=''.join(own[0]) if own else '', params=given, ret=words(found[3] or ''), mutates=mutates, body=words(body), block=block,
        )
        functions = [types.SimpleNamespace(name=name, params=[(param, []) for param in params], block=block) for name, *params in known.get('functions', [])]
        self.source = types.SimpleNamespace(functions=functions)
        self.made, self.types = values, known.get('types', {})

    def resolved(self, kind: list[str]) -> list[str]:
        return ['Watch'] if kind == ['Self'] else kind

    def declared(self, name: str) -> list[tuple[Any, ...]]:
        return [(self.types[name][0], self.types[name][1], [], words(self.types[name][2]))] if name in self.types else []

    def values(self, _: list[str]) -> tuple[str, ...]:
        return self.made

    def errors(self, _: list[str]) -> list[str]:
        return ['Fault::Late']

    def fields(self) -> list[tuple[str, list[str]]]:
        return [('horizon', ['Tick'])]


def bodies(head: str, body: str = 'todo', values: tuple[str, ...] = (), **known: Any) -> list[tuple[str, str]]:
    return [(it.kind, it.text) for it in lazy_bodies.lazy(KIT, Bodies(head, body, values, **known))]


class Lazy(unittest.TestCase):
    def test_a_function_that_gives_nothing_changes_nothing(self) -> None:
        self.assertEqual(bodies('fn add(&mut self)'), [('old', '')])
        self.assertEqual(bodies('fn law()'), [])

    def test_a_change_that_may_fail_does_nothing_or_refuses(self) -> None:
        told = bodies('fn put(&mut self) -> Result<(), NoMemory>', values=('Err(NoMemory)', 'Ok(())'))
        self.assertEqual(told, [('old, empty', 'Ok(())'), ('refuses', 'Err(NoMemory)')])

    def test_a_value_that_was_given_is_given_back(self) -> None:
        self.assertEqual(bodies('fn later(at: Tick) -> Tick'), [('old', 'at')])
        self.assertEqual(bodies('fn end(&self) -> Option<Tick>', values=('None',)), [('old', 'Some(self.horizon)'), ('empty', 'None')])
        self.assertEqual(bodies('fn then(self) -> Self'), [('old', 'self')])

    def test_a_borrowed_value_is_copied(self) -> None:
        head = 'fn given(&self, alloc: Global) -> Result<Self, NoMemory>'
        told = bodies(head, functions=[('copy', 'alloc')])
        self.assertEqual(told, [('old', 'Ok(self.copy(alloc)?)'), ('refuses', 'Err(NoMemory)')])
        self.assertIn(('old', 'Ok(*self)'), bodies(head))

    def test_the_body_that_stands_there_is_no_wrong_one(self) -> None:
        self.assertEqual(bodies('fn is_open(&self) -> bool', body='false', values=('false', 'true')), [])

    def test_the_fault_for_memory_is_looked_for(self) -> None:
        known = {
            'RunFault': (('run',), 'enum', '{ Read, Load(LoadFault), Sim(SimFault) }'),
            'LoadFault': (('', 'mcs_load'), 'struct', '{ kind: Kind }'),
            'SimFault': (('', 'mcs_team'), 'enum', '{ NoMemory }'),
        }
        self.assertEqual(bodies('fn run() -> Result<(), RunFault>', types=known), [('refuses', 'Err(RunFault::Sim(mcs_team::SimFault::NoMemory))')])
        self.assertEqual(bodies('fn run() -> Result<(), SimFault>', types=known), [('refuses', 'Err(SimFault::NoMemory)')])

    def test_another_fault_stands_for_it_if_there_is_none(self) -> None:
        self.assertEqual(bodies('fn run() -> Result<(), Fault>'), [('refuses', 'Err(Fault::Late)')])

    def test_doc_comments_of_variants_are_passed_over(self) -> None:
        declared: tuple[Any, ...] = ((), 'enum', [], ['{', '/// Out of memory.', 'NoMemory', '}'])
        self.assertEqual(lazy_bodies.variants(KIT, declared), [['NoMemory']])


class Sources(unittest.TestCase):
    def test_bodies_stand_at_the_heads_of_their_functions(self) -> None:
        text = b'fn a() -> bool { true }\nfn b() { go() }\n'
        places = [lazy_tests.Place(text.index(b'{ true'), 1, 'false'), lazy_tests.Place(text.index(b'{ go'), 2, '')]
        told = lazy_tests.with_bodies(text, places).decode()
        self.assertEqual(told.splitlines(), [
            'fn a() -> bool { if mcs_ticks::lazy_is(1) != 0 { return false; } true }',
            'fn b() { if mcs_ticks::lazy_is(2) != 0 { return; } go() }',
        ])

    def test_a_copy_has_the_sources_and_the_function_of_c(self) -> None:
        with tempfile.TemporaryDirectory() as folder:
            top, room = pathlib.Path(folder, 'top'), pathlib.Path(folder, 'room')
            for name in ('crates.txt', 'HANDLES', 'crates/mcs_ticks/src/lib.rt', 'crates/mcs_ticks/out/large', 'crates/mcsim/args'):
                (top / name).parent.mkdir(parents=True, exist_ok=True)
                (top / name).write_text('text\n')
            room.mkdir()
            lazy_tests.copied(top, room, pathlib.Path('/there'))
            files = {str(path.relative_to(room)) for path in room.rglob('*') if path.is_file()}
            self.assertEqual(files, {'crates.txt', 'HANDLES', 'crates/mcs_ticks/src/lib.rt', 'crates/mcs_ticks/c/lazy.c', 'crates/mcsim/args'})
            self.assertIn('fopen("/there", "wb")', (room / 'crates/mcs_ticks/c/lazy.c').read_text())
            self.assertIn('fn lazy_is(number: u64) -> u32;', (room / 'crates/mcs_ticks/src/lib.rt').read_text())


class Table(unittest.TestCase):
    def row(self, function: str, came: str = lazy.SURVIVES, test: str = '', crate: str = 'low') -> Row:
        return Row(crate, function, 'refuses', 'Err(NoMemory)', came, '', test, '0')

    def table(self, *rows: Row) -> dict[tuple[str, str, str], Row]:
        return {row.key: row for row in rows}

    def test_rows_of_a_crate_are_replaced_and_tests_stay(self) -> None:
        old = self.table(self.row('a', test='t'), self.row('b', test='u'), self.row('gone'), self.row('c', crate='high'))
        new = lazy.merged(old, 'low', [self.row('a'), self.row('b', came='refused'), self.row('d')])
        self.assertEqual(sorted(new), sorted([self.row('a', test='t'), self.row('b', came='refused'), self.row('d'), self.row('c', crate='high')]))

    def test_a_table_is_read_as_it_was_written(self) -> None:
        with tempfile.TemporaryDirectory() as folder:
            file = pathlib.Path(folder, 'lazy.csv')
            lazy.write(file, [self.row('b'), self.row('a')])
            self.assertEqual(list(lazy.read(file).values()), [self.row('a'), self.row('b')])
            self.assertEqual(lazy.read(pathlib.Path(folder, 'none.csv')), {})

    def held(self, row: Row, known: Row | None = None) -> tuple[int, int]:
        count = common.Count()
        with contextlib.redirect_stdout(io.StringIO()):
            lazy.held(count, [row], self.table(known) if known else {})
        return count.tally.passed, count.tally.failed

    def test_a_body_that_is_refused_passes(self) -> None:
        self.assertEqual(self.held(self.row('a', came='refused')), (1, 0))

    def test_a_survivor_passes_if_the_table_names_its_test(self) -> None:
        self.assertEqual(self.held(self.row('a'), self.row('a', test='t')), (1, 0))
        for known in (None, self.row('a', test=lazy.NO_TEST), self.row('a'), self.row('a', came='refused', test='t')):
            self.assertEqual(self.held(self.row('a'), known), (0, 1), known)

    def test_a_body_that_was_not_tried_fails(self) -> None:
        self.assertEqual(self.held(self.row('a', came='not-run')), (0, 1))

    def test_a_survivor_names_a_test_that_is_there(self) -> None:
        with tempfile.TemporaryDirectory() as folder, contextlib.redirect_stdout(io.StringIO()):
            top = pathlib.Path(folder)
            (top / 'crates' / 'mcs_tests_low' / 'src').mkdir(parents=True)
            (top / 'crates' / 'mcs_tests_low' / 'src' / 'runs.rt').write_text('#[test]\nfn a_run_ends() {}\n')
            (top / 'crates' / 'mcs_corpus' / 'data' / 'turns' / 'close').mkdir(parents=True)
            (top / 'page.md').write_text('```sh\n./mcsim a.toml --horizon 9\n```\n')
            for test, is_there in (
                ('crates/mcs_tests_low: runs::a_run_ends', True), ('crates/mcs_tests_low: runs::a_run', False), ('crates/mcs_tests_high: runs::a_run_ends', False),
                ('checks/pages/pages.py: page.md: ./mcsim a.toml --horizon 9', True), ('checks/pages/pages.py: page.md: ./mcsim b.toml', False),
                ('crates/mcs_corpus: data/turns/close', True), ('crates/mcs_corpus: data/turns/far', False), ('right: it is the body in other words', True), ('', False), (lazy.NO_TEST, False),
            ):
                tally = lazy.named([self.row('a', test=test), self.row('b', came='refused')], top).tally
                self.assertEqual((tally.passed, tally.failed), (1, 0) if is_there else (0, 1), test)

    def test_each_crate_is_in_one_part(self) -> None:
        names = ['a', 'b', 'c', 'd', 'e']
        self.assertEqual([lazy.shares(names, part, 2) for part in (1, 2)], [['a', 'c', 'e'], ['b', 'd']])

    def test_a_crate_that_is_not_tried_is_refused(self) -> None:
        with self.assertRaises(SystemExit), contextlib.redirect_stderr(io.StringIO()) as said:
            lazy.asked(['mcs_ticks'], ['mcs_window', 'mcs_team'])
        self.assertIn('mcs_ticks is not tried; these are: mcs_window mcs_team', said.getvalue())

    def test_tests_programs_and_low_crates_are_left_out(self) -> None:
        crates = 'mcs_ticks: thiserror\nmcs_verdict: mcs_ticks\nmcs_tests_core: mcs_ticks\nmcs_team may_wait=16: mcs_ticks\nmcsim: mcs_team\n'
        self.assertEqual(lazy.crates_of(crates), ['mcs_verdict', 'mcs_team'])

    def test_the_five_contracts_are_of_a_crate_that_is_tried(self) -> None:
        self.assertIn(lazy.FIVE_OF, lazy.crates_of(lazy.CRATES.read_text()))

    def test_stale_crates_and_those_that_are_missing_are_told(self) -> None:
        told = lazy.standing([self.row('a'), self.row('a', crate='high')], {'low': '0', 'high': '1', 'other': '2'})
        self.assertEqual(told, 'crates in the table: 2; stale: high; not tried: other')
        self.assertEqual(lazy.standing([self.row('a')], {'low': '0'}), 'crates in the table: 1; stale: none; not tried: none')

    def test_a_table_says_of_each_survivor_which_test_fails_with_it_or_none(self) -> None:
        rows = lazy.read(lazy.TABLE).values()
        self.assertEqual([row.name for row in rows if row.came == lazy.SURVIVES and not row.test], [])


if __name__ == '__main__':
    unittest.main()
