"""Tests of the table of wrong bodies: when a row is stale, which rows fail, and how the work is shared."""
from __future__ import annotations

import argparse
import contextlib
import io
import pathlib
import tempfile
import types
import unittest
from typing import Any

from checks import common
from checks.proofs import edits, edits_table
from checks.proofs.edits_table import Row, Sources


class Checkout(unittest.TestCase):
    """Two crates, `high` over `low`, each with an edit."""

    def setUp(self) -> None:
        room = tempfile.TemporaryDirectory()
        self.addCleanup(room.cleanup)
        self.top = pathlib.Path(room.name)
        self.put('crates.txt', 'low:\nhigh: low toml\n')
        for crate, place in (('low', 'must-fail'), ('high', 'edits')):
            self.put(f'crates/{crate}/src/lib.rt', '/// Adds.\npub fn add() {}\n')
            self.put(f'crates/{crate}/specs/Sum.antt', '-- a sum\nsum = 0\n')
            self.put(f'crates/{crate}/{place}/adds_one.edit', 'file: src/lib.rt\nold: a\nnew: b\n')

    def put(self, path: str, text: str) -> None:
        file = self.top / path
        file.parent.mkdir(parents=True, exist_ok=True)
        file.write_text(text)

    def digest(self, crate: str) -> str:
        edits_table.own_digest.cache_clear()
        sources = Sources(self.top)
        return sources.digest(crate, sources.edits()[f'{crate}/adds_one'])

    def row(self, crate: str, verdict: str = 'refused') -> Row:
        return Row(crate, 'adds_one', verdict, '7', '`add`: ensures sum is not proved', self.digest(crate))

    def judged(self, *rows: Row, is_release: bool = False) -> tuple[int, int, str]:
        """How many passed and failed, and what was written."""
        said = io.StringIO()
        with contextlib.redirect_stdout(said):
            count = edits_table.judged({row.name: row for row in rows}, Sources(self.top), is_release)
        return count.tally.passed, count.tally.failed, said.getvalue()


class Digests(Checkout):
    def changes(self, path: str, text: str) -> tuple[bool, bool]:
        """Whether the digests of `low` and of `high` change when a file gets this text."""
        before = self.digest('low'), self.digest('high')
        self.put(path, text)
        return self.digest('low') != before[0], self.digest('high') != before[1]

    def test_code_below_counts_for_those_above(self) -> None:
        self.assertEqual(self.changes('crates/low/src/lib.rt', '/// Adds.\npub fn add(x: u8) {}\n'), (True, True))

    def test_code_above_does_not_count_below(self) -> None:
        self.assertEqual(self.changes('crates/high/specs/Sum.antt', '-- a sum\nsum = 1\n'), (False, True))

    def test_comments_do_not_count(self) -> None:
        self.assertEqual(self.changes('crates/low/src/lib.rt', '/// Adds,\n/// and returns.\npub fn add() {}\n'), (False, False))
        self.assertEqual(self.changes('crates/low/specs/Sum.antt', '-- the sum\nsum = 0\n'), (False, False))

    def test_the_text_of_an_edit_counts(self) -> None:
        self.assertEqual(self.changes('crates/low/must-fail/adds_one.edit', 'file: src/lib.rt\nold: a\nnew: c\n'), (True, False))

    def test_a_folder_with_a_crates_libraries_is_its_own_and_those_below(self) -> None:
        self.assertEqual(edits_table.cone('high', edits_table.below('low:\nhigh may_wait=1: low toml\nother: low\n')), ['high', 'low'])


class Judged(Checkout):
    def test_refused_edits_pass(self) -> None:
        passed, failed, said = self.judged(self.row('low'), self.row('high', 'gave up'))
        self.assertEqual((passed, failed), (4, 0))
        self.assertIn('2 edits, 2 tried on these sources, 0 stale, 0 not tried', said)

    def test_an_edit_that_is_proved_fails(self) -> None:
        for verdict in ('NOT REFUSED', 'names gone', 'limit', 'bad', 'not tried'):
            self.assertEqual(self.judged(self.row('low', verdict))[1], 1, verdict)

    def test_a_row_without_its_edit_fails(self) -> None:
        gone = self.row('low')._replace(edit='gone')
        self.assertEqual(self.judged(gone)[1], 1)
        self.assertEqual(list(edits_table.standing({row.name: row for row in (gone, self.row('high'))}, Sources(self.top))), ['high/adds_one'])

    def test_stale_and_missing_rows_fail_a_release_alone(self) -> None:
        stale = self.row('low')._replace(digest='0' * 16)
        self.assertEqual(self.judged(stale)[1], 0)
        self.assertIn('1 stale, 1 not tried', self.judged(stale)[2])
        self.assertEqual(self.judged(stale, is_release=True)[1], 2)

    def test_stale_rows_are_told_by_crate(self) -> None:
        said = self.judged(self.row('low')._replace(digest='0' * 16))[2]
        self.assertIn('\nstale: low 1\nnot tried: high 1\n', said)

    def test_a_release_without_a_table_fails_once(self) -> None:
        self.assertEqual(self.judged()[:2], (0, 0))
        passed, failed, said = self.judged(is_release=True)
        self.assertEqual((passed, failed), (0, 1))
        self.assertIn('edits.csv has no rows: ./test --all-edits writes them', said)

    def test_a_table_is_read_as_it_was_written(self) -> None:
        rows = [self.row('low'), self.row('high')]
        edits_table.write(self.top / 'edits.csv', rows)
        self.assertEqual(edits_table.read(self.top / 'edits.csv'), {row.name: row for row in rows})
        self.assertEqual(edits_table.read(self.top / 'none.csv'), {})

    def test_a_goal_has_no_place(self) -> None:
        self.assertEqual(edits_table.goal_of('note: src/beside.rt:56:5: it is not proved that it returns'), 'it is not proved that it returns')
        self.assertEqual(edits_table.goal_of('src/tick.rt:9:5: error: `Tick::get`: ensures value is not proved'), '`Tick::get`: ensures value is not proved')


class Pages(Checkout):
    def setUp(self) -> None:
        super().setUp()
        self.put('README.md', 'It\ntries 7 of\n9 wrong bodies, which it refuses.\n')
        self.put('CONTRIBUTING.md', 'It tries the 1 edits of\n`must-fail`, not the other 1 edits.\n')

    def held(self, is_written: bool = False) -> tuple[int, int, str]:
        """How many passed and failed, and what was written."""
        said, count = io.StringIO(), common.Count()
        with contextlib.redirect_stdout(said):
            edits_table.hold_pages(count, self.top, Sources(self.top).counts(), is_written)
        return count.tally.passed, count.tally.failed, said.getvalue()

    def test_a_number_that_is_not_so_fails(self) -> None:
        passed, failed, said = self.held()
        self.assertEqual((passed, failed), (2, 1))
        self.assertIn('README.md has other numbers: tries 1 of 2 wrong bodies;', said)

    def test_numbers_are_written_and_lines_stay(self) -> None:
        self.assertEqual(self.held(is_written=True)[:2], (3, 0))
        self.assertEqual((self.top / 'README.md').read_text(), 'It\ntries 1 of\n2 wrong bodies, which it refuses.\n')
        self.assertEqual(self.held()[:2], (3, 0))

    def test_a_page_without_its_words_fails(self) -> None:
        self.put('README.md', 'It tries edits.\n')
        self.assertIn('README.md does not say: tries {of_gate} of {all} wrong bodies', self.held(is_written=True)[2])

    def test_thousands_have_a_comma(self) -> None:
        counts = edits_table.Counts(120, 1080, 1200)
        self.assertEqual(edits_table.with_counts('tries 120 of 999 wrong bodies', edits_table.SAYINGS[0][1], counts), 'tries 120 of 1,200 wrong bodies')


class Shards(Checkout):
    def work(self) -> list[tuple[Any, list[pathlib.Path]]]:
        crates = [types.SimpleNamespace(name=name, folder=str(self.top / 'crates' / name)) for name in ('low', 'high', 'other')]
        return [(crate, [pathlib.Path(f'{number}.edit') for number in range(many)]) for crate, many in zip(crates, (9, 3, 4))]

    def test_each_crate_is_in_one_part(self) -> None:
        parts = [[crate.name for crate, _ in edits.sharded(self.work(), part, 2)] for part in (1, 2)]
        self.assertEqual(parts, [['low'], ['high', 'other']])

    def test_one_part_has_all(self) -> None:
        self.assertEqual(edits.sharded(self.work(), 1, 1), self.work())

    def test_parts_that_do_not_exist_are_refused(self) -> None:
        self.assertEqual(edits.shard_of('2/4'), (2, 4))
        for text in ('0/4', '5/4', '1', 'a/b', '1/0'):
            with self.assertRaises(argparse.ArgumentTypeError, msg=text):
                edits.shard_of(text)


if __name__ == '__main__':
    unittest.main()
