"""Tests of edits.py without the prover: which edits are chosen, and what an answer of the kit comes to."""
from __future__ import annotations

import contextlib
import io
import pathlib
import tempfile
import types
import unittest
from typing import Any
from unittest import mock

from checks.proofs import edits

# the wrong bodies that somebody is most likely to write: whatever else leaves the gate, these stay
ALWAYS_TRIED = (
    # budgets: refills, and what is charged when
    'mcs_refills/refills_charge_overwrites_the_oldest_refill',
    'mcs_refills/refills_charge_tests_fullness_before_the_head_leaves',
    'mcs_refills/refills_unblock_unblocks_the_head_alone',
    'mcs_core/next_skip_charges_what_is_in_use',
    # a core's turn
    'mcs_core/turn_turn_releases_before_arrivals',
    'mcs_core/stops_leave_to_front_enters_at_the_back',
    'mcs_core/choice_better_gives_way_to_an_equal',
    'mcs_core/next_soonest_forgets_the_arrival',
    'mcs_core/next_soonest_forgets_the_alarm',
    'mcs_core/posts_free_wakes_nobody',
    # signals
    'mcs_mail/mailbox_put_takes_arrivals_in_settling_order',
    'mcs_window/delivery_deliver_reserved_drops_signals',
    # stretches that are lent and come back
    'mcs_window/bounds_past_lends_one_moment_too_far',
    'mcs_window/loans_lend_now_lends_one_piece_at_a_time',
    'mcs_window/loans_take_back_keeps_the_clock',
    'mcs_window/loans_take_back_keeps_the_opening_state',
    'mcs_window/loans_lend_core_lends_for_one_moment',
    'mcs_window/bounds_must_wait_takes_a_turn_too_many',
    # what is given
    'mcs_merge/lists_join_merges_by_core_first',
    'mcs_team/stream_give_out_answers_a_part_after_a_loss',
    'mcs_report/account_report_at_leaves_an_open_run_out',
    # files, and who is blamed
    'mcs_load/config_config_later_fault_first',
    'mcs_load/values_number_repairs_a_bad_file',
    'mcs_cli/streams_read_text_blames_a_source_that_did_not_fail',
    # verdicts: a round that is let go
    'mcs_verdict/tracked_see_lets_a_taken_word_begin_no_round',
    'mcs_ever_found/course_missed_by_takes_what_is_overdue',
    # for all time: what is forgotten when two moments are compared
    'mcs_ever/marks_joined_forgets_the_round',
    'mcs_ever_again/threads_stands_alike_forgets_what_is_left',
    'mcs_ever_again/signals_see_forgets_the_row',
    'mcs_ever_again/shifts_between_leaves_the_signals_out',
    'mcs_ever_found/endless_endless_round_counts_rounds_of_thread_0',
    'mcs_ever_search/lockstep_settle_leaves_the_idle_cores_behind',
    'mcs_ever_search/search_recurs_lets_an_order_pass',
    # for all time: what is said of it
    'mcs_ever_told/tell_push_clean_forgets_a_finding',
    'mcs_check_forever/verdict_of_takes_open_for_clean',
)


class Verdicts(unittest.TestCase):
    def test_a_refused_goal_passes_with_its_reason(self) -> None:
        said = 'must-fail low/a.edit: refused, as it must be: src/tick.rt:9:5: error: `Tick::get`: ensures value is not proved'
        self.assertEqual(edits.verdict_of('refused', said), (edits.REFUSED, 'src/tick.rt:9:5: error: `Tick::get`: ensures value is not proved'))

    def test_a_search_that_gave_up_is_told_apart_and_passes(self) -> None:
        output = 'fn Tick::get: not proved\nnote: src/tick.rt:9:5: `returns` is not proved; `search` gave up at one of its limits'
        verdict, _ = edits.verdict_of('refused', 'must-fail low/a.edit: refused, as it must be: src/tick.rt:9:5', output)
        self.assertEqual(verdict, edits.GAVE_UP)
        self.assertTrue(edits.Tried('low/a', verdict, 1.0, '').passed)

    def test_one_goal_without_a_limit_is_enough(self) -> None:
        lines = ['note: src/tick.rt:9:5: `returns` is not proved; `search` gave up at one of its limits', 'note: src/tick.rt:9:5: `invariant` is not proved']
        found = edits.verdict_of('refused', f'must-fail low/a.edit: refused, as it must be: {lines[0]}', '\n'.join(lines))
        self.assertEqual(found, (edits.REFUSED, lines[1]))

    def test_a_refusal_without_a_goal_shows_nothing(self) -> None:
        output = 'fn Account::end: no proof: the borrow checker does not cover this function yet: src/account.rt:200:9: a field is written with a struct'
        verdict, _ = edits.verdict_of('refused', 'must-fail low/a.edit: refused, as it must be', output)
        self.assertEqual(verdict, edits.NO_GOAL)
        self.assertFalse(edits.Tried('low/a', verdict, 1.0, '').passed)

    def test_a_proof_that_names_what_is_gone_shows_nothing(self) -> None:
        said = 'must-fail low/a.edit: refused, as it must be (only because a proof file names what the edit took away, so this says little): proofs/A.antt:1:1'
        self.assertEqual(edits.verdict_of('refused', said)[0], edits.WEAK)

    def test_whatever_else_comes_of_an_edit_fails(self) -> None:
        for kind, verdict in [('limit', edits.LIMIT), ('missed', edits.STANDS), ('bad', edits.BAD), ('unsure', edits.UNKNOWN)]:
            found = edits.Tried('low/a', *edits.verdict_of(kind, 'must-fail low/a.edit: NOT TRIED: why')[:1], 1.0, '')
            self.assertEqual((found.verdict, found.passed), (verdict, False))

    def test_a_line_has_no_more_of_a_reason_than_fits(self) -> None:
        self.assertTrue(str(edits.Tried('low/a', edits.REFUSED, 1.25, 'x' * 999)).endswith('  1.2 s  ' + 'x' * edits.SHOWN))


class PlainKit(unittest.TestCase):
    """A kit that keeps nothing between runs answers whether an edit is refused, and with which words."""

    def kind(self, is_refused: bool, said: str) -> str:
        with tempfile.TemporaryDirectory() as room:
            folder = pathlib.Path(room)
            for name in ('seed', 'over'):
                (folder / name).mkdir()
            (folder / 'seed' / 'proved').write_text('of the crate as it stands')
            given = []

            def must_fail(*words: Any) -> tuple[bool, str]:
                given.append(pathlib.Path(words[3], 'proved').read_text())
                return is_refused, said

            kit = types.SimpleNamespace(must_fail=must_fail)
            kind, told = edits.tried(kit, None, 'a.edit', room, f'{room}/over')
        self.assertEqual((told, given), (said, ['of the crate as it stands']))
        return kind

    def test_a_refusal(self) -> None:
        self.assertEqual(self.kind(True, 'must-fail low/a.edit: refused, as it must be: src/tick.rt:9:5'), 'refused')

    def test_an_edit_that_is_still_proved(self) -> None:
        self.assertEqual(self.kind(False, 'must-fail low/a.edit: NOT REFUSED: the crate is still proved with this edit'), 'missed')

    def test_an_edit_that_cannot_be_read(self) -> None:
        self.assertEqual(self.kind(False, 'must-fail low/a.edit: BAD EDIT: there is no file src/b.rt'), 'bad')


class Together(unittest.TestCase):
    """An edit that is refused in a group is settled; each other one is tried alone."""

    def tried(self, is_together: bool, is_proved: bool = True) -> list[str]:
        def build(*_: Any, **__: Any) -> int:
            return int(not is_proved)

        crate = types.SimpleNamespace(name='low', makes_rlib=lambda: True, below=lambda: [], build_rlib=build)
        paths = [pathlib.Path(f'{name}.edit') for name in ('a', 'b')]
        first = [edits.Tried('low/a', edits.REFUSED, 2.0, 'a goal')]
        with mock.patch.object(edits, 'try_together', lambda *_: iter(first)), mock.patch.object(edits, 'try_alone', lambda rt, crate, left, jobs: iter([it.stem for it in left])):
            return [str(getattr(each, 'name', each)) for each in edits.try_crate(types.SimpleNamespace(), crate, paths, 1, is_together)]

    def test_the_rest_is_tried_alone(self) -> None:
        self.assertEqual(self.tried(True), ['low/a', 'b'])

    def test_without_the_option_each_is_tried_alone(self) -> None:
        self.assertEqual(self.tried(False), ['a', 'b'])

    def test_nothing_is_tried_if_the_crate_is_not_proved(self) -> None:
        self.assertEqual(self.tried(True, is_proved=False), ['low/a', 'low/b'])


class Places(unittest.TestCase):
    def test_the_gate_tries_the_likeliest_wrong_bodies(self) -> None:
        tried = {f'{edit.parent.parent.name}/{edit.stem}' for edit in edits.TOP.glob('crates/*/must-fail/*.edit')}
        self.assertEqual(set(ALWAYS_TRIED) - tried, set())

    def test_no_edit_stands_in_both_folders(self) -> None:
        places = [f'{edit.parent.parent.name}/{edit.stem}' for place in ('edits', 'must-fail') for edit in edits.TOP.glob(f'crates/*/{place}/*.edit')]
        self.assertEqual(len(places), len(set(places)))


class Choice(unittest.TestCase):
    def setUp(self) -> None:
        room = tempfile.TemporaryDirectory()
        self.addCleanup(room.cleanup)
        self.crates = []
        for name, places in [('low', {'edits': ['b', 'a'], 'must-fail': ['c']}), ('high', {'must-fail': ['d']})]:
            for place, stems in places.items():
                folder = pathlib.Path(room.name, name, place)
                folder.mkdir(parents=True)
                for stem in stems:
                    (folder / f'{stem}.edit').touch()
            self.crates.append(types.SimpleNamespace(name=name, folder=f'{room.name}/{name}'))

    def names(self, *words: str) -> list[str]:
        found = edits.chosen(self.crates, edits.parsed(words))
        return [f'{crate.name}/{edit.stem}' for crate, its in found for edit in its]

    def test_edits_that_the_gate_tries_are_left_out(self) -> None:
        self.assertEqual(self.names(), ['low/a', 'low/b'])

    def test_all_has_those_of_the_gate_too(self) -> None:
        self.assertEqual(self.names('--all'), ['low/a', 'low/b', 'low/c', 'high/d'])

    def test_a_crate_alone(self) -> None:
        self.assertEqual(self.names('high', '--all'), ['high/d'])

    def test_an_edit_alone_wherever_it_stands(self) -> None:
        self.assertEqual(self.names('--edit', 'c', '--edit', 'a'), ['low/a', 'low/c'])

    def test_names_of_nothing_are_refused(self) -> None:
        for words, said in [(['middle'], 'no crate middle'), (['--edit', 'e'], 'no edit e'), (['high', '--edit', 'a'], 'no edit a')]:
            with self.assertRaisesRegex(SystemExit, said):
                self.names(*words)

    def test_no_jobs_are_refused(self) -> None:
        with self.assertRaisesRegex(SystemExit, '--jobs takes a number from 1'):
            edits.main(['--jobs', '0'])

    def test_a_word_that_is_no_option_is_refused(self) -> None:
        with self.assertRaises(SystemExit), contextlib.redirect_stderr(io.StringIO()):
            edits.parsed(['--every'])


if __name__ == '__main__':
    unittest.main()
