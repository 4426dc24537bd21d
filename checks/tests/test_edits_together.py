"""Tests of edits that are tried together: which function each changes, the groups, and what a check says of each."""
from __future__ import annotations

import pathlib
import types
import unittest
from typing import Any
from unittest import mock

from checks.proofs import edits_together
from checks.proofs.edits_together import Found, Planted, Written

SOURCE = b'''use low::Low;

impl Sum {
    fn first(&self) -> u8 {
        self.items[0]
    }

    fn last(&self) -> u8 {
        self.items[9]
    }
}
'''
SAID = '''note: src/sum.rt:4:5: it is not proved that it ensures `returns` (`returns`)
note: a goal may be false even if its line does not say so
fn crate::sum::Sum::first: no proof: `search` did not prove `returns`
./proofs/sum/Sum/last/Answers.antt:7:1: error: `goal`: the two types differ; `search` gave up at one of its limits
fn crate::sum::Sum::last: no proof: it calls `crate::sum::Sum::first`, which is not proved
fn crate::sum::Sum::middle: proved
'''


def function(name: str, **more: Any) -> Any:
    """A function of SOURCE as rt-plant reads it."""
    first = SOURCE.index(b'fn ' + name.encode())
    place = {'first': first, 'opens': SOURCE.index(b'{', first), 'end': SOURCE.index(b'    }\n', first) + 5}
    said = {'file': 'src/sum.rt', 'module': ('sum',), 'owner': 'Sum', 'block': object(), 'in_trait': False, 'name': name}
    return types.SimpleNamespace(**{**said, **place, **more})


class Kit:
    """Reads an edit as one that replaces a text of SOURCE."""

    def __init__(self, old: str, new: str) -> None:
        self.text = SOURCE.decode().replace(old, new)

    def read_edit(self, edit: str, folder: str) -> tuple[dict[str, str], str]:
        return {'src/sum.rt': self.text}, ''


class Checkout(unittest.TestCase):
    """A crate with SOURCE, and edits of its two functions."""

    def setUp(self) -> None:
        self.first, self.last = function('first'), function('last')
        self.source = types.SimpleNamespace(data={'src/sum.rt': SOURCE}, functions=[self.first, self.last])

    def planted(self, old: str, new: str, name: str = 'one') -> Planted | None:
        return edits_together.planted(Kit(old, new), self.source, 'crates/sum', pathlib.Path(f'{name}.edit'))

    def both(self) -> list[Planted]:
        found = [self.planted('items[0]', 'items[10 + 1]', 'one'), self.planted('items[9]', 'items[8]', 'other')]
        return [each for each in found if each]


class Plants(Checkout):
    def test_an_edit_is_in_its_function(self) -> None:
        one, other = self.both()
        self.assertIs(one.function, self.first)
        self.assertIs(other.function, self.last)
        self.assertEqual(other.text, b'fn last(&self) -> u8 {\n        self.items[8]\n    }')

    def test_an_edit_of_two_functions_or_of_none_stays_alone(self) -> None:
        self.assertIsNone(self.planted('self.items', 'self.others'))
        self.assertIsNone(self.planted('use low::Low;', 'use low::High;'))

    def test_an_edit_of_what_a_function_promises_stays_alone(self) -> None:
        self.assertIsNone(self.planted('fn first(&self) -> u8 {', 'fn first(&self) -> u16 {'))

    def test_a_group_changes_a_function_once(self) -> None:
        one, other = self.both()
        self.assertEqual(edits_together.groups([one, other]), [[one, other]])
        self.assertEqual(edits_together.groups([one, one, other, other]), [[one, other], [one, other]])

    def test_a_group_is_written_whole(self) -> None:
        written = Written(self.source, self.both())
        self.assertEqual(written.texts['src/sum.rt'], SOURCE.decode().replace('items[0]', 'items[10 + 1]').replace('items[9]', 'items[8]'))
        self.assertEqual([written.lines[each.edit] for each in self.both()], [range(4, 7), range(8, 11)])


class Answers(Checkout):
    def found(self, said: str) -> list[Found | None]:
        written = Written(self.source, self.both())
        return [edits_together.found('crate', said, each, written.lines[each.edit]) for each in self.both()]

    def test_each_has_the_first_line_of_its_function(self) -> None:
        one, other = self.found(SAID)
        self.assertEqual(one, Found(False, 'note: src/sum.rt:4:5: it is not proved that it ensures `returns` (`returns`)'))
        self.assertTrue(other and other.is_at_limit and other.why.startswith('./proofs/sum/Sum/last/Answers.antt:7:1: error: `goal`'))

    def test_a_function_that_only_calls_one_that_is_refused_is_not_refused(self) -> None:
        said = ''.join(line for line in SAID.splitlines(keepends=True) if 'Answers' not in line)
        self.assertEqual(self.found(said)[1], None)

    def test_a_function_that_is_proved_or_has_no_line_is_not_refused(self) -> None:
        said = SAID.replace('first: no proof: `search` did not prove `returns`', 'first: proved')
        self.assertEqual(self.found(said)[0], None)
        self.assertEqual(self.found(said.replace('fn crate::sum::Sum::first: proved\n', ''))[0], None)

    def test_a_proof_that_names_what_is_gone_is_told_apart(self) -> None:
        said = SAID.replace('the two types differ', '`Goals` has no field `returns`')
        other = self.found(said)[1]
        self.assertTrue(other and other.is_named and 'has no field' in other.why)

    def test_a_proof_that_rests_on_one_that_is_refused_is_not_refused(self) -> None:
        said = SAID.replace('the two types differ', '`Met` was not admitted')
        self.assertEqual(self.found(said)[1], None)

    def test_a_method_of_a_trait_has_the_name_that_fits(self) -> None:
        block = types.SimpleNamespace(fits=lambda name: 'Sum' in name, ty=['Sum', '<', "'_", ',', 'S', '>'], trait=['fmt', ':', ':', 'Sink'], generics=['S'])
        it = function('first', in_trait=True, block=block)
        known = ['crate::sum::SumSink::first', 'crate::sum::OtherSink::first', 'crate::sum::SumSink::last']
        self.assertEqual(edits_together.symbols('crate', it, known), known[:1])
        self.assertEqual(edits_together.end_of(it), ['SumSink', 'first'])

    def test_a_method_is_found_by_its_type_and_a_function_by_its_module(self) -> None:
        known = ['crate::parts::Sum::first', 'crate::sum::first', 'crate::sum::Other::first']
        self.assertEqual(edits_together.symbols('crate', self.first, known), known[:1])
        self.assertEqual(edits_together.symbols('crate', function('first', block=None), known), known[1:2])


class Groups(Checkout):
    """A group that does not compile, or of which a function has another name, is tried again in parts."""

    def tried(self, wrong: str, says: str, **more: Any) -> tuple[list[str], int]:
        """The edits that were refused, and the number of checks, if a check with these words in a source says this."""
        texts: list[str] = []

        def checked(crate: Any, given: dict[str, str], words: list[str], kept: str) -> Any:
            texts.append(''.join(given.values()))
            return types.SimpleNamespace(stdout=says if wrong in texts[-1] + ' '.join(words) else SAID)

        rt, crate = types.SimpleNamespace(checked=checked, **more), types.SimpleNamespace(name='crate')
        came = edits_together.tried(rt, crate, self.source, self.both(), 'kept')
        return [edit.stem for edit in came], len(texts)

    def test_a_group_is_tried_at_once(self) -> None:
        self.assertEqual(self.tried('items[77]', ''), (['one', 'other'], 1))

    def test_a_group_that_does_not_compile_is_tried_in_halves(self) -> None:
        self.assertEqual(self.tried('items[8]', 'src/sum.rt:9:9: error: no'), (['one'], 3))

    def test_an_edit_that_the_kit_cannot_read_is_not_refused(self) -> None:
        said = f'src/sum.rt:9:9: error: `one` is not in scope\n{SAID}'
        self.assertEqual(self.tried('items[8]', said, unread=lambda line, texts: 'not in scope' in line and 'src/sum.rt' in texts), (['one'], 3))

    def test_a_check_over_a_stale_library_says_nothing(self) -> None:
        self.assertEqual(self.tried('items', f'module `Rattle-low-1`. Run the lower steps again\n{SAID}'), ([], 3))

    def test_a_function_of_another_name_is_left_out(self) -> None:
        self.assertEqual(self.tried('Sum::last', 'rattle: error: `crate` has no function `Sum::last`: help: write'), (['one'], 2))


class Apart(Checkout):
    """An edit of more than one body has a check of the functions that it changes."""

    def tried(self, old: str, new: str, said: str = SAID) -> tuple[dict[pathlib.Path, Found], list[str]]:
        """What came of an edit, and the words with which it was tried."""
        asked: list[str] = []

        def checked(crate: Any, texts: dict[str, str], words: list[str], kept: str) -> Any:
            asked.extend(words)
            return types.SimpleNamespace(stdout=said)

        rt = types.SimpleNamespace(checked=checked, read_edit=Kit(old, new).read_edit)
        crate = types.SimpleNamespace(name='crate', folder='crates/sum')
        return edits_together.tried_by_itself(rt, crate, self.source, pathlib.Path('one.edit'), 'kept'), asked

    def test_it_is_refused_if_one_of_them_is(self) -> None:
        came, asked = self.tried('self.items', 'self.others')
        self.assertEqual(asked, ['--jobs', '1', '--only', 'Sum::first', '--only', 'Sum::last'])
        self.assertEqual(came, {pathlib.Path('one.edit'): Found(False, 'note: src/sum.rt:4:5: it is not proved that it ensures `returns` (`returns`)')})

    def test_it_is_not_refused_if_each_of_them_is_proved(self) -> None:
        self.assertEqual(self.tried('self.items', 'self.others', 'fn crate::sum::Sum::first: proved\nfn crate::sum::Sum::last: proved\n')[0], {})

    def test_it_is_not_refused_if_the_crate_cannot_be_read(self) -> None:
        self.assertEqual(self.tried('self.items', 'self.others', 'src/sum.rt:9:9: error: no')[0], {})

    def test_an_edit_that_changes_no_function_is_not_tried(self) -> None:
        self.assertEqual(self.tried('use low::Low;', 'use low::High;'), ({}, []))


class OfACrate(Checkout):
    """All edits of a crate: each in a group or by itself, and those that are refused for a goal."""

    def test_each_edit_is_tried_once(self) -> None:
        plants = {each.edit: each for each in self.both()}
        edits = [*plants, pathlib.Path('third.edit')]
        goal, name = Found(False, 'a goal'), Found(False, 'a name', is_named=True)

        def tried(rt: Any, crate: Any, source: Any, group: list[Planted], kept: str | None) -> dict[pathlib.Path, Found]:
            return dict(zip([it.edit for it in group], [goal, name]))

        crate = types.SimpleNamespace(folder='crates/sum')
        with mock.patch.multiple(edits_together, source_of=lambda *_: self.source, planted=lambda *given: plants.get(given[-1]), tried=tried,
                                 tried_by_itself=lambda *given: {given[3]: goal}):
            came = list(edits_together.of_crate(None, crate, edits, None))
            self.assertEqual([group for group, _ in came], [edits[:2], edits[2:]])
            # one is refused only since a proof names what it took away: the kit decides of it
            self.assertEqual(edits_together.refused(None, crate, map(str, edits)), {'one.edit': 'a goal', 'third.edit': 'a goal'})
            # and of one whose goal a search left open
            goal = Found(True, 'a goal')
            self.assertEqual(edits_together.refused(None, crate, map(str, edits)), {})


class Rounds(Checkout):
    """What is left is tried again while some edits are refused."""

    def rounds(self, *each: set[str]) -> list[tuple[list[str], list[str]]]:
        """The groups and what was refused of them, if these names are refused one check after another."""
        says = iter(each)

        def tried(rt: Any, crate: Any, source: Any, group: list[Planted], kept: str) -> dict[pathlib.Path, Found]:
            refused = next(says)
            return {it.edit: Found(False, 'a goal') for it in group if it.edit.stem in refused}

        with mock.patch.object(edits_together, 'tried', tried):
            found = edits_together.settled(None, None, self.source, self.both(), 'kept')
            return [([it.edit.stem for it in group], [edit.stem for edit in came]) for group, came in found]

    def test_edits_that_are_all_refused_are_tried_once(self) -> None:
        self.assertEqual(self.rounds({'one', 'other'}), [(['one', 'other'], ['one', 'other'])])

    def test_a_caller_is_tried_again_without_what_it_calls(self) -> None:
        self.assertEqual(self.rounds({'one'}, {'other'}), [(['one', 'other'], ['one']), (['other'], ['other'])])

    def test_nothing_is_tried_again_after_a_round_without_a_refusal(self) -> None:
        self.assertEqual(self.rounds({'one'}, set()), [(['one', 'other'], ['one']), (['other'], [])])


if __name__ == '__main__':
    unittest.main()
