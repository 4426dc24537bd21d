"""Tests of prose.py: what counts as a sentence, which rules it breaks, and which lines are too long."""
from __future__ import annotations

import contextlib
import io
import pathlib
import tempfile
import unittest
from unittest import mock

from checks import common
from checks.pages import prose


class InFolder(unittest.TestCase):
    def setUp(self) -> None:
        room = tempfile.TemporaryDirectory()
        self.addCleanup(room.cleanup)
        self.top = pathlib.Path(room.name)

    def write(self, name: str, text: str) -> pathlib.Path:
        path = self.top / name
        path.parent.mkdir(parents=True, exist_ok=True)
        path.write_text(text, encoding='utf-8')
        return path

    def group(self, text: str, name: str = 'page.md') -> prose.Group:
        return prose.Group(name, (self.write(name, text),))

    def blocks(self, text: str, name: str = 'page.md') -> list[tuple[int, str]]:
        return [(block.line, block.text) for block in prose.blocks(prose.prose(self.write(name, text)))]

    def wide(self, text: str, name: str = 'page.md') -> list[int]:
        return [found.line for found in prose.wide_lines(self.write(name, text))]


class Blocks(InFolder):
    def test_a_paragraph_may_have_several_lines(self) -> None:
        self.assertEqual(self.blocks('# Head\n\nOne line\nand another.\n\nLast.\n'), [(3, 'One line and another.'), (6, 'Last.')])

    def test_each_item_of_a_list_is_one(self) -> None:
        self.assertEqual(self.blocks('Before:\n- one\n  more\n2. two\n'), [(1, 'Before:'), (2, 'one more'), (4, 'two')])

    def test_a_cell_of_a_table_is_one_if_it_is_no_name(self) -> None:
        self.assertEqual(self.blocks('| Name | A cell of five words |\n|---|---|\n'), [(1, 'A cell of five words')])

    def test_code_and_comments_are_left_out(self) -> None:
        self.assertEqual(self.blocks('One.\n```sh\nwhere\n```\n<!-- where\nwhere -->\nTwo.\n![where](a.svg)\n'), [(1, 'One.'), (7, 'Two.')])

    def test_doc_comments_of_a_source(self) -> None:
        text = '//! A file.\n\n/// An item\n/// of two lines.\nfn a() {\n    // in a body\n}\n'
        self.assertEqual(self.blocks(text, 'a.rt'), [(1, 'A file.'), (3, 'An item of two lines.')])

    def test_the_newest_entry_of_the_changes(self) -> None:
        text = '# Changes\n\nHead.\n\n## New\n\nHere.\n\n## Old\n\nThere.\n'
        self.assertEqual([text for _, text in self.blocks(text, 'CHANGELOG.md')], ['Head.', 'Here.'])


class Sentences(unittest.TestCase):
    def rules(self, text: str) -> list[tuple[str, str]]:
        return [found for sentence in prose.sentences(text) for found in prose.rules_broken(sentence)]

    def test_code_is_a_word_and_a_link_its_text(self) -> None:
        self.assertEqual(prose.sentences('Run `a where b` now. See [the page](where.md) first.'), ['Run X now.', 'See the page first.'])

    def test_a_single_word_is_no_sentence(self) -> None:
        self.assertEqual(prose.sentences('Yes. It is.'), ['It is.'])

    def test_a_plain_sentence_breaks_none(self) -> None:
        self.assertEqual(self.rules('The call returns `None` if the list is empty.'), [])

    def test_each_rule(self) -> None:
        self.assertEqual(self.rules('It fails where memory ends.'), [('where', 'where')])
        self.assertEqual(self.rules('The caller is told why.'), [('stilted', 'is told')])
        self.assertEqual(self.rules('Of each core it keeps one.'), [('opening', 'Of')])
        self.assertEqual(self.rules('word ' * 31), [('long', '31 words')])
        self.assertEqual(self.rules('word ' * 30), [])

    def test_an_opening_is_a_whole_word(self) -> None:
        self.assertEqual(self.rules('Often it is so. Bytes are kept.'), [])

    def test_a_sentence_may_break_several(self) -> None:
        self.assertEqual([rule for rule, _ in self.rules('Where so many come, none is left.')], ['where', 'stilted', 'stilted', 'opening'])


class Lines(InFolder):
    def test_a_line_of_100_columns_may_stand(self) -> None:
        self.assertEqual(self.wide('x' * 100 + '\n' + 'y' * 101 + '\n'), [2])

    def test_columns_are_not_bytes(self) -> None:
        self.assertEqual(self.wide('≡' * 100), [])

    def test_what_has_no_place_to_break_is_left_out(self) -> None:
        long = 'x ' * 60
        self.assertEqual(self.wide(f'# {long}\n\n| {long}|\n\n```\n{long}\n```\n<!-- {long}-->\n![{long}](a)\n`{long}`.\n'), [])

    def test_the_target_of_a_link_does_not_count(self) -> None:
        self.assertEqual(self.wide('word ' * 15 + f'[name]({"a" * 60})'), [])
        self.assertEqual(self.wide('word ' * 20 + f'[name]({"a" * 60})'), [1])

    def test_each_comment_of_a_source(self) -> None:
        self.assertEqual(self.wide('/// ' + 'x' * 97 + '\nfn a() {}' + ' ' * 99 + '\n    // ' + 'y' * 94 + '\n', 'a.rt'), [1, 3])


class Limits(InFolder):
    def test_a_short_page_may_have_one_of_each(self) -> None:
        self.assertEqual(prose.faults(self.group('It is there where it was. The caller is told. Of course.')), [])
        self.assertEqual(prose.faults(self.group('Here where it is. There where it was.')), ['where 2, at most 1'])

    def test_a_long_one_two_in_a_thousand_words(self) -> None:
        plain, bad = 'This has just five words.\n' * 199, 'Here where it is.\n'
        # 1,003 words with two of them, 1,007 with three, and 998 with two
        self.assertEqual(prose.faults(self.group(plain + bad * 2)), [])
        self.assertEqual(prose.faults(self.group(plain + bad * 3)), ['where 3, at most 2'])
        self.assertEqual(prose.faults(self.group(plain[26:] + bad * 2)), ['where 2, at most 1'])

    def test_long_sentences_are_two_of_a_hundred(self) -> None:
        plain, long = 'This is short.\n', 'word\n' * 31 + 'end.\n'
        self.assertEqual(prose.faults(self.group(plain * 98 + long * 2)), [])
        self.assertEqual(prose.faults(self.group(plain * 97 + long * 3)), ['long 3, at most 2'])

    def test_long_sentences_of_sources_do_not_count(self) -> None:
        (group,) = prose.groups_of(self.write('a.rt', '\n'.join(['/// ' + 'word ' * 17] * 6)))
        self.assertEqual(prose.faults(group), [])

    def test_no_line_may_be_too_long(self) -> None:
        self.assertEqual(prose.faults(self.group('x' * 101)), ['wide 1, at most 0'])


class Held(InFolder):
    def setUp(self) -> None:
        super().setUp()
        for name in ('README.md', 'docs/BELIEVE.md', 'docs/MODEL.md', 'crates/low/README.md'):
            self.write(name, 'It is so.\n')
        self.write('crates/low/src/lib.rt', '//! Of a crate where it is.\n')
        self.write('crates/low/src/deep/a.rt', '//! Of a file where it is.\n')
        self.exempt('')

    def exempt(self, names: str) -> None:
        patch = mock.patch('checks.pages.prose.EXEMPT', frozenset(names.split()))
        patch.start()
        self.addCleanup(patch.stop)

    def test_pages_and_crates_are_groups(self) -> None:
        groups = {group.name: len(group.files) for group in prose.held(self.top)}
        self.assertEqual(groups, {'README.md': 1, 'docs/MODEL.md': 1, 'low: comments': 2, 'low: page': 1})

    def test_a_folder_of_a_crate_is_its_groups(self) -> None:
        self.assertEqual([group.name for group in prose.groups_of(self.top / 'crates' / 'low')], ['low: comments', 'low: page'])

    def test_the_comments_of_a_crate_count_together(self) -> None:
        groups = {group.name: prose.faults(group) for group in prose.held(self.top)}
        self.assertEqual(groups['low: comments'], ['where 2, at most 1', 'opening 2, at most 1'])

    def count(self) -> common.Tally:
        count = common.Count()
        with contextlib.redirect_stdout(io.StringIO()):
            prose.hold((group for group in prose.held(self.top) if not prose.is_exempt(group)), count)
        return count.tally

    def test_what_is_held_is_counted(self) -> None:
        self.assertEqual(self.count(), common.Tally(passed=3, failed=1))

    def test_what_is_exempt_is_not(self) -> None:
        self.exempt('low README.md')
        self.assertEqual(self.count(), common.Tally(passed=1))
        self.assertEqual(prose.unneeded(prose.held(self.top)), ['README.md'])

    def test_lines_are_named_with_their_rule(self) -> None:
        told = io.StringIO()
        with contextlib.redirect_stdout(told):
            prose.tell_lines(self.group('One.\n\nThe caller is told.\n'))
        self.assertEqual(told.getvalue(), f'{self.top / "page.md"}:3: [stilted: is told] The caller is told.\n')


class Here(unittest.TestCase):
    def test_what_is_exempt_is_there(self) -> None:
        self.assertEqual(prose.EXEMPT - {group.name.partition(':')[0] for group in prose.held()}, set())


if __name__ == '__main__':
    unittest.main()
