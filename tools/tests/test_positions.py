"""Where keys, values and rows stand, in texts whose lines were counted by hand."""
from __future__ import annotations

import pathlib
import sys
import time
import unittest
from typing import Union

sys.path.insert(0, str(pathlib.Path(__file__).resolve().parent.parent))
from mcsim_tools.positions import KEPT, Node, Position, Reader, read

# a machine with much else to do has so many seconds for what a free one does in a few
SECONDS = 600


def shape(node: Node) -> object:
    """A node without its places."""
    if node.kind == 'table':
        return {key: shape(entry.value) for key, entry in node.keys.items()}
    return [shape(item) for item in node.items] if node.kind == 'array' else node.text


def stands(tree: Reader, *path: Union[str, int]) -> Position:
    """Where the value of a path of keys and items stands."""
    node = tree.root
    for step in path:
        node = node.keys[step].value if isinstance(step, str) else node.items[step]
    return tree.position(node.at)


class Positions(unittest.TestCase):
    def test_keys_and_values_of_tables_with_headers(self) -> None:
        tree = read('version = 1\n\n# a row\n[[thread]]\n  name = "A"\n[[thread]]\nname = "B"\n')
        self.assertEqual([stands(tree, 'thread', row) for row in (0, 1)], [(4, 1), (6, 1)])
        first, second = tree.root.keys['thread'].value.items
        self.assertEqual(tree.position(first.keys['name'].at), (5, 3))
        self.assertEqual(stands(tree, 'thread', 0, 'name'), (5, 10))
        self.assertEqual(second.keys['name'].value.text, 'B')

    def test_rows_and_items_of_inline_tables(self) -> None:
        tree = read('thread = [\n  { name = "A" }, # one\n  { name = "B", script = ["yield",\n    "wait n"] },\n]\n')
        self.assertEqual(stands(tree, 'thread', 1), (3, 3))
        self.assertEqual([stands(tree, 'thread', 1, 'script', item) for item in (0, 1)], [(3, 27), (4, 5)])

    def test_an_inline_table_over_several_lines(self) -> None:
        self.assertEqual(shape(read('a = { b = 1,\n  c = [2, 3,],\n}\n').root), {'a': {'b': '1', 'c': ['2', '3']}})

    def test_marks_within_texts_and_comments_are_passed(self) -> None:
        tree = read('a = "[[x]] # \\" {" # ] }\nb = \'\\\'\nc = """\n"]"\n"""\n"d e" = 1\n')
        self.assertEqual(shape(tree.root), {'a': '[[x]] # " {', 'b': '\\', 'c': '"]"\n', 'd e': '1'})
        self.assertEqual(tree.position(tree.root.keys['d e'].at), (6, 1))

    def test_texts_that_are_empty_and_texts_of_three_quotes(self) -> None:
        tree = read('a = ""\nb = \'\'\nc = ["", \'\', """x""", 1]\nd = """"x"""\n')
        self.assertEqual(shape(tree.root), {'a': '', 'b': '', 'c': ['', '', 'x', '1'], 'd': '"x'})

    def test_escapes_of_each_kind(self) -> None:
        self.assertEqual(shape(read('a = "\\t\\u0041\\U00000042\\x43\\e"\n').root), {'a': '\tABC\x1b'})

    def test_pairs_of_inline_tables_in_each_form(self) -> None:
        self.assertEqual(shape(read('a = { b = "x" , "c" = \'y\', d = 1 }\n').root), {'a': {'b': 'x', 'c': 'y', 'd': '1'}})

    def test_dotted_keys_and_single_tables(self) -> None:
        text = 'a.b = 1\n[c.d]\ne = 2\n[[f]]\ng = 3\n[f.h]\ni = 4\n'
        self.assertEqual(shape(read(text).root), {'a': {'b': '1'}, 'c': {'d': {'e': '2'}}, 'f': [{'g': '3', 'h': {'i': '4'}}]})

    def test_a_row_of_another_row_is_no_row_of_the_file(self) -> None:
        self.assertEqual(shape(read('[[thread]]\n[[thread.x]]\n[[thread]]\n').root), {'thread': [{'x': [{}]}, {}]})

    def test_what_stands_before_the_place_where_it_is_lost_is_kept(self) -> None:
        tree = read('a = 1\nb = [2, "x\nc = 3\n')
        self.assertEqual(tree.lost, (2, 9))
        self.assertEqual(tree.root.keys['a'].value.text, '1')
        self.assertIsNone(tree.root.get('c'))

    def test_lines_that_end_with_a_return(self) -> None:
        tree = read('a = 1\r\nb = 2\r\n')
        self.assertEqual(tree.position(tree.root.keys['b'].at), (2, 1))

    def test_what_never_ends_is_lost_and_no_crash(self) -> None:
        self.assertIsNotNone(read('a = ' + '[' * 100_000).lost)
        self.assertIsNotNone(read('a.' * 100_000 + 'a = 1').lost)


class Long(unittest.TestCase):
    """Texts that are read in a time which grows with them alone."""

    def read(self, text: str) -> Reader:
        began = time.monotonic()
        tree = read(text)
        self.assertLess(time.monotonic() - began, SECONDS)
        return tree

    def test_many_tables_are_counted_and_few_are_kept(self) -> None:
        tree = self.read('version = 1\n' + '[[note]]\nname = "a"\ncore = 0\n' * 100_000 + 'x = [\n')
        notes = tree.root.keys['note'].value
        self.assertEqual((notes.count, len(notes.items)), (100_000, KEPT))
        self.assertEqual(tree.lost, (300_003, 1))

    def test_many_items_of_a_line(self) -> None:
        for item in ('1, ', '"wait n",', "'a,b',"):
            tree = self.read('x = [' + item * 200_000 + '7]\ny = 1\n')
            self.assertEqual(tree.root.keys['x'].value.count, 200_001)
            self.assertEqual(tree.root.keys['y'].value.text, '1')

    def test_a_text_that_fills_a_line(self) -> None:
        for mark in ('"', "'", '"""'):
            self.assertEqual(len(self.read(f'x = {mark}{"a" * 10_000_000}{mark}\n').root.keys['x'].value.text), 10_000_000)
        self.assertEqual(self.read('x = "' + 'a' * 10_000_000 + '\n').lost, (1, 5))


if __name__ == '__main__':
    unittest.main()
