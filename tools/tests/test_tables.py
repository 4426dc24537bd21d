"""Tables as the program reads them: with a mark of the byte order, and with what TOML 1.1 adds."""
from __future__ import annotations

import pathlib
import sys
import unittest

sys.path.insert(0, str(pathlib.Path(__file__).resolve().parent.parent))
from mcsim_tools import tables
from mcsim_tools.tables import NotTOML


class Read(unittest.TestCase):
    def refused(self, text: bytes, said: str) -> None:
        with self.assertRaises(NotTOML) as found:
            tables.read(text)
        self.assertEqual(str(found.exception), said)

    def test_one_mark_of_the_byte_order_is_passed_over(self) -> None:
        self.assertEqual(tables.read(b'\xef\xbb\xbfa = 1\n'), {'a': 1})
        self.refused(b'\xef\xbb\xbf\xef\xbb\xbfa = 1\n', 'not TOML at line 1: Invalid statement')

    def test_inline_tables_over_several_lines(self) -> None:
        text = b'a = { # one }, two\r\n  b = [\n    1, # [\n    { c = "}," , },\n  ],\n\n  d = """\n,}""",\n}\ne = { }\nf = [{}, { g = 1 ,\n }, ]\n'
        self.assertEqual(tables.read(text), {'a': {'b': [1, {'c': '},'}], 'd': ',}'}, 'e': {}, 'f': [{}, {'g': 1}]})

    def test_escapes_of_one_byte_and_of_esc(self) -> None:
        self.assertEqual(tables.read(b'a = "\\x41\\e\\\\x41\\\\e"\nb = \'\\x41\'\nc = """\\x42"""\n'), {'a': 'A\x1b\\x41\\e', 'b': '\\x41', 'c': 'B'})

    def test_what_is_no_toml_has_its_line(self) -> None:
        for text, said in (
            (b'a = { b = 1,\n  c = 2,\n}\nd = \n', 'not TOML at line 4: Invalid value'),
            (b'a = { , }\n', 'not TOML at line 1: Invalid initial character for a key part'),
            (b'a = { b = 1,, }\n', 'not TOML at line 1: Invalid initial character for a key part'),
            (b'a = "\\y"\n', "not TOML at line 1: Unescaped '\\' in a string"),
            (b'a = "\\x4"\n', "not TOML at line 1: Unescaped '\\' in a string"),
            (b'a = 1 \xff\n', 'not UTF-8'),
            (b'a = ' + b'[' * 50_000, 'not TOML: nested too deep'),
        ):
            self.refused(text, said)


if __name__ == '__main__':
    unittest.main()
