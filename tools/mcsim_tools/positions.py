"""Where the keys, values and rows of a TOML text stand: tomllib gives values, and keeps no places.

`read` goes over the text once and gives a tree of nodes, each with its place. It tests nothing that a reader of TOML tests: a text that is no TOML has a
tree of what stands before the first place at which this reader is lost, and that place is its `lost`. Its time grows with the text alone: short pairs
and short items, of which long texts are made, are read by one match each, and no more than
`KEPT` items of an array and keys of a table are kept."""
from __future__ import annotations

import re
import types
from collections.abc import Mapping, Sequence
from dataclasses import dataclass, field
from typing import NamedTuple, Optional

SPACE = re.compile(r'[ \t]*+')
# spaces, line ends and comments, which may stand between the parts of an array or an inline table; as many as a match can go back over in little memory
# (no group is possessive: before Python 3.11.5 such a one with branches matches too little)
BETWEEN = re.compile(r'(?:[ \t\r\n]++|#[^\n]*+){1,1000}')
BARE_KEY = re.compile(r'[A-Za-z0-9_-]++')
# a number, a boolean, a date, or whatever else stands there
OTHER = re.compile(r'[^\s,\]}#]++(?: \d\d:\d\d[^\s,\]}#]*+)?')
LINE_END = re.compile(r'\A\r?\n')
ESCAPE = re.compile(r'\\(?:u([0-9A-Fa-f]{4})|U([0-9A-Fa-f]{8})|x([0-9A-Fa-f]{2})|(\s+)|(.))', re.S)
ESCAPES = {'b': '\b', 't': '\t', 'n': '\n', 'f': '\f', 'r': '\r', 'e': '\x1b'}

# what stands for itself: a string of one line without an escape, a number or a word
SIMPLE = r'''("[^"\\\n]*+"(?!")|'[^'\n]*+'(?!')|[A-Za-z0-9_+.:-]++)'''
# a line with a pair, or with the header of a row; a pair of an inline table with what ends it; an item of an array with its comma
PAIR_LINE = re.compile(rf'[ \t]*+([A-Za-z0-9_-]++)[ \t]*+=[ \t]*+{SIMPLE}[ \t]*+(?:#[^\n]*+)?(?:\r?\n|\Z)')
ROW_LINE = re.compile(r'[ \t]*+\[\[([A-Za-z0-9_-]++)\]\][ \t]*+(?:#[^\n]*+)?(?:\r?\n|\Z)')
INLINE_PAIR = re.compile(rf'([A-Za-z0-9_-]++)[ \t]*+=[ \t]*+{SIMPLE}[ \t]*+([,}}])')
ITEM = re.compile(rf'{SIMPLE}[ \t]*+,[ \t\r\n]*+')
# items that stand for themselves, without a comma in them: as many as there are commas, and no more than a match can go back over in little memory
ITEMS = re.compile(r'''(?:(?:"[^"\\\n,]*+"(?!")|'[^'\n,]*+'(?!')|[A-Za-z0-9_+.:-]++)[ \t]*+,[ \t\r\n]*+){1,1000}''')
# items of an array and keys of a table that are kept: more than any of a system may have
KEPT = 5000
# parts of a dotted key, and characters of a text whose escapes are read
DEEPEST, LONGEST = 500, 10**6


# the keys of what is no table
NO_KEYS: Mapping[str, Entry] = types.MappingProxyType({})


class Position(NamedTuple):
    """A line and a column, from 1."""

    line: int
    column: int


class Entry(NamedTuple):
    """A key of a table: where the key stands in the text, and its value."""

    at: int
    value: Node


@dataclass(slots=True)
class Node:
    """A value: a table with its keys, an array with its items, a text, or another value as it is written; and where it stands in the text."""

    at: int
    kind: str
    text: str = ''
    # the same one for all that have none, since a long text has many plain values
    keys: Mapping[str, Entry] = field(default_factory=lambda: NO_KEYS)
    items: Sequence[Node] = ()
    # how many items there are, those that are not kept with them
    count: int = 0

    def get(self, key: str) -> Optional[Node]:
        return self.keys[key].value if key in self.keys else None

    def put(self, key: str, entry: Entry) -> None:
        """Keeps a key, if there is room."""
        if not isinstance(self.keys, dict):
            self.keys = {}
        if len(self.keys) < KEPT:
            self.keys[key] = entry

    def add(self, item: Node) -> Node:
        """Counts an item, and keeps it if there is room."""
        if not isinstance(self.items, list):
            self.items = []
        if self.count < KEPT:
            self.items.append(item)
        self.count += 1
        return item


def plain(at: int, written: str) -> Node:
    """A value that stands for itself."""
    is_text = written[0] in '"\''
    return Node(at, 'text' if is_text else 'other', written[1:-1] if is_text else written)


class Form(NamedTuple):
    """A form of strings: how it opens, what stands within, some of it at a time, and how it closes."""

    opens: str
    within: re.Pattern[str]
    closes: re.Pattern[str]


FORMS = (
    Form('"""', re.compile(r'(?:[^"\\]++|\\.|"(?!"")){1,1000}', re.S), re.compile(r'"{3,5}')),
    Form("'''", re.compile(r"(?:[^']++|'(?!'')){1,1000}", re.S), re.compile(r"'{3,5}")),
    Form('"', re.compile(r'(?:[^"\\\n]++|\\.){1,1000}'), re.compile('"')),
    Form("'", re.compile(r"[^'\n]++"), re.compile("'")),
)
OF_ONE_LINE = FORMS[2:]


class Lost(Exception):
    """The reader can't tell what stands here."""


class Reader:
    """One pass over a text."""

    def __init__(self, text: str) -> None:
        self.text = text
        self.at = 0
        self.root = Node(0, 'table')
        self.lost: Optional[Position] = None

    def position(self, at: int) -> Position:
        """The line and the column of a place in the text."""
        return Position(self.text.count('\n', 0, at) + 1, at - self.text.rfind('\n', 0, at))

    def place(self, line: int) -> Optional[int]:
        """Where a line begins, if there is one of this number."""
        at = 0
        for _ in range(line - 1):
            at = self.text.find('\n', at) + 1
            if at == 0:
                return None
        return at

    def line(self, at: int) -> str:
        """The line of a place, without its end."""
        end = self.text.find('\n', at)
        return self.text[self.text.rfind('\n', 0, at) + 1:len(self.text) if end < 0 else end].rstrip('\r')

    def skip(self, what: re.Pattern[str]) -> None:
        """Passes what matches here, as often as it does."""
        while (found := what.match(self.text, self.at)) and found.end() > self.at:
            self.at = found.end()

    def takes(self, mark: str) -> bool:
        """Whether this comes next; then it is passed."""
        found = self.text.startswith(mark, self.at)
        self.at += len(mark) if found else 0
        return found

    def wants(self, mark: str) -> None:
        if not self.takes(mark):
            raise Lost

    def document(self) -> None:
        table = self.root
        self.skip(BETWEEN)
        while self.at < len(self.text):
            if found := PAIR_LINE.match(self.text, self.at):
                put(table, found[1], found.start(1), plain(found.start(2), found[2]))
                self.at = found.end()
            elif found := ROW_LINE.match(self.text, self.at):
                table = row(self.root, found[1], found.start(1) - 2, found.start(1))
                self.at = found.end()
            else:
                table = self.statement(table)
            self.skip(BETWEEN)

    def statement(self, table: Node) -> Node:
        """Reads a header or a pair of any form; gives the table to which what follows belongs."""
        if self.text[self.at] == '[':
            table = self.header()
        else:
            self.pair(table)
        self.skip(SPACE)
        if self.at < len(self.text) and self.text[self.at] not in '\r\n#':
            raise Lost
        return table

    def header(self) -> Node:
        """The table to which the keys below a header belong."""
        begin = self.at
        self.wants('[')
        is_row = self.takes('[')
        path = self.key_path()
        self.wants(']]' if is_row else ']')
        table = self.root
        for key, at in path[:-1]:
            table = within(table, key, at)
        key, at = path[-1]
        return row(table, key, begin, at) if is_row else within(table, key, at)

    def pair(self, table: Node) -> None:
        """Reads a key and its value into a table."""
        path = self.key_path()
        self.wants('=')
        self.skip(SPACE)
        for key, at in path[:-1]:
            table = within(table, key, at)
        key, at = path[-1]
        # what is read of a value before the reader is lost stays
        self.value(put(table, key, at, Node(self.at, 'other')))

    def key_path(self) -> list[tuple[str, int]]:
        """The parts of a dotted key, and where they stand."""
        path: list[tuple[str, int]] = []
        while len(path) < DEEPEST:
            self.skip(SPACE)
            at = self.at
            path.append((self.key(), at))
            self.skip(SPACE)
            if not self.takes('.'):
                return path
        raise Lost

    def key(self) -> str:
        found = BARE_KEY.match(self.text, self.at)
        if found:
            self.at = found.end()
            return found[0]
        quoted = self.string(OF_ONE_LINE)
        if quoted is None:
            raise Lost
        return quoted

    def string(self, forms: tuple[Form, ...]) -> Optional[str]:
        for form in forms:
            if self.text.startswith(form.opens, self.at) and (text := self.within(form)) is not None:
                return unescaped(text) if form.opens[0] == '"' else text
        return None

    def within(self, form: Form) -> Optional[str]:
        """What stands in a string of a form, whose end is passed; None if it has no end."""
        begin = at = self.at + len(form.opens)
        while found := form.within.match(self.text, at):
            at = found.end()
        end = form.closes.match(self.text, at)
        if end is None:
            return None
        self.at = end.end()
        text = self.text[begin:self.at - len(form.opens)]
        # a line that ends where the string opens is no part of it
        return LINE_END.sub('', text, count=1) if len(form.opens) == 3 else text

    def value(self, node: Node) -> None:
        if self.takes('['):
            node.kind = 'array'
            self.array(node)
        elif self.takes('{'):
            node.kind = 'table'
            self.inline_table(node)
        else:
            self.plain(node)

    def plain(self, node: Node) -> None:
        is_text = self.text[self.at:self.at + 1] in ('"', "'")
        text = self.string(FORMS) if is_text else None
        if text is not None:
            node.kind, node.text = 'text', text
            return
        found = OTHER.match(self.text, self.at)
        if not found or is_text:
            raise Lost
        node.text = found[0]
        self.at = found.end()

    def array(self, array: Node) -> None:
        self.skip(BETWEEN)
        self.simple_items(array)
        while not self.takes(']'):
            self.value(array.add(Node(self.at, 'other')))
            if not self.goes_on(']'):
                return
            self.simple_items(array)

    def simple_items(self, array: Node) -> None:
        """Reads the items of one match each that come next."""
        text, at, match = self.text, self.at, ITEM.match
        while array.count < KEPT and (found := match(text, at)):
            array.add(plain(at, found[1]))
            at = found.end()
        while array.count >= KEPT and (found := ITEMS.match(text, at)):
            array.count += text.count(',', at, found.end())
            at = found.end()
        self.at = at
        self.skip(BETWEEN)

    def inline_table(self, table: Node) -> None:
        self.skip(BETWEEN)
        while not self.takes('}'):
            if found := INLINE_PAIR.match(self.text, self.at):
                put(table, found[1], found.start(1), plain(found.start(2), found[2]))
                self.at = found.end()
                if found[3] == '}':
                    return
                self.skip(BETWEEN)
                continue
            self.pair(table)
            if not self.goes_on('}'):
                return

    def goes_on(self, end: str) -> bool:
        """Whether a comma follows a part of a list; else its end is passed."""
        self.skip(BETWEEN)
        if not self.takes(','):
            self.wants(end)
            return False
        self.skip(BETWEEN)
        return True


def put(table: Node, key: str, at: int, value: Node) -> Node:
    """The value of a key. Of one that stands twice it is the first, which takes what the second one is."""
    entry = table.keys.get(key)
    if entry is None:
        table.put(key, Entry(at, value))
        return value
    entry.value.kind, entry.value.text = value.kind, value.text
    return entry.value


def within(table: Node, key: str, at: int) -> Node:
    """The table of a key; of an array of tables its last row."""
    found = table.get(key) or put(table, key, at, Node(at, 'table'))
    return found.items[-1] if found.kind == 'array' and found.items else found


def row(table: Node, key: str, begin: int, at: int) -> Node:
    """A new row of an array of tables."""
    return (table.get(key) or put(table, key, at, Node(begin, 'array'))).add(Node(begin, 'table'))


def unescaped(text: str) -> str:
    """A text between quotes, without its escapes; a very long one is as it is written."""
    def character(found: re.Match[str]) -> str:
        if code := found[1] or found[2] or found[3]:
            number = int(code, 16)
            return chr(number) if number <= 0x10FFFF else '\ufffd'
        return '' if found[4] else ESCAPES.get(found[5], found[5])

    return ESCAPE.sub(character, text) if '\\' in text and len(text) <= LONGEST else text


def read(text: str) -> Reader:
    """The tree of a text, and where the reader was lost, if anywhere."""
    reader = Reader(text)
    try:
        reader.document()
    except (Lost, RecursionError):
        reader.lost = reader.position(reader.at)
    return reader
