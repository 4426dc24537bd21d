"""The tables of a TOML text, as the program reads it: a mark of the byte order at its head is passed over, and it may be of TOML 1.1.

Python's `tomllib` reads TOML 1.0. A text that it refuses is read again with what TOML 1.1 adds written as in 1.0: line ends, comments and a last comma
in an inline table, and the escapes of one byte and of ESC."""
from __future__ import annotations

import re
import tomllib
from collections.abc import Callable
from typing import Any, Optional

Tables = dict[str, Any]

# strings of the four kinds, comments, line ends, commas, brackets and what stands between them
TOKEN = re.compile(
    r'"""(?:[^"\\]++|\\.|"(?!""))*"{3,5}|\'\'\'(?:[^\']++|\'(?!\'\'))*\'{3,5}|"(?:[^"\\\n]++|\\.)*"|\'[^\'\n]*+\''
    r'|#[^\n]*+|\r?\n|[\[\]{},]|[^"\'#\r\n\[\]{},]++|.', re.S,
)
ESCAPE = re.compile(r'\\(?:x([0-9A-Fa-f]{2})|(e)|.)', re.S)
CLOSES = {'[': ']', '{': '}'}
LINE_END = '\n'
PLACE = re.compile(r' \(at line (\d+), column (\d+)\)$')


class NotTOML(Exception):
    """A text that is no TOML, with the reason in one line."""


def escaped(found: re.Match[str]) -> str:
    """An escape as TOML 1.0 writes it."""
    if found[1]:
        return f'\\u00{found[1]}'
    return '\\u001b' if found[2] else found[0]


def as_long(found: re.Match[str]) -> str:
    """An escape of TOML 1.1 as other characters, as many; another one as it is."""
    return 'x' * len(found[0]) if found[1] or found[2] else found[0]


def as_of_1_0(text: str, escape: Callable[[re.Match[str]], str] = escaped) -> str:
    """A text of TOML 1.1 as TOML 1.0 writes it. What leaves an inline table becomes as many spaces."""
    parts: list[str] = []
    open_brackets: list[str] = []
    # where a comma stands that no part of an inline table has followed yet
    comma: Optional[int] = None
    before = ''
    for token in TOKEN.findall(text):
        is_inline = bool(open_brackets) and open_brackets[-1] == '{'
        if is_inline and (token in ('\n', '\r\n') or token[0] == '#'):
            parts.append(' ' * len(token))
            continue
        if token == '}' and is_inline and comma is not None:
            parts[comma] = ' '
        if token in CLOSES:
            open_brackets.append(token)
        elif open_brackets and token == CLOSES[open_brackets[-1]]:
            open_brackets.pop()
        if not token.isspace():
            comma = len(parts) if token == ',' and is_inline and before not in ('{', ',') else None
            before = token
        parts.append(ESCAPE.sub(escape, token) if token[0] == '"' else token)
    return ''.join(parts)


def read(text: bytes) -> Tables:
    """Returns the tables of a text, or raises `NotTOML`."""
    try:
        plain = text.decode('utf-8-sig')
    except UnicodeDecodeError:
        raise NotTOML('not UTF-8') from None
    try:
        return tomllib.loads(plain)
    except RecursionError:
        raise NotTOML('not TOML: nested too deep') from None
    except ValueError:
        pass
    try:
        return tomllib.loads(as_of_1_0(plain))
    except (ValueError, RecursionError):
        place, said = refusal(plain)
        where = '' if place is None else f' at line {plain.count(LINE_END, 0, place) + 1}'
        raise NotTOML(f'not TOML{where}: {said}') from None


def refusal(text: str) -> tuple[Optional[int], str]:
    """Where in a text a reader of TOML refuses it, if that can be told, and why; nothing of a text that it takes."""
    changed = as_of_1_0(text, as_long)
    try:
        tomllib.loads(changed)
    except RecursionError:
        return None, 'tables or arrays lie too deep within each other'
    except ValueError as error:
        found = PLACE.search(str(error))
        if not found:
            return None, str(error)
        place = 0
        for _ in range(int(found[1]) - 1):
            place = changed.find(LINE_END, place) + 1
        return place + int(found[2]) - 1, str(error)[: found.start()]
    return None, ''
