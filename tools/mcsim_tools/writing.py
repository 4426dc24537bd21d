"""Systems as text: what a tool has made or changed as tables becomes a file that mcsim reads.

Any tables that `tomllib` reads can be written. Lists of tables have a row a line, as on the pages, and a row may have comments above it."""
from __future__ import annotations

import datetime
import math
import re
from collections.abc import Mapping, Sequence
from typing import Any

BARE = re.compile(r'[A-Za-z0-9_-]+')
# for a row, by the name of its list and its place there: the lines of a comment above it
Comments = Mapping[tuple[str, int], Sequence[str]]


def text_of(text: str) -> str:
    """A basic string: control characters, quotes and backslashes are escaped."""
    short = {'"': '\\"', '\\': '\\\\', '\b': '\\b', '\t': '\\t', '\n': '\\n', '\f': '\\f', '\r': '\\r'}
    return '"' + ''.join(short.get(one) or (f'\\u{ord(one):04x}' if ord(one) < 32 or ord(one) == 127 else one) for one in text) + '"'


def key_of(key: str) -> str:
    return key if BARE.fullmatch(key) else text_of(key)


def value_of(value: Any) -> str:
    if isinstance(value, bool):
        return 'true' if value else 'false'
    if isinstance(value, str):
        return text_of(value)
    if isinstance(value, float) and not math.isfinite(value):
        return str(value)
    if isinstance(value, (int, float)):
        return repr(value)
    if isinstance(value, (datetime.datetime, datetime.date, datetime.time)):
        return value.isoformat()
    if isinstance(value, Mapping):
        return row_of(value)
    return '[' + ', '.join(map(value_of, value)) + ']'


def row_of(table: Mapping[str, Any]) -> str:
    """A table in one line."""
    inside = ', '.join(f'{key_of(key)} = {value_of(value)}' for key, value in table.items())
    return f'{{ {inside} }}' if inside else '{}'


def is_list_of_tables(value: Any) -> bool:
    return isinstance(value, Sequence) and not isinstance(value, str) and bool(value) and all(isinstance(one, Mapping) for one in value)


def system_text(tables: Mapping[str, Any], head: Sequence[str] = (), comments: Comments = {}) -> str:
    """The file of a system, with comments at its head."""
    lines = [f'# {line}'.rstrip() for line in head]
    for key, value in tables.items():
        if not is_list_of_tables(value):
            lines.append(f'{key_of(key)} = {value_of(value)}')
            continue
        lines.append(f'{key_of(key)} = [')
        for place, row in enumerate(value):
            lines += [f'  # {line}' for line in comments.get((key, place), ())]
            lines.append(f'  {row_of(row)},')
        lines.append(']')
    return ''.join(f'{line}\n' for line in lines)
