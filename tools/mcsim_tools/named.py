"""Names that a user wrote and that are not there: what is known, and the nearest to what was written."""
from __future__ import annotations

import difflib
import re
from collections.abc import Iterable

NAME = re.compile(r'[A-Za-z0-9_-]{1,32}')
NAMES = '1 to 32 of A-Z a-z 0-9 _ -'
# how many known names are told
MOST = 8


def known(name: str, names: Iterable[str]) -> str:
    """What is allowed in place of a name that is not known: the nearest, or the first of all."""
    listed = list(names)
    near = difflib.get_close_matches(name, listed, 1)
    if near:
        return f'the nearest is {near[0]}'
    if not listed:
        return 'there is none'
    return 'there are ' + ', '.join(listed[:MOST]) + (', ..' if len(listed) > MOST else '')
