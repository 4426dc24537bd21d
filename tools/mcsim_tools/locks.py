"""Which notifications are used as locks."""
from __future__ import annotations

import collections
from collections.abc import Iterable
from typing import Optional

from .system import Thread


def locks_of(posts: Iterable[tuple[str, Optional[Thread]]]) -> set[str]:
    """Returns the notifications of which each maker of a signal also waits for them, but for one who signals once, at the beginning. A signal that
    finds nobody there means that the lock is free. Each post is a notification and the maker of the signal, if scripts tell who that is."""
    taken, others = set(), set()
    for (note, maker), many in collections.Counter(posts).items():
        if maker and note in maker.waits:
            taken.add(note)
        elif many > 1:
            others.add(note)
    return taken - others
