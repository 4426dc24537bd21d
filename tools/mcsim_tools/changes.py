"""What a save of a system's file changed of its verdict: what got worse, and what got better."""
from __future__ import annotations

from collections.abc import Mapping
from typing import NamedTuple

from .packing import Packed
from .scale import Unit

# what is counted or measured by its name, with the words for it; less is better
Verdict = Mapping[str, tuple[int, str]]
# changes that are listed
LISTED = 20


class Change(NamedTuple):
    is_worse: bool
    said: str


def verdict_of(packed: Packed, unit: Unit) -> Verdict:
    """What was found of each thread, notification and chain, and the maximum response of each thread with a deadline."""
    found: dict[str, tuple[int, str]] = {}
    for thread in packed.threads:
        counts = packed.of[thread.name]
        if thread.deadline and counts.rounds:
            found[f'response of {thread.name}'] = counts.greatest, unit.text(counts.greatest)
        for name, many in ((f'missed by {thread.name}', counts.missed), (f'overdue: {thread.name}', counts.is_overdue), (f'never activated: {thread.name}', counts.is_never)):
            found[name] = int(many), f'{int(many):,}'
    for note, lost in packed.lost.items():
        found[f'lost at {note}'] = lost, f'{lost:,}'
    found |= {f'untaken at {note}': (1, '1') for note in packed.notes_untaken}
    return found


def changes(before: Verdict, after: Verdict) -> list[Change]:
    """What changed, the worse first. What one of both verdicts does not have counts as nothing."""
    found = []
    for name in dict.fromkeys([*after, *before]):
        (old, old_text), (new, new_text) = before.get(name, (0, 'none')), after.get(name, (0, 'none'))
        is_measured_once = name.startswith('response') and (name not in before or name not in after)
        if old != new and not is_measured_once:
            found.append(Change(new > old, f'{name}: {new_text}, was {old_text}'))
    return sorted(found, key=lambda change: not change.is_worse)


def told(found: list[Change]) -> list[tuple[bool, str]]:
    """The first of the changes, and how many more there are."""
    listed = [(change.is_worse, change.said) for change in found[:LISTED]]
    rest = found[LISTED:]
    return listed + ([(any(change.is_worse for change in rest), f'and {len(rest):,} more')] if rest else [])
