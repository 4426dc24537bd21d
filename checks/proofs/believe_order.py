"""The order of definitions on the page: each stands after all that it cites."""
from __future__ import annotations

import functools
import heapq
import re

from checks.common import TOP
from checks.proofs.believe_definitions import Definition, definitions_of
from checks.proofs.believe_names import Place


@functools.lru_cache(maxsize=None)
def floors() -> dict[str, int]:
    """The crates in the order of crates.txt, lowest first."""
    crates = re.findall(r'^(\w+)[^:#\n]*:', (TOP / 'crates.txt').read_text(), re.M)
    return {crate: floor for floor, crate in enumerate(crates)}


def cited_by(definition: Definition) -> frozenset[Place]:
    return definition.cites | definition.holds


def in_order(found: dict[Place, Definition]) -> list[list[Definition]]:
    """The definitions file by file, so that each stands behind all that it cites: of the files that may come next the lowest comes first, and one that
    cites itself over another file comes in two pieces."""
    files = {place.file for place in found}
    standing = {place: order for file in files for order, place in enumerate(in_file(file))}
    height = heights(found)
    waits = {place: sum(cited in found for cited in cited_by(definition)) for place, definition in found.items()}
    used_by: dict[Place, list[Place]] = {}
    for place, definition in found.items():
        for cited in cited_by(definition) & found.keys():
            used_by.setdefault(cited, []).append(place)

    def rank(place: Place) -> tuple[int, int, str, int]:
        return floors()[place.file.partition('/')[0]], height[place.file], place.file, standing[place]

    ready = [(rank(place), place) for place, number in waits.items() if number == 0]
    heapq.heapify(ready)
    pieces: list[list[Definition]] = []
    while ready:
        here = pieces[-1][-1].place.file if pieces else None
        same = [entry for entry in ready if entry[1].file == here]
        entry = min(same) if same else ready[0]
        ready.remove(entry)
        heapq.heapify(ready)
        place = entry[1]
        if place.file != here:
            pieces.append([])
        pieces[-1].append(found[place])
        for user in used_by.get(place, []):
            waits[user] -= 1
            if waits[user] == 0:
                heapq.heappush(ready, (rank(user), user))
    return pieces


def in_file(file: str) -> list[Place]:
    return [definition.place for definition in definitions_of(file).values()]


def heights(found: dict[Place, Definition]) -> dict[str, int]:
    """How many files of its crate stand below each file, one over another."""
    below: dict[str, set[str]] = {}
    for place, definition in found.items():
        near = {cited.file for cited in cited_by(definition) if cited in found and cited.file.partition('/')[0] == place.file.partition('/')[0]}
        below.setdefault(place.file, set()).update(near - {place.file})

    @functools.lru_cache(maxsize=None)
    def over(file: str) -> int:
        underway.add(file)
        height = max((1 + over(other) for other in below[file] if other not in underway), default=0)
        underway.remove(file)
        return height

    underway: set[str] = set()
    return {file: over(file) for file in sorted(below)}
