"""Tries edits of different functions in one check, for the gate (timed_rt.py) and for edits.py --together.

The prover checks a function against the contracts of the others, and never against their bodies. So what comes of an edit of one body does not
depend on what stands in the other bodies, and a check that loads the crate once can try edits of many functions. The kit's rt-plant does the same.
A check of these functions alone is enough: the crate as it stands is proved, and so each other function is.

An edit that changes more than one function, or something beside bodies, has a check for itself, of the functions that it changes. Whatever is not refused so
for a goal of its function is left to the kit's own means: a check of the whole crate. So is an edit with which the crate cannot be read."""
from __future__ import annotations

import importlib.machinery
import os
import pathlib
import re
import shutil
import sys
import types
from collections.abc import Iterable, Iterator, Mapping, Sequence
from typing import Any, NamedTuple

# a line that tells of a place, as the kit reads it
PLACED = re.compile(r'(?:note: )?(?:\./)?(\S+?):(\d+):\d+:')
# what a proof file says that names what the edit took away, as the kit reads it; and that a place of the proof has other facts
NAMES = re.compile(r'(note: )?(\./)?proofs/.*(has no field|is not in scope|has no `|was not admitted|record `[^`]*` \(nearest: )')
# what a proof says that rests on one that was refused
RESTS = 'was not admitted'
LIMIT = re.compile('gave up at one of its (own )?limits')
FAILED = ('not proved', 'no proof')
FUNCTION = re.compile(r'(?m)^fn (\S+): (.*)')
# what a check says if it could not use what was kept of a library: then it says nothing of an edit
STALE = 'Run the lower steps again'


class Planted(NamedTuple):
    """An edit of a function's body: the function as rt-plant reads it, and its text with the edit."""

    edit: pathlib.Path
    function: Any
    text: bytes


class Found(NamedTuple):
    """A refusal for a goal: whether a search met a limit of its own at each such goal, and the line that tells of one. Or one for a name alone."""

    is_at_limit: bool
    why: str
    is_named: bool = False


def plant_of(rt: Any) -> types.ModuleType:
    """The program rt-plant as a module, over the crates of rt."""
    path = os.path.join(os.path.dirname(os.path.realpath(shutil.which('rt') or 'rt')), 'rt-plant')
    plant = types.ModuleType('rt_plant')
    plant.__file__ = path
    importlib.machinery.SourceFileLoader('rt_plant', path).exec_module(plant)
    setattr(plant, 'rt', rt.rtlib)
    return plant


def source_of(rt: Any, crate: Any) -> Any:
    """The functions of a crate, as rt-plant reads them."""
    source = plant_of(rt).bodies.Source(crate.folder)
    source.read('src/main.rt' if crate.is_program else 'src/lib.rt')
    return source


def changed(old: bytes, new: bytes) -> tuple[int, int]:
    """The bytes of a text that another one changes, from the first to behind the last."""
    begin, end = len(os.path.commonprefix([old, new])), 0
    while end < min(len(old), len(new)) - begin and old[-1 - end] == new[-1 - end]:
        end += 1
    return begin, len(old) - end


def planted(rt: Any, source: Any, folder: str, edit: pathlib.Path) -> Planted | None:
    """An edit with the function whose body it changes, or None if it changes anything else."""
    texts, why = rt.read_edit(str(edit), folder)
    if why or len(texts) != 1:
        return None
    (file, text), = texts.items()
    old, new = source.data.get(file, b''), text.encode()
    begin, end = changed(old, new)
    found = [it for it in source.functions if it.file == file and it.opens <= begin and end <= it.end]
    if len(found) != 1:
        return None
    return Planted(edit, found[0], new[found[0].first:found[0].end + len(new) - len(old)])


def groups(edits: Iterable[Planted]) -> list[list[Planted]]:
    """The edits in groups, each of which changes a function once."""
    found: list[list[Planted]] = []
    for each in edits:
        free = (group for group in found if all(it.function is not each.function for it in group))
        group = next(free, None)
        if group is None:
            found.append([each])
        else:
            group.append(each)
    return found


class Written:
    """The files of a crate with the edits of a group, and the lines of each."""

    def __init__(self, source: Any, group: Sequence[Planted]) -> None:
        self.texts: dict[str, str] = {}
        self.lines: dict[pathlib.Path, range] = {}
        for file in {it.function.file for it in group}:
            text, at = b'', 0
            for it in sorted((it for it in group if it.function.file == file), key=lambda it: int(it.function.first)):
                text += source.data[file][at:it.function.first]
                first = text.count(b'\n') + 1
                text, at = text + it.text, it.function.end
                self.lines[it.edit] = range(first, text.count(b'\n') + 2)
            self.texts[file] = (text + source.data[file][at:]).decode()


def name_of(block: Any) -> str:
    """A check's name for an implementation of a trait: the type and the trait in one word, as `VecRowSink`, without modules, lifetimes and parameters."""
    words = [*block.ty, *block.trait, '']
    left_out = {*block.generics, 'mut', 'const', 'dyn', 'fn', 'Self'}
    return ''.join(word for word, behind in zip(words, words[1:]) if word.isidentifier() and behind != ':' and word not in left_out)


def end_of(function: Any) -> list[str]:
    """The last words of a check's name for a function. A method's type may be declared in another module."""
    if function.in_trait:
        return [name_of(function.block), function.name]
    return [function.owner, function.name] if function.block else [*function.module, function.name]


def symbols(crate: str, function: Any, known: Iterable[str]) -> list[str]:
    """The names by which a check may call a function: of a method of a trait those that fit."""
    parts = {name: name.split('::') for name in known}
    if not function.in_trait:
        end = end_of(function)
        return [name for name, words in parts.items() if words[-len(end):] == end]
    start = [crate, *function.module]
    return [name for name, words in parts.items() if words[:-2] == start and words[-1] == function.name and function.block.fits(words[-2])]


def goals_of(lines: Iterable[str]) -> tuple[bool, str] | None:
    """Whether a search met a limit of its own at each goal that these lines tell of, and the first goal where none did, or else the first. None if they tell
    of no goal."""
    told = [it for it in lines if PLACED.match(it) and (': error' in it or it.startswith('note: '))]
    goals = [it for it in told if not NAMES.match(it)]
    plain = [it for it in goals if not LIMIT.search(it)]
    return (not plain, (plain or goals)[0]) if goals else None


def lines_of(said: str, each: Planted, lines: range, symbol: str) -> Iterator[str]:
    """The lines of a check that tell of a place in a function, or in its proof."""
    proof = 'proofs/' + '/'.join(symbol.split('::')[1:]) + '/'
    for line in said.split('\n'):
        place = PLACED.match(line)
        if place and (place[1].startswith(proof) or place[1] == each.function.file and int(place[2]) in lines):
            yield line


def found(crate: str, said: str, each: Planted, lines: range) -> Found | None:
    """What a check says of an edit, or None if it does not refuse it for a goal or a name of its function."""
    functions = dict(FUNCTION.findall(said))
    names = symbols(crate, each.function, functions)
    if len(names) != 1 or not functions.get(names[0], '').startswith(FAILED):
        return None
    told = list(lines_of(said, each, lines, names[0]))
    gone = [it for it in told if NAMES.match(it) and RESTS not in it]
    goals = goals_of(told)
    return Found(*goals) if goals else Found(False, gone[0], is_named=True) if gone else None


def said_of(rt: Any, crate: Any, texts: Mapping[str, str], functions: Iterable[Any], kept: str | None) -> str:
    """What a check of these functions says of a crate with these texts, over what is kept, or from nothing."""
    asked = [word for it in functions for word in ('--only', '::'.join(end_of(it)))]
    return str(rt.checked(crate, texts, ['--jobs', '1', *asked], kept).stdout)


def is_judged(rt: Any, said: str, texts: Mapping[str, str]) -> bool:
    """Whether a check came as far as its functions, and read each text: what the kit takes for a bad edit is none that was refused."""
    unread = getattr(rt, 'unread', lambda *_: False)
    return bool(FUNCTION.search(said)) and STALE not in said and not any(unread(line, texts) for line in said.split('\n'))


def tried(rt: Any, crate: Any, source: Any, group: Sequence[Planted], kept: str | None) -> dict[pathlib.Path, Found]:
    """What came of a group over what is kept: those that are refused. One half after the other if it cannot be read whole, and without functions that the
    check does not know by the names that they have here."""
    written = Written(source, group)
    said = said_of(rt, crate, written.texts, (it.function for it in group), kept)
    if is_judged(rt, said, written.texts):
        came = {it.edit: found(crate.name, said, it, written.lines[it.edit]) for it in group}
        return {edit: what for edit, what in came.items() if what}
    unknown = set(re.findall('has no function `([^`]*)`', said))
    if rest := [it for it in group if '::'.join(end_of(it.function)) not in unknown] if unknown else []:
        return tried(rt, crate, source, rest, kept)
    if unknown or len(group) == 1:
        return {}
    half = len(group) // 2
    return {**tried(rt, crate, source, group[:half], kept), **tried(rt, crate, source, group[half:], kept)}


def tried_by_itself(rt: Any, crate: Any, source: Any, edit: pathlib.Path, kept: str | None) -> dict[pathlib.Path, Found]:
    """What a check of the functions that an edit changes says of it over what is kept; nothing if it does not refuse one of them."""
    texts, why = rt.read_edit(str(edit), crate.folder)
    functions = [] if why else [it for it in source.functions if it.file in texts and source.data[it.file][it.first:it.end] not in texts[it.file].encode()]
    if not functions:
        return {}
    said = said_of(rt, crate, texts, functions, kept)
    if not is_judged(rt, said, texts):
        return {}
    # (no other edit stands in these files, so each of their lines may tell of this one)
    came = (found(crate.name, said, Planted(edit, it, b''), range(1, sys.maxsize)) for it in functions)
    first = next(filter(None, came), None)
    return {edit: first} if first else {}


def settled(rt: Any, crate: Any, source: Any, edits: Iterable[Planted], kept: str | None) -> Iterator[tuple[list[Planted], dict[pathlib.Path, Found]]]:
    """Each group that is tried, with those of its edits that are refused. Edits that are left are tried again while some are refused: a check says nothing of
    a function if one that it calls is refused in the same group."""
    left = list(edits)
    while left:
        came: dict[pathlib.Path, Found] = {}
        for group in groups(left):
            refused = tried(rt, crate, source, group, kept)
            yield group, refused
            came.update(refused)
        left = [it for it in left if it.edit not in came] if came else []


def of_crate(rt: Any, crate: Any, edits: Iterable[pathlib.Path], kept: str | None) -> Iterator[tuple[Sequence[pathlib.Path], dict[pathlib.Path, Found]]]:
    """The edits of a crate that is proved as it stands, in groups, each with those of it that are refused."""
    source = source_of(rt, crate)
    plants = {edit: planted(rt, source, crate.folder, edit) for edit in edits}
    for group, came in settled(rt, crate, source, filter(None, plants.values()), kept):
        yield [it.edit for it in group], came
    for edit, plant in plants.items():
        if plant is None:
            yield [edit], tried_by_itself(rt, crate, source, edit, kept)


def refused(rt: Any, crate: Any, edits: Iterable[str]) -> dict[str, str]:
    """Those of a crate's edits that are refused for a goal at which no search met a limit, each with the line that tells of it. The crate is proved as it
    stands, over libraries that are there; each check is from nothing."""
    came = [each for _, of_group in of_crate(rt, crate, map(pathlib.Path, edits), None) for each in of_group.items()]
    return {str(edit): it.why for edit, it in came if not it.is_named and not it.is_at_limit}
