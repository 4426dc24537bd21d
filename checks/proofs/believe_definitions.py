"""The definitions of crates/, each with what it cites: those of specs/, and the types and traits of src/."""
from __future__ import annotations

import functools
import re
from collections.abc import Iterable, Iterator, Sequence
from typing import NamedTuple

from checks.common import Count
from checks.proofs import believe_names
from checks.proofs.believe_names import Names, Place, Word, bound_in, cited_in, constructors_in, listed, names_in, read

# constructors of the toolchain's library that are written small
SMALL_CONSTRUCTORS = {'zero', 'suc', 'pos', 'negsuc', 'true', 'false', 'no_members', 'member', 'no_items', 'item'}


class Definition(NamedTuple):
    """A definition: its comment, its lines without that, the heads of the modules in which it stands, and what it cites.

    What the invariant of a type cites is kept apart, in `holds`: a part of the page may leave it to the next one."""

    place: Place
    comment: tuple[str, ...]
    lines: tuple[str, ...]
    modules: tuple[str, ...]
    cites: frozenset[Place]
    words: frozenset[Word]
    holds: frozenset[Place] = frozenset()


HEAD = re.compile(r'^( *)(?:(?:abbrev|unfoldable)(?: pub)? (\S+) :|(?:pub )?(?:record|data) (\w+))')


class Block(NamedTuple):
    """A definition as it stands in a file of specs/."""

    name: str
    comment: tuple[str, ...]
    lines: tuple[str, ...]
    modules: tuple[str, ...]


def indent_of(line: str) -> int:
    return len(line) - len(line.lstrip(' '))


def blocks_of(text: str) -> Iterator[Block]:
    """The definitions of a file of specs/."""
    lines = text.splitlines()
    modules: list[str] = []
    comment: list[str] = []
    at = 0
    while at < len(lines):
        line = lines[at]
        if not line.strip():
            comment = []
        elif line.lstrip().startswith('--'):
            comment.append(line)
        elif re.match(r' *module _', line):
            modules = [module for module in modules if indent_of(module) < indent_of(line)] + [line]
            comment = []
        elif found := HEAD.match(line):
            modules = [module for module in modules if indent_of(module) < indent_of(line)]
            name = found[2] or found[3]
            end = at + 1
            while end < len(lines) and lines[end].strip() and goes_on(lines[end], indent_of(line), name):
                end += 1
            before = [lines[at - 1]] if re.match(r' *infix', lines[at - 1]) else []
            yield Block(name, tuple(comment), (*before, *lines[at:end]), tuple(modules))
            comment, at = [], end - 1
        elif not re.match(r' *infix', line):
            comment = []
        at += 1


def closes(line: str, indent: int) -> bool:
    """Whether a line begins with the bracket that closes what a line so far from the edge has opened."""
    return indent_of(line) == indent and line.lstrip().startswith(('}', ')', ']'))


def goes_on(line: str, indent: int, name: str) -> bool:
    """Whether a line is one of the definition of this name, which stands so far from the edge."""
    if indent_of(line) > indent or closes(line, indent):
        return True
    parts = [part for part in name.split('◌') if part]
    return indent_of(line) == indent and not HEAD.match(line) and not line.lstrip().startswith(('--', 'module')) and parts[0] in line.split()


def clauses_of(those: Sequence[str]) -> Iterator[tuple[str, bool]]:
    """The type of a definition with these lines and each of its clauses, and whether it is such a clause. A record and a type are one text."""
    lines = [line for line in those if not line.lstrip().startswith(('--', 'infix'))]
    if re.match(r' *(pub )?(record|data)', lines[0]):
        yield '\n'.join(lines), False
        return
    indent = indent_of(lines[0])
    chunk: list[str] = []
    first = True
    for line in lines:
        if chunk and indent_of(line) == indent and not closes(line, indent):
            yield '\n'.join(chunk), not first
            chunk, first = [], False
        chunk.append(line)
    yield '\n'.join(chunk), not first


@functools.lru_cache(maxsize=None)
def definitions_of(file: str) -> dict[str, Definition]:
    """The definitions of a file, by name: those of its specs, or the types and traits of its sources."""
    return types_of(file) if file.endswith('.rt') else specs_of(file)


def specs_of(file: str) -> dict[str, Definition]:
    text = read(file)
    names = names_in(text)
    blocks = [*blocks_of(text)]
    names.places.update((name, Place(file, name)) for name in (block.name for block in blocks))
    names.places.update((name, Place(file, kind)) for name, kind in constructors_in(file).items())
    patterns = SMALL_CONSTRUCTORS & names.words.keys()
    found = {}
    for block in blocks:
        heads = '\n'.join(block.modules)
        held = bound_in(heads, (), None)
        fields = set(re.findall(r'^ *pub (\w+) :', '\n'.join(block.lines), re.M))
        places, words = cited_in(heads, held, names)
        for chunk, is_clause in clauses_of(block.lines):
            bound = held | fields | bound_in(chunk, patterns, block.name if is_clause else None)
            more_places, more_words = cited_in(chunk, bound, names)
            places |= more_places
            words |= more_words
        place = Place(file, block.name)
        found[block.name] = Definition(place, block.comment, block.lines, block.modules, frozenset(places - {place}), frozenset(words))
    return found


TYPE = re.compile(r'^(?:pub(?:\(\w+\))? )?(?:struct|enum|trait) (\w+)')
# a line of sources that brings in names of this repository, and whether it hands them on
IMPORT = re.compile(r'^(pub )?use (crate|super|mcs_\w+)::(?:\w+::)*(?:\{([^}]*)\}|(\w+));', re.M)
# a form of an enum, without what it holds
FORM = re.compile(r'^    \w+', re.M)
# a field, a parameter, a value or a call that the text of a type or a trait declares
DECLARED = re.compile(r'\bfn (\w+)|\b(\w+):(?!:)')
# lines of a type or a trait that say nothing of what it is
ASIDE = ('ghost use', '#[', 'ghost inverse', 'ghost laws')


@functools.lru_cache(maxsize=None)
def types_in(crate: str) -> dict[str, Place]:
    """The types and traits that the files of a crate declare, and those of other crates that they hand on."""
    found: dict[str, Place] = {}
    for path in sorted((believe_names.CRATES / crate / 'src').rglob('*.rt')):
        text = path.read_text()
        for hands_on, other, those, single in IMPORT.findall(text):
            if hands_on and other.startswith('mcs_'):
                found.update(taken_from(types_in(other), those or single))
        found.update((name, Place(str(path.relative_to(believe_names.CRATES)), name)) for name in re.findall(TYPE.pattern, text, re.M))
    return found


def taken_from(types: dict[str, Place], names: str) -> Iterator[tuple[str, Place]]:
    """Those of these types that a list of names brings in, by the names that they have there."""
    return ((here, types[name]) for name, here in listed(names) if name in types)


def types_known(file: str, text: str) -> dict[str, Place]:
    """What the names of types mean in a file of sources: those that it declares, and those that its lines `use` bring in."""
    crate = file.partition('/')[0]
    known = {name: Place(file, name) for name in re.findall(TYPE.pattern, text, re.M)}
    for _, other, those, single in IMPORT.findall(text):
        known.update(taken_from(types_in(other if other.startswith('mcs_') else crate), those or single))
    return known


def until_closed(lines: Sequence[str], at: int) -> int:
    """The line behind the item that begins at this one."""
    if lines[at].rstrip().endswith((';', '}')):
        return at + 1
    return next(end for end in range(at, len(lines)) if lines[end] == '}') + 1


def cited_by_type(own: Sequence[str], model: Sequence[str], names: Names, known: dict[str, Place]) -> tuple[set[Place], set[Word]]:
    """What a type or a trait cites: in its own text, where the names that this declares are bound, and in how contracts see it."""
    text, seen = ('\n'.join(line for line in lines if not line.lstrip().startswith('//')) for lines in (own, model))
    if own and re.search(r'\benum\b', own[0]):
        text = FORM.sub(' ', text)
    places, words = cited_in(text, {call or name for call, name in DECLARED.findall(text)}, names)
    more_places, more_words = cited_in(seen, set(), names)
    types = {known[token] for token in re.findall(r'\b[A-Z]\w*', f'{text}\n{seen}') if token in known}
    return places | more_places | types, words | more_words


# what each value of a type meets
INVARIANT = re.compile(r'^ *ghost invariant = \{.*?\};', re.M | re.S)


def apart(model: Sequence[str]) -> tuple[list[str], list[str]]:
    """How contracts see a type, without its invariant, and this."""
    text = '\n'.join(model)
    return INVARIANT.sub('', text).splitlines(), [found[0] for found in INVARIANT.finditer(text)]


def types_of(file: str) -> dict[str, Definition]:
    """The types and traits of a file of sources, each as it is declared and, where contracts see another value, how they see it."""
    text = read(file)
    lines = text.splitlines()
    known = types_known(file, text)
    found = {}
    for at, line in enumerate(lines):
        if not (named := TYPE.match(line)):
            continue
        name = named[1]
        begin = at
        while lines[begin - 1].startswith(('///', '#[')):
            begin -= 1
        comment = tuple(part for part in lines[begin:at] if part.startswith('///'))
        own = lines[at:until_closed(lines, at)]
        model: list[str] = []
        for where, other in enumerate(lines):
            if re.match(rf'impl(?:<.*?>)? Model for {name}\b', other):
                model += lines[where:until_closed(lines, where)]
        names = names_in('\n'.join((*own, *model, *(part for part in lines if part.startswith('ghost use')))))
        own, model = ([part for part in those if part.strip() and not part.lstrip().startswith(ASIDE)] for those in (own, model))
        seen, invariant = apart(model)
        places, words = cited_by_type(own, seen, names, known)
        holds, more_words = cited_by_type((), invariant, names, known)
        place = Place(file, name)
        found[name] = Definition(
            place, comment, (*own, *model), (), frozenset(places - {place}), frozenset(words | more_words), frozenset(holds - places - {place}),
        )
    return found


def definition_of(place: Place) -> Definition | None:
    return definitions_of(place.file).get(place.name)

def all_behind(places: Iterable[Place], count: Count, with_invariants: bool = True) -> dict[Place, Definition]:
    """These definitions and all that they cite, and what those cite, to the last; what invariants cite only if that is asked for."""
    found: dict[Place, Definition] = {}
    waiting = [*places]
    while waiting:
        place = waiting.pop()
        if place in found:
            continue
        definition = definition_of(place)
        if definition is None:
            count.expect(f'no definition {place} was found', False)
            continue
        found[place] = definition
        waiting += [*definition.cites, *(definition.holds if with_invariants else ())]
    return found


def is_source(place: Place) -> bool:
    """Whether this is a type or a trait of src/, which contracts and specs/ see by its own name."""
    return place.file.endswith('.rt')
