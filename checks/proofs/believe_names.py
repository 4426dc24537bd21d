"""What names mean in the files of crates/, and which of them a text cites.

A name stands for a definition of this repository (`Place`) or for a word of the toolchain's
library (`Word`)."""
from __future__ import annotations

import functools
import re
from collections.abc import Iterable, Sequence
from typing import NamedTuple

from checks.common import TOP

CRATES = TOP / 'crates'
# the module of the toolchain's library that most files use; tables have its words without its name
PRELUDE = 'std.Prelude'


class Place(NamedTuple):
    """Where a definition stands: its file, from crates/ on, and its name."""

    file: str
    name: str

    def __str__(self) -> str:
        return f'{self.name} of crates/{self.file}'

class Word(NamedTuple):
    """A word of the toolchain's library: its name, and its module. Two modules may use one name for different things."""

    name: str
    module: str

    def __str__(self) -> str:
        return f'{self.name} of {self.module}'

    def order(self) -> tuple[bool, str, str]:
        """Where it stands in a table: those of the prelude first."""
        return self.module != PRELUDE, self.module, self.name.lower()


class Names(NamedTuple):
    """What names mean in a file: definitions of this repository, words of others, and prefixes behind which names of a file stand."""

    places: dict[str, Place]
    words: dict[str, Word]
    prefixes: dict[str, str]


def read(file: str) -> str:
    return (CRATES / file).read_text()


def listed(text: str) -> list[tuple[str, str]]:
    """The names of a list in braces, each with the name that it has here."""
    pairs = (part.strip().partition(' as ') for part in text.split(','))
    return [(name.strip(), (here or name).strip()) for name, _, here in pairs if name.strip()]


def is_outside(path: Sequence[str]) -> bool:
    """Whether a module is none of this repository."""
    return not (CRATES / path[0]).is_dir()


def module_name(path: Sequence[str]) -> str:
    """The name of a module of the library, without the folders that say nothing of it."""
    return '.'.join(part for part in path if part not in ('specs', 'declared', 'TheVariants'))


def file_of(path: Sequence[str]) -> tuple[str, str | None] | None:
    """The file of a module of this repository and, where the module is that of a type, the type's name. No file: made by the toolchain."""
    crate, kind, *rest = path
    if kind != 'specs':
        return None
    if rest[:1] == ['declared']:
        rest = [part for part in rest[1:] if part != 'TheVariants']
        for length in range(len(rest) - 1, 0, -1):
            file = f'{crate}/src/{"/".join(rest[:length])}.rt'
            if (CRATES / file).is_file():
                return file, rest[length]
        return None
    for length in (len(rest), len(rest) - 1):
        file = f'{crate}/specs/{"/".join(rest[:length])}.antt'
        if length and (CRATES / file).is_file():
            return file, rest[length] if length < len(rest) else None
    return None


@functools.lru_cache(maxsize=None)
def constructors_in(file: str) -> dict[str, str]:
    """The constructors that the types of a file of specs/ have, each with its type."""
    found: dict[str, str] = {}
    for name, block in re.findall(r'^pub data (\w+).*\n((?:  .*\n)*)', read(file), re.M):
        found.update((line.split()[0], name) for line in block.splitlines())
    return found


USE = re.compile(r'^ *(?:ghost |pub )?use Rattle\.([\w./-]+?)(?:\.\{([^}]*)\}| as (\w+));?$', re.M)


def names_in(text: str) -> Names:
    """What the `use` lines of a text bring in."""
    names = Names({}, {}, {})
    for path, those, prefix in USE.findall(text):
        module = re.split(r'[./]', path)
        if is_outside(module):
            names.words.update((here, Word(name, module_name(module))) for name, here in listed(those))
        elif found := file_of(module):
            file, kind = found
            made: dict[str, str] = {} if kind else constructors_in(file)
            if prefix:
                names.prefixes[prefix] = kind and f'{file} {kind}' or file
            for name, here in listed(those):
                place = Place(file, made.get(name, name) if kind is None else kind)
                names.places[here] = handed_on_by(file).get(name, place) if file.endswith('.antt') else place
    return names


@functools.lru_cache(maxsize=None)
def handed_on_by(file: str) -> dict[str, Place]:
    """The definitions of other files that a file of specs/ hands on under names of its own: those of its lines `pub use`."""
    return names_in('\n'.join(line for line in read(file).splitlines() if line.startswith('pub use '))).places


# names, and what stands between other marks; a name behind a dot is a field
NAME = re.compile(r'(?<![\w.])[A-Za-z_ℕℤ][\w]*(?:\.[A-Za-z_]\w*)*')
TYPED = re.compile(r'[({]((?:\w+ )+): ')
# these bind a name from their end on
LATER = (re.compile(r'(\w+) ←[^\n]*'), re.compile(r'\blet (\w+).*?\bin\b', re.S))
LAMBDA = re.compile(r'λ ([^.]*)\. ?')
# fields that are set, and texts, cite nothing
SILENT = re.compile(r'(?<=[{;])\s*(\w+) = |"[^"]*"')


def is_small(name: str) -> bool:
    return name[:1].islower()


def bound_in(text: str, small_patterns: Iterable[str], head: str | None) -> set[str]:
    """The names that a text binds. With a head it is a clause of the definition of that name, whose patterns bind names that are small."""
    bound = {name for found in TYPED.findall(text) for name in found.split()}
    for found in LAMBDA.findall(text):
        bound.update(name for name in NAME.findall(found) if is_small(name))
    if head is not None:
        left = text.partition(' =')[0]
        bound.update(name for name in NAME.findall(left) if is_small(name) and name != head and '.' not in name and name not in small_patterns)
    return bound


def has_operator(operator: str, text: str) -> bool:
    """Whether each part of an operator stands in the text; that of a sequence of steps is written as an arrow."""
    if operator == '◌>>=◌' and '←' in text:
        return True
    return all(re.search(rf'(?:(?<=[\s(])|^){re.escape(part)}(?=[\s)]|$)', text) for part in operator.split('◌') if part)


def cited_in(chunk: str, bound: set[str], names: Names) -> tuple[set[Place], set[Word]]:
    """What a text cites, apart from the names that are bound in it."""
    places: set[Place] = set()
    words: set[Word] = set()
    text = SILENT.sub(' ', chunk)
    later: dict[str, int] = {}
    binding = set()
    for found in (found for binder in LATER for found in binder.finditer(text)):
        later[found[1]] = min(found.end(), later.get(found[1], len(text)))
        binding.add(found.start(1))
    for found in NAME.finditer(text):
        token = found[0]
        first, _, rest = token.partition('.')
        if first in bound or found.start() in binding or found.start() >= later.get(first, len(text)):
            continue
        if first in names.prefixes and rest:
            file, _, kind = names.prefixes[first].partition(' ')
            places.add(Place(file, kind or rest.partition('.')[0]))
        elif first in names.places:
            places.add(names.places[first])
        elif first in names.words:
            words.add(names.words[first])
    for operator in (*names.places, *names.words):
        if '◌' in operator and has_operator(operator, text):
            if operator in names.places:
                places.add(names.places[operator])
            else:
                words.add(names.words[operator])
    if '[]' in names.words and '[]' in text:
        words.add(names.words['[]'])
    return places, words
