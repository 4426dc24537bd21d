"""The text of a part of the page, between its two marks."""
from __future__ import annotations

import re
import textwrap
from collections.abc import Collection, Iterable, Iterator, Sequence

from checks.proofs import believe_lines, believe_text, believe_types
from checks.proofs.believe_calls import Root, calls_of, silent_types
from checks.proofs.believe_definitions import Definition, definitions_of, indent_of, is_source
from checks.proofs.believe_names import PRELUDE, Place, Word, names_in, read
from checks.proofs.believe_text import WIDTH, together, written
from checks.proofs.believe_types import is_type

Pieces = Sequence[Sequence[Definition]]


def comment_of(definition: Definition) -> tuple[str, ...]:
    """What is said of a definition: the line that SAYS has for it, or else its own comment, if that does not just repeat its head."""
    if is_plain(definition.place):
        return ()
    said = said_of(definition.place)
    if said is None and is_repeated(definition):
        return ()
    if said is None and max(map(len, definition.comment), default=0) <= WIDTH:
        return definition.comment
    if said is None:
        said = ' '.join(line.strip(' -') for line in definition.comment)
    lead = '/// ' if is_source(definition.place) else ' ' * indent_of(definition.lines[0]) + '-- '
    return tuple(textwrap.wrap(said, WIDTH, initial_indent=lead, subsequent_indent=lead))


def said_of(place: Place) -> str | None:
    return believe_lines.SAYS.get(place.file, {}).get(place.name)


def is_repeated(definition: Definition) -> bool:
    """Whether a definition has a comment that just repeats its head."""
    said = said_of(definition.place) or ' '.join(definition.comment)
    return bool(said) and not is_type(definition) and believe_text.repeats(said, definition)


def is_plain(place: Place) -> bool:
    """Whether the name of a definition says enough."""
    return place.name in believe_lines.PLAIN.get(place.file, ())


def text_of(piece: Sequence[Definition]) -> str:
    """The definitions of a piece, under the heads of their modules."""
    parts: list[Sequence[str]] = []
    modules: tuple[str, ...] = ()
    for definition in piece:
        parts += [[module] for depth, module in enumerate(definition.modules) if definition.modules[:depth + 1] != modules[:depth + 1]]
        modules = definition.modules
        parts.append([*comment_of(definition), *written(definition)])
    return together(parts)


def lines_of(definition: Definition) -> int:
    """The lines of a definition: for a type those of the table."""
    if is_type(definition):
        return len([*type_rows(definition)])
    return len(comment_of(definition)) + len(written(definition))


def type_rows(definition: Definition) -> Iterator[str]:
    said = ' '.join(re.sub(r'^ *(?:///|--)? *(?:- )?', '', line) for line in comment_of(definition))
    return believe_types.rows_of(definition, ' '.join(said.split()))


def types_table(definitions: Iterable[Definition]) -> str:
    rows = '\n'.join(row for definition in definitions for row in type_rows(definition))
    return f'{believe_types.HEAD}{rows}\n'


def words_table(words: Iterable[Word]) -> str:
    rows = (f'| {shown(word)} | {believe_lines.WORDS.get(word.module, {}).get(word.name, "")} |' for word in sorted(words, key=Word.order))
    return '| Word | What it is |\n|---|---|\n' + '\n'.join(rows) + '\n'


def shown(word: Word) -> str:
    """A word of the library as it is written, without the places of its arguments, and its module if that is not the prelude."""
    written = ' '.join(part for part in word.name.split('◌') if part).replace('|', '\\|') if '◌' in word.name else word.name
    return f'`{written}`' if word.module == PRELUDE else f'`{written}` of `{word.module}`'


def head_of(file: str) -> str:
    """What is said of a file of specs/: the line that HEADS has for it, or else its own first lines."""
    own = [line.removeprefix('--').strip() for line in read(file).partition('\nuse ')[0].splitlines()]
    said = believe_lines.HEADS.get(file, '').splitlines()
    lines = [part for line in said for part in textwrap.wrap(line, WIDTH) or ['']] or own
    return '\n' + '\n'.join(lines) + '\n'


def prefixes_of(file: str, piece: Sequence[Definition]) -> Iterator[str]:
    """What the prefixes mean that a piece uses."""
    code = '\n'.join(line for definition in piece for line in definition.lines)
    for prefix, meant in names_in(read(file)).prefixes.items():
        if re.search(rf'(?<![\w.]){prefix}\.\w', code):
            where, _, kind = meant.partition(' ')
            yield f'`{prefix}.` precedes ' + (f'a variant of `{kind}`' if kind else f'a name of `{where}`')


def twins_of(file: str, piece: Sequence[Definition], found: Iterable[Place]) -> Iterator[str]:
    """Which of several definitions of one name a piece cites from another file, without a prefix."""
    own = definitions_of(file)
    cited = {place for definition in piece for place in definition.cites if place.file != file and place.name not in own}
    for place in sorted(cited, key=lambda place: (place.name, place.file)):
        if any(other.name == place.name and other.file != place.file and is_source(other) == is_source(place) for other in found):
            yield f'`{place.name}` is from `{place.file}`'


def notes_of(file: str, piece: Sequence[Definition], known: Iterable[Place]) -> str:
    notes = [*prefixes_of(file, piece), *twins_of(file, piece, known)]
    return '\n' + '\n'.join(textwrap.wrap(f'Here {", ".join(notes)}.', WIDTH, break_on_hyphens=False)) + '\n' if notes else ''


def of_specs(pieces: Pieces) -> Iterator[list[Definition]]:
    """The pieces without the types of src/; neighbours from one file are one piece."""
    here: list[Definition] = []
    for definition in (definition for piece in pieces for definition in piece if not is_type(definition)):
        if here and here[-1].place.file != definition.place.file:
            yield here
            here = []
        here.append(definition)
    if here:
        yield here


def specs_text(pieces: Pieces, known: Iterable[Place]) -> str:
    """The definitions of specs/, file by file."""
    text = ''
    told: set[str] = set()
    for piece in of_specs(pieces):
        file = piece[0].place.file
        head = '' if file in told else head_of(file)
        told.add(file)
        text += f'\n### [{file}](../crates/{file})\n{head}{notes_of(file, piece, known)}\n```\n{text_of(piece)}\n```\n'
    return text


def calls_text(root: Root, known: Collection[Place]) -> str:
    """The calls with which a part begins, and the types that only their heads name."""
    parts = [f'// crates/{file}\n{text}' for file, _, text in calls_of(root)]
    text = '\n### Calls\n\n```\n' + '\n\n'.join(parts) + '\n```\n'
    if silent := [f'[`{place.name}`](../crates/{place.file})' for place in silent_types(root, known)]:
        text += f'\nNo clause here speaks of {", ".join(silent)}.\n'
    return text


def counted(number: int, name: str) -> str:
    return f'{number} {name}{"" if number == 1 else "s"}'


def counts_text(definitions: Sequence[Definition]) -> str:
    """How much a part has."""
    types = [definition for definition in definitions if is_type(definition)]
    files = {definition.place.file for definition in definitions}
    much = sum(map(lines_of, definitions))
    said = f'{counted(len(definitions) - len(types), "definition")} and {counted(len(types), "type")}'
    return f'{said} from {counted(len(files), "file")}: {counted(much, "line")}.\n'


def region_of(root: Root, pieces: Pieces, words: Iterable[Word], known: Collection[Place]) -> str:
    """What the script writes between the marks of a part."""
    definitions = [definition for piece in pieces for definition in piece]
    text = counts_text(definitions)
    if words:
        text += f'\nWords of the toolchain\'s library in this part:\n\n{words_table(words)}'
    types = [definition for definition in definitions if is_type(definition)]
    if types:
        text += f'\nTypes in this part:\n\n{types_table(types)}'
    return text + specs_text(pieces, known) + calls_text(root, known)


def mark(root: Root, word: str) -> str:
    return f'<!-- {root.mark}: {word} -->\n'


def region_in(page: str, root: Root) -> str | None:
    """What stands between the marks of a part, or None without them."""
    _, found, rest = page.partition(mark(root, 'begins'))
    region, ended, _ = rest.partition(mark(root, 'ends'))
    return region if found and ended else None


def places_in(region: str) -> set[Place]:
    """The definitions that a region shows."""
    there = {Place(file, name) for file, name in believe_types.types_in(region)}
    for file, block in re.findall(r'^### \[(.*?)\].*?^```\n(.*?)^```$', region, re.M | re.S):
        there.update(Place(file, name) for name in believe_text.names_on_page(block))
    return there
