"""The calls with which the page begins, each with its head and with the clauses of its contract that matter."""
from __future__ import annotations

import re
import textwrap
from collections.abc import Collection, Iterator, Sequence
from typing import NamedTuple

from checks.common import Count
from checks.proofs.believe_definitions import types_known
from checks.proofs.believe_names import Place, Word, bound_in, cited_in, names_in, read
from checks.proofs.believe_text import WIDTH, one_line, split_outside

# a space at which no line ends
UNBROKEN = '\u00a0'


class Clause(NamedTuple):
    """A clause of the contract of a call, by the file and the name of the call (`Type::name` for a method), and the definitions that it has to cite."""

    file: str
    call: str
    clause: str
    cites: tuple[str, ...]


class Root(NamedTuple):
    """A part of the page, named by its mark, and the contracts with which it begins. It has what no part before it has. Clauses that
    speak of no value of their call are about what `about` says. What invariants of its types cite may be left to the next part."""

    mark: str
    clauses: tuple[Clause, ...]
    about: str = 'the clock'
    has_invariants: bool = True


def contract_of(clause: Clause) -> tuple[str, list[str]]:
    """The head of a call, up to its contract, and those clauses of this that matter: what it requires, and the one that is meant."""
    owner, _, name = clause.call.rpartition('::')
    text = textwrap.dedent(methods_of(owner, read(clause.file)) if owner else read(clause.file))
    found = re.search(rf'^pub fn {name}\b(.*?)^\{{', text, re.M | re.S)
    if not found:
        return '', []
    head, *parts = re.split(r'^ *(?=(?:ensures|requires)\b)', found[1], flags=re.M)
    return head, [part.rstrip() for part in parts if part.startswith(('requires', f'ensures {clause.clause}'.rstrip() + ' '))]


def methods_of(owner: str, text: str) -> str:
    """The lines between the braces of the methods of a type."""
    return '\n'.join(re.findall(rf'^impl {owner} \{{\n(.*?)^\}}', text, re.M | re.S))


def begin_with(clause: Clause, count: Count) -> tuple[set[Place], set[Word]]:
    """What a contract cites, and the types of what it speaks of in the head of its call."""
    text = read(clause.file)
    head, parts = contract_of(clause)
    body = '\n'.join(parts)
    places, words = cited_in(body, bound_in(body, (), None), names_in(text))
    missing = [name for name in clause.cites if name not in {place.name for place in places}]
    count.expect(f'the clause {clause.clause} of {clause.call} in crates/{clause.file} does not cite {", ".join(missing)}', not missing)
    return places | types_in(clause.file, ' '.join(spoken_of(with_owner(clause.call, head), body))), words


def with_owner(call: str, head: str) -> str:
    """The head of a method with the name of its type."""
    owner = call.rpartition('::')[0]
    return re.sub(r'(&(?:mut )?)self\b', rf'self: \1{owner}', head).replace('Self', owner) if owner else head


def types_in(file: str, text: str) -> set[Place]:
    """The types and traits of this repository that a text of this file names."""
    known = types_known(file, read(file))
    return {known[token] for token in re.findall(r'\b[A-Z]\w*', text) if token in known}


def types_apart(text: str) -> list[str]:
    """The types that commas separate."""
    return split_outside(text.replace('->', '→').replace('<', '[').replace('>', ']'), ',')


def spoken_of(head: str, body: str) -> Iterator[str]:
    """The types of the parameters and of the parts of a result of which clauses speak, with the traits of those that are parameters of types."""
    generic, _, rest = one_line(head).partition('>(') if head.startswith('<') else ('', '', one_line(head).removeprefix('('))
    parameters, _, result = rest.removesuffix(')').partition(') -> ')
    named = [one.partition(': ') for one in types_apart(parameters)]
    told = [kind for name, _, kind in named if kind and re.search(rf'(?<![\w.]){name}\b', body)]
    told += [kind for clause, kind in zip(('IfOk', 'IfErr'), types_apart(result[len('Result<'):-1])) if f'{clause} result' in body]
    if re.search(r'(?<!Ok )(?<!Err )\bresult\b', body):
        told.append(result)
    yield from told
    for letter, _, traits in (one.partition(': ') for one in types_apart(generic.removeprefix('<'))):
        if re.search(rf'\b{letter}\b', ' '.join(told)):
            yield traits


def head_text(call: str, head: str) -> str:
    """The head of a call, with its parameters in as few lines as they need."""
    one = one_line(f'pub fn {call}{head}')
    # a line ends between parameters, and not in one
    kept = re.sub(r'(?<=[:>+&]) |(?<=mut) | (?=\+)|(?<=,) (?=[^<()]*>)', UNBROKEN, one)
    lines = textwrap.wrap(kept, WIDTH, subsequent_indent='    ', break_on_hyphens=False, break_long_words=False)
    return '\n'.join(lines).replace(UNBROKEN, ' ')


# what a clause says of the result of its call: of its value, or only that it succeeded
OF_RESULT = re.compile(r'\b(?:IfOk|IfErr) result\s*\(λ (\w+)\.')
ON_RESULT = re.compile(r'\b(?:IfOk|OnOk|IfErr|OnErr) result\b')


def values_in(part: str) -> list[str]:
    """The values of its own call of which a clause speaks: its result, and what stands behind a reference after it."""
    bound = [name for name in OF_RESULT.findall(part) if name != '_']
    text = OF_RESULT.sub(' ', part)
    text = ON_RESULT.sub(' ', text).partition('{')[2]
    names = '|'.join([*bound, 'result'])
    found = re.findall(rf'(?<![\w.])(?:{names})\b(?:\.\w+)*|(?<![\w.])\w+\.new\b', text)
    if 'IfErr result (' in part and not bound:
        found.append('the fault')
    return list(dict.fromkeys(found))


def speaks_of(part: str, about: str) -> str:
    """Of what a clause speaks, as a comment."""
    values = values_in(part)
    return f'about this call: {", ".join(values)}' if values else f'about {about} alone: any body meets it'


def silent_types(root: Root, known: Collection[Place]) -> list[Place]:
    """The types that heads of a part name, and of which no clause speaks."""
    named = {place for clause in root.clauses for place in types_in(clause.file, contract_of(clause)[0])}
    return sorted(named.difference(known), key=lambda place: (place.name, place.file))


def calls_of(root: Root) -> Iterator[tuple[str, str, str]]:
    """The calls of a part: the file, the name, and the text of each."""
    clauses: dict[tuple[str, str], list[Clause]] = {}
    for clause in root.clauses:
        clauses.setdefault((clause.file, clause.call), []).append(clause)
    for (file, call), those in clauses.items():
        head = contract_of(those[0])[0]
        yield file, call, f'{head_text(call, head)}\n{parts_text(those, root.about)}'


def with_names(file: str, part: str) -> str:
    """A clause in which each type has the name that it has where it is declared."""
    here = {name: place.name for name, place in names_in(read(file)).places.items() if place.name != name and name[:1].isupper()}
    return re.sub(r'(?<![\w.])\w+', lambda found: here.get(found[0], found[0]), part)


def parts_text(clauses: Sequence[Clause], about: str) -> str:
    """The clauses of one call, each once, with what it speaks of."""
    parts = dict.fromkeys(with_names(clause.file, part) for clause in clauses for part in contract_of(clause)[1])
    lines = []
    for part in sorted(parts, key=lambda part: not part.startswith('requires')):
        if part.startswith('ensures'):
            lines.append(f'    // {speaks_of(part, about)}')
        lines.append(f'    {part}')
    return '\n'.join(lines)
