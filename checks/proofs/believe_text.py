"""How the page writes a definition of specs/: in fewer lines than its file, with the same meaning.

- A function of one clause has the types of its parameters in its head.
- Neighbouring clauses of one value are one clause, with `|` between what differs.
- A value of several lines is one line if it fits. So are all clauses of a function, and its type with them.
- Short fields of a record stand side by side.
- Short definitions without a comment follow each other without an empty line."""
from __future__ import annotations

import functools
import re
from collections.abc import Collection, Iterable, Iterator, Sequence

from checks.proofs.believe_definitions import SMALL_CONSTRUCTORS, Definition, clauses_of, indent_of
from checks.proofs.believe_names import Names, names_in, read

# columns of a line that is written
WIDTH = 100
# columns of a field above which it has a line of its own: two long ones on a line are hard to tell apart
SHORT = 40
# columns that a clause has to the left of its second line
STEP = 4
# the first words of a definition in its file
OPENS = re.compile(r'^( *)(?:abbrev|unfoldable)(?: pub)? ')
VARIABLE = re.compile(r'[a-z_]\w*')
# an argument in parentheses or braces, without more of them in it
BRACKETS = re.compile(r'[({][^(){}]*[)}]')
# the head of a function on the page, when its arguments in brackets are left out
NAMED = re.compile(r'^ *(\S+) +:(?: |$)')
RECORD = re.compile(r'^ *(?:pub )?(?:record|data) (\w+)')


def split_outside(text: str, mark: str) -> list[str]:
    """The pieces of a text between these marks, without those in brackets."""
    pieces = ['']
    depth = 0
    for part in re.split(rf'({re.escape(mark)}|[()\[\]{{}}])', text):
        depth += (part in tuple('([{')) - (part in tuple(')]}'))
        if part == mark and not depth:
            pieces.append('')
        else:
            pieces[-1] += part
    return [piece.strip() for piece in pieces]


def one_line(text: str) -> str:
    """A text of several lines on one."""
    return re.sub(r';? }', ' }', re.sub(r',? \)', ')', ' '.join(text.split()))).replace('( ', '(')


def sides(clause: str) -> tuple[str, str]:
    """What stands before the first equals sign of a clause, and what stands after it."""
    left, _, right = re.sub(r' =$', ' = ', clause, count=1, flags=re.M).partition(' = ')
    return left, right


def binders(kind: str, names: Sequence[str]) -> str | None:
    """Parameters of these names with their types, and the type of the value. None if this type can't be written so."""
    types = split_outside(kind, '→')
    written: list[tuple[list[str], str]] = []
    left = [*names]
    while types and types[0].startswith('{') or left and types[1:]:
        one = types.pop(0)
        if one.startswith('{'):
            written.append(([], one))
        elif re.match(r'\(\w+ : ', one):
            return None
        elif written and written[-1][0] and written[-1][1] == one:
            written[-1][0].append(left.pop(0))
        else:
            written.append(([left.pop(0)], without_enclosing(one)))
    if left or not types or any(re.search(rf'(?<![\w.]){name}\b', kind) for name in names):
        return None
    shown = [f' ({" ".join(own)} : {one})' if own else f' {one}' for own, one in written]
    return f'{"".join(shown)} : {" → ".join(types)}'


def without_enclosing(text: str) -> str:
    """A text without the one pair of parentheses that encloses it all, if there is one."""
    inner = text[1:-1]
    depth = 0
    for letter in inner:
        depth += (letter == '(') - (letter == ')')
        if depth < 0:
            return text
    return inner if text.startswith('(') and text.endswith(')') else text


def typed_head(name: str, kind: str, clause: str, constructors: Collection[str]) -> str | None:
    """The left side of a clause with the types of its parameters. None if an argument is not just a name."""
    left = sides(clause)[0].split()
    if left[:1] != [name] or not all(VARIABLE.fullmatch(one) and one not in constructors for one in left[1:]):
        return None
    written = binders(kind, left[1:])
    return None if written is None else f'{name}{written}'


def is_short(line: str) -> bool:
    """Whether the last field of a line is short. The end of a record is none."""
    return len(line.strip().split('; ')[-1]) <= SHORT and not line.strip().startswith('}')


def side_by_side(lines: Sequence[str]) -> list[str]:
    """Lines with short fields of records joined, and a record on one line if it fits."""
    found: list[str] = []
    for line in lines:
        last = found[-1] if found else ''
        are_fields = last.endswith(';') and line.endswith(';') and indent_of(last) == indent_of(line)
        if are_fields and is_short(last) and is_short(line) and len(last) + 1 + len(line.strip()) <= WIDTH:
            found[-1] = f'{last} {line.strip()}'
        else:
            found.append(line)
    return [*closed(found)]


def closed(lines: Sequence[str]) -> Iterator[str]:
    """Lines in which a record whose fields stand on one line is closed on that line, if it fits."""
    at = 0
    while at < len(lines):
        three = lines[at:at + 3]
        joined = f'{three[0]} {" ".join(line.strip().rstrip(";") for line in three[1:])}'
        is_record = len(three) == 3 and three[0].endswith('{') and three[1].endswith(';') and three[2].strip().startswith('}')
        if is_record and len(joined) <= WIDTH:
            yield joined + (';' if three[2].endswith(';') else '')
            at += 3
        else:
            yield lines[at]
            at += 1


def with_choices(lines: Sequence[str]) -> Iterator[str]:
    """Lines in which what follows `then` stands behind its condition, if it fits and is one line."""
    at = 0
    while at < len(lines):
        line, following = lines[at], lines[at + 1:at + 3]
        joined = f'{line} {following[0].strip()}' if following else ''
        is_choice = re.match(r' *if ', line) and [other.strip()[:5] for other in following] == ['then ', 'else ']
        if is_choice and len(joined) <= WIDTH:
            yield joined
            at += 2
        else:
            yield line
            at += 1


def with_record(head: str, lines: Sequence[str], indent: int) -> list[str] | None:
    """The lines of a clause whose value is one record, which begins behind the left side. None if it is not, or does not fit."""
    edge = indent_of(lines[0])
    first = f'{" " * indent}{head} = {lines[0].strip()}'
    ends_last = all(indent_of(line) > edge for line in lines[1:-1]) and lines[-1].strip() == '}'
    if not (lines[0].endswith('{') and ends_last and len(first) <= WIDTH):
        return None
    fields = side_by_side([line[edge - indent:] for line in lines[1:-1]])
    last = f'{fields[-1].rstrip(";")} }}'
    return [first, *fields[:-1], last] if len(last) <= WIDTH else [first, *fields, ' ' * indent + '}']


def with_value(head: str, clause: str, indent: int) -> list[str]:
    """The lines of a clause with this left side."""
    edge = ' ' * indent
    value = sides(clause)[1]
    # steps end with their lines
    has_steps = '←' in value
    if not has_steps and len(one := f'{edge}{head} = {one_line(value)}') <= WIDTH:
        return [one]
    first, *others = value.split('\n')
    if len(f'{edge}{head} = {first}') <= WIDTH and first.strip():
        return [f'{edge}{head} = {first.strip()}', *side_by_side(others)]
    if not has_steps and len(single := f'{edge}{" " * STEP}{one_line(value)}') <= WIDTH:
        return [f'{edge}{head} =', single]
    lines = [*([f'{edge}{" " * STEP}{first.strip()}'] if first.strip() else []), *others]
    return with_record(head, lines, indent) or [f'{edge}{head} =', *with_choices(side_by_side(lines))]


def arguments(left: str) -> list[str]:
    """The arguments of a left side, with its name."""
    return split_outside(left, ' ')


def or_pattern(first: str, second: str) -> str | None:
    """The left sides of two clauses as one, if one argument differs."""
    one, other = arguments(first), arguments(second)
    apart = [at for at, pair in enumerate(zip(one, other)) if pair[0] != pair[1]]
    if len(one) != len(other) or len(apart) != 1:
        return None
    at = apart[0]
    return ' '.join([*one[:at], f'({either(one[at], other[at])})', *one[at + 1:]])


def either(first: str, second: str) -> str:
    """A pattern for what fits one of two: inside of the constructor, if both have the same one."""
    one, other = without_enclosing(first), without_enclosing(second)
    inner = or_pattern(one, other) if arguments(one)[0] == arguments(other)[0] else None
    return inner or f'{one} | {other}'


def alike(clauses: Sequence[str], room: int) -> Iterator[str]:
    """The clauses. Neighbours of one value are one clause, if that value has no name that only one of them binds, and the left side fits."""
    here = ''
    for clause in clauses:
        left, value = sides(clause)
        before, same = sides(here)
        joined = or_pattern(before, left) if here and same == value else None
        own = set(re.findall(r'\w+', left)) ^ set(re.findall(r'\w+', before))
        if joined is not None and len(joined) <= room and not own & set(re.findall(r'\w+', value)):
            here = f'{joined} = {value}'
        else:
            if here:
                yield here
            here = clause
    if here:
        yield here


@functools.lru_cache(maxsize=None)
def names_in_file(file: str) -> Names:
    """What names mean in a file."""
    return names_in(read(file))


def written(definition: Definition) -> list[str]:
    """The lines of a definition as the page has them."""
    lines = [*definition.lines]
    before = [lines.pop(0)] if lines[0].lstrip().startswith('infix') else []
    opened = OPENS.match(lines[0])
    if not opened or any(line.lstrip().startswith('--') for line in lines):
        return [*before, *(re.sub(r'^( *)(?:pub|abbrev pub|unfoldable pub) ', r'\1', line) for line in lines)]
    indent = len(opened[1])
    head, *clauses = (OPENS.sub('', text).strip() for text, _ in clauses_of(definition.lines))
    name, kind = re.split(r' :\s+', one_line(head), maxsplit=1)
    constructors = SMALL_CONSTRUCTORS & names_in_file(definition.place.file).words.keys()
    typed = typed_head(name, kind, clauses[0], constructors) if len(clauses) == 1 else None
    if typed is not None and indent + len(typed) + len(' =') <= WIDTH:
        return [*before, *with_value(typed, clauses[0], indent)]
    shown = [line for clause in alike(clauses, WIDTH - indent - len(' =')) for line in with_value(sides(clause)[0], clause, indent)]
    return [*before, *on_one_line([f'{" " * indent}{name} : {kind}', *shown], indent)]


def on_one_line(lines: Sequence[str], indent: int) -> Sequence[str]:
    """The type of a function and its clauses. The clauses are one line if they fit, and so is all of it."""
    if any(indent_of(line) > indent for line in lines):
        return lines
    clauses = ';  '.join(line.strip() for line in lines[1:])
    for shown in ([f'{lines[0]};  {clauses}'], [lines[0], ' ' * indent + clauses]):
        if max(map(len, shown)) <= WIDTH:
            return shown
    return lines


# words without a meaning of their own
SMALL = frozenset('a an the of its it is are be to at in on by with from as this that these those which whose and or one all whether each'.split())


def stem(word: str) -> str:
    """A word without its ending."""
    return re.sub(r'(?<=\w{3})(?:ing|ed|es|s|e)$', '', word)


def stems_in(text: str) -> set[str]:
    """The words of a text or of the names in it, without small ones."""
    words = re.findall(r'[a-z]+|\d+', re.sub(r'(?<=[a-z])(?=[A-Z])', ' ', text).lower())
    return {stem(word) for word in words if word not in SMALL}


def repeats(said: str, definition: Definition) -> bool:
    """Whether what is said of a definition of specs/ has no other words than its head: its name, its types and its parameters."""
    head, *clauses = (text for text, _ in clauses_of(definition.lines))
    shown = head.partition('\n')[0] if RECORD.match(head) else ' '.join((head, *(sides(clause)[0] for clause in clauses[:1])))
    return stems_in(said) <= stems_in(shown)


def is_module(text: Sequence[str]) -> bool:
    """Whether this is the head of a module, under which its definitions stand."""
    return text[-1].endswith(' where') and len(text) == 1


def together(texts: Iterable[Sequence[str]]) -> str:
    """Definitions and heads of modules under each other. An empty line stands before each, but for what follows such a head and for a line after a line."""
    shown: list[str] = []
    before: Sequence[str] | None = None
    for text in texts:
        if before is not None and not is_module(before) and (is_module(text) or len(text) + len(before) > 2):
            shown.append('')
        shown += text
        before = text
    return '\n'.join(shown)


def names_on_page(block: str) -> Iterator[str]:
    """The names of the definitions in a block of the page."""
    edge: int | None = None
    for line in block.splitlines():
        indent = indent_of(line)
        if not line.strip() or line.lstrip().startswith(('--', 'infix')) or (edge is not None and indent > edge):
            continue
        if re.match(r' *module _', line):
            edge = None
            continue
        edge = indent
        found = RECORD.match(line) or NAMED.match(without_brackets(line.partition(' = ')[0].removesuffix(' =')))
        if found:
            yield found[1]


def without_brackets(text: str) -> str:
    """A text without what stands in brackets."""
    while BRACKETS.search(text):
        text = BRACKETS.sub(' ', text)
    return text
