"""The laziest bodies that fit a function's types, for lazy.py: the old value, a refusal at once, an empty answer.

Functions and types come as the kit's rt-plant reads them. A body is text; the front end refuses one that does not fit after all."""
from __future__ import annotations

import re
from typing import Any, NamedTuple

OLD, REFUSES, EMPTY = 'old', 'refuses', 'empty'
# errors that have one value, which says that memory ran out or that a sink took no row
MEMORY = ('NoMemory', 'AllocError', 'Refused')
# how deep an error may hold the one for memory
DEPTH = 4


class Lazy(NamedTuple):
    """A lazy body: which of the three it is, or which of them, and its text."""

    kind: str
    text: str


def far_path(declared: Any, name: str) -> str:
    """The path of a type that may not be in scope; the module of a library's type begins with an empty name."""
    module = declared[0]
    return '::'.join([*(module[1:] if module[:1] == ('',) else ['crate', *module]), name])


def variants(kit: Any, declared: Any) -> list[list[str]]:
    """The variants of an enum, each as its tokens, without doc comments."""
    tokens = [token for token in declared[3][1:-1] if not token.startswith('///')]
    return [kit.without_attributes(part) for part in kit.split(tokens)] if declared[1] == 'enum' else []


def fault_of(kit: Any, bodies: Any, error: list[str], depth: int = 0) -> str | None:
    """The value of an error type that says that memory ran out, or None if the type has none."""
    name, path, _ = kit.named(bodies.resolved(error))
    known = bodies.declared(name)
    if depth and known:
        path = far_path(known[0], name)
    if name in MEMORY:
        return str(path)
    for declared in known if depth < DEPTH else []:
        held = variants(kit, declared)
        if ['NoMemory'] in held:
            return f'{path}::NoMemory'
        for variant in held:
            inner = fault_of(kit, bodies, variant[2:-1], depth + 1) if variant[1:2] == ['('] else None
            if inner:
                return f'{path}::{variant[0]}({inner})'
    return None


def refusals(kit: Any, bodies: Any) -> list[str]:
    """The body that refuses at once: the fault for memory if the function's error has one, else its first fault."""
    name, _, inside = kit.named(bodies.resolved(bodies.f.ret))
    if name != 'Result' or len(inside) < 2:
        return []
    fault = fault_of(kit, bodies, inside[1]) or next(iter(bodies.errors(inside[1])), None)
    return [f'Err({fault})'] if fault else []


def empties(bodies: Any) -> list[str]:
    """The body that gives an empty answer: false, 0, `None`, `Ok(())`, a list without elements."""
    if not bodies.f.ret or bodies.f.ret == ['(', ')']:
        return []
    return [value for value in bodies.values(bodies.resolved(bodies.f.ret)) if not value.startswith('Err(')][:1]


def copied(bodies: Any, held: list[str]) -> list[str]:
    """The function's own value as it was, if it gives another of its type from a borrowed one."""
    if '&' not in bodies.f.takes_self or held != bodies.resolved(['Self']):
        return []
    makers = {(it.name, tuple(name for name, _ in it.params)) for it in bodies.source.functions if it.block and it.block.ty == bodies.f.block.ty}
    ways = [('copy', ('alloc',), 'self.copy(alloc)?'), ('clone', (), 'self.clone()?')]
    return [way for name, params, way in ways if (name, params) in makers and name != bodies.f.name] or ['*self']


def olds(kit: Any, bodies: Any) -> list[str]:
    """The body that gives what the function was given, or that changes nothing if the function gives no value."""
    f = bodies.f
    ret = bodies.resolved(f.ret)
    if not ret or ret == ['(', ')']:
        return [''] if f.mutates else []
    name, _, inside = kit.named(ret)
    wrap, held = {'Option': 'Some({})', 'Result': 'Ok({})'}.get(name, '{}') if inside else '{}', ret
    if wrap != '{}':
        held = bodies.resolved(inside[0])
    if held == ['(', ')']:
        return [wrap.format('()')] if f.mutates else []
    given = [param for param, kind in f.params if bodies.resolved(kind) == held]
    given += [f'*{param}' for param, kind in f.params if kind[0] == '&' and 'mut' not in kind and kind[-len(held):] == held and len(kind) <= len(held) + 2]
    given += ['self'] if f.takes_self and '&' not in f.takes_self and held == bodies.resolved(['Self']) else copied(bodies, held)
    given += [f'self.{field}' for field, kind in bodies.fields() if kind == held]
    return [wrap.format(it) for it in given[:1]]


def squeezed(text: str) -> str:
    return re.sub(r'\s', '', text)


def lazy(kit: Any, bodies: Any) -> list[Lazy]:
    """The lazy bodies of a function, each once, without the one that it has."""
    found: dict[str, str] = {}
    for kind, texts in [(OLD, olds(kit, bodies)), (REFUSES, refusals(kit, bodies)), (EMPTY, empties(bodies))]:
        for text in texts:
            if squeezed(text) != ''.join(bodies.f.body):
                found[text] = f'{found[text]}, {kind}' if text in found else kind
    return [Lazy(kind, text) for text, kind in found.items()]
