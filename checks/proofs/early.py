#!/usr/bin/env python3
"""Checks in seconds what the gate refuses before it proves anything: layout, files that nothing reads, edits that cannot be applied.

That is a layout that is not that of rt fmt, a file that no check reads, a module without a file or with nothing in it, an import of what is not there,
an operator under another name. An edit, whether the gate tries it or not, cannot be applied where its text does not stand once. And the launcher mcsim is asked for the crates that it proves: they are
those on which each program stands. A library's may_wait in crates.txt is how many of its functions have the bound Wait: rt verdict holds it to the last
line of a proof, and rt ci does not look at it. Each finding has a line, and each crate counts as one try. All this needs the command rt, and is skipped without it.
Without it too, checks/README.md is held to have the cost of the gate as checks/proofs/gate.csv has it."""
from __future__ import annotations

import glob
import importlib.machinery
import importlib.util
import os
import pathlib
import re
import shutil
import subprocess
import sys
import tempfile
import types
from collections.abc import Callable, Iterator, Sequence
from typing import Any

sys.dont_write_bytecode = True
sys.path[0] = str(pathlib.Path(__file__).resolve().parents[2])
from checks import common
from checks.common import TOP, Count
from checks.proofs import gate_cost

LAUNCHER = 'mcsim'
# the folder of the edits that the gate leaves out
LEFT_OUT = 'edits'
# how the names of crates of tests begin
TESTS = 'mcs_tests_'
MODULE = re.compile(r'^(?:pub )?mod (\w+)$', re.M)
EMPTY = re.compile(r' *module _ .*\bwhere$')
IMPORT = re.compile(r'^(?:pub )?use Rattle\.(\w+\.(?:specs|proofs)\.[\w.]+)\.\{([^}]*)\}', re.M)
# places of the files that the prover makes of the code's types and functions
MADE = {'declared', 'Goals', 'Given'}
# a name of the prover's language: it may have any sign but these
WORD = re.compile(r'[^\s(){},.;:λ]+')


def refuse(why: str) -> None:
    raise SystemExit(why)


def loaded(path: str) -> types.ModuleType:
    """The command rt as a module that looks at this repository as the gate does."""
    sys.argv = ['rt', 'ci']
    loader = importlib.machinery.SourceFileLoader('rt_main', path)
    spec = importlib.util.spec_from_loader('rt_main', loader)
    assert spec
    rt = importlib.util.module_from_spec(spec)
    loader.exec_module(rt)
    rt.rtlib.Crate, rt.rtlib.stop = rt.Crate, refuse
    rt.Crate.cuts_libraries = True
    rt.Crate.allowed = rt.handles_of(str(TOP))
    return rt


def end_of_block(text: str, start: int) -> int:
    """The place of the brace that closes the one at a place."""
    depth = 0
    for found in re.finditer('[{}]', text[start:]):
        depth += 1 if found[0] == '{' else -1
        if not depth:
            return start + found.start()
    return len(text)


def waiting(text: str) -> list[str]:
    """The functions of a source, without comments, that may wait: they or their impl block name the bound Wait before the first brace."""
    blocks = [(found.end() - 1, end_of_block(text, found.end() - 1)) for found in re.finditer(r'^(?:impl|trait)\b[^{;]*\bWait\b[^{;]*\{', text, re.M)]
    heads = re.finditer(r'\bfn\s+(\w+)([^{;]*)', text)
    return [head[1] for head in heads if re.search(r'\bWait\b', head[2]) or any(start < head.start() < end for start, end in blocks)]


def logic_of(folder: str) -> list[pathlib.Path]:
    """The files of definitions and proofs of a crate. What is built beside them is left out: it may change meanwhile."""
    return sorted(file for place in ('specs', 'proofs') for file in pathlib.Path(folder, place).rglob('*.antt'))


def empty_modules(text: str) -> Iterator[int]:
    """The lines of a text with a module that has nothing but comments in it. The prover refuses one, but only after its search."""
    lines = text.split('\n')
    for at, line in enumerate(lines):
        if EMPTY.match(line):
            left = (it for it in lines[at + 1 :] if it.strip() and not it.lstrip().startswith('--'))
            if not next(left, '').startswith(' ' * (len(line) - len(line.lstrip()) + 1)):
                yield at + 1


def file_of(path: str, crates: pathlib.Path) -> pathlib.Path | None:
    """The file that a path of an import names, or the one in which the module that it names stands. Lib.antt may hand on a file of another crate."""
    crate, part, *places = path.split('.')
    lib = crates / crate / part / 'Lib.antt'
    handed_on = re.search(rf'^pub use Rattle\.(\w+\.specs\.{places[0]})$', lib.read_text(encoding='utf-8') if lib.exists() else '', re.M)
    if handed_on:
        return file_of('.'.join([handed_on[1], *places[1:]]), crates)
    while places:
        file = crates / crate / part / f'{"/".join(places)}.antt'
        if file.exists():
            return file
        places.pop()
    return None


def wrong_imports(text: str, crates: pathlib.Path) -> Iterator[str]:
    """What a text imports of the crates here and is not there. Files that the prover makes are left out."""
    for path, names in IMPORT.findall(text):
        if MADE & set(path.split('.')) or not (crates / path.split('.')[0]).exists():
            continue
        file = file_of(path, crates)
        if file is None:
            yield f'it imports {path}, which has no file'
            continue
        words = set(WORD.findall(file.read_text(encoding='utf-8')))
        missing = [it for name in names.split(',') if (it := name.split(' as ')[0].strip()) and '◌' not in it and it not in words]
        yield from (f'it imports {name} of {path}, which does not have it' for name in missing)


def said(look: Callable[[], object]) -> list[str]:
    """What a look of the gate stops with."""
    try:
        look()
    except SystemExit as why:
        return [str(why)]
    return []


class Looks:
    """What the gate looks at before it proves."""

    def __init__(self, rt: types.ModuleType) -> None:
        self.rt, self.kit = rt, rt.rtlib
        self.crates = self.kit.crates_below(str(TOP))

    def files(self, crate: Any) -> Iterator[str]:
        yield from said(lambda: self.kit.stop_on_links(crate.folder))
        yield from said(lambda: self.kit.stop_on_unread(crate.folder, self.crates))

    def texts(self, crate: Any) -> Iterator[str]:
        yield from said(lambda: self.kit.stop_on_text(crate, 'verdict'))
        yield from said(lambda: self.rt.stop_on_words(crate))
        code = self.kit.code_of(crate.folder)
        if re.search(self.rt.RENAMES, code):
            yield 'it renames std, or takes it whole'
        if re.search(self.rt.IGNORED, code):
            yield 'it has a test under #[ignore]'

    def layout(self, crate: Any) -> Iterator[str]:
        with tempfile.TemporaryFile('a+', errors='replace') as out:
            if self.kit.fmt(crate.folder, '--check', out):
                yield 'run rt fmt in its folder'

    def edits(self, crate: Any) -> Iterator[str]:
        good, bad = self.rt.edits_of(crate)
        yield from (f'{os.path.basename(edit)} is no name of an edit' for edit in bad)
        for edit in (*good, *sorted(glob.glob(f'{crate.folder}/{LEFT_OUT}/*.edit'))):
            texts, why = self.rt.read_edit(edit, crate.folder)
            if texts is None:
                yield f'{os.path.basename(edit)}: {why}'

    def waits(self, crate: Any) -> Iterator[str]:
        """A count in crates.txt that is not that of the sources. Programs have another rule, and the tests of a crate of tests are not counted."""
        if crate.is_program or crate.name.startswith(TESTS):
            return
        found = [name for file, text in sorted(self.kit.blanked(crate.folder).items()) if file.endswith('.rt') for name in waiting(text)]
        given = int(crate.said.get('may_wait', 0))
        if given != len(found):
            yield f'may_wait={given} in crates.txt, and {len(found)} functions have the bound Wait: {" ".join(found) or "none"}'

    def modules(self, crate: Any) -> Iterator[str]:
        for file in logic_of(crate.folder):
            # Lib.antt lists what stands beside it, and any other file what stands in the folder of its name
            folder = file.parent if file.name == 'Lib.antt' else file.with_suffix('')
            text, name = file.read_text(encoding='utf-8'), file.relative_to(crate.folder)
            yield from (f'{name} names {it}, which has no file' for it in MODULE.findall(text) if not (folder / f'{it}.antt').exists())
            yield from (f'{name}:{line}: the module has nothing in it' for line in empty_modules(text))
            yield from (f'{name}: {it}' for it in wrong_imports(text, TOP / 'crates'))

    def findings(self, crate: Any) -> list[str]:
        return [found for look in (self.files, self.texts, self.layout, self.modules, self.edits, self.waits) for found in look(crate)]


def launched(program: str) -> list[str] | None:
    """The crates that the launcher takes for those below a program, or None where it asks in another way."""
    asks = re.search(r'^libraries\(\) \{\n.*?^\}\n', (TOP / LAUNCHER).read_text(), re.M | re.S)
    if asks is None:
        return None
    script = f'top=.\n{asks[0]}libraries {program}'
    return subprocess.run(['sh', '-c', script], cwd=TOP, capture_output=True, text=True).stdout.split()


def look_at_launcher(crates: Sequence[Any], count: Count) -> None:
    for program in common.PROGRAMS:
        wanted: list[str] = next(([below.name for below in crate.below()] for crate in crates if crate.name == program), [])
        found = launched(program)
        what = 'no function libraries' if found is None else f'{" ".join(found) or "no crate"}, and the program stands on {" ".join(wanted) or "none"}'
        # a crate that crates.txt leaves out stands on none to both
        count.expect(f'{program}: the launcher has {what}', found is not None and bool(found) and sorted(found) == sorted(wanted))


def main() -> None:
    common.asking(__doc__).parse_args()
    count = Count()
    wrong = gate_cost.page_differs()
    count.expect(wrong, not wrong)
    path = shutil.which('rt')
    if path is None:
        count.skip('what the gate looks at first, since the command rt is not on PATH')
        count.end()
    looks = Looks(loaded(os.path.realpath(path)))
    look_at_launcher(looks.crates, count)
    for crate in looks.crates:
        found = looks.findings(crate)
        count.expect('\n'.join(f'{crate.name}: {it}' for it in found), not found)
    count.end()


if __name__ == '__main__':
    main()
