#!/usr/bin/env python3
"""Checks that bin/ was built of these sources, and is what the gate has just built; with --renew, copies it.

bin/SOURCES has the toolchain's line and, for each file, its SHA-256, and the digest of what it is built of: crates.txt, and the sources of its crate and
of those below it. A digest that is not that of the sources is a failure, and so is a program or a library that was built here and has other bytes than
the one in bin/, a sum in bin/SOURCES or bin/README.md that is not that of the file, and a text in bin/HELP that the program does not give. Another
toolchain is no failure, since machines have different ones: what it built has to have the bytes in bin/.

--renew takes the programs that the gate built (./test, or ./mcsim --prove and ./mcscheck --prove), and the library, which it builds where it is not there (archive.py). It refuses
those that are older than a source."""
from __future__ import annotations

import hashlib
import os
import pathlib
import re
import shutil
import subprocess
import sys
from collections.abc import Iterator
from typing import NamedTuple

sys.dont_write_bytecode = True
sys.path[0] = str(pathlib.Path(__file__).resolve().parents[2])
from checks import common
from checks.common import TOP, Count

BIN = TOP / 'bin'
NOTED, HELP, PAGE = BIN / 'SOURCES', BIN / 'HELP', BIN / 'README.md'
HEAD = '# What the files of this folder were built of, and their SHA-256; checks/program/built.py --renew writes it.'


class Artefact(NamedTuple):
    """A file of bin/, and the crate that it is built of."""

    crate: str
    file: str

    @property
    def is_program(self) -> bool:
        return self.file == self.crate

    @property
    def here(self) -> pathlib.Path:
        """Where it was built here, if it was."""
        return TOP / 'crates' / self.crate / 'out' / self.file

    @property
    def shipped(self) -> pathlib.Path:
        return BIN / self.file

    @property
    def name(self) -> str:
        """What messages and bin/SOURCES call it."""
        return f'bin/{self.file}'


PROGRAM = Artefact('mcsim', 'mcsim')
# a library that comes along has one entry here, a program one in PROGRAMS of common.py, and each has lines in launcher/installed
ARTEFACTS = (PROGRAM, *(Artefact(name, name) for name in common.PROGRAMS if name != PROGRAM.file), Artefact('mcs_c', 'libmcs_c.a'))


def below() -> dict[str, list[str]]:
    """The crates of crates.txt, each with the libraries that it names."""
    rows = re.findall(r'^([a-z]\w*)[^:\n]*:(.*)$', (TOP / 'crates.txt').read_text(), re.M)
    return {name: needs.split() for name, needs in rows}


def crates_of(crate: str) -> set[str]:
    """A crate of this repository and those below it."""
    known, found, left = below(), set(), [crate]
    while left:
        name = left.pop()
        if name in known and name not in found:
            found.add(name)
            left += known[name]
    return found


def files_of(crate: str, *folders: str) -> list[pathlib.Path]:
    """crates.txt, and the files in these folders of the crate and of those below it."""
    found = [TOP / 'crates.txt']
    for name in crates_of(crate):
        for folder in folders:
            found += [path for path in (TOP / 'crates' / name / folder).rglob('*') if path.is_file() and not path.is_symlink() and path.name[0] != '.']
    return found


def sum_of(data: bytes) -> str:
    return hashlib.sha256(data).hexdigest()


def digest(crate: str) -> str:
    """The digest of what a crate is built of, as the launcher takes it: the sum of the lines of sha256sum."""
    paths = {os.fsencode(path.relative_to(TOP)): path for path in files_of(crate, 'src')}
    lines = [sum_of(path.read_bytes()).encode() + b'  ' + name + b'\n' for name, path in sorted(paths.items())]
    return sum_of(b''.join(lines))


def kit() -> str | None:
    """The toolchain's line, or None where there is no toolchain."""
    if shutil.which('rt') is None:
        return None
    return common.run(['rt', '--version']).stdout.decode().strip()


def noted() -> dict[str, str]:
    """What bin/SOURCES has under each name."""
    if not NOTED.is_file():
        return {}
    return dict(line.split(' ', 1) for line in NOTED.read_text().splitlines() if ' ' in line and not line.startswith('#'))


def newer_source(artefact: Artefact) -> pathlib.Path | None:
    """A source that is newer than what was built here of it."""
    built = artefact.here.stat().st_mtime
    return next((path for path in files_of(artefact.crate, 'src', 'specs', 'proofs') if path.stat().st_mtime > built), None)


def line_of(artefact: Artefact, data: bytes) -> str:
    """The row of bin/README.md for a file."""
    return f'| `{artefact.file}` | {len(data):,} | `{sum_of(data)}` |'


class Look:
    """Looks at the files of bin/."""

    def __init__(self, program: pathlib.Path | None) -> None:
        self.program = program
        self.count = Count()
        self.noted = noted()

    def all(self) -> None:
        if not self.noted:
            self.count.expect('there is no bin/SOURCES: checks/program/built.py --renew puts the built programs there', False)
            return
        self.toolchain()
        for artefact in ARTEFACTS:
            self.file(artefact)
        if PROGRAM.shipped.is_file():
            ran = common.run([PROGRAM.shipped, '--help'])
            self.count.expect('bin/HELP is not what bin/mcsim --help prints', HELP.is_file() and ran.stdout == HELP.read_bytes())

    def toolchain(self) -> None:
        line = kit()
        if line is None:
            self.count.skip("the toolchain's line, since the command rt is not on PATH")
        elif line == self.noted.get('kit'):
            self.count.expect('bin/SOURCES has no toolchain', True)
        else:
            # (kits of one logic build the same bytes, so it is these that have to agree)
            self.count.skip(f'whether the toolchain is that of bin/, which is {self.noted.get("kit")}: the one here is {line}, and what it built is compared')

    def file(self, artefact: Artefact) -> None:
        name = artefact.name
        if not artefact.shipped.is_file():
            self.count.expect(f'there is no {name}: checks/program/built.py --renew puts it there', False)
            return
        data = artefact.shipped.read_bytes()
        same = self.noted.get(artefact.crate) == digest(artefact.crate)
        self.count.expect(f'{name} was not built of these sources: after a green gate checks/program/built.py --renew puts the new one there', same)
        self.count.expect(f'bin/SOURCES has not the SHA-256 of {name}', self.noted.get(name) == sum_of(data))
        self.count.expect(f"bin/README.md has not the size and the sum of {name}", line_of(artefact, data) in PAGE.read_text().splitlines())
        self.beside(artefact, data)

    def beside(self, artefact: Artefact, data: bytes) -> None:
        """The file beside what was built here."""
        built = artefact.here.relative_to(TOP)
        if artefact.is_program and self.program != PROGRAM.here:
            self.count.skip(f'whether bin/{artefact.file} is what the gate built, since the program that is tried is another one')
        elif not artefact.here.is_file():
            self.count.skip(f'whether bin/{artefact.file} is what is built here, since there is no {built}')
        elif newer := newer_source(artefact):
            self.count.skip(f'whether bin/{artefact.file} is what is built here, since {newer.relative_to(TOP)} is newer than {built}')
        else:
            self.count.expect(f'bin/{artefact.file} is not {built}: checks/program/built.py --renew copies it', artefact.here.read_bytes() == data)


def refuse(why: str) -> None:
    print(f'built.py: nothing was renewed: {why}', file=sys.stderr)
    sys.exit(1)


def build_library(artefact: Artefact) -> None:
    """Builds the library, where it is not there or is older than a source."""
    if artefact.here.is_file() and newer_source(artefact) is None:
        return
    if shutil.which('rt') is None:
        refuse(f'there is no {artefact.here.relative_to(TOP)} of these sources, and the command rt, which builds it, is not on PATH')
    if subprocess.run([sys.executable, str(TOP / 'checks' / 'proofs' / 'archive.py')], stdin=subprocess.DEVNULL).returncode:
        refuse('archive.py did not build the library')


def look_before_renewing() -> None:
    """Refuses what is not there, or is older than a source."""
    for artefact in ARTEFACTS:
        if not artefact.is_program:
            build_library(artefact)
        elif not common.is_program(artefact.here):
            refuse(f'there is no {artefact.here.relative_to(TOP)}: ./test builds it')
        if newer := newer_source(artefact):
            refuse(f'{newer.relative_to(TOP)} is newer than {artefact.here.relative_to(TOP)}')
    if kit() is None:
        refuse('the command rt, which gives the line of the toolchain, is not on PATH')


def texts() -> Iterator[tuple[pathlib.Path, str]]:
    """What is written beside the built files."""
    digests = [f'{artefact.crate} {digest(artefact.crate)}' for artefact in ARTEFACTS]
    sums = [f'{artefact.name} {sum_of(artefact.here.read_bytes())}' for artefact in ARTEFACTS]
    yield NOTED, '\n'.join([HEAD, f'kit {kit()}', *digests, *sums, ''])
    yield HELP, common.run([PROGRAM.here, '--help']).stdout.decode()
    page = PAGE.read_text()
    for artefact in ARTEFACTS:
        row = line_of(artefact, artefact.here.read_bytes())
        page = re.sub(rf'^\| `{re.escape(artefact.file)}` \|.*$', row, page, flags=re.M)
    yield PAGE, page


def renew() -> None:
    look_before_renewing()
    for artefact in ARTEFACTS:
        new = artefact.shipped.with_name(f'.{artefact.file}.new')
        shutil.copyfile(artefact.here, new)
        new.chmod(0o755 if artefact.is_program else 0o644)
        new.replace(artefact.shipped)
    for file, text in list(texts()):
        file.write_text(text)
    for artefact in ARTEFACTS:
        print(f'{sum_of(artefact.shipped.read_bytes())}  bin/{artefact.file}')


def main() -> None:
    parser = common.asking_program(__doc__)
    parser.add_argument('--renew', action='store_true', help='puts the programs and the library that were built here into bin/')
    parser.add_argument('--check', action='store_true', help='looks whether bin/ is up to date, as it does without a word')
    words = parser.parse_args()
    if words.renew:
        renew()
        return
    look = Look(words.program.resolve() if words.program else common.first_program((common.BUILT, common.SHIPPED)))
    look.all()
    look.count.end()


if __name__ == '__main__':
    main()
