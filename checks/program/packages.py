#!/usr/bin/env python3
"""Checks that an installation has the C library as pkg-config and CMake find it: programs in C and C++ build with it and print what mcsim prints.

It installs into a fresh folder. The shared library exports the calls of the header alone, is small, and has the version that the header, mcsim.pc, CMake
and the package for Python name. After --uninstall the folder is empty. It needs a C compiler; what needs pkg-config, CMake, nm or a compiler for C++ is
skipped without it."""
from __future__ import annotations

import os
import pathlib
import re
import shlex
import shutil
import sys
import tempfile

sys.dont_write_bytecode = True
sys.path[0] = str(pathlib.Path(__file__).resolve().parents[2])
from checks import common
from checks.common import TOP, Count, Ran

LAUNCHER, EXAMPLE, TEST = TOP / 'mcsim', TOP / 'examples' / 'c' / 'reports.c', TOP / 'examples' / 'c' / 'test_design.c'
SYSTEM = TOP / 'examples' / 'systems' / 'network_driver.toml'
HORIZON = '100'
# bytes of the shared library: 675 KB of 1,024; each of its sinks has a turn of its own, whose short calls are inlined, and chains for all time take 20 KB
MOST = 675 * 1024
SANITIZED = ('-fsanitize=address,undefined',)
STRICT = ('-Wall', '-Wextra', '-Wpedantic', '-Werror')
# prints the reports of standard input
IN_CPP = r'''
#include <mcsim.h>
#include <cstdio>
#include <iostream>
#include <iterator>
#include <string>
#include <vector>

static_assert(MCS_VERSION_MAJOR == 1, "the major version is that of the library's name");

int main()
{
    const std::string text{std::istreambuf_iterator<char>(std::cin), {}};
    std::vector<std::uint8_t> room(1);
    std::size_t length = 0;
    std::uint32_t result = MCS_ROOM;
    while (result == MCS_ROOM) {
        room.resize(length + 1);
        result = mcs_run(reinterpret_cast<const std::uint8_t *>(text.data()), text.size(), 100, MCS_REPORTS, room.data(), room.size(), &length);
    }
    std::fwrite(room.data(), 1, length, stdout);
    return static_cast<int>(result);
}
'''
IN_CMAKE = '''
cmake_minimum_required(VERSION 3.13)
project(uses_mcsim C)
find_package(mcsim {asked} REQUIRED)
foreach(kind mcsim static)
  add_executable(with_${{kind}} {source})
  target_link_libraries(with_${{kind}} mcsim::${{kind}})
endforeach()
'''


def version() -> str:
    """The version that the header has."""
    header = (TOP / 'include' / 'mcsim.h').read_text()
    return '.'.join(re.findall(r'^#define MCS_VERSION_(?:MAJOR|MINOR) (\d+)$', header, re.M))


class Trial:
    """An installation, and programs that use its library."""

    def __init__(self, program: pathlib.Path, folder: pathlib.Path) -> None:
        self.count, self.folder, self.prefix = Count(), folder, folder / 'a prefix'
        self.shared = self.prefix / 'lib' / 'libmcs.so.1'
        self.env = {**os.environ, 'PKG_CONFIG_PATH': str(self.prefix / 'lib' / 'pkgconfig'), 'LD_LIBRARY_PATH': str(self.prefix / 'lib')}
        self.wanted = common.run([program, SYSTEM, '--horizon', HORIZON, '--show', 'reports'])

    def run(self, *command: str | pathlib.Path, stdin: bytes = b'') -> Ran:
        return common.run(command, stdin, seconds=300, env=self.env, cwd=self.folder)

    def needs(self, *commands: str) -> bool:
        """Whether these commands are there; what needs one that is not is skipped."""
        missing = [command for command in commands if shutil.which(command) is None]
        if missing:
            self.count.skip(f'what needs {" and ".join(missing)}')
        return not missing

    def expect(self, what: str, ran: Ran, stdout: bytes | None = None) -> bool:
        """A command that ends well and writes what it should, if that is said."""
        good = ran.status == 0 and (stdout is None or ran.stdout == stdout)
        self.count.expect(f'{what}: {ran.status} {(ran.stderr or ran.stdout).decode(errors="replace")[-500:]}', good)
        return good

    def try_library(self) -> None:
        """The shared library itself."""
        size = self.shared.stat().st_size
        self.count.expect(f'{self.shared.name} has {size} bytes, and at most {MOST} are allowed', size <= MOST)
        calls = re.findall(r'^uint32_t (mcs_\w+)\(', (TOP / 'include' / 'mcsim.h').read_text(), re.M)
        if self.needs('nm'):
            exported = [line.split()[-1] for line in self.run('nm', '-D', '--defined-only', self.shared).stdout.decode().splitlines()]
            self.count.expect(f'exported are {exported}, and the header has {calls}', sorted(exported) == sorted(calls) != [])

    def try_versions(self) -> None:
        """The files that name the version, beside the header."""
        wanted = version()
        self.count.expect(f'the header has the version {wanted!r}', re.fullmatch(r'\d+\.\d+', wanted) is not None)
        named = (('library/mcsim.pc', r'^Version: (.*)$'), ('library/mcsimConfigVersion.cmake', r'PACKAGE_VERSION "(.*)"'))
        for file, pattern in named:
            found = re.findall(pattern, (TOP / file).read_text(), re.M)
            self.count.expect(f'{file} has the version {found}, and the header {wanted}', found == [wanted])

    def try_pkg_config(self) -> None:
        """A program in C and one in C++, by pkg-config."""
        if not self.needs('pkg-config'):
            return
        self.expect('pkg-config --modversion', self.run('pkg-config', '--modversion', 'mcsim'), version().encode() + b'\n')
        options = shlex.split(self.run('pkg-config', '--cflags', '--libs', 'mcsim').stdout.decode())
        (self.folder / 'reports.cpp').write_text(IN_CPP)
        for compiler, standard, source in (('cc', '-std=c99', EXAMPLE), ('c++', '-std=c++17', self.folder / 'reports.cpp')):
            if not self.needs(compiler):
                continue
            built = self.folder / f'by_{source.suffix[1:]}'
            if self.expect(f'{compiler} with pkg-config', self.run(compiler, standard, *STRICT, source, '-o', built, *options)):
                words: tuple[str, ...] = (str(SYSTEM), HORIZON) if compiler == 'cc' else ()
                self.expect(f'what {compiler} built', self.run(built, *words, stdin=SYSTEM.read_bytes()), self.wanted.stdout)

    def try_cmake(self) -> None:
        """Programs with the shared and the static library, by CMake."""
        if not self.needs('cmake', 'cc'):
            return
        project = self.folder / 'project'
        project.mkdir()
        for asked, is_there in ((version(), True), ('1.1', True), ('', True), ('2.0', False), ('1.99', False)):
            (project / 'CMakeLists.txt').write_text(IN_CMAKE.format(asked=asked, source=EXAMPLE))
            shutil.rmtree(project / 'out', ignore_errors=True)
            ran = self.run('cmake', '-S', project, '-B', project / 'out', f'-DCMAKE_PREFIX_PATH={self.prefix}')
            self.count.expect(f'find_package(mcsim {asked}) ends with {ran.status}', (ran.status == 0) == is_there)
            if is_there and self.expect('cmake --build', self.run('cmake', '--build', project / 'out')):
                for kind in ('mcsim', 'static'):
                    self.expect(f'what CMake built with mcsim::{kind}', self.run(project / 'out' / f'with_{kind}', SYSTEM, HORIZON), self.wanted.stdout)

    def try_test(self) -> None:
        """The unit test in C: the driver takes 14 ticks of each period, so its budget is exhausted 200 times in 10,000 with 14, and never with 15."""
        built, text = self.folder / 'test_design', SYSTEM.read_text()
        words = ('-std=c99', *STRICT, *SANITIZED, '-I', self.prefix / 'include', '-o', built, TEST, self.prefix / 'lib' / 'libmcs_c.a')
        if not self.needs('cc') or not self.expect('cc of the unit test', self.run('cc', *words)):
            return
        for budget, status, times in ((14, 1, 200), (15, 0, 0)):
            file = self.folder / f'{budget}.toml'
            file.write_text(text.replace('budget = 12', f'budget = {budget}'))
            ran, last = self.run(built, file, 'Driver'), f'the budget of Driver is exhausted {times} times\n'
            self.count.expect(f'a unit test of a budget of {budget}: {ran}', ran.status == status and ran.stdout.decode().endswith(last) and not ran.stderr)

    def all(self) -> None:
        self.try_versions()
        if not self.expect('--install', self.run(LAUNCHER, '--install', self.prefix)) or not self.shared.is_file():
            self.count.expect(f'{self.shared} is not there', False)
            return
        self.try_library()
        self.try_pkg_config()
        self.try_cmake()
        self.try_test()
        self.expect('--uninstall', self.run(LAUNCHER, '--uninstall', self.prefix))
        left = [path for path in self.prefix.rglob('*') if not path.is_dir()]
        self.count.expect(f'--uninstall left {left}', not left)


def main() -> None:
    parser = common.asking_program(__doc__)
    program = common.built_program(parser.parse_args().program)
    if not any(map(shutil.which, ('cc', 'gcc', 'clang'))):
        count = Count()
        count.skip('the packages of the library for C, since there is no C compiler')
        count.end()
    with tempfile.TemporaryDirectory() as folder:
        trial = Trial(program, pathlib.Path(folder))
        trial.all()
    trial.count.end()


if __name__ == '__main__':
    main()
