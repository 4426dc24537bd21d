#!/usr/bin/env python3
"""Builds the library for C, crates/mcs_c/out/libmcs_c.a, of the crates that the gate has just proved here.

The gate proves mcs_c too, but builds programs alone, and `rt lib` builds a library of crates that it proves once more, each of them: an hour for what
the gate has done. So rt is loaded as a module, and its build of a library is called with the crates as the gate left them. mcs_c itself is proved on the
way, since the compiler takes no other crate. The few C functions of the toolchain that a built program calls, those that give memory, go into the
archive too, so that a C compiler needs nothing else.

The kit's clang compiles the library with SMALLER, too: its code is then a quarter smaller, takes less stack, and is as fast, within a tenth. rattle takes
no such words, so it is given a folder that is the kit's toolchain but for a clang that adds them."""
from __future__ import annotations

import os
import pathlib
import shlex
import shutil
import subprocess
import sys
import tempfile

sys.dont_write_bytecode = True
sys.path[0] = str(pathlib.Path(__file__).resolve().parents[2])
from checks import common
from checks.common import LIBRARY
from checks.proofs.timed_rt import loaded

CRATE = LIBRARY.parent.parent
# Short functions alone, and those that take little stack, are written into their callers. Loops are left as they are, and equal functions become one.
SMALLER = (
    '-mllvm', '-inline-threshold=75', '-mllvm', '-inline-max-stacksize=2000', '-fno-unroll-loops', '-fno-vectorize', '-fno-slp-vectorize',
    '-Xclang', '-fmerge-functions', '-mllvm', '-mergefunc-use-aliases',
)


def main() -> int:
    common.asking(__doc__).parse_args()
    command = shutil.which('rt') or sys.exit('archive.py: the command rt is not on PATH')
    # rt reads its own words from here, too
    sys.argv = ['rt', 'lib']
    rt = loaded(os.path.realpath(command))
    os.chdir(CRATE)
    LIBRARY.unlink(missing_ok=True)
    crate = rt.Crate(str(CRATE), rt.rtlib.root_above(str(CRATE)), {}, name=None)
    if missing := [below.name for below in crate.below() if not pathlib.Path(below.rlib).exists()]:
        sys.exit(f'archive.py: the gate has built no {missing[0]} here: run ./test')
    LIBRARY.parent.mkdir(exist_ok=True)
    with tempfile.TemporaryDirectory() as folder:
        words = ['--toolchain', str(smaller(rt.rtlib.KIT, pathlib.Path(folder))), '--backend', 'llvm', '-o', f'out/{LIBRARY.name}']
        return crate.call(rt.rtlib.RATTLE, 'build', *crate.words([], keeps=False), *words) or join(rt.rtlib.KIT)


def smaller(kit: str, folder: pathlib.Path) -> pathlib.Path:
    """Makes a folder as the kit's toolchain, whose clang makes smaller code."""
    toolchain = pathlib.Path(kit, 'toolchain')
    (folder / 'bin').mkdir()
    for file in (*toolchain.iterdir(), *toolchain.glob('bin/*')):
        # (the linker and the archiver are links to clang, which goes by its name)
        if file.name not in ('bin', 'clang'):
            (folder / file.relative_to(toolchain)).symlink_to(file)
    clang = folder / 'bin' / 'clang'
    clang.write_text(f'#!/bin/sh\nexec {shlex.quote(str(toolchain / "bin" / "clang"))} "$@" {shlex.join(SMALLER)}\n')
    clang.chmod(0o755)
    return folder


def join(kit: str) -> int:
    """Puts the toolchain's C functions into the library."""
    parts = [f'out/{LIBRARY.name}', f'{kit}/c/libos_c.a', f'{kit}/c/liblibc_c.a']
    script = ['create out/joined.a', *(f'addlib {part}' for part in parts), 'save', 'end', '']
    # (clang has the archiver in it, under another name)
    ran = subprocess.run(['llvm-ar', '-M'], executable=f'{kit}/toolchain/bin/clang', input='\n'.join(script), text=True)
    if not ran.returncode:
        pathlib.Path('out', 'joined.a').replace(LIBRARY)
    return ran.returncode


if __name__ == '__main__':
    sys.exit(main())
