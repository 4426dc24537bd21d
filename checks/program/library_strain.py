#!/usr/bin/env python3
"""Checks that the library for C bears what is hard, under sanitizers: each allocation that fails, calls from 8 threads, and damaged texts.

checks/program/library_strain.c makes the calls: simulations, checks, rows, findings, rounds and all time. After an allocation that fails a call gives the lines, or reports out of memory and leaves the room as it
was, and it has freed all memory. It is built twice, with the sanitizers of addresses and undefined behaviour and with that of threads.

It needs a C compiler (cc), and the library: that which was built here (crates/mcs_c/out/libmcs_c.a), or else bin/libmcs_c.a."""
from __future__ import annotations

import pathlib
import re
import shutil
import sys
import tempfile

sys.dont_write_bytecode = True
sys.path[0] = str(pathlib.Path(__file__).resolve().parents[2])
from checks import common
from checks.common import DATA, TOP, Count
from checks.program import library

SOURCE = TOP / 'checks' / 'program' / 'library_strain.c'
SYSTEMS = (TOP / 'examples' / 'systems' / 'network_driver.toml', DATA / 'worked' / 'ring_of_three_cores.toml')
KINDS = ('address,undefined', 'thread')
WRAPPED = '-Wl,--wrap=malloc,--wrap=realloc,--wrap=free'
FLAGS = ('-std=c11', '-Wall', '-Wextra', '-Werror', '-O1', '-g', WRAPPED, '-pthread', '-I', str(TOP / 'include'))
TOLD = re.compile(rb'refused (\d+) and (\d+), faults (\d+) of (\d+) texts, wrong 0\n')
# the sanitizer of threads does not know the addresses of some kernels
NOT_HERE = b'unexpected memory mapping'
SECONDS = 600


def strain(archive: pathlib.Path, kind: str, count: Count, folder: pathlib.Path) -> None:
    """Builds the calls with a sanitizer, and makes them for each system."""
    built = folder / 'strain'
    made = common.run(['cc', *FLAGS, f'-fsanitize={kind}', '-o', built, SOURCE, archive], seconds=SECONDS)
    if made.status:
        count.skip(f'the sanitizer {kind}: {made.stderr.decode(errors="replace")[-200:]}')
        return
    for system in SYSTEMS:
        ran = common.run([built, system], seconds=SECONDS)
        if NOT_HERE in ran.stderr:
            count.skip(f'the sanitizer {kind}, which does not run here')
            return
        told = TOLD.fullmatch(ran.stdout)
        # each call allocates, and most damaged texts are no systems
        good = told is not None and ran.status == 0 and not ran.stderr and min(map(int, told.groups())) > 20
        count.expect(f'{kind}, {system.name}: {ran.status} {(ran.stdout + ran.stderr).decode(errors="replace")[-2000:]}', good)


def main() -> None:
    parser = common.asking(__doc__)
    parser.add_argument('--archive', type=pathlib.Path, metavar='PATH', help='the library (default: crates/mcs_c/out/libmcs_c.a, else bin/libmcs_c.a)')
    archive, count = library.archive_to_try(parser.parse_args().archive), Count()
    if archive is None or shutil.which('cc') is None:
        count.skip('the strained library, since there is no ' + ('C compiler cc' if archive else 'libmcs_c.a'))
        count.end()
    with tempfile.TemporaryDirectory() as folder:
        for kind in KINDS:
            strain(archive.resolve(), kind, count, pathlib.Path(folder))
    count.end()


if __name__ == '__main__':
    main()
