"""Finds for lazy.py the tests that fail with a lazy body that survives.

All survivors are written into a copy of the sources at once, each behind a question to a function of C that answers yes for the number in the variable
LAZY_BODY. `rt try` builds the tests and the programs of the copy unproved; when such a program starts it leaves a copy of itself. So each is built
once, and is then run with each number."""
from __future__ import annotations

import multiprocessing
import os
import pathlib
import re
import shutil
import subprocess
import time
from collections.abc import Container, Iterable, Iterator, Sequence
from typing import Any, NamedTuple

from checks.common import TOP
from checks.pages.pages import GUIDES, blocks_in

CHOSEN = 'LAZY_BODY'
PARTS = ('src', 'specs', 'proofs', 'data', 'stdin', 'args')
# the crate on which all others stand, which gets the function of C
LOWEST = 'mcs_ticks'
# the seconds after which a test that does not end has failed
SECONDS = 20
# a command of a guide that takes more seconds is left out
LONG = 10
# how a command is started whose output is read
HOW: dict[str, Any] = {'stdin': subprocess.DEVNULL, 'stdout': subprocess.PIPE, 'stderr': subprocess.STDOUT, 'text': True, 'errors': 'replace'}
ASKS = 'unsafe extern "C" {\n    pub safe fn lazy_is(number: u64) -> u32;\n}\n'
CODE = r'''#include <inttypes.h>
#include <stdio.h>
#include <stdlib.h>
#include <sys/stat.h>

static uint64_t chosen;

/* Copies the file that this code was loaded from: the loader itself may be what was started. */
static void save(void)
{
    static char line[8192], path[8192], room[65536];
    uint64_t begin, end;
    size_t many;
    FILE *maps = fopen("/proc/self/maps", "r"), *from, *to;
    while (fgets(line, sizeof line, maps)) {
        if (sscanf(line, "%" SCNx64 "-%" SCNx64 " %*s %*s %*s %*s %8000s", &begin, &end, path) != 3)
            continue;
        if ((uint64_t)&chosen >= begin && (uint64_t)&chosen < end)
            break;
        if ((uint64_t)&save >= begin && (uint64_t)&save < end)
            break;
    }
    if (!(from = fopen(path, "rb")) || !(to = fopen("SAVED", "wb")))
        return;
    while ((many = fread(room, 1, sizeof room, from)))
        fwrite(room, 1, many, to);
    fclose(to);
    chmod("SAVED", 0755);
}

__attribute__((constructor)) static void begin(void)
{
    const char *given = getenv("LAZY_BODY");
    chosen = given ? strtoull(given, 0, 10) : 0;
    if (!given)
        save();
}

uint32_t lazy_is(uint64_t number)
{
    return number == chosen;
}
'''


class Place(NamedTuple):
    """Where a lazy body is written: the byte of a file at which the function's body opens."""

    opens: int
    number: int
    body: str


def with_bodies(text: bytes, places: Iterable[Place]) -> bytes:
    """A source with these bodies at the heads of their functions, the last one first. All stand in one line, so that no line moves."""
    for place in sorted(places, key=lambda it: -it.opens):
        asks = f' if mcs_ticks::lazy_is({place.number}) != 0 {{ return {place.body}; }}'.replace('return ;', 'return;')
        text = text[:place.opens + 1] + asks.encode() + text[place.opens + 1:]
    return text


def copied(top: pathlib.Path, room: pathlib.Path, saved: pathlib.Path) -> None:
    """Copies the sources of a checkout, with the function of C in the lowest crate."""
    for name in ('crates.txt', 'HANDLES'):
        shutil.copy(top / name, room / name)
    for crate in (top / 'crates').iterdir():
        (room / 'crates' / crate.name).mkdir(parents=True)
        for part in PARTS:
            if (crate / part).is_dir():
                shutil.copytree(crate / part, room / 'crates' / crate.name / part)
            elif (crate / part).is_file():
                shutil.copy(crate / part, room / 'crates' / crate.name / part)
    lowest = room / 'crates' / LOWEST
    (lowest / 'c').mkdir()
    (lowest / 'c' / 'lazy.c').write_text(CODE.replace('SAVED', str(saved)))
    root = lowest / 'src' / 'lib.rt'
    root.write_text(root.read_text() + ASKS)


def build(rt: Any, crate: Any, said: str) -> None:
    """Has rt build and start a crate's tests, or a program, in this process, which ends with it. What it says goes to a file."""
    os.chdir(crate.folder)
    with open(said, 'w') as file:
        os.dup2(file.fileno(), 1)
        os.dup2(file.fileno(), 2)
    # (rt has rattle look at names meanwhile, which takes as long as the build)
    rt.rtlib.RATTLE = shutil.which('true')
    crate.try_unproved([] if crate.is_program else ['--test'], [])


def built(rt: Any, crate: Any, saved: pathlib.Path, program: pathlib.Path) -> str | None:
    """Builds a crate's tests, or a program, which saves itself, and puts it there. Gives what rt said if that came to nothing."""
    said = pathlib.Path(f'{program}.said')
    worker = multiprocessing.get_context('fork').Process(target=build, args=(rt, crate, str(said)))
    worker.start()
    worker.join()
    if not saved.is_file():
        return said.read_text(errors='replace')
    shutil.move(saved, program)
    return None


def run(words: Sequence[str], number: int) -> subprocess.CompletedProcess[str]:
    """Runs a command with one of the bodies."""
    return subprocess.run(words, cwd=TOP, env={**os.environ, CHOSEN: str(number)}, check=False, **HOW)


def failing(runner: str, program: pathlib.Path, number: int, without: Container[str] = ()) -> Iterator[str]:
    """The tests of a built crate that fail with a body, but for those that fail without. No test is begun after the last that was asked for."""
    words = [runner, '--seconds', str(SECONDS), str(program)]
    with subprocess.Popen(words, cwd=TOP, env={**os.environ, CHOSEN: str(number)}, **HOW) as running:
        assert running.stdout
        try:
            for line in running.stdout:
                found = re.match(r'test (\S+) \.\.\. (?!ok$)', line.rstrip())
                if found and found[1] not in without:
                    yield found[1]
        finally:
            running.terminate()


def shown(name: str) -> list[tuple[str, list[str]]]:
    """The commands of the guides that run a program with a file, alone in their block: for each the page and its words."""
    found = []
    for page in GUIDES:
        for kind, block in blocks_in(page.read_text()):
            words = block.split()
            if kind == 'sh' and block.count('\n') == 1 and words[0] == f'./{name}' and not {'|', '>', '<'} & {*block} and '.toml' in block:
                found.append((str(page.relative_to(TOP)), words[1:]))
    return found


def failing_pages(program: pathlib.Path, number: int, right: dict[str, str]) -> Iterator[str]:
    """The commands of the guides that write something else with a body than without; check `pages` holds what they show.

    With number 0 it puts what is right there, and leaves out commands that take long."""
    for page, words in shown(program.name):
        command = ' '.join((f'./{program.name}', *words))
        if number and command not in right:
            continue
        began = time.monotonic()
        said = run([str(program), *words], number)
        told = f'{said.returncode} {said.stdout}'
        if number and told != right[command]:
            yield f'checks/pages/pages.py: {page}: {command}'
        elif not number and time.monotonic() - began < LONG:
            right[command] = told
