#!/usr/bin/env python3
"""Proves and tests the repository by the gate (rt ci), and then checks the programs that the gate has built, the tools and the pages.

The last line is 'N passed, M failed', with ', K skipped' if something that a check needs is missing. The exit code is 0 if M is 0. If nothing was
proved, the line before it says why. The gate leaves its programs in crates/mcsim/out and crates/mcscheck/out, where ./mcsim and ./mcscheck find them;
then the library for C is built. With --program or --no-proofs, or if the command rt is not on PATH, nothing is proved: the checks take the program that
is given, or else crates/mcsim/out/mcsim or bin/mcsim, and the mcscheck beside it, or that of crates/mcscheck/out or bin.

Near the end it names the five parts of the gate that took longest, each beside the table of the gate's cost (checks/proofs/gate.csv). A gate that passed
and costs more than 1.3 times that table, times the median ratio, counts as a failure (checks/proofs/gate_beside.py).

With --all-edits it tries each edit that the prover must refuse, of must-fail and of edits, whose row in checks/proofs/edits.csv is not of these sources,
and nothing else. --shard K/N tries the K-th of N parts of the crates, so that several machines or runs share the work.

--list writes tables of the checks and of the scripts that are run by hand, from their docstrings; --write puts them on checks/README.md."""
from __future__ import annotations

import argparse
import ast
import concurrent.futures
import os
import pathlib
import re
import shutil
import subprocess
import sys
import tempfile
import time
from collections.abc import Sequence
from typing import Any, NamedTuple

sys.dont_write_bytecode = True
sys.path[0] = str(pathlib.Path(__file__).resolve().parents[1])
from checks import common
from checks.common import LIBRARY, TOP, Tally

HERE = pathlib.Path(__file__).resolve().parent
# a check that takes longer is stopped, and has failed: on a busy machine each takes many times its minutes
SECONDS = 3600


class Check(NamedTuple):
    """A script of a folder here: its CPU seconds, whether it tries the built program, further words for it, and what it needs beside Python."""

    folder: str
    name: str
    seconds: int = 1
    tries_program: bool = True
    words: tuple[str, ...] = ()
    needs: str = ''

    @property
    def script(self) -> pathlib.Path:
        return HERE / self.folder / f'{self.name}.py'

    def command(self, program: pathlib.Path | None) -> list[str]:
        given = ['--program', str(program)] if self.tries_program else []
        return [sys.executable, str(self.script), *given, *self.words]


# those that take longest begin first
CHECKS = (
    Check('program', 'units', 120, tries_program=False),
    Check('program', 'stress', 45, words=('--systems', '2000'), needs='`taskset`, `prlimit`'),
    Check('program', 'schema', 13, needs='`jsonschema`'),
    Check('program', 'waves', 7, tries_program=False, needs='`vcd2fst`'),
    Check('program', 'verdicts', 35),
    Check('program', 'forever', 35),
    Check('program', 'facts', 40),
    Check('program', 'traces', 3),
    Check('program', 'views', 15, needs='`chromium`'),
    Check('program', 'bandwidth', 5),
    Check('program', 'rules', 6),
    Check('program', 'readers', 3),
    Check('program', 'ways', 9),
    Check('program', 'latencies', 30),
    Check('program', 'analyses', 20),
    Check('program', 'worst', 25),
    Check('program', 'compare', 8),
    Check('program', 'engines', 10),
    Check('program', 'refused_runs', 20, needs='`cc`'),
    Check('proofs', 'early', 9, tries_program=False, needs='`rt`'),
    Check('proofs', 'lazy', 20, tries_program=False, needs='`rt`'),
    Check('pages', 'site', 30, tries_program=False, needs='`sphinx`, `myst_parser`'),
    Check('program', 'lint', 18, tries_program=False, needs='`mypy`, `pyflakes3`'),
    Check('program', 'library', 3, needs='`cc`'),
    Check('program', 'library_verdicts', 10, needs='`cc`'),
    Check('program', 'library_strain', 35, tries_program=False, needs='`cc`'),
    Check('program', 'python_package', 20, tries_program=False, needs='`cc`, `setuptools`, `wheel`, `build`, `mypy`, `pandas`'),
    Check('program', 'packages', 6, needs='`cc`, `c++`, `pkg-config`, `cmake`, `nm`'),
    Check('proofs', 'theorems', tries_program=False),
    Check('proofs', 'believe', tries_program=False),
    Check('proofs', 'comments', tries_program=False),
    Check('proofs', 'unused', 3, tries_program=False),
    Check('proofs', 'edits_table', tries_program=False),
    Check('program', 'faults'),
    Check('program', 'checker', 15),
    Check('program', 'progress', 12),
    Check('pages', 'manual', needs='`mandoc`'),
    Check('pages', 'tool_pages', tries_program=False, needs='`mandoc`'),
    Check('pages', 'mended', 3),
    Check('pages', 'pages', 18, needs='`yaml`, `pandas`'),
    Check('pages', 'prose', 2, tries_program=False),
    Check('pages', 'proved', tries_program=False),
    Check('pages', 'links', tries_program=False),
    Check('program', 'built'),
    Check('pages', 'pictures', 4),
)
# what no gate runs
BY_HAND = (
    ('proofs', 'edits'), ('proofs', 'take'), ('proofs', 'quick'), ('proofs', 'gate'), ('proofs', 'archive'), ('program', 'refused_tests'), ('program', 'same'), ('program', 'widths'),
    ('program', 'forever_model'), ('measure', 'performance'), ('measure', 'costs'), ('measure', 'checker_costs'), ('measure', 'forever_table'),
    ('measure', 'beside'), ('measure', 'gains'),
)
GATE = HERE / 'proofs' / 'gate.py'
PAGE = HERE / 'README.md'
BEGINS, ENDS = '<!-- tables of everything.py -->', '<!-- end of tables -->'


def does(script: pathlib.Path) -> str:
    """What a script does: the first paragraph of its docstring."""
    doc = ast.get_docstring(ast.parse(script.read_text(encoding='utf-8'))) or ''
    return ' '.join(doc.partition('\n\n')[0].split())


def row(folder: str, name: str, *cells: str) -> str:
    return ' | '.join((f'| [`{name}`]({folder}/{name}.py)', does(HERE / folder / f'{name}.py'), *cells)) + ' |'


def tables() -> str:
    """The tables of the checks, by name, and of the scripts that are run by hand."""
    checks = sorted(CHECKS, key=lambda check: check.name)
    lines = ['| Check | What it does | Needs | CPU seconds |', '|---|---|---|---|']
    lines += [row(check.folder, check.name, check.needs, str(check.seconds)) for check in checks]
    lines += ['', '| Run by hand | What it does |', '|---|---|', *(row(*script) for script in BY_HAND)]
    return '\n'.join(lines) + '\n'


def with_tables(page: str) -> str:
    """A page with the tables of today between its marks."""
    return re.sub(f'(?<={BEGINS}\n\n).*?(?=\n{ENDS})', lambda _: tables(), page, flags=re.S)


def say(text: str) -> None:
    print(text, flush=True)


def asked() -> argparse.Namespace:
    parser = common.asking(__doc__)
    parser.prog = 'test'
    parser.add_argument('--program', type=pathlib.Path, metavar='PATH', help='checks this built program, and proves nothing')
    parser.add_argument('--no-proofs', action='store_true', help='checks the built program that is found, and proves nothing')
    parser.add_argument('--times', type=pathlib.Path, metavar='FILE', help='writes to FILE what took the time in the gate, as checks/proofs/gate.py does')
    parser.add_argument('--anew', action='store_true', help='takes nothing of what earlier gates kept on this machine')
    parser.add_argument('--list', action='store_true', help='writes tables of the checks and of the scripts that are run by hand')
    parser.add_argument('--write', action='store_true', help='puts these tables on checks/README.md')
    parser.add_argument('--all-edits', action='store_true', help='tries all edits that the prover must refuse, and keeps what came of them in checks/proofs/edits.csv')
    parser.add_argument('--shard', metavar='K/N', help='with --all-edits: only the K-th of N parts of the crates')
    parser.add_argument('--only', action='append', choices=[check.name for check in CHECKS], help='of the checks after the gate only this one; may be given several times')
    words = parser.parse_args()
    if words.shard and not words.all_edits:
        parser.error('--shard is for --all-edits')
    if words.times and words.times.suffix == '.json':
        parser.error('the .json is written beside the FILE of --times')
    return words


def why_no_proofs(words: argparse.Namespace) -> str | None:
    """Why nothing is to be proved, or None where the gate is to run."""
    if words.program:
        return f'--program gives {words.program}'
    if words.no_proofs:
        return '--no-proofs was given'
    if not shutil.which('rt'):
        return 'the command rt of the Rattle toolchain is not on PATH'
    return None


def gate_command(words: argparse.Namespace, times: pathlib.Path) -> list[str]:
    """The gate, by the script that times its tasks; it writes them to TIMES, and to the same name with .json."""
    return [sys.executable, str(GATE), *(['--anew'] if words.anew else []), str(times)]


def judged(told: Tally | None, status: int, what: str) -> tuple[str, Tally]:
    """The count that something told, which its status has to agree with, and what is to be said of it."""
    if told is None:
        return f'failed: {what} ended with status {status} and told no count\n', Tally(failed=1)
    if status and not told.failed:
        return f'failed: {what} ended with status {status}\n', told.plus(Tally(failed=1))
    return '', told


def counted(command: Sequence[str], name: str) -> Tally:
    """Runs a command, and shows what it writes; its count is told with a name, so that nobody takes it for the last line."""
    told = None
    with common.started(command) as running:
        assert running.stdout
        for line in running.stdout:
            count = common.tally_of(line)
            if count is None:
                print(line, end='', flush=True)
            else:
                told = count
    said, count = judged(told, running.returncode, name)
    say(f'{said}{name}: {count}')
    return count


def stamp(program: pathlib.Path, began: float) -> None:
    """Gives the program the time at which the gate began: a source that was edited meanwhile is newer, as the launcher asks."""
    if program.exists():
        os.utime(program, (began, began))


def build_library(began: float) -> Tally:
    """Builds the library for C of what the gate has proved: the gate itself builds programs alone."""
    if not LIBRARY.parent.parent.is_dir():
        return Tally()
    LIBRARY.unlink(missing_ok=True)
    how: dict[str, Any] = {'stdin': subprocess.DEVNULL, 'stdout': subprocess.PIPE, 'stderr': subprocess.STDOUT, 'text': True, 'errors': 'replace'}
    ran = subprocess.run([sys.executable, str(HERE / 'proofs' / 'archive.py')], **how)
    built = ran.returncode == 0 and LIBRARY.is_file()
    stamp(LIBRARY, began)
    say(f'built {LIBRARY.relative_to(TOP)}' if built else f'{ran.stdout}failed: archive.py did not build {LIBRARY.relative_to(TOP)}')
    return Tally(passed=int(built), failed=int(not built))


def compare(times: pathlib.Path) -> Tally:
    """Says what took longest in the gate and what its table says of it. If that cannot be said, nothing fails."""
    made = times.with_suffix('.json')
    if not made.is_file():
        return Tally()
    how: dict[str, Any] = {'stdin': subprocess.DEVNULL, 'stdout': subprocess.PIPE, 'stderr': subprocess.STDOUT, 'text': True, 'errors': 'replace'}
    ran = subprocess.run([sys.executable, str(GATE), '--from', str(made), '--compare'], **how)
    *lines, last = ran.stdout.splitlines() or ['']
    told = common.tally_of(last)
    say('\n'.join(['== the cost of the gate', *lines]))
    if told is None:
        say(f'{last}\nthe cost of the gate is not compared')
    return told or Tally()


def prove(words: argparse.Namespace, times: pathlib.Path) -> Tally:
    """Runs the gate, unless nothing is to be proved."""
    if why := why_no_proofs(words):
        say(f'nothing was proved: {why}')
        return Tally(skipped=1)
    began = time.time()
    count = counted(gate_command(words, times), 'rt ci')
    for name in common.PROGRAMS:
        stamp(common.built_of(name), began)
    return count if count.failed else count.plus(build_library(began))


def program_to_try(words: argparse.Namespace) -> pathlib.Path | None:
    """The program that the checks are to try; after a gate this is the gate's, and no other."""
    if why_no_proofs(words):
        places = [words.program] if words.program else [common.BUILT, common.SHIPPED]
    else:
        places = [common.BUILT]
    found = common.first_program(places)
    return found and found.resolve()


def tried(check: Check, program: pathlib.Path | None) -> tuple[str, Tally, float]:
    """What a check writes, its count and its seconds."""
    began = time.monotonic()
    how: dict[str, Any] = {'stdin': subprocess.DEVNULL, 'stdout': subprocess.PIPE, 'stderr': subprocess.STDOUT}
    try:
        ran = subprocess.run(check.command(program), cwd=TOP, timeout=SECONDS, text=True, errors='replace', **how)
    except subprocess.TimeoutExpired:
        return f'failed: it had not ended after {SECONDS} seconds\n', Tally(failed=1), SECONDS
    *lines, last = ran.stdout.splitlines() or ['']
    told = common.tally_of(last)
    if told is None:
        lines.append(last)
    said, count = judged(told, ran.returncode, check.name)
    return ''.join(f'{line}\n' for line in lines) + said, count, time.monotonic() - began


def check_all(checks: Sequence[Check], program: pathlib.Path | None) -> Tally:
    """Runs the checks side by side, and shows each once it has ended."""
    total = Tally()
    with concurrent.futures.ThreadPoolExecutor(len(os.sched_getaffinity(0))) as pool:
        running = {pool.submit(tried, check, program): check for check in checks}
        for ended in concurrent.futures.as_completed(running):
            text, count, seconds = ended.result()
            say(f'== {running[ended].name}\n{text}{running[ended].name}: {count} ({seconds:.0f} s)')
            total = total.plus(count)
    return total


def checks_for(words: argparse.Namespace, program: pathlib.Path | None) -> list[Check]:
    """The checks that are asked for; without a program those that try none."""
    wanted = [check for check in CHECKS if not words.only or check.name in words.only]
    return [check for check in wanted if program or not check.tries_program]


def run_all(words: argparse.Namespace, times: pathlib.Path) -> int:
    """Runs the gate, which writes its times to a file, and the checks, and says what the gate cost."""
    say(f'processors: {len(os.sched_getaffinity(0))}')
    total = prove(words, times)
    program = program_to_try(words)
    if program is None:
        say('failed: there is no built program to check')
        total = total.plus(Tally(failed=1))
    else:
        say(f'checking {os.path.relpath(program, TOP) if program.is_relative_to(TOP) else program}')
    total = total.plus(check_all(checks_for(words, program), program))
    if why := why_no_proofs(words):
        say(f'nothing was proved: {why}')
    else:
        total = total.plus(compare(times))
    print(total)
    return total.status


def try_edits(shard: str | None) -> int:
    """Tries all edits for the table, and then holds the table to the sources."""
    part = ['--shard', shard] if shard else []
    given: dict[str, list[str]] = {'edits': ['--table', '--all', '--together', *part], 'edits_table': []}
    total = Tally()
    for name in given:
        total = total.plus(counted([sys.executable, str(HERE / 'proofs' / f'{name}.py'), *given[name]], name))
    print(total)
    return total.status


def main() -> int:
    words = asked()
    if words.all_edits:
        return try_edits(words.shard)
    if words.list:
        print(tables(), end='')
    if words.write:
        PAGE.write_text(with_tables(PAGE.read_text(encoding='utf-8')), encoding='utf-8')
    if words.list or words.write:
        return 0
    with tempfile.TemporaryDirectory() as folder:
        return run_all(words, words.times.resolve() if words.times else pathlib.Path(folder, 'times.md'))


if __name__ == '__main__':
    sys.exit(main())
