#!/usr/bin/env python3
"""Checks that pages show what the programs write: runs each of their commands that runs a system, and the jobs of docs/CI.md.

mcscheck is the one beside the program that is tried, or else the repository's. If there is none, its commands are skipped; so are those over pandas if
Debian's Python has none. A file that a page names and then shows as TOML has the lines that are shown.

The lines of a block that follows a command are lines of its output, in order; a page may leave lines out, and marks that by a line of two dots.
Each command says nothing on standard error, and ends with status 0, or with 5 or 6 where its verdict is that something was found, or that nothing was
judged. So does that of each row
of a table of questions and commands, and the words that the row names are in what it writes.

The jobs of pipelines on docs/CI.md are YAML, and the lines of their scripts are run in a shell with an empty environment, for a system in which all is
well, for one in which a deadline is missed, and verdicts for one that was cut off and has no thread."""
from __future__ import annotations

import functools
import os
import pathlib
import re
import shlex
import sys
import tempfile
from collections.abc import Iterable, Iterator, Sequence

sys.dont_write_bytecode = True
sys.path[0] = str(pathlib.Path(__file__).resolve().parents[2])
try:
    import yaml
    HAS_YAML = True
except ImportError:
    HAS_YAML = False
from checks import common, tool
from checks.common import TOP, Count, Ran

PROGRAM = './mcsim'
CHECKER = './mcscheck'
LEFT_OUT = '..'
# tools that run a program by themselves: the first mcsim, the second mcscheck
ANALYSES = ' --analyse'
SEARCHES = (' --least ', ' --greatest ')
SWEEP = 'tools/sweep '
WORST, COMPARE = 'tools/worst ', 'tools/compare '
# scripts of examples that ask the second for data frames, by Debian's Python
FRAMES = ('examples/python/responses.py ',)
DEBIAN_PYTHON = '/usr/bin/python3'
# a search for a least value makes some hundred runs
SECONDS = 600
# the statuses of a verdict by which something is found, and of one that judged nothing, or not for all time, and the lines by which they are told
FOUND, UNJUDGED = 5, 6
SETS = re.compile(r'sets (\d+) repeating (\d+) findings (\d+) threads \d+ deadlines (\d+)')
FOREVER = ' --forever'
# what has no line of counts at its end, which says how the verdict ends
WITHOUT_COUNTS = (' --format csv', ' --format pretty')
# options that the launcher reads, and no program
TYPED = (' --format pretty', ' --tick-us ')
COUNTS = re.compile(
    r'missed (\d+) overdue (\d+) untaken (\d+) lost (\d+) never (\d+) merged \d+ allowed \d+ unjudged (\d+) hints (\d+) threads \d+ deadlines \d+ judged (\d+)'
    r'(?: slow (\d+) unanswered (\d+))?')
# a block that ends with the status of any of its verdicts
EXITS = 'exit $status'
NONE_WILL_DO = re.compile(r'.*: under none of .*')
# what a search says on standard error after its first run
LEFT = re.compile(r'(sweep: \d+ values? (is|are) left at most, .*\n)?')
SOURCES = ('.toml', '.csv', '<<', '--random')
# a block that writes files is run elsewhere
WRITES = ' -o '
GUIDE_NAMES = ('CHECK.md', 'CI.md', 'FOREVER.md', 'FORMAT.md', 'KERNEL.md', 'LEFT_OUT.md', 'MODELLING.md', 'SWEEPS.md', 'WAYS_IN.md', 'WORST.md')
GUIDES = [TOP / 'docs' / name for name in GUIDE_NAMES]
# pages with blocks beside those that a command wrote
SHOW_OTHERS = tuple(pathlib.Path(name) for name in ('README.md', 'examples/README.md', 'docs/CHECK.md', 'docs/CI.md', 'docs/FORMAT.md', 'docs/WAYS_IN.md'))


# a line that names a file of a system, and the block of TOML below it
FILE_SHOWN = re.compile(r'\]\(([^)\s]+\.toml)\)[^\n]*:\n\n```toml\n(.*?)^```', re.M | re.S)


def are_in(lines: Iterable[str], others: Iterable[str]) -> bool:
    """Whether these lines stand among the others, in order."""
    rest = iter(others)
    return all(line in rest for line in lines)


def blocks_in(text: str) -> list[tuple[str, str]]:
    """The blocks of a page's text: the word after the fence, and what stands in it."""
    return re.findall(r'^```(\w*)\n(.*?)^```', text, re.M | re.S)


def questions_in(text: str) -> Iterator[tuple[str, list[str]]]:
    """The command of each row of a page's table of questions, and the words of its answer that the row names."""
    for table in re.findall(r'^\| Question \| Command \|\n\|---\|---\|\n((?:\|.*\n)+)', text, re.M):
        for row in table.splitlines():
            if found := re.findall(r'`([^`]+)`', row):
                yield found[0], found[1:]


# a page may show once more what another one shows
@functools.cache
def ran(program: pathlib.Path, block: str) -> Ran:
    """What a block of commands comes to, with this program in place of ./mcsim, its mcscheck in place of ./mcscheck, and both for the tools.
    A block with options that the launcher reads is run as it stands."""
    # a Python with packages keeps what it has compiled of them
    given = dict(os.environ) if wants_pandas(block) else tool.environment()
    environment, is_typed = {**given, 'MCSIM': str(program)}, any(word in block for word in TYPED)
    block = block if is_typed else block.replace(PROGRAM, shlex.quote(str(program)))
    if checker := common.checker_of(program):
        block = block if is_typed else block.replace(CHECKER, shlex.quote(str(checker)))
        environment['MCSCHECK'] = str(checker)
    return common.run(['sh', '-c', block], seconds=SECONDS, cwd=TOP, env=environment)


def is_search(block: str) -> bool:
    return any(word in block for word in SEARCHES)


def gives_a_verdict(block: str) -> bool:
    return CHECKER in block or is_search(block)


def status_of(block: str, written: Sequence[str]) -> int:
    """The status with which a block is to end: that of its verdict, where no other command ends it."""
    if EXITS in block:
        # that of the last verdict that has one above 0
        return next(filter(None, (status_of_line(line, block) for line in reversed(written))), 0)
    last = block.rpartition('|')[2]
    if FOREVER in last and written:
        return status_for_ever(written)
    return status_of_line(written[-1], block) if gives_a_verdict(last) and written else 0


def status_for_ever(written: Sequence[str]) -> int:
    """That of a verdict for all time, by its last line."""
    told = SETS.fullmatch(plain(written[-1]))
    if told is None or told[3] != '0':
        return FOUND
    return 0 if told[1] == told[2] and told[4] != '0' else UNJUDGED


def plain(line: str) -> str:
    """A line, or an object of counts as the line that text has."""
    return ' '.join(re.findall(r'\w+', line.partition('"counts",')[2] or line.partition('"kind":"sets",')[2])) or line


def status_of_line(line: str, block: str) -> int:
    """The status of the verdict whose last line this is; 0 if it is another line."""
    if counts := COUNTS.fullmatch(plain(line)):
        missed, overdue, untaken, lost, never, unjudged, hints, judged, slow, unanswered = map(int, counts.groups(default='0'))
        is_found = any((missed, overdue, untaken, lost, never, slow, unanswered)) or ('--strict' in block and any((unjudged, hints)))
        return FOUND if is_found else 0 if judged else UNJUDGED
    return FOUND if NONE_WILL_DO.fullmatch(line) else 0


def is_shown(block: str, written: Sequence[str]) -> bool:
    """Whether a block shows lines that were written."""
    lines = [line for line in block.splitlines() if line != LEFT_OUT]
    return bool(lines) and are_in(lines, written)


def wants_pandas(block: str) -> bool:
    return any(script in block for script in FRAMES)


@functools.cache
def has_pandas() -> bool:
    """Whether Debian's Python has pandas; it is not loaded, which takes long on a busy machine."""
    asking = 'import importlib.util, sys; sys.exit(importlib.util.find_spec("pandas") is None)'
    return common.is_program(pathlib.Path(DEBIAN_PYTHON)) and common.run([DEBIAN_PYTHON, '-c', asking], seconds=SECONDS).status == 0


def missing(block: str, has_checker: bool) -> str | None:
    """What a block of commands needs and is not there, if anything."""
    if not has_checker and (gives_a_verdict(block) or SWEEP in block or WORST in block or wants_pandas(block)):
        return 'mcscheck'
    return 'the package pandas of Python' if wants_pandas(block) and not has_pandas() else None


def runs_a_system(block: str) -> bool:
    """Whether a block of commands runs a program with a file, or with a text in the block."""
    runs = any(word in block for word in (PROGRAM, ANALYSES, SWEEP, WORST, COMPARE)) or gives_a_verdict(block) or wants_pandas(block)
    return runs and any(source in block for source in SOURCES) and WRITES not in block


def is_silent(block: str, said: str) -> bool:
    """Whether standard error has nothing, or, of a search, how long it takes."""
    return LEFT.fullmatch(said) is not None if is_search(block) else not said


def try_block(program: pathlib.Path, name: pathlib.Path, block: str, count: Count) -> list[str]:
    """Tries a block of commands, and gives the lines that it wrote."""
    status, stdout, stderr = ran(program, block.strip())
    written = stdout.decode().splitlines()
    has_counts = not any(word in block for word in WITHOUT_COUNTS)
    is_good = status in ((status_of(block, written),) if has_counts else (0, FOUND, UNJUDGED)) and is_silent(block, stderr.decode())
    count.expect(f'{name}: {block.strip()}: status {status}, {stderr.decode().strip()}', is_good)
    return written


def try_questions(program: pathlib.Path, page: pathlib.Path, count: Count) -> None:
    """Tries the commands of a page's tables of questions; where a row says FILE it is for a file of the reader's own."""
    name, has_checker = page.relative_to(TOP), common.checker_of(program) is not None
    for command, named in questions_in(page.read_text()):
        if not runs_a_system(command):
            continue
        if needed := missing(command, has_checker):
            count.skip(f'{name}: {needed} is not there: {command}')
            continue
        words = ' '.join(try_block(program, name, command, count)).split()
        for word in named:
            count.expect(f'{name}: {command}: an answer without {word}', word in words)


def try_page(program: pathlib.Path, page: pathlib.Path, count: Count) -> None:
    """Tries a page. On those that show other blocks too, only one that follows a command directly is its output."""
    name, has_checker = page.relative_to(TOP), common.checker_of(program) is not None
    shows_others = name in SHOW_OTHERS
    written: list[str] | None = None if shows_others else []
    for kind, block in blocks_in(page.read_text()):
        if kind == 'sh' and runs_a_system(block) and (needed := missing(block, has_checker)):
            count.skip(f'{name}: {needed} is not there: {block.strip()}')
            written = None
        elif kind == 'sh' and runs_a_system(block):
            written = try_block(program, name, block, count)
        elif kind == '' and written is not None:
            count.expect(f'{name}: a block that its command did not write: {block.splitlines()[:1]}', is_shown(block, written))
            written = None if shows_others else written
        elif shows_others:
            written = None


def settings_in(text: str) -> list[str]:
    """The lines of a file that say something."""
    return [line for line in text.splitlines() if line.strip() and not line.startswith('#')]


def try_files(page: pathlib.Path, count: Count) -> None:
    """Compares each file that a page names and shows with what it shows."""
    for target, block in FILE_SHOWN.findall(page.read_text()):
        is_same = settings_in((page.parent / target).read_text()) == settings_in(block)
        count.expect(f'{page.relative_to(TOP)}: {target} has other lines than the page shows', is_same)


# ---- jobs of pipelines


JOBS = TOP / 'docs' / 'CI.md'
# what a job gets from elsewhere
FETCHES = ('apt-get ', 'git clone ')
GOOD, BAD = (common.DATA / 'examples' / f'{name}.toml' for name in ('refills_enough', 'refills_too_few'))
# the first lines of a system, in which nothing can be judged
CUT_OFF = 'version = 1\ncores = 1\ndelay = 1\n'


def script_lines(job: object) -> Iterator[str]:
    """The lines that a job gives to a shell."""
    if isinstance(job, dict):
        for key, value in job.items():
            if key in ('run', 'script', 'before_script'):
                yield from [value] if isinstance(value, str) else value
            else:
                yield from script_lines(value)
    elif isinstance(job, list):
        for part in job:
            yield from script_lines(part)


def ran_in_a_job(program: pathlib.Path, checker: pathlib.Path, line: str, system: pathlib.Path) -> Ran:
    """What a line comes to where a checkout of the repository is mcsim, a copy of the checker ci/mcscheck, and a system system.toml."""
    with tempfile.TemporaryDirectory() as place:
        folder = pathlib.Path(place)
        links = {'mcsim/tools': TOP / 'tools', 'mcsim/mcsim': program, 'mcsim/mcscheck': checker, 'ci/mcscheck': checker, 'system.toml': system}
        for name, target in links.items():
            (folder / name).parent.mkdir(exist_ok=True)
            (folder / name).symlink_to(target)
        path = f'{pathlib.Path(sys.executable).parent}:/usr/bin:/bin'
        return common.run(['sh', '-ec', line], seconds=SECONDS, cwd=folder, env={'PATH': path, 'MCSIM': str(program), 'PYTHONDONTWRITEBYTECODE': '1'})


def ran_cut_off(program: pathlib.Path, checker: pathlib.Path, line: str) -> Ran:
    """What a line comes to for a system that was cut off."""
    with tempfile.TemporaryDirectory() as place:
        system = pathlib.Path(place, 'cut.toml')
        system.write_text(CUT_OFF)
        return ran_in_a_job(program, checker, line, system)


def try_jobs(program: pathlib.Path, count: Count) -> None:
    checker = common.checker_of(program)
    if not HAS_YAML or checker is None:
        count.skip(f'{JOBS.relative_to(TOP)}: jobs: {"mcscheck" if HAS_YAML else "the package yaml of Python"} is not there')
        return
    for block in (block for kind, block in blocks_in(JOBS.read_text()) if kind == 'yaml'):
        lines = list(script_lines(yaml.safe_load(block)))
        count.expect(f'{JOBS.relative_to(TOP)}: a job without a verdict: {lines}', any('mcscheck system.toml' in line for line in lines))
        for line in (line for line in lines if not line.startswith(FETCHES)):
            if needed := missing(line, True):
                count.skip(f'{JOBS.relative_to(TOP)}: {needed} is not there: {line}')
                continue
            ends = [ran_in_a_job(program, checker, line, system).status for system in (GOOD, BAD)]
            count.expect(f'{JOBS.relative_to(TOP)}: {line}: status {ends}', ends == ([0, FOUND] if 'mcscheck' in line else [0, 0]))
            if 'mcscheck' in line:
                status = ran_cut_off(program, checker, line).status
                count.expect(f'{JOBS.relative_to(TOP)}: {line}: status {status} where nothing is judged', status == (FOUND if '--strict' in line else UNJUDGED))


def main() -> None:
    pages = (*sorted((TOP / 'examples').glob('*.md')), TOP / 'README.md', *GUIDES)
    parser = common.asking_program(__doc__)
    names = [str(page.relative_to(TOP)) for page in pages]
    parser.add_argument('--page', action='append', choices=names, metavar='PAGE', help='of the pages only this one, as docs/CHECK.md; may be given several times')
    words = parser.parse_args()
    program, count = common.built_program(words.program), Count()
    for page in (page for page, name in zip(pages, names) if not words.page or name in words.page):
        try_files(page, count)
        try_questions(program, page, count)
        try_page(program, page, count)
    try_jobs(program, count)
    count.end()


if __name__ == '__main__':
    main()
