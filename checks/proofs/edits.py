#!/usr/bin/env python3
"""Tries the edits that the prover must refuse and that the gate leaves out: those of crates/CRATE/edits.

They turn functions whose contracts pin the result, so that any wrong body is refused; who changes a crate tries them. With --all those of
crates/CRATE/must-fail are tried too, which the gate tries. With --look each is only read: whether it can be applied is told at once.

With --table what came of each is kept in checks/proofs/edits.csv (edits_table.py), as it comes, and edits whose row is of these sources are passed
over. --shard K/N takes the K-th of N parts of the crates, of about the same cost, so that N machines or runs can share the work.

With --together edits of different functions are tried in one check (edits_together.py), which takes a fraction of the time. It tries alone what is not
refused there, and tells of each edit its share of the CPU seconds. It wants the crate as it stands proved, as a gate on this machine leaves it.

Each edit is tried by the kit's own means, on a copy of the crate, over what a check of the crate as it stands proved. A line for each says
what came of it, in how many CPU seconds, and the first words of the refusal. It passes where the prover refuses it for a goal; not
where it is still proved, cannot be applied or read, is refused only since a proof names what it took away or since no proof covers what it does, or meets
a limit of the whole check.
'gave up' is a refusal at each goal of which a search met a limit of its own: such an edit costs more and tells less, so it has no place in must-fail.

The last line is 'N passed, M failed', and the status is 0 where M is 0."""
from __future__ import annotations

import argparse
import functools
import importlib.machinery
import importlib.util
import multiprocessing
import os
import pathlib
import re
import resource
import shutil
import sys
import tempfile
import types
from collections.abc import Iterator, Sequence
from concurrent.futures import ProcessPoolExecutor
from typing import Any, NamedTuple

sys.dont_write_bytecode = True
TOP = pathlib.Path(__file__).resolve().parents[2]
sys.path[0] = str(TOP)
from checks.proofs import edits_table, edits_together

REFUSED, GAVE_UP, WEAK, NO_GOAL, LIMIT, STANDS, BAD, UNKNOWN = 'refused', 'gave up', 'names gone', 'no goal', 'limit', 'NOT REFUSED', 'bad', 'not tried'
# how many characters of a refusal are shown
SHOWN = 160


class Tried(NamedTuple):
    """What came of an edit."""

    name: str
    verdict: str
    seconds: float
    why: str

    @property
    def passed(self) -> bool:
        return self.verdict in (REFUSED, GAVE_UP)

    def __str__(self) -> str:
        return f'{self.name:<64} {self.verdict:<11} {self.seconds:6.1f} s  {self.why[:SHOWN]}'.rstrip()


def kit() -> types.ModuleType:
    """The program rt as a module, with its crates set up as its own main does."""
    program = shutil.which('rt')
    if not program:
        raise SystemExit('edits.py: rt is not on PATH, so no edit can be tried')
    words, sys.argv = sys.argv, ['rt']
    sys.dont_write_bytecode = True
    loader = importlib.machinery.SourceFileLoader('rtmain', os.path.realpath(program))
    spec = importlib.util.spec_from_loader('rtmain', loader)
    assert spec
    rt = importlib.util.module_from_spec(spec)
    loader.exec_module(rt)
    sys.argv = words
    rt.rtlib.Crate = rt.Crate
    rt.Crate.allowed = rt.handles_of(str(TOP))
    # (a crate's sum asks for those of all below it, along each path of crates.txt)
    rt.rtlib.Crate.stamp = functools.cache(rt.rtlib.Crate.stamp)
    return rt


def keeps(rt: Any) -> bool:
    """Whether the kit keeps what it proved between runs. One that does not has a plainer way to try an edit."""
    return hasattr(rt, 'seeded')


def seeded(rt: Any, crate: Any) -> str | None:
    """A new folder with what a check of the crate as it stands proved, in seed/, or None where it is not proved."""
    if keeps(rt):
        kept = f'{crate.folder}/out/incremental'
        made: str | None = rt.seeded(crate, ['--jobs', '1'], kept if os.path.isdir(kept) else None)
        return made
    room = tempfile.mkdtemp(prefix='edits-')
    if rt.checked(crate, {}, ['--jobs', '1'], f'{room}/seed').returncode:
        shutil.rmtree(room)
        return None
    return room


def tried(rt: Any, crate: Any, edit: str, room: str, over: str) -> tuple[str, str]:
    """What the kit says of an edit that it tries over a copy of the folder's seed, and of which kind that is."""
    if keeps(rt):
        rt.linked(f'{room}/seed', f'{over}/kept')
        came: tuple[str, str] = rt.must_fail(crate, edit, ['--jobs', '1'], f'{over}/kept')
        return came
    shutil.copytree(f'{room}/seed', f'{over}/kept')
    is_refused, said = rt.must_fail(crate, edit, ['--jobs', '1'], f'{over}/kept')
    return 'refused' if is_refused else 'missed' if ': NOT REFUSED' in said else 'bad', said


def verdict_of(kind: str, said: str, output: str = '') -> tuple[str, str]:
    """What an answer of the kit to a check with this output comes to, and why, without the words that say so."""
    why = said.partition(': ')[2] if said.startswith('must-fail ') else said
    lines = re.sub(r'^(refused, as it must be|NOT REFUSED|BAD EDIT|NOT TRIED)(: )?', '', why).splitlines()
    first = lines[0].strip() if lines else ''
    if kind == 'refused':
        if first.startswith('(only because a proof file names'):
            return WEAK, first
        goals = edits_together.goals_of(output.split('\n'))
        if not goals and not first:
            return NO_GOAL, 'the check says nothing of a goal, as of a function that no proof covers'
        return (GAVE_UP, first) if goals and goals[0] else (REFUSED, goals[1] if goals else first)
    return {'limit': LIMIT, 'missed': STANDS, 'bad': BAD}.get(kind, UNKNOWN), first


def edits_of(crate: pathlib.Path, has_all: bool, names: Sequence[str]) -> list[pathlib.Path]:
    """The edits of a crate's folder that are asked for, in order of their names: with names, wherever they stand."""
    places = ['edits', 'must-fail'] if has_all or names else ['edits']
    found = [edit for place in places for edit in (crate / place).glob('*.edit')]
    return sorted((edit for edit in found if not names or edit.stem in names), key=lambda edit: edit.stem)


def used() -> float:
    """The CPU seconds that ended children of this process took."""
    spent = resource.getrusage(resource.RUSAGE_CHILDREN)
    return spent.ru_utime + spent.ru_stime


def heard(rt: Any) -> list[str]:
    """Has the kit's checks in this process leave their outputs in the list too, which begins empty."""
    outputs: list[str] = []
    check = SHARED['checked']

    def checked(*given: Any) -> Any:
        ran = check(*given)
        outputs.append(ran.stdout)
        return ran

    rt.checked = checked
    return outputs


# what a forked process works with: the kit, its own check, and the crates by their names
SHARED: dict[str, Any] = {}


def try_one(of: str, edit: str, room: str) -> Tried:
    """Tries an edit of a crate over a copy of what the crate's own check left in the room."""
    rt, crate = SHARED['rt'], SHARED[of]
    outputs = heard(rt)
    name = f'{crate.name}/{pathlib.Path(edit).stem}'
    begun = used()
    with tempfile.TemporaryDirectory(prefix='edit-', dir=room) as over:
        kind, said = tried(rt, crate, edit, room, over)
    verdict, why = verdict_of(kind, said, '\n'.join(outputs))
    return Tried(name, verdict, used() - begun, why)


def try_together(rt: Any, crate: Any, edits: Sequence[pathlib.Path]) -> Iterator[Tried]:
    """Tries a crate's edits in groups, and tells of those that are refused. What was proved stays for later checks of the crate."""
    kept = f'{crate.folder}/out/incremental'
    os.makedirs(kept, exist_ok=True)
    begun = used()
    for group, came in edits_together.of_crate(rt, crate, edits, kept):
        share = (used() - begun) / len(group)
        for edit, found in came.items():
            verdict = WEAK if found.is_named else GAVE_UP if found.is_at_limit else REFUSED
            yield Tried(f'{crate.name}/{edit.stem}', verdict, share, found.why)
        begun = used()


def try_alone(rt: Any, crate: Any, edits: Sequence[pathlib.Path], jobs: int) -> Iterator[Tried]:
    """Tries each of a crate's edits in a check of its own, as many side by side as there are jobs, over a check of the crate as it stands."""
    room = seeded(rt, crate)
    if not room:
        yield from not_tried(crate, edits)
        return
    try:
        fork = multiprocessing.get_context('fork')
        with ProcessPoolExecutor(jobs, mp_context=fork) as pool:
            running = [pool.submit(try_one, crate.name, str(edit), room) for edit in edits]
            for each in running:
                yield each.result()
    finally:
        shutil.rmtree(room, ignore_errors=True)


def not_tried(crate: Any, edits: Sequence[pathlib.Path]) -> Iterator[Tried]:
    yield from (Tried(f'{crate.name}/{edit.stem}', UNKNOWN, 0.0, 'the crate as it stands is not proved') for edit in edits)


def try_crate(rt: Any, crate: Any, edits: Sequence[pathlib.Path], jobs: int, is_together: bool = False) -> Iterator[Tried]:
    """Tries a crate's edits, together if that is asked for, and each alone that was not refused there."""
    if keeps(rt):
        rt.adopt(crate, is_alone=False)
    is_together = is_together and crate.makes_rlib()
    if any(it.build_rlib(['--jobs', '1'], anew=False) for it in (*crate.below(), *[crate] * is_together)):
        yield from not_tried(crate, edits)
        return
    settled = set[str]()
    for a_try in try_together(rt, crate, edits) if is_together else ():
        settled.add(a_try.name)
        yield a_try
    left = [edit for edit in edits if f'{crate.name}/{edit.stem}' not in settled]
    yield from try_alone(rt, crate, left, jobs) if left else ()


def look(rt: Any, crate: Any, edits: Sequence[pathlib.Path]) -> Iterator[Tried]:
    """Tells of each edit whether it can be applied."""
    for edit in edits:
        _, why = rt.read_edit(str(edit), crate.folder)
        yield Tried(f'{crate.name}/{edit.stem}', BAD if why else REFUSED, 0.0, why or '')


def shard_of(text: str) -> tuple[int, int]:
    """The numbers of K/N."""
    found = re.fullmatch(r'(\d+)/(\d+)', text)
    part, parts = (int(number) for number in found.groups()) if found else (0, 0)
    if not 1 <= part <= parts:
        raise argparse.ArgumentTypeError(f'{text} is no K/N with K from 1 to N')
    return part, parts


def parsed(words: Sequence[str]) -> argparse.Namespace:
    parser = argparse.ArgumentParser(prog='edits.py', description=__doc__, formatter_class=argparse.RawDescriptionHelpFormatter)
    parser.add_argument('crates', nargs='*', metavar='CRATE', help='a crate; without one, each that has edits')
    parser.add_argument('--edit', action='append', default=[], metavar='NAME', help='only this edit, without .edit at its end; may be given again')
    parser.add_argument('--all', action='store_true', dest='has_all', help='those of must-fail too')
    parser.add_argument('--look', action='store_true', help='tell only whether each can be applied')
    parser.add_argument('--jobs', type=int, default=1, metavar='N', help='how many are tried side by side (1)')
    parser.add_argument('--table', action='store_true', help='keep what came of each in checks/proofs/edits.csv, and pass over those whose row is of these sources')
    parser.add_argument('--together', action='store_true', help='try edits of different functions in one check')
    parser.add_argument('--shard', type=shard_of, default=(1, 1), metavar='K/N', help='only the K-th of N parts of the crates')
    return parser.parse_args(words)


def chosen(crates: Sequence[Any], asked: argparse.Namespace) -> list[tuple[Any, list[pathlib.Path]]]:
    """The crates whose edits are tried, with these edits, or stops at a name that stands for none."""
    known = [crate.name for crate in crates]
    for name in asked.crates:
        if name not in known:
            raise SystemExit(f'edits.py: there is no crate {name}; crates.txt lists them')
    found = [(crate, edits_of(pathlib.Path(crate.folder), asked.has_all or asked.look, asked.edit)) for crate in crates if not asked.crates or crate.name in asked.crates]
    stems = {edit.stem for _, edits in found for edit in edits}
    for name in asked.edit:
        if name not in stems:
            raise SystemExit(f'edits.py: there is no edit {name} in edits/ or must-fail/ of {" ".join(asked.crates) or "a crate"}')
    return [(crate, edits) for crate, edits in found if edits]


def cost(crate: Any, edits: Sequence[pathlib.Path]) -> int:
    """About what a crate's edits take, in lines that are read: each loads the crate anew."""
    lines = sum(path.read_bytes().count(b'\n') for path in edits_table.files_of(pathlib.Path(crate.folder)))
    return (len(edits) + 1) * (2000 + lines)


def sharded(work: Sequence[tuple[Any, list[pathlib.Path]]], part: int, parts: int) -> list[tuple[Any, list[pathlib.Path]]]:
    """The crates of one of the parts: the dearest first, each goes to the part that has least so far."""
    sums, shares = [0] * parts, [0] * len(work)
    for at in sorted(range(len(work)), key=lambda at: -cost(*work[at])):
        shares[at] = sums.index(min(sums))
        sums[shares[at]] += cost(*work[at])
    return [each for each, share in zip(work, shares) if share == part - 1]


class Book:
    """The table of what came of edits, if it is asked for."""

    def __init__(self, is_kept: bool) -> None:
        self.is_kept = is_kept
        self.sources = edits_table.Sources(TOP)
        self.digests = {name: self.sources.digest(name.split('/')[0], edit) for name, edit in self.sources.edits().items()} if is_kept else {}

    def left(self, crate: Any, edits: Sequence[pathlib.Path]) -> list[pathlib.Path]:
        """The edits of a crate that have no row of these sources."""
        rows = edits_table.read(edits_table.TABLE) if self.is_kept else {}
        fresh = {name for name, row in rows.items() if row.digest == self.digests.get(name) and row.verdict in (REFUSED, GAVE_UP)}
        return [edit for edit in edits if f'{crate.name}/{edit.stem}' not in fresh]

    def keep(self, tried: Tried) -> None:
        """Puts a row into the table at once, and drops rows whose edit is gone."""
        if not self.is_kept:
            return
        rows = edits_table.standing(edits_table.read(edits_table.TABLE), self.sources)
        crate, edit = tried.name.split('/')
        rows[tried.name] = edits_table.Row(crate, edit, tried.verdict, f'{tried.seconds:.0f}', edits_table.goal_of(tried.why)[:SHOWN], self.digests[tried.name])
        edits_table.write(edits_table.TABLE, rows.values())


def main(words: Sequence[str]) -> int:
    asked = parsed(words)
    if asked.jobs < 1:
        raise SystemExit('edits.py: --jobs takes a number from 1')
    rt = kit()
    crates = rt.rtlib.crates_below(str(TOP))
    if keeps(rt):
        rt.share_work(False)
    SHARED.update({'rt': rt, 'checked': rt.checked, **{crate.name: crate for crate in crates}})
    counts, book = {True: 0, False: 0}, Book(asked.table and not asked.look)
    work = [(crate, left) for crate, edits in chosen(crates, asked) if (left := book.left(crate, edits))]
    for crate, edits in sharded(work, *asked.shard):
        for a_try in look(rt, crate, edits) if asked.look else try_crate(rt, crate, edits, asked.jobs, asked.together):
            book.keep(a_try)
            counts[a_try.passed] += 1
            if not (asked.look and a_try.passed):
                print(a_try, flush=True)
    print(f'{counts[True]} passed, {counts[False]} failed')
    return 1 if counts[False] else 0


if __name__ == '__main__':
    sys.exit(main(sys.argv[1:]))
