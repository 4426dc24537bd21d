"""Runs `rt ci` with the words that follow FILE, and writes to FILE, as JSON, what each of the gate's tasks took; for gate.py.

    python3 timed_rt.py FILE [WORD..]

rt has no option that tells times, so it is loaded as a module and three calls are replaced, none of which changes what the gate does: the one that
runs tasks side by side (there each task gets its clock), the pool in which a task starts commands (its threads count for that task), and the one
by which Python waits for a process (there the processor's seconds come from).

A fourth is the one that tries the edits of a crate that is proved, or that makes the tasks which do. The kit would prove the crate once more for them, and
load it for each. Here those of different functions are tried in one check, over the libraries that the gate has just built (edits_together.py). Each edit
that is not refused there for a goal is tried by the kit's own call, whose word decides. A kit that keeps its work between gates keeps what came of each.

If rt cannot be loaded, or lacks one of these calls, a line says so, and `rt ci` runs as it is. What goes wrong with the clocks later is a line too: the
exit code is always that of the gate."""
from __future__ import annotations

import collections
import datetime
import functools
import importlib.machinery
import importlib.util
import json
import os
import pathlib
import shutil
import sys
import threading
import time
import types
from collections.abc import Callable, Sequence
from concurrent.futures import Future, ThreadPoolExecutor
from typing import Any, NoReturn

sys.dont_write_bytecode = True
sys.path[0] = str(pathlib.Path(__file__).resolve().parents[2])
from checks.proofs import edits_together

# (crate, part) of a task, and the number of an edit
Key = tuple[Any, ...]

# how many characters of a refusal are shown, as the kit does
SHOWN = 160

here = threading.local()
counting = threading.Lock()
seconds: dict[Key | None, float] = collections.defaultdict(float)
clocks: dict[Key, tuple[float, float]] = {}
tasks_seen: dict[Key, tuple[Any, ...]] = {}
began = time.monotonic()


def loaded(path: str) -> types.ModuleType:
    """The command rt as a module."""
    loader = importlib.machinery.SourceFileLoader('rt_main', path)
    spec = importlib.util.spec_from_loader('rt_main', loader)
    assert spec
    module = importlib.util.module_from_spec(spec)
    loader.exec_module(module)
    return module


def counted_wait(process: int, flags: int) -> tuple[int, int]:
    """As os.waitpid; the seconds of a process that has ended are those of this thread's task."""
    ended, status, used = os.wait4(process, flags)
    if ended:
        with counting:
            seconds[getattr(here, 'task', None)] += used.ru_utime + used.ru_stime
    return ended, status


def clocked(key: Key, call: Callable[..., Any]) -> Callable[..., Any]:
    """The call of a task, which tells when it began and when it ended."""

    def run(*given: Any, **named: Any) -> Any:
        here.task = key
        started = time.monotonic() - began
        try:
            return call(*given, **named)
        finally:
            clocks[key] = started, time.monotonic() - began
            here.task = None

    return run


class Counted(ThreadPoolExecutor):
    """Threads that count for the task of the thread that hands them work."""

    def submit(self, call: Callable[..., Any], /, *given: Any, **named: Any) -> Future[Any]:
        return super().submit(self.within, getattr(here, 'task', None), call, *given, **named)

    @staticmethod
    def within(task: Key | None, call: Callable[..., Any], *given: Any, **named: Any) -> Any:
        here.task = task
        return call(*given, **named)


def with_clocks(tasks: dict[Key, tuple[Any, ...]]) -> dict[Key, tuple[Any, ...]]:
    """The tasks of rt, each of which is what it waits for, its lines, its memory and its call."""
    timed = {key: (*task[:3], clocked(key, task[3]), *task[4:]) for key, task in tasks.items()}
    tasks_seen.update(tasks)
    return timed


def hook(rt: Any) -> None:
    """Replaces the three calls; a call that rt lacks is an AttributeError."""
    in_lanes, _, _ = rt.in_lanes, rt.rtlib.ThreadPoolExecutor, rt.main

    def clocked_lanes(tasks: dict[Key, tuple[Any, ...]], *given: Any, **named: Any) -> Any:
        try:
            timed = with_clocks(tasks)
        except Exception as why:
            complain('the tasks have no clocks', why)
            timed = tasks
        return in_lanes(timed, *given, **named)

    rt.in_lanes = clocked_lanes
    rt.rtlib.ThreadPoolExecutor = Counted
    os.waitpid = counted_wait


def refused_together(rt: Any, crate: Any, edits: Sequence[str]) -> dict[str, str]:
    """What is to be said of those of a crate's edits that are refused together, as the kit tells it."""
    try:
        came = edits_together.refused(rt, crate, edits)
    except Exception as why:
        complain(f'the edits of {crate.name} are not tried together', why)
        return {}
    return {edit: f'must-fail {crate.name}/{os.path.basename(edit)}: refused, as it must be: {why[:SHOWN]}' for edit, why in came.items()}


def hook_edits(rt: Any) -> None:
    """Has the edits of a crate tried together, if the kit has the call that this replaces."""
    if keeps(rt):
        if hasattr(rt, 'add_edits'):
            rt.add_edits = functools.partial(add_edits, rt)
        return
    if not hasattr(rt, 'must_fail_all'):
        return
    must_fail_all = rt.must_fail_all

    def together(crate: Any, edits: Sequence[str], flags: list[str]) -> list[tuple[bool, str]]:
        """Whether each edit is refused, and what is to be said of it."""
        came = refused_together(rt, crate, edits)
        left = [edit for edit in edits if edit not in came]
        said = {edit: (True, text) for edit, text in came.items()}
        said.update(zip(left, must_fail_all(crate, left, flags)))
        return [said[edit] for edit in edits]

    rt.must_fail_all = together


# what came of an edit, by a word of the kit's, and what is to be said of it
Came = tuple[str, str]


def add_edits(
    rt: Any, tasks: dict[Key, tuple[Any, ...]], crate: Any, edits: list[str], first: object, waits: list[Key], is_well: Callable[..., bool], kept: Any,
) -> tuple[Callable[[dict[Key, Any]], list[Came]], Callable[[], dict[int, Came]]]:
    """Adds one task that tries all edits of a crate, to the tasks of a kit that keeps its work between gates. Returns, as the kit's own call does, what gives
    what came of each, in their order, and what gives those of earlier gates."""
    key, known = (crate.name, 'edits'), {}

    def tried(given: dict[Key, Any], _jobs: int) -> list[Came] | None:
        if not is_well(given):
            return None
        of_crate = kept.key(crate)
        names = [kept.of_edit(edit, of_crate) for edit in edits]
        known.update({at: told for at, told in enumerate(map(kept.tried, names)) if told})
        left = [edit for at, edit in enumerate(edits) if at not in known]
        is_well(given, len(left))
        said = refused_together(rt, crate, left) if left else {}
        came = {edit: (rt.REFUSED, said[edit]) if edit in said else rt.must_fail(crate, edit, ['--jobs', '1']) for edit in left}
        for edit, name in zip(edits, names):
            if edit in came and came[edit][0] in rt.SETTLED and kept.is_untouched(crate) and kept.of_edit(edit, of_crate) == name:
                kept.keep_tried(name, *came[edit])
        return [known.get(at) or came[edit] for at, edit in enumerate(edits)]

    if edits:
        tasks[key] = (waits, crate.count(b'\n'), rt.need(crate), tried)
    return (lambda given: given[key] if edits else []), lambda: known


def complain(what: str, why: BaseException) -> None:
    print(f'timed_rt.py: {what}: {type(why).__name__}: {why}', flush=True)


def kit_of(rt: Any) -> str:
    """The line by which the kit names itself; nothing if it has none."""
    file = pathlib.Path(getattr(rt, 'KIT', '/none'), 'KIT-ID')
    return file.read_text().strip() if file.is_file() else ''


def told() -> dict[str, Any]:
    """All that was measured. A task names those that it waits for by their places in the list."""
    place = {key: number for number, key in enumerate(tasks_seen)}
    tasks = [
        {
            'crate': key[0], 'part': key[1], 'number': key[2] if len(key) > 2 else None, 'waits': [place[it] for it in waits], 'lines': lines,
            'seconds': seconds[key], 'began': clocks.get(key, (0, 0))[0], 'ended': clocks.get(key, (0, 0))[1],
        }
        for key, (waits, lines, *_) in tasks_seen.items()
    ]
    return {'tasks': tasks, 'runs': seconds[None], 'minutes': (time.monotonic() - began) / 60}


def keep(file: str, rt: Any, status: int) -> None:
    """Writes what was measured, with the date, the kit, the number of processors and the status of the gate."""
    how = {'date': str(datetime.date.today()), 'kit': kit_of(rt), 'processors': len(os.sched_getaffinity(0)), 'status': status}
    pathlib.Path(file).write_text(json.dumps({**told(), **how}))


def without_clocks(path: str, words: list[str], why: BaseException) -> NoReturn:
    """Becomes the command rt as it is."""
    complain('rt runs without clocks', why)
    os.execv(path, [path, 'ci', *words])


def keeps(rt: Any) -> bool:
    """Whether the kit keeps between gates what they passed."""
    return hasattr(rt, 'Kept')


def words_for(rt: Any, words: list[str]) -> list[str]:
    """The words that `rt ci` takes. A kit that keeps nothing between gates takes none: each of its gates is whole and from nothing."""
    if keeps(rt):
        return words
    if crates := [word for word in words if not word.startswith('-')]:
        sys.exit(f'timed_rt.py: `rt ci` of this kit is of all crates, so it cannot be asked for {" ".join(crates)} alone')
    return []


def main() -> int:
    file, words = sys.argv[1], sys.argv[2:]
    path = os.path.realpath(shutil.which('rt') or sys.exit('timed_rt.py: the command rt is not on PATH'))
    # rt reads its own words from here, too
    sys.argv = ['rt', 'ci', *words]
    try:
        rt = loaded(path)
        hook(rt)
        hook_edits(rt)
    except (Exception, SystemExit) as why:
        without_clocks(path, words, why)
    status: int = rt.main(['ci', *words_for(rt, words)])
    try:
        keep(file, rt, status)
    except Exception as why:
        complain('no times are kept', why)
    return status


if __name__ == '__main__':
    sys.exit(main())
