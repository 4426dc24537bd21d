"""What mcscheck finds of a system, with the greatest responses that the rows of mcsim tell."""
from __future__ import annotations

import collections
import os
import pathlib
import shutil
import signal
import subprocess
from collections.abc import Collection, Mapping, Sequence
from dataclasses import dataclass, field
from typing import Any, Optional

from . import identity, named, source, tables
from . import system as systems
from .faults import STATUS, Fault, first_line, why
from .printable import printable
from .reading import Listener, Reading, Round
from .system import System

KINDS = ('missed', 'lost', 'overdue', 'untaken', 'never')
# what is found of chains, in a system that has one
OF_CHAINS = ('slow', 'unanswered')
# the word of a finding, and what it counts as
COUNTED = {'miss': 'missed', **dict(zip(KINDS[1:], KINDS[1:])), **dict(zip(OF_CHAINS, OF_CHAINS))}
# exit codes of mcscheck that are answers: nothing found, the system is refused, something found, nothing found since nothing was judged
NOTHING, REFUSED, FOUND, UNJUDGED = ANSWERS = 0, 1, 5, 6
# exit codes of mcscheck that are none: its options, reading or writing, memory
FAILED = (2, 3, 4)
# the line of counts
LAST = 'missed '
# what the figures of a thread and of a chain call what ended
ENDED = {'thread': 'rounds', 'chain': 'answers'}
LONGEST_FAULT = 300


def default_checker(program: str) -> Optional[str]:
    """mcscheck: what MCSCHECK names, or that beside mcsim, or the repository's, or that on the PATH, if there is one."""
    if named_one := os.environ.get('MCSCHECK'):
        return named_one
    top = pathlib.Path(__file__).resolve().parents[2]
    places = [top / 'mcscheck', top / 'crates' / 'mcscheck' / 'out' / 'mcscheck', top / 'bin' / 'mcscheck']
    if found := shutil.which(program):
        places = [pathlib.Path(found).with_name('mcscheck'), pathlib.Path(found).resolve().with_name('mcscheck'), *places]
    return next((str(place) for place in places if place.is_file()), None) or shutil.which('mcscheck')


@dataclass(frozen=True)
class Result:
    """What a run came to: the verdict or a refusal, the fault of a system that is refused, what was found, and for each thread with a response the
    greatest."""

    status: int
    fault: str = ''
    counts: Mapping[str, int] = field(default_factory=dict)
    greatest: Mapping[str, int] = field(default_factory=dict)

    @property
    def is_clean(self) -> bool:
        return self.status == NOTHING

    @property
    def is_refused(self) -> bool:
        return self.status == REFUSED

    def told(self) -> dict[str, Any]:
        return {'status': self.status, 'fault': self.fault, 'counts': dict(self.counts), 'greatest': dict(self.greatest)}

    @classmethod
    def of(cls, told: object) -> Result:
        """Returns the result that was kept in this form, or raises a ValueError."""
        if not isinstance(told, dict) or told.get('status') not in ANSWERS or not isinstance(told.get('fault'), str):
            raise ValueError
        parts = (told.get('counts'), told.get('greatest'))
        if not all(isinstance(part, dict) and all(type(number) is int for number in part.values()) for part in parts):
            raise ValueError
        return cls(told['status'], told['fault'], told['counts'], told['greatest'])


class Greatest(Listener):
    """The greatest response of each thread with a deadline and a response, from the activation on."""

    def __init__(self) -> None:
        self.of: dict[str, int] = {}

    def round_ended(self, ended: Round) -> None:
        if ended.thread.deadline:
            name = ended.thread.name
            self.of[name] = max(self.of.get(name, 0), ended.response)


def failure(checker: str, status: int, said: str) -> Fault:
    """What a run of mcscheck that is no answer comes to. Its own exit codes stay."""
    told = printable(first_line(said), LONGEST_FAULT)
    if status < 0:
        how = f'ended by {signal.Signals(-status).name}' if -status in set(signal.Signals) else f'ended by signal {-status}'
    else:
        how = f'ended with {status}'
    return Fault(f'{checker} {how}' + (f': {told}' if told else ''), status if status in FAILED else STATUS)


@dataclass(frozen=True)
class Programs:
    """The two programs, and how they are asked."""

    program: str
    checker: str

    @classmethod
    def found(cls, program: str, checker: Optional[str]) -> Programs:
        checker = checker or default_checker(program)
        if checker is None:
            raise Fault('mcscheck, which gives the verdicts, was not found: --checker PATH or the variable MCSCHECK names it')
        return cls(program, checker)

    def digests(self) -> dict[str, str]:
        """What the two programs are."""
        return {'mcsim': identity.digest(self.program), 'mcscheck': identity.digest(self.checker)}

    def check(self, text: bytes, horizon: int, show: str = 'findings') -> tuple[int, list[str], str]:
        """The exit code of mcscheck, which is an answer, its lines, and what it says on standard error."""
        try:
            asked = [self.checker, '--horizon', str(horizon), '--show', show]
            ended = subprocess.run(asked, input=text, capture_output=True, check=False)
        except OSError as error:
            raise why(self.checker, error) from None
        said = ended.stderr.decode(errors='replace')
        if ended.returncode not in ANSWERS:
            raise failure(self.checker, ended.returncode, said)
        lines = ended.stdout.decode(errors='replace').splitlines()
        if ended.returncode == REFUSED:
            if not said.startswith('mcscheck: '):
                raise Fault(f'{self.checker} refused the system and did not say why')
        elif not (lines and lines[-1].startswith(LAST)):
            raise Fault(f'{self.checker} gave no verdict')
        return ended.returncode, lines, said

    def greatest(self, text: bytes, system: System, horizon: int) -> dict[str, int]:
        listener = Greatest()
        running = source.Run(self.program, pathlib.Path('system'), text, ['--horizon', str(horizon)])
        try:
            Reading(system, listener).read(running.lines(), horizon)
        finally:
            running.end()
        return listener.of

    def result(self, text: bytes, horizon: int, of: Sequence[str], wants_responses: bool = True) -> Result:
        """What is found, of all or of some threads and chains."""
        # the figures of threads say whether a job of one of them was judged
        status, lines, said = self.check(text, horizon, 'both' if of else 'findings')
        if status == REFUSED:
            return Result(status, printable(first_line(said).removeprefix('mcscheck: '), LONGEST_FAULT))
        system = systems.system_of(tables.read(text))
        counts = counted(lines, system, of)
        unread = next((name for name in of if name not in system.threads), None)
        if unread is not None and not all(kind in counts for kind in OF_CHAINS):
            raise Fault(f'--of {unread}: {self.checker} reports nothing of chains: take a later one')
        greatest = self.greatest(text, system, horizon) if wants_responses else {}
        return Result(status_of(status, counts, not of or is_judged(lines, system, of)), '', counts, greatest)


def status_of(status: int, counts: Mapping[str, int], is_judged: bool) -> int:
    """The exit code for what was looked at, of a run with this one."""
    if any(counts.values()):
        return FOUND
    return NOTHING if is_judged and status != UNJUDGED else UNJUDGED


def chains_of(system: System, of: Collection[str]) -> set[str]:
    """The chains that are looked at if some threads and chains are named: a thread has those that end with it."""
    return {name for name, chain in system.chains.items() if name in of or chain.thread in of and chain.thread in system.threads}


def is_judged(lines: Sequence[str], system: System, of: Collection[str]) -> bool:
    """Whether a job or an answer of what is named ended that has a deadline."""
    named_ones = {'thread': set(of), 'chain': chains_of(system, of)}
    for kind, name, *words in (line.split() for line in lines if line.startswith(tuple(ENDED))):
        values = dict(zip(words[::2], words[1::2]))
        if name in named_ones[kind] and values['deadline'] != '-' and values[ENDED[kind]] != '0':
            return True
    return False


def kinds_of(system: System) -> tuple[str, ...]:
    """The kinds of what can be found in a system."""
    return (*KINDS, *OF_CHAINS) if system.chains else KINDS


def counted(lines: Sequence[str], system: System, of: Collection[str]) -> dict[str, int]:
    """How much was found of each kind; of threads and chains if some are named. A thread has the signals that were lost, and the words that are untaken, at
    notifications for which it waits, and the chains that end with it."""
    threads = [name for name in of if name in system.threads]
    notes = {note for name in threads for note in system.threads[name].waits}
    chains = chains_of(system, of)
    wanted = {'lost': notes, 'untaken': notes, **dict.fromkeys(OF_CHAINS, chains)}
    counts: collections.Counter[str] = collections.Counter()
    for line in lines:
        words = line.split()
        if len(words) < 4 or not words[0].isdigit() or words[2] not in COUNTED:
            continue
        kind, name = words[2], words[3]
        if not of or name in wanted.get(kind, threads):
            counts[COUNTED[kind]] += 1
    # a checker that does not look at chains counts none of theirs
    looked_at = {*KINDS, *counts, *(lines[-1].split() if lines else [])}
    return {kind: counts[kind] for kind in kinds_of(system) if kind in looked_at}


def check_names(of: Sequence[str], system: System) -> None:
    for name in of:
        if name not in system.threads and name not in system.chains:
            what = 'thread or chain' if system.chains else 'thread'
            raise Fault(f'--of {name}: there is no {what} {name!r}: {named.known(name, [*system.threads, *system.chains])}')
