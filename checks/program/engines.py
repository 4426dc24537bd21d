#!/usr/bin/env python3
"""Checks that a sweep by xargs, GNU parallel or Slurm writes the CSV of local jobs.

A sweep of combinations of a system is run by local jobs, and by what is there: `xargs`, GNU parallel, a Slurm whose `sinfo` answers, and dask's workers
at the address that --dask gives. Nothing is started for that. With --set-up, by hand and as root on a machine of Debian with the packages of
docs/SWEEPS.md, an ssh server of two names, a Slurm of one node and a scheduler of dask with two workers are started on the loopback, tried and stopped
again. mcscheck is --checker, or that beside the program, or the repository's; where there is none, all is skipped."""
from __future__ import annotations

import argparse
import contextlib
import os
import pathlib
import shlex
import shutil
import signal
import subprocess
import sys
import tempfile
import time
from collections.abc import Callable, Iterator, Sequence
from typing import Any

sys.dont_write_bytecode = True
sys.path[0] = str(pathlib.Path(__file__).resolve().parents[2])
from checks import common
from checks.common import TOP, Count

SYSTEM = TOP / 'crates' / 'mcs_corpus' / 'data' / 'examples' / 'storm_of_interrupts.toml'
DASK = TOP / 'tools' / 'engines' / 'dask_run.py'
ARRAY = TOP / 'tools' / 'engines' / 'array.sh'
# Debian's, which sees Debian's packages
DEBIAN_PYTHON = '/usr/bin/python3'
BATCH = 20
SECONDS = 900


class Trial:
    """A sweep, the CSV of local jobs, and what an engine gives."""

    def __init__(self, folder: pathlib.Path, program: pathlib.Path, checker: pathlib.Path, combinations: int) -> None:
        self.folder, self.count = folder, combinations
        # engines that are set up inherit these
        os.environ.update({'MCSIM': str(program), 'MCSCHECK': str(checker), 'PYTHONDONTWRITEBYTECODE': '1'})
        self.words = [str(SYSTEM), '--set', f'delay=1:{combinations}', '--horizon', '60']
        began = time.monotonic()
        self.local = self.sweep(*self.words, '--jobs', '2').stdout
        print(f'local jobs: {combinations} combinations, {time.monotonic() - began:.1f} s', flush=True)

    def sweep(self, *words: str) -> common.Ran:
        return common.run([sys.executable, TOP / 'tools' / 'sweep', *words], seconds=SECONDS)

    def run(self, name: str, engine: Callable[[pathlib.Path], Sequence[str]], count: Count) -> None:
        """Emits, runs an engine's command in the folder, and collects."""
        there = self.folder / name.replace(' ', '_')
        emitted = self.sweep(*self.words, '--emit', str(there))
        began = time.monotonic()
        ran = common.run(engine(there), seconds=SECONDS, cwd=there)
        seconds = time.monotonic() - began
        collected = self.sweep('--collect', str(there))
        good = collected.status == 0 and collected.stdout == self.local
        print(f'{name}: {self.count} combinations, {seconds:.1f} s', flush=True)
        count.expect(f'{name}: {emitted.stderr + ran.stderr[-500:] + collected.stderr!r}', good)


def shell(text: str) -> list[str]:
    return ['sh', '-ec', text]


def by_xargs(there: pathlib.Path) -> list[str]:
    return shell(f'xargs -P 2 -n {BATCH} {shlex.quote(sys.executable)} sweep.pyz --run < jobs')


def by_parallel(there: pathlib.Path) -> list[str]:
    return shell(f'parallel --will-cite -j 2 -n {BATCH} -a jobs {shlex.quote(sys.executable)} sweep.pyz --run')


def by_ssh(nodes: pathlib.Path) -> Callable[[pathlib.Path], list[str]]:
    env = '--env MCSIM --env MCSCHECK'
    return lambda there: shell(f'parallel --will-cite --sshloginfile {nodes} --workdir {there} {env} -n {BATCH} --retries 3 -a jobs {DEBIAN_PYTHON} sweep.pyz --run')


def by_slurm(combinations: int) -> Callable[[pathlib.Path], list[str]]:
    tasks = -(-combinations // BATCH)
    return lambda there: shell(f'BATCH={BATCH} sbatch --wait --export=ALL --array=1-{tasks} {ARRAY}')


def by_dask(address: str) -> Callable[[pathlib.Path], list[str]]:
    return lambda there: [DEBIAN_PYTHON, str(DASK), address]


# ---- engines of one machine, which end with this script


def command(*words: object, **how: Any) -> None:
    subprocess.run([str(word) for word in words], check=True, stdin=subprocess.DEVNULL, stdout=subprocess.DEVNULL, **how)


@contextlib.contextmanager
def background(*words: object, log: pathlib.Path) -> Iterator[subprocess.Popen[bytes]]:
    """A process that stays in the foreground of its own, until it is ended by its id."""
    with log.open('wb') as file, subprocess.Popen([str(word) for word in words], stdin=subprocess.DEVNULL, stdout=file, stderr=file) as running:
        try:
            yield running
        finally:
            running.send_signal(signal.SIGTERM)
            try:
                running.wait(20)
            except subprocess.TimeoutExpired:
                running.kill()


@contextlib.contextmanager
def ssh_server(folder: pathlib.Path) -> Iterator[pathlib.Path]:
    """An ssh server on the loopback under two names, and the file of them for --sshloginfile."""
    for key in ('host', 'user'):
        command('ssh-keygen', '-q', '-t', 'ed25519', '-N', '', '-f', folder / key)
    shutil.copy(folder / 'user.pub', folder / 'authorized')
    pathlib.Path('/run/sshd').mkdir(exist_ok=True)
    (folder / 'sshd_config').write_text(f'''Port 2222
ListenAddress 127.0.0.1
HostKey {folder}/host
AuthorizedKeysFile {folder}/authorized
PermitRootLogin prohibit-password
PasswordAuthentication no
StrictModes no
PidFile none
''')
    (folder / 'config').write_text(f'''Host node1 node2
  HostName 127.0.0.1
  Port 2222
  User root
  IdentityFile {folder}/user
  UserKnownHostsFile {folder}/known
  StrictHostKeyChecking accept-new
''')
    nodes = folder / 'nodes'
    nodes.write_text(''.join(f'1/ssh -F {folder}/config node{number}\n' for number in (1, 2)))
    with background('/usr/sbin/sshd', '-D', '-e', '-f', folder / 'sshd_config', log=folder / 'sshd.log'):
        wait_for(['ssh', '-F', folder / 'config', 'node1', 'true'])
        yield nodes


@contextlib.contextmanager
def slurm(folder: pathlib.Path) -> Iterator[None]:
    """A Slurm of one node on the loopback."""
    name = os.uname().nodename
    socket = '/run/munge/sweep.socket'
    command('install', '-d', '-o', 'munge', '-g', 'munge', '-m', '755', '/run/munge')
    for part in ('state', 'spool'):
        (folder / part).mkdir()
    config = folder / 'slurm.conf'
    config.write_text(f'''ClusterName=one
SlurmctldHost={name}(127.0.0.1)
SlurmUser=root
SlurmdUser=root
AuthType=auth/munge
AuthInfo=socket={socket}
StateSaveLocation={folder}/state
SlurmdSpoolDir={folder}/spool
SlurmctldPidFile={folder}/ctld.pid
SlurmdPidFile={folder}/d.pid
ProctrackType=proctrack/pgid
TaskPlugin=task/none
SelectType=select/cons_tres
SelectTypeParameters=CR_Core
MpiDefault=none
ReturnToService=2
NodeName={name} NodeAddr=127.0.0.1 CPUs=2 State=UNKNOWN
PartitionName=all Nodes=ALL Default=YES MaxTime=INFINITE State=UP
''')
    os.environ['SLURM_CONF'] = str(config)
    munged = ('runuser', '-u', 'munge', '--', '/usr/sbin/munged', '-F', f'--socket={socket}', '--pid-file=/run/munge/sweep.pid')
    with background(*munged, log=folder / 'munged.log'):
        wait_for(['test', '-S', socket])
        with background('slurmctld', '-D', '-f', config, log=folder / 'ctld.log'), background('slurmd', '-D', '-f', config, '-N', name, log=folder / 'd.log'):
            wait_for(['sh', '-c', 'sinfo -h -t idle | grep -q .'])
            yield


@contextlib.contextmanager
def dask(folder: pathlib.Path) -> Iterator[str]:
    """A scheduler of dask with two workers on the loopback."""
    address = 'tcp://127.0.0.1:8786'
    scheduler = (DEBIAN_PYTHON, '/usr/bin/dask-scheduler', '--host', '127.0.0.1', '--port', '8786', '--no-dashboard')
    worker = (DEBIAN_PYTHON, '/usr/bin/dask-worker', address, '--nthreads', '1', '--nworkers', '2', '--no-dashboard', '--local-directory', folder)
    with background(*scheduler, log=folder / 'scheduler.log'), background(*worker, log=folder / 'worker.log'):
        yield address


def wait_for(words: Sequence[object], seconds: float = 120) -> None:
    """Waits until a command succeeds."""
    until = time.monotonic() + seconds
    while subprocess.run([str(word) for word in words], stdin=subprocess.DEVNULL, capture_output=True).returncode:
        if time.monotonic() > until:
            raise TimeoutError(f'{words[0]} had not succeeded after {seconds} s')
        time.sleep(2)


# ---- trials


def try_what_is_there(trial: Trial, address: str | None, count: Count) -> None:
    trial.run('xargs', by_xargs, count)
    if shutil.which('parallel'):
        trial.run('parallel', by_parallel, count)
    else:
        count.skip('GNU parallel is not there')
    if shutil.which('sinfo') and common.run(['sinfo'], seconds=10).status == 0:
        trial.run('slurm', by_slurm(trial.count), count)
    else:
        count.skip('no Slurm answers')
    if address:
        trial.run('dask', by_dask(address), count)
    else:
        count.skip('no workers of dask were given by --dask')


def try_set_up(trial: Trial, only: Sequence[str], count: Count) -> None:
    def place(name: str) -> pathlib.Path:
        folder = trial.folder / f'engine_{name}'
        folder.mkdir(mode=0o700)
        return folder

    def guarded(name: str, tries: Callable[[], None]) -> None:
        if name not in only:
            return
        try:
            tries()
        except (OSError, subprocess.CalledProcessError, TimeoutError) as error:
            count.expect(f'{name}: {error}', False)

    def parallel() -> None:
        with ssh_server(place('ssh')) as nodes:
            trial.run('parallel over ssh', by_ssh(nodes), count)

    def array() -> None:
        with slurm(place('slurm')):
            trial.run('slurm', by_slurm(trial.count), count)

    def workers() -> None:
        with dask(place('dask')) as address:
            trial.run('dask', by_dask(address), count)

    guarded('parallel', parallel)
    guarded('slurm', array)
    guarded('dask', workers)


def asked() -> argparse.Namespace:
    parser = common.asking_program(__doc__)
    parser.add_argument('--checker', type=pathlib.Path, metavar='PATH', help='mcscheck (default: that beside the program, else crates/mcscheck/out/mcscheck or bin/mcscheck)')
    parser.add_argument('--set-up', action='store_true', help='starts the engines on this machine, and stops them again')
    parser.add_argument('--only', action='append', choices=('parallel', 'slurm', 'dask'), help='with --set-up only this engine; may be given several times')
    parser.add_argument('--dask', metavar='ADDRESS', help='the scheduler of dask whose workers are tried')
    parser.add_argument('--combinations', type=int, metavar='N', help='how many (default: 100 with --set-up, else 20)')
    return parser.parse_args()


def main() -> None:
    words = asked()
    # what was started is stopped too
    signal.signal(signal.SIGTERM, lambda *_: sys.exit(128 + signal.SIGTERM))
    program, count = common.built_program(words.program), Count()
    checker = words.checker or common.checker_of(program)
    if checker is None:
        count.skip('mcscheck is not there, which gives the verdicts')
        count.end()
    with tempfile.TemporaryDirectory() as name:
        trial = Trial(pathlib.Path(name).resolve(), program, checker.resolve(), words.combinations or (100 if words.set_up else 20))
        lines = trial.local.count(b'\n')
        count.expect(f'local jobs wrote {lines} lines', lines == trial.count + 1)
        if words.set_up:
            try_set_up(trial, words.only or ('parallel', 'slurm', 'dask'), count)
        else:
            try_what_is_there(trial, words.dask, count)
    count.end()


if __name__ == '__main__':
    main()
