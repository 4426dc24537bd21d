#!/usr/bin/python3
"""Tells how long the rounds of each thread take, which of them missed their deadlines, and in which part of them most ticks went: responses.py FILE
[--horizon N] [--percentile P]. It reads what mcscheck writes as CSV into data frames, and needs Debian's python3-pandas."""
from __future__ import annotations

import argparse
import io
import os
import pathlib
import subprocess
import sys

import pandas as pd

# beside the repository, unless the variable names another one
CHECKER = os.environ.get('MCSCHECK') or pathlib.Path(__file__).resolve().parents[2] / 'mcscheck'
# nothing was found, something was, or nothing was judged
VERDICTS = (0, 5, 6)
PARTS = ['queued', 'ready', 'running', 'throttled', 'blocked']


class Fault(Exception):
    """mcscheck gave no verdict; this is its line."""


def shown(file: pathlib.Path, horizon: int, what: str, kind: str) -> pd.DataFrame:
    """The rows of a kind of `--show WHAT`. A thread may be called 1 or NA, so its name stays a text; a cell that is empty is missing."""
    command = [CHECKER, file, '--horizon', str(horizon), '--show', what, '--format', 'csv']
    ran = subprocess.run(command, stdout=subprocess.PIPE, stderr=subprocess.PIPE, text=True)
    if ran.returncode not in VERDICTS:
        raise Fault(ran.stderr.strip())
    rows = pd.read_csv(io.StringIO(ran.stdout), dtype={'thread': 'string'}, keep_default_na=False, na_values=['']).convert_dtypes()
    # the others are of chains
    return rows[rows['kind'] == kind]


def nearest_rank(responses: pd.Series, percentile: int) -> int:
    """The response within which so many of 100 rounds ended."""
    return responses.sort_values().iloc[-(-percentile * len(responses) // 100) - 1]


def of_threads(table: pd.DataFrame, jobs: pd.DataFrame, percentile: int) -> pd.DataFrame:
    """The worst response of each thread and a percentile, those first that came nearest to their deadline, or after it."""
    responses = jobs.groupby('thread')['response']
    spread = pd.DataFrame({'worst': responses.max(), f'p{percentile}': responses.agg(nearest_rank, percentile)})
    figures = table[['thread', 'rounds', 'deadline', 'margin', 'missed']].join(spread, on='thread')
    return figures.sort_values('margin', kind='stable')


def missed(table: pd.DataFrame, jobs: pd.DataFrame) -> pd.DataFrame:
    """The rounds that ended after their deadline, in the order of their ends, and of each the part of its response that took most."""
    timed = jobs.merge(table[['thread', 'deadline']].dropna(), on='thread')
    late = timed[timed['response'] > timed['deadline']].sort_values('moment', kind='stable')
    if late.empty:
        return late
    # a round that was activated after it began was throttled in between, and that is not in its response
    before = (late['activated'] - late['begun']).clip(lower=0)
    parts = late[PARTS].assign(throttled=late['throttled'] - before).astype(int)
    return late[['moment', 'thread', 'number', 'response', 'deadline']].assign(mostly=parts.idxmax(axis=1), ticks=parts.max(axis=1))


def text(rows: pd.DataFrame) -> str:
    """The rows, with a dash for what is missing."""
    return rows.astype('string').fillna('-').to_string(index=False)


def main() -> int:
    parser = argparse.ArgumentParser(description=__doc__)
    parser.add_argument('file', type=pathlib.Path, metavar='FILE')
    parser.add_argument('--horizon', type=int, default=1000, metavar='N')
    parser.add_argument('--percentile', type=int, default=99, choices=range(1, 101), metavar='P', help='1 to 100 (default: %(default)s)')
    words = parser.parse_args()
    try:
        table, jobs = (shown(words.file, words.horizon, what, kind) for what, kind in (('table', 'thread'), ('jobs', 'job')))
    except (Fault, OSError) as fault:
        print(fault, file=sys.stderr)
        return 1
    print(text(of_threads(table, jobs, words.percentile)))
    late = missed(table, jobs)
    if not late.empty:
        print(text(late))
    return 0


if __name__ == '__main__':
    sys.exit(main())
