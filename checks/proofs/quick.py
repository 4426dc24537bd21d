#!/usr/bin/env python3
"""Runs rt with the words given, and sums the sources of each crate once; rt itself sums them along each path of crates.txt.

    checks/proofs/quick.py check --jobs 2

In a crate near the top rt takes minutes for these sums before it proves anything: there are thousands of paths. A sum is taken anew each time that rt asks
for one, so an edit during a run is noticed as before. Everything else is rt's own, and so is the exit code."""
from __future__ import annotations

import importlib.machinery
import importlib.util
import os
import shutil
import sys
import threading
import types
from collections.abc import Callable
from typing import Any

sys.dont_write_bytecode = True


class Asking(threading.local):
    """The sums that are known while a thread of rt asks for one, by the folders of the crates; nothing is known between two such questions."""

    def __init__(self) -> None:
        self.known: dict[str, str] = {}
        self.depth = 0


def once_each(stamp: Callable[[Any], str]) -> Callable[[Any], str]:
    """The sum of a crate's sources and of all below it, for which each of them is summed once."""
    asking = Asking()

    def stamped(crate: Any) -> str:
        if asking.depth == 0:
            asking.known.clear()
        if crate.folder not in asking.known:
            asking.depth += 1
            try:
                asking.known[crate.folder] = stamp(crate)
            finally:
                asking.depth -= 1
        return asking.known[crate.folder]

    return stamped


def loaded(program: str) -> types.ModuleType:
    """The program rt as a module, which reads its own words from the command line."""
    sys.argv = ['rt', *sys.argv[1:]]
    loader = importlib.machinery.SourceFileLoader('rt_main', os.path.realpath(program))
    spec = importlib.util.spec_from_loader('rt_main', loader)
    assert spec
    rt = importlib.util.module_from_spec(spec)
    loader.exec_module(rt)
    # (a crate of rt is one of its library with more)
    rt.rtlib.Crate.stamp = once_each(rt.rtlib.Crate.stamp)
    return rt


def main() -> int:
    if sys.argv[1:] in ([], ['-h'], ['--help']):
        print(__doc__)
        return 0
    program = shutil.which('rt') or sys.exit('quick.py: the command rt is not on PATH')
    status: int = loaded(program).main(sys.argv[1:])
    return status


if __name__ == '__main__':
    sys.exit(main())
