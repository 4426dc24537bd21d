#!/usr/bin/env python3
"""Gives a checkout the libraries that a gate on this machine has proved of the same files.

Then `rt check` in a crate begins at once, where it would first prove what is below. There are two kinds of kits. One keeps what a gate (`rt ci`) proved
for later gates, and `rt check` alone does not look there. It may be asked while a gate runs, and again when that has proved more. The other kind keeps
nothing, so its libraries are taken from a checkout in which a gate has ended, which --gate names. What is taken is held to the sum of all that it was
made from, by the kit's own means; a library that is there already stays. A line tells what was taken, and what no gate has proved yet."""
from __future__ import annotations

import argparse
import os
import pathlib
import shutil
import sys
from collections.abc import Callable, Sequence
from typing import Any, Optional

sys.dont_write_bytecode = True
sys.path[0] = str(pathlib.Path(__file__).resolve().parents[2])
from checks.common import TOP
from checks.proofs import edits

# gives a crate its library, where each below it has its own, and tells whether it has one now
Giving = Callable[[Any], bool]


def stamp_file(crate: Any) -> pathlib.Path:
    """The file that tells of what the library of a crate was built, as the kit writes it."""
    return pathlib.Path(crate.folder, 'out', 'rlib', 'stamp')


def is_there(crate: Any) -> bool:
    file = stamp_file(crate)
    return file.is_file() and file.read_text() == crate.stamp()


def given_by(kit: Any, crates: Sequence[Any], gate: pathlib.Path) -> Giving:
    """The libraries that the kit keeps, or those that a gate has left in a checkout."""
    if edits.keeps(kit):
        kept = kit.Kept(crates)
        return lambda crate: take(kept, crate)
    left = {crate.name: crate for crate in kit.rtlib.crates_below(str(gate))}
    return lambda crate: take_left(left.get(crate.name), crate)


def take(kept: Any, crate: Any) -> bool:
    """Takes a library that the kit keeps."""
    if not is_there(crate):
        shutil.rmtree(stamp_file(crate).parent, ignore_errors=True)
        os.makedirs(f'{crate.folder}/out', exist_ok=True)
        if not kept.give(crate, False, kept.key(crate)) or not stamp_file(crate).parent.is_dir():
            return False
        stamp_file(crate).write_text(crate.stamp())
    kept.is_built(crate)
    return True


def take_left(left: Optional[Any], crate: Any) -> bool:
    """Takes a library that a gate left without a stamp: it is of the files that stand there, if none of them is newer."""
    if is_there(crate):
        return True
    if left is None or left.stamp() != crate.stamp() or not is_of_its_files(left):
        return False
    here, there = stamp_file(crate).parent, stamp_file(left).parent
    if here != there:
        shutil.rmtree(here, ignore_errors=True)
        shutil.copytree(there, here)
    stamp_file(crate).write_text(crate.stamp())
    return True


def is_of_its_files(crate: Any) -> bool:
    """Whether a crate has a library that is newer than its own files and those of the crates below it."""
    built = stamp_file(crate).parent
    # (a gate makes the folder when it begins a proof, and the library when that has ended)
    if not (built / f'{crate.name}.rlib').exists():
        return False
    files = [file for each in (crate, *crate.below()) for part in ('src', 'specs', 'proofs') for file in pathlib.Path(each.folder, part).rglob('*')]
    return all(file.stat().st_mtime <= built.stat().st_mtime for file in files if file.is_file())


def main() -> None:
    parser = argparse.ArgumentParser(description=__doc__, formatter_class=argparse.RawDescriptionHelpFormatter)
    parser.add_argument('checkout', nargs='?', type=pathlib.Path, default=TOP, metavar='CHECKOUT', help='the top of a checkout, else this one')
    parser.add_argument('--gate', type=pathlib.Path, metavar='FOLDER', help='the top of a checkout in which a gate has ended, for a kit that keeps nothing (default: CHECKOUT)')
    words = parser.parse_args()
    root = words.checkout.resolve()
    gate = words.gate.resolve() if words.gate else root
    os.chdir(root)
    kit = edits.kit()
    crates = sorted(kit.rtlib.crates_below(str(root)), key=lambda crate: len(crate.below()))
    give = given_by(kit, crates, gate)
    has: set[str] = set()
    for crate in crates:
        if not crate.is_program and all(below.name in has for below in crate.below()) and give(crate):
            has.add(crate.name)
    print('taken, or there:', *sorted(has))
    print('not proved yet:', *(crate.name for crate in crates if not crate.is_program and crate.name not in has))


if __name__ == '__main__':
    main()
