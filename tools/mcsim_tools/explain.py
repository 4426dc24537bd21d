"""explain FILE

Says what the first fault of a system's file means, and where it stands. It runs mcsim, which names the fault and its place, and prints

    FILE:LINE:COLUMN: the fault as mcsim names it
    the line, with a mark below
    what may stand there, and the known word that is nearest to the one that was written

Without a fault it prints one line and ends with 0; else its exit code is that of mcsim, and 2 where FILE cannot be read. docs/FAULTS.md has each fault
with its cause and the line that mends it. The program is --program, or what the variable MCSIM names, or the mcsim that stands beside this folder, or the one on PATH."""
from __future__ import annotations

import pathlib
import subprocess
from typing import Any

from . import explaining, positions, source, system
from .faults import Fault, why
from .options import Options
from .positions import Position
from .printable import printable

# how much of a long line is shown, and how much of it before the mark; the longest line that is printed
WIDTH = 100
BEFORE = 40
LONGEST_LINE = 1000


def schema() -> dict[str, Any]:
    found = explaining.schema_of_files()
    if found is None:
        raise Fault('mcsim.schema.json was not found, neither in docs nor where it is installed')
    return found


def answer_of(command: str, text: bytes) -> tuple[int, str]:
    """The exit code of the program for a text, and its last line on standard error."""
    try:
        ended = subprocess.run([command, '--horizon', '0', '--show', 'reports'], input=text, capture_output=True, check=False)
    except OSError as error:
        raise why(command, error) from None
    lines = ended.stderr.decode(errors='replace').splitlines()
    return ended.returncode, lines[-1] if lines else ''


def shown(line: str, column: int) -> list[str]:
    """A line, or the part of it round a column, and a mark below that column."""
    begin = max(0, column - BEFORE) if len(line) > WIDTH else 0
    return ['    ' + printable(line[begin:begin + WIDTH].replace('\t', ' ')), '    ' + ' ' * (column - 1 - begin) + '^']


def explanation(file: pathlib.Path, fault: explaining.Fault, text: bytes) -> list[str]:
    """The lines of a fault: where it stands, and what there is to say of it."""
    plain, name = explaining.plain_text(text), ''
    lines = positions.Reader(plain)
    if fault.kind == 'not TOML':
        position, facts = explaining.not_toml(text)
    else:
        case = explaining.Case(fault, positions.read(plain), schema())
        position, facts, name = case.position(), explaining.facts_of(case), explaining.whom(case)
    marked = excerpt(lines, position) if position else []
    # a name that stands in the line is seen
    facts = [*facts, f'{fault.section} {fault.row} is {name}'] if name and name not in ''.join(marked) else facts
    place = f':{position.line}:{position.column}' if position else ''
    return [f'{file}{place}: {fault}', *marked, *(f'  {fact}' for fact in facts)]


def excerpt(lines: positions.Reader, position: Position) -> list[str]:
    """The line of a place, with a mark; nothing of a text that has no such line."""
    at = lines.place(position.line)
    return shown(lines.line(at), position.column) if at is not None and lines.text else []


def main() -> int:
    words = Options(__doc__)
    words.reads('file', metavar='FILE', help='the file of a system')
    words.add_argument('--program', default=source.default_program(), metavar='PATH', help='the program to run (default: %(default)s)')
    asked = words.asked()
    text = system.read_bytes(asked.file)
    status, said = answer_of(asked.program, text)
    if status == 0:
        print(printable(f'{asked.file}: no fault'))
        return 0
    fault = explaining.fault_of(said)
    if fault is None:
        raise Fault(said or f'the program ended with status {status}', status if 0 < status < 256 else 2)
    for line in explanation(asked.file, fault, text):
        print(printable(line, LONGEST_LINE))
    return status
