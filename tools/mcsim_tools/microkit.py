"""microkit BOARD.system [-o WORK.toml]
microkit BOARD.system --work WORK.toml [--partial] [--tick-us N] [-o FILE]

Makes a system's file for mcsim of a seL4 Microkit system description and of a work file.
Without --work it writes a work file to fill in: what each domain does, and how often interrupts
come, in microseconds.

    call = 1                                 # what a system call takes
    delay = 2                                # from a notify to its arrival on another core
    [domain.eth]
    irq.0 = 870                              # interrupt 0 comes each 870 us
    notified.0 = ["compute 12", "notify 2"]  # for it: 12 us, then a notify over channel 2
    notified.2 = ["compute 5", "call 3"]     # for channel 2: 5 us, then a call over channel 3
    deadline = 100
    [chain.packet]                           # an end-to-end latency
    from = "eth 0"
    to = "client"
    deadline = 300

A domain is a thread on its own context, with a handler for each channel and interrupt. A
passive domain that others call is a server, and a call to one with a context is two
notifications. Work is rounded up to whole ticks, times between are rounded down.

What a system can't say, and each rule of Microkit that the board breaks, is a line on standard
error. If there is one, nothing is written and the exit code is 1. With --partial the system is
written without it, with the lines as comments, and the exit code is 0."""
from __future__ import annotations

import argparse

from . import frame, options, output, writing
from .faults import Fault
from .microkit_board import Board, Description
from .microkit_system import Written
from .microkit_work import Work, template
from .options import Options
from .printable import printable

# the exit code if something is left out
LEFT_OUT = 1

tick_length = options.number('no length of a tick, of 1 to 1000000 microseconds', 1, 10**6)


def asked() -> argparse.Namespace:
    words = Options(__doc__)
    words.reads('board', metavar='BOARD', help='the system description of Microkit')
    words.reads('--work', metavar='FILE', help='what each domain does')
    words.add_argument('--partial', action='store_true',
                       help='writes the system although something is left out')
    words.add_argument('--tick-us', type=tick_length, default=1, metavar='N',
                       help='a tick is N microseconds (default: %(default)s)')
    words.writes('-o', '--output', metavar='FILE',
                 help='where the file goes (default: standard output)')
    return words.asked()


def work_of(board: Board, words: argparse.Namespace) -> str:
    """A work file to fill in."""
    if words.partial:
        raise Fault('--partial is for a system, and without --work there is none')
    return template(board, printable(words.board.name))


def system_of(board: Board, words: argparse.Namespace) -> str:
    """The file of the system, with what it leaves out as comments at its head."""
    written = Written(board, Work(words.work, board))
    head = [f'The Microkit board {printable(words.board.name)}. 1 tick = {words.tick_us} us.',
            written.head, *map(printable, board.description.remarks)]
    return writing.system_text(written.tables(), head, written.comments)


def main() -> int:
    words = asked()
    board = Board(Description(words.board), words.tick_us)
    text = system_of(board, words) if words.work else work_of(board, words)
    remarks = board.description.remarks
    is_whole = words.partial or not words.work or not remarks
    if is_whole:
        output.write(words.output, text)
    for line in remarks:
        frame.say(line)
    return 0 if is_whole else LEFT_OUT
