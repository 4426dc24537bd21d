"""Systems of Microkit's descriptions. What is expected was worked out from the descriptions by hand, and so were the rows."""
from __future__ import annotations

import pathlib
import subprocess
import tempfile
import tomllib
import unittest
from typing import Any

import worked
from worked import TOOLS, Ended
from mcsim_tools import microkit, source

BOARDS = pathlib.Path(__file__).resolve().parent / 'boards'
EXAMPLES = TOOLS.parent / 'examples' / 'boards'
SMALL = '<system><protection_domain name="a" priority="5" budget="20" period="100"><irq irq="7" id="0"/></protection_domain></system>'

# a batch of frames on the board of a network device: each row is a moment after the interrupt, and what happens
NET_ROWS = '''
0 interrupt irq152 eth_driver 1
11 signal eth_driver net_virt_rx 1
11 round eth_driver 1 11
18 signal net_virt_rx client0 1
19 signal net_virt_rx client1 1
19 round net_virt_rx 1 8
52 signal client0 net_virt_tx 2
53 signal client0 net_virt_rx 2
53 round client0 1 32
61 signal net_virt_tx eth_driver 2
61 round net_virt_tx 1 6
69 round eth_driver 2 8
74 signal net_virt_rx eth_driver 4
74 round net_virt_rx 2 18
75 signal client1 net_virt_tx 4
76 round eth_driver 3 2
76 signal client1 net_virt_rx 4
76 round client1 1 54
84 signal net_virt_tx eth_driver 2
84 round net_virt_tx 2 6
92 round eth_driver 4 8
97 signal net_virt_rx eth_driver 4
97 round net_virt_rx 3 18
99 round eth_driver 5 2
'''
# display is inside i2c when the timer interrupts; timer and i2c are passive, and store is on another core
CALLS_ROWS = '''
-10 interrupt irq31 display 1
-5 enter display i2c
0 interrupt irq30 timer_notified 4
1 enter timer timer
5 signal timer control 1
6 leave timer timer
6 round timer 2 6
23 leave display i2c
29 enter control i2c
40 enter control timer
42 leave control timer
47 leave control i2c
48 signal control store 1
50 signal display store 2
57 signal store control_answer2 1
57 round store 2 7
60 round control 2 55
66 signal store display_answer2 1
66 round store 3 8
69 round display 1 79
'''
# the call of child goes to a server of lesser priority, in which vmm preempts it; a word of root has no handler that does anything
ERRORS_ROWS = '''
0 interrupt irq43 root 32
0 interrupt irq41 child 4
4 enter child server
5 interrupt irq42 vmm 8
25 round vmm 1 20
36 leave child server
36 round child 1 36
'''
SHOWN = ('interrupt', 'signal', 'enter', 'leave', 'round')


def ran(*words: object) -> Ended:
    return worked.ran('microkit', microkit.main, *words)


def made(*words: object) -> dict[str, Any]:
    return tomllib.loads(ran(*words).stdout)


def by_name(tables: dict[str, Any], section: str, key: str) -> dict[str, Any]:
    return {row['name']: row.get(key) for row in tables[section]}


class Case(unittest.TestCase):
    def assert_rows(self, text: str, begin: int, end: int, wanted: str) -> None:
        """The rows of a system between two moments, by the program, as moments after `begin`."""
        program = source.default_program()
        try:
            told = subprocess.run([program, '--horizon', str(end)], input=text.encode(), capture_output=True, check=True).stdout.decode()
        except (OSError, subprocess.CalledProcessError) as error:
            self.skipTest(f'mcsim, which does not run here: {error}')
        rows = [line.split() for line in told.splitlines()]
        first = begin + int(wanted.split()[0])
        shown = [f'{int(row[0]) - begin} {" ".join(row[2:])}' for row in rows if int(row[0]) >= first and row[2] in SHOWN]
        self.assertEqual(shown, wanted.strip().splitlines())

    def of_texts(self, board: str, work: str, *words: str) -> Ended:
        """The tool over a description and a work file; the folder's name is taken out of what it says."""
        with tempfile.TemporaryDirectory() as folder:
            description, told = (pathlib.Path(folder, name) for name in ('b.system', 'w.toml'))
            description.write_text(board)
            told.write_text(work)
            ended = ran(description, '--work', told, *words)
        return ended._replace(stdout=ended.stdout.replace(f'{folder}/', ''), stderr=ended.stderr.replace(f'{folder}/', ''))


class Boards(Case):
    def test_a_network_device(self) -> None:
        board = EXAMPLES / 'sddf_net.system'
        told = ran(board, '--work', board.with_suffix('.work.toml'))
        self.assertEqual((told.status, told.stderr), (0, ''))
        tables = tomllib.loads(told.stdout)
        self.assertEqual({key: tables[key] for key in ('version', 'cores', 'delay', 'call')}, {'version': 3, 'cores': 2, 'delay': 3, 'call': 1})
        self.assertEqual([(row['name'], row['core'], row['budget'], row['period'], row.get('mode')) for row in tables['context']], [
            ('eth_driver', 0, 100, 400, None), ('net_virt_tx', 0, 20000, 20000, None), ('net_virt_rx', 0, 20000, 20000, None),
            ('client0', 1, 20000, 20000, None), ('client1', 1, 20000, 20000, None),
        ])
        self.assertEqual(by_name(tables, 'thread', 'script'), {
            'eth_driver': ['wait eth_driver', 'on 1', 'compute 10', 'signal net_virt_rx 1', 'on 2', 'compute 8', 'on 4', 'compute 2'],
            'net_virt_tx': ['wait net_virt_tx', 'on 2', 'compute 5', 'signal eth_driver 2', 'on 4', 'compute 5', 'signal eth_driver 2'],
            'net_virt_rx': ['wait net_virt_rx', 'on 1', 'compute 5', 'signal client0 1', 'signal client1 1', 'on 2', 'compute 2', 'signal eth_driver 4',
                            'on 4', 'compute 2', 'signal eth_driver 4'],
            'client0': ['wait client0', 'on 1', 'compute 30', 'signal net_virt_tx 2', 'signal net_virt_rx 2'],
            'client1': ['wait client1', 'on 1', 'compute 20', 'signal net_virt_tx 4', 'signal net_virt_rx 4'],
        })
        # the period of the interrupt is the longest; those of time slices do not count
        self.assertEqual(tables['source'], [{'name': 'irq152', 'note': 'eth_driver', 'badge': 1, 'period': 500, 'start': 500}])
        self.assertEqual(tables['chain'], [{'name': 'answer', 'source': 'irq152', 'thread': 'eth_driver', 'badges': 2, 'deadline': 150}])
        self.assert_rows(told.stdout, 500, 999, NET_ROWS)

    def test_the_systems_of_the_examples(self) -> None:
        for board in sorted(EXAMPLES.glob('*.system')):
            told = ran(board, '--work', board.with_suffix('.work.toml'))
            # above it stands the line by which an editor knows the schema
            _, _, kept = board.with_suffix('.toml').read_text().partition('\n')
            self.assertEqual((told.status, told.stdout), (0, kept), board.name)

    def test_passive_domains_and_calls(self) -> None:
        board = BOARDS / 'calls.system'
        told = ran(board, '--work', board.with_suffix('.work.toml'))
        self.assertEqual((told.status, told.stderr), (0, ''))
        tables = tomllib.loads(told.stdout)
        # interrupt 40 gets the lowest badge that is free; requests stand behind it, that of the client of the greater priority first
        self.assertEqual(tables['server'], [
            {'name': 'timer', 'core': 0, 'priority': 150,
             'script': ['on 4', 'compute 3', 'signal control 1', 'on 2', 'compute 1', 'on 1', 'compute 2']},
            {'name': 'i2c', 'core': 0, 'priority': 140, 'script': ['on 2', 'compute 10', 'call timer 2', 'compute 4', 'on 4', 'compute 20']},
        ])
        self.assertEqual(by_name(tables, 'thread', 'script'), {
            'timer': ['wait timer_notified', 'on 4', 'call timer 4'],
            'control': ['wait control', 'on 1', 'compute 5', 'call i2c 2', 'signal store 1', 'wait control_answer2', 'compute 1'],
            'display': ['wait display', 'on 1', 'compute 4', 'call i2c 4', 'signal store 2', 'wait display_answer2', 'compute 1'],
            'store': ['wait store', 'on 1', 'compute 6', 'signal control_answer2 1', 'on 2', 'compute 7', 'signal display_answer2 1'],
            'monitor': ['compute 1'],
        })
        self.assertEqual(by_name(tables, 'thread', 'rounds')['monitor'], 1)
        self.assertEqual(by_name(tables, 'note', 'core'), {
            'timer_notified': 0, 'control': 0, 'control_answer2': 0, 'display': 0, 'display_answer2': 0, 'store': 1})
        # a passive domain that is called and never notified has no context
        self.assertEqual([row['name'] for row in tables['context']], ['timer', 'control', 'display', 'store', 'monitor'])
        self.assertEqual(tables['source'], [
            {'name': 'irq30', 'note': 'timer_notified', 'badge': 4, 'period': 1000, 'start': 1000},
            {'name': 'irq31', 'note': 'display', 'badge': 1, 'period': 1000, 'start': 1990},
        ])
        self.assert_rows(told.stdout, 2000, 2100, CALLS_ROWS)

    def test_a_board_with_errors(self) -> None:
        board = BOARDS / 'errors.system'
        work = board.with_suffix('.work.toml')
        told = ran(board, '--work', work)
        self.assertEqual((told.status, told.stdout), (1, ''))
        remarks = [
            '4: Microkit refuses this: budget 300 of protection_domain root is above its period 200; the period is made 300',
            '6: Microkit refuses this: the nested domain child has no id',
            '15: left out: what virtual_machine linux does inside, and its exits to vmm: it computes without end',
            '21: Microkit refuses this: child calls server (its channel 0), whose priority 50 is not above 90',
            '29: Microkit refuses this: root calls vmm (its channel 0), whose priority 80 is not above 200',
            '28: Microkit refuses this: both ends of a channel have pp',
            f'5: left out: what notified(5) of root does: {work} has no such handler',
            '25: left out: the calls of child to far (its channel 1): a server serves its own core',
            f'13: left out: interrupt 40 of vmm: {work} has no irq.1',
            '13: left out: chain kick: its interrupt is left out',
        ]
        self.assertEqual([line.removeprefix(f'microkit: {board}:') for line in told.stderr.splitlines()], remarks)
        partial = ran(board, '--work', work, '--partial')
        self.assertEqual((partial.status, partial.stderr), (0, told.stderr))
        comments = [line.removeprefix(f'# {board}:') for line in partial.stdout.splitlines() if line.startswith('# ')]
        self.assertEqual(comments[2:], remarks)
        tables = tomllib.loads(partial.stdout)
        self.assertEqual([(row['name'], row['budget'], row['period']) for row in tables['context']],
                         [('root', 300, 300), ('child', 1000, 1000), ('vmm', 1000, 1000), ('linux', 60, 100)])
        self.assertEqual(by_name(tables, 'thread', 'script'), {
            'root': ['wait root', 'on 32'], 'child': ['wait child', 'on 4', 'compute 2', 'call server 1'],
            'vmm': ['wait vmm', 'on 2', 'compute 9', 'on 8', 'compute 20'], 'linux': ['spin'],
        })
        self.assert_rows(partial.stdout, 100, 150, ERRORS_ROWS)

    def test_work_is_rounded_up_and_times_between_down(self) -> None:
        work = 'call = 11\ndelay = 10\n[domain.a]\nnotified.0 = ["compute 1", "compute 20"]\ndeadline = 99\nirq.0 = { period = 59, at = [0, 45], count = 3 }\n'
        tables = tomllib.loads(self.of_texts(SMALL, work, '--tick-us', '10').stdout)
        self.assertEqual((tables['call'], tables['delay']), (2, 1))
        self.assertEqual(tables['thread'], [
            {'name': 'a', 'context': 'a', 'priority': 5, 'deadline': 9, 'script': ['wait a', 'on 1', 'compute 1', 'compute 2']}])
        self.assertEqual(tables['source'], [{'name': 'irq7', 'note': 'a', 'badge': 1, 'period': 5, 'start': 10, 'count': 3, 'at': [0, 4]}])

    def test_a_passive_domain_that_nobody_calls(self) -> None:
        """It is a thread: its context is bound to its notification."""
        board = SMALL.replace('name="a"', 'name="a" passive="true"')
        told = self.of_texts(board, '[domain.a]\nirq.0 = 50\nnotified.0 = ["compute 1"]\n')
        tables = tomllib.loads(told.stdout)
        self.assertNotIn('server', tables)
        self.assertEqual(tables['thread'][0]['script'], ['wait a', 'on 1', 'compute 1'])

    def test_what_a_domain_does_once(self) -> None:
        board = '<system><protection_domain name="a"/><protection_domain name="b"/></system>'
        tables = tomllib.loads(self.of_texts(board, '[domain.a]\ninit = ["compute 9", "spin"]\n').stdout)
        self.assertEqual([(row['script'], row['rounds']) for row in tables['thread']], [(['compute 9', 'spin'], 1), (['compute 1'], 1)])


def many(count: int) -> tuple[str, str]:
    """A domain with this many interrupts, of ids from 61 down, and its work file."""
    ids = range(61, 61 - count, -1)
    inside = ''.join(f'<irq irq="{100 + id}" id="{id}"/>' for id in ids)
    work = '[domain.a]\n' + ''.join(f'irq.{id} = 1000\nnotified.{id} = ["compute {id}"]\n' for id in ids)
    return f'<system><protection_domain name="a">{inside}</protection_domain></system>', work


class Badges(Case):
    def test_ids_above_31(self) -> None:
        board, work = many(32)
        told = self.of_texts(board, work)
        self.assertEqual((told.status, told.stderr), (0, ''))
        tables = tomllib.loads(told.stdout)
        # ids 30 and 31 keep their badges, and 32 to 61 get the others from 1 up; handlers stand in the order of the ids
        self.assertEqual(tables['thread'][0]['script'][:9], [
            'wait a', f'on {1 << 30}', 'compute 30', f'on {1 << 31}', 'compute 31', 'on 1', 'compute 32', 'on 2', 'compute 33'])
        self.assertEqual(tables['thread'][0]['script'][-2:], [f'on {1 << 29}', 'compute 61'])

    def test_more_than_a_word_has(self) -> None:
        board, work = many(33)
        told = self.of_texts(board, work)
        self.assertEqual((told.status, told.stdout, told.stderr), (1, '', 'microkit: b.system:1: left out: notified(61) of a: a word has 32 badges\n'))

    def test_a_channel_that_notifies_and_calls(self) -> None:
        """Both are badges of one notification, if the domain that is called has a context."""
        board = ('<system><protection_domain name="c" priority="1"><irq irq="1" id="9"/></protection_domain><protection_domain name="s" priority="2"/>'
                 '<channel><end pd="c" id="3" pp="true"/><end pd="s" id="0"/></channel></system>')
        work = ('[domain.c]\nirq.9 = 100\nnotified.9 = ["notify 3", "call 3", "compute 4", "call 3"]\n'
                '[domain.s]\nnotified.0 = ["compute 7"]\nprotected.0 = ["compute 8"]\n')
        tables = tomllib.loads(self.of_texts(board, work).stdout)
        self.assertEqual(by_name(tables, 'thread', 'script'), {
            # a handler does not end with a wait
            'c': ['wait c', 'on 512', 'signal s 1', 'signal s 2', 'wait c_answer3', 'compute 4', 'signal s 2', 'wait c_answer3', 'compute 1'],
            's': ['wait s', 'on 1', 'compute 7', 'on 2', 'compute 8', 'signal c_answer3 1'],
        })

    def test_calls_in_a_circle(self) -> None:
        pair = '<protection_domain name="{}" priority="{}" passive="true"/>'
        board = f'<system>{pair.format("a", 3)}{pair.format("b", 3)}<channel><end pd="a" id="0" pp="true"/><end pd="b" id="0" pp="true"/></channel></system>'
        told = self.of_texts(board, '[domain.a]\nprotected.0 = ["call 0"]\n[domain.b]\nprotected.0 = ["call 0"]\n', '--partial')
        self.assertEqual(by_name(tomllib.loads(told.stdout), 'server', 'script'), {'b': ['on 1'], 'a': ['on 1', 'call b 1']})
        self.assertIn('microkit: b.system:1: left out: the calls of b to a (its channel 0): they go in a circle\n', told.stderr)

    def test_names_that_are_taken(self) -> None:
        long = 'x' * 32
        board = (f'<system><protection_domain name="{long}" priority="9" passive="true"><irq irq="1" id="0"/></protection_domain>'
                 f'<protection_domain name="c" priority="1"/><channel><end pd="c" id="0" pp="true"/><end pd="{long}" id="1"/></channel></system>')
        tables = tomllib.loads(self.of_texts(board, f'[domain.{long}]\nirq.0 = 9\nnotified.0 = []\nprotected.1 = []\n').stdout)
        self.assertEqual([row['name'] for row in tables['note']], ['x' * 31 + '2'])
        self.assertEqual([row['name'] for row in tables['server']], [long])


class Template(Case):
    def test_a_work_file_to_fill_in(self) -> None:
        told = ran(BOARDS / 'calls.system')
        self.assertEqual((told.status, told.stderr), (0, ''))
        lines = [' '.join(line.split()) for line in told.stdout.splitlines()]
        at = lines.index('[domain.timer]')
        self.assertEqual(lines[at:at + 9], [
            '[domain.timer]', '# core 0, priority 150, budget 100 in 1000, passive', '# it may notify 0 (control)', '# deadline = "?"',
            'irq.40 = "?" # the period of interrupt 30', 'notified.0 = ["?"] # control notifies', 'protected.0 = ["?"] # control calls',
            'notified.1 = ["?"] # i2c notifies', 'protected.1 = ["?"] # i2c calls'])
        self.assertIn('init = ["?"] # nothing activates it: it does this once', lines)

    def test_it_is_refused_until_it_is_filled_in(self) -> None:
        board = BOARDS / 'calls.system'
        with tempfile.TemporaryDirectory() as folder:
            work = pathlib.Path(folder, 'w.toml')
            self.assertEqual(ran(board, '-o', work).status, 0)
            said = []
            for _ in range(3):
                told = ran(board, '--work', work)
                self.assertEqual((told.status, told.stdout), (2, ''))
                said.append(told.stderr.removeprefix(f'microkit: {work}: ').strip())
                work.write_text(work.read_text().replace('= "?"', '= 1', 1))
            self.assertEqual(said, ['call: is to be a whole number of microseconds, 1 or more', 'delay: is to be a whole number of microseconds, 1 or more',
                                    "domain.timer.notified.0 item 1: '?' is none of `compute N` in microseconds of 1 or more, `notify ID`, `call ID` and `spin`"])
            # filled in, it gives a system of all domains
            work.write_text(work.read_text().replace('["?"]', '["compute 1"]').replace('"?"', '500'))
            told = ran(board, '--work', work)
            self.assertEqual((told.status, told.stderr), (0, ''))
            self.assertEqual([row['name'] for row in tomllib.loads(told.stdout)['thread']], ['timer', 'i2c', 'control', 'display', 'store', 'monitor'])


class Refused(Case):
    def refused(self, board: str, work: str, wanted: str, *words: str) -> None:
        ended = self.of_texts(board, work, *words)
        self.assertEqual(ended, (2, '', f'microkit: {wanted}\n'))

    def test_descriptions(self) -> None:
        domain = '<protection_domain name="a" priority="5" {}/>'
        for inside, wanted in (
            (domain.format('budget="1500" period="3000"'), 'budget 1500 us of protection_domain a is no whole number of ticks of 1000 us'),
            (domain.format('budget="2000" period="2500"'), 'period 2500 us of protection_domain a is no whole number of ticks of 1000 us'),
            (domain.format('cpu="64"'), "cpu '64' of protection_domain a is no number of 0 to 63"),
            (domain.format('passive="yes"'), "passive 'yes' of protection_domain a is neither true nor false"),
            (domain.format('passiv="true"'), "'passiv' is no attribute of a <protection_domain>: the nearest is passive"),
            ('<protection_domain name="a" priority="255"/>', "priority '255' of protection_domain a is no number of 0 to 254"),
            ('<protection_domain name="a.b"/>', "the name 'a.b' is none of mcsim, which has 1 to 32 of A-Z a-z 0-9 _ -"),
            (domain.format('') * 2, 'the name a is used twice'),
            (domain.format('') + '<channel><end pd="a" id="0"/></channel>', 'a channel has two ends, not 1'),
            (domain.format('') + '<channel><end pd="a" id="0"/><end pd="aa" id="0"/></channel>', "no protection_domain has the name 'aa': the nearest is a"),
            ('<protection_domain name="a"><irq irq="1" id="62"/></protection_domain>', "id '62' of irq is no number of 0 to 61"),
            ('<protection_domain name="a"><irq irq="1" id="0"/><irq irq="2" id="0"/></protection_domain>', 'the id 0 of a is taken'),
            ('<protection_domain name="a"><domain/></protection_domain>', 'a <domain> is no part of a <protection_domain>'),
            ('<domain_schedule/>', 'a <domain_schedule> is no part of a <system>'),
            ('', 'the description has no protection_domain'),
        ):
            self.refused(f'<system>{inside}</system>', '', f'b.system:1: {wanted}', '--tick-us', '1000')

    def test_no_description(self) -> None:
        self.refused('<system>', '', 'b.system:1: not XML: no element found')
        self.refused('<board/>', '', 'b.system:1: a description is a <system>, not a <board>')

    def test_work(self) -> None:
        for work, wanted in (
            ('calls = 1', "the key 'calls' is none of call, delay, domain, chain"),
            ('call = 0', 'call: is to be a whole number of microseconds, 1 or more'),
            ('[domain.b]', "domain: no protection_domain has the name 'b': there are a"),
            ('[domain.a]\nscript = []', "domain.a: the key 'script' is none of init, notified, protected, irq, deadline"),
            ('[domain.a]\nnotified.0 = 5', 'domain.a.notified.0: is to be a list of texts'),
            ('[domain.a]\nnotified.1 = []', 'domain.a.notified: a has no interrupt, and no channel that notifies, of id 1: there are 0'),
            ('[domain.a]\nprotected.0 = []', 'domain.a.protected: a has no channel whose other end has pp, of id 0: there is none'),
            ('[domain.a]\nnotified.0 = ["compute 0"]',
             "domain.a.notified.0 item 1: 'compute 0' is none of `compute N` in microseconds of 1 or more, `notify ID`, `call ID` and `spin`"),
            ('[domain.a]\nnotified.0 = ["notify 3"]', 'domain.a.notified.0 item 1: a has no channel 3: there is none'),
            ('[domain.a]\ninit = ["compute 1"]\nirq.0 = 9\nnotified.0 = []',
             'domain.a.init: a has handlers, and the run begins when it waits for them'),
            ('[domain.a]\nirq = { 1 = 5 }', 'domain.a.irq: a has no interrupt of id 1: there are 0'),
            ('[domain.a]\nirq.0 = "?"', 'domain.a.irq.0: is to be a whole number of microseconds, 1 or more'),
            ('[domain.a]\nirq.0 = { period = 9, at = [3, 9] }', 'domain.a.irq.0.at: its numbers are to rise below the period, in ticks'),
            ('[chain.c]\nfrom = "a 1"\nto = "a"', 'chain.c.from: a has no such interrupt: there are 0'),
            ('[chain.c]\nfrom = "a 0"\nto = "b"', "chain.c.to: no protection_domain has the name 'b': there are a"),
            ('[chain.c]\nfrom = "a 0"', 'chain.c.to: is to be a text: DOMAIN, or DOMAIN ID'),
            ('[domain.a', "not TOML: Expected ']' at the end of a table declaration (at end of document)"),
        ):
            self.refused(SMALL, work, f'w.toml: {wanted}')

    def test_channels(self) -> None:
        board = ('<system><protection_domain name="a" priority="1"/><protection_domain name="s" priority="2" passive="true"/>'
                 '<channel><end pd="a" id="0" pp="true"/><end pd="s" id="1" notify="false"/></channel></system>')
        for work, wanted in (
            ('[domain.s]\nprotected.1 = ["notify 1"]', 'domain.s.protected.1 item 1: channel 1 of s has notify="false"'),
            ('[domain.s]\nprotected.1 = ["call 1"]', 'domain.s.protected.1 item 1: channel 1 of s has no pp="true"'),
            ('[domain.s]\nprotected.1 = []\ndeadline = 5', 'domain.s.deadline: s is a server, and its callers have deadlines'),
        ):
            self.refused(board, work, f'w.toml: {wanted}')

    def test_words(self) -> None:
        self.assertEqual(ran(BOARDS / 'calls.system', '--partial'), (2, '', 'microkit: --partial is for a system, and without --work there is none\n'))


if __name__ == '__main__':
    unittest.main()
