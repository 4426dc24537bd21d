"""The live page: what it serves and refuses, and that it follows its file. The program is made up: it gives the rows of a file beside it."""
from __future__ import annotations

import contextlib
import http.client
import json
import os
import pathlib
import signal
import socket
import subprocess
import sys
import tempfile
import time
import unittest
from collections.abc import Callable
from typing import Any, Optional

from worked import ONE, ONE_ROWS, TOOLS, run_tool
from mcsim_tools import changes, live, looking
from mcsim_tools.live import HELD

SECONDS = 60
# seconds that a run may take
LIMIT = 8
# a file with an unknown key is refused as the program does, and one with the word `hangs` is never done with
PROGRAM = '''#!/bin/sh
cd "$(dirname "$0")"
cat >text
if grep -q wrong text; then echo 'mcsim: unknown key at thread 1 ?' >&2; exit 1; fi
if grep -q hangs text; then echo $$ >hung; exec sleep 1000; fi
cat rows
'''
LATER_ROWS = ONE_ROWS.replace('11 0 round A 1 11\n11 0 stop A done 1\n', '')


class Changes(unittest.TestCase):
    def test_the_worse_stands_first(self) -> None:
        before: changes.Verdict = {'response of A': (9, '9'), 'missed by A': (3, '3'), 'lost at n': (2, '2')}
        after: changes.Verdict = {'response of A': (12, '12'), 'missed by A': (0, '0'), 'response of B': (5, '5')}
        self.assertEqual(changes.changes(before, after), [
            (True, 'response of A: 12, was 9'), (False, 'missed by A: 0, was 3'), (False, 'lost at n: none, was 2')])

    def test_few_are_listed(self) -> None:
        many = [changes.Change(False, str(number)) for number in range(23)]
        listed = changes.told(many)
        self.assertEqual((len(listed), listed[-1]), (21, (False, 'and 3 more')))


class Live(unittest.TestCase):
    def setUp(self) -> None:
        folder = tempfile.TemporaryDirectory()
        self.addCleanup(folder.cleanup)
        self.folder = pathlib.Path(folder.name)
        self.system, program = self.folder / 'one.toml', self.folder / 'program'
        program.write_text(PROGRAM)
        program.chmod(0o755)
        self.save(ONE, ONE_ROWS)
        command = [sys.executable, str(TOOLS / 'live'), str(self.system), '--program', str(program), '--horizon', '12', '--limit', str(LIMIT)]

        # whoever runs the tests in the background has interrupts ignored
        def hear_interrupts() -> None:
            signal.signal(signal.SIGINT, signal.SIG_DFL)

        self.child = subprocess.Popen(command, preexec_fn=hear_interrupts, stdout=subprocess.PIPE, stderr=subprocess.PIPE, text=True)
        self.addCleanup(self.end)
        assert self.child.stdout is not None
        self.url = self.child.stdout.readline().strip()
        self.port = int(self.url.rpartition(':')[2])

    def end(self) -> None:
        self.child.kill()
        self.child.communicate()

    def save(self, text: str, rows: str) -> None:
        """Saves as editors do: another file takes the place of the old one."""
        (self.folder / 'rows').write_text(rows.lstrip())
        new = self.folder / 'new'
        new.write_text(text)
        os.replace(new, self.system)

    def ask(self, path: str = '/', host: Optional[str] = '', origin: Optional[str] = None, method: str = 'GET') -> tuple[int, str]:
        with contextlib.closing(http.client.HTTPConnection('127.0.0.1', self.port, timeout=SECONDS)) as asking:
            asking.putrequest(method, path, skip_host=True)
            if host is not None:
                asking.putheader('Host', host or f'127.0.0.1:{self.port}')
            if origin is not None:
                asking.putheader('Origin', origin)
            asking.endheaders()
            answer = asking.getresponse()
            return answer.status, answer.read().decode()

    def wait_for(self, picture: int, fault: Optional[str]) -> None:
        """Waits until the page tells this number and this fault."""
        until = time.monotonic() + SECONDS
        while (state := self.state())['picture'] != picture or state['fault'] != fault:
            self.assertLess(time.monotonic(), until, state)
            time.sleep(0.02)

    def state(self) -> dict[str, Any]:
        state: dict[str, Any] = json.loads(self.ask('/state')[1])
        return state

    def wait_for_refusal(self) -> None:
        """Waits until a request is closed without an answer: the server may not have taken all connections before it yet."""
        until = time.monotonic() + SECONDS
        while True:
            try:
                self.ask()
            except (http.client.RemoteDisconnected, ConnectionResetError, BrokenPipeError):
                return
            self.assertLess(time.monotonic(), until)

    def test_the_page(self) -> None:
        self.assertTrue(self.url.startswith('http://127.0.0.1:'))
        status, text = self.ask()
        self.assertEqual(status, 200)
        self.assertIn('12 ticks, 10 rows: 1 missed, 0 overdue, 0 lost', text)
        self.assertEqual(self.ask(host=f'localhost:{self.port}', origin=f'http://localhost:{self.port}')[0], 200)

    def test_other_hosts_and_origins_are_refused(self) -> None:
        for host in ('evil.example', f'evil.example:{self.port}', '127.0.0.1', None):
            self.assertEqual(self.ask(host=host), (403, ''), host)
        for origin in ('http://evil.example', 'null', f'https://127.0.0.1:{self.port}', f'http://127.0.0.1:{self.port + 1}'):
            self.assertEqual(self.ask(origin=origin), (403, ''), origin)
        self.assertEqual(self.ask(origin='http://evil.example', path='/state'), (403, ''))
        self.assertEqual(self.ask(host='evil.example', method='POST'), (403, ''))

    def test_it_serves_no_path_and_takes_no_command(self) -> None:
        self.wait_for(1, None)
        parts = ['/part/1/5', '/part/1/5/1', '/part/1/0/13', '/part/2/0/12', '/part/1/0/12/', '/part/1/-1/5', '/part/01/0/5', '/part/1/0/' + '9' * 14, '/part/1/0/5?x']
        for path in ('/one.toml', '/../one.toml', f'/{self.system}', '/?--horizon=5', '/state/', *parts):
            self.assertEqual(self.ask(path), (404, ''), path)
        self.assertEqual([self.ask(method=method)[0] for method in ('POST', 'PUT', 'DELETE')], [501] * 3)

    def test_a_part_of_the_run(self) -> None:
        self.wait_for(1, None)
        status, text = self.ask('/part/1/4/11')
        part = json.loads(text)
        self.assertEqual((status, part['data']['a'], part['data']['b'], part['data']['detail']), (200, 4, 11, None))
        # throttled 4 to 5, running to 7, throttled to 10, running to 11
        self.assertEqual(dict((name, many) for name, many, _ in part['data']['arrays'])['segLength'], 4)
        self.assertEqual(self.ask('/part/1/4/11', origin='http://evil.example'), (403, ''))
        self.save(ONE + '# saved\n', LATER_ROWS)
        self.wait_for(2, None)
        # a picture that is no longer shown has no parts
        self.assertEqual((self.ask('/part/1/4/11')[0], self.ask('/part/2/4/11')[0]), (404, 200))

    def test_it_follows_the_file(self) -> None:
        self.wait_for(1, None)
        self.save(ONE + '# saved\n', LATER_ROWS)
        self.wait_for(2, None)
        self.assertIn('12 ticks, 8 rows: 0 missed, 1 overdue, 0 lost', self.ask()[1])

    def test_what_a_save_changes_of_the_verdict(self) -> None:
        self.wait_for(1, None)
        self.assertEqual(self.state()['changes'], [])
        self.save(ONE + '# saved\n', LATER_ROWS)
        self.wait_for(2, None)
        # the round that missed its deadline does not end now
        self.assertEqual(self.state()['changes'], [[True, 'overdue: A: 1, was 0'], [False, 'missed by A: 0, was 1']])
        self.save(ONE + '# saved again\n', LATER_ROWS)
        self.wait_for(3, None)
        self.assertEqual(self.state()['changes'], [])

    def test_a_fault_is_told_with_its_line_beside_the_last_good_picture(self) -> None:
        self.save(ONE.replace('priority', 'wrong'), ONE_ROWS)
        self.wait_for(1, f'{self.system}:6: unknown key at thread 1 ?')
        line, mark, *facts = self.state()['explained']
        self.assertIn('wrong = 5', line)
        self.assertEqual(line[mark.index('^')], 'w')
        self.assertIn('wrong is no key of a thread', facts[0])
        self.assertIn('12 ticks, 10 rows', self.ask()[1])
        (self.folder / 'text').unlink()
        self.system.unlink()
        self.wait_for(1, f'{self.system}: No such file or directory')
        # nothing is run for a file that is not there
        self.assertEqual((self.state()['explained'], (self.folder / 'text').exists()), ([], False))
        self.save(ONE, ONE_ROWS)
        self.wait_for(2, None)

    def test_few_requests_are_held(self) -> None:
        with contextlib.ExitStack() as held:
            for _ in range(HELD):
                held.enter_context(socket.create_connection(('127.0.0.1', self.port)))
            self.wait_for_refusal()
        until = time.monotonic() + SECONDS
        while True:
            # the places are free again once the connections are seen to be closed
            with contextlib.suppress(OSError, http.client.HTTPException):
                self.assertEqual(self.ask()[0], 200)
                break
            self.assertLess(time.monotonic(), until)

    def test_a_slow_request_ends(self) -> None:
        """A client that sends a byte now and then, and one that never takes its answer, hold a place no longer than others."""
        with contextlib.ExitStack() as held:
            slow = [held.enter_context(socket.create_connection(('127.0.0.1', self.port))) for _ in range(HELD)]
            self.wait_for_refusal()
            began = time.monotonic()
            until = began + SECONDS
            while True:
                for client in slow:
                    with contextlib.suppress(OSError):
                        client.send(b'G')
                with contextlib.suppress(OSError, http.client.HTTPException):
                    self.assertEqual(self.ask()[0], 200)
                    break
                self.assertLess(time.monotonic(), until)
                time.sleep(0.2)
        self.assertLess(time.monotonic() - began, live.SECONDS + 10)

    def test_a_pipe_in_place_of_the_file(self) -> None:
        self.system.unlink()
        os.mkfifo(self.system)
        self.wait_for(1, f'{self.system}: it was not read within {looking.READ} s, so this look was given up')
        self.assertIn('12 ticks, 10 rows', self.ask()[1])
        self.save(ONE, LATER_ROWS)
        self.wait_for(2, None)
        self.assertIn('12 ticks, 8 rows', self.ask()[1])

    def test_a_pipe_that_is_gone_before_the_look_is_given_up(self) -> None:
        self.system.unlink()
        os.mkfifo(self.system)
        time.sleep(1)
        self.save(ONE, LATER_ROWS)
        self.wait_for(2, None)

    def test_a_run_that_hangs(self) -> None:
        self.save(ONE + '# hangs\n', ONE_ROWS)
        self.wait_for(1, f'{self.system}: its run and picture were not ready within {LIMIT} s, so this look was given up (--limit N gives more)')
        self.assertIn('12 ticks, 10 rows', self.ask()[1])
        self.assert_has_ended(int((self.folder / 'hung').read_text()))
        self.save(ONE, LATER_ROWS)
        self.wait_for(2, None)

    def test_a_save_while_a_run_hangs(self) -> None:
        self.save(ONE + '# hangs\n', ONE_ROWS)
        self.wait_until(lambda: (self.folder / 'hung').exists())
        self.save(ONE, LATER_ROWS)
        self.wait_for(2, None)

    def test_what_runs_ends_with_it(self) -> None:
        self.save(ONE + '# hangs\n', ONE_ROWS)
        hung = self.folder / 'hung'
        self.wait_until(lambda: hung.exists() and bool(hung.read_text()))
        self.child.kill()
        self.assert_has_ended(int(hung.read_text()))

    def wait_until(self, is_so: Callable[[], bool]) -> None:
        until = time.monotonic() + SECONDS
        while not is_so():
            self.assertLess(time.monotonic(), until)
            time.sleep(0.02)

    def assert_has_ended(self, process: int) -> None:
        """A process ends soon; it may be there as one for which nobody has waited."""
        stat = pathlib.Path(f'/proc/{process}/stat')

        def is_gone() -> bool:
            try:
                return stat.read_text().rpartition(')')[2].split()[0] == 'Z'
            except (FileNotFoundError, ProcessLookupError):
                return True

        self.wait_until(is_gone)

    def test_it_ends_on_an_interrupt(self) -> None:
        self.child.send_signal(signal.SIGINT)
        self.assertEqual(self.child.wait(SECONDS), 0)


class Refused(unittest.TestCase):
    def refused(self, said: str, *words: str) -> None:
        ran = run_tool([sys.executable, str(TOOLS / 'live'), *words], capture_output=True, text=True)
        self.assertEqual((ran.returncode, ran.stdout, ran.stderr), (2, '', f'live: {said}\n'))

    def test_bad_words(self) -> None:
        self.refused('none.toml: No such file or directory', 'none.toml')
        self.refused("argument --port: '65536' is no port", 'none.toml', '--port', '65536')
        self.refused('the following arguments are required: SYSTEM')

    def test_a_port_that_is_taken(self) -> None:
        with tempfile.TemporaryDirectory() as folder, socket.create_server(('127.0.0.1', 0)) as taken:
            system = pathlib.Path(folder, 'one.toml')
            system.write_text(ONE)
            number = taken.getsockname()[1]
            self.refused(f'127.0.0.1:{number}: Address already in use', str(system), '--program', 'false', '--port', str(number))


if __name__ == '__main__':
    unittest.main()
