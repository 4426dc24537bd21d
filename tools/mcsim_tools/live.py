"""live SYSTEM [--horizon N] [--port N]

Shows the picture of a system, its table and its findings on a page, and draws them anew each time the file is saved, with what the save made worse or
better. A fault of the file stands above the last good picture, with its line and with what tools/explain says of it. A file that is not read within 5 s, and a run with its picture that takes longer than
--limit, are given up, and the page says so; the next save is looked at again.

The page is at http://127.0.0.1:PORT, a port that is free unless one is asked for, and for this machine alone. What is served is this one page, and parts
of its run between two times, for what is beyond the page's detail. No other path and no command is taken from the network. Requests that name another
host or come from another origin are answered 403, a few are held at a time, and none longer than 5 s. Ctrl-C ends it."""
from __future__ import annotations

import argparse
import contextlib
import http.server
import json
import re
import socket
import socketserver
import threading
from collections.abc import Iterator, Sequence
from http import HTTPStatus
from typing import Any, NamedTuple, Optional

from . import changes, frame, looking, options, view
from .changes import Verdict
from .faults import Fault, why
from .looking import Looker, Mark
from .page import fault_page
from .source import Words

HOST = '127.0.0.1'
# the picture, and from when to when
PART = re.compile(r'/part/([1-9][0-9]{0,8})/([0-9]{1,13})/([0-9]{1,13})')
# requests that are held at a time, and the seconds that one may take, whatever it does
HELD, SECONDS = 8, 5
# seconds that a run and its picture may take, unless --limit says it
LIMIT = 60
POLICY = "default-src 'none'; style-src 'unsafe-inline'; script-src 'unsafe-inline'; connect-src 'self'; frame-ancestors 'none'; base-uri 'none'; form-action 'none'"


class State(NamedTuple):
    """What the page shows: the number of the last good picture, 0 before there is one, its text, and what it changed of the verdict; and the fault of the
    file if there is one, with what there is to say of it."""

    picture: int
    page: bytes
    fault: Optional[str] = None
    explained: Sequence[str] = ()
    verdict: Verdict = {}
    changes: Sequence[tuple[bool, str]] = ()

    def text(self) -> bytes:
        return json.dumps({'picture': self.picture, 'fault': self.fault, 'explained': self.explained, 'changes': self.changes}).encode()


class Watch:
    """Looks at the file, and draws it anew when it was saved."""

    def __init__(self, words: argparse.Namespace) -> None:
        self.words = words
        self.looker = Looker(words, view.window_of(words, False), words.limit)
        self.state = State(0, b'')
        # the file as it was at the last look that read it
        self.seen: Mark = None
        self.ends = threading.Event()

    def look(self) -> None:
        """Draws the file if it is another one than at the last look; where it has a fault the last good picture stays, with the fault beside it."""
        mark = looking.mark_of(self.words.system)
        if mark == self.seen:
            return
        drawn = self.looker.look(self.state.picture + 1)
        if drawn is None:
            return
        self.seen = None if drawn.is_unread else mark
        if drawn.fault is None:
            found = changes.told(changes.changes(self.state.verdict, drawn.verdict)) if self.state.picture else []
            self.state = State(self.state.picture + 1, drawn.page, verdict=drawn.verdict, changes=found)
        else:
            page = self.state.page if self.state.picture else fault_page('\n'.join([drawn.fault, *drawn.explained])).encode()
            self.state = self.state._replace(page=page, fault=drawn.fault, explained=drawn.explained)

    def part(self, asked: looking.Part) -> Optional[bytes]:
        """A part of the picture that is shown, if it has this number."""
        return self.looker.part(asked) if asked.number == self.state.picture else None

    def follow(self) -> None:
        while not self.ends.wait(looking.LOOK):
            self.look()

    def end(self) -> None:
        self.ends.set()
        self.looker.give_up()


class Handler(http.server.BaseHTTPRequestHandler):
    """Answers three requests: for the page, for its number, and for a part of the run."""

    server: Server
    timeout = SECONDS
    server_version, sys_version = 'mcsim-live', ''

    def is_own(self) -> bool:
        """Whether the request names this host, and comes from the page itself or from no page."""
        own = {f'{name}:{self.server.server_port}' for name in (HOST, 'localhost')}
        hosts, origins = (self.headers.get_all(name) or [] for name in ('Host', 'Origin'))
        return hosts in [[name] for name in own] and all(origin in {f'http://{name}' for name in own} for origin in origins)

    def parse_request(self) -> bool:
        """A request of whatever kind that is not the page's own goes no further."""
        if not super().parse_request():
            return False
        if not self.is_own():
            self.answer(HTTPStatus.FORBIDDEN, 'text/plain', b'')
            return False
        return True

    def do_GET(self) -> None:
        state = self.server.watch.state
        if self.path == '/':
            self.answer(HTTPStatus.OK, 'text/html', state.page)
        elif self.path == '/state':
            self.answer(HTTPStatus.OK, 'application/json', state.text())
        elif asked := PART.fullmatch(self.path):
            part = self.server.watch.part(looking.Part(*map(int, asked.groups())))
            self.answer(HTTPStatus.OK, 'application/json', part) if part else self.answer(HTTPStatus.NOT_FOUND, 'text/plain', b'')
        else:
            self.answer(HTTPStatus.NOT_FOUND, 'text/plain', b'')

    def answer(self, status: HTTPStatus, kind: str, text: bytes) -> None:
        self.send_response(status)
        words = {
            'Content-Type': f'{kind}; charset=utf-8', 'Content-Length': str(len(text)), 'Cache-Control': 'no-store', 'Content-Security-Policy': POLICY,
            'X-Content-Type-Options': 'nosniff', 'Referrer-Policy': 'no-referrer', 'Cross-Origin-Resource-Policy': 'same-origin',
        }
        for name, word in words.items():
            self.send_header(name, word)
        self.end_headers()
        with contextlib.suppress(OSError):
            self.wfile.write(text)

    def log_message(self, form: str, *words: object) -> None:
        """Says nothing of requests."""


@contextlib.contextmanager
def ended_after(request: socket.socket, seconds: float) -> Iterator[None]:
    """Ends a connection that is not done in time: what waits for its bytes, or for room for an answer, then gets an error."""
    timer = threading.Timer(seconds, shut, [request])
    timer.daemon = True
    timer.start()
    try:
        yield
    finally:
        timer.cancel()


def shut(request: socket.socket) -> None:
    with contextlib.suppress(OSError):
        request.shutdown(socket.SHUT_RDWR)


class Server(socketserver.ThreadingMixIn, http.server.HTTPServer):
    """A server of this machine alone, which holds a few requests and closes what is more."""

    daemon_threads = True
    # a thread that waits for a slow request keeps nobody from ending
    block_on_close = False

    def __init__(self, port: int, watch: Watch) -> None:
        self.watch = watch
        self.free = threading.BoundedSemaphore(HELD)
        super().__init__((HOST, port), Handler)

    def process_request(self, request: Any, address: Any) -> None:
        if not self.free.acquire(blocking=False):
            self.shutdown_request(request)
            return
        try:
            super().process_request(request, address)
        except BaseException:
            self.free.release()
            raise

    def process_request_thread(self, request: Any, address: Any) -> None:
        try:
            with ended_after(request, SECONDS):
                super().process_request_thread(request, address)
        finally:
            self.free.release()

    def handle_error(self, request: object, address: object) -> None:
        """A request that breaks off is no matter."""


def main() -> None:
    words = Words(__doc__)
    view.add_looks(words)
    port, limit = options.number('no port', 0, 65535), options.number('no number of seconds, of 1 to 86400', 1, 86400)
    words.add_argument('--port', type=port, default=0, metavar='N', help='the port of the page (default: one that is free)')
    words.add_argument('--limit', type=limit, default=LIMIT, metavar='N', help='seconds that a run and its picture may take (default: %(default)s)')
    asked = words.asked()
    if asked.system == options.STANDARD_INPUT:
        raise Fault('-: the page follows a file, and standard input is none')
    watch = Watch(asked)
    try:
        watch.look()
        if watch.state.fault and not asked.system.is_file():
            raise Fault(watch.state.fault)
        serve(watch, asked.port)
    finally:
        watch.end()


def serve(watch: Watch, port: int) -> None:
    """Serves the page until it is interrupted."""
    try:
        server = Server(port, watch)
    except OSError as error:
        raise why(f'{HOST}:{port}', error) from None
    threading.Thread(target=watch.follow, daemon=True).start()
    # whoever has read the address may interrupt it at once
    with server, contextlib.suppress(KeyboardInterrupt):
        print(f'http://{HOST}:{server.server_port}', flush=True)
        if watch.state.fault:
            frame.say(watch.state.fault)
        server.serve_forever()
