"""Takes connections: as many as leave descriptors for saving, each within bounds, and without a line for each fault."""
import asyncio
import logging
import resource
import socket
import time
from typing import Any

import tornado.httpserver
import tornado.iostream
import tornado.netutil
import tornado.web

from telling import tell

KEPT = 32  # descriptors for files and figgroup, which no connection gets
PAUSE = 1  # seconds without a new connection, if the machine has no descriptors
QUIET = 60  # seconds, in which a line is not repeated
MOST_BODY = 1024  # bytes of a request; a page sends none
SLOW = 10  # seconds, for a body


class Listener:
    def __init__(self, application: tornado.web.Application) -> None:
        self.server = tornado.httpserver.HTTPServer(
            application, max_body_size=MOST_BODY, body_timeout=SLOW, idle_connection_timeout=60)
        self.loop = asyncio.get_running_loop()

    def listen(self, port: int, address: str) -> None:
        for listening in tornado.netutil.bind_sockets(port, address):
            self.loop.add_reader(listening, self.accept, listening)

    def accept(self, listening: socket.socket) -> None:
        try:
            connection, address = listening.accept()
        except (BlockingIOError, ConnectionAbortedError):
            return
        except OSError as error:
            say_seldom(f'no connection can be taken: {error.strerror}')
            self.loop.remove_reader(listening)
            self.loop.call_later(PAUSE, self.loop.add_reader, listening, self.accept, listening)
            return
        most = resource.getrlimit(resource.RLIMIT_NOFILE)[0]
        if connection.fileno() >= most - KEPT:  # a new descriptor is the least that is free
            say_seldom(f'too many connections: {KEPT} of {most} descriptors are kept for saving, ulimit -n has more')
            connection.close()
            return
        self.server.handle_stream(tornado.iostream.IOStream(connection), address)


def own_address() -> str:
    """The address by which this machine calls others. Nothing is sent."""
    with socket.socket(socket.AF_INET, socket.SOCK_DGRAM) as probe:
        try:
            probe.connect(('192.0.2.1', 9))
            return probe.getsockname()[0]
        except OSError:
            return '127.0.0.1'


said: dict[str, float] = {}


def say_seldom(line: str) -> None:
    """Reports something that may happen again and again."""
    if said.get(line, -QUIET) + QUIET <= time.monotonic():
        said[line] = time.monotonic()
        tell(line)


class Seldom(logging.Handler):
    """What libraries report: the kind of it, seldom, and no request or traceback, which may have a secret."""

    def emit(self, record: logging.LogRecord) -> None:
        kind = record.exc_info[0].__name__ if record.exc_info and record.exc_info[0] else record.levelname
        say_seldom(f'{record.name}: {kind} in {record.module}')


def silence(loop: asyncio.AbstractEventLoop) -> None:
    logging.getLogger().handlers = [Seldom(logging.WARNING)]

    def handle(_: Any, context: dict[str, Any]) -> None:
        fault = context.get('exception')
        say_seldom(f'{type(fault).__name__ if fault else "fault"} in the server')

    loop.set_exception_handler(handle)
