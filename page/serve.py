#!/usr/bin/python3 -IB
"""Lets designers draw in the browser: serves the drawing of a folder, with an address for each site.

    serve.py FOLDER 1=Ann 2=Ben       prints an address for each: who has it draws as that site

A page gets the text of `figgroup fig --named` and sends it back changed. `figgroup serve` has all operations, and makes new
ones of that, which are added to the file of the site. A page and the server exchange JSON over one web socket:

    page    {"page": ID, "turn": T, "draws": D}   it comes, or comes again; T is null where it was opened just now
            {"draw": true}                 it wants to draw in place of another page of its site
            {"take": TEXT, "request": N, "after": L}    a drawing; L is the last operation of its site that the page knows
            {"show": OBJECT, "to": BOOL, "request": N, "after": L}    an object of which nothing is seen
            {"holds": [OBJECTS]}           what is selected, for the others to see
            {"another": true}              its designer wants to go on as a further site
    server  {"you": SITE}
            {"draws": BOOL, "turn": T, "last": L}    whether this page is the one of its site that draws
        to each request one answer, with its "request":
            {"taken": L, "made": LINES}    what was sent is on the disk
            {"refused": WORDS}             nothing was made of it, and why
            {"behind": L}                  nothing was made of it, as the site has operations that the page did not know
            {"watching": WORDS}            nothing was made of it, as another page of the site draws
            {"again": WORDS}               the disk failed: the same is to be sent again
            {"address": "/SECRET/"}        to `another`: the page of the further site; null if no number is free
        to all pages, whenever something changed:
            {"drawing": TEXT, "status": LINES, "fault": WORDS}    the last one alone, if there is no drawing; WORDS has all
                                           faults, joined by "; ", and may come with a drawing of what has none
            {"designers": [{site, name, pages, holds}]}    of sites with a name or a file; any other site is free
            {"names": {NAME: [OBJECTS]}}   what the file `names` has; also to a page that comes
            {"alive": 15}                  each 15 seconds: a page that hears nothing for 40 hangs up

It needs python3-tornado, and the program figgroup (FIGGROUP names it, or it is in an absolute folder of the PATH). No
code comes from the folder of the drawing, to which others commit.
"""
import argparse
import asyncio
import errno
import fcntl
import io
import ipaddress
import json
import os
import pathlib
import re
import sys
import time
from collections.abc import Awaitable, Callable
from typing import Optional

PAGE = pathlib.Path(__file__).resolve().parent
sys.path[:0] = [str(PAGE), str(PAGE.parent / 'draw')]  # with -I Python does not look here by itself

try:
    import tornado.web
    import tornado.websocket
except ImportError:
    sys.exit('draw: there is no python3-tornado here: apt-get install python3-tornado')

import designers
import naming
from addresses import FILE, Addresses, Damaged, read_known
from drawing import Drawing, SITES, Watching
from listening import Listener, own_address, silence
from sitefile import Behind, Refusal, open_plain, words_of
from telling import Failure, printable, tell, write

WEB = PAGE / 'web'
TYPES = {'.html': 'text/html', '.css': 'text/css', '.js': 'text/javascript'}
FILES = {file.name: TYPES[file.suffix] for file in WEB.iterdir() if file.suffix in TYPES}
ANYWHERE = ('0.0.0.0', '::')  # to listen at all addresses of the machine
MOST_PAGES = 64
MOST_MESSAGE = 4 * 1024 * 1024  # bytes; 1,000 polygons of 64 corners have 1 MB
MOST_PARTS = 1000  # lists and objects of a message, each of which takes much more memory than its two bytes
LARGE = 256 * 1024  # bytes of a message; of these one is handled at a time
MOST_MESSAGES = 100  # at once from all pages of a site,
PACE = 25  # and in a second
PATIENCE = 5  # seconds, for a server that was just killed
MOST_TURN = 2 ** 50  # so that a page's numbers hold it
MOST_HELD = 100  # objects of which the others see that they are selected
OBJECT = re.compile(r'[1-8]\.[1-9][0-9]{0,4}')
PAGE_ID = re.compile(r'[A-Za-z0-9_-]{1,40}')
KEYS = ('page', 'turn', 'draws', 'draw', 'another', 'holds', 'take', 'show', 'to', 'request', 'after')
POLICY = ("default-src 'none'; script-src 'self'; style-src 'self'; connect-src 'self'; img-src data:; "
          "base-uri 'none'; form-action 'none'; frame-ancestors 'none'")
HEADERS = {'Cache-Control': 'no-store', 'Content-Security-Policy': POLICY, 'Cross-Origin-Opener-Policy': 'same-origin',
           'Cross-Origin-Resource-Policy': 'same-origin', 'X-Content-Type-Options': 'nosniff',
           'Referrer-Policy': 'no-referrer'}  # the address has the secret


class Guarded:
    """Lets in who names this server and knows the secret of a site."""

    def prepare(self):
        host = self.request.host
        if not any(is_told(name, self.settings) for name in (host, f'{host}:80')):  # browsers leave out the port 80
            raise tornado.web.HTTPError(421)
        self.site = self.settings['addresses'].site_of(self.request.path.split('/')[1])
        if self.site is None:
            raise tornado.web.HTTPError(404)

    def log_exception(self, kind: object, error: object, trace: object) -> None:
        """Reports what nobody foresaw, without the request, whose path has the secret."""
        if not isinstance(error, tornado.web.HTTPError):
            report(error, 'a request')

    def set_default_headers(self):
        for name, value in HEADERS.items():
            self.set_header(name, value)


def is_told(host, settings):
    """Whether pages call this server so: by a name that it was told, and no other that somebody bound to its address; or
    by an address in numbers, where it listens at all of them."""
    address, _, port = host.rpartition(':')
    try:
        return host in settings['hosts'] or (
            port == settings['port_by_number'] and bool(ipaddress.ip_address(address.strip('[]'))))
    except ValueError:
        return False


class PageFile(Guarded, tornado.web.RequestHandler):
    """The files of the page: those of its folder when the server began, and no others."""

    def get(self, name):
        name = name or 'index.html'
        if name not in FILES:
            raise tornado.web.HTTPError(404)
        self.set_header('Content-Type', f'{FILES[name]}; charset=utf-8')
        self.write((WEB / name).read_bytes())


class Pace:
    """How many messages the pages of a site may still send: so many at once, and so many more each second."""

    def __init__(self):
        self.left, self.then = MOST_MESSAGES, time.monotonic()

    def allows(self):
        now = time.monotonic()
        self.left = min(MOST_MESSAGES, self.left + (now - self.then) * PACE)
        self.then = now
        if self.left < 1:
            return False
        self.left -= 1
        return True


class Page(Guarded, tornado.websocket.WebSocketHandler):
    """An open page."""

    def check_origin(self, origin):
        return origin in [f'http://{self.request.host}', *self.settings['origins']]

    def open(self):
        self.drawing = self.settings['drawing']
        self.holds, self.due, self.sending = [], {}, None
        self.name, self.turn = None, None
        self.pace = self.settings['paces'].setdefault(self.site, Pace())
        if len(self.drawing.pages) >= MOST_PAGES:
            return self.close(1013, f'{MOST_PAGES} pages are open')
        self.drawing.pages.add(self)
        self.set_nodelay(True)
        self.tell({'you': self.site})

    def on_close(self):
        self.drawing.pages.discard(self)
        self.drawing.tell_designers()

    async def on_message(self, message):
        """Answers one message before the next one is read."""
        if not self.pace.allows():
            return self.end(1008, 'too many messages')
        try:
            if len(message) > LARGE:
                async with self.settings['large']:
                    answer = await self.answer(parse(message))
            else:
                answer = await self.answer(parse(message))
        except (ValueError, TypeError, KeyError, AttributeError, RecursionError, OverflowError):
            return self.end(1003, 'no such message')
        except Exception as error:
            report(error, 'a message')
            return self.end(1011, 'the server can not answer that message')
        if answer:
            self.tell(answer)

    def end(self, code, why):
        """Closes the page, which counts no more from then on, also while its connection ends."""
        self.drawing.pages.discard(self)
        self.close(code, why)

    async def answer(self, asked):
        if 'page' in asked:
            return self.join(asked)
        if self.name is None:
            raise ValueError('who is it?')
        if 'draw' in asked:
            return self.drawing.take_over(self)
        if 'another' in asked:
            return {'address': another(self.site, self.drawing, self.settings['addresses'])}
        if 'holds' in asked:
            self.holds = [name for name in asked['holds'][:MOST_HELD] if OBJECT.fullmatch(name)]
            return self.drawing.tell_designers()
        return await self.make(asked)

    def join(self, asked):
        turn = asked['turn']
        if not PAGE_ID.fullmatch(asked['page']) or not (turn is None or isinstance(turn, int) and 0 < turn < MOST_TURN):
            raise ValueError('no such page')
        self.name = asked['page']
        self.drawing.join(self, turn, asked['draws'] is True)

    async def make(self, asked):
        """What a page asked for, made or not."""
        page, number = str(asked['request']).rsplit('.', 1)
        if not PAGE_ID.fullmatch(page):
            raise ValueError('no such request')
        try:
            answer = await self.made(asked, (page, int(number)), int(asked['after']))
        except Behind as behind:
            answer = {'behind': behind.args[0]}
        except Watching:
            answer = {'watching': 'another page of yours draws'}
        except Refusal as refusal:
            answer = {'refused': str(refusal)}
        except OSError as error:
            answer = {'again': f'the disk failed: {words_of(error)}'}
        return {**answer, 'request': asked['request']}

    async def made(self, asked, request, after):
        if 'take' in asked:
            return await self.drawing.take(self, request, after, str(asked['take']))
        if not OBJECT.fullmatch(asked['show']):
            raise ValueError('no such object')
        return await self.drawing.show(self, request, after, asked['show'], asked['to'] is True)

    def tell(self, what, message=None):
        """Sends it when the page has read what came before; meanwhile a newer drawing takes the place of an older one."""
        kind = 'drawing' if 'fault' in what else next(iter(what))
        self.due.pop(kind, None)
        self.due[kind] = message or json.dumps(what)
        if not self.sending:
            self.sending = asyncio.create_task(self.send())

    async def send(self):
        try:
            while self.due:
                await self.write_message(self.due.pop(next(iter(self.due))))
        except tornado.websocket.WebSocketClosedError:
            pass  # it will come again, and ask again
        self.sending = None


def parse(message: str) -> dict[str, object]:
    """A message without what no message has, so that this takes no memory while it is answered."""
    if message.count('[') + message.count('{') > MOST_PARTS:
        raise ValueError('too many parts')
    return {key: value for key, value in json.loads(message).items() if key in KEYS}


def report(error: BaseException, of: str) -> None:
    """Reports a fault of this program in one line, which has no secret."""
    at = error.__traceback__
    while at and at.tb_next:
        at = at.tb_next
    place = f'{os.path.basename(at.tb_frame.f_code.co_filename)}:{at.tb_lineno}' if at else ''
    tell(f'{of} failed: {type(error).__name__} at {place}')


def another(site: int, drawing: Drawing, addresses: Addresses) -> Optional[str]:
    """The path of the page by which a designer goes on as the least free site, which is theirs from then on; none if no
    site is free, or no file can be written."""
    if site in addresses.next:
        return f'/{addresses.secrets[addresses.next[site]]}/'
    drawing.read_shared()  # so that no number is given that the files have just named
    free = [other for other in SITES if other not in drawing.designers()]
    if not free:
        return None
    name = drawing.name(site)
    try:
        addresses.add(free[0], name)
        if designers.is_name(name):
            naming.replace_lines('designers', [f'{free[0]} {name}'])
    except (OSError, Failure) as error:
        tell(words_of(error) if isinstance(error, OSError) else error.lines[0])
        return None
    addresses.next[site] = free[0]
    drawing.names[free[0]] = name
    drawing.read_shared()
    drawing.tell_designers()
    write(f'{name} goes on as site {free[0]}')
    return f'/{addresses.secrets[free[0]]}/'


class Words(argparse.ArgumentParser):
    def error(self, message):
        print(f'draw: {message}', file=sys.stderr)
        sys.exit(2)


def port(word):
    if not (word.isdecimal() and 0 < int(word) < 2 ** 16):
        raise argparse.ArgumentTypeError(f'a port is a number from 1 to 65535, and not {word}')
    return int(word)


def read_words():
    words = Words(prog='draw page', usage='draw page SITE=NAME.. [--port N] [--listen ADDRESS] [--host NAME[:PORT]] [--new-addresses]',
                  description='Lets designers draw in the browser, each by an address of their own.')
    words.add_argument('folder', type=pathlib.Path, help='`draw page` takes the one where it is typed')
    words.add_argument('designers', nargs='*', metavar='SITE=NAME', help='those of the last time, where none is told')
    words.add_argument('--port', type=port, default=8140, help='8140, unless told')
    words.add_argument('--listen', default='127.0.0.1', metavar='ADDRESS', help='0.0.0.0 lets the network in, unencrypted')
    words.add_argument('--host', action='append', default=[], metavar='NAME[:PORT]',
                       help='a name by which browsers call; without a port that of a server with TLS before this one')
    words.add_argument('--new-addresses', action='store_true', help='all addresses of before lead nowhere then')
    told = words.parse_args()
    try:
        ipaddress.ip_address(told.listen.replace('localhost', '127.0.0.1'))
    except ValueError:
        words.error(f'an address has numbers, as 0.0.0.0, and is not {told.listen}')
    told.names = {}
    for designer in told.designers:
        site, _, name = designer.partition('=')
        if site not in map(str, SITES) or not name.strip():
            words.error(f'a designer is told as 1=Ann, of site 1 to 8, and not as {designer}')
        if int(site) in told.names:
            words.error(f'{site} is told twice: each designer has another number')
        told.names[int(site)] = name.strip()[:40]
    return told


def read_addresses(told: argparse.Namespace) -> Addresses:
    """The addresses of the designers that were named, or else of those of the last time."""
    try:
        known = read_known()
    except Damaged:
        known = {}
        if not told.new_addresses:
            sys.exit(f'draw: {FILE} is damaged: draw page 1=Ann --new-addresses makes another, with new addresses')
    names = told.names or {site: name for site, (_, name) in known.items() if site in SITES}
    if not names:
        print('draw: who draws? 1=Ann 2=Ben says it', file=sys.stderr)
        sys.exit(2)
    return Addresses({} if told.new_addresses else known, names)


def hold() -> io.FileIO:
    """One server for each folder. A process that a killed one was just beginning may have the lock still."""
    lock, end = open_plain('drawing.lock', os.O_RDWR | os.O_CREAT), time.monotonic() + PATIENCE
    while True:
        try:
            fcntl.flock(lock, fcntl.LOCK_EX | fcntl.LOCK_NB)
            return lock
        except BlockingIOError:
            if time.monotonic() > end:
                sys.exit('draw: another server is at work in this folder')
            time.sleep(0.05)


def bracketed(address):
    """An address as it stands before a port."""
    return f'[{address}]' if ':' in address else address


def base_of(told: argparse.Namespace) -> str:
    """What addresses begin with. A name without a port is that of a server with TLS before this one."""
    here = own_address() if told.listen in ANYWHERE else bracketed(told.listen)
    name = told.host[0] if told.host else f'{here}:{told.port}'
    return f'http://{name}' if name.rpartition(':')[2].isdecimal() else f'https://{name}'


def say_where(told: argparse.Namespace, addresses: Addresses) -> None:
    for site, secret in addresses.secrets.items():
        write(f'{addresses.known[site][1]} draws at {base_of(told)}/{secret}/')
    if told.listen != 'localhost' and not ipaddress.ip_address(told.listen).is_loopback:
        tell(f'{told.listen} is not encrypted: who sees the network can read and draw. '
             'Elsewhere than at home use ssh -L, or a server with TLS before it.')


def application(told: argparse.Namespace, addresses: Addresses, drawing: Drawing) -> tornado.web.Application:
    hosts = {f'127.0.0.1:{told.port}', f'localhost:{told.port}', *told.host}
    if told.listen not in ANYWHERE:
        hosts.add(f'{bracketed(told.listen)}:{told.port}')
    return tornado.web.Application(
        [(r'/[^/]+/live', Page), (r'/[^/]+/([a-z.]*)', PageFile)], drawing=drawing, addresses=addresses, hosts=hosts,
        port_by_number=str(told.port) if told.listen in ANYWHERE else None, origins=[f'https://{host}' for host in told.host],
        paces={}, large=asyncio.Lock(), log_function=lambda handler: None,  # no secrets in logs
        websocket_max_message_size=MOST_MESSAGE, websocket_ping_interval=20)


async def main() -> None:
    told = read_words()
    os.chdir(told.folder)
    lock = hold()
    addresses = read_addresses(told)
    drawing = Drawing({site: addresses.known[site][1] for site in addresses.secrets})
    silence(asyncio.get_running_loop())
    await drawing.open()
    listener = Listener(application(told, addresses, drawing))
    try:
        listener.listen(told.port, told.listen)
    except OSError as error:
        way = ': --port N names another' if error.errno in (errno.EADDRINUSE, errno.EACCES) else ''
        sys.exit(f'draw: {told.listen} port {told.port}: {error.strerror}{way}')
    say_where(told, addresses)
    with lock:
        await asyncio.gather(*map(for_ever, (drawing.watch, drawing.publish, drawing.show_life)))


async def for_ever(work: Callable[[], Awaitable[None]]) -> None:
    """Begins work again if it fails for a reason that nobody foresaw."""
    while True:
        try:
            await work()
        except Exception as error:
            report(error, work.__name__)
            await asyncio.sleep(1)


if __name__ == '__main__':
    try:
        asyncio.run(main())
    except KeyboardInterrupt:
        pass
    except OSError as error:
        sys.exit(printable(f'draw: {words_of(error)}'))
