"""A page without a browser, and small drawings as texts."""
import asyncio
import json
import os
import subprocess
import tempfile

import tornado.httpclient
import tornado.websocket

from helpers import FIGGROUP, LONG, Server

EMPTY = '#FIG 3.2\nLandscape\nCenter\nMetric\nA4\n100.00\nSingle\n-2\n# figgroup knows nothing\n1200 2\n'
ANSWERS = ('taken', 'refused', 'behind', 'watching', 'again')


def box(x, y=0, depth=50, number=32):
    return (f'2 2 0 0 {number} {number} {depth} -1 20 0.000 0 0 -1 0 0 5\n'
            f'\t {x} {y} {x + 100} {y} {x + 100} {y + 100} {x} {y + 100} {x} {y}\n')


def drawing(*boxes, knows='nothing'):
    return EMPTY.replace('nothing', knows) + '0 32 #ff0000\n' + ''.join(boxes)


def moved(text, nth):
    """The text with its n-th box moved by five units."""
    lines = text.split('\n')
    boxes = [i for i, line in enumerate(lines) if line.startswith('2 2 ')]
    number = boxes[nth % len(boxes)] + 1
    lines[number] = '\t ' + ' '.join(str(int(word) + 5) for word in lines[number].split())
    return '\n'.join(lines)


def origin(address):
    return address[:address.index('/', 8)]


class Heard(Server):
    """A server with other words, of which standard error is kept."""

    words = ['1=Ann', '2=Ben']
    before = []  # a program that begins it, with its words

    def start(self, **environment: str) -> None:
        self.errors = tempfile.TemporaryFile('w+')
        self.process = subprocess.Popen(
            [*self.before, '/usr/bin/python3', str(self.script), str(self.folder), *self.words, '--port', str(self.port)],
            stdout=subprocess.PIPE, stderr=self.errors, text=True, env={**os.environ, 'FIGGROUP': FIGGROUP, **environment})
        self.address = {}
        for site in map(int, (word[0] for word in self.words if '=' in word)):
            self.address[site] = self.process.stdout.readline().rpartition(' at ')[2].strip()

    def said(self) -> str:
        self.errors.seek(0)
        return self.errors.read()


class Client:
    made = 0

    def __init__(self, turn=None, draws=True):
        Client.made += 1
        self.page, self.turn, self.draws = f'client{Client.made}', turn, draws
        self.text, self.number, self.names = None, 0, {}

    async def open(self, address, joins=True, **headers):
        request = tornado.httpclient.HTTPRequest(
            address.replace('http', 'ws') + 'live', headers={'Origin': origin(address), **headers})
        self.socket = await tornado.websocket.websocket_connect(request, max_message_size=2 ** 25)
        if joins:
            await self.say({'page': self.page, 'turn': self.turn, 'draws': self.draws})
            await self.hear('draws')
        return self

    async def say(self, what):
        await self.socket.write_message(what if isinstance(what, str) else json.dumps(what))

    async def hear(self, *keys):
        """The next message with one of these keys."""
        while True:
            message = await asyncio.wait_for(self.socket.read_message(), LONG)
            if message is None:
                raise ConnectionError
            said = json.loads(message)
            self.text = said.get('drawing', self.text)
            if 'designers' in said:
                self.names = {one['site']: one['name'] for one in said['designers']}
            if 'draws' in said:
                self.draws, self.turn = said['draws'], said['turn']
            if any(key in said for key in keys):
                return said

    async def ask(self, what):
        """The answer to a request, which gets the next number unless it has one."""
        if 'request' not in what:
            self.number += 1
            what = {**what, 'request': f'{self.page}.{self.number}'}
        await self.say(what)
        return await self.hear(*ANSWERS)

    async def take(self, text, after=0, **more):
        return await self.ask({'take': text, 'after': after, **more})

    async def fault(self, words: str) -> str:
        """The first fault with these words."""
        while words not in (fault := (await self.hear('fault'))['fault']):
            pass
        return fault

    async def named(self, names: dict[int, str]) -> None:
        """Waits until the designers have these names."""
        while self.names != names:
            await self.hear('designers')

    async def right(self) -> dict:
        """The first drawing without a fault."""
        while 'fault' in (said := await self.hear('drawing')):
            pass
        return said
