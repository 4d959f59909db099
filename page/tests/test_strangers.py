#!/usr/bin/python3
"""What others commit to the folder of a drawing, and what is sent to its server, neither runs nor stops anything."""
import asyncio
import contextlib
import json
import os
import socket
import subprocess
import time
import unittest

from client import Client, Heard, box, drawing, origin
from helpers import DRAW, FIGGROUP, PAGE, Server, free_port, wait
from test_serve import CLOSED, ServeTest


class Code(ServeTest):
    def setUp(self) -> None:
        self.server = Server(1, start=False)

    def test_no_code_of_the_folder_runs(self) -> None:
        """Neither a module nor a program, when the PATH and PYTHONPATH have the folder."""
        folder = self.server.folder
        (folder / 'tornado').mkdir()
        for module in ('tornado/__init__.py', 'tornado/web.py', 'asyncio.py', 'json.py', 'sitefile.py', 'sitecustomize.py'):
            (folder / module).write_text('open("owned", "w")\n')
        program = folder / 'figgroup'
        program.write_text('#!/bin/sh\ntouch owned\n')
        program.chmod(0o755)
        path = f'.::{os.environ["PATH"]}:{os.path.dirname(FIGGROUP)}'
        for words, more in (([DRAW, 'page'], {}), ([PAGE / 'serve.py', '.'], {'PYTHONPATH': '.'})):
            begun = subprocess.Popen([*words, '1=Ann', '--port', str(free_port())], cwd=folder, text=True, stdout=subprocess.PIPE,
                                     stderr=subprocess.STDOUT, env={**os.environ, 'PATH': path, **more})
            try:
                self.assertIn('Ann draws at', begun.stdout.readline())
                self.assertTrue(os.path.samefile(FIGGROUP, f'/proc/{self.newest(begun.pid)}/exe'))
            finally:
                begun.kill()
                begun.communicate()
            self.assertFalse((folder / 'owned').exists())

    def newest(self, server: int) -> int:
        """The number of the process of figgroup that a server began."""
        return int(wait(lambda: subprocess.run(['pgrep', '-nP', str(server), 'figgroup'], capture_output=True).stdout))


def memory(server: Heard) -> int:
    """The most memory that a server has had, in KB."""
    lines = open(f'/proc/{server.process.pid}/status').read().splitlines()
    return int(next(line.split()[1] for line in lines if line.startswith('VmHWM')))


class Bounds(ServeTest):
    def setUp(self) -> None:
        self.server = Heard()

    def tearDown(self) -> None:
        self.assertNotIn('Traceback', self.server.said())
        for address in self.server.address.values():
            self.assertNotIn(address.split('/')[3], self.server.said())
        super().tearDown()

    def call(self) -> socket.socket:
        return socket.create_connection(('127.0.0.1', self.server.port), 20)

    def test_bodies_without_a_secret(self) -> None:
        """None is read, whether it comes at once, half, or in pieces of unknown number."""
        before = memory(self.server)
        calls = [self.call() for _ in range(24)]
        body = bytes(2 ** 20)
        for i, call in enumerate(calls):
            with contextlib.suppress(ConnectionError):
                length = ('Content-Length: 16777216', 'Transfer-Encoding: chunked', 'Content-Length: 1000')[i % 3]
                call.sendall(f'POST /x/y HTTP/1.1\r\nHost: 127.0.0.1:{self.server.port}\r\n{length}\r\n\r\n'.encode())
                for _ in range(16 if i % 3 < 2 else 0):
                    call.sendall((b'100000\r\n' if i % 3 else b'') + body + (b'\r\n' if i % 3 else b''))
        self.assertLess(memory(self.server) - before, 20_000)
        began = time.monotonic()
        for call in calls[2::3]:  # of these the server has a half body for ten seconds
            call.settimeout(20)
            with contextlib.suppress(ConnectionError):
                while call.recv(10_000):
                    pass
            call.close()
        self.assertLess(time.monotonic() - began, 15)

    async def test_large_messages(self) -> None:
        """Eight pages send 4 MiB each, of what takes most memory, at once; another page is answered meanwhile."""
        other = await self.client(2)
        before = memory(self.server)
        take = json.dumps({'take': drawing(box(0)), 'after': 0, 'request': 'p.1'})[:-1]
        parts = ['[],' * 1_300_000, '{},' * 1_300_000, '1.5,' * 1_000_000, '"\\u1234",' * 400_000] * 2
        clients = [await self.client(1) for _ in parts]
        sent = asyncio.gather(*(client.say(f'{take},"x":[{part}0]}}') for client, part in zip(clients, parts)))
        self.assertIn('taken', await other.take(drawing(box(9000))))
        await sent
        for i, client in enumerate(clients):
            with contextlib.suppress(*CLOSED) if i % 4 < 2 else contextlib.nullcontext():
                await client.hear('taken', 'watching', 'behind')
        self.assertLess(memory(self.server) - before, 250_000)

    async def test_no_secret_is_reported(self) -> None:
        """Messages and requests that are none, of which libraries report the request with its path."""
        for message in ['[' * 100_000, '{"page":' + '[' * 5000, '{"take":"#FIG","after":1e999,"request":"p.1"}', '"' * 99, '\ud800',
                        '{"holds":{"a":1}}', '{"page":"p","turn":1e308,"draws":1}', '{"take":"\\ud800","after":0,"request":"p.1"}',
                        '{"show":"1.1","to":{},"after":[],"request":{}}', '{"another":[[]]}', '{"draw":NaN}', '{"request":"p.1","after":0}']:
            for hello in (True, False):
                client = await Client().open(self.server.address[1], joins=hello)
                with contextlib.suppress(*CLOSED, UnicodeEncodeError):
                    await client.say(message)
                    await client.hear('refused', 'taken', 'address', 'draws')
        own = self.server.address[1].split('/')[3]
        for request in (f'GET /{own}/live HTTP/1.1\r\nHost: 127.0.0.1:{self.server.port}\r\nUpgrade: websocket\r\n\r\n',
                        f'GET /{own}/ HTTP/9\r\n\r\n', f'\0/{own}/\r\n\r\n', f'GET /{own}/%ff%00 HTTP/1.1\r\nHost: \xff\r\n\r\n',
                        f'PUT /{own}/ HTTP/1.1\r\nHost: 127.0.0.1:{self.server.port}\r\nContent-Length: x\r\n\r\n'):
            with contextlib.closing(self.call()) as call:
                call.sendall(request.encode('latin-1'))
                call.shutdown(socket.SHUT_WR)
                with contextlib.suppress(ConnectionError):
                    call.recv(1000)
        self.assertIn('taken', await (await self.client(2)).take(drawing(box(0))))

    async def test_turns(self) -> None:
        """A page that claims the greatest turn takes it from no page that comes later."""
        await self.client(turn=2 ** 50 - 1)
        for _ in range(2):
            client = await self.client()
            self.assertTrue(client.draws)
            again = await self.client(turn=client.turn)
            self.assertEqual(client.turn, again.turn)
        self.assertIn('taken', await again.take(drawing(box(0))))


class Descriptors(ServeTest):
    def setUp(self) -> None:
        self.server = Heard(start=False)
        self.server.before = ['prlimit', '--nofile=64']
        self.server.start()

    async def test_no_descriptors(self) -> None:
        """Others open all connections that there are: open pages draw on, one line says it, and then all is as before."""
        client = await self.client()
        calls = []
        for _ in range(100):
            calls.append(socket.create_connection(('127.0.0.1', self.server.port), 20))
        for i in range(5):
            self.assertEqual(i + 1, (await client.take(drawing(*(box(500 * j) for j in range(i + 1))), after=i)).get('taken'))
        os.kill(self.server.keeper(), 9)  # and another one can begin
        self.assertEqual(6, (await client.take(drawing(*(box(500 * j) for j in range(6))), after=5)).get('taken'))
        self.assertEqual('draw: too many connections: 32 of 64 descriptors are kept for saving, ulimit -n has more\n',
                         self.server.said())
        for call in calls:
            call.close()
        end = time.monotonic() + 20
        while time.monotonic() < end:
            with contextlib.suppress(*CLOSED):
                other = await self.client(2)
                break
        self.assertIn('taken', await other.take(drawing(box(9000))))


class Designers(ServeTest):
    def setUp(self) -> None:
        self.server = Heard()

    async def test_by_files(self) -> None:
        """Who draws and the names of objects come from the files that all share, as soon as these change."""
        client = await self.client()
        await client.named({1: 'Ann', 2: 'Ben'})
        (self.server.folder / 'designers').write_text('2 Benno\n5 Eva M\nnonsense\n')
        await client.named({1: 'Ann', 2: 'Benno', 5: 'Eva M'})
        (self.server.folder / 'site-3.jsonl').write_text(json.dumps(
            {'id': [3, 1], 'past': [0] * 8, 'op': 'create', 'kind': 'box', 'place': [0, 0], 'size': [3, 4], 'colour': 'ff0000',
             'layer': 0, 'shown': True}) + '\n')
        await client.named({1: 'Ann', 2: 'Benno', 3: 'site 3', 5: 'Eva M'})
        (self.server.folder / 'names').write_text('car 1.4-1.6 2.1\nx y\n')
        self.assertEqual({'car': ['1.4', '1.5', '1.6', '2.1']}, (await client.hear('names'))['names'])
        other = await Client().open(self.server.address[2])
        self.assertEqual({'car': ['1.4', '1.5', '1.6', '2.1']}, (await other.hear('names'))['names'])
        (self.server.folder / 'names').unlink()
        (self.server.folder / 'names').symlink_to('/dev/zero')
        self.assertEqual({}, (await client.hear('names'))['names'])
        self.assertEqual(3, self.server.said().count('\n'), self.server.said())

    async def test_goes_on_as_another_site(self) -> None:
        """The least free one, by the same name, also after the server is begun again; the same when it is asked again."""
        (self.server.folder / 'designers').write_text('1 Ann\n3 Cleo\n')
        client = await self.client()
        await client.say({'another': True})
        address = (await client.hear('address'))['address']
        await client.named({1: 'Ann', 2: 'Ben', 3: 'Cleo', 4: 'Ann'})
        await client.say({'another': True})
        self.assertEqual(address, (await client.hear('address'))['address'])
        self.assertEqual('1 Ann\n3 Cleo\n4 Ann\n', (self.server.folder / 'designers').read_text())
        further = await Client().open(origin(self.server.address[1]) + address)
        self.assertEqual(1, (await further.take(drawing(box(0))))['taken'])
        self.assertEqual(1, len(self.server.operations(4)))
        self.server.kill()
        self.server.words = ['1=Ann', '2=Ben', '4=Ann']
        self.server.start()
        self.assertTrue(self.server.address[4].endswith(address))
        client = await self.client()
        for site in (5, 6, 7, 8):
            (self.server.folder / f'site-{site}.jsonl').write_text('')
        await client.say({'another': True})
        self.assertIsNone((await client.hear('address'))['address'])

    async def test_alive(self) -> None:
        """Each page hears of its server, also one that does not say anything."""
        self.server.kill()
        script = self.server.folder / 'quick.py'
        script.write_text(f'import asyncio, sys\nsys.path.insert(0, {str(PAGE)!r})\nimport serve, drawing\n'
                          'assert drawing.ALIVE == 15\ndrawing.ALIVE = .2\nasyncio.run(serve.main())\n')
        self.server.script = script
        self.server.start()
        silent, client = await Client().open(self.server.address[2], joins=False), await self.client()
        for _ in range(3):
            for each in (silent, client):
                self.assertEqual({'alive': .2}, await each.hear('alive'))

    def test_one_designer_is_the_one_of_the_copy(self) -> None:
        """draw page 1=Ann notes whose copy it is, for draw pull and draw push; two designers share a copy."""
        self.server.kill()
        for words, site in ((['3=Ann'], '3\n'), (['1=Ann', '2=Ben'], None), (['2=Ben'], '3\n')):
            for name in ('drawing.secrets', *(['site'] if site is None else [])):
                with contextlib.suppress(FileNotFoundError):
                    (self.server.folder / name).unlink()
            page = self.server.draw('page', *words, '--port', str(free_port()))
            try:
                self.assertIn(' draws at ', page.stdout.readline())
            finally:
                page.kill()
                page.communicate()
            file = self.server.folder / 'site'
            self.assertEqual(site, file.read_text() if file.exists() else None)
            if site is None:
                file.write_text('3\n')


class Addresses(ServeTest):
    def setUp(self) -> None:
        self.server = Heard()

    async def test_new_addresses(self) -> None:
        """All secrets are others then, and the drawing stays."""
        client = await self.client()
        await client.take(drawing(box(0)))
        old = dict(self.server.address)
        self.server.kill()
        self.server.words = [*Heard.words, '--new-addresses']
        self.server.start()
        self.assertFalse({address.split('/')[3] for address in old.values()} & {a.split('/')[3] for a in self.server.address.values()})
        with self.assertRaises(Exception):
            await Client().open(old[1], joins=False)
        client = await self.client()
        while '# figgroup knows 1.1' not in (client.text or ''):
            await client.hear('drawing')
        self.assertIsNone(self.server.process.poll())

    def test_names_on_the_terminal(self) -> None:
        """Control characters of a name that others wrote are not printed."""
        self.server.kill()
        (self.server.folder / 'drawing.secrets').write_text(json.dumps({'1': ['secret', 'Ann\x1b[31m']}))
        (self.server.folder / 'designers').write_bytes(b'2 Ben\x1b[31m\nx\x1b\n')
        (self.server.folder / 'names').write_bytes(b'car \x1b[31m\n')
        self.server.words = []
        self.server.start()
        wait(lambda: self.server.said().count('\n') >= 3)
        self.assertEqual('Ann?[31m', self.server.process.stdout.readline().partition(' draws')[0])
        self.assertNotIn('\x1b', self.server.said())

    def test_base(self) -> None:
        """A name without a port is reached by https, one with a port by http."""
        for host, base in (('draw.example.org', 'https://draw.example.org/'), ('desk:8140', 'http://desk:8140/'),
                           ('[::1]', 'https://[::1]/')):
            self.server.kill()
            self.server.words = ['1=Ann', '--host', host]
            self.server.start()
            self.assertTrue(self.server.address[1].startswith(base), self.server.address)


if __name__ == '__main__':
    unittest.main(verbosity=2)
