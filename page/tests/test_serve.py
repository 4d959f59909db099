#!/usr/bin/python3
"""The server without a browser: who is let in, what is refused, what a kill leaves, who draws, eight sites at once."""
import asyncio
import contextlib
import fcntl
import json
import os
import pathlib
import signal
import subprocess
import tempfile
import time
import unittest
import urllib.error
import urllib.request

import tornado.httpclient
import tornado.websocket

from client import Client, box, drawing, origin
from helpers import FIGGROUP, PAGE, Server, free_port, wait

CRASH = pathlib.Path(__file__).with_name('crash_serve.py')
CLOSED = (ConnectionError, tornado.websocket.WebSocketClosedError)


class ServeTest(unittest.IsolatedAsyncioTestCase):
    def setUp(self):
        self.server = Server(8)

    async def asyncSetUp(self):
        asyncio.get_running_loop().set_debug(False)

    def tearDown(self):
        self.server.end()

    async def client(self, site=1, **more):
        return await Client(**more).open(self.server.address[site])


class Requests(ServeTest):
    async def test_same_again(self):
        """A request whose answer was lost is sent again: it makes nothing, and gets its answer."""
        client = await self.client()
        text = drawing(box(0), box(500))
        first = await client.take(text)
        again = await client.take(text, request=f'{client.page}.1')
        self.assertEqual((2, 2), (first['taken'], again['taken']))
        self.assertEqual(first['made'], again['made'])
        self.assertEqual(2, len(self.server.operations()))

    async def test_same_again_of_another_run(self):
        """The same behind a kill, and though another page drew between."""
        client = await self.client()
        text = drawing(box(0))
        first = await client.take(text)
        other = await self.client()
        self.assertEqual(2, (await other.take(drawing(box(0), box(500)), after=1))['taken'])
        self.server.kill()
        self.server.start()
        back = await self.client()
        again = await back.take(text, request=f'{client.page}.1')
        self.assertEqual((1, first['made']), (again['taken'], again['made']))
        self.assertEqual(2, len(self.server.operations()))

    async def test_behind(self):
        """What does not know the site's last operation would undo it, and is not made."""
        client = await self.client()
        await client.take(drawing(box(0)))
        self.assertEqual(1, (await client.take(drawing(box(900))))['behind'])
        self.assertEqual(1, len(self.server.operations()))

    async def test_refused(self):
        client = await self.client()
        line = json.dumps({'colour': 'ff0000', 'id': [2, 1], 'kind': 'box', 'layer': 0, 'op': 'create', 'past': [0] * 8,
                           'place': [0, 0], 'shown': True, 'size': [3, 4]})
        for text, words in [(line + '\n' + drawing(box(0)), 'has to begin with #FIG'), ('', '#FIG'), (' #FIG', '#FIG'),
                            (drawing(box(2000000)), 'drawing line 12: '),
                            (drawing().replace('# figgroup knows nothing\n', ''), 'drawing without names'),
                            (drawing(knows='3.1'), 'operation 3.1 is in the drawing')]:
            self.assertIn(words, (await client.take(text)).get('refused', ''))
        self.assertIn('NoObject', (await client.ask({'show': '1.1', 'to': True, 'after': 0}))['refused'])
        self.assertEqual([], self.server.operations())

    async def test_eight_at_once(self):
        clients = [await self.client(site) for site in range(1, 9)]

        async def draw(site, client):
            for i in range(20):
                said = await client.take(drawing(*(box(1000 * j, 1000 * site) for j in range(i + 1))), after=i)
                self.assertEqual(i + 1, said.get('taken'), said)

        await asyncio.gather(*(draw(site + 1, client) for site, client in enumerate(clients)))
        for client in clients:
            while '# figgroup knows 1.20 2.20 3.20 4.20 5.20 6.20 7.20 8.20' not in (client.text or ''):
                await client.hear('drawing')
        self.assertEqual(1, len({client.text for client in clients}))
        self.assertEqual('', self.server.figgroup('check'))
        self.assertEqual(160, len(self.server.operations()))


class Turns(ServeTest):
    async def test_the_last_one_draws(self):
        """Of four pages of a site the one that was opened last draws, whatever the others send."""
        clients = [await self.client() for _ in range(4)]
        said = await asyncio.gather(*(client.take(drawing(box(1000 * i))) for i, client in enumerate(clients)))
        self.assertEqual(['watching'] * 3 + ['taken'], [next(iter(answer)) for answer in said])
        self.assertEqual([[1, 1]], [operation['id'] for operation in self.server.operations()])

    async def test_take_over(self):
        one, two = await self.client(), await self.client()
        self.assertFalse((await one.hear('draws'))['draws'])
        await one.say({'draw': True})
        self.assertTrue((await one.hear('draws'))['draws'])
        self.assertFalse((await two.hear('draws'))['draws'])
        self.assertIn('watching', await two.take(drawing(box(0))))
        self.assertIn('taken', await one.take(drawing(box(0))))

    async def test_back_behind_a_kill(self):
        """Who drew gets the site back, though a page that watched comes first; a later turn wins over an older one."""
        watched, drew = await self.client(), await self.client()
        await watched.hear('draws')
        self.server.kill()
        self.server.start()
        back = await self.client(turn=watched.turn, draws=False)
        self.assertFalse(back.draws)
        old = await self.client(turn=watched.turn, draws=True)  # it did not hear that the other one took over
        self.assertTrue(old.draws)
        again = await self.client(turn=drew.turn)
        self.assertTrue(again.draws)
        self.assertFalse((await old.hear('draws'))['draws'])

    async def test_taken_over_meanwhile(self):
        """A connection that was lost comes back, and another page took over between."""
        one = await self.client()
        one.socket.close()
        two = await self.client()
        back = await self.client(turn=one.turn)
        self.assertFalse(back.draws)
        self.assertIn('taken', await two.take(drawing(box(0))))


class Strangers(ServeTest):
    def status(self, url, **headers):
        try:
            with urllib.request.urlopen(urllib.request.Request(url, headers=headers)) as answer:
                return answer.status, dict(answer.headers)
        except urllib.error.HTTPError as error:
            return error.code, dict(error.headers)

    async def test_who_is_let_in(self):
        address = self.server.address[1]
        root = origin(address) + '/'
        for path in ['', 'main.js']:
            status, headers = self.status(address + path)
            self.assertEqual(200, status)
            self.assertIn("script-src 'self'", headers['Content-Security-Policy'])
            self.assertEqual('no-referrer', headers['Referrer-Policy'])
        own = address[len(root):]
        for path in ['', 'main.js', 'x' * 22 + '/', 'x' * 22 + '/main.js', own + '../serve.py', own + 'serve.py',
                     own + '..%2fserve.py', own + 'drawing.secrets', own + '.', own[:-1]]:
            self.assertEqual(404, self.status(root + path)[0], path)
        self.assertEqual(421, self.status(address, Host='evil.example:80')[0])
        for headers in [{'Origin': 'http://evil.example'}, {'Origin': 'null'}, {'Host': 'evil.example'}]:
            with self.assertRaises(tornado.httpclient.HTTPClientError, msg=headers) as error:
                await Client().open(address, joins=False, **headers)
            self.assertIn(error.exception.code, (403, 421))
        with self.assertRaises(tornado.httpclient.HTTPClientError):
            await Client().open(root + 'x' * 22 + '/', joins=False)

    async def test_messages(self):
        """What is no message ends the connection, and nothing else."""
        address = self.server.address[1]
        hello = {'page': 'p', 'turn': None, 'draws': True}
        for messages in [[''], ['[]'], ['{}'], ['nonsense'], [{'take': drawing(), 'after': 0, 'request': 'p.1'}],
                         [{**hello, 'page': '../x'}], [{**hello, 'turn': 'x'}], [hello, {'take': 3}], [hello, {'show': 3}],
                         [hello, {'take': '#FIG', 'after': 'x', 'request': 'p.1'}], [hello, {'holds': 3}],
                         [hello, {'take': '#FIG', 'after': 0, 'request': 'p'}], [hello, {'take': 'x' * (2 ** 22 + 9)}],
                         ['[' * 100000], [{**hello, 'turn': 1.5}], [hello, '{"take":"#FIG","after":1e999,"request":"p.1"}'],
                         [hello, {'take': '#FIG', 'after': 0, 'request': 'p.' + '9' * 5000}], [hello, {'holds': [['1.1']]}],
                         [hello, {'show': '1.1","site":2', 'to': True, 'after': 0, 'request': 'p.1'}]]:
            client = await Client().open(address, joins=False)
            with self.assertRaises(CLOSED, msg=str(messages)[:200]):
                for message in messages:
                    await client.say(message)
                await client.hear('refused', 'taken')
        client = await self.client()  # it stands
        self.assertEqual(1, (await client.take(drawing(box(0))))['taken'])

    async def test_pace(self) -> None:
        """Of a site and not of a connection: who calls again may not say more."""
        began, heard = time.monotonic(), 0
        while time.monotonic() < began + 2:
            client = await Client().open(self.server.address[1], joins=False)
            with contextlib.suppress(*CLOSED):
                await client.say({'page': client.page, 'turn': None, 'draws': True})
                for _ in range(200):
                    await client.say({'draw': True})
                while await client.hear('draws'):
                    heard += 1
        self.assertLess(heard, 100 + 25 * (time.monotonic() - began) + 5)
        await (await self.client(2)).take(drawing(box(0)))  # others go on

    async def test_number_of_pages(self) -> None:
        clients = [await self.client(1 + i % 8) for i in range(64)]
        with self.assertRaises(CLOSED):
            await (await Client().open(self.server.address[1], joins=False)).hear('refused')
        self.assertEqual(64, len(clients))

    def test_words(self):
        """What is wrong with the words by which the server begins is told, and nothing is served."""
        taken = str(self.server.port)
        for words, told in [(['Ann'], 'a designer is told as 1=Ann'), (['1=Ann', '1=Ben'], '1 is told twice'), ([], 'who draws?'),
                            (['1=Ann', '--port', '65536'], 'from 1 to 65535'), (['1=Ann', '--port', 'x'], 'from 1 to 65535'),
                            (['1=Ann', '--listen', 'home'], 'an address has numbers'),
                            (['1=Ann', '--port', taken], 'Address already in use: --port N names another')]:
            with tempfile.TemporaryDirectory() as folder:
                said = subprocess.run([PAGE / 'serve.py', folder, *words], capture_output=True, text=True, timeout=30)
            self.assertIn(told, said.stderr)
            self.assertEqual((1 if taken in words else 2, ''), (said.returncode, said.stdout))

    def test_listens_anywhere(self):
        """Then an address in numbers is that of the server, with its port, and another name is not. Port 80 may be left out."""
        for port, hosts in [(free_port(), {'127.0.0.1:%d': 200, '6.6.6.6:%d': 200, '[::1]:%d': 200, 'localhost:%d': 200,
                                           'evil.example:%d': 421, '127.0.0.1:1%d': 421, '127.0.0.1': 421, '1.2.3:%d': 421}),
                            (80, {'127.0.0.1': 200, '127.0.0.1:80': 200, '6.6.6.6': 200, 'evil.example': 421})]:
            if port == 80 and os.getuid():
                continue
            with tempfile.TemporaryDirectory() as folder:
                words = [PAGE / 'serve.py', folder, '1=Ann', '--listen', '0.0.0.0', '--port', str(port)]
                server = subprocess.Popen(words, stdout=subprocess.PIPE, stderr=subprocess.PIPE, text=True)
                try:
                    told = server.stdout.readline()
                    self.assertRegex(told, rf'Ann draws at http://[0-9.]*:{port}/')
                    address = f'http://127.0.0.1:{port}/{told.split("/")[3]}/'
                    for host, status in hosts.items():
                        self.assertEqual(status, self.status(address, Host=host.replace('%d', str(port)))[0], host)
                finally:
                    server.kill()
                    server.communicate()

    def test_files(self):
        self.assertEqual(0o600, os.stat(self.server.folder / 'drawing.secrets').st_mode & 0o777)
        second = subprocess.run([PAGE / 'serve.py', self.server.folder, '1=Ann', '--port', '1'], capture_output=True, text=True)
        self.assertEqual((1, 'draw: another server is at work in this folder\n'), (second.returncode, second.stderr))


class Keeping(ServeTest):
    """The process that keeps the operations."""

    async def draws(self, client, count):
        """So many boxes, of which the last one is new."""
        said = await client.take(drawing(*(box(500 * i) for i in range(count))), after=count - 1)
        self.assertEqual(count, said.get('taken'), said)

    def made(self, count):
        self.assertEqual(list(range(1, count + 1)), [operation['id'][1] for operation in self.server.operations(1)])
        self.assertEqual(count, self.server.figgroup('fig').count('\n2 2 '))

    async def test_killed_between_gestures(self):
        client = await self.client()
        for count in range(1, 5):
            await self.draws(client, count)
            os.kill(self.server.keeper(), signal.SIGKILL)
        self.made(4)

    async def test_killed_within_a_gesture(self):
        client = await self.client()
        await self.draws(client, 1)
        for count in range(2, 5):
            keeper = self.server.keeper()
            os.kill(keeper, signal.SIGSTOP)
            asked = asyncio.create_task(self.draws(client, count))
            done, _ = await asyncio.wait([asked], timeout=.3)
            self.assertFalse(done)
            os.kill(keeper, signal.SIGKILL)
            await asked
        self.made(4)

    async def test_killed_while_eight_draw(self):
        """What is refused as the process ended twice is drawn again."""
        clients = [await self.client(site) for site in range(1, 9)]

        async def draw(site, client):
            for i in range(8):
                text, said = drawing(*(box(1000 * j, 1000 * site) for j in range(i + 1))), {}
                while 'taken' not in said:
                    said = await client.take(text, after=i)
                    self.assertTrue(said.get('taken') == i + 1 or 'figgroup ended' in said.get('refused', ''), said)

        drawn = asyncio.gather(*(draw(site + 1, client) for site, client in enumerate(clients)))
        while not drawn.done():
            os.kill(self.server.keeper(), signal.SIGKILL)
            await asyncio.wait([drawn], timeout=.2)
        await drawn
        for client in clients:
            while '# figgroup knows 1.8 2.8 3.8 4.8 5.8 6.8 7.8 8.8' not in (client.text or ''):
                await client.hear('drawing')
        self.assertEqual(64, len(self.server.operations()))
        self.assertEqual(64, self.server.figgroup('fig').count('\n2 2 '))

    async def test_what_could_not_be_added(self):
        """It is not kept, and told to nobody: what is drawn next is made without it."""
        client, other = await self.client(), await self.client(2)
        await self.draws(client, 1)
        part = self.server.folder / 'drawing.part-drawing.redo-1'
        part.mkdir()
        self.assertIn('again', await client.take(drawing(box(0), box(900)), after=1))
        part.rmdir()
        await self.draws(client, 2)
        while '# figgroup knows 1.2' not in (other.text or ''):
            self.assertNotIn(' 900 ', (await other.hear('drawing'))['drawing'])
        self.made(2)

    async def test_bound_of_memory(self):
        limits = pathlib.Path(f'/proc/{self.server.keeper()}/limits')  # of a process that may just begin
        wait(lambda: limits.read_text().partition('Max address space')[2].split()[:2] == ['4294967296'] * 2)

    def test_no_answer(self):
        """A program that gives no answer is ended, and one that can't serve is told."""
        code = ('import asyncio, program, sys\n'
                'program.FIGGROUP, program.SECONDS = sys.argv[1], .3\n'
                'try: asyncio.run(program.Keeper([]).drawing())\n'
                'except program.Refusal as refusal: print(refusal)')
        slow = self.server.folder / 'slow'
        slow.write_text('#!/bin/sh\nexec sleep 60\n')
        slow.chmod(0o700)
        for program, words in [(slow, 'gave no answer within 0.3 seconds'), ('true', 'ended without an answer')]:
            said = subprocess.run(['/usr/bin/python3', '-c', code, program], cwd=PAGE, capture_output=True, text=True, timeout=30)
            self.assertEqual(f'figgroup {words}\n', said.stdout, said.stderr)


class Disk(ServeTest):
    async def test_killed_anywhere(self):
        """Killed before each step in turn: what was acknowledged is there, all or nothing of the rest, and the same
        request sent again makes up what is missing, and no more."""
        states = []
        for step in range(1, 40):
            await self.killed_at(step, states)
            if states[-2:] == [(True, True)] * 2:
                break
        self.assertIn((False, False), states)
        self.assertIn((False, True), states)
        self.assertEqual([(True, True)] * 2, states[-2:])

    async def killed_at(self, step, states):
        self.server.kill()
        self.server.script = CRASH
        self.server.start(KILL_AT=str(step))
        before = len(self.server.operations(1))
        client = await self.client()
        text = drawing(*(box(1000 * i + 7 * step) for i in range(3)), knows=f'1.{before}' if before else 'nothing')
        try:
            acknowledged = 'taken' in await client.take(text, after=before)
        except CLOSED:
            acknowledged = False
        self.server.kill()
        self.server.script = PAGE / 'serve.py'
        self.server.start()
        after = len(self.server.operations(1))
        self.assertTrue(after > before or not acknowledged)
        again = await self.client()
        said = await again.take(text, after=before, request=f'{client.page}.1')
        self.assertIn('taken', said)
        whole = len(self.server.operations(1))
        self.assertEqual(whole, said['taken'])
        self.assertIn(after, (before, whole))
        self.assertEqual('', self.server.figgroup('check'))
        self.assertEqual(3, self.server.figgroup('fig').count('\n2 2 '))
        states.append((acknowledged, after > before))

    async def half(self):
        """Two lines of a site, and a redo file for the second."""
        client = await self.client()
        await client.take(drawing(box(0)))
        await client.take(drawing(box(0), box(500)), after=1)
        self.server.kill()
        path, redo = self.server.folder / 'site-1.jsonl', self.server.folder / 'drawing.redo-1'
        first, second = path.read_bytes().splitlines(keepends=True)
        redo.write_bytes(b'%d {}\n' % len(first) + second)
        return path, redo, first, second

    async def test_half_an_append(self):
        """A line that was cut in the middle is finished from the redo file, by the server or by draw."""
        path, redo, first, second = await self.half()
        kept = redo.read_bytes()
        for cut in range(0, len(second) + 1, 40):
            path.write_bytes(first + second[:cut])
            redo.write_bytes(kept)
            self.server.start()
            self.server.kill()
            self.assertEqual(first + second, path.read_bytes())
            self.assertFalse(redo.exists())
        self.server.draw('site', '1').communicate()
        for cut in range(0, len(second) + 1, 80):
            path.write_bytes(first + second[:cut])
            redo.write_bytes(kept)
            said, _ = self.server.draw('move', '10', '0', '1.1').communicate()
            self.assertIn('made 1.3', said)
            self.assertEqual([1, 2, 3], [operation['id'][1] for operation in self.server.operations(1)])
            self.assertFalse(redo.exists())
            (self.server.folder / 'drawing.last').unlink()

    async def test_a_line_without_an_end(self):
        """Without a redo file it waits, as another program may still write it."""
        path, redo, first, second = await self.half()
        redo.unlink()
        path.write_bytes(first + second[:20])
        self.server.start()
        client = await self.client()
        self.assertIn('has no end', (await client.take(drawing(box(0), box(900)), after=1))['refused'])

    async def test_a_redo_file_that_does_not_fit(self):
        """Another program wrote in its place: it is given up, as nobody was told that it was made."""
        path, redo, first, second = await self.half()
        others, third = second.replace(b'500', b'700'), second.replace(b'[1,2]', b'[1,3]')
        for start, new in [(len(first), others + third), (len(first + second) + 9, third)]:
            redo.write_bytes(b'%d {}\n' % start + new)
            self.server.start()
            self.server.kill()
            self.assertFalse(redo.exists())
            self.assertEqual(first + second, path.read_bytes())
        self.server.draw('site', '1').communicate()
        redo.write_bytes(b'%d {}\n' % len(first) + others + third)
        said, _ = self.server.draw('set', '1.1', 'colour', '00ff00').communicate()
        self.assertEqual('figgroup: made 1.3: 1.1 colour\n', said)
        self.assertFalse(redo.exists())

    async def test_draw_beside(self):
        """The words of draw and a page write for one site at once, and no number is given twice."""
        client = await self.client()
        await client.take(drawing(box(0)))
        self.server.draw('site', '1').communicate()

        async def words():
            for i in range(6):
                draw = self.server.draw('copy', str(200 + 200 * i), '0', '1.1')
                said, _ = await asyncio.to_thread(draw.communicate)
                self.assertIn('figgroup: made 1.', said)

        async def page():
            """Takes the newest text with a box more, until six were taken."""
            drawn = 0
            while drawn < 6:
                last = int(client.text.partition('# figgroup knows 1.')[2].split()[0])
                said = await client.take(client.text + box(500 * drawn, 5000), after=last)
                drawn += 'taken' in said
                self.assertTrue('taken' in said or 'behind' in said, said)
                while f"knows 1.{said.get('taken', said.get('behind'))}" not in client.text:
                    await client.hear('drawing')

        while not client.text or 'knows 1.1' not in client.text:
            await client.hear('drawing')
        # In a text of names a box needs a colour that is there.
        self.assertIn('0 32 #ff0000', client.text)
        await asyncio.gather(words(), page())
        numbers = [operation['id'][1] for operation in self.server.operations(1)]
        self.assertEqual(list(range(1, len(numbers) + 1)), numbers)
        self.assertEqual('', self.server.figgroup('check'))
        self.assertEqual(13, self.server.figgroup('fig').count('\n2 2 '))

    async def test_locked(self):
        """A page waits for who has locked the file of its site."""
        client = await self.client()
        with open(self.server.folder / 'site-1.jsonl', 'a') as file:
            fcntl.flock(file, fcntl.LOCK_EX)
            asked = asyncio.create_task(client.take(drawing(box(0))))
            done, _ = await asyncio.wait([asked], timeout=1)
            self.assertFalse(done)
        self.assertEqual(1, (await asked)['taken'])


if __name__ == '__main__':
    unittest.main(verbosity=2)
