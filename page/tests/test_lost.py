#!/usr/bin/python3
"""What was reported as saved stays, whatever git, another program or a full disk does to a site file."""
import asyncio
import os
import pathlib
import subprocess
import sys
import tempfile
import threading
import time
import unittest
import unittest.mock
from collections.abc import Callable, Iterable
from typing import Any

from client import Client, Heard, box, drawing
from helpers import PAGE, wait
from test_serve import ServeTest

sys.path[:0] = [str(PAGE)]
import sitefile


def boxes(count: int, y: int = 0) -> str:
    return drawing(*(box(500 * i, y) for i in range(count)))


class LostTest(ServeTest):
    def setUp(self) -> None:
        self.server = Heard()
        self.path = self.server.folder / 'site-1.jsonl'

    async def drawn(self, count: int) -> Client:
        client = await self.client()
        for i in range(count):
            self.assertEqual(i + 1, (await client.take(boxes(i + 1), after=i)).get('taken'))
        return client

    def numbers(self) -> list[int]:
        return [operation['id'][1] for operation in self.server.operations(1)]

    async def becomes(self, content: bytes) -> None:
        """Waits until the file of site 1 has this."""
        await asyncio.to_thread(wait, lambda: self.path.exists() and self.path.read_bytes() == content, 10)


class FallsBack(LostTest):
    async def test_to_a_beginning(self) -> None:
        """A file that is cut, emptied, replaced by an older one or gone gets its lines again, and its site draws on."""
        client = await self.drawn(3)
        whole = self.path.read_bytes()
        first = whole[:whole.index(b'\n') + 1]
        old = self.server.folder / 'old'
        for how in (lambda: self.path.write_bytes(first), lambda: self.path.write_bytes(whole[:len(first) + 40]),
                    lambda: self.path.write_bytes(b''), self.path.unlink, lambda: (old.write_bytes(first), old.rename(self.path))):
            how()
            await self.becomes(whole)
        self.path.write_bytes(first)
        self.assertEqual(4, (await client.take(boxes(4), after=3)).get('taken'))  # at once, without a look between
        self.assertEqual([1, 2, 3, 4], self.numbers())
        self.assertEqual('', self.server.figgroup('check'))

    async def test_git(self) -> None:
        """git stash and git checkout beside an open page, as each designer may type them."""
        git = lambda *words: subprocess.run(['git', '-c', 'user.name=A', '-c', 'user.email=a@b', *words], cwd=self.server.folder,
                                            check=True, capture_output=True)
        client = await self.drawn(3)
        git('init', '-q')
        git('add', 'site-1.jsonl')
        git('commit', '-qm', 'three')
        for i in (3, 4):
            await client.take(boxes(i + 1), after=i)
        other = await self.client(2)
        while '# figgroup knows 1.5' not in (other.text or ''):
            await other.hear('drawing')
        await other.take(other.text + box(9000, 9000))  # an operation that knows 1.5
        whole = self.path.read_bytes()
        for words in (['stash'], ['checkout', 'HEAD', '--', 'site-1.jsonl'], ['reset', '--hard']):
            git(*words)
            await self.becomes(whole)
        while '# figgroup knows 1.5 2.1' not in (client.text or ''):
            await client.hear('drawing')
        said = await client.take(client.text + box(0, 20000), after=5)
        self.assertEqual(6, said.get('taken'), said)
        self.assertEqual([1, 2, 3, 4, 5, 6], self.numbers())
        self.assertEqual('', self.server.figgroup('check'))

    async def test_while_it_draws(self) -> None:
        """A file that falls back again and again while its page draws: each operation that was taken is there once."""
        client, count = await self.drawn(2), 2
        first, old, ended = self.path.read_bytes(), self.server.folder / 'old', threading.Event()

        def fall_back() -> None:
            while not ended.is_set():
                old.write_bytes(first)
                old.rename(self.path)
                time.sleep(.02)
                self.path.write_bytes(first)
                time.sleep(.02)

        async def draw() -> dict:
            return await client.take(boxes(count + 1), after=count, request=f'{client.page}.{100 + count}')

        falling = asyncio.create_task(asyncio.to_thread(fall_back))
        try:
            for _ in range(90):  # the server takes 100 messages of a site at once, and ends a page that sends more
                said = await draw()
                if 'again' not in said:
                    count += 1
                    self.assertEqual(count, said.get('taken'), said)
        finally:
            ended.set()
            await falling
        said = await draw()
        count += 1
        self.assertEqual(count, said.get('taken'), said)
        self.assertEqual(list(range(1, count + 1)), self.numbers())
        self.assertEqual(count, self.server.figgroup('fig').count('\n2 2 '))

    async def test_changed_lines(self) -> None:
        """They stop their own site, and the earlier ones are kept, also when the server is begun again."""
        client, other = await self.drawn(2), await self.client(2)
        whole = self.path.read_bytes()
        self.path.write_bytes(whole.replace(b'"place":[500', b'"place":[700'))
        fault = await other.fault('lines changed')
        self.assertIn('cp drawing.kept-1 site-1.jsonl', fault)
        kept = self.server.folder / 'drawing.kept-1'
        self.assertEqual(whole, kept.read_bytes())
        self.assertEqual(fault, (await client.take(boxes(3), after=2))['refused'])
        self.assertEqual(1, (await other.take(boxes(1, 5000)))['taken'])
        self.path.write_bytes(whole)
        await client.right()
        self.assertEqual(3, (await client.take(boxes(3), after=2))['taken'])
        self.path.write_bytes(whole.replace(b'"place":[500', b'"place":[800'))  # more was kept now, in the same file
        await asyncio.to_thread(wait, lambda: kept.read_bytes().count(b'\n') == 3, 10)
        self.server.kill()
        self.server.start()
        self.assertIn('draw: drawing.kept-1 has lines that site-1.jsonl lost', self.server.said())


CALLS = ('open', 'lstat', 'fstat', 'pread', 'write', 'pwrite', 'ftruncate')  # of os, that look at a site file or change it


class Calls:
    """os for a module, with steps of another program, each before the call of this number. Nothing waits for the disk."""

    def __init__(self, steps: Iterable[tuple[int, Callable[[], object]]]) -> None:
        self.left, self.count = list(steps), 0

    def __getattr__(self, name: str) -> Any:
        found = getattr(os, name)

        def call(*words: object, **more: object) -> object:
            while self.left and self.left[0][0] == self.count:
                self.left.pop(0)[1]()
            self.count += 1
            return found(*words, **more)

        return call if name in CALLS else (lambda number: None) if name == 'fsync' else found


class OtherPrograms(LostTest):
    """Other programs at the very moment of an append, which a test can only meet from within."""

    def setUp(self) -> None:
        super().setUp()
        self.server.kill()
        self.file = sitefile.SiteFile(str(self.server.folder), 1)
        self.line = b'{"id":[1,%d]}\n'
        self.path.write_bytes(self.line % 1)
        self.file.read_more()
        self.add = sitefile.add
        self.addCleanup(setattr, sitefile, 'add', self.add)

    def append(self, number: int) -> bool:
        with self.file.lock() as held:
            self.file.mend(held)
            self.file.read_more()
            return self.file.append(held, self.line % number, 'page', number)

    def ask(self, number: int) -> None:
        """Does what the server does with a request, and with one that comes again."""
        try:
            self.file.read_more()
            while not (held := self.file.lock()):
                pass
            with held:
                self.file.mend(held)
                self.file.read_more()
                self.assertIsNone(self.file.fault)
                self.file.check_end(held)
                if not self.file.made_by('page', number):
                    self.file.append(held, self.line % number, 'page', number)
        except OSError:
            self.ask(number)

    def disturb(self, *steps: tuple[int, Callable[[], object]]) -> int:
        """Appends a line, with steps of another program before calls of these numbers, and looks what the file then has.
        Returns how many steps came behind all calls."""
        lines = [self.line % number for number in range(1, 5)]
        self.path.write_bytes(b''.join(lines[:3]))
        self.file = sitefile.SiteFile(str(self.server.folder), 1)
        self.file.read_more()
        calls = Calls(steps)
        with unittest.mock.patch.object(sitefile, 'os', calls):
            self.ask(4)
        for _, step in calls.left:
            step()
        self.file.read_more()
        if self.file.is_cut():
            with self.file.lock() as held:
                self.file.mend(held)
        self.assertEqual(b''.join(lines), self.path.read_bytes(), [moment for moment, _ in steps])
        return len(calls.left)

    def test_is_written_in_place(self) -> None:
        """Its file is emptied, and gets a beginning of its lines, at any two moments of an append."""
        def write() -> None:
            with open(self.path, 'r+b') as file:
                file.write(self.line % 1)

        first = second = 0
        while (left := self.disturb((first, lambda: os.truncate(self.path, 0)), (second, write))) < 2:
            first, second = (first + 1, first + 1) if left else (first, second + 1)

    def test_is_replaced(self) -> None:
        """A beginning of its lines takes the place of its file, at any moment of an append."""
        old = self.server.folder / 'old'

        def replace() -> None:
            old.write_bytes(self.line % 1)
            old.rename(self.path)

        moment = 0
        while not self.disturb((moment, replace)):
            moment += 1

    def test_adds_at_the_same_time(self) -> None:
        """Lines that come before and after are known, and the end of the file is right."""
        for before, after in ((True, False), (False, True), (True, True)):
            def add(held: object, new: bytes) -> int:
                number = sitefile.id_of(new)[1]
                with open(self.path, 'ab') as file:
                    file.write(self.line % (number + 1) if before else b'')
                end = self.add(held, new)
                with open(self.path, 'ab') as file:
                    file.write(self.line % (number + 2) if after else b'')
                return end
            sitefile.add = add
            self.assertFalse(self.append(self.file.last + 1))
            self.assertEqual(self.path.read_bytes(), self.file.lines)
        sitefile.add = self.add
        self.file.read_more()
        self.assertTrue(self.append(self.file.last + 1))
        self.assertEqual(self.path.read_bytes(), self.file.lines)

    def test_replaces_the_file(self) -> None:
        """What went into a file that lost its name is not reported as taken; it is added when it is asked again."""
        for replace in (lambda: (part.write_bytes(self.line % 1), part.rename(self.path)), lambda: self.path.write_bytes(b'')):
            part = self.server.folder / 'part'
            def add(held: object, new: bytes) -> int:
                end = self.add(held, new)
                replace()
                return end
            sitefile.add, last = add, self.file.last
            with self.assertRaises(OSError):
                self.append(last + 1)
            sitefile.add = self.add
            with self.file.lock() as held:
                self.file.mend(held)
            self.file.read_more()
            self.assertEqual((self.line % (last + 1), last + 1), self.file.made_by('page', last + 1))
            self.assertEqual(self.path.read_bytes(), self.file.lines)
            self.assertEqual(b''.join(self.line % (i + 1) for i in range(last + 1)), self.file.lines)


class FullDisk(LostTest):
    def setUp(self) -> None:
        if os.getuid():
            self.skipTest('only root can make a small disk')
        self.disk = tempfile.mkdtemp(prefix='page-')
        subprocess.run(['mount', '-t', 'tmpfs', '-o', 'size=128k', 'tmpfs', self.disk], check=True)
        self.server = Heard(folder=f'{self.disk}/drawing', start=False)
        self.server.folder.mkdir()
        self.path = self.server.folder / 'site-1.jsonl'
        self.server.start()

    def tearDown(self) -> None:
        self.server.kill()
        subprocess.run(['umount', '-l', self.disk], check=True)
        os.rmdir(self.disk)

    async def test_full_disk(self) -> None:
        """No half line stays, the server begins on a full disk, and with room the last change is there once."""
        client, count = await self.drawn(20), 20
        free = os.statvfs(self.disk)
        (pathlib.Path(self.disk) / 'filler').write_bytes(bytes(free.f_bavail * free.f_bsize - 3 * 4096))
        said = {}
        while 'again' not in said:
            count += 1
            said = await client.take(boxes(count), after=count - 1, request=f'{client.page}.{count}')
            self.assertIn(next(iter(said)), ('taken', 'again'), said)
        self.assertIn('No space left on device', said['again'])
        self.assertTrue(self.path.read_bytes().endswith(b'\n'))
        self.assertEqual(list(range(1, count)), self.numbers())
        self.assertEqual('', self.server.figgroup('check'))
        self.server.kill()
        self.server.start()
        self.assertNotIn('Traceback', self.server.said())
        again = await self.client()
        self.assertEqual(list(range(1, count)), self.numbers())
        os.unlink(f'{self.disk}/filler')
        said = {'again': ''}
        while 'again' in said:
            said = await again.take(boxes(count), after=count - 1, request=f'{client.page}.{count}')
        self.assertEqual(count, said.get('taken'), said)
        self.assertEqual(list(range(1, count + 1)), self.numbers())
        self.assertNotIn('Traceback', self.server.said())


if __name__ == '__main__':
    unittest.main(verbosity=2)
