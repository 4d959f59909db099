#!/usr/bin/python3
"""Files that are wrong: each gets a line that names it, stops its own site, and the others draw on."""
import asyncio
import json
import os
import unittest

from client import Client, Heard, box, drawing
from test_serve import ServeTest

LAST = 2 ** 31


def operation(site: int, number: int, past: list[int], **more: object) -> str:
    made = {'id': [site, number], 'past': past + [0] * (8 - len(past)), 'op': 'create', 'kind': 'box', 'place': [0, 0],
            'size': [3, 4], 'colour': 'ff0000', 'layer': 0, 'shown': True}
    return json.dumps({**made, **more}) + '\n'


GOOD = operation(3, 1, [])
MOVED = {'id': [3, 2], 'past': [0, 0, 1, 0, 0, 0, 0, 0], 'op': 'set', 'object': [3, 1], 'set': 'points', 'to': [[0, 0]] * 3}
# What site-3.jsonl has after a good line, and what is reported of it.
LINES = [
    ('{}\n', 'line 2: Field'),
    ('{"id":[3,%s]}\n' % ('1' * 5000), 'line 2: Json'),
    ('[' * 50_000 + '\n', 'line 2: Json'),
    ('[' * 100_000 + '\n', 'line 2: it is longer than 65536 bytes'),
    ('{"id":[3,1e999]}\n', 'line 2: Json'),
    (operation(3, 1, [], colour='00ff00'), 'line 2: Clash'),
    (operation(1, 1, []), 'line 2: an operation of site 1, which belongs in site-1.jsonl'),
    (operation(1, 1, []).replace('"id"', '"\\u0069d"'), 'line 2: an operation of site 1'),
    (operation(3, 2, [0, 0, 5]), 'line 2: operation 3.2 dropped: BadClock'),
    (json.dumps(MOVED) + '\n' + operation(3, 3, [0, 0, 2]), 'line 2: operation 3.2 dropped: WrongKind'),
    ('#FIG 3.2\n', 'line 2: a drawing is among the operations'),
    ('\0\n', 'line 2: Json'),
]


class Faults(ServeTest):
    def setUp(self) -> None:
        self.server = Heard()
        self.path = self.server.folder / 'site-3.jsonl'

    async def draws(self, client: Client, count: int) -> None:
        said = await client.take(drawing(*(box(500 * i) for i in range(count))), after=count - 1)
        self.assertEqual(count, said.get('taken'), said)

    def put(self, text: str) -> None:
        """The file has this from one moment to the next, as git and draw put it there."""
        new = self.server.folder / 'new'
        new.write_text(text)
        new.rename(self.path)

    async def test_lines(self) -> None:
        """A wrong line is left out with all that follow; the good ones before it are drawn, and others draw on."""
        client = await self.client()
        for count, (lines, fault) in enumerate(LINES, 1):
            self.put(GOOD + lines)
            said = await client.fault(fault)
            self.assertTrue(said.startswith('site-3.jsonl line ') and '\n' not in said, said)
            await self.draws(client, count)
            while f'# figgroup knows 1.{count} 3.1' not in client.text:
                await client.hear('drawing')
            self.put(GOOD)
            await client.right()
        self.put(GOOD + LINES[-1][0])
        self.server.kill()
        self.server.start()
        self.assertEqual('draw: site-3.jsonl line 2: Json\n', self.server.said())

    async def test_own_line(self) -> None:
        """A designer whose own file has a wrong line can't draw, and reads why; then it is mended."""
        client = await self.client()
        await self.draws(client, 1)
        own = self.server.folder / 'site-1.jsonl'
        whole = own.read_text()
        own.write_text(whole + operation(1, 2, [5]))
        said = await client.take(drawing(box(0), box(500)), after=1)  # at once, before the file was looked at
        self.assertEqual('site-1.jsonl line 2: operation 1.2 dropped: BadClock', said.get('refused'), said)
        own.write_text(whole)
        await client.right()
        await self.draws(client, 2)

    async def test_no_plain_file(self) -> None:
        """A link, an endless file, a pipe, a folder, 2 GB: none is read, neither at the start nor later."""
        client = await self.client()
        makers = [(lambda: self.path.symlink_to('/dev/zero'), 'it is a link'), (lambda: os.mkfifo(self.path), 'it is no plain file'),
                  (lambda: self.path.symlink_to(self.server.folder / 'drawing.secrets'), 'it is a link'),
                  (self.path.mkdir, 'it is no plain file'), (self.large, 'it has more than 16777216 bytes')]
        for count, (make, fault) in enumerate(makers, 1):
            make()
            self.assertEqual(f'site-3.jsonl: {fault}', (await client.fault(fault)).partition(',')[0])
            await self.draws(client, count)
            if count % 2:
                self.server.kill()
                self.server.start()
                self.assertIn(fault, self.server.said())
                client = await self.client()
                await client.fault(fault)
            self.path.rmdir() if self.path.is_dir() and not self.path.is_symlink() else self.path.unlink()
            await client.right()
        peak = next(line for line in open(f'/proc/{self.server.process.pid}/status') if line.startswith('VmHWM'))
        self.assertLess(int(peak.split()[1]), 150_000, peak)

    def large(self) -> None:
        with open(self.path, 'wb') as file:
            file.truncate(LAST)

    async def test_all_together_too_long(self) -> None:
        """Files that are each short enough: the one that came last is left out."""
        client = await self.client()
        self.put(GOOD + ' ' * 9_000_000 + '\n')
        await client.fault('site-3.jsonl line 2: it is longer')
        self.put(GOOD + (' ' * 60_000 + '\n') * 150)
        await client.right()
        self.path = self.server.folder / 'site-4.jsonl'
        self.put((' ' * 60_000 + '\n') * 150)
        await client.fault('site-4.jsonl line 1: with it all files have more than 16777216 bytes')
        await self.draws(client, 1)

    async def test_two_sites(self) -> None:
        """An operation whose fault shows when one of another site comes, and a second site at fault."""
        client = await self.client()
        moved = {**MOVED, 'id': [3, 1], 'past': [1] + [0] * 7, 'object': [1, 1]}
        self.put(json.dumps(moved) + '\n')
        while 'operation 3.1 waits for 1.1' not in (await client.hear('drawing'))['status']:
            pass
        (self.server.folder / 'site-4.jsonl').write_text('{}\n')
        self.assertIn('site-4.jsonl line 1: Field', await client.fault('site-4'))
        (self.server.folder / 'site-1.jsonl').write_text(operation(1, 1, []))
        fault = await client.fault('site-3')
        self.assertEqual({'site-3.jsonl line 1: operation 3.1 dropped: WrongKind', 'site-4.jsonl line 1: Field'},
                         set(fault.split('; ')))
        self.assertIn('taken', await client.take(drawing(box(0), box(500)), after=1))

    async def test_what_waits(self) -> None:
        """Operations that wait are no fault, but whom they keep from drawing reads what is missing."""
        client, other = await self.client(), await self.client(2)
        self.put(operation(3, 1, [0, 0, 0, 1]))
        while 'operation 3.1 waits for 4.1' not in (said := await client.hear('drawing'))['status']:
            pass
        self.assertNotIn('fault', said)
        await self.draws(client, 1)
        (self.server.folder / 'site-2.jsonl').write_text(operation(2, 1, [4]))
        self.assertEqual("Ann can't draw: operation 2.1 counts 1.2, which is not in site-1.jsonl. Fetch that file, or take 2.1 "
                         "out of site-2.jsonl; Ben can't draw: operation 2.1 waits for 1.2, which is not in site-1.jsonl. "
                         'Fetch that file', await other.fault("can't draw"))

    def test_damaged_files_of_the_server(self) -> None:
        for name, content, told in [('drawing.taken-1', '', 'drawing.taken-1 is damaged'), ('drawing.redo-1', '', ''),
                                    ('drawing.taken-1', '0 [[[[\n', 'drawing.taken-1 is damaged'),
                                    ('drawing.taken-1', '0 {"p":[1]}\n', 'drawing.taken-1 is damaged'),
                                    ('drawing.taken-1', '0 {"p":[%s,1,1]}\n' % ('9' * 5000), 'drawing.taken-1 is damaged'),
                                    ('drawing.redo-1', '0 ' + '[' * 100_000, ''), ('drawing.redo-1', '9' * 5000 + ' {}\n', ''),
                                    ('drawing.redo-1', '0 {"p":3}\n{}\n', '')]:
            self.server.kill()
            (self.server.folder / name).write_text(content)
            self.server.start()
            self.assertTrue(self.server.address[1].startswith('http'), (name, content[:20], self.server.said()))
            self.assertLessEqual(self.server.said().count('\n'), 1)
            self.assertIn(told, self.server.said())
        for content in ('', '[[[[', '{"1":"x"}', '{"1":[%s]}' % ('9' * 5000), '[' * 50_000):
            self.server.kill()
            (self.server.folder / 'drawing.secrets').write_text(content)
            self.server.start()
            self.server.process.wait(20)
            self.assertEqual('draw: drawing.secrets is damaged: draw page 1=Ann --new-addresses makes another, with new addresses\n',
                             self.server.said())


if __name__ == '__main__':
    unittest.main(verbosity=2)
