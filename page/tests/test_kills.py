#!/usr/bin/python3
"""Two designers draw while the server, or its figgroup, is killed: each take that was answered is on the disk once. KILLS is how
often each of both is killed."""
import asyncio
import contextlib
import os
import random
import signal
import time
import unittest

import tornado.httpclient

from client import Client, Heard, box, drawing
from test_serve import CLOSED, ServeTest

KILLS = int(os.environ.get('KILLS', 4))
GONE = (*CLOSED, OSError, tornado.httpclient.HTTPClientError)


class Kills(ServeTest):
    def setUp(self) -> None:
        self.server = Heard()
        self.address = self.server.address  # which stays
        self.taken, self.ended = {1: 0, 2: 0}, False

    async def draw(self, site: int) -> None:
        """Moves a box, again and again, each time as soon as the move before was taken."""
        while not self.ended:
            with contextlib.suppress(*GONE):
                client = await Client().open(self.address[site])
                while not self.ended:
                    await self.move(client, site)
            await asyncio.sleep(.01)

    async def move(self, client: Client, site: int) -> None:
        last = self.taken[site]
        said = await client.take(drawing(box(5 * last, 1000 * site)), after=last, request=f'kill{site}.{last + 1}')
        if 'taken' in said:
            self.assertEqual(last + 1, said['taken'])
            self.taken[site] += 1
        else:
            self.assertTrue('again' in said or 'figgroup ended' in said.get('refused', ''), said)

    async def wait_for_an_append(self) -> None:
        """Every fourth kill comes while lines are added."""
        end = time.monotonic() + 1
        while time.monotonic() < end and not list(self.server.folder.glob('drawing.redo-*')):
            await asyncio.sleep(0)

    async def killed(self, kill) -> None:
        drawn = [asyncio.create_task(self.draw(site)) for site in self.taken]
        for i in range(KILLS):
            before = sum(self.taken.values())
            while sum(self.taken.values()) == before:
                await asyncio.sleep(.01)
                for task in drawn:
                    if task.done():
                        await task
            await asyncio.sleep(.2 * random.random())
            if i % 4 == 0:
                await self.wait_for_an_append()
            await asyncio.to_thread(kill)
        self.ended = True
        await asyncio.gather(*drawn)
        self.server.kill()
        self.server.start()
        for site, taken in self.taken.items():
            numbers = [operation['id'][1] for operation in self.server.operations(site)]
            self.assertEqual(list(range(1, len(numbers) + 1)), numbers)
            self.assertIn(len(numbers) - taken, (0, 1))  # the last one may have been made and not answered
        self.assertEqual('', self.server.figgroup('check'))
        print(f'{KILLS} kills, {sum(self.taken.values())} takes', end=' ')

    async def test_server(self) -> None:
        def kill() -> None:
            self.server.kill()
            self.server.start()
        await self.killed(kill)

    async def test_figgroup(self) -> None:
        await self.killed(lambda: os.kill(self.server.keeper(), signal.SIGKILL))


if __name__ == '__main__':
    unittest.main(verbosity=2)
