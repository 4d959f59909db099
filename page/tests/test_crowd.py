#!/usr/bin/python3
"""Eight designers draw at random through the server, hear of each other late, and resolve what conflicts."""
from __future__ import annotations

import asyncio
import random
import re
import unittest
from collections import Counter
from typing import Callable

from client import Client
from helpers import Server

SITES, GESTURES, MOST_VERSIONS = 8, 100, 36
NAME = re.compile(r'# figgroup (\d+\.\d+)')
KNOWS = re.compile(r'^# figgroup knows (.*)$', re.M)


def box(rng: random.Random) -> str:
    """A new box without a name."""
    x, y, colour = rng.randrange(0, 9000, 100), rng.randrange(0, 6000, 100), rng.randrange(1, 7)
    return (f'2 2 0 0 {colour} {colour} 50 -1 20 0.000 0 0 -1 0 0 5\n'
            f'\t {x} {y} {x + 900} {y} {x + 900} {y + 900} {x} {y + 900} {x} {y}\n')


def changed(figure: str, change: Callable[[list[str], list[str]], None]) -> str:
    """The figure after a change of the words of its two lines."""
    lines = figure.split('\n')
    at = next(i for i, line in enumerate(lines) if not line.startswith('#'))
    first, points = lines[at].split(' '), lines[at + 1].split()
    change(first, points)
    return '\n'.join([*lines[:at], ' '.join(first), '\t ' + ' '.join(points), *lines[at + 2:]])


def edited(text: str, rng: random.Random) -> str:
    """The text after a gesture: a figure is drawn, moved, coloured, deleted or brought to the front, or the versions of
    an object go but for one."""
    head, *figures = re.split(r'(?m)^(?=# figgroup \d)', text)
    if '2 2 ' in head:  # boxes that were drawn since the text came have no name
        at = head.index('2 2 ')
        head, figures = head[:at], [*re.split(r'(?m)^(?=2 2 )', head[at:])[1:], *figures]
    i = rng.randrange(len(figures)) if figures else 0
    objects = Counter(found[1] for figure in figures if (found := NAME.match(figure)))
    several = sorted(name for name, count in objects.items() if count > 1)
    gesture = rng.randrange(20)
    if not figures or gesture < 2 and len(objects) < 10:
        figures.append(box(rng))
    elif several and gesture < 3:
        name = rng.choice(several)
        kept = rng.choice([k for k, figure in enumerate(figures) if figure.startswith(f'# figgroup {name} ')])
        figures = [figure for k, figure in enumerate(figures) if k == kept or not figure.startswith(f'# figgroup {name} ')]
    elif gesture == 5:
        figures.pop(i)
    elif gesture < 8:
        figures.append(changed(figures.pop(i), lambda first, points: first.__setitem__(6, '0')))
    elif gesture < 14:
        x, y = rng.randrange(-300, 301, 50), rng.randrange(-300, 301, 50)
        figures[i] = changed(figures[i], lambda first, points: points.__setitem__(
            slice(None), [str(int(word) + (y if k % 2 else x)) for k, word in enumerate(points)]))
    else:
        colour = str(rng.randrange(1, 7))
        figures[i] = changed(figures[i], lambda first, points: first.__setitem__(slice(4, 6), [colour, colour]))
    return head + ''.join(figures)


class Designer:
    """A page that draws on the text that it knew when it last looked."""

    def __init__(self, client: Client, seed: int) -> None:
        self.client, self.rng = client, random.Random(seed)
        self.text, self.own = '', 0

    async def hear_all(self, made: int) -> None:
        """Waits until the text knows so many operations, and draws on that one."""
        while not self.client.text or sum(map(int, re.findall(r'\.(\d+)', KNOWS.findall(self.client.text)[0]))) < made:
            await self.client.hear('drawing')
        self.text = self.client.text

    async def draw(self, gestures: int) -> None:
        """Makes so many gestures one after the other, and hears of nobody between."""
        for _ in range(gestures):
            self.text = edited(self.text, self.rng)
            try:
                said = await self.client.take(self.text, after=self.own)
            except ConnectionError:
                raise AssertionError(f'the page was closed: {self.client.socket.close_reason}')
            assert 'taken' in said, said
            self.own = said['taken']


class Crowd(unittest.IsolatedAsyncioTestCase):
    async def asyncSetUp(self) -> None:
        asyncio.get_running_loop().set_debug(False)

    async def storm(self, at_once: int) -> None:
        """Rounds in which each designer makes so many gestures before anybody hears of them."""
        server = Server(SITES)
        self.addCleanup(server.end)
        designers = [Designer(await Client().open(server.address[site]), 100 * at_once + site) for site in range(1, SITES + 1)]
        most = 0
        for _ in range(GESTURES // at_once):
            made = sum(designer.own for designer in designers)
            for designer in designers:
                await designer.hear_all(made)
            most = max(most, *Counter(NAME.findall(designers[0].text)).values(), 0)
            self.assertLessEqual(most, MOST_VERSIONS)
            await asyncio.gather(*(designer.draw(at_once) for designer in designers))
        named = server.figgroup('fig', '--named')
        self.assertEqual('', server.figgroup('check'))
        print(f'{SITES} designers, {at_once} at once: {len(server.operations())} operations, {len(NAME.findall(named))} figures, '
              f'at most {most} of one object', flush=True)

    async def test_one_at_once(self) -> None:
        await self.storm(1)

    async def test_two_at_once(self) -> None:
        await self.storm(2)

    async def test_four_at_once(self) -> None:
        await self.storm(4)


if __name__ == '__main__':
    unittest.main(verbosity=2)
