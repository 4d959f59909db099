#!/usr/bin/python3
"""Measures the page: how soon a gesture is on all pages, beside the calls of figgroup that it takes.

    bench/page.py [FIGURES OPERATIONS [GESTURES]]     without words: 10, 100 and 1,000 figures by 1,000, 10,000 and 80,000

Eight clients without a browser draw in one drawing: first one of them, then all eight, each twice a second. A gesture is
answered when its operations are on the disk, and is with all when each client has a text that knows it. The calls are
`take` of one change, `fig --named` and `status`, which run side by side; the least milliseconds of the clock of three.
It needs python3-tornado, and little other work on the machine."""
import asyncio
import json
import pathlib
import statistics
import subprocess
import sys
import time

ROOT = pathlib.Path(__file__).resolve().parent.parent
sys.path.insert(0, str(ROOT / 'page' / 'tests'))
from client import ANSWERS, Client, moved  # noqa: E402
from helpers import FIGGROUP  # noqa: E402
from histories import prepared  # noqa: E402

PAUSE = .5  # seconds between the gestures of a client
FIGURES, OPERATIONS = (10, 100, 1000), (1000, 10000, 79840)  # a site has room for 20 gestures


def knows(text):
    """The last operation of each site that a text knows."""
    names = text.partition('# figgroup knows ')[2].partition('\n')[0].split()
    return dict(map(int, name.split('.')) for name in names if '.' in name)


class Drawing(Client):
    """A client that hears all texts, and draws when it has the newest of its own."""

    async def listen(self):
        self.answers, self.heard, self.last = asyncio.Queue(), [(time.monotonic(), knows(self.text))], 0
        while True:
            said = json.loads(await self.socket.read_message())
            if 'drawing' in said:
                self.text = said['drawing']
                self.heard.append((time.monotonic(), knows(self.text)))
            if set(said) & set(ANSWERS):
                self.answers.put_nowait((time.monotonic(), said))

    async def gesture(self, site, nth):
        while knows(self.text).get(site, 0) < self.last:
            await asyncio.sleep(.005)
        self.number += 1
        began, after = time.monotonic(), knows(self.text).get(site, 0)
        await self.say({'take': moved(self.text, nth), 'after': after, 'request': f'{self.page}.{self.number}'})
        answered, said = await self.answers.get()
        self.last = said['taken']
        return site, self.last, began, answered

    async def draw(self, site, count):
        made = []
        for i in range(count):
            made.append(await self.gesture(site, 17 * i + 29 * site))
            await asyncio.sleep(PAUSE)
        return made


def call(read, *words):
    """The least milliseconds of three calls."""
    times = []
    for _ in range(3):
        began = time.monotonic()
        subprocess.run([FIGGROUP, *words], input=read, capture_output=True, check=True)
        times.append(1000 * (time.monotonic() - began))
    return min(times)


def calls(server):
    """What the calls of one gesture take: the take, and behind it the longer one of the two that follow."""
    read = b''.join(file.read_bytes() for file in sorted(server.folder.glob('site-*.jsonl')))
    text = subprocess.run([FIGGROUP, 'fig', '--named'], input=read, capture_output=True, check=True).stdout.decode()
    take = call(read + moved(text, 0).encode(), 'take', '--site', '1')
    return take + max(call(read, 'fig', '--named'), call(read, 'status'))


def late(made, clients):
    """When each gesture was with all, in milliseconds since it was made."""
    times = []
    for site, number, began, _ in made:
        all_there = [next((at for at, known in client.heard if known.get(site, 0) >= number), None) for client in clients]
        if None not in all_there:
            times.append(1000 * (max(all_there) - began))
    return times


async def measured(server, gestures):
    """With one who draws and with eight: the median until the answer, and until all have it."""
    clients = [await Drawing().open(server.address[site]) for site in range(1, 9)]
    for client in clients:
        while not client.text:
            await client.hear('drawing')
    listeners = [asyncio.create_task(client.listen()) for client in clients]
    await asyncio.sleep(0)
    rows = []
    for drawing in (clients[:1], clients):
        made = sum(await asyncio.gather(*(client.draw(site, gestures) for site, client in enumerate(drawing, 1))), [])
        await asyncio.sleep(2)
        answers = [1000 * (answered - began) for *_, began, answered in made]
        rows += [statistics.median(answers), statistics.median(late(made, clients))]
    for task in listeners:
        task.cancel()
    return rows


def main():
    told = [int(word) for word in sys.argv[1:]]
    cases = [tuple(told[:2])] if told else [(figures, count) for figures in FIGURES for count in OPERATIONS]
    gestures = told[2] if len(told) > 2 else 10
    print('| figures | operations | the calls | one draws: answered | with all | eight draw: answered | with all |')
    print('|---|---|---|---|---|---|---|')
    for figures, count in cases:
        server = prepared(figures, count)
        try:
            beside = calls(server)
            cells = asyncio.run(measured(server, gestures))
        finally:
            server.end()
        print('|', ' | '.join(str(round(cell)) for cell in (figures, count, beside, *cells)), '|', flush=True)


main()
