#!/usr/bin/python3
"""Counts what order costs: how many layers a gesture sets of figures that it does not touch, if all lie on each other.

    bench/layers.py [GESTURES]      without a number: 3,000 gestures of each kind
    bench/layers.py --check         some gestures where no layer is left at the top; the status is 1 if one kind costs more

Each gesture is a take by `figgroup serve`, of one designer or of two at the same time. A designer has 10,000 operations,
so a kind ends early when these are used up. The goal is one such operation a gesture. No time is measured. FIGGROUP names
the program, else it is the one in bin/."""
from __future__ import annotations

import json
import os
import random
import re
import subprocess
import sys
from pathlib import Path
from typing import Callable

FIGGROUP = os.environ.get('FIGGROUP', str(Path(__file__).resolve().parent.parent / 'bin' / 'figgroup'))
NAME = re.compile(rb'# figgroup \d+\.\d+ at \d+')
GOAL = 1.0


class Refused(Exception):
    """The program refused a request; the words say why."""


class Server:
    """A `figgroup serve` that is asked."""

    def __init__(self) -> None:
        self.process = subprocess.Popen([FIGGROUP, 'serve'], stdin=subprocess.PIPE, stdout=subprocess.PIPE)

    def ask(self, asked: dict[str, object], body: bytes = b'') -> bytes:
        assert self.process.stdin and self.process.stdout
        self.process.stdin.write(json.dumps({**asked, 'bytes': len(body)}).encode() + b'\n' + body)
        self.process.stdin.flush()
        told = json.loads(self.process.stdout.readline())
        wrote = self.process.stdout.read(told['bytes'])
        if 'refused' in told:
            raise Refused(wrote.decode())
        return wrote

    def take(self, site: int, text: bytes, gesture: Gesture, number: int, rng: random.Random) -> int:
        """Makes a gesture on a named text, and answers how many layers it set beyond those of the figures that it put
        elsewhere."""
        head, *figures = re.split(rb'(?m)^(?=# figgroup \d)', text)
        figures, own = gesture(figures, number, site, rng)
        made = self.ask({'do': 'take', 'site': site}, head + b''.join(figures)).splitlines()
        return max(0, sum(b'"set":"layer"' in line for line in made) - own)

    def shown(self) -> int:
        """How many figures are shown; 1,001 if there are more than 1,000."""
        try:
            return len(NAME.findall(self.ask({'do': 'named'})))
        except Refused:
            return 1001

    def end(self) -> None:
        self.process.communicate()


def new_figure(number: int) -> bytes:
    """A box over the whole drawing, in front of all."""
    colour = number % 7
    points = f'{number} 0 9999 0 9999 9 {number} 9 {number} 0'
    return f'2 2 0 0 {colour} {colour} 0 -1 20 0.000 0 0 -1 0 0 5\n\t {points}\n'.encode()


def created(n: int, layer: int) -> bytes:
    """The operation line by which site 1 creates the n-th box over the whole drawing."""
    return json.dumps({'op': 'create', 'id': [1, n + 1], 'past': [n, 0, 0, 0, 0, 0, 0, 0], 'kind': 'box', 'place': [n, 0],
                       'size': [9999 - n, 9], 'colour': f'{n % 7:02x}8080', 'layer': layer, 'shown': True}).encode() + b'\n'


def at_depth(figure: bytes, depth: int) -> bytes:
    """The figure at another depth than the one with which it was written."""
    lines = figure.split(b'\n')
    at = next(i for i, line in enumerate(lines) if not line.startswith(b'#'))
    words = lines[at].split(b' ')
    words[6] = str(depth).encode()
    return b'\n'.join([*lines[:at], b' '.join(words), *lines[at + 1:]])


# What a gesture makes of a text, as the n-th designer of those who make one at the same time, and how many figures it puts
# elsewhere itself.
Gesture = Callable[[list[bytes], int, int, random.Random], tuple[list[bytes], int]]


def draws_and_deletes(figures: list[bytes], number: int, n: int, rng: random.Random) -> tuple[list[bytes], int]:
    figures.pop(-n)
    return figures + [new_figure(number)], 0


def brings_to_front(figures: list[bytes], number: int, n: int, rng: random.Random) -> tuple[list[bytes], int]:
    chosen = figures.pop(-n)
    return figures + [at_depth(chosen, 0)], 1


def sends_to_back(figures: list[bytes], number: int, n: int, rng: random.Random) -> tuple[list[bytes], int]:
    chosen = figures.pop(n - 1)
    return figures + [at_depth(chosen, 999)], 1


def mixes(figures: list[bytes], number: int, n: int, rng: random.Random) -> tuple[list[bytes], int]:
    chosen = figures.pop(rng.randrange(len(figures)))
    if rng.random() < 0.5:
        return figures + [new_figure(number)], 0
    return figures + [at_depth(chosen, 0)], 1


def measure(title: str, figures: int, layer: Callable[[int], int], gesture: Gesture, sites: int, gestures: int) -> bool:
    """Prints what gestures cost, of so many figures that have layers by their place from the back. Reports whether the
    goal is met, and versions stay few: designers who touch one figure at the same time leave two of it."""
    server, rng = Server(), random.Random(1)
    server.ask({'do': 'lines'}, b''.join(created(n, layer(n)) for n in range(figures)))
    layers = most = done = 0
    ended = ''
    try:
        for number in range(figures, figures + gestures):
            text = server.ask({'do': 'named'})
            for site in range(1, sites + 1):
                pushed = server.take(site, text, gesture, sites * number + site, rng)
                layers, most = layers + pushed, max(most, pushed)
            done += 1
    except Refused as refused:
        ended = f', then {refused}'
    shown = server.shown()
    server.end()
    average = layers / max(1, done * sites)
    is_met = average <= GOAL and not ended
    print(f'| {title} | {figures} | {sites} | {done}{ended} | {average:.2f}{"" if is_met else " **missed**"} | {most} | {shown} |',
          flush=True)
    return is_met and shown <= figures + figures // 2


KINDS: list[tuple[str, Gesture]] = [
    ('draws one in front, deletes the lowest', draws_and_deletes),
    ('brings the lowest to the front', brings_to_front),
    ('sends the topmost to the back', sends_to_back),
    ('draws one and deletes any, or brings any to the front', mixes),
]


def as_drawn(n: int) -> int:
    """The layer of the n-th figure of those that were drawn in front of each other."""
    return 1000 + 10 * n


def main() -> None:
    print('| a gesture | figures | designers | gestures | other layers set, a gesture (goal 1) | most | shown at the end |')
    print('|---|---|---|---|---|---|---|')
    if '--check' in sys.argv:
        met = [measure(title, 40, lambda n: 9960 + n, gesture, sites, 60) for sites in (1, 2) for title, gesture in KINDS]
        print(f'{met.count(True)} passed, {met.count(False)} failed')
        sys.exit(0 if all(met) else 1)
    gestures = int(sys.argv[1]) if len(sys.argv) > 1 else 3000
    for sites in (1, 2):
        for figures in (40, 200):
            for title, gesture in KINDS:
                measure(title, figures, as_drawn, gesture, sites, gestures)
    measure(KINDS[0][0], 800, as_drawn, draws_and_deletes, 1, gestures)


main()
