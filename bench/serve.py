#!/usr/bin/python3
"""Measures a gesture by `figgroup serve`, beside the commands: a take of one moved figure with names, and the status then.

    bench/serve.py [FIGURES OPERATIONS]     without words: 10, 100 and 1,000 figures by 1,000, 10,000 and 79,840 operations
    bench/serve.py many                     a take that changes all of 250, 500 and 1,000 figures of 2,000 operations

Each gesture is made by both, one after the other. The milliseconds are those of the clock at the median of 20. The aim is
that 79,840 operations take at most twice as long as 1,000. To begin is to give all lines to a new process. Of takes that
change many figures it is the least of five, each of a new process, and how many times as long 1,000 figures take as 500.
It needs python3-tornado and python3-selenium, which the tests of the page need, and little other work on the machine."""
import json
import pathlib
import re
import statistics
import subprocess
import sys
import time

ROOT = pathlib.Path(__file__).resolve().parent.parent
sys.path.insert(0, str(ROOT / 'page' / 'tests'))
from client import moved  # noqa: E402
from helpers import FIGGROUP  # noqa: E402
from histories import lines_of  # noqa: E402

FIGURES, OPERATIONS = (10, 100, 1000), (1000, 10000, 79840)
GESTURES = 20  # for which a site of eight has room behind 79,840 operations
AIM = 2  # times as long as with the least operations
TAKE = ['take', '--site', '1', '--named']


class Serving:
    """A server that is asked."""

    def __init__(self):
        self.process = subprocess.Popen([FIGGROUP, 'serve'], stdin=subprocess.PIPE, stdout=subprocess.PIPE)

    def ask(self, asked, body=b''):
        self.process.stdin.write(json.dumps({**asked, 'bytes': len(body)} if body else asked).encode() + b'\n' + body)
        self.process.stdin.flush()
        told = json.loads(self.process.stdout.readline())
        wrote = self.process.stdout.read(told['bytes'])
        if 'refused' in told:
            sys.exit(f'{asked}: {wrote.decode()}')
        return wrote

    def gesture(self, text, after):
        wrote = self.ask({'do': 'take', 'site': 1, 'named': True, 'after': after}, text)
        return wrote, self.ask({'do': 'status'})

    def end(self):
        self.process.communicate()


def command(given, *words):
    return subprocess.run([FIGGROUP, *words], input=given, capture_output=True, check=True).stdout


def by_commands(lines, text, after):
    """The same gesture, of all lines."""
    wrote = command(lines + text, *TAKE, '--after', str(after))
    return wrote, command(lines + wrote.partition(b'#FIG')[0], 'status')


def timed(call, *words):
    """What a call answers, and its milliseconds."""
    began = time.monotonic()
    answer = call(*words)
    return answer, 1000 * (time.monotonic() - began)


def measured(figures, count):
    """The milliseconds until all lines are there, and those of a gesture by a server and by the commands."""
    lines, after = b''.join(lines_of(figures, count)), count // 8
    server = Serving()
    _, begun = timed(server.ask, {'do': 'lines'}, lines)
    text, rows = server.ask({'do': 'named'}), []
    for nth in range(GESTURES):
        changed = moved(text.decode(), 17 * nth).encode()
        (answer, by_server), (same, by_command) = timed(server.gesture, changed, after), timed(by_commands, lines, changed, after)
        if answer != same:
            sys.exit('the server and the commands differ')
        rows.append((by_server, by_command))
        made, mark, rest = answer[0].partition(b'#FIG')
        lines, text, after = lines + made, mark + rest, after + made.count(b'\n')
    server.end()
    return begun, *map(statistics.median, zip(*rows))


def parted(text):
    """What stands before the figures of a named text, and the lines of each figure."""
    return re.split(r'(?m)^(?=# figgroup \d+\.\d+ at )', text)


def changed(figure, by=0, depth=None, keeps_name=True):
    """A figure so far to the right, at this depth, with its name or without."""
    lines = []
    for line in figure.split('\n'):
        words = line.split()
        if line.startswith('\t'):
            lines.append('\t ' + ' '.join(str(int(word) + by * (i % 2 == 0)) for i, word in enumerate(words)))
        elif line.startswith('#'):
            lines += [line] * keeps_name
        else:
            for i in (12, 16, 18) if line.startswith('1 ') else ():
                words[i] = str(int(words[i]) + by)
            if depth is not None and words:
                words[6] = str(depth)
            lines.append(' '.join(words))
    return '\n'.join(lines)


# How a drawing is changed: what is taken of its head and its figures.
MANY = {
    'one is moved': lambda figures: [changed(figures[0], 5), *figures[1:]],
    'all are moved': lambda figures: [changed(figure, 5) for figure in figures],
    'all are drawn anew': lambda figures: [changed(figure, 5, keeps_name=False) for figure in figures],
    'all are deleted': lambda figures: [],
    'all are shown again': lambda figures: figures,
    'all are in the reverse order': lambda figures: [changed(f, depth=999 - i) for i, f in enumerate(figures)],
}


def take_of_many(lines, change):
    """The milliseconds of a take that changes a drawing so."""
    server = Serving()
    server.ask({'do': 'lines'}, lines)
    head, *figures = parted(server.ask({'do': 'named'}).decode())
    if change == 'all are shown again':
        server.ask({'do': 'take', 'site': 1, 'named': True}, head.encode())
    text = head + ''.join(MANY[change](figures))
    _, taken = timed(server.ask, {'do': 'take', 'site': 1, 'named': True}, text.encode())
    server.end()
    return taken


def measure_many():
    print('| change | 250 figures | 500 | 1,000 | times that of 500 |')
    print('|---|---|---|---|---|')
    for change in MANY:
        row = [min(take_of_many(b''.join(lines_of(figures, 2000)), change) for _ in range(5)) for figures in (250, 500, 1000)]
        print(f'| {change} | {row[0]:.1f} | {row[1]:.1f} | {row[2]:.1f} | {row[2] / row[1]:.2f} |', flush=True)


def main():
    told = [int(word) for word in sys.argv[1:]]
    print('| figures | operations | a gesture | times that with the least operations | the commands | to begin |')
    print('|---|---|---|---|---|---|')
    for figures in told[:1] or FIGURES:
        least = None
        for count in told[1:] or OPERATIONS:
            begun, by_server, by_commands_of = measured(figures, count)
            least = least or by_server
            times = f'{by_server / least:.2f}' + ' **missed**' * (by_server > AIM * least)
            print(f'| {figures} | {count} | {by_server:.1f} | {times} | {by_commands_of:.1f} | {begun:.1f} |', flush=True)


measure_many() if sys.argv[1:] == ['many'] else main()
