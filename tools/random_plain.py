#!/usr/bin/env python3
"""Makes random FIG drawings plain by mawk and by gawk: both make and tell the same, and what they make imports.

Words: the first seed, and how many drawings. Objects have odd counts, repeated points and, in every second drawing,
numbers that are none or far too large."""

import random
import shutil
import subprocess
import sys
from pathlib import Path

PLAIN = Path(__file__).resolve().parent.parent / 'share/figgroup/plain.awk'
HEADER = '#FIG 3.2\nLandscape\nCenter\nMetric\nA4\n100.00\nSingle\n-2\n1200 2\n0 32 #123456\n'
ODD = ['nan', 'inf', '1e400', '0x1p3', '-', '1e9', '1e-300', '99999999999999999999', '.5', '+3', '007', '1.']
AWKS = [awk for awk in ('mawk', 'gawk') if shutil.which(awk)]


class Drawing:
    """The text of a random drawing."""

    def __init__(self, seed):
        self.random = random.Random(seed)
        self.is_odd = seed % 2 == 0
        self.text = HEADER + ''.join(self.any_object() for _ in range(self.random.randrange(1, 25)))

    def number(self):
        if self.is_odd and self.random.random() < 0.02:
            return self.random.choice(ODD)
        reach = self.random.choice([1, 300, 300, 3000, 3000, 3000, 1200000])
        return str(self.random.randint(-reach, reach))

    def numbers(self, count):
        return ' '.join(self.number() for _ in range(count))

    def style(self):
        """The fields from the line style to the style value."""
        choice = self.random.choice
        pen, fill = choice([-1, 0, 4, 7, 12, 31, 32, 600]), choice([-1, 0, 1, 7, 31, 32])
        return f'{choice([0, 0, 1])} {choice([0, 1, 1, 2, 7, 50])} {pen} {fill} {choice([0, 50, 50, 999])} -1 ' \
            f'{choice([-1, -1, 20, 20, 0, 10, 30, 41])} 4.000'

    def arrows(self):
        """The switches of the arrows, and their fields."""
        forward, backward = self.random.choice([(0, 0), (0, 0), (1, 0), (0, 1), (1, 1)])
        field = ''.join(f' {self.random.randrange(5)} {self.random.randrange(2)} 1.00 {self.numbers(2)}'
                        for _ in range(forward + backward))
        return f'{forward} {backward}', field

    def polyline(self):
        count = self.random.choice([1, 2, 3, 4, 5, 5, 31, 32, 33, 70, 200])
        points = [self.numbers(2) for _ in range(count)]
        if self.random.random() < 0.5:
            points[-1] = points[0]
        if count > 3 and self.random.random() < 0.3:
            points[2] = points[1]
        switches, arrows = self.arrows()
        ends = f'{self.random.randrange(3)} {self.random.randrange(3)} {self.random.choice([-1, 7, 100])}'
        fields = f'{self.random.randrange(1, 5)} {self.style()} {ends} {switches}'
        return f'2 {fields} {count}{arrows}\n {" ".join(points)}\n'

    def spline(self):
        count = self.random.choice([1, 2, 3, 4, 9, 60])
        switches, arrows = self.arrows()
        factors = ' '.join(self.random.choice(['0', '1', '-1', '0.5', '-9']) for _ in range(count))
        cap = self.random.randrange(3)
        return f'3 {self.random.randrange(6)} {self.style()} {cap} {switches} {count}{arrows}\n ' \
            f'{self.numbers(2 * count)}\n {factors}\n'

    def arc(self):
        switches, arrows = self.arrows()
        ends = f'{self.random.randrange(3)} {self.random.randrange(2)}'
        return f'5 {self.random.randrange(1, 3)} {self.style()} {ends} {switches} {self.numbers(8)}{arrows}\n'

    def ellipse(self):
        turn = self.random.choice(['0.0000', '1.5708', '0.7'])
        radii = f'{self.random.randrange(400)} {self.random.randrange(400)}'
        return f'1 {self.random.randrange(1, 5)} {self.style()} 1 {turn} {self.numbers(2)} {radii} {self.numbers(4)}\n'

    def any_object(self):
        others = ['6 0 0 9 9\n', '-6\n', '# figgroup 1.1 at 50\n', '4 0 0 50 -1 0 12 0 4 1 1 5 5 text\\001\n']
        kinds = [self.polyline, self.polyline, self.polyline, self.spline, self.arc, self.ellipse]
        return self.random.choice([*kinds, lambda: self.random.choice(others)])()


def answers_of(text):
    """What each awk answers: its status, what it makes and what it tells."""
    runs = [subprocess.run([awk, '-f', PLAIN], input=text, capture_output=True, text=True, timeout=60) for awk in AWKS]
    return [(run.returncode, run.stdout, run.stderr) for run in runs]


def fault_of(text):
    """What is wrong with the answers to a drawing, or None."""
    answers = answers_of(text)
    status, plain, told = answers[0]
    if any(answer != answers[0] for answer in answers):
        return 'the awks differ'
    if not all(line.startswith('plain: ') for line in told.splitlines()):
        return told
    if status:
        return plain and 'a refused drawing was written'
    run = subprocess.run(['figgroup', 'import', '--site', '1'], input=plain, capture_output=True, text=True)
    return run.stderr if run.returncode else None


def main():
    first, count = map(int, sys.argv[1:])
    for seed in range(first, first + count):
        fault = fault_of(Drawing(seed).text)
        if fault:
            sys.exit(f'random_plain.py {seed} 1: {fault}')


main()
