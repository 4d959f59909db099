#!/usr/bin/env python3
"""Measures what share/figgroup/plain.awk keeps of the FIG drawings below a folder: bench/plain.py [FOLDER [NUMBER]].

Of all drawings it tells how many of their objects come in. Of NUMBER drawings at random, always the same, it tells in
how many pixels the picture by `figgroup repaint` differs from that by fig2dev, beside the pixels that fig2dev paints.
Both have 80 dots an inch, fig2dev's default, which are 15 units a pixel. Where no folder is given it is that of
Debian's xfig-libs. Wants fig2dev and ghostscript."""

import random
import re
import subprocess
import sys
from pathlib import Path

ROOT = Path(__file__).resolve().parent.parent
PLAIN = ROOT / 'share/figgroup/plain.awk'
UNITS = 15  # a pixel
MOST = 4096  # pixels a side that figgroup paints
CLOSE = 48  # how far the parts of one colour may be apart
HEADER = b'#FIG 3.2\nPortrait\nCenter\nInches\nA4\n100.00\nSingle\n-2\n1200 2\n'
SEED = 1


def made_plain(text):
    """The plain text of a drawing, with how many objects came in and how many did not; empty where it is refused."""
    run = subprocess.run(['awk', '-f', PLAIN], input=text, capture_output=True)
    counts = re.search(rb'kept (\d+)(?: as \d+ figures)?, left out (\d+)$', run.stderr.strip())
    return run.stdout, *(map(int, counts.groups()) if counts else (0, 0))


def in_inches(text):
    """The drawing without its own header and paper, which would scale it."""
    lines = text.split(b'\n')
    header = 0
    for number, line in enumerate(lines[1:], 1):
        if header == 8:
            return HEADER + b'\n'.join(lines[number:]).rstrip(b'\n') + b'\n'
        if not line.startswith(b'#'):
            header += 1
    return HEADER


def window_of(text):
    """The window of a drawing by fig2dev, in units and whole pixels: left, top, columns, rows."""
    eps = subprocess.run(['fig2dev', '-L', 'eps'], input=text, capture_output=True).stdout
    size = re.search(rb'^%%BoundingBox: 0 0 (\d+) (\d+)$', eps, re.M)
    corner = re.search(rb'^(\S+) (\S+) tr$', eps, re.M)
    if not size or not corner:
        return None
    width, height = (float(part) / 0.06 for part in size.groups())
    left, bottom = -float(corner[1]) / 0.06, float(corner[2]) / 0.06
    left, top = (int(least // UNITS - 1) * UNITS - UNITS // 2 for least in (left, bottom - height))
    return left, top, int(width / UNITS) + 3, int(height / UNITS) + 3


def picture(ppm, columns, rows):
    """The colours of a raw PPM, by rows; one that is larger gives its left and lower part."""
    fields = re.match(rb'P6\s+(?:#[^\n]*\s+)*(\d+)\s+(\d+)\s+255\s', ppm)
    width, height = int(fields[1]), int(fields[2])
    at = range(fields.end() + 3 * width * (height - rows), len(ppm), 3 * width)
    return [ppm[row + 3 * column:row + 3 * column + 3] for row in at for column in range(columns)]


def by_fig2dev(text, left, top, columns, rows):
    """The picture by fig2dev; a white box beneath all gives it the window."""
    right, bottom = left + columns * UNITS, top + rows * UNITS
    corners = f'{left} {top} {right} {top} {right} {bottom} {left} {bottom} {left} {top}'
    box = f'2 2 0 0 7 7 999 -1 20 0.000 0 0 -1 0 0 5\n {corners}\n'
    run = subprocess.run(['fig2dev', '-L', 'ppm'], input=text + box.encode(), capture_output=True)
    return picture(run.stdout, columns, rows)


def by_figgroup(plain, left, top, columns, rows):
    """The picture by figgroup, of the middle of each pixel."""
    corner = [f'--x={left + UNITS // 2}', f'--y={top + UNITS // 2}']
    size = [f'--step={UNITS}', f'--width={columns}', f'--height={rows}']
    run = subprocess.run([ROOT / 'bin/figgroup', 'repaint', *corner, *size], input=plain, capture_output=True)
    return picture(run.stdout, columns, rows)


def differs(one, other):
    return any(abs(a - b) > CLOSE for a, b in zip(one, other))


def difference(path):
    """The part of the painted pixels in which a drawing made plain differs, or None where no picture can be had."""
    text = path.read_bytes()
    plain = made_plain(text)[0]
    drawing = in_inches(text)
    window = window_of(drawing)
    if not plain or not window or max(window[2:]) > MOST:
        return None
    wanted, came = by_fig2dev(drawing, *window), by_figgroup(plain, *window)
    inked = sum(differs(pixel, b'\xff\xff\xff') for pixel in wanted)
    return sum(map(differs, wanted, came)) / max(inked, 1)


def main():
    folder = Path(sys.argv[1] if len(sys.argv) > 1 else '/usr/share/xfig/Libraries')
    number = int(sys.argv[2]) if len(sys.argv) > 2 else 44
    paths = sorted(folder.rglob('*.fig'))
    kept, left_out = map(sum, zip(*(made_plain(path.read_bytes())[1:] for path in paths)))
    print(f'{len(paths)} drawings: {kept} of {kept + left_out} objects come in')
    near = 0
    for path in random.Random(SEED).sample(paths, number):
        part = difference(path)
        near += part is not None and part <= 0.3
        told = 'no picture' if part is None else f'{100 * part:.0f} %'
        print(f'{told:>10}  {path.relative_to(folder)}')
    print(f'{near} of {number} differ in at most 30 % of the pixels that fig2dev paints')


main()
