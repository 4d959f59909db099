"""Writes the inputs of bench/run.sh to the folder that the word names: FIG texts over a picture of 4,096 by 4,096."""

import math
import random
import sys

HEADER = "#FIG 3.2\nLandscape\nCenter\nMetric\nA4\n100.00\nSingle\n-2\n1200 2\n"
SIDE = 4_096
COLOURS = 500
POINTS = 64


def box(rng, size):
    """The corners of a box of this side."""
    x, y = rng.randrange(-size // 2, SIDE - size // 2), rng.randrange(-size // 2, SIDE - size // 2)
    return [(x, y), (x + size, y), (x + size, y + size), (x, y + size)]


def ring(rng, size, spread, least=1.0):
    """The corners of a polygon round a centre, each this wide or less, down to a part of it."""
    x = SIDE // 2 + rng.randrange(-spread, spread)
    y = SIDE // 2 + rng.randrange(-spread, spread)
    points = []
    for k in range(POINTS):
        radius = size / 2 * rng.uniform(least, 1.0)
        angle = 2 * math.pi * k / POINTS
        points.append((int(x + radius * math.cos(angle)), int(y + radius * math.sin(angle))))
    return points


def comb(rng, teeth, width):
    """The corners of a comb as high as the picture, whose teeth are this wide at its upper end."""
    points = []
    for x in sorted(rng.sample(range(SIDE), teeth)):
        points += [(x, 0), (x + width // 2, SIDE), (x + width, 0)]
    return points


def saw(rng):
    """The corners of a saw, each edge of which goes through all rows of the picture."""
    return [(rng.randrange(SIDE), 9_999 * (k % 2)) for k in range(65_534)]


def chain(kind, colour, depth, points):
    """The lines of a closed chain: 2 for a box, 3 for a polygon."""
    points = points + points[:1]
    head = f"2 {kind} 0 0 {colour} {colour} {depth} -1 20 0.000 0 0 -1 0 0 {len(points)}\n\t "
    return head + " ".join(f"{x} {y}" for x, y in points) + "\n"


def disc(rng, colour, depth, radius):
    """The line of a disc."""
    x, y = rng.randrange(SIDE), rng.randrange(SIDE)
    return f"1 3 0 0 {colour} {colour} {depth} -1 20 0.000 1 0.0000 {x} {y} {radius} {radius} {x} {y} {x + radius} {y}\n"


def oval(rng, colour, depth, rx, ry):
    """The line of an ellipse of these radii."""
    x, y = rng.randrange(SIDE), rng.randrange(SIDE)
    end = f"{x + rx} {y + ry}"
    return f"1 1 0 0 {colour} {colour} {depth} -1 20 0.000 1 0.0000 {x} {y} {rx} {ry} {x} {y} {end}\n"


def drawing(count, figure):
    """A text of so many figures, the first ones at the back, in the colours of a table."""
    rng = random.Random(5)
    lines = [f"0 {32 + n} #{40503 * (n + 1) % 2**24:06x}\n" for n in range(COLOURS)]
    for number in range(count):
        lines.append(figure(rng, 32 + number % COLOURS, 999 - number * 999 // count))
    return HEADER + "".join(lines)


def write(name, text):
    with open(f"{sys.argv[1]}/{name}.fig", "w") as file:
        file.write(text)


write("boxes", drawing(1_000, lambda rng, colour, depth: chain(2, colour, depth, box(rng, 475))))
write("circles", drawing(1_000, lambda rng, colour, depth: disc(rng, colour, depth, 237)))
write("ellipses", drawing(1_000, lambda rng, colour, depth: oval(rng, colour, depth, 237, 158)))
write("polygons", drawing(1_000, lambda rng, colour, depth: chain(3, colour, depth, ring(rng, 475, SIDE // 2))))
write("large", drawing(1_000, lambda rng, colour, depth: chain(3, colour, depth, ring(rng, SIDE, 50))))
write("stars", drawing(1_000, lambda rng, colour, depth: chain(3, colour, depth, ring(rng, SIDE, 50, 0.3))))
write("combs", drawing(16, lambda rng, colour, depth: chain(3, colour, depth, comb(rng, 21, 8))))
write("hair", drawing(200, lambda rng, colour, depth: chain(3, colour, depth, comb(rng, 1_024, 1))))
write("many", drawing(20_000, lambda rng, colour, depth: chain(3, colour, depth, ring(rng, 100, SIDE // 2))))
write("saws", drawing(22, lambda rng, colour, depth: chain(3, colour, depth, saw(rng))))
