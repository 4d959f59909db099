"""Writes the inputs of bench/run.sh to the folder that the word names."""

import random
import sys

MOST_BYTES = 16_777_216
FEW_BYTES = MOST_BYTES // 16
HEADER = "#FIG 3.2\nLandscape\nCenter\nMetric\nA4\n100.00\nSingle\n-2\n1200 2\n"
POINTS = 64


def polygons(count):
    """So many polygons in the colours of a table, the first point of each counted again."""
    rng = random.Random(1)
    lines = [f"0 {32 + n} #{40503 * (n + 1) % 2**24:06x}\n" for n in range(32)]
    for number in range(count):
        colour = 32 + number % 32
        points = [(rng.randrange(12_000), rng.randrange(12_000)) for _ in range(POINTS)]
        points.append(points[0])
        lines.append(f"2 3 0 0 {colour} {colour} {number % 1_000} -1 20 0.000 0 0 -1 0 0 {len(points)}\n\t ")
        lines.append(" ".join(f"{x} {y}" for x, y in points) + "\n")
    return HEADER + "".join(lines)


def filled(front, piece, size):
    """A text of this size: the front and as much of the repeated piece as it takes."""
    behind = size - len(front)
    return front + (piece * (behind // len(piece) + 1))[:behind]


def write(name, text):
    assert len(text) <= MOST_BYTES
    with open(f"{sys.argv[1]}/{name}.fig", "w") as file:
        file.write(text)


write("thousand", polygons(1_000))
write("ten_thousand", polygons(10_000))
write("empty", HEADER)
write("cut", HEADER + "2 3 0 0 0 0 50 -1 20 0.000 0 0 -1 0 0 65536\n")
for name, front, piece in (
    ("token", HEADER, "1"),
    ("decimal", HEADER + "2 3 0 0 0 0 50 -1 20 ", "1"),
    ("blanks", HEADER, " "),
    ("lines", HEADER, "\n"),
    ("comments", HEADER, "# nothing\n"),
    ("unheaded", "#FIG 3.2\n", "# nothing\n"),
):
    write(f"{name}-few", filled(front, piece, FEW_BYTES))
    write(f"{name}-most", filled(front, piece, MOST_BYTES))
