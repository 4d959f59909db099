#!/usr/bin/env python3
"""Makes anew what is expected of an example whose lines create objects that nobody changes: expected.fig, expected.ppm in
the window of the file window, and each picture of the file pictures. It shares nothing with the program.

Word: the example's folder."""
import argparse
import glob
import json
import struct
import sys
import zlib

HEADER = "#FIG 3.2\nLandscape\nCenter\nMetric\nA4\n100.00\nSingle\n-2\n1200 2\n"


def chain(sub_type, points):
    """What stands before and behind the colour and depth of a closed chain."""
    points = points + points[:1]
    numbers = " ".join(f"{x} {y}" for x, y in points)
    return f"2 {sub_type}", f"0 0 -1 0 0 {len(points)}\n\t {numbers}"


def between(a, b, p):
    """Whether p lies on the edge from a to b."""
    turn = (b[0] - a[0]) * (p[1] - a[1]) - (b[1] - a[1]) * (p[0] - a[0])
    return turn == 0 and all(min(m, n) <= k <= max(m, n) for m, n, k in zip(a, b, p))


def right_of(a, b, p):
    """Whether the ray from p to the right crosses the edge from a to b."""
    if (a[1] <= p[1]) == (b[1] <= p[1]):
        return False
    low, high = sorted((a, b), key=lambda end: end[1])
    return (p[0] - low[0]) * (high[1] - low[1]) < (high[0] - low[0]) * (p[1] - low[1])


class Figure:
    """An object's outline at its place: its line in FIG, its least bounds and which points it holds."""

    def __init__(self, line):
        self.key = (line["layer"], line["id"])
        self.colour = line["colour"].lower()
        getattr(self, line["kind"])(line["place"], line.get("points") or line["size"])

    def box(self, place, size):
        (x, y), (w, h) = place, size
        self.text = chain(2, [(x, y), (x + w, y), (x + w, y + h), (x, y + h)])
        self.bounds = x, y, x + w, y + h
        self.holds = lambda px, py: x <= px <= x + w and y <= py <= y + h

    def polygon(self, place, points):
        points = [(place[0] + x, place[1] + y) for x, y in points]
        edges = list(zip(points, points[1:] + points[:1]))
        xs, ys = zip(*points)
        self.text = chain(3, points)
        self.bounds = min(xs), min(ys), max(xs), max(ys)
        self.holds = lambda px, py: (any(between(a, b, (px, py)) for a, b in edges)
                                     or sum(right_of(a, b, (px, py)) for a, b in edges) % 2 == 1)

    def circle(self, place, size):
        (x, y), r = place, size[0]
        self.text = "1 3", f"1 0.0000 {x} {y} {r} {r} {x} {y} {x + r} {y}"
        self.bounds = x - r, y - r, x + r, y + r
        self.holds = lambda px, py: (px - x) ** 2 + (py - y) ** 2 <= r ** 2

    def ellipse(self, place, size):
        (x, y), (rx, ry) = place, size
        self.text = "1 1", f"1 0.0000 {x} {y} {rx} {ry} {x} {y} {x + rx} {y + ry}"
        self.bounds = x - rx, y - ry, x + rx, y + ry
        self.holds = lambda px, py: ((px - x) * ry) ** 2 + ((py - y) * rx) ** 2 <= (rx * ry) ** 2


def shown(folder):
    """The figures that are shown, the topmost one first."""
    lines = [json.loads(line) for name in glob.glob(f"{folder}/*.jsonl") for line in open(name)]
    if any(line["op"] != "create" for line in lines):
        sys.exit(f"{folder}: an object is changed")
    figures = [Figure(line) for line in lines if line["shown"]]
    return sorted(figures, key=lambda figure: figure.key, reverse=True)


def fig(figures):
    colours = list(dict.fromkeys(figure.colour for figure in figures))
    text = HEADER + "".join(f"0 {32 + n} #{colour}\n" for n, colour in enumerate(colours))
    for depth, figure in enumerate(figures):
        kind, rest = figure.text
        number = 32 + colours.index(figure.colour)
        text += f"{kind} 0 0 {number} {number} {depth} -1 20 0.000 {rest}\n"
    return text


def rows(figures, words):
    """The rows of the picture in a window: of each pixel its colour, from the back to the front."""
    window = argparse.ArgumentParser()
    for name in ("x", "y", "step", "width", "height"):
        window.add_argument(f"--{name}", type=int, default=1)
    at = window.parse_args(words.split())
    picture = [bytearray(b"\xff" * (3 * at.width)) for _ in range(at.height)]
    for figure in reversed(figures):
        left, top, right, bottom = figure.bounds
        colour = bytes.fromhex(figure.colour)
        for j in range(max(0, -((at.y - top) // at.step)), min(at.height, (bottom - at.y) // at.step + 1)):
            for i in range(max(0, -((at.x - left) // at.step)), min(at.width, (right - at.x) // at.step + 1)):
                if figure.holds(at.x + i * at.step, at.y + j * at.step):
                    picture[j][3 * i : 3 * i + 3] = colour
    return at.width, at.height, picture


def ppm(width, height, picture):
    return b"P6\n%d %d\n255\n" % (width, height) + b"".join(picture)


def png(width, height, picture):
    def chunk(name, data):
        return struct.pack(">I", len(data)) + name + data + struct.pack(">I", zlib.crc32(name + data))

    header = struct.pack(">IIBBBBB", width, height, 8, 2, 0, 0, 0)
    data = zlib.compress(b"".join(b"\0" + row for row in picture), 9)
    return b"\x89PNG\r\n\x1a\n" + chunk(b"IHDR", header) + chunk(b"IDAT", data) + chunk(b"IEND", b"")


def main(folder):
    figures = shown(folder)
    with open(f"{folder}/expected.fig", "w") as file:
        file.write(fig(figures))
    with open(f"{folder}/expected.ppm", "wb") as file:
        file.write(ppm(*rows(figures, open(f"{folder}/window").read())))
    for line in open(f"{folder}/pictures"):
        name, _, window = line.split(maxsplit=2)
        with open(f"{folder}/{name}", "wb") as file:
            file.write(png(*rows(figures, window)))


main(sys.argv[1])
