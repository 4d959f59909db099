#!/usr/bin/env python3
"""Draws the diagrams of the pages, as SVG in docs/pictures/. With --check it only compares them."""

import math
import sys
from pathlib import Path

FOLDER = Path(__file__).resolve().parent.parent / "docs/pictures"
INK, FAINT, FILL = "#222222", "#888888", "#eef2f7"
RED, GREEN, BLUE = "#c0392b", "#2e8b57", "#2f5fb3"


class Picture:
    """Shapes over a white ground, in the order in which they are drawn."""

    def __init__(self, width, height):
        self.size = (width, height)
        self.shapes = [f'<rect width="{width}" height="{height}" fill="white"/>']

    def text(self, x, y, words, size=13, colour=INK, anchor="middle", family="sans-serif"):
        self.shapes.append(
            f'<text x="{x}" y="{y}" font-size="{size}" fill="{colour}" text-anchor="{anchor}" '
            f'font-family="{family}">{words}</text>'
        )

    def box(self, x, y, width, height, title, *lines, fill=FILL, colour=INK):
        """A box with a title and lines below it, in its middle."""
        self.shapes.append(
            f'<rect x="{x}" y="{y}" width="{width}" height="{height}" rx="6" fill="{fill}" stroke="{colour}"/>'
        )
        top = y + height / 2 + 5 - 9 * len(lines)
        self.text(x + width / 2, top, title, 14, colour)
        for number, line in enumerate(lines):
            self.text(x + width / 2, top + 18 * (number + 1), line, 11, FAINT, family="monospace")

    def circle(self, x, y, radius, words, fill=FILL, colour=INK):
        self.shapes.append(f'<circle cx="{x}" cy="{y}" r="{radius}" fill="{fill}" stroke="{colour}"/>')
        self.text(x, y + 5, words, 13, colour)

    def line(self, x1, y1, x2, y2, colour=INK, width=1.3, dash=""):
        dashed = f' stroke-dasharray="{dash}"' if dash else ""
        self.shapes.append(
            f'<line x1="{x1}" y1="{y1}" x2="{x2}" y2="{y2}" stroke="{colour}" stroke-width="{width}"{dashed}/>'
        )

    def arrow(self, x1, y1, x2, y2, words="", colour=INK, lift=-6, dash="", gap=0):
        """An arrow that ends so far before its end, with words over its middle."""
        length = math.hypot(x2 - x1, y2 - y1)
        ux, uy = (x2 - x1) / length, (y2 - y1) / length
        x2, y2 = round(x2 - gap * ux, 1), round(y2 - gap * uy, 1)
        self.line(x1, y1, round(x2 - 7 * ux, 1), round(y2 - 7 * uy, 1), colour, dash=dash)
        corners = [(x2, y2), (x2 - 9 * ux + 4 * uy, y2 - 9 * uy - 4 * ux), (x2 - 9 * ux - 4 * uy, y2 - 9 * uy + 4 * ux)]
        points = " ".join(f"{x:.1f},{y:.1f}" for x, y in corners)
        self.shapes.append(f'<polygon points="{points}" fill="{colour}"/>')
        if words:
            self.text((x1 + x2) / 2, (y1 + y2) / 2 + lift, words, 11, colour, family="monospace")

    def bar(self, x, y, width, height, fill, words=""):
        self.shapes.append(f'<rect x="{x}" y="{y}" width="{width}" height="{height}" fill="{fill}"/>')
        if words:
            self.text(x + width / 2, y + height / 2 + 4, words, 11, "white")

    def svg(self):
        width, height = self.size
        return "\n".join([
            f'<svg xmlns="http://www.w3.org/2000/svg" width="{width}" height="{height}" viewBox="0 0 {width} {height}">',
            *self.shapes, "</svg>", "",
        ])


def way():
    """The way of the bytes, from operation lines to a text and a picture."""
    picture = Picture(900, 310)
    picture.box(20, 40, 130, 60, "operation lines", "a file a site")
    picture.box(240, 40, 130, 60, "operations", "gf_json")
    picture.box(460, 20, 190, 100, "replica", "buffer   gf_causal", "history  gf_ops", "table    gf_table")
    picture.box(460, 180, 190, 70, "visible versions", "gf_visible, gf_versions", "topmost first")
    picture.box(240, 180, 130, 70, "drawing", "gf_drawing")
    picture.box(20, 150, 130, 50, "FIG text", "gf_fig_write")
    picture.box(20, 240, 130, 50, "picture", "gf_raster")
    picture.box(720, 180, 160, 70, "what inspect and", "status tell", "gf_inspect, gf_status")
    picture.arrow(150, 70, 240, 70, "read_op")
    picture.arrow(370, 70, 460, 70, "receive")
    picture.arrow(555, 120, 555, 180)
    picture.text(562, 154, "ranked_within", 11, INK, "start", "monospace")
    picture.arrow(460, 215, 370, 215, "compile")
    picture.arrow(240, 200, 150, 178)
    picture.text(160, 172, "fig_bytes", 11, INK, "start", "monospace")
    picture.arrow(240, 230, 150, 262)
    picture.text(170, 275, "ppm_to", 11, INK, "start", "monospace")
    picture.arrow(85, 150, 85, 102, "", FAINT, dash="4 3")
    picture.text(92, 130, "import", 11, FAINT, "start", "monospace")
    picture.arrow(650, 90, 780, 180)
    picture.text(730, 130, "versions", 11, INK, "start", "monospace")
    return picture


def commands():
    """What each command reads and writes."""
    picture = Picture(900, 330)
    picture.box(20, 110, 170, 70, "commands", "of one site or more")
    picture.box(350, 110, 190, 70, "operation lines", "a file a site")
    picture.box(700, 110, 180, 70, "FIG text", "perhaps with names")
    picture.box(350, 255, 190, 55, "what is told", "in words or as JSON")
    picture.box(700, 255, 180, 55, "picture", "PPM")
    picture.arrow(190, 145, 350, 145, "edit")
    picture.arrow(540, 130, 700, 130, "fig")
    picture.arrow(700, 160, 540, 160, "take", lift=16)
    picture.line(790, 110, 790, 50)
    picture.line(790, 50, 105, 50)
    picture.arrow(105, 50, 105, 110)
    picture.text(445, 42, "import", 11, INK, family="monospace")
    picture.arrow(445, 180, 445, 255)
    picture.text(436, 221, "status, check, inspect", 11, INK, "end", "monospace")
    picture.arrow(540, 180, 700, 262)
    picture.text(600, 232, "paint", 11, INK, "end", "monospace")
    picture.arrow(790, 180, 790, 255)
    picture.text(798, 221, "repaint", 11, INK, "start", "monospace")
    picture.arrow(105, 180, 350, 275)
    picture.text(190, 240, "session", 11, INK, "end", "monospace")
    return picture


def take():
    """The way back, from a text that was changed to operation lines."""
    picture = Picture(900, 250)
    picture.box(20, 30, 140, 60, "operation lines", "a file a site")
    picture.box(20, 160, 140, 60, "named text", "changed in xfig")
    picture.box(260, 20, 170, 80, "base", "gf_take, gf_site", "what the text knew")
    picture.box(260, 150, 170, 80, "figures and names", "gf_fig_read", "gf_fig_named")
    picture.box(530, 80, 130, 80, "changes", "gf_changes", "proposed")
    picture.box(750, 80, 130, 80, "new lines", "gf_json", "one site's own")
    picture.arrow(160, 60, 260, 60, "base_site")
    picture.arrow(160, 190, 260, 190, "read_fig")
    picture.arrow(90, 160, 90, 92, "", FAINT, dash="4 3")
    picture.text(97, 130, "knows", 11, FAINT, "start", "monospace")
    picture.arrow(430, 60, 530, 105)
    picture.arrow(430, 190, 530, 135)
    picture.arrow(660, 120, 750, 120, "take")
    picture.text(705, 140, "checked", 11, FAINT, family="monospace")
    return picture


def causal():
    """Three sites in causal order, with one conflict."""
    picture = Picture(760, 250)
    rows = {1: 60, 2: 130, 3: 200}
    for site, y in rows.items():
        picture.text(20, y + 5, f"site {site}", 14, anchor="start")
        picture.line(80, y, 730, y, FAINT)
    for x1, y1, x2, y2 in ((150, 60, 280, 130), (150, 60, 330, 200), (280, 130, 560, 60), (330, 200, 560, 60),
                           (560, 60, 660, 130), (560, 60, 690, 200)):
        picture.arrow(x1, y1, x2, y2, colour="#999999", gap=20 if x2 < 600 else 0)
    picture.circle(150, 60, 20, "1.1")
    picture.circle(280, 130, 20, "2.1", colour=RED)
    picture.circle(330, 200, 20, "3.1", colour=BLUE)
    picture.circle(560, 60, 20, "1.2", colour=GREEN)
    picture.text(150, 30, "draws a fir", 12)
    picture.text(300, 102, "paints it red", 12, RED, "start")
    picture.text(330, 237, "paints it blue", 12, BLUE)
    picture.text(560, 30, "hides the blue one: its aim is 3.1", 12, GREEN)
    picture.text(372, 205, "concurrent: two versions", 12, FAINT, "start")
    return picture


def conflicts():
    """The operations of one object in classes, a step of growth with a parent and its cut, and what shows."""
    picture = Picture(900, 330)
    picture.text(165, 24, "operations, in their classes", 14)
    for x1, y1, x2, y2 in ((165, 75, 75, 170), (165, 75, 255, 170), (165, 75, 165, 265), (165, 265, 75, 170), (165, 265, 255, 170)):
        picture.line(x1, y1, x2, y2, RED, 2)
    for x, y, width, words, operations in (
        (100, 50, 130, "A", ("1.2", "1.3")), (30, 145, 90, "B", ("2.1",)), (120, 240, 90, "C", ("3.1",)),
        (210, 145, 90, "D", ("1.4",)), (20, 50, 60, "", ("1.1",)),
    ):
        picture.shapes.append(f'<rect x="{x}" y="{y}" width="{width}" height="50" rx="6" fill="{FILL}" stroke="{INK}"/>')
        if words:
            picture.text(x + 16, y + 31, words, 15)
        for number, operation in enumerate(operations):
            picture.circle(x + width - 24 - 44 * number, y + 25, 19, operations[-1 - number], "white")
    for x, y, words, colour in (
        (50, 118, "creation", FAINT), (235, 72, "blue,", BLUE), (235, 88, "then blue", BLUE), (75, 212, "green", GREEN),
        (165, 307, "yellow", "#b8860b"), (255, 212, "hides,", INK), (255, 228, "aimed at 2.1", INK),
    ):
        picture.text(x, y, words, 11, colour, "start" if x == 235 else "middle")
    picture.text(20, 275, "a conflict", 11, RED, "start")
    picture.line(20, 282, 72, 282, RED, 2)
    picture.text(505, 24, "C is met", 14)
    picture.text(790, 24, "D is met: the versions", 14)
    for x, y, words, colour in (
        (370, 70, "1.1  A", INK), (370, 150, "1.1  B", INK), (555, 70, "1.1  A", INK), (555, 150, "1.1  B", INK),
        (555, 230, "1.1  C", GREEN), (735, 70, "1.1  A", INK), (735, 150, "1.1  B  D", INK), (735, 230, "1.1  C", INK),
    ):
        picture.box(x, y, 85, 36, words, colour=colour)
    for y in (88, 168):
        picture.arrow(455, y, 555, y, "stays")
    picture.arrow(412, 106, 555, 240, "", GREEN)
    picture.text(482, 222, "its cut", 11, GREEN, family="monospace")
    picture.text(412, 62, "parent", 11, GREEN, family="monospace")
    picture.text(412, 202, "no parent", 11, FAINT, family="monospace")
    picture.arrow(640, 88, 735, 88, "stays")
    picture.arrow(640, 168, 735, 168, "takes D up")
    picture.arrow(640, 248, 735, 248, "stays")
    for y, words, colour in ((92, "shows", GREEN), (172, "hidden", FAINT), (252, "shows", GREEN)):
        picture.text(828, y, words, 12, colour, "start")
    return picture


def row():
    """A row of a picture, found from the front to the back."""
    picture = Picture(760, 255)
    layers = ((BLUE, "front", ((300, 460),)), (GREEN, "", ((180, 340), (560, 640))), (RED, "back", ((140, 600),)))
    for number, (colour, words, spans) in enumerate(layers):
        y = 30 + 45 * number
        picture.text(20, y + 16, words or "behind it", 12, FAINT, "start")
        for low, high in spans:
            picture.bar(low, y, high - low, 22, colour, "span")
    picture.line(120, 180, 720, 180, FAINT, 1, "4 3")
    picture.text(20, 211, "strokes", 12, FAINT, "start")
    for low, high, colour in ((120, 140, "#bbbbbb"), (140, 180, RED), (180, 300, GREEN), (300, 460, BLUE), (460, 560, RED),
                              (560, 640, GREEN), (640, 720, "#bbbbbb")):
        picture.bar(low, 195, high - low, 22, colour)
    for tile in range(5):
        picture.line(120 + 150 * tile, 188, 120 + 150 * tile, 240, INK, 1)
        if tile < 4:
            picture.text(195 + 150 * tile, 238, f"tile {tile}", 11, FAINT)
    return picture


def session():
    """Three sites of a session, the links between them and the seats."""
    picture = Picture(760, 275)
    places = {1: (100, 60), 2: (520, 60), 3: (310, 200)}
    for site, (x, y) in places.items():
        picture.box(x, y, 140, 56, f"worker of site {site}", "its script, its site")
    for x1, y1, x2, y2 in ((240, 76, 520, 76), (520, 100, 240, 100), (170, 116, 330, 200), (310, 224, 140, 116),
                           (590, 116, 440, 200), (450, 224, 620, 116)):
        picture.arrow(x1, y1, x2, y2, colour=BLUE)
    picture.text(380, 70, "a link: a queue of at most 1,024 messages", 11, BLUE)
    picture.text(262, 92, "send seat", 10, FAINT, "start")
    picture.text(500, 92, "take seat", 10, FAINT, "end")
    return picture


def main():
    for draw in (way, commands, take, causal, conflicts, row, session):
        path, made = FOLDER / f"{draw.__name__}.svg", draw().svg()
        if "--check" not in sys.argv:
            path.write_text(made)
        elif path.read_text() != made:
            sys.exit(f"{path.name} is not what tools/pictures.py draws: run it")


main()
