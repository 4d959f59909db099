#!/usr/bin/env python3
"""Changes random drawings as a designer does, takes them, and checks what comes of it.

Sites make a random history by `figgroup edit`, some of it aimed at a version. One opens its drawing (`fig --named`) and
changes it, others work on meanwhile, and `take` is called. The drawing has to be taken, and to be then what was saved, by its
figures and by its picture. The operations know nothing of what others made meanwhile, and keep what these drew; an object that
was not touched gets at most another layer. The same text again, and one that was not changed, make no more than a layer.

figgroup is found by PATH. Words: a seed, how many takes, and how many seconds at most."""
import json
import random
import re
import subprocess
import sys
import tempfile
import time

STANDARD = ["000000", "0000ff", "00ff00", "00ffff", "ff0000", "ff00ff", "ffff00", "ffffff"]
COLOURS = ["ff0000", "00ff00", "0000ff", "aa5500", "123456"]
KINDS = {"1 1": "ellipse", "1 3": "circle", "2 2": "box", "2 3": "polygon"}
FRAME = ["--fit", "--width", "56", "--height", "48"]
LAYERS = [[7], [0, 1], [0, 9_999], [900, 905, 910, 1_000], [9_998, 9_999], range(10_000)]
WAYS = "move move colour colour scale corner delete copy draw draw depth depth unname kind alike table".split()


class Failed(Exception):
    """What is not as it has to be."""


def figgroup(words, given, refusals=None):
    """What figgroup writes; nothing where its refusal is one of these."""
    run = subprocess.run(["figgroup", *words], input=given.encode(), capture_output=True, timeout=300)
    said = run.stderr.decode()
    if run.returncode and not (refusals and run.returncode == 1 and re.search(refusals, said)):
        raise Failed(f"{' '.join(words)}: status {run.returncode}: {said.strip()}")
    return run.stdout if "--fit" in words else run.stdout.decode()


class Figure:
    """A figure of a FIG text: its comments, its first ten fields, and its points or its centre and radii."""

    def __init__(self, comments, fields, points, radii=None):
        self.comments, self.fields, self.points, self.radii = list(comments), list(fields), list(points), radii

    @property
    def name(self):
        return self.comments[0].split()[2] if self.comments else None

    @property
    def kind(self):
        return KINDS[" ".join(self.fields[:2])]

    def look(self, table):
        """What is seen: the kind, the place, the form, the colour."""
        colour = int(self.fields[5])
        rgb = STANDARD[colour] if colour < 8 else table[colour]
        if self.kind == "box":
            (left, top), (right, bottom) = map(min, zip(*self.points)), map(max, zip(*self.points))
            if left < right and top < bottom:
                return "box", (left, top), (right, bottom), rgb
        return "polygon" if self.radii is None else self.kind, tuple(self.points), self.radii, rgb

    def text(self):
        if self.radii:
            (x, y), (rx, ry) = self.points[0], self.radii
            lines = [[*self.fields, 1, "0.0000", x, y, rx, ry, x, y, x + rx, y if self.kind == "circle" else y + ry]]
        else:
            ring = [number for point in self.points + self.points[:1] for number in point]
            lines = [[*self.fields, 0, 0, -1, 0, 0, len(ring) // 2]]
            lines += [["\t", *ring[k : k + 12]] for k in range(0, len(ring), 12)]  # six points a line, as xfig
        return "".join(line + "\n" for line in self.comments + [" ".join(map(str, line)) for line in lines])


class Drawing:
    """A FIG text: the lines before the colours, the colours by their numbers, and the figures."""

    def __init__(self, text):
        header, _, rest = text.partition("1200 2\n")
        self.header, self.table, self.figures = header + "1200 2\n", {}, []
        comments, tokens = [], []
        for line in rest.splitlines():
            if line.startswith("#"):
                comments.append(line)
                continue
            tokens += line.split()
            if tokens[0] == "0":
                self.table[int(tokens[1])] = tokens[2][1:]
            elif tokens[0] == "1":
                x, y, rx, ry = map(int, tokens[12:16])
                self.figures.append(Figure(comments, tokens[:10], [(x, y)], (rx, ry)))
            elif len(tokens) == 16 + 2 * int(tokens[15]):
                numbers = list(map(int, tokens[16:-2]))
                self.figures.append(Figure(comments, tokens[:10], zip(numbers[::2], numbers[1::2])))
            else:
                continue
            comments, tokens = [], []

    def text(self, rand):
        """The text, its figures sorted by kind as xfig does, or in any order."""
        figures = sorted(self.figures, key=lambda figure: figure.radii is None)
        if rand.random() < 0.3:
            rand.shuffle(figures)
        colours = [f"0 {number} #{rgb}\n" for number, rgb in sorted(self.table.items())]
        return "".join([self.header, *colours, *(figure.text() for figure in figures)])

    def looks(self):
        return sorted(repr(figure.look(self.table)) for figure in self.figures)

    def colour(self, rand):
        """The number of a colour: a standard one, a new one, or one of the table."""
        if rand.random() < 0.3:
            return str(rand.randrange(8))
        if not self.table or rand.random() < 0.3:
            self.table[max(self.table, default=31) + 1] = rand.choice(COLOURS)
        return str(rand.choice(list(self.table)))


def corners(rand):
    """The points of a polygon. The first one need not lie at its place."""
    points = [(rand.randrange(-9, 16), rand.randrange(-9, 16)) for _ in range(rand.randint(3, 6))]
    return points if rand.random() < 0.5 else [(0, 0)] + points[1:]


def drawn(rand, drawing):
    """A new figure, as xfig draws it."""
    fields, (x, y), (rx, ry) = rand.choice(list(KINDS)), rand.choices(range(40), k=2), rand.choices(range(1, 16), k=2)
    fields, kind = f"{fields} 0 0 0 {drawing.colour(rand)} 50 -1 20 0.000".split(), KINDS[fields]
    if kind in ("circle", "ellipse"):
        return Figure([], fields, [(x, y)], (rx, rx if kind == "circle" else ry))
    box = [(x, y), (x + rx, y), (x + rx, y + ry), (x, y + ry)]
    return Figure([], fields, box if kind == "box" else [(x + dx, y + dy) for dx, dy in corners(rand)])


def alter(rand, drawing, figure, way, colour):
    """Changes a figure in this way."""
    points, k = figure.points, rand.randrange(len(figure.points))
    (x0, y0), dx, dy = points[0], rand.randrange(-12, 13), rand.randrange(-12, 13)
    if way == "move":
        figure.points = [(x + dx, y + dy) for x, y in points]
    elif way == "colour":
        figure.fields[4:6] = colour, colour
    elif way == "scale":
        times = rand.choice([0.5, 1.5, 2])
        figure.points = [(x0 + round((x - x0) * times), y0 + round((y - y0) * times)) for x, y in points]
        figure.radii = figure.radii and tuple(max(1, round(radius * times)) for radius in figure.radii)
    elif way == "corner" and figure.kind == "polygon":
        more = [points[:k] + [(x0 + dx, y0 + dy)] + points[k:], points[:k] + [(x0 + dx, y0 + dy)] + points[k + 1 :]]
        fewer = [points[:k] + points[k + 1 :]] if len(points) > 3 else []
        figure.points = rand.choice([*more, *fewer, points[k:] + points[:k]])
    elif way == "depth":
        depths = [int(other.fields[6]) for other in drawing.figures]
        near = rand.choice(depths) + rand.randrange(-6, 7)
        depth = rand.choice([near, rand.randrange(1_000), min(depths) - 1, max(depths) + 1])
        figure.fields[6] = str(max(0, min(999, depth)))
    elif way == "unname":
        figure.comments = []
    elif way == "kind" and figure.kind == "box":
        figure.fields[1] = "3"
    elif way == "alike":
        first = next(other for other in drawing.figures if other.kind == figure.kind)
        figure.points, figure.radii, figure.fields[4:6] = list(first.points), first.radii, first.fields[4:6]


def change(rand, drawing):
    """Changes a figure, or some or all figures of one object. The names of what was touched."""
    way, colour, seed = rand.choice(WAYS if drawing.figures else ["draw"]), drawing.colour(rand), rand.random()
    figures = []
    if drawing.figures:
        one = rand.choice(drawing.figures)
        versions = [figure for figure in drawing.figures if figure.name == one.name]
        figures = rand.choice([[one], [one], rand.sample(versions, rand.randint(1, len(versions))), versions])
    if way == "table":
        figures = [figure for figure in drawing.figures if figure.fields[5] == colour]
        if int(colour) > 7:
            drawing.table[int(colour)] = rand.choice(COLOURS)
    touched = {figure.name for figure in figures}
    if way == "draw":
        drawing.figures.append(drawn(rand, drawing))
    elif way == "delete":
        drawing.figures = [figure for figure in drawing.figures if figure not in figures]
    elif way == "copy":
        copies = [Figure(figure.comments, figure.fields, figure.points, figure.radii) for figure in figures]
        drawing.figures += copies
        figures, way = rand.choice([copies, copies, copies + figures, []]), "move"
    for figure in figures:
        alter(random.Random(seed), drawing, figure, way, colour)
    return touched


class Group:
    """Sites with their files, and how many lines each site has of each file."""

    def __init__(self, rand):
        self.rand, self.sites, self.layers = rand, range(1, rand.choice([1, 2, 3, 5, 8]) + 1), rand.choice(LAYERS)
        self.files = {site: [] for site in self.sites}
        self.has = {site: {other: 0 for other in self.sites} for site in self.sites}

    def lines(self, site, has=None):
        """The lines that a site has, or had: its own ones, and so many of the others."""
        has = has or self.has[site]
        return "".join(line for other in self.sites for line in self.files[other][: None if other == site else has[other]])

    def hear(self, site):
        """A site gets the files of some others."""
        self.has[site].update({other: len(self.files[other]) for other in self.sites if self.rand.random() < 0.5})

    def edit(self, site):
        """A site gives some commands. Where one is refused, none makes anything."""
        objects = {}
        for op in map(json.loads, self.lines(site).splitlines()):
            name = tuple(op["id"] if op["op"] == "create" else op["object"])
            objects.setdefault(name, [None, []])[1].append(op["id"])
            objects[name][0] = op.get("kind", objects[name][0])
        commands = [json.dumps(self.command(site, objects)) + "\n" for _ in range(self.rand.randint(1, 4))]
        refusals = "NoObject|WrongKind|NoVersion|BadAim|waits|Field"
        made = figgroup(["edit", "--site", str(site)], self.lines(site) + "".join(commands), refusals)
        self.files[site] += made.splitlines(keepends=True)

    def command(self, site, objects):
        rand, name, kind, width = self.rand, None, self.rand.choice(list(KINDS.values())), self.rand.randint(1, 20)
        if objects and rand.random() < 0.7:
            name = rand.choice(list(objects)[-3:] if rand.random() < 0.7 else list(objects))
            kind, ops = objects[name]
            if rand.random() < 0.15:
                return {"site": site, "do": "keep", "object": name, "with": [rand.choice(ops)]}
        values = {"place": rand.choices(range(40), k=2), "colour": rand.choice(COLOURS), "layer": rand.choice(self.layers)}
        values["shown"] = rand.random() < 0.7
        height = width if kind == "circle" else rand.randint(1, 20)
        values.update({"points": corners(rand)} if kind == "polygon" else {"size": [width, height]})
        if name is None:
            return {"site": site, "do": "create", "kind": kind, **values}
        attribute = rand.choice(list(values))
        aim = {"aim": self.version(site, name)} if rand.random() < 0.1 else {}
        return {"site": site, "do": "set", "object": name, "set": attribute, "to": values[attribute], **aim}

    def version(self, site, name):
        """The operations of a version of an object, or none where what made the object waits."""
        told = figgroup(["inspect", "--object", "{}.{}".format(*name)], self.lines(site), "no object").splitlines()
        ids = re.search(r"\[(.*?)\]", self.rand.choice(told))[1].split() if told else []
        return [list(map(int, one.split("."))) for one in ids]


class Window:
    """A drawing that a site opened, and what the site had then."""

    def __init__(self, group, site):
        self.group, self.site, self.has = group, site, {**group.has[site], site: len(group.files[site])}
        self.given = self.saved = named = figgroup(["fig", "--named"], group.lines(site), "TooManyVersions")
        self.drawing = Drawing(named) if named else None

    def take(self):
        """The lines that come of the saved text."""
        self.given = self.group.lines(self.site) + self.saved
        return figgroup(["take", "--site", str(self.site)], self.given).splitlines(keepends=True)

    def news(self):
        """The objects that others drew meanwhile, and that are seen with all lines of the site; and whether a drawing fits."""
        named = figgroup(["fig", "--named"], self.group.lines(self.site), "TooManyVersions")
        names = {figure.name for figure in Drawing(named).figures} if named else set()
        return {name for name in names if int(name[2:]) > self.has[int(name[0])] and int(name[0]) != self.site}, named != ""

    def save(self, touched):
        """Takes the drawing, and checks what comes of it. How many operations."""
        group, site = self.group, self.site
        self.saved = self.drawing.text(group.rand)
        own = [json.loads(line) for line in group.files[site][self.has[site] :]]
        touched = touched | {"{}.{}".format(*op.get("object", op["id"])) for op in own}
        before, _ = self.news()
        made = self.take()
        group.files[site] += made
        base = group.lines(site, self.has)
        if Drawing(figgroup(["fig"], base)).looks() != self.drawing.looks():
            raise Failed("other figures")
        if figgroup(["paint", *FRAME], base) != figgroup(["repaint", *FRAME], self.saved):
            raise Failed("another picture")
        for op in map(json.loads, made):
            if any(op["past"][other - 1] > self.has[other] for other in group.sites if other != site):
                raise Failed(f"an operation knows what others made meanwhile: {op}")
            if op.get("set", "layer") != "layer" and "{}.{}".format(*op["object"]) not in touched:
                raise Failed(f"what was not touched is changed: {op}")
        after, fits = self.news()
        if fits and before - after:
            raise Failed(f"what others drew is gone: {before - after}")
        figgroup(["check"], group.lines(site))
        if any(json.loads(line).get("set") != "layer" for line in self.take()):
            raise Failed("the same text again changes something")
        return len(made)


def take_some(rand, group):
    """A window of a site, and up to three saves. How many these were, and how many operations; none, where no drawing fits."""
    for _ in range(rand.randint(1, 6)):
        site = rand.choice(group.sites)
        group.hear(site)
        group.edit(site)
    window = Window(group, site)
    if window.drawing is None:
        return 0, 0
    touched, made, saves = set(), 0, rand.choice([1, 1, 2, 3])
    try:
        window.saved = window.drawing.text(random.Random(1))
        if window.take():
            raise Failed("an unchanged text makes something")
        for _ in range(saves):
            for other in rand.sample(group.sites, rand.randint(0, len(group.sites))):
                if other != site or rand.random() < 0.2 and group.has[site] == {**window.has, site: group.has[site][site]}:
                    group.edit(other)
            if rand.random() < 0.5:
                group.hear(site)
            for _ in range(rand.randint(1, 6)):
                touched |= change(rand, window.drawing)
            made += window.save(touched)
    except Failed as failed:
        with tempfile.NamedTemporaryFile("w", prefix="random_takes_", delete=False) as file:
            file.write(window.given)
        raise Failed(f"figgroup take --site {site} < {file.name}: {failed}") from failed
    return saves, made


def main():
    seed, count, seconds = sys.argv[1], int(sys.argv[2]), float(sys.argv[3])
    end, takes, made, number = time.monotonic() + seconds, 0, 0, 0
    while takes < count and time.monotonic() < end:
        number += 1
        rand = random.Random(f"{seed} {number}")
        group = Group(rand)
        try:
            for _ in range(4):
                more = take_some(rand, group)
                takes, made = takes + more[0], made + more[1]
        except Failed as failed:
            sys.exit(f"random_takes.py {seed}, group {number}: {failed}")
    print(f"{takes} takes of random drawings, {made} operations", file=sys.stderr)


if __name__ == "__main__":
    main()
