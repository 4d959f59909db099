"""Lines of sites, and the changes that the inputs of the measuring scripts are made of."""

import json

SITES = 8
COLOURS = ["%06x" % (40503 * n) for n in range(1, 201)]


class Lines:
    """The lines that sites make, each with what its site knows then."""

    def __init__(self):
        self.lines = []
        self.knows = [[0] * SITES for _ in range(SITES)]

    def make(self, site, keys, learnt=(0,) * SITES):
        """Adds a line of the site, which learns this first; what it knows then."""
        past = list(map(max, self.knows[site], learnt))
        knows = list(past)
        knows[site] += 1
        self.knows[site] = knows
        line = {**keys, "id": [site + 1, knows[site]], "past": past}
        self.lines.append(json.dumps(line, sort_keys=True, separators=(",", ":")))
        return knows


class Object:
    def __init__(self, lines, rng, number):
        site = number % SITES
        self.kind = ("box", "circle", "ellipse", "polygon")[number % 4]
        key = "points" if self.kind == "polygon" else "size"
        self.knows = lines.make(site, {
            "op": "create", "kind": self.kind, "layer": rng.randrange(10), "shown": True,
            **{name: value(rng, self.kind, name) for name in ("place", "colour", key)}})
        self.id = [site + 1, self.knows[site]]

    def change(self, lines, rng, site):
        """A change by a site that knows all others of the object."""
        key = "points" if self.kind == "polygon" else "size"
        name = rng.choice(("place", "colour", "layer", key))
        self.follow(lines, site, name, value(rng, self.kind, name))

    def follow(self, lines, site, name, to):
        """This change by a site that knows all others of the object."""
        self.knows = lines.make(site, self.set(name, to), self.knows)

    def colour_twice(self, lines, site, one, two):
        """Two colours by two sites that know all others of the object, but not each other's."""
        first = lines.make(site, self.set("colour", one), self.knows)
        second = lines.make((site + 1) % SITES, self.set("colour", two), self.knows)
        self.knows = list(map(max, first, second))

    def set(self, name, to):
        return {"op": "set", "object": self.id, "set": name, "to": to}


def value(rng, kind, name):
    if name == "place":
        return [rng.randrange(10_000), rng.randrange(10_000)]
    if name == "colour":
        return rng.choice(COLOURS)
    if name == "layer":
        return rng.randrange(10)
    if name == "points":
        return [[rng.randrange(1_000), rng.randrange(1_000)] for _ in range(rng.randrange(3, 7))]
    width = rng.randrange(1, 1_000)
    return [width, width if kind == "circle" else rng.randrange(1, 1_000)]


def write(folder, name, lines):
    with open(f"{folder}/{name}.jsonl", "w") as file:
        file.writelines(line + "\n" for line in lines)
