"""Writes the inputs of bench/run.sh to the folder that the word names."""

import json
import random
import sys

from lines import COLOURS, Lines, Object, SITES, write


def edited(count):
    """So many lines on 600 objects. 40 of these have one conflict each, so two versions: 640."""
    rng = random.Random(1)
    lines = Lines()
    objects = [Object(lines, rng, number) for number in range(600)]
    pairs = iter(objects[::15])
    apart = (count - 600) // 40 // 2 * 2
    while len(lines.lines) < count:
        done = len(lines.lines)
        pair = next(pairs, None) if (done - 600) % apart == 0 else None
        if pair:
            pair.colour_twice(lines, done % SITES, *rng.sample(COLOURS, 2))
        else:
            rng.choice(objects).change(lines, rng, done % SITES)
    return lines.lines


def paired():
    """500 pairs of concurrent colours on 9 objects.

    Each pair of two colours doubles the versions of its object, and a FIG drawing has 1,000. So of
    each object the first six pairs are of two colours, which makes 64 versions of each, 576 of all,
    and the other pairs are of one colour, which is no conflict and is compared just as well.
    """
    rng = random.Random(2)
    lines = Lines()
    objects = [Object(lines, rng, number) for number in range(9)]
    for pair in range(500):
        one = COLOURS[pair % 50]
        two = COLOURS[pair % 50 + 1] if pair < 9 * 6 else one
        objects[pair % 9].colour_twice(lines, 2 * pair % SITES, one, two)
    return lines.lines


def figures(count):
    """So many objects."""
    rng = random.Random(3)
    lines = Lines()
    for number in range(count):
        Object(lines, rng, number)
    return lines.lines


def commands(count):
    """So many commands of site 1, each of which creates a box."""
    keys = {"site": 1, "do": "create", "kind": "box", "size": [10, 10], "colour": "ff0000", "layer": 0, "shown": True}
    return [json.dumps({**keys, "place": [number, 0]}) for number in range(count)]


folder = sys.argv[1]
many = edited(80_000)
write(folder, "causal", many)
write(folder, "backwards", reversed(many))
write(folder, "shuffled", random.Random(4).sample(many, len(many)))
write(folder, "few", edited(8_000))
write(folder, "pairs", paired())
write(folder, "figures", figures(1_000))
# Each site has made less than 10,000 operations, and so has room for some more.
roomy = edited(79_900)
write(folder, "roomy", roomy)
write(folder, "commands", roomy + commands(10))
