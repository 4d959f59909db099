"""Writes the inputs of bench/run.sh to the folder that the word names."""

import random
import sys

from lines import Lines, Object, SITES, value, write


def rounds(count, hidden):
    """One box, and so many rounds in which two sites give it two colours at once; then, if it is to
    be hidden, a line that knows all and hides it."""
    rng = random.Random(3)
    lines = Lines()
    box = Object(lines, rng, 0)
    for _ in range(count):
        box.colour_twice(lines, 0, "0000ff", "00ff00")
    if hidden:
        box.follow(lines, 2, "shown", False)
    return lines.lines


def changed(count, name, to, apart):
    """One box that eight sites change, in turn, so many times each: by lines that know all before
    them, or, if the sites are apart, only the box and those of their own site."""
    rng = random.Random(5)
    lines = Lines()
    box = Object(lines, rng, 0)
    made = box.knows
    for number in range(count * SITES):
        if apart:
            box.knows = made
        box.follow(lines, number % SITES, name, to(rng))
    return lines.lines


def busy(count, apart):
    """One box to which one site gives so many colours, and which seven others then move so many
    times each: by lines that know all before them, or, if the sites are apart, only the box and
    those of their own site."""
    rng = random.Random(6)
    lines = Lines()
    box = Object(lines, rng, 0)
    made = box.knows
    for _ in range(count):
        box.follow(lines, 0, "colour", value(rng, "box", "colour"))
    for number in range(count * (SITES - 1)):
        if apart:
            box.knows = made
        box.follow(lines, 1 + number % (SITES - 1), "place", value(rng, "box", "place"))
    return lines.lines


def heard(count, chance, name, to):
    """One box that eight sites, which know it, change in turn, so many times each; before a change
    a site hears by this chance all that another one knows."""
    rng = random.Random(7)
    lines = Lines()
    box = Object(lines, rng, 0)
    for site in range(SITES):
        lines.knows[site] = list(map(max, lines.knows[site], box.knows))
    for number in range(count * SITES):
        learnt = [0] * SITES
        if rng.random() < chance:
            learnt = lines.knows[rng.randrange(SITES)]
        lines.make(number % SITES, box.set(name, to(rng)), learnt)
    return lines.lines


def crossed(count):
    """One box, and so many rounds in which one site hides it and another one shows it at once."""
    lines = Lines()
    box = Object(lines, random.Random(8), 0)
    for _ in range(count):
        first = lines.make(0, box.set("shown", False), box.knows)
        second = lines.make(1, box.set("shown", True), box.knows)
        box.knows = list(map(max, first, second))
    return lines.lines


def deep(count):
    """One box, and so many rounds in which seven sites hide it, and then the first one shows it. All
    know the shows of earlier rounds, but of another site's hides those alone that are some rounds
    old, so each hide is an open choice."""
    lines = Lines()
    box = Object(lines, random.Random(10), 0)

    def old(rounds):
        return [max(0, rounds - (SITES - 1 - site)) for site in range(1, SITES)]

    for number in range(1, count + 1):
        for site in range(1, SITES):
            lines.make(site, box.set("shown", False), [number] + old(number - 2))
        lines.make(0, box.set("shown", True), [number] + old(number - 1))
    return lines.lines


def write_orders(name, lines):
    """The lines, and the same shuffled and backwards."""
    write(folder, name, lines)
    write(folder, name + "_shuffled", random.Random(4).sample(lines, len(lines)))
    write(folder, name + "_backwards", reversed(lines))


folder = sys.argv[1]
for count in (30, 200):
    write(folder, f"rounds_{count}", rounds(count, False))
    write(folder, f"hidden_{count}", rounds(count, True))
for apart, name in ((False, "causal"), (True, "apart")):
    write_orders("equal_" + name, changed(9_875, "colour", lambda rng: "00ff00", apart))
    write(folder, "moves_" + name, changed(2_000, "place", lambda rng: value(rng, "box", "place"), apart))
    write(folder, "grid_" + name, changed(2_000, "place", lambda rng: [rng.randrange(1_000), rng.randrange(1_000)], apart))
    write(folder, "fifty_" + name, changed(2_000, "place", lambda rng: [rng.randrange(50), 0], apart))
    write(folder, "busy_" + name, busy(9_900, apart))
for name, count, chance in (("rare", 1_000, 0.001), ("often", 200, 0.02)):
    write(folder, name + "_causal", changed(count, "place", lambda rng: value(rng, "box", "place"), False))
    write(folder, name + "_apart", heard(count, chance, "place", lambda rng: value(rng, "box", "place")))
# What strangers may send.
for count in (50, 100):
    write(folder, f"toggles_{8 * count}", heard(count, 0.05, "shown", lambda rng: rng.random() < 0.5))
write(folder, "toggles_apart", changed(1_000, "shown", lambda rng: rng.random() < 0.5, True))
write(folder, "places_apart", changed(9_875, "place", lambda rng: [rng.randrange(5_000), 0], True))
write(folder, "hides_apart", changed(9_900, "shown", lambda rng: False, True))
write(folder, "crossed", crossed(9_998))
write(folder, "deep", deep(400))
