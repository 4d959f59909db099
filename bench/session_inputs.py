#!/usr/bin/env python3
"""Writes scripts of eight sites with 1,000 commands each, and what they have to come to.

Each site makes boxes of its own and changes them; in `awaits.jsonl` it also awaits operations that
another site makes in an earlier round, so that no two await each other in a circle, and one that
nobody makes. Nobody changes another one's box, so nothing conflicts, and the outcome is one whatever
the threads do: `awaits.txt` has it. `changes.jsonl` has changes alone, and `operations.jsonl` the same
ones as operation lines of sites that never heard of each other.
"""
import json
import random
import sys

SITES = 8
COMMANDS = 1000
BOXES = 100
HEADER = "#FIG 3.2\nLandscape\nCenter\nMetric\nA4\n100.00\nSingle\n-2\n1200 2\n"


class Site:
    def __init__(self, number):
        self.number = number
        self.made = 0
        self.boxes = {}
        self.commands = []
        self.refused = []
        self.made_by_round = [0]

    def command(self, **members):
        self.commands.append(dict(site=self.number, **members))

    def change(self, chance):
        self.made += 1
        if len(self.boxes) < BOXES:
            box = dict(place=[chance.randrange(9000), chance.randrange(9000)],
                       size=[1 + chance.randrange(900), 1 + chance.randrange(900)],
                       colour="%02x%02x%02x" % (self.number, chance.randrange(8), chance.randrange(4)),
                       layer=chance.randrange(10), shown=True)
            self.boxes[self.made] = box
            self.command(do="create", kind="box", **box)
        else:
            name = chance.choice(sorted(self.boxes))
            what = chance.choice(["place", "size", "layer"])
            value = chance.randrange(10) if what == "layer" else [1 + chance.randrange(900), 1 + chance.randrange(900)]
            self.boxes[name] = dict(self.boxes[name], **{what: value})
            self.command(do="set", object=[self.number, name], set=what, to=value)


def played(chance, share):
    sites = [Site(number + 1) for number in range(SITES)]
    for rounds in range(COMMANDS):
        for site in sites:
            other = chance.choice([s for s in sites if s is not site])
            before = other.made_by_round[rounds]
            if share and rounds == COMMANDS - 1 and site is sites[0]:
                # That it never comes is known once all others have ended: so one site alone asks.
                site.command(do="await", id=[other.number, 10000])
                site.refused.append((COMMANDS, "NeverComes"))
            elif before and chance.random() < share:
                site.command(do="await", id=[other.number, 1 + chance.randrange(before)])
            else:
                site.change(chance)
        for site in sites:
            site.made_by_round.append(site.made)
    return sites


def outcome(sites):
    text = ""
    for site in sites:
        text += "site %d accepted %d refused %d\n" % (site.number, site.made, len(site.refused))
        for number, cause in site.refused:
            text += "site %d command %d %s\n" % (site.number, number, cause)
    boxes = [(box["layer"], site.number, name, box) for site in sites for name, box in site.boxes.items()]
    boxes.sort(key=lambda b: b[:3], reverse=True)
    colours = []
    for *_, box in boxes:
        if box["colour"] not in colours:
            colours.append(box["colour"])
    text += HEADER + "".join("0 %d #%s\n" % (32 + i, colour) for i, colour in enumerate(colours))
    for depth, (*_, box) in enumerate(boxes):
        number = 32 + colours.index(box["colour"])
        (x, y), (w, h) = box["place"], box["size"]
        text += "2 2 0 0 %d %d %d -1 20 0.000 0 0 -1 0 0 5\n" % (number, number, depth)
        text += "\t %d %d %d %d %d %d %d %d %d %d\n" % (x, y, x + w, y, x + w, y + h, x, y + h, x, y)
    return text


def lines(values):
    return "".join(json.dumps(value, separators=(",", ":")) + "\n" for value in values)


def operations(sites):
    for site in sites:
        for made, command in enumerate(site.commands):
            past = [made if number == site.number - 1 else 0 for number in range(SITES)]
            line = {key: value for key, value in command.items() if key not in ("do", "site")}
            yield dict(op=command["do"], id=[site.number, made + 1], past=past, **line)


def main(folder):
    sites = played(random.Random(7), 0.3)
    script = [command for number in range(COMMANDS) for site in sites for command in [site.commands[number]]]
    open(folder + "/awaits.jsonl", "w").write(lines(script))
    open(folder + "/awaits.txt", "w").write(outcome(sites))
    sites = played(random.Random(8), 0)
    open(folder + "/changes.jsonl", "w").write(lines([c for site in sites for c in site.commands]))
    open(folder + "/changes.txt", "w").write(outcome(sites))
    open(folder + "/operations.jsonl", "w").write(lines(operations(sites)))


main(sys.argv[1])
