"""Writes the inputs of bench/run.sh to the folder that the word names."""

import json
import os
import random
import subprocess
import sys

from lines import Lines, Object, SITES, value, write

FIGGROUP = f"{os.path.dirname(os.path.dirname(os.path.abspath(__file__)))}/bin/figgroup"


def named(knows, site):
    """The id of the operation of the site that knows this."""
    return [site + 1, knows[site]]


class Contest:
    """One box, and rounds in which the sites 1 and 2 give it two colours at once."""

    def __init__(self):
        self.rng = random.Random(9)
        self.lines = Lines()
        self.box = Object(self.lines, self.rng, 0)
        self.winners, self.losers = [], []

    def round(self, one="0000ff", two="00ff00"):
        box, lines = self.box, self.lines
        first = lines.make(0, box.set("colour", one), box.knows)
        second = lines.make(1, box.set("colour", two), box.knows)
        box.knows = list(map(max, first, second))
        self.winners.append(named(first, 0))
        self.losers.append(named(second, 1))

    def change(self, site, name, to, aim):
        """A change by a site that knows all, with this aim."""
        keys = self.box.set(name, to)
        if aim:
            keys["aim"] = sorted(aim)
        self.box.knows = self.lines.make(site, keys, self.box.knows)

    def keep(self):
        """What the site 1, which knows all, makes to keep the winner of the last round."""
        box, lines = self.box, self.lines
        command = {"site": 1, "do": "keep", "object": box.id, "with": [self.winners[-1]]}
        text = "".join(line + "\n" for line in [*lines.lines, json.dumps(command)])
        words = [FIGGROUP, "edit", "--site", "1"]
        made = subprocess.run(words, input=text, capture_output=True, text=True, check=True).stdout.splitlines()
        lines.lines += made
        box.knows = [box.knows[0] + len(made), *box.knows[1:]]
        lines.knows[0] = box.knows


def settled(count, whole):
    """So many rounds, each settled by a line that hides the loser: the aim is the loser alone, or, if
    it is to be whole, all operations of the version that holds it and was seen before."""
    contest = Contest()
    seen = [contest.box.id]
    for _ in range(count):
        contest.round()
        loser = contest.losers[-1]
        contest.change(0, "shown", False, seen + [loser] if whole else [loser])
        seen.append(contest.winners[-1])
    return contest.lines.lines


def crossed(count):
    """So many rounds, after each of which two sites at once hide the version of the other's winner."""
    contest = Contest()
    for _ in range(count):
        contest.round()
        box, lines = contest.box, contest.lines
        one = lines.make(0, {**box.set("shown", False), "aim": [contest.losers[-1]]}, box.knows)
        other = lines.make(1, {**box.set("shown", False), "aim": [contest.winners[-1]]}, box.knows)
        box.knows = list(map(max, one, other))
    return contest.lines.lines


def kept(counts):
    """For each of these counts so many rounds of two new colours, each settled by a `keep` before the next
    one. A `keep` aims at all that was kept before it."""
    contest, found = Contest(), {}
    for number in range(max(counts)):
        contest.round(f"{2 * number:06x}", f"{2 * number + 1:06x}")
        contest.keep()
        found[number + 1] = len(contest.lines.lines)
    return {count: contest.lines.lines[: found[count]] for count in counts}


def hidden(count, hiders):
    """One box that eight sites change so many times each, apart. Each second change of the first ones hides
    it, aimed at the site's change before; all others give it layers."""
    lines = Lines()
    box = Object(lines, random.Random(9), 0)
    for number in range(count * SITES):
        turn, site = divmod(number, SITES)
        keys = box.set("layer", number % 10_000)
        if turn % 2 and site < hiders:
            keys = {**box.set("shown", False), "aim": [named(lines.knows[site], site)]}
        lines.make(site, keys, box.knows)
    return lines.lines


def changed(rounds, count, aimed):
    """So many rounds, and then so many changes by eight sites that know all, each aimed at a version of
    the rounds, if they are to be; at last all is hidden by a line without an aim."""
    contest = Contest()
    for _ in range(rounds):
        contest.round()
    pairs = list(zip(contest.winners, contest.losers))
    for number in range(count):
        aim = [contest.box.id] + [contest.rng.choice(pair) for pair in pairs] if aimed else []
        contest.change(number % SITES, "place", value(contest.rng, "box", "place"), aim)
    contest.change(0, "shown", False, [])
    return contest.lines.lines


def bomb(size):
    """Changes that are aimed at 1,000 operations each, 499 of them in conflict, up to so many bytes; at
    last all is hidden by a line without an aim."""
    contest = Contest()
    for _ in range(499):
        contest.round()
    free = []
    for number in range(500):
        contest.change(2, "place", [number, 0], [])
        free.append(named(contest.box.knows, 2))
    pairs = list(zip(contest.winners, contest.losers))
    made = sum(len(line) + 1 for line in contest.lines.lines)
    while made < size - 20_000:
        aim = [contest.box.id] + free + [contest.rng.choice(pair) for pair in pairs]
        contest.change(3 + contest.rng.randrange(5), "layer", contest.rng.randrange(10_000), aim)
        made += len(contest.lines.lines[-1]) + 1
    contest.change(0, "shown", False, [])
    return contest.lines.lines


folder = sys.argv[1]
write(folder, "settled_200", settled(200, False))
write(folder, "whole_60", settled(60, True))
write(folder, "crossed_60", crossed(60))
for count, lines in kept((200, 400)).items():
    write(folder, f"kept_{count}", lines)
write(folder, "hidden_aims", hidden(2_000, 7))
write(folder, "changed_aimed", changed(200, 2_000, True))
write(folder, "changed_plain", changed(200, 2_000, False))
write(folder, "bomb", bomb(16 * 1024 * 1024))
