#!/usr/bin/env python3
"""Compares the versions that the program tells with the definitions, on small histories: tests/small_histories.py [PROGRAM].

A history here is a box and some changes of it. A change shows or hides the box, or gives its other attribute one of so many
values. The other attribute is the colour, the layer, the place or the size: they take turns. A change may aim at operations
that it knows. All histories of each size in the table SIZES are tried, but for the names of sites and of values: 592,844.
What is the same by the definitions takes turns, as these names, the order of the lines, and who creates the box.

The definitions are DirectConflict, Conflict, Version and SettledValue of gf_ops: each set of operations is asked. Of the
program are asked `inspect --object all --json` and `status --json`. The second one looks for the versions that are shown,
and for no others. A call takes many histories: each operation of a box knows all boxes before it.

The last line tells how many histories and versions agreed. Else the first one that differs is told, and the status is 1."""

import json
import os
import random
import subprocess
import sys
from functools import lru_cache
from itertools import islice, permutations, product
from multiprocessing import Pool
from pathlib import Path
from typing import NamedTuple

ROOT = Path(__file__).resolve().parent.parent
SITES = 8
SECONDS = 20  # that one call may take
MANY = 2000  # histories that one call takes at most
SHOWN, OTHER = 0, 1  # what a change sets


class Size(NamedTuple):
    """Which histories are tried."""

    changes: int
    sites: int  # that make changes, at most
    shown: bool  # whether changes show and hide
    others: int  # how many values of the other attribute they give
    aim: int  # how many operations an aim has at most
    creation: bool  # whether an aim may name the creation


SIZES = [  # and how many histories these are
    Size(0, 1, True, 2, 0, False),  # 2: the creation alone, shown or hidden
    Size(1, 1, True, 2, 9, True),  # 12
    Size(2, 2, True, 2, 9, True),  # 360
    Size(3, 3, True, 3, 9, True),  # 24,644: any aim, also at the creation
    Size(4, 4, True, 2, 9, False),  # 376,768: any aim at changes
    Size(5, 5, True, 0, 0, False),  # 41,024
    Size(5, 5, False, 3, 0, False),  # 52,562
    Size(5, 2, True, 2, 0, False),  # 69,696
    Size(6, 2, True, 0, 0, False),  # 27,776
]

# The attributes that are the other one in turn, and their values. Of it the creation gives the first or the last value.
VALUES = {
    "colour": ['"aa0000"', '"00bb00"', '"0000cc"', '"dddddd"'],
    "layer": ["0", "1", "2", "3"],
    "place": ["[0,0]", "[0,-1]", "[7,0]", "[7,-1]"],
    "size": ["[1,1]", "[1,2]", "[2,1]", "[2,2]"],
}
FIRST = {name: values[0] for name, values in VALUES.items()}
TRUTHS = ["false", "true"]


# Orders: who knows what.


class Order(NamedTuple):
    """Who makes each change, and how many changes of each site it knows. A change stands behind all that it knows."""

    sites: tuple
    pasts: tuple


def renamed(order, count):
    """The order with the least names of its sites, of which there are so many."""
    changes = list(zip(order.sites, order.pasts))
    chains = [[past for site, past in changes if site == chain] for chain in range(count)]
    return min(
        tuple(tuple(tuple(past[site] for site in names) for past in chains[chain]) for chain in names)
        for names in permutations(range(count)))


def knows_all(order, past):
    """Whether a change with this past knows all that those know which it knows."""
    made = [0] * len(past)
    for site, known in zip(order.sites, order.pasts):
        made[site] += 1
        if made[site] <= past[site] and any(here > there for here, there in zip(known, past)):
            return False
    return True


def longer(order, most):
    """The orders of one more change, by at most so many sites."""
    made = [order.sites.count(site) for site in range(most)]
    for site in range(min(most, len(set(order.sites)) + 1)):
        spans = [range(made[other], made[other] + 1) if other == site else range(made[other] + 1) for other in range(most)]
        for past in product(*spans):
            if knows_all(order, past):
                yield Order(order.sites + (site,), order.pasts + (past,))


@lru_cache(None)
def orders(changes, most):
    """All orders of so many changes by at most so many sites, each once but for the names of sites."""
    if changes == 0:
        return [Order((), ())]
    found = {}
    for shorter in orders(changes - 1, most):
        for order in longer(shorter, most):
            found.setdefault(renamed(order, most), order)
    return list(found.values())


# Histories: what each change gives, and what it aims at. A set of operations is a number: bit 0 stands for the creation,
# and bit k for the k-th change.


class History(NamedTuple):
    """A box. Each value is a pair: what is set, and to which of its values."""

    order: Order
    known: list  # by each operation, as a set
    direct: list  # with which each one conflicts directly
    values: tuple  # of each change
    shown: int  # by the creation
    aims: tuple  # of each operation


def known_sets(order):
    """The operations that each one knows: all changes know the creation."""
    numbers = [order.sites[:index].count(site) + 1 for index, site in enumerate(order.sites)]
    known = [0]
    for past in order.pasts:
        known.append(1 + sum(2 << index for index, site in enumerate(order.sites) if numbers[index] <= past[site]))
    return known


@lru_cache(None)
def members(operations):
    """The numbers of the operations of a set."""
    return [index for index in range(operations.bit_length()) if operations >> index & 1]


def lists_of_values(size):
    """What the changes may give. A value of the other attribute comes behind the ones before it."""
    one = [(SHOWN, 0), (SHOWN, 1)] * size.shown + [(OTHER, value) for value in range(size.others)]
    for values in product(one, repeat=size.changes):
        met = -1
        for attribute, value in values:
            if attribute == OTHER:
                if value > met + 1:
                    break
                met = max(met, value)
        else:
            yield values


def direct_conflicts(known, values):
    """With which operations each one conflicts directly. Of two, the one behind is not known to the other."""
    direct = [0] * len(known)
    for a in range(1, len(known)):
        for b in range(1, a):
            same = values[a - 1][0] == values[b - 1][0]
            if same and values[a - 1] != values[b - 1] and not known[a] >> b & 1:
                direct[a] |= 1 << b
                direct[b] |= 1 << a
    return direct


def may_aim(aim, aims, direct):
    """Whether these operations, which are known, may be an aim beside those that there are."""
    return all(aims[index] & ~aim == 0 and direct[index] & aim == 0 for index in members(aim))


def lists_of_aims(size, known, direct, aims=(0,)):
    """What the operations may aim at, behind the aims of the first ones."""
    if len(aims) == len(known):
        yield aims
        return
    may = known[len(aims)] if size.creation else known[len(aims)] & ~1
    aim = 0
    while True:
        if bin(aim).count("1") <= size.aim and may_aim(aim, aims, direct):
            yield from lists_of_aims(size, known, direct, aims + (aim,))
        if aim == may:
            return
        aim = aim - may & may  # the next part of what may be aimed at


def histories(size, order):
    """All histories of a size with this order."""
    known = known_sets(order)
    for values in lists_of_values(size):
        direct = direct_conflicts(known, values)
        for aims in lists_of_aims(size, known, direct) if size.aim else [(0,) * len(known)]:
            for shown in (0, 1):
                yield History(order, known, direct, values, shown, aims)


# The definitions.


def conflicts(history):
    """With which operations each one conflicts: what it brings conflicts directly with what they bring."""
    brings = [1 << index | aim for index, aim in enumerate(history.aims)]
    found = []
    for brought in brings:
        against = 0
        for index in members(brought):
            against |= history.direct[index]
        found.append(sum(1 << index for index, other in enumerate(brings) if other & against))
    return tuple(found)


@lru_cache(None)
def largest_sets(rivals):
    """The sets whose operations don't conflict, while each other one conflicts with one of them."""
    return [
        chosen for chosen in range(1 << len(rivals))
        if all((chosen >> index & 1 == 1) != (rivals[index] & chosen != 0) for index in range(len(rivals)))]


def last_setters(history, version, attribute):
    """The setters of the attribute in the version that no other one there comes after, and what they give."""
    given = [(SHOWN, history.shown) if attribute == SHOWN else (OTHER, None), *history.values]
    setters = [index for index in members(version) if given[index][0] == attribute]
    last = [a for a in setters if not any(history.known[b] >> a & 1 for b in setters)]
    values = {given[index][1] for index in last}
    if len(values) != 1:
        raise AssertionError(f"a version with several settled values: {history}")
    return last, values.pop()


class Version(NamedTuple):
    """A version of the box, with its settled values."""

    operations: int
    shown: int
    other: int  # nothing for that of the creation
    givers: list  # the last setters of the other attribute


def versions_of(history):
    """All versions of the box, by the definitions."""
    found = []
    for operations in largest_sets(conflicts(history)):
        givers, other = last_setters(history, operations, OTHER)
        found.append(Version(operations, last_setters(history, operations, SHOWN)[1], other, givers))
    return found


# Texts: what is asked, and what has to be told.


class Arrangement(NamedTuple):
    """How a box is written."""

    sites: list  # their names
    creator: int  # the first site that makes changes, or one that makes none
    name: str  # of the other attribute
    first: int  # which of its values the creation gives
    creation: bool  # whether each aim names the creation, too
    places: list  # of the lines: what comes before what it knows waits

    def text(self, value):
        """A value of the other attribute."""
        return VALUES[self.name][self.first if value is None else value]

    def texts(self, value):
        """The values of all attributes, where the other one has this value."""
        return {**FIRST, self.name: self.text(value)}


def arrangements():
    """Ways to write boxes, which are taken in turns."""
    chance = random.Random(1)
    names = chance.choices(list(VALUES), k=101)
    return [
        Arrangement(
            chance.sample(range(SITES), SITES), chance.choice([0, 7]), name, chance.choice([0, 3]),
            chance.choice([False, True]), chance.sample(range(SITES), SITES)) for name in names]


ARRANGEMENTS = arrangements()


class Written(NamedTuple):
    """A box in an input."""

    name: str  # of the object
    lines: list
    versions: list  # lines of what an inspection tells, in any order
    status: tuple  # how many versions, how many of them shown, and who gives the attribute by which these differ


def clock(numbers):
    return ",".join(map(str, numbers))


def spelled(one):
    return f"[{one[0]},{one[1]}]"


def rising(ids):
    return ",".join([spelled(one) for one in sorted(ids)])


def creation_line(history, arrangement, own, past):
    texts = arrangement.texts(None)
    return (
        f'{{"colour":{texts["colour"]},"id":{own},"kind":"box","layer":{texts["layer"]},"op":"create","past":[{clock(past)}],'
        f'"place":{texts["place"]},"shown":{TRUTHS[history.shown]},"size":{texts["size"]}}}')


def change_line(change, arrangement, aim, own, box, past):
    """The line of a change, which is what it sets and to which value, with its aim."""
    attribute, value = change
    name, to = ("shown", TRUTHS[value]) if attribute == SHOWN else (arrangement.name, arrangement.text(value))
    aimed = f'"aim":[{aim}],' if aim else ""
    return f'{{{aimed}"id":{own},"object":{box},"op":"set","past":[{clock(past)}],"set":"{name}","to":{to}}}'


def operation_lines(history, arrangement, have):
    """The ids of the operations and their lines, behind so many of each site, which are counted on."""
    sites = arrangement.sites
    creator = sites[arrangement.creator]
    ids = [(creator + 1, have[creator] + 1)]
    box = spelled(ids[0])
    lines = [creation_line(history, arrangement, box, have)]
    have[creator] += 1
    created = list(have)
    for site, known, change, aim in zip(history.order.sites, history.order.pasts, history.values, history.aims[1:]):
        past = list(created)
        for other, count in enumerate(known):
            past[sites[other]] += count
        own = (sites[site] + 1, past[sites[site]] + 1)
        aimed = rising(ids[index] for index in members(aim)) if aim else ""
        lines.append(change_line(change, arrangement, aimed, spelled(own), box, past))
        ids.append(own)
        have[sites[site]] += 1
    return ids, lines


def version_line(version, ids, arrangement):
    """The line of a version."""
    texts = arrangement.texts(version.other)
    operations = rising(ids[index] for index in members(version.operations))
    return (
        f'{{"colour":{texts["colour"]},"kind":"box","layer":{texts["layer"]},"object":{spelled(ids[0])},'
        f'"operations":[{operations}],"place":{texts["place"]},"shown":{TRUTHS[version.shown]},"size":{texts["size"]}}}')


def written(history, arrangement, have):
    """The box behind so many operations of each site, which are counted on."""
    if arrangement.creation:
        history = history._replace(aims=tuple(aim and aim | 1 for aim in history.aims))
    ids, lines = operation_lines(history, arrangement, have)
    lines = [line for _, line in sorted(zip(arrangement.places, lines))]
    versions = versions_of(history)
    shown = [version for version in versions if version.shown]
    givers = {ids[giver] for version in shown for giver in version.givers}
    differs = len({arrangement.text(version.other) for version in shown}) > 1
    status = (len(versions), len(shown), f"{arrangement.name} [{rising(givers)}]" if differs else "")
    return Written(spelled(ids[0]), lines, [version_line(version, ids, arrangement) for version in versions], status)


# Comparing.


def answer(program, words, lines):
    """The lines that the program tells, or why it told none."""
    try:
        run = subprocess.run([program, *words], input="".join(lines).encode(), capture_output=True, timeout=SECONDS)
    except subprocess.TimeoutExpired:
        return [f"no answer in {SECONDS} seconds"]
    return (run.stdout + run.stderr).decode().splitlines() + [f"status {run.returncode}"] * (run.returncode != 0)


def read(text):
    """The JSON of a line that was told, which is empty where the line is none."""
    try:
        return dict(json.loads(text))
    except ValueError:
        return {}


def compact(value):
    return json.dumps(value, separators=(",", ":"))


def status_of(line):
    """What a line of a status tells, as it stands in Written."""
    differences = [f'{one["attribute"]} {compact(one["operations"])}' for one in line.get("differences", [])]
    return line.get("versions"), line.get("shown"), " ".join(differences)


def by_object(told):
    """The lines by the object of which they tell, and words that are no JSON under no name."""
    found = {}
    for text in told:
        line = read(text)
        if "object" in line or line == {}:
            found.setdefault(compact(line["object"]) if line else "", []).append(text)
    return found


def told_fault(boxes, versions, statuses):
    """The first box of which something else was told: its lines, what was told, and what the definitions say."""
    versions, statuses = by_object(versions), by_object(statuses)
    words = versions.get("", []) + statuses.get("", [])
    for box in boxes:
        told, status = versions.pop(box.name, []), statuses.pop(box.name, [])
        if sorted(told) != sorted(box.versions) or [status_of(read(line)) for line in status] != [box.status]:
            return "\n".join([
                "operations:", *box.lines, "told:", *sorted(told), *status, *words,
                "by the definitions:", *sorted(box.versions),
                f"versions: {box.status[0]}, shown: {box.status[1]}, differences: {box.status[2]}"])
    return "\n".join(["told beside what was asked:", *words, *sum([*versions.values(), *statuses.values()], [])])


def fault_of(program, batch, turn):
    """How what is told of these histories differs from the definitions, or nothing; and how many versions they have."""
    have = [0] * SITES
    boxes = [written(history, ARRANGEMENTS[(turn + n) % len(ARRANGEMENTS)], have) for n, history in enumerate(batch)]
    lines = [line + "\n" for box in boxes for line in box.lines]
    versions = answer(program, ["inspect", "--object", "all", "--json"], lines)
    statuses = answer(program, ["status", "--json"], lines)
    wanted = [line for box in boxes for line in box.versions]
    told = [str((compact(line["object"]), status_of(line))) for line in map(read, statuses) if "object" in line]
    if sorted(versions) == sorted(wanted) and sorted(told) == sorted(str((box.name, box.status)) for box in boxes):
        return None, len(wanted)
    return told_fault(boxes, versions, statuses), 0


def first_fault(program, batch, turn):
    """How the first history that differs does, with as few others before it as may be; and how many versions they have."""
    fault, versions = fault_of(program, batch, turn)
    half = len(batch) // 2
    if fault is None or half == 0:
        return fault, versions
    within = first_fault(program, batch[:half], turn)[0] or first_fault(program, batch[half:], turn + half)[0]
    return within or f"only where all of {len(batch)} boxes are there:\n{fault}", 0


def tried(task):
    """The first fault in the histories of a size with an order, or nothing; and how many histories and versions agreed."""
    program, size, order, turn = task
    all_histories = histories(size, order)
    counts = [0, 0]
    while batch := list(islice(all_histories, MANY)):
        fault, versions = first_fault(program, batch, turn + counts[0])
        if fault is not None:
            return fault, counts
        counts = [counts[0] + len(batch), counts[1] + versions]
    return None, counts


def main():
    path = Path(sys.argv[1] if len(sys.argv) > 1 else os.environ.get("FIGGROUP", ROOT / "bin" / "figgroup"))
    if not path.exists():
        sys.exit(f"no program: {path}")
    tasks = [
        (str(path.resolve()), size, order, turn)
        for size in SIZES for turn, order in enumerate(orders(size.changes, size.sites))]
    sums = [0, 0]
    with Pool(os.cpu_count()) as pool:
        for fault, counts in pool.imap(tried, tasks):
            if fault is not None:
                print(fault, file=sys.stderr)
                sys.exit(1)
            sums = [sums[0] + counts[0], sums[1] + counts[1]]
    print(f"small histories: {sums[0]} with {sums[1]} versions, as the definitions say")
    print(f"{sums[0]} passed, 0 failed")


if __name__ == "__main__":
    main()
