#!/usr/bin/env python3
"""Tries what designers see who resolve conflicts of one object at the same time: tests/resolving.py [PROGRAM].

From each start in STARTS two or three sites draw on the same text. Each takes it with some of the figures, with none, or as
it is. Then all hear of all. Afterwards a version is visible if everybody left its figure, or if it is the topmost one that
somebody left who took others away; and each of these is visible once. All choices are tried, but of four versions three
sites leave one or three. If then one of two sites takes all figures again, as by an undo, or if both do so at the same time,
all versions are visible again, each once. If the other one had changed figures that the first one took away, an undo shows
each figure once, as it was.

Without PROGRAM it is that of FIGGROUP, or the one in bin/. The last line counts the cases."""
from __future__ import annotations

import json
import os
import re
import subprocess
import sys
from collections import Counter
from itertools import combinations, combinations_with_replacement
from multiprocessing import Pool
from pathlib import Path
from typing import Any, NamedTuple

ROOT = Path(__file__).resolve().parent.parent
FIGGROUP = sys.argv[1] if len(sys.argv) > 1 else os.environ.get("FIGGROUP", str(ROOT / "bin" / "figgroup"))
SECONDS = 60  # that one call may take
KNOWS = re.compile(r"(?m)^# figgroup knows .*$")
Id = tuple[int, int]
Version = frozenset[Id]
CREATION = {"op": "create", "id": [1, 1], "past": [0] * 8, "kind": "box", "place": [0, 0], "size": [10, 10],
            "colour": "ff0000", "layer": 0, "shown": True}


def change(identity: Id, past: list[int], attribute: str, to: object, aim: tuple[Id, ...] = ()) -> str:
    """The line of a change of the box."""
    op = {"op": "set", "id": identity, "past": past + [0] * (8 - len(past)), "object": [1, 1], "set": attribute, "to": to}
    return json.dumps({**op, "aim": aim} if aim else op)


BLUE, GREEN = change((1, 2), [1], "colour", "0000ff"), change((2, 1), [1], "colour", "00ff00")
STARTS = {
    "one conflict": [BLUE, GREEN],
    "two conflicts": [BLUE, GREEN, change((1, 3), [2], "place", [50, 0]), change((2, 2), [1, 1], "place", [0, 50])],
    "a conflict within a version": [BLUE, GREEN, change((1, 3), [2, 1], "place", [50, 0], ((1, 2),)),
                                    change((2, 2), [2, 1], "place", [0, 50], ((1, 2),))],
    "three values": [BLUE, GREEN, change((3, 1), [1], "colour", "ffff00")],
    "a conflict of a version that was kept": [BLUE, GREEN, change((1, 3), [2, 1], "shown", False),
                                              change((1, 4), [3, 1], "shown", True, ((1, 2),)),
                                              change((1, 5), [4, 1], "place", [50, 0]),
                                              change((2, 2), [4, 1], "place", [0, 50])],
}


def ask(words: list[str], given: str) -> str:
    """What the program answers."""
    return subprocess.run([FIGGROUP, *words], input=given, capture_output=True, text=True, check=True, timeout=SECONDS).stdout


class Start(NamedTuple):
    """A history, its named text up to the first figure, and its figures and their versions, the topmost first."""

    lines: str
    head: str
    figures: list[str]
    versions: list[Version]

    def taken(self, site: int, left: tuple[int, ...], changed: tuple[int, ...] = ()) -> str:
        """The lines by which a site takes the text with these figures, of which it changed some."""
        figures = [changed_figure(figure) if i in changed else figure for i, figure in enumerate(self.figures) if i in left]
        return ask(["take", "--site", str(site)], self.lines + self.head + "".join(figures))

    def taken_again(self, site: int, made: str) -> str:
        """The lines by which a site takes all figures again after these were made, as a page does: if some come back, those
        that are there name their creation, too."""
        text = ask(["fig", "--named"], self.lines + made)
        there = {name_of(figure) for figure in cut(text)[1:]}
        back = any(name_of(figure) not in there for figure in self.figures)
        figures = [figure.replace("\n", "\n# figgroup with 1.1\n", 1) if back and name_of(figure) in there else figure
                   for figure in self.figures]
        head = KNOWS.sub(KNOWS.findall(text)[0], self.head)
        return ask(["take", "--site", str(site)], self.lines + made + head + "".join(figures))

    def visible(self, lefts: tuple[tuple[int, ...], ...]) -> list[Version]:
        """The versions that are to be visible if each site leaves these figures."""
        everything = tuple(range(len(self.versions)))
        stay = {i for i in everything if all(i in left for left in lefts)}
        stay |= {left[0] for left in lefts if left and left != everything}
        return [self.versions[i] for i in sorted(stay)]


def shown(lines: str) -> list[dict[str, Any]]:
    """What the program says of the visible versions of the box, the topmost first."""
    versions = map(json.loads, ask(["inspect", "--object", "1.1", "--json"], lines).splitlines())
    return [version for version in versions if version["shown"]]


def visible(lines: str) -> list[Version]:
    """The visible versions of the box, the topmost first."""
    return [frozenset((site, number) for site, number in version["operations"]) for version in shown(lines)]


def looks(lines: str) -> list[str]:
    """How the visible versions of the box look."""
    return sorted(f"{version['colour']} at {version['place']}" for version in shown(lines))


def cut(text: str) -> list[str]:
    """A named text up to its first figure, and its figures with their names."""
    return re.split(r"(?m)^(?=# figgroup \d)", text)


def name_of(figure: str) -> str:
    """The name of a figure, without its depth."""
    return re.sub(" at [0-9]+", "", figure.partition("\n")[0])


def changed_figure(figure: str) -> str:
    """The figure elsewhere, in another colour."""
    lines = figure.split("\n")
    at = next(i for i, line in enumerate(lines) if not line.startswith("#"))
    first = lines[at].split(" ")
    lines[at] = " ".join([*first[:4], "6", "6", *first[6:]])
    lines[at + 1] = "\t " + " ".join(str(int(word) + 7) for word in lines[at + 1].split())
    return "\n".join(lines)


def begun(changes: list[str]) -> Start:
    lines = "\n".join([json.dumps(CREATION), *changes, ""])
    head, *figures = cut(ask(["fig", "--named"], lines))
    return Start(lines, head, figures, visible(lines))


class Case(NamedTuple):
    """What sites leave at the same time, which of them undo it then, and the lines that they made of the former."""

    title: str
    start: Start
    lefts: tuple[tuple[int, ...], ...]
    undo: tuple[int, ...]
    made: str
    changed: tuple[int, ...] = ()  # which figures the second site changed


def fault(case: Case) -> str | None:
    """What is visible otherwise than it is to be."""
    known = frozenset().union(*case.start.versions)
    again = "".join(case.start.taken_again(site, case.made) for site in case.undo)
    lines = case.start.lines + case.made + again
    if case.changed:
        same = looks(lines) == looks(case.start.lines)
        return None if same else f"{case.title}: the second site changed {case.changed}: visible are {looks(lines)}"
    found = Counter(version & known for version in visible(lines))
    wanted = Counter(case.start.versions if case.undo else case.start.visible(case.lefts))
    if found == wanted:
        return None
    told = [sorted(sorted(version) for version in counted.elements()) for counted in (found, wanted)]
    return f"{case.title}: sites leave {case.lefts}, and {case.undo} undo it: visible are {told[0]}, and not {told[1]}"


def cases() -> list[Case]:
    found = []
    for title, changes in STARTS.items():
        start = begun(changes)
        count = len(start.versions)
        choices = [left for n in range(count + 1) for left in combinations(range(count), n)]
        for changed in choices[1:]:
            lines = start.taken(1, ()) + start.taken(2, choices[-1], changed)
            found.append(Case(title, start, ((), choices[-1]), (1,), lines, changed))
        for sites in (2, 3):
            if sites == 3 and count > 3:
                choices = [left for left in choices if len(left) in (0, 1, 3, count)]
            made = {(site, left): start.taken(site, left) for site in range(1, sites + 1) for left in choices}
            for lefts in combinations_with_replacement(choices, sites):
                lines = "".join(made[site, left] for site, left in enumerate(lefts, 1))
                undos = [(), (1,), (2,), (1, 2)] if sites == 2 and all(len(left) < count for left in lefts) else [()]
                found += [Case(title, start, lefts, undo, lines) for undo in undos]
    return found


def main() -> None:
    tried = cases()
    with Pool() as pool:
        faults = [told for told in pool.map(fault, tried, 16) if told]
    print("\n".join(faults[:20]), file=sys.stderr)
    print(f"{len(tried) - len(faults)} passed, {len(faults)} failed")
    sys.exit(1 if faults else 0)


if __name__ == "__main__":
    main()
