"""What is wrong with the site files of a commit, which a pull would bring here, or a push to the others."""
import re
from itertools import count
from typing import Iterator, NamedTuple

import ids
import sharing
from calls import figgroup
from folder import is_site_file, joined
from operations import ODD, Operation
from telling import lines_of, quoted

OF_SITE = re.compile(r'site-[1-8]\.jsonl')
OF_OPERATION = re.compile(r'operation (\d+)\.(\d+): ')
OF_LINE = re.compile(r'line (\d+): ')
IN_LINE = re.compile(r'\bin line (\d+)\b')
NOWHERE = 'site-*.jsonl', 0  # of what concerns all files


class Fault(NamedTuple):
    """A line of a site file, and what is wrong with it. Line 0 is the whole file."""

    name: str
    line: int
    words: str


class Placed(NamedTuple):
    """An operation, by its file and its line there."""

    name: str
    line: int
    id: tuple[int, int]
    past: list[int]


class SiteFiles:
    """The site files of a commit, or of a tree."""

    def __init__(self, tree: str) -> None:
        names = [name for _, _, name in sharing.listed(tree) if is_site_file(name)]
        self.lines = {name: sharing.shown(tree, name).split(b'\n') for name in names}
        self.text = joined(map(b'\n'.join, self.lines.values()))

    def faults(self) -> list[Fault]:
        """Lines that figgroup refuses; then operations of another site; then those that wait for one that is not there."""
        status, told, said = figgroup('check', read=self.text)
        if status:
            return [self.fault(line) for line in lines_of(told)] or [Fault(*NOWHERE, ' '.join(lines_of(said)))]
        operations = list(self.operations())
        return list(foreign(operations)) or list(waiting(operations))

    def operations(self) -> Iterator[Placed]:
        """Each operation with its file and its line. Lines that are none are passed over."""
        for name, lines in self.lines.items():
            for number, line in enumerate(lines, 1):
                try:
                    if line.strip():
                        operation = Operation(line)
                        yield Placed(name, number, operation.id, operation.past)
                except ODD:
                    continue

    def fault(self, told: str) -> Fault:
        """What a check of all files together tells, with the file and its own line."""
        of_operation, of_line = OF_OPERATION.match(told), OF_LINE.match(told)
        if of_operation:
            id = int(of_operation[1]), int(of_operation[2])
            places = ((each.name, each.line) for each in self.operations() if each.id == id)
            return Fault(*next(places, NOWHERE), told)
        if of_line:
            words = IN_LINE.sub(lambda other: 'in {} line {}'.format(*self.place(int(other[1]))), told.partition(': ')[2])
            return Fault(*self.place(int(of_line[1])), words)
        return Fault(*NOWHERE, told)

    def place(self, number: int) -> tuple[str, int]:
        """The file and its own line of a line of all files together."""
        for name, lines in self.lines.items():
            count = len(lines) - (lines[-1] == b'')
            if number <= count:
                return name, number
            number -= count
        return NOWHERE


def foreign(operations: list[Placed]) -> Iterator[Fault]:
    """Operations that are not of the site of their file."""
    for each in operations:
        if OF_SITE.fullmatch(each.name) and each.name != f'site-{each.id[0]}.jsonl':
            yield Fault(each.name, each.line, f'operation {ids.name(each.id)} is of another site')


def waiting(operations: list[Placed]) -> Iterator[Fault]:
    """Operations of which the past counts one that is in no file."""
    there = {each.id for each in operations}
    have = [next(number for number in count() if (site, number + 1) not in there) for site in range(1, 9)]
    for each in operations:
        missing = [(site, known + 1) for site, known, past in zip(count(1), have, each.past) if past > known]
        if missing:
            yield Fault(each.name, each.line, f'operation {ids.name(each.id)} waits for {ids.name(missing[0])}')


def new_faults(before: str, tree: str) -> list[Fault]:
    """What is wrong with a tree, but for lines that were wrong in the commit before."""
    faults = SiteFiles(tree).faults()
    known = {(fault.name, fault.line) for fault in SiteFiles(before).faults()} if faults and before else set()
    return [fault for fault in faults if (fault.name, fault.line) not in known]


def told(faults: list[Fault], brought: str) -> str:
    """The first of these faults, and who committed its line, up to the commit that brought it."""
    first, more = faults[0], len(faults) - 1
    who = sharing.author_of_line(brought, first.name, first.line) or 'others'
    line = f'{quoted(first.name)} line {first.line}, by {who}' if first.line else first.name
    return f'{line}: {first.words}' + (f'; and {more} more' if more else '')
