"""What keeps the site of this copy from drawing, and what to do: a line each."""
import os
import re

import folder
import own
import sharing
from calls import figgroup
from ids import LAST
from incoming import SiteFiles
from telling import Failure, fail, lines_of

WAITS = re.compile(r'figgroup: operation (\d)\.(\d+) waits for (\S+)')
AT_FAULT = re.compile(r'draw: (site-[1-8]\.jsonl) line (\d+): ')


def told(site: int, lines: bytes) -> list[str]:
    found = []
    for look in (own_file, two_copies, drawing, operations):
        try:
            look(site, lines)
        except Failure as failure:
            found += failure.lines
    return found


def own_file(site: int, lines: bytes) -> None:
    """The own file is here and can be written to, and has what was committed; and no file of one copy was."""
    file = own.OwnFile()
    file.unlock()
    sharing.keep_committed(file.name)
    if file.last()[1] == LAST:
        fail(f'site {site} has made its {LAST} operations: use another number, or draw anew FOLDER')


def two_copies(site: int, lines: bytes) -> None:
    """What was fetched of the own file goes on where this one ends, or ends before."""
    name = f'site-{site}.jsonl'
    theirs = sharing.shown(sharing.fetched(), name) if sharing.in_git() else b''
    mine = folder.content(name) if os.path.isfile(name) else theirs
    if not mine.startswith(theirs) and not theirs.startswith(mine):
        fail(f'two copies wrote to {name}: one of them takes another number: docs/FAULTS.md')


def drawing(site: int, lines: bytes) -> None:
    own.alone().close()
    if os.path.exists('drawing.fig'):
        fail('drawing.fig is not taken yet: draw opens it, rm drawing.fig gives it up')


def operations(site: int, lines: bytes) -> None:
    """An edit of this site would be taken. What is wrong with a line is told with the drawing."""
    status, _, said = figgroup('edit', '--site', site, read=lines)
    waits = WAITS.match(said.decode(errors='replace')) if status else None
    if waits:
        who = author((int(waits[1]), int(waits[2])))
        fail(f'site {site} draws again when {waits[3]} is here, for which operation {waits[1]}.{waits[2]} waits: '
             + (f'draw pull brings it, or {who} takes {waits[1]}.{waits[2]} back: docs/FAULTS.md' if who else
                f'fetch site-{waits[3][0]}.jsonl, whole'))


def author(id: tuple[int, int]) -> str:
    """Who committed the line of an operation, if it is committed."""
    if not sharing.in_git():
        return ''
    places = (each for each in SiteFiles('HEAD').operations() if each.id == id)
    return next((sharing.author_of_line('HEAD', each.name, each.line) for each in places), '')


def by_whom(told_lines: list[str]) -> list[str]:
    """Who committed the first line at fault, if it is committed as it is here."""
    for told_line in told_lines:
        fault = AT_FAULT.match(told_line)
        if fault and sharing.in_git():
            name, number = fault[1], int(fault[2])
            committed, here = (text.split(b'\n')[:number] for text in (sharing.shown('HEAD', name), folder.content(name)))
            if committed == here:
                who = sharing.author_of_line('HEAD', name, number)
                return [f'draw: {who} committed line {number} of {name}, and takes it back or mends it: docs/FAULTS.md']
            return [f'draw: line {number} of {name} is not committed: git diff {name} shows it; docs/FAULTS.md']
    return []
