"""The window: the drawing opens in xfig, and what was saved is taken when it closes."""
import os
import re

import folder
import own
import settling
import storing
from calls import run_here
from ids import LAST
from plain import make_plain
from telling import Failure, fail, say, tell

XFIG = 'xfig -startfillstyle 20 -startlinewidth 0'
COMPOUND = re.compile(r'figgroup: drawing line \d+: Object: (compound at \S+): break it up')


def word_window():
    with own.Work(with_drawing=True) as work:
        settling.tell_unsettled(work.lines, work.site)
        try:
            ask(work)
        except Failure as failure:
            raise stays(failure) if os.path.exists('drawing.fig') else failure
        written = open_drawing(work)
        work.own.unlock()  # while the window is open the page may write to the own file
        edit(work, written)
        work.own.lock()
        work.lines = folder.lines()
        take(work, folder.whole('drawing.fig'))


def ask(work):
    """Whether operations could be made here, told before a window opens and not behind what is drawn there."""
    work.make('edit', b'')
    if work.own.last()[1] == LAST:
        fail(f'site {work.site} has made its {LAST} operations: use another number')


def open_drawing(work):
    """What is written for the window, or None where a drawing was not taken yet."""
    if os.path.exists('drawing.fig'):
        tell('drawing.fig was not taken yet, and opens again')
        return None
    written = folder.over_lines('fig', '--named', read=work.lines)
    storing.put('drawing.fig', written)
    return written


def edit(work, written):
    editor = os.environ.get('FIG_EDITOR') or XFIG
    os.set_inheritable(work.lock.fileno(), True)  # an editor that outlives this word keeps others out
    status = run_here('/bin/sh', '-c', editor + ' "$@"', editor, 'drawing.fig')
    os.set_inheritable(work.lock.fileno(), False)
    if status == 0:
        return
    if os.path.exists('drawing.fig') and folder.content('drawing.fig') == written:
        os.unlink('drawing.fig')
    if status == 127:
        fail('there is no such editor: apt-get install xfig, or name another in FIG_EDITOR')
    if os.path.exists('drawing.fig'):
        fail(f'the editor ended with status {status}: draw opens drawing.fig again, and takes it')
    fail(f'the editor ended with status {status}, and the drawing is as it was')


def take(work, drawing):
    """Takes a drawing, of which compounds alone are broken up. One that is refused stays."""
    try:
        made = make(work, drawing)
    except Failure as failure:
        raise stays(failure)
    work.add(*made)
    own.forget_drawing()


def make(work, drawing):
    try:
        return work.make('take', drawing)
    except Failure as failure:
        compounds = list(map(COMPOUND.fullmatch, failure.lines))
        if not compounds or not all(compounds):
            raise
    made = work.make('take', make_plain(drawing)[0])
    for compound in compounds:
        tell(f'the {compound[1]} is broken up')
    return made


def stays(failure):
    """What to do with a drawing that was refused."""
    if any(': drawing older than ' in line for line in failure.lines):
        words = ('To keep what it has, mv drawing.fig kept.fig, and draw opens the newest drawing: '
                 'do it again there, or merge kept.fig in xfig and delete what is double. rm drawing.fig gives it up')
        return Failure(*failure.lines, f'draw: drawing.fig stays. {words}')
    words = 'draw opens it again, draw plain changes what is refused, rm drawing.fig gives it up'
    return Failure(*failure.lines, f'draw: drawing.fig stays: {words}')


def word_plain():
    """Takes the drawing that was refused, without what figgroup does not hold."""
    with own.Work(with_drawing=True) as work:
        if not os.path.exists('drawing.fig'):
            fail('no drawing was refused')
        text, told, _ = make_plain(folder.whole('drawing.fig'))
        for line in told:
            say(line)
        take(work, text)
