"""The own file of this copy, to which one word at a time adds operations, all or none."""
import fcntl
import os
import signal
import time

import explaining
import folder
import history
import ids
import made
import sharing
import storing
from calls import figgroup
from operations import ODD, Operation
from sitefile import SiteFile, part_of
from telling import Failure, fail, lines_of, say, tell

WAIT = 60  # seconds, for a file that another program has locked
WATCH = 0.3  # seconds, in which a watch looks whether a word is at work
SIGNALS = (signal.SIGINT, signal.SIGTERM, signal.SIGHUP)


class OwnFile:
    """The file of the site of this copy. What is read, made and added while it is locked is one step for all who lock
    it, as the server of the page does."""

    def __init__(self):
        self.site = folder.site()
        if self.site is None:
            fail('whose copy is this? draw site N says it')
        self.file = SiteFile('', self.site)
        self.name = self.file.name
        sharing.exclude('site', 'drawing.*')
        self.lock()
        if not (self.text() or b'\n').endswith(b'\n'):
            fail(f'the last line of {self.name} has no end: if it is whole, echo >> {self.name}')

    def lock(self) -> None:
        if not os.path.isfile(self.name):
            fail(f'{self.name} is lost: fetch it, as by git checkout {self.name}')
        if not (os.access(self.name, os.W_OK) and os.access('.', os.W_OK)):
            fail(f"{self.name} or its folder can't be written to")
        end = time.monotonic() + WAIT
        while not (held := self.file.lock()):
            if time.monotonic() > end:
                fail(f'another program has locked {self.name}')
            time.sleep(0.02)
        self.held = held
        if os.path.exists(self.file.redo):
            folder.whole(self.file.redo)
        try:
            self.file.finish_append(held)
        except OSError:
            fail(f"{self.name} can't grow: is the disk full? The next word adds the rest of what the page made")

    def unlock(self):
        self.held.close()

    def text(self):
        return folder.whole(self.name)

    def last(self):
        """The id of the last operation; number 0 where there is none."""
        lines = [line for line in self.text().splitlines() if line.strip()]
        try:
            return Operation(lines[-1]).id if lines else (self.site, 0)
        except ODD:
            raise Failure(*explaining.why(b'draw: the last line of the own file is no operation\n', folder.lines()))


def alone():
    """The lock of one word at a time: a drawing that is open would undo what another word makes."""
    lock, end = open('site'), time.monotonic() + WATCH
    while True:
        try:
            fcntl.flock(lock, fcntl.LOCK_EX | fcntl.LOCK_NB)
            return lock
        except BlockingIOError:
            if time.monotonic() > end:
                fail('another draw is at work here: close its window first')
            time.sleep(0.02)


class Work:
    """A word that makes operations. It is noted in drawing.word, so that the next one tells of it if it was killed."""

    def __init__(self, with_drawing=False):
        self.with_drawing = with_drawing  # whether a drawing that was not taken is this word's

    def __enter__(self):
        self.own = OwnFile()
        self.site = self.own.site
        self.lock = alone()
        sharing.keep_committed(self.own.name)
        self.tell_stopped()
        if os.path.exists('drawing.fig') and not self.with_drawing:
            fail('drawing.fig is not taken yet: draw opens it, rm drawing.fig gives it up')
        self.lines = folder.lines()
        last = ids.name(self.own.last())
        for number in SIGNALS:
            signal.signal(number, end)
        try:
            with open('drawing.word', 'w') as word:
                word.write(f'behind {last}\n')
        except OSError:
            self.__exit__()
            fail('no file can be written, and nothing was made: is the disk full?')
        return self

    def __exit__(self, *_):
        for path in ['drawing.word', *map(part_of, (self.own.name, 'drawing.last', 'drawing.fig'))]:
            if os.path.lexists(path):
                os.unlink(path)

    def tell_stopped(self):
        """Tells what a word made that was killed, and takes away a drawing that it had taken."""
        last = history.read()
        is_made = last is not None and last.is_made(self.own.text())
        if os.path.exists('drawing.word'):
            before = folder.content('drawing.word', 100).decode(errors='replace').split()[1:]
            known = before and before != [ids.name(self.own.last())]
            tell('the word before was stopped, and made ' + (last.span() if known and is_made else 'nothing'))
            os.unlink('drawing.word')
        if os.path.exists('drawing.fig') and is_made and last.drawing == drawing_sum():
            tell(f'drawing.fig was taken, as {last.span()}')
            forget_drawing()

    def make(self, verb, text, lines=None):
        """The operations that an edit makes of commands, or a take of a drawing, and what is told of them."""
        lines = self.lines if lines is None else lines
        status, new, said = figgroup(verb, '--site', self.site, read=lines + text)
        if status:
            raise Failure(*explaining.why(said, lines, text, self.site))
        return new, lines_of(said)

    def add(self, new, said, spans=None):
        """Notes which operations come, adds them to the own file, and tells it. `spans` tells what can then be undone
        and redone."""
        if new:
            text = self.own.text()
            noted = history.of(new, drawing_sum(), spans or self.spans_of_word)
            for number in SIGNALS:  # from here on only a kill comes between
                signal.signal(number, signal.SIG_IGN)
            storing.prepare(self.own.name, text + new)
            storing.prepare(history.FILE, noted.text())
            storing.place(history.FILE)
            storing.place(self.own.name)
        for line in made.told(said, new, self.lines):
            say(line)

    def spans_of_word(self, span):
        """Behind a word nothing can be redone, and the words before it be undone if nothing came between."""
        last = history.read()
        before = last.spans['undo'] if last and last.is_made(self.own.text()) else []
        return {'undo': [*before, span], 'redo': []}

    def apply(self, verb, text):
        """Makes the operations, all or none, and adds them."""
        self.add(*self.make(verb, text))


def end(number, _):
    """Ends the word by a signal, and takes away what it noted."""
    raise SystemExit(128 + number)


def drawing_sum():
    """The sum of the drawing that is open or left, if there is one."""
    return history.sum_of(folder.content('drawing.fig')) if os.path.exists('drawing.fig') else ''


def forget_drawing():
    for name in ('drawing.fig', 'drawing.fig.bak'):
        if os.path.lexists(name):
            os.unlink(name)
