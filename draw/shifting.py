"""The figures of objects, in the text of `fig --named`, are moved or copied."""
import re

import folder
import ids
import names
import own
from listing import figures, names_figure
from telling import Failure, fail

BEYOND = re.compile(r'figgroup: drawing line \d+: (?:Place|Range): (.*) (?:lies|has a point) beyond \d+: move it')


def word_move(dx, dy, *words):
    shift(int(dx), int(dy), words, copies=False)


def word_copy(dx, dy, *words):
    shift(int(dx), int(dy), words, copies=True)


def shift(dx, dy, words, copies):
    """Takes the drawing with objects moved, or with copies of them in front of them."""
    with own.Work() as work:
        text = folder.over_lines('fig', '--named', read=work.lines)
        shown = {object for object, _, _ in figures(text)}
        wanted = names.chosen(words, lambda: shown)
        for object in wanted:
            if object not in shown:
                fail(f'there is no shown object {ids.name(object)}: draw list names what is shown')
        try:
            work.apply('take', shifted(text.decode(), set(wanted), dx, dy, copies).encode())
        except Failure as failure:
            raise Failure(*(in_words(line, dx, dy) for line in failure.lines))


def in_words(line, dx, dy):
    """What is told of a figure that would lie too far, in the words of who moves it."""
    beyond = BEYOND.fullmatch(line)
    return f'draw: {dx} {dy} is too far: {beyond[1]} would lie beyond 1000000' if beyond else line


def shifted(text, wanted, dx, dy, copies):
    """A text in which the figures of these objects stand elsewhere, or copies of them."""
    found, chosen, head = [], False, ''
    for line in text.splitlines():
        words = line.split()
        if names_figure(words):
            chosen = ids.read_id(words[2]) in wanted
        if not chosen or line.startswith('#'):
            found.append(line)
            continue
        if copies:
            found.append(line)
        if line.startswith('2 '):
            head = line
            continue
        if line.startswith('1 '):
            moved(words, 12, 14, dx, dy)
            moved(words, 16, 20, dx, dy)
        else:
            moved(words, 0, len(words), dx, dy)
            found.append(head)
        found.append(' '.join(words))
    return '\n'.join(found) + '\n'


def moved(words, first, last, dx, dy):
    for at in range(first, last, 2):
        words[at], words[at + 1] = str(int(words[at]) + dx), str(int(words[at + 1]) + dy)
