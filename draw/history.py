"""What the last words made, in drawing.last: the newest first, with sums, then what can be undone and redone.

    2.4 2.5 SUM-OF-ITS-LINES SUM-OF-THE-DRAWING-THAT-IT-TOOK
    undo 2.1-2.1 2.4-2.5
    redo
"""
import hashlib
import os

import folder
import ids
from operations import Operation

FILE = 'drawing.last'
MOST_WORDS = 100
MOST_BYTES = 10_000


class History:
    """The first and the last operation of the last word, sums of its lines and of the drawing that it took, and the
    first and the last operation of each word that can be undone or redone."""

    def __init__(self, first, last, lines, drawing, spans):
        self.first, self.last, self.lines, self.drawing, self.spans = first, last, lines, drawing, spans

    def span(self):
        return ids.span(self.first, self.last)

    def is_made(self, text):
        """Whether the own file ends with what is noted."""
        count = self.last[1] - self.first[1] + 1
        return sum_of(b''.join(text.splitlines(keepends=True)[-count:])) == self.lines

    def text(self):
        lines = [f'{ids.name(self.first)} {ids.name(self.last)} {self.lines} {self.drawing}']
        for word, spans in self.spans.items():
            words = [f'{ids.name(first)}-{ids.name(last)}' for first, last in spans[-MOST_WORDS:]]
            lines.append(' '.join([word, *words]))
        return ''.join(f'{line}\n' for line in lines).encode()


def read():
    """What is noted, or None. Where there is one line alone, as draw wrote before, it is what can be undone."""
    if not os.path.isfile(FILE):
        return None
    words = [line.split() for line in folder.content(FILE, MOST_BYTES).decode(errors='replace').split('\n')]
    head = [*words[0], '', '', '', ''][:4]
    span = ids.read_range('-'.join(head[:2]))
    if not span:
        return None
    found = {line[0]: [span for span in map(ids.read_range, line[1:]) if span] for line in words[1:] if line}
    return History(*span, *head[2:], {'undo': found.get('undo', [span]), 'redo': found.get('redo', [])})


def of(new, drawing, spans):
    """The note of new lines, made of the drawing of this sum, if of one."""
    lines = new.splitlines()
    first, last = Operation(lines[0]).id, Operation(lines[-1]).id
    return History(first, last, sum_of(new), drawing, spans((first, last)))


def sum_of(text):
    return hashlib.sha256(text).hexdigest()
