"""Drawings that figgroup does not hold, made plain by plain.awk."""
import os
import tempfile

from calls import run
from telling import Failure, lines_of

HERE = os.path.dirname(os.path.abspath(__file__))
SCRIPTS = [os.path.join(HERE, *way, 'plain.awk') for way in (['..', 'share', 'figgroup'], ['..'])]


def make_plain(drawing):
    """The drawing made plain, what is told of it, and a line `NAME FIRST LAST` for figures that were one object."""
    script = next(filter(os.path.exists, SCRIPTS))
    with tempfile.TemporaryDirectory() as folder:
        groups = os.path.join(folder, 'groups')
        status, text, said = run('awk', '-v', f'groups={groups}', '-f', script, read=drawing)
        found = []
        if os.path.exists(groups):
            with open(groups) as file:
                found = file.read().splitlines()
    if status:
        raise Failure(*lines_of(said))
    return text, lines_of(said), found
