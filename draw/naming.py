"""Names are given and told, in files of lines that all share."""
import os

import folder
import ids
import names
import own
import storing
from telling import fail, write


def word_name(name=None, *words):
    """Lists all names, tells one, or gives objects a name in place of those that it had."""
    known = names.known()
    if not words:
        told = known.objects if name is None else [name]
        for each in told:
            if each not in known.objects:
                fail(f'there is no name {each}: draw name lists all')
            write(' '.join([each, *ids.ranges(known.objects[each])]))
        return
    for word in words:
        if names.is_name(word):
            fail(f'{word} is a name, and a name has ids and ranges alone')
    members = {id for word in words for id in names.ids_of(word)}
    if len(members) > ids.LAST:
        fail(f'a name has at most {ids.LAST} objects')
    with own.alone():
        replace_lines('names', [line_of(name, members)])


def line_of(name, members):
    return ' '.join([name, *ids.ranges(members)])


def replace_lines(file, lines):
    """Puts lines into a file in place of all that begin with the same words."""
    text = folder.content(file, names.MOST_BYTES) if os.path.isfile(file) else b''
    lines = [line.encode() for line in lines]
    begins = [line.split()[0] for line in lines]
    kept = [old for old in text.splitlines() if old.strip() and old.split()[0] not in begins]
    new = b''.join(line + b'\n' for line in kept + lines)
    if max(len(text), len(new)) > names.MOST_BYTES:
        fail(f'{file} would have more than {names.MOST_BYTES} bytes: take lines out')
    storing.put(file, new)
