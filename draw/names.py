"""Names of objects, in the file `names`: `car 2.5-2.12 1.3`, a line each. Others write it, too."""
import os

import folder
import ids
from telling import fail, printable, tell

MOST_BYTES = 100_000
MOST_OBJECTS = 100_000  # of all lines together
MOST_TOLD = 10
MOST_SIGNS = 40


def is_name(word):
    signs = word.replace('-', '').replace('_', '')
    return word.isascii() and word[:1].isalpha() and len(word) <= MOST_SIGNS and signs.isalnum()


def ids_of(word):
    """The ids that an id or a range means, or None."""
    one, both = ids.read_id(word), ids.read_range(word)
    return [one] if one else ids.within(*both) if both else None


class Names:
    """The objects of each name. A name on two lines has those of both, as two may have named them at once."""

    def __init__(self):
        self.objects, self.of, self.count, self.faults = {}, {}, 0, []
        for number, line in enumerate(read_lines('names'), 1):
            if line.strip():
                fault = self.add(line.split())
                if fault:
                    self.faults.append(f'names line {number}: {fault}')

    def add(self, words):
        """What is wrong with the words of a line, or None."""
        if not is_name(words[0]):
            return f'a name begins with a letter, and has letters, digits, - and _, at most {MOST_SIGNS}'
        found = set()
        for word in words[1:]:
            members = ids_of(word)
            if members is None:
                return f'{printable(word[:40])} is no object as 1.6, nor a range of one site as 1.6-1.13'
            self.count += len(members)
            if self.count > MOST_OBJECTS:
                return f'with it the names have more than {MOST_OBJECTS} objects'
            found.update(members)
        self.objects.setdefault(words[0], set()).update(found)
        for id in found:
            self.of.setdefault(id, words[0])
        return None

    def label(self, id):
        """An object with its name, if it has one."""
        return f'{self.of[id]} {ids.name(id)}' if id in self.of else ids.name(id)

    def words(self, objects, there):
        """Words that mean these objects, of those that are there: names of which all are meant, ids and ranges."""
        left, words = set(objects), []
        for name, of_name in self.objects.items():
            known = of_name & there
            if known and known <= left:
                words.append(name)
                left -= known
        return words + ids.ranges(left)

    def labels(self, objects, there):
        """The same, to be read: an object that stands alone with the name that it shares."""
        labels = []
        for word in self.words(objects, there):
            id = ids.read_id(word)
            labels.append(self.label(id) if id else word)
        return labels


def read_lines(name):
    """The lines of a file that others write, too; one that is too long has none, and that is told."""
    if not os.path.isfile(name):
        return []
    text = folder.content(name, MOST_BYTES)
    if len(text) > MOST_BYTES:
        tell(f'{name} has more than {MOST_BYTES} bytes, and is not read')
        return []
    return text.decode(errors='replace').split('\n')


def tell_faults(name, faults):
    for fault in faults[:MOST_TOLD]:
        tell(fault)
    if len(faults) > MOST_TOLD:
        tell(f'{name} has {len(faults) - MOST_TOLD} more lines like these')


def known():
    """The names of this drawing; lines at fault are told, and left out."""
    names = Names()
    tell_faults('names', names.faults)
    return names


def chosen(words, find):
    """The objects that words mean: ids as they are, of ranges and names those that are there, which `find` finds."""
    names, objects = None, {}
    there = set() if all(map(ids.read_id, words)) else find()
    for word in words:
        id = ids.read_id(word)
        members = [id] if id else ids_of(word)
        if members is None:
            names = names or known()
            if word not in names.objects:
                fail(f'there is no name {word}: draw name lists all')
            members = sorted(names.objects[word])
        found = [member for member in members if member == id or member in there]
        if not found:
            fail(f'none of {word} is there: draw list names what is shown')
        objects.update(dict.fromkeys(found))
    return list(objects)
