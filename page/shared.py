"""The files `designers` and `names`, which all copies of a drawing share, in the formats of draw."""
import os

import designers
import ids
import names
from telling import tell


class Shared:
    """Who draws as which site, and the objects of each name, as the files have them."""

    def __init__(self) -> None:
        self.designers: dict[int, str] = {}
        self.objects: dict[str, list[str]] = {}
        self.states = {'designers': (0, 0, 0), 'names': (0, 0, 0)}

    def read_designers(self) -> bool:
        """Reads the file if it changed. Reports whether it did."""
        if not self.has_changed('designers'):
            return False
        self.designers = {} if is_link('designers') else designers.listed()
        return True

    def read_names(self) -> bool:
        if not self.has_changed('names'):
            return False
        known = {} if is_link('names') else names.known().objects
        self.objects = {name: [ids.name(id) for id in sorted(objects)] for name, objects in known.items()}
        return True

    def has_changed(self, file: str) -> bool:
        try:
            found = os.lstat(file)
            state = found.st_ino, found.st_size, found.st_ctime_ns
        except OSError:
            state = 0, 0, 0
        old, self.states[file] = self.states[file], state
        return old != state


def is_link(file: str) -> bool:
    """Whether a file is a link, which others may have committed. It is not followed, which is reported."""
    if os.path.islink(file):
        tell(f'{file} is a link, which is not followed: rm {file}')
        return True
    return False
