"""Who draws as which site: the file `designers`, a line each as `1 Ann`; else the author of the site's file in git."""
import sharing
from names import read_lines, tell_faults

MOST_SIGNS = 40


def listed():
    """The names that the file gives. Lines that give none are told, and left out."""
    found, faults = {}, []
    for number, line in enumerate(read_lines('designers'), 1):
        site, _, name = line.strip().partition(' ')
        if site in tuple('12345678') and is_name(name):
            found.setdefault(int(site), name)
        elif line.strip():
            faults.append(f'designers line {number}: it has to be as 1 Ann, of at most {MOST_SIGNS} letters')
    tell_faults('designers', faults)
    return found


def is_name(name):
    return 0 < len(name) <= MOST_SIGNS and name.isprintable() and name == name.strip()


class Designers:
    def __init__(self):
        self.names = listed()

    def name(self, site):
        if site not in self.names:
            self.names[site] = sharing.author(f'site-{site}.jsonl') or f'site {site}'
        return self.names[site]
