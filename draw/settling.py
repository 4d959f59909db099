"""What is to be settled, who did it, and the words that settle it."""
import designers
import ids
import names
import operations
import own
from conflict import Conflict
from telling import fail, tell, write

MOST_SHOWN = 1000  # versions of a drawing
MOST_VERSIONS = 20_000  # of all objects with several, with which is told who gave which value
ONE_BY_ONE = 'draw list {}', 'draw keep {} OPERATION..'


class Trouble:
    """What is open of an object."""

    def __init__(self, told):
        self.object, self.shown, self.versions = tuple(told['object']), told['shown'], told['versions']
        self.attributes = [difference['attribute'] for difference in told['differences']]
        self.changes = list(map(tuple, told['unseen']))
        self.hidings = list(map(tuple, told['hidings']))

    def is_open(self):
        return self.attributes or len(self.hidings) > 1 or self.changes or self.shown > MOST_SHOWN


def status(lines):
    """What waits, what is told of each object, and whether more is shown than a drawing has."""
    waiting, objects, shown = [], [], 0
    for told in operations.told_of('status', lines=lines):
        if 'operation' in told:
            waiting.append(f'operation {ids.name(told["operation"])} waits for {ids.name(told["waits_for"])}')
        elif 'object' in told:
            objects.append(Trouble(told))
        elif 'clean' in told:
            shown = told['shown']
    many = [f'drawing has more than {MOST_SHOWN} versions shown'] if shown > MOST_SHOWN else []
    return waiting + many, objects


class Entry:
    """What is told of one object, or of several to which the same happened."""

    def __init__(self, one, several, ways):
        self.one, self.several, self.ways = one, several, ways  # a text of one, of several, and words that settle it
        self.key = several, ways


class Unsettled:
    """What is to be settled among the lines, as the copy of this site sees it."""

    def __init__(self, lines, site):
        self.lines, self.site = lines, site
        self.others, objects = status(lines)
        self.troubles = [trouble for trouble in objects if trouble.is_open()]
        self.all = operations.read(lines) if self.troubles else {}
        are_few = sum(trouble.versions for trouble in objects if 1 < trouble.versions) <= MOST_VERSIONS
        self.versions = operations.several(lines) if self.troubles and are_few else {}
        self.hidings = [operation for operation in self.all.values() if operation.value('shown') is False]
        self.names = designers.Designers()

    def conflict(self, trouble):
        """The versions in conflict, or None where there are too many to tell them."""
        versions = self.versions.get(trouble.object)
        return Conflict(trouble, versions, self.all) if versions else None

    def entry(self, trouble):
        """What is told of an object, or None where all agree."""
        if trouble.attributes:
            return self.of_conflict(trouble)
        if trouble.changes:
            return self.of_hidden(trouble)
        if trouble.shown > MOST_SHOWN:
            text = f'has more than {MOST_SHOWN} versions shown'
            return Entry(text, text, ('draw delete {}',))
        if any(self.all[id].aim for id in trouble.hidings):
            text = f'hidden by {self.people(trouble.hidings)}, each another version'
            return Entry(text, text, ('draw restore {}', 'draw delete {}'))
        return None

    def of_conflict(self, trouble):
        conflict = self.conflict(trouble)
        if not conflict:
            text = f'{", ".join(trouble.attributes)}: {trouble.shown} versions'
            return Entry(text, text, ONE_BY_ONE)
        one, several = (conflict.text(self.names, apart) for apart in (False, True))
        return Entry(one, several, self.ways(conflict))

    def of_hidden(self, trouble):
        """What was changed while somebody else hid it."""
        changes = [self.all[id] for id in trouble.changes]
        hidings = [hiding.id for hiding in self.hidings if hiding.object == trouble.object
                   and any(not change.knows(hiding) and not hiding.knows(change) for change in changes)]
        what = ', '.join(sorted({change.attribute for change in changes}))
        if trouble.shown:
            text = f'{what}: {self.people(trouble.changes)} changed a version that {self.people(hidings)} hid'
            return Entry(text, text, ('draw keep --mine {} leaves it hidden',))
        text = f'deleted by {self.people(hidings)}, and changed by {self.people(trouble.changes)}: {what}'
        return Entry(text, text, ('draw restore {}', 'draw delete {}'))

    def people(self, them):
        return ' and '.join(self.names.name(site) for site in sorted({id[0] for id in them}))

    def ways(self, conflict):
        sites = conflict.sites()
        if not all(conflict.kept(site) for site in sites) or len(sites) < 2:
            return ONE_BY_ONE
        if self.site in sites and len(sites) == 2:
            return 'draw keep --mine {}', 'draw keep --theirs {}'
        return tuple(f'draw keep --site {site} {{}}' for site in sites)

    def told(self):
        """What happened, and behind it the words that settle it."""
        entries = {}
        for trouble in self.troubles:
            entry = self.entry(trouble)
            if entry:
                entries.setdefault(entry.key, []).append((trouble.object, entry))
        told = []
        known = names.known()
        there = operations.objects(self.lines) if entries and known.of else set()
        for group in entries.values():
            objects, entry = [object for object, _ in group], group[0][1]
            words = ' '.join(known.words(objects, there))
            label = ', '.join(known.labels(objects, there))
            told.append(f'{label} {entry.one if len(objects) == 1 else entry.several}')
            told.append('    ' + ', or '.join(way.format(words) for way in entry.ways))
        return told


def tell_unsettled(lines, site):
    for line in Unsettled(lines, site).told():
        write(line)


def word_keep(which, *words):
    with own.Work() as work:
        if which == '--mine':
            commands = keep_all(work, words, lambda *_: work.site)
        elif which == '--theirs':
            commands = keep_all(work, words, other)
        elif which == '--site':
            commands = keep_all(work, words[1:], lambda *_: int(words[0]))
        else:
            objects = names.chosen([which], lambda: operations.objects(work.lines))
            commands = [keep(work.site, object, map(ids.read_id, words)) for object in objects]
        if commands:
            work.apply('edit', operations.script(commands))


def keep(site, object, with_operations):
    return {'site': site, 'do': 'keep', 'object': object, 'with': sorted(set(with_operations))}


def other(unsettled, conflict):
    """The one site in conflict beside this one."""
    sites = [site for site in conflict.sites() if site != unsettled.site]
    if len(sites) > 1:
        who = ' and '.join(map(unsettled.names.name, sites))
        fail(f'{ids.name(conflict.object)} has versions of {who}: draw keep --site N says whose stays')
    return sites[0] if sites else None


def keep_all(work, words, of):
    """The commands that keep of each object what one site did, of those that status names, or of a list."""
    unsettled = Unsettled(work.lines, work.site)
    troubles = {trouble.object: trouble for trouble in unsettled.troubles}
    chosen = names.chosen(words, lambda: operations.objects(work.lines)) if words else list(troubles)
    for object in map(ids.read_id, words):
        if object and object not in troubles:
            tell(f'{ids.name(object)} stays: it has no versions in conflict')
    open_ones = [troubles[object] for object in chosen if object in troubles]
    commands = [command for trouble in open_ones for command in keep_of(unsettled, trouble, of)]
    if not commands:
        tell('nothing was settled' if troubles else 'all is settled')
    return commands


def keep_of(unsettled, trouble, of):
    """The command for one object, if it is clear what stays."""
    if not trouble.attributes:
        if trouble.shown and trouble.changes:  # what is hidden of it stays hidden
            return [keep(unsettled.site, trouble.object, [])]
        if unsettled.entry(trouble):
            tell(f'{ids.name(trouble.object)} stays hidden: draw restore shows it, draw delete agrees')
        return []
    conflict = unsettled.conflict(trouble)
    if not conflict:
        tell(f'{ids.name(trouble.object)} stays: there are too many versions to tell whose they are')
        return []
    site = of(unsettled, conflict)
    kept = conflict.kept(site)
    if kept:
        return [keep(unsettled.site, trouble.object, kept)]
    whose = unsettled.names.name(site) if site else 'anybody else'
    tell(f'{ids.name(trouble.object)} stays: no version in conflict is that of {whose}')
    return []
