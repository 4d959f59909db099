"""The shown versions of one object: whose each is, and what it looks like."""

MOST_SIGNS = 60  # of a value that is told


class Conflict:
    """Whose a version is tell the operations that only it and not all shown versions have, and that are not aimed at
    others of these: what a site did to a version of another one stays the other one's."""

    def __init__(self, trouble, versions, all):
        self.object, self.attributes, self.all = trouble.object, trouble.attributes, all
        self.versions = [version for version in versions if version.shown]
        self.common = set.intersection(*(version.operations for version in self.versions))
        self.roots = [self.roots_of(version.operations - self.common) for version in self.versions]

    def roots_of(self, apart):
        return {id for id in apart if self.all[id].attribute != 'shown' and not apart.intersection(self.all[id].aim)}

    def sites(self):
        return sorted({id[0] for roots in self.roots for id in roots})

    def kept(self, site):
        """What a site did that is in conflict, if a shown version has all of it."""
        with_site = {id for roots in self.roots for id in roots if id[0] == site}
        return with_site if any(with_site <= version.operations for version in self.versions) else set()

    def text(self, names, apart):
        """Who gave which values, as `size: Ann 600 400, Ben 300 200`; or how far each moved it."""
        return '; '.join(f'{attribute}: {self.values(attribute, names, apart)}' for attribute in self.attributes)

    def values(self, attribute, names, apart):
        found = []
        for version, roots in zip(self.versions, self.roots):
            sites = {id[0] for id in roots if self.all[id].value(attribute) is not None} or {id[0] for id in roots}
            value = version.values[attribute]
            if apart and attribute == 'place':
                value = 'by ' + self.moved(value)
            found.append((sorted(sites), f'{" and ".join(map(names.name, sorted(sites)))} {cut(value)}'))
        return ', '.join(dict.fromkeys(text for _, text in sorted(found)))

    def moved(self, place):
        """How far a place is from where all had it."""
        x, y = map(int, place.split())
        places = [self.all[id] for id in self.common if self.all[id].value('place') is not None]
        from_x, from_y = max(places, key=lambda operation: operation.known).value('place')
        return f'{x - from_x} {y - from_y}'


def cut(value):
    return value if len(value) <= MOST_SIGNS else value[:MOST_SIGNS] + '..'
