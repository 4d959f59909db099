"""Ids of objects and operations, as 1.6, and ranges of one site, as 1.6-1.13."""

LAST = 10000  # of a site


def read_id(word):
    """The site and the number, or None."""
    site, _, number = word.partition('.')
    if site not in tuple('12345678') or not (number.isascii() and number.isdecimal()) or len(number) > 5:
        return None
    return (int(site), int(number)) if number[0] != '0' else None


def read_range(word):
    """The first and the last id, or None."""
    low, _, high = word.partition('-')
    first, last = read_id(low), read_id(high)
    if first and last and first[0] == last[0] and first[1] <= last[1] <= LAST:
        return first, last
    return None


def within(first, last):
    return [(first[0], number) for number in range(first[1], last[1] + 1)]


def name(id):
    return f'{id[0]}.{id[1]}'


def ranges(ids):
    """The words for these ids, with a range where several of one site follow each other."""
    words, run = [], []
    for id in [*sorted(ids), None]:
        if run and id != (run[-1][0], run[-1][1] + 1):
            words += [f'{name(run[0])}-{name(run[-1])}'] if len(run) > 2 else map(name, run)
            run = []
        run.append(id)
    return words


def span(first, last):
    """The first and the last operation, as figgroup tells them."""
    return name(first) if first == last else f'{name(first)} to {name(last)}'
