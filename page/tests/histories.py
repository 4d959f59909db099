"""Long histories: eight sites in turn, each knowing all before, create figures, then move and colour them."""
import json

from helpers import Server

KINDS = ['box', 'circle', 'ellipse', 'polygon']
SIZES = {'box': {'size': [90, 60]}, 'circle': {'size': [40, 40]}, 'ellipse': {'size': [90, 60]},
         'polygon': {'points': [[0, 0], [90, 10], [80, 95], [5, 80]]}}


def operation(i, figures, have):
    """The i-th operation, of site i % 8 + 1."""
    site, colour = i % 8, '%06x' % (0x404040 + 0x111111 * (i % 8) + 0x0f * (i % 5))
    made = {'id': [site + 1, have[site] + 1], 'past': list(have)}
    if i < figures:
        kind = KINDS[i % 4]
        return {**made, 'op': 'create', 'kind': kind, 'place': [150 * (i % 40), 150 * (i // 40)], 'layer': min(i, 9999),
                'shown': True, 'colour': colour, **SIZES[kind]}
    j = (i * 7919) % figures
    place = [150 * (j % 40) + i % 17, 150 * (j // 40) + i % 13]
    change = {'set': 'place', 'to': place} if i % 2 else {'set': 'colour', 'to': colour}
    return {**made, 'op': 'set', 'object': [j % 8 + 1, j // 8 + 1], **change}


def lines_of(figures, count):
    """The lines of each site, of so many operations of so many figures."""
    have, lines = [0] * 8, [[] for _ in range(8)]
    for i in range(count):
        lines[i % 8].append(json.dumps(operation(i, figures, have), separators=(',', ':'), sort_keys=True) + '\n')
        have[i % 8] += 1
    return [''.join(made).encode() for made in lines]


def prepared(figures, count):
    """A server of eight sites over these."""
    server = Server(8, start=False)
    for site, lines in enumerate(lines_of(figures, count), 1):
        (server.folder / f'site-{site}.jsonl').write_bytes(lines)
    server.start()
    return server
