"""A figure is created, in front of all that is shown."""
import operations
import own
import setting
from telling import fail

FIRST, APART, LAST = 1000, 10, 9999  # the layer of the first figure, how far the next one lies above, and the greatest
EXAMPLES = {'place': 'place 10 20', 'size': 'size 30 30', 'points': 'points 0,0 9,0 0,9', 'colour': 'colour ff0000'}


def word_create(kind, *words):
    given = values(words)
    needed = ['place', 'points' if kind == 'polygon' else 'size', 'colour']
    if sorted({*given} - {'layer'}) != sorted(needed):
        example = ' '.join(EXAMPLES[attribute] for attribute in needed)
        fail(f'it takes place, {needed[1]} and colour: draw create {kind} {example}')
    with own.Work() as work:
        given.setdefault('layer', [str(layer_in_front(work.lines))])
        fields = ''.join(f',"{attribute}":{setting.json_of(attribute, value)}' for attribute, value in given.items())
        command = f'{{"site":{work.site},"do":"create","kind":"{kind}"{fields},"shown":true}}\n'
        setting.apply(work, command.encode(), given)


def values(words):
    """The words behind each attribute."""
    found, attribute = {}, None
    for word in words:
        if word in operations.ATTRIBUTES:
            attribute = word
            found[attribute] = []
        elif attribute is None:
            fail(f'{word} is no attribute: place, size, points, colour or layer comes before its value')
        else:
            found[attribute].append(word)
    for attribute, value in found.items():
        if not value:
            fail(f'{attribute} has no value')
    return found


def layer_in_front(lines):
    told = operations.told_of('inspect', '--object', 'all', lines=lines)
    layers = [version['layer'] for version in told if version.get('shown')]
    return min(max(layers, default=FIRST - APART) + APART, LAST)
