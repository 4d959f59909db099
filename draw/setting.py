"""One value for all versions of objects."""
import json
import re

import names
import operations
import own
from telling import Failure, fail

FORMS = {
    'place': 'two whole numbers, as 10 20', 'points': 'pairs of whole numbers, as 0,0 9,0 0,9',
    'size': 'two whole numbers, as 3 4', 'colour': 'six hexadecimal digits, as ff0000 for red',
    'layer': 'a whole number, as 5', 'shown': 'true or false',
}
OTHER_FORM = re.compile(r'draw: "(\w+)" must be (?!.* equal )')


def word_set(words, attribute, *value):
    with own.Work() as work:
        objects = names.chosen([words], lambda: operations.objects(work.lines))
        given = json_of(attribute, value)
        commands = [b'{"site":%d,"do":"set","object":[%d,%d],"set":"%s","to":%s}\n'
                    % (work.site, *object, attribute.encode(), given.encode()) for object in objects]
        apply(work, b''.join(commands), {attribute: value})


def apply(work, commands, given):
    """Makes what commands say. Of a value that has another form than its attribute it is told which it has to have."""
    try:
        work.apply('edit', commands)
    except Failure as failure:
        for match in filter(None, map(OTHER_FORM.match, failure.lines)):
            attribute = next(iter(given)) if match[1] == 'to' else match[1]
            if attribute in given:
                refuse(attribute, given[attribute])
        raise


def refuse(attribute, words):
    have = 'have' if attribute == 'points' else 'has'
    fail(f'{attribute} {have} to be {FORMS[attribute]}, and not {" ".join(words)}')


def json_of(attribute, words):
    """The value as JSON, which it may be already."""
    value = spelt(attribute, words)
    try:
        json.loads(value)
    except (ValueError, RecursionError):
        refuse(attribute, words)
    return value


def spelt(attribute, words):
    if words[0][0] in '["':
        return ','.join(words)
    if attribute == 'colour':
        return json.dumps(','.join([words[0].removeprefix('#'), *words[1:]]))
    if attribute in ('place', 'size'):
        return f'[{",".join(words)}]'
    if attribute == 'points':
        return f'[{",".join(f"[{word}]" for word in words)}]'
    return ','.join(words)
