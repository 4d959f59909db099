"""Which operation is whose, and when it was committed."""
import json
import time

import explaining
import folder
import ids
import names
import sharing
from operations import ODD, Operation
from telling import Failure, say, write

MOST_SIGNS = 60  # of a value


def word_log(*words: str) -> None:
    """Odd lines are told, and take nothing from the others."""
    for line in explaining.of_files():
        say(line)
    found, known = [], names.Names()
    for name in folder.site_files():
        try:
            folder.whole(name)
        except Failure as failure:
            say(*failure.lines)
            continue
        for line, who in sharing.blame(name):
            try:
                found.append(Told(line, who, known))
            except ODD:
                continue
    wanted = set(names.chosen(words, lambda: {told.object for told in found})) if words else None
    for told in sorted(found, key=lambda told: told.key):
        if wanted is None or wanted & {told.object, told.id}:
            write(told.text)


class Told:
    def __init__(self, line, who, known):
        operation = Operation(line)
        self.id, self.object = operation.id, operation.object
        self.key = operation.known, operation.id
        value = as_json(operation.fields.get('to'))[:MOST_SIGNS]
        did = f'{known.label(self.object)} {text(operation.attribute)} {value}' if operation.attribute else \
            f'create {text(operation.fields.get("kind"))}'
        aim = ' '.join(map(ids.name, operation.aim))
        self.text = f'{ids.name(self.id)}{when(who)}: {did}' + (f' aimed at {aim}' if aim else '')


def text(value):
    return value if isinstance(value, str) else as_json(value)


def as_json(value):
    return json.dumps(value, ensure_ascii=False, separators=(',', ':'))


def when(who):
    """The author, and the time in the author's own zone."""
    if who is None:
        return ''
    author, seconds, zone = who
    offset = (int(zone[1:3]) * 3600 + int(zone[3:5]) * 60) * (-1 if zone[0] == '-' else 1)
    return f' ({author} {time.strftime("%Y-%m-%d %H:%M", time.gmtime(int(seconds) + offset))})'
