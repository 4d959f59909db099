"""Operation lines, and the versions of an object that they make."""
import json

import explaining
from folder import over_lines
from telling import Failure

ATTRIBUTES = ('place', 'points', 'size', 'colour', 'layer')


class Operation:
    """A line, read. What is no operation raises one of ODD."""

    def __init__(self, line):
        self.line, self.fields = line, json.loads(line)
        self.id = pair(self.fields['id'])
        self.past = self.fields['past']
        self.object = pair(self.fields.get('object') or self.fields['id'])
        self.attribute = self.fields.get('set')  # None for a creation
        self.aim = [pair(id) for id in self.fields.get('aim') or []]
        self.known = sum(self.past)

    def value(self, attribute):
        """What it gives to an attribute, or None."""
        if self.attribute is None:
            return self.fields.get(attribute)
        return self.fields['to'] if self.attribute == attribute else None

    def knows(self, other):
        return self.id != other.id and self.past[other.id[0] - 1] >= other.id[1]


ODD = (ValueError, TypeError, KeyError, IndexError, AttributeError, OverflowError, RecursionError)


def pair(id):
    site, number = id
    return int(site), int(number)


def read(lines):
    """The operations of lines, each once, by their ids."""
    try:
        found = [Operation(line) for line in lines.split(b'\n') if line.strip()]
    except ODD:
        raise Failure(*explaining.why(b'draw: there is a line that is no operation\n', lines))
    return {operation.id: operation for operation in found}


def objects(lines):
    return {operation.id for operation in read(lines).values() if operation.attribute is None}


def within(all, past):
    """The lines of whoever knew so many operations of each site."""
    return b''.join(operation.line + b'\n' for operation in all.values() if is_within(operation.id, past))


def is_within(id, past):
    return id[1] <= past[id[0] - 1]


class Version:
    """What figgroup tells of a version: its operations, its attributes in words, and whether it is shown."""

    def __init__(self, told):
        self.object = tuple(told['object'])
        self.operations = set(map(tuple, told['operations']))
        self.shown = told['shown']
        self.values = {attribute: in_words(told[attribute]) for attribute in ATTRIBUTES if attribute in told}


def in_words(value):
    """A value as it is typed: a pair as `10 20`, points as `0,0 9,0 0,9`."""
    if not isinstance(value, list):
        return str(value)
    return ' '.join(','.join(map(str, each)) if isinstance(each, list) else str(each) for each in value)


def versions(lines, object):
    """The versions of an object, the topmost first."""
    return [Version(told) for told in told_of('inspect', '--object', '%d.%d' % object, lines=lines)]


def several(lines):
    """The versions of each object that has several, by the object; of one with more than 1,000 there are none."""
    found = {}
    for told in told_of('inspect', '--object', 'several', lines=lines):
        if 'operations' in told:
            found.setdefault(tuple(told['object']), []).append(Version(told))
    return found


def told_of(*words, lines):
    """What figgroup tells of lines as JSON."""
    return map(json.loads, over_lines(*words, '--json', read=lines).splitlines())


def change(site, object, attribute, value, **more):
    """The command that gives an attribute of an object a value."""
    return {'site': site, 'do': 'set', 'object': object, 'set': attribute, 'to': value, **more}


def script(commands):
    """Commands as lines."""
    return b''.join(json.dumps(command).encode() + b'\n' for command in commands)
