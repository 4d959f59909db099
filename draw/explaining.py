"""Why figgroup refused something, in the words of the one who typed it."""
import json
import re

import folder
import sharing
from calls import figgroup
from telling import lines_of, quoted

OF_COMMANDS = {
    'NoObject': 'there is no object {object}: draw list names what is shown',
    'NoVersion': 'no shown version of {object} holds these operations: draw list {object} tells them',
    'WrongKind': '{object} gets no such {set}: a polygon alone has points, and the others a size, of a circle its radius '
                 'twice',
}


def why(said, lines, behind=b'', site=None):
    """What is wrong with a command behind the lines, or with the lines of each file, or else what figgroup said."""
    said = lines_of(said)
    line = re.match(r'figgroup: line (\d+): (.*)', said[0]) if said else None
    if line and int(line[1]) > lines.count(b'\n'):
        found = of_command(lines + behind, int(line[1]), line[2], site)
    else:
        found = of_files() or of_lines(lines)
    found = found or said
    missing = [match[1] for match in (re.search(r' waits for (.)', line) for line in found) if match]
    if missing:
        found.append(f'draw: fetch site-{missing[0]}.jsonl, whole')
    return found + sharing.told_deleted()


def of_command(given, number, fault, site):
    if fault in OF_COMMANDS:
        command = json.loads(given.split(b'\n')[number - 1])
        return ['draw: ' + OF_COMMANDS[fault].format_map({**command, 'object': '.'.join(map(str, command['object']))})]
    return [re.sub(r'^line \d+: [A-Za-z]*: (command \d+: )*', 'draw: ', line)
            for line in lines_of(figgroup('check', '--site', site, read=given)[1])]


def of_files():
    """What is wrong with the lines, file by file."""
    return [f'draw: {quoted(name)} {line}' for name in folder.site_files()
            for line in lines_of(figgroup('check', read=folder.content(name))[1])]


def of_lines(lines):
    """What is wrong with the lines of all files together."""
    return [f'draw: {line}' for line in lines_of(figgroup('check', read=lines)[1])]
