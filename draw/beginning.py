"""How a copy begins: its site, a new drawing of today's picture, and a drawing that is brought in."""
import os

import designers
import folder
import names
import naming
import operations
import own
import settling
import sharing
import storing
from calls import figgroup
from plain import make_plain
from telling import Failure, fail, lines_of, say, write


def word_site(number: str, name: 'str | None' = None) -> None:
    """Notes the site of this copy, and the name of its designer."""
    if name is not None and not designers.is_name(name):
        fail(f'a name of a designer has at most {designers.MOST_SIGNS} letters, and no blank at its ends')
    sharing.exclude('site', 'drawing.*')
    known = folder.site()
    if known not in (None, int(number)):
        fail(f'this copy is of site {known}, as the file site says')
    file = f'site-{number}.jsonl'
    if known is None:
        if os.path.exists(file) and os.path.getsize(file):
            write(f'draw: {file} has operations: go on if they are yours')
        storing.put('site', f'{number}\n'.encode())
    open(file, 'ab').close()
    if name is not None:
        with own.alone():
            naming.replace_lines('designers', [f'{number} {name}'])


def word_anew(place):
    """Begins a new drawing of site 1: each version that is shown here is an object of its own there."""
    if os.path.lexists(place):
        fail(f'{place} is there already')
    lines = folder.lines()
    settling.tell_unsettled(lines, folder.site())
    new, _ = imported(1, folder.over_lines('fig', read=lines), b'')
    os.makedirs(place)
    file = os.path.join(place, 'site-1.jsonl')
    storing.put(file, new)
    count = len(new.splitlines())
    write(f'draw: {file} has this picture, in {count} operations; go on there: draw site N')


def imported(site, drawing, lines):
    """The operations that create the figures of a drawing, and what is told of them."""
    status, commands, said = figgroup('import', '--site', site, read=drawing)
    if status == 0:
        status, new, said = figgroup('edit', '--site', site, read=lines + commands)
    if status:
        raise Failure(*lines_of(said))
    return new, lines_of(said)


def word_bring(file):
    """Brings in a drawing: made plain, all figures or none. Those that were one object get a name."""
    if not os.path.isfile(file):
        fail(f'there is no file {file}')
    with own.Work() as work:
        text, told, groups = make_plain(folder.whole(file))
        for line in told:
            say(line)
        new, said = imported(work.site, text, work.lines)
        if not new:
            fail(f'nothing of {file} can be brought in')
        status, _, refused = figgroup('fig', '--named', read=work.lines + new)
        if status:
            raise Failure(*lines_of(refused), f'draw: with {file} the drawing is refused, and nothing was brought in')
        work.add(new, said)
        give_names(groups, operations.read(new))


def give_names(groups, made):
    """Names for figures that were one object. Import creates them in their order, so from this come their ids."""
    created, lines = sorted(made), []
    known = set(names.Names().objects)
    for line in groups:
        name, first, last = line.split()
        objects = created[int(first) - 1:int(last)]
        if len(objects) > 1 and names.is_name(name):
            free = next(each for each in [name, *(f'{name[:34]}-{n}' for n in range(2, 10001))] if each not in known)
            known.add(free)
            lines.append(naming.line_of(free, objects))
    if lines:
        naming.replace_lines('names', lines)
    for line in lines:
        write(line)
