"""What is shown, and the versions of objects."""
import folder
import ids
import names
from telling import lines_of, write


def word_list(*words):
    """What is shown, from the top to the ground; or all versions of objects."""
    if words:
        lines = folder.lines()
        for id in names.chosen(words, lambda: created(lines)):
            for line in lines_of(folder.over_lines('inspect', '--object', ids.name(id), read=lines)):
                write(line)
        return
    known = names.Names()
    for object, own_operations, figure in figures(folder.over_lines('fig', '--named')):
        write(f'{known.label(object)}{own_operations}: {figure}')


def created(lines):
    import operations  # here alone, as what is shown is listed without it
    return operations.objects(lines)


def figures(text):
    """Of each figure its object, what tells it from other versions, and how it looks."""
    colours, object, apart, number = {}, None, '', None
    for line in lines_of(text):
        words = line.split()
        if line.startswith('0 '):
            colours[words[1]] = 'colour ' + words[2][1:]
        elif line.startswith('# figgroup with ') or names_figure(words):
            if names_figure(words):
                object, apart = ids.read_id(words[2]), ''
            apart += ''.join(' ' + word for word in apart_of(words, not apart))
        elif line.startswith('1 '):
            kind = 'circle' if words[1] == '3' else 'ellipse'
            place, size = ' '.join(words[12:14]), ' '.join(words[14:16])
            yield object, apart, f'{kind} place {place} size {size} {colours.get(words[5])}'
        elif line.startswith('2 '):
            kind, number = words[1], words[5]
        elif line.startswith(' ') and number:
            yield object, apart, polyline(kind, words, colours.get(number))


def names_figure(words):
    return words[:2] == ['#', 'figgroup'] and len(words) > 2 and ids.read_id(words[2]) is not None


def apart_of(words, first):
    """The operations that tell this version from others."""
    found = words[words.index('with') + 1:] if 'with' in words else []
    return ['with', *found] if found and first else found


def polyline(kind, words, colour):
    if kind == '2':
        x, y = int(words[0]), int(words[1])
        return f'box place {x} {y} size {int(words[4]) - x} {int(words[5]) - y} {colour}'
    return f'polygon of {len(words) // 2 - 1} points from {words[0]} {words[1]} {colour}'
