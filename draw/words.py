"""The words of draw: which form each has, as its help says, and which module does it."""
import importlib
import os
import sys

import folder
import ids
import names
from calls import run_here
from telling import Failure, fail, say, tell

MODULES = {
    '': 'window', 'plain': 'window', 'site': 'beginning', 'bring': 'beginning', 'list': 'listing', 'name': 'naming',
    'create': 'creating', 'move': 'shifting', 'copy': 'shifting', 'set': 'setting', 'delete': 'undoing',
    'restore': 'undoing',
    'keep': 'settling', 'undo': 'undoing', 'redo': 'undoing', 'log': 'log', 'status': 'pulling',
    'picture': 'pictures', 'pull': 'pulling', 'push': 'pulling', 'watch': 'watching', 'page': 'serving',
    'anew': 'beginning',
}
HELP = ('help', '--help', '-h')
WITHOUT_LINES = ('site', 'page', 'bring')  # words for a folder without any operation lines
MEANINGS = {
    'KIND': 'KIND is box, circle, ellipse or polygon', 'DX': 'DX and DY are whole numbers of up to 7 digits',
    'OBJECT': 'OBJECT is 1.6, 1.6-1.13 or a name', 'OPERATION': 'OPERATION is 1.6',
    'NAME': 'NAME has letters, digits, - and _, a letter first',
}
LEAST, MOST = 10, 3600  # seconds between two pulls of a watch


def main(document, typed):
    """Does a word, and answers the status of the program."""
    os.environ['LC_ALL'] = 'C'  # what other programs tell is looked at
    if sys.stdout:
        sys.stdout.reconfigure(errors='replace')  # a terminal may not have the letters of a name
    beside = os.path.dirname(os.path.realpath(sys.argv[0]))
    os.environ['PATH'] = without_relative(os.environ.get('PATH', os.defpath)) + beside
    help = [line.removeprefix('  ') for line in document.split('\n') if line.startswith('  draw ')]
    word, arguments = (typed or [''])[0], typed[1:]
    if word in HELP and arguments:
        word, arguments = arguments[0], ['--help']
    if word in HELP:
        print('\n'.join(help))
        return 0
    if word == '--version':
        return run_here('figgroup', '--version')
    if word not in MODULES or typed == ['']:
        say(f'draw: there is no word {word}: draw help has all')
        return 2
    forms = [line for line in help if line.split(' ', 2)[1] == word]
    if any(argument in HELP[1:] for argument in arguments):
        print('\n'.join(forms))
        return 0
    if not any(fits(form, word, arguments) for form in forms):
        for line in [usage_of(forms), *forms]:
            say(line)
        return 2
    return done(word, arguments)


def without_relative(path: str) -> str:
    """The folders of a PATH that are the same everywhere. Any other one has programs that others committed."""
    return ''.join(folder + ':' for folder in path.split(':') if os.path.isabs(folder))


def usage_of(forms):
    """What the words of the forms mean."""
    typed = {kind.strip('[]').removesuffix('..') for form in forms for kind in form.split('  ')[0].split()}
    means = [meaning for word, meaning in MEANINGS.items() if word in typed]
    return f'draw: it is typed so{", where " if means else ""}{", and ".join(means)}:'


def done(word, arguments):
    try:
        folder.refuse_links()
        if not folder.site_files() and word not in WITHOUT_LINES:
            fail('no file site-1.jsonl to site-8.jsonl is here: draw site N begins one')
        getattr(importlib.import_module(MODULES[word]), f'word_{word or "window"}')(*arguments)
        return 0
    except Failure as failure:
        for line in failure.lines:
            say(line)
        return 1
    except KeyboardInterrupt:
        return 130
    except BrokenPipeError:
        os.dup2(os.open(os.devnull, os.O_WRONLY), 1)  # who read has enough
        return 1
    except OSError as error:
        tell(f'{error.filename or word}: {error.strerror}')
        return 1


def fits(form, word, arguments):
    """Whether the arguments are those of a line of the help."""
    if word == 'page':
        return fits_page(arguments)
    usage = form[len('draw '):].lstrip().split('  ')[0] if word else ''
    return fits_all(usage.split()[1:], arguments)


def fits_all(kinds, arguments):
    """Whether each argument is of its kind, where the last in brackets may be left out, and one with dots repeat."""
    at = 0
    for kind in kinds:
        if at == len(arguments):
            return kind.startswith('[')
        repeats, kind = kind.rstrip(']').endswith('..'), kind.strip('[]').removesuffix('..')
        last = len(arguments) if repeats else at + 1
        if not all(is_of(kind, argument) for argument in arguments[at:last]):
            return False
        at = last
    return at == len(arguments)


def is_of(kind, word):
    return KINDS[kind](word) if kind in KINDS else word == kind


def fits_page(arguments):
    """Sites with names, and then options of the server."""
    while arguments and is_designer(arguments[0]):
        arguments = arguments[1:]
    arguments = [argument for argument in arguments if argument != '--new-addresses']
    options = arguments[::2]
    return len(arguments) % 2 == 0 and all(option in ('--port', '--listen', '--host') for option in options)


def is_designer(word):
    site, _, name = word.partition('=')
    return site in tuple('12345678') and name.strip(' =-') != ''


def is_object(word):
    return ids.read_id(word) is not None or ids.read_range(word) is not None or names.is_name(word)


def is_number(word, most):
    return word.isascii() and word.isdecimal() and len(word) <= most


KINDS = {
    'N': lambda word: word in tuple('12345678'),
    'DX': lambda word: is_number(word.removeprefix('-'), 7),
    'DY': lambda word: is_number(word.removeprefix('-'), 7),
    'OBJECT': is_object,
    'OPERATION': lambda word: ids.read_id(word) is not None,
    'NAME': names.is_name,
    'DESIGNER': lambda word: word[:1] not in ('', '-'),
    'KIND': lambda word: word in ('box', 'circle', 'ellipse', 'polygon'),
    'ATTRIBUTE': lambda word: word in ('place', 'points', 'size', 'colour', 'layer', 'shown'),
    'VALUE': bool,
    'FILE': lambda word: word.endswith(('.png', '.pdf', '.svg')),
    'FILE.fig': lambda word: word.endswith('.fig'),
    'FOLDER': lambda word: word[:1] not in ('', '-'),
    'SECONDS': lambda word: is_number(word, 4) and LEAST <= int(word) <= MOST,
}
