"""The page: the drawing is served to browsers until it is stopped."""
import itertools
import os

import beginning
import designers
import folder
import naming
import sharing

PYTHON = '/usr/bin/python3'
SERVER = os.path.join(os.path.dirname(os.path.dirname(os.path.abspath(__file__))), 'page', 'serve.py')


def word_page(*words: str) -> None:
    sharing.exclude('drawing.*')
    told = [word.split('=', 1) for word in itertools.takewhile(lambda word: not word.startswith('--'), words)]
    note({int(site): name.strip()[:designers.MOST_SIGNS] for site, name in told})
    begin_site([int(site) for site, _ in told])
    if not told and not os.path.exists('drawing.secrets'):
        words = *(f'{site}={name}' for site, name in designers.listed().items()), *words
    os.execv(PYTHON, [PYTHON, '-IB', SERVER, '.', *words])  # -I: no module comes from this folder or from PYTHON* variables


def begin_site(sites: list[int]) -> None:
    """Notes the one designer of the page as the one of this copy, so that draw pull and draw push know whose it is."""
    if len(sites) == 1 and folder.site() is None and not os.path.exists('drawing.secrets'):
        beginning.word_site(str(sites[0]))


def note(told: dict[int, str]) -> None:
    """Notes who draws for the words, which report it, if that is new."""
    known = designers.listed()
    lines = [f'{site} {name}' for site, name in told.items() if known.get(site) != name and designers.is_name(name)]
    if lines:
        naming.replace_lines('designers', lines)
