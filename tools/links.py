#!/usr/bin/env python3
"""Says which links of the pages lead nowhere, to a file that is not there, or to a heading that its page has not; and
which names of the code no crate has.

Read are README.md, docs/*.md, crates/README.md and examples/*/README.md, of the repository, or of a FOLDER that make
install filled, where no name of the code is looked at. Links into the web are left alone. A name is one of a crate, as
gf_ops or gf_ops::is_next, and in docs/CLAIMS.md each name. With --check or without, nothing is written, and the status
is 1 where something is told."""

import functools
import re
import sys
from pathlib import Path

FOLDERS = [Path(word).resolve() for word in sys.argv[1:] if word != '--check']
ROOT = FOLDERS[0] if FOLDERS else Path(__file__).resolve().parent.parent
PAGES = [ROOT / page for page in ('README.md', 'crates/README.md') if (ROOT / page).exists()]
PAGES += sorted([*ROOT.glob('docs/*.md'), *ROOT.glob('examples/*/README.md')])
CLAIMS = ROOT / 'docs/CLAIMS.md'
LINK = re.compile(r'\]\(([^()\s]+)\)')
CODE = re.compile(r'`([^`\n]*)`')
CRATE = re.compile(r'(?:gf|test|guide|bench)_[a-z_]+')


def prose(page):
    """The text of a page without its blocks of code, line by line as before."""
    return re.sub(r'(?ms)^```.*?^```$', lambda block: '\n' * block[0].count('\n'), page.read_text())


def anchors(page):
    """The anchors of the headings of a page, as GitHub makes them: one that comes again gets a number."""
    found, plain = [], []
    for heading in re.findall(r'(?m)^#+ (.*)$', prose(page)):
        words = re.sub(r'\]\([^)]*\)', '', heading).lower()
        anchor = re.sub(r'[^\w\- ]', '', words).strip().replace(' ', '-')
        found.append(f'{anchor}-{plain.count(anchor)}' if anchor in plain else anchor)
        plain.append(anchor)
    return found


def found_in(text, pattern):
    """What a pattern finds in a text, each with its line."""
    for found in pattern.finditer(text):
        yield text.count('\n', 0, found.start()) + 1, found[1]


def links(page):
    """The links of a page but those into the web, each with its line."""
    text = CODE.sub(lambda code: ' ' * len(code[0]), prose(page))
    return [it for it in found_in(text, LINK) if not re.match(r'https?:|mailto:', it[1])]


def fault(page, link):
    """Why a link of a page leads nowhere, or None."""
    path, _, anchor = link.partition('#')
    target = (page.parent / path).resolve() if path else page
    if not target.exists():
        return 'there is no such file'
    if anchor and anchor not in anchors(target):
        return f'{target.relative_to(ROOT)} has no such heading'
    return None


@functools.cache
def words_of(crate):
    """The words of the sources of a crate, or of all crates."""
    files = (path for part in ('src', 'specs', 'proofs') for path in ROOT.glob(f'crates/{crate}/{part}/**/*.*t'))
    return {word for path in files for word in re.findall(r'\w+', path.read_text())}


def is_lost(page, name):
    """Whether no crate has a name of the code, a path as Rust writes it."""
    crate, *rest = name.split('::')
    if (ROOT / 'crates' / crate).exists():
        return not words_of(crate) >= set(rest)
    return (page == CLAIMS or CRATE.fullmatch(crate)) and crate not in words_of('*')


def names(page):
    """The names of the code in a page, each with its line."""
    return [it for it in found_in(prose(page), CODE) if re.fullmatch(r'[A-Za-z]\w*(::\w+)*', it[1])]


def main():
    told = [(page, line, link, why) for page in PAGES for line, link in links(page) if (why := fault(page, link))]
    if not FOLDERS:
        told += [(page, line, name, 'no crate has it') for page in PAGES for line, name in names(page) if is_lost(page, name)]
    sys.exit('\n'.join(f'{page.relative_to(ROOT)}:{line}: {what}: {why}' for page, line, what, why in told) or 0)


main()
