#!/usr/bin/env python3
"""Makes crates/README.md: of each crate the first sentence of its src/lib.rt or src/main.rt.

Order and headings are those of crates.txt. With --check nothing is written, and the status is 1 where the page is not
the one that would be made."""

import re
import sys
import textwrap
from pathlib import Path

ROOT = Path(__file__).resolve().parent.parent
PAGE = ROOT / 'crates/README.md'
HEAD = """# Crates

Each crate stands on those that its line in [crates.txt](../crates.txt) names, and lower ones come
first. What a crate does in more than this sentence stands at the head of its `src/lib.rt`.
[ARCHITECTURE](../docs/ARCHITECTURE.md) tells how data goes through them.
"""


def page_of(crate):
    """The file whose head is the page of a crate, seen from crates/."""
    return next(path for name in ('lib', 'main') if (PAGE.parent / (path := f'{crate}/src/{name}.rt')).exists())


def sentence(crate):
    """The first sentence of the page of a crate."""
    text = (PAGE.parent / page_of(crate)).read_text()
    head = ' '.join(re.findall(r'(?m)^//! ?(.*)$', text.partition('\n//!\n')[0]))
    return re.match(r'.*?\.(?= |$)', head)[0]


def made():
    """The page: the crates under the headings of crates.txt, each with its sentence."""
    lines = [HEAD.rstrip()]
    for line in (ROOT / 'crates.txt').read_text().splitlines():
        if line.startswith('# '):
            lines += ['', f'## {line[2].upper()}{line[3:]}', '']
        elif ':' in line:
            crate = line.partition(':')[0]
            text = f'- [`{crate}`]({page_of(crate)}): {sentence(crate)}'
            lines.append(textwrap.fill(text, 100, subsequent_indent='  ', break_on_hyphens=False))
    return '\n'.join([*lines, ''])


def main():
    if '--check' not in sys.argv:
        PAGE.write_text(made())
    elif not PAGE.exists() or PAGE.read_text() != made():
        sys.exit('crates/README.md is not what tools/crates.py makes of crates/: run it')


main()
