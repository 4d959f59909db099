#!/usr/bin/env python3
"""Counts the words of README.md and of docs/*.md as wc -w does, page by page.

With --check it prints only the pages that are too long, and the status is then 1."""

import sys
from pathlib import Path

ROOT = Path(__file__).resolve().parent.parent

# Each page may have some 15 % more words than it needed when these numbers were set, so a correction costs no sentence.
MOST = {
    'README.md': 830,
    'docs/ARCHITECTURE.md': 1_800,
    'docs/CLAIMS.md': 1_500,
    'docs/CONFLICTS.md': 1_110,
    'docs/DECISIONS.md': 2_150,
    'docs/DEFINITIONS.md': 2_560,
    'docs/DRAWING.md': 2_200,
    'docs/FAULTS.md': 2_500,
    'docs/FORMATS.md': 4_980,
    'docs/PERFORMANCE.md': 950,
    'docs/PROVING.md': 1_310,
    'docs/STRANGERS.md': 1_000,
}


def main() -> None:
    pages = [ROOT / 'README.md', *sorted(ROOT.glob('docs/*.md'))]
    counts = {str(page.relative_to(ROOT)): len(page.read_text().split()) for page in pages}
    if '--check' not in sys.argv:
        print(*(f'{count:6} {page}' for page, count in counts.items()), f'{sum(counts.values()):6} in all', sep='\n')
        return
    if counts.keys() != MOST.keys():
        sys.exit('tools/lengths.py lists other pages than there are')
    too_long = [f'{page} has {count} words, and may have {MOST[page]}' for page, count in counts.items() if count > MOST[page]]
    if too_long:
        sys.exit('\n'.join(too_long))


main()
