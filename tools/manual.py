#!/usr/bin/env python3
"""Makes the manual pages share/man/figgroup.1 and draw.1 from what the programs tell of themselves.

With --check nothing is written, and the status is 1 where a page is not the one that would be made."""

import re
import subprocess
import sys
from pathlib import Path

ROOT = Path(__file__).resolve().parent.parent
PAGES = ROOT / 'share/man'


def told(program, *words):
    """The help of a program of bin/."""
    run = subprocess.run([ROOT / 'bin' / program, *words], stdout=subprocess.PIPE, text=True, check=True)
    return run.stdout


def escaped(text):
    """A text as roff prints it: no line of it is a request, and a minus can be copied."""
    text = text.replace('\\', '\\e').replace('-', '\\-')
    return re.sub(r"^(?=[.'])", '\\\\&', text, flags=re.M)


def tagged(tag, text):
    """A paragraph under a bold tag."""
    return ['.TP', f'.B {escaped(tag)}', escaped(text)]


def parts(help_text):
    """The sentence at the head of a help, its usage, its commands and its options with their texts, and its example."""
    sentence, _, rest = help_text.partition('\n\nUsage: ')
    usage = rest.partition('\n')[0]
    commands = re.search(r'^Commands:\n((?: .*\n)+)', rest, re.M)
    options = re.search(r'^Options:\n((?: .*\n)+)', rest, re.M)
    example = re.search(r'^Example: (.*)$', rest, re.M)
    return sentence, usage, lines_in_two(commands), lines_in_two(options), example and example[1]


def lines_in_two(block):
    """Each line of a block in its two columns."""
    return [re.split(r'\s{2,}', line.strip(), maxsplit=1) for line in block[1].splitlines()] if block else []


def head(name, sentence):
    version = told('figgroup', '--version').strip()
    return [f'.TH {name.upper()} 1 "" "{version}" "User Commands"', '.SH NAME', f'{name} \\- {escaped(sentence)}']


def example_lines(example):
    return ['.PP', '.EX', escaped(example), '.EE'] if example else []


def figgroup_page():
    sentence, usage, commands, options, example = parts(told('figgroup', '--help'))
    lines = head('figgroup', sentence[0].lower() + sentence[1:])
    lines += ['.SH SYNOPSIS', f'.B {escaped(usage)}', *example_lines(example), '.SH COMMANDS']
    for command, _ in commands:
        if command == 'help':
            continue
        sentence, usage, _, own, example = parts(told('figgroup', command, '--help'))
        lines += [f'.SS {escaped(usage)}', escaped(sentence) + '.']
        for option in own:
            lines += [] if option in options else tagged(*option)
        lines += example_lines(example)
    lines.append('.SH OPTIONS')
    for option in options:
        lines += tagged(*option)
    lines += ['.SH EXIT STATUS', escaped('0 on success; 1 where the input is refused, and where check or '
                                         'status --check finds something; 2 where the words are wrong.')]
    return lines + ['.SH SEE ALSO', '.BR draw (1), xfig (1), fig2dev (1)']


def draw_page():
    lines = head('draw', 'words over figgroup for those who draw with a group')
    lines += ['.SH SYNOPSIS', '.B draw', escaped('[WORD ..]'), '.SH WORDS']
    for line in told('draw', 'help').splitlines():
        form, text = re.split(r'\s{2,}', line.strip(), maxsplit=1)
        lines += tagged(form, text)
    lines += ['.SH EXIT STATUS', '0 where the word was done; 1 where it was refused; 2 where it was typed otherwise.']
    lines.append('.SH ENVIRONMENT')
    lines += tagged('FIG_EDITOR', 'the editor that opens the drawing, in place of xfig.')
    return lines + ['.SH SEE ALSO', '.BR figgroup (1), xfig (1)']


def main():
    status = 0
    for name, lines in (('figgroup', figgroup_page()), ('draw', draw_page())):
        path = PAGES / f'{name}.1'
        text = '\n'.join(lines) + '\n'
        if '--check' not in sys.argv:
            path.write_text(text)
        elif not path.exists() or path.read_text() != text:
            print(f'{path.relative_to(ROOT)} is not what tools/manual.py makes', file=sys.stderr)
            status = 1
    sys.exit(status)


main()
