#!/usr/bin/env python3
"""Asks figgroup for the drawing of operation lines, makes an edit, and reads what was made."""

import json
import subprocess
import sys
from pathlib import Path


def figgroup(*words, given):
    return subprocess.run(['figgroup', *words], input=given, stdout=subprocess.PIPE, text=True, check=True).stdout


lines = Path(sys.argv[1]).read_text()
print(figgroup('fig', given=lines), end='')
command = {'site': 2, 'do': 'set', 'object': [1, 1], 'set': 'colour', 'to': '0000ff'}
made = figgroup('edit', '--site', '2', given=f'{lines}\n{json.dumps(command)}\n')
for operation in map(json.loads, made.splitlines()):
    print('made', operation['id'], 'which sets', operation['set'], 'to', operation['to'])
print(figgroup('status', given=f'{lines}\n{made}'), end='')
