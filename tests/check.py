#!/usr/bin/env python3
"""Runs all tests that need no kit of Rattle, and counts them: tests/check.py [--quick | --slow].

Each part is a command, of which the last words show how many tests passed and failed, or what was not run and why. The
status is 1 if a test failed. FIGGROUP names the program, else it is the one in bin/. The quick parts look at sources and
pages, the slow ones draw."""
import os
import re
import signal
import subprocess
import sys
import tempfile
import time
from pathlib import Path
from typing import NamedTuple

ROOT = Path(__file__).resolve().parent.parent
SECONDS = 3600  # that a part may take
NOT_RUN = 77  # the status of a part that can't be run here, and says why
MOST_SHOWN = 60  # lines of a part that failed, from its end,
MOST_NAMED = 300  # and before them of those above that name failures
QUICK = {
    'program': './prove --check', 'stale programs': 'tests/stale_program.sh', 'package': 'tests/package.sh',
    'definitions': 'tools/definitions.py --check', 'crates': 'tools/crates.py --check', 'links': 'tools/links.py --check',
    'lengths': 'tools/lengths.py --check', 'manual': 'tools/manual.py --check', 'pictures': 'tools/pictures.py --check',
    'completion': 'tests/completion.sh',
}
SLOW = {
    'rows': 'tests/run.py', 'small histories': 'tests/small_histories.py', 'resolving': 'tests/resolving.py',
    'server': 'tests/served.py 300', 'strangers': 'tests/strangers.py', 'examples': 'examples/run.sh',
    'kills': 'tests/draw_kills.sh 20', 'layers': 'bench/layers.py --check', 'page': 'page/tests/run.sh',
}
COUNTS = re.compile(r'^(\d+) passed, (\d+) failed(?:, (\d+) not run)?$', re.M)
UNITS = re.compile(r'^Ran (\d+) tests? in .*\n\n(?:OK|FAILED)(.*)', re.M)
OF_PAGE = re.compile(r'^page: \S+: (\d+) tests?', re.M)
FAILED_OF_PAGE = re.compile(r'^page: \S+ failed$', re.M)
# What unittest, node and others say of a failure.
FAILURE = re.compile(r'^={70}\n(?:FAIL|ERROR): .*?(?=^={70}$|^-{70}\nRan |\Z)|^not ok .*?(?:^  \.\.\.$|\Z)'
                     r'|^(?![^\n]*\b0 failed)[^\n]*\bfailed\b[^\n]*', re.M | re.S)


class Count(NamedTuple):
    """How many tests passed, failed, and were not run."""

    passed: int
    failed: int
    left: int = 0

    def words(self) -> str:
        return f'{self.passed} passed, {self.failed} failed' + (f', {self.left} not run' if self.left else '')


def counted(said: str, status: int) -> Count:
    """What a part says of its tests; one that says no number is one test."""
    if status == NOT_RUN:
        return Count(0, 0, 1)
    if found := COUNTS.findall(said):
        count = Count(*(int(number or 0) for number in found[-1]))
    elif found := OF_PAGE.findall(said):
        skipped = len(re.findall(r'^page: .*, skipped: ', said, re.M))
        count = Count(sum(map(int, found)) - skipped, len(FAILED_OF_PAGE.findall(said)), skipped)
    elif found := UNITS.findall(said):
        failed = sum(map(int, re.findall(r'(?:failures|errors)=(\d+)', found[-1][1])))
        skipped = sum(map(int, re.findall(r'skipped=(\d+)', found[-1][1])))
        count = Count(max(int(found[-1][0]) - failed - skipped, 0), failed, skipped)
    else:
        count = Count(int(status == 0), 0)
    return count if status == 0 or count.failed else count._replace(failed=1)


def run(command: str) -> tuple[int, str]:
    """The status of a command, and what it says. One that takes too long is ended, with all that it began."""
    with tempfile.TemporaryFile() as log:
        process = subprocess.Popen(command.split(), cwd=ROOT, stdin=subprocess.DEVNULL, stdout=log, stderr=subprocess.STDOUT,
                                   env={**os.environ, 'CI': '1'}, start_new_session=True)
        try:
            status = process.wait(SECONDS)
        except subprocess.TimeoutExpired:
            status = 1
            log.write(f'it took over {SECONDS} seconds, and was ended\n'.encode())
        finally:
            end_all(process)
        log.seek(0)
        return status, log.read().decode(errors='replace')


def end_all(process: 'subprocess.Popen[bytes]') -> None:
    """Ends what a command began and left, and the command."""
    try:
        os.killpg(process.pid, signal.SIGKILL)
    except ProcessLookupError:
        pass  # nothing is left
    process.wait()


def shown(lines: list[str]) -> list[str]:
    """What a part that failed says of failures, and its end."""
    named = '\n'.join(FAILURE.findall('\n'.join(lines[:-MOST_SHOWN])))
    return named.splitlines()[:MOST_NAMED] + lines[-MOST_SHOWN:]


def check(name: str, command: str) -> Count:
    """Runs a part, and says how it ended."""
    began = time.monotonic()
    status, said = run(command)
    count = counted(said, status)
    lines = said.splitlines()
    if count.failed:
        print('\n'.join(shown(lines)), file=sys.stderr)
    elif status == NOT_RUN:
        print(f'check: {name}: {lines[-1] if lines else "it does not say why"}')
    for line in lines:
        if ': not run: ' in line or ', skipped: ' in line or ' skipped, as ' in line:
            print(f'check: {name}: {line}')
    print(f'check: {name}: {count.words()}, {time.monotonic() - began:.0f} s', flush=True)
    return count


def main() -> None:
    parts = {'--quick': QUICK, '--slow': SLOW}.get(' '.join(sys.argv[1:]), {**QUICK, **SLOW})
    if len(sys.argv) > 1 and parts == {**QUICK, **SLOW}:
        sys.exit(__doc__)
    counts = [check(name, command) for name, command in parts.items()]
    count = Count(*map(sum, zip(*counts)))
    failed = [name for name, each in zip(parts, counts) if each.failed]
    print(f'check: {len(parts)} parts: {count.words()}' + (f': failed: {", ".join(failed)}' if failed else ''))
    sys.exit(1 if failed else 0)


if __name__ == '__main__':
    main()
