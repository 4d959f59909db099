"""What others pushed comes, and what this copy made goes, by git."""
import os

import blocked
import ids
import incoming
import names
import own
import settling
import sharing
import storing
from calls import git
from folder import SHARED, is_site_file, lines, site, site_files
from telling import Failure, fail, lines_of, quoted, write

OTHERS = ('was committed by {author}, and would overwrite yours, so nothing was pulled: '
          '{author} types git rm --cached {name}, commits and pushes')


def commit_own() -> own.OwnFile:
    """Commits the own file, which begins with what was committed before, and what all share. Answers the file."""
    file = own.OwnFile()
    sharing.must_be_in_git()
    if not sharing.answer('branch', '--show-current'):
        fail('no branch of git is checked out here: git switch NAME')
    sharing.keep_committed(file.name)
    shared = [name for name in SHARED if os.path.exists(name) and os.path.getsize(name) <= names.MOST_BYTES]
    try:
        asked('add', '-f', '--', file.name, *shared)  # whatever .gitignore says
        if git('diff', '--cached', '--quiet', '--', file.name, *shared)[0]:
            asked('commit', '-q', '-m', f'site {file.site}: up to {ids.name(file.last())}', '--', file.name, *shared)
    finally:
        file.unlock()
    return file


def asked(*words):
    """What git wrote; where it refuses, what it says is told."""
    status, wrote, said = git(*words)
    if status:
        raise Failure(*lines_of(wrote + said), f'draw: git {words[0]} failed, for the reason above')
    return wrote


def keeps_lines(before, behind):
    """Refuses where a site file of one commit is not the beginning of that file in the other."""
    for _, _, name in sharing.listed(before):
        if is_site_file(name) and not sharing.shown(behind, name).startswith(sharing.shown(before, name)):
            fail(f'others deleted or changed lines of {quoted(name)}, so nothing was pulled: docs/FAULTS.md; '
                 f'git diff HEAD...FETCH_HEAD -- {quoted(name)} shows it')


def overwrites_none(tree):
    """Refuses new files where there is one already, in any folder. Git overwrites those that it leaves out."""
    top = sharing.answer('rev-parse', '--show-toplevel')
    for name in asked('diff', '--name-only', '--no-renames', '--diff-filter=A', '-z', 'HEAD', tree).split(b'\0')[:-1]:
        if os.path.lexists(os.path.join(top, os.fsdecode(name))):
            fail(f'{quoted(os.fsdecode(name))} of others would overwrite yours, so nothing was pulled: move it away')


def merge() -> None:
    """Merges what was fetched, where it takes nothing from this copy. That is asked before any file changes."""
    sharing.stays_apart('FETCH_HEAD', OTHERS)
    base = sharing.answer('merge-base', 'HEAD', 'FETCH_HEAD')
    if base:  # two who began at once have no commit in common
        keeps_lines(base, 'FETCH_HEAD')
    status, wrote, _ = git('merge-tree', '--write-tree', '--allow-unrelated-histories', '--name-only', '--no-messages',
                           '-z', 'HEAD', 'FETCH_HEAD')
    if status not in (0, 1):
        fail('git could not try the merge, for which it has to be of version 2.38 or later')
    tree, *conflicts = map(os.fsdecode, wrote.split(b'\0')[:-1])
    if conflicts and conflicts[0]:
        prefix = sharing.prefix()
        if conflicts[0].startswith(f'{prefix}site-') and is_site_file(conflicts[0].removeprefix(prefix)):
            fail('two copies wrote to one file, so nothing was pulled: docs/FAULTS.md')
        fail(f"git can't merge {quoted(conflicts[0])}, so nothing was pulled: "
             'git merge FETCH_HEAD, and settle it there')
    sharing.stays_apart(tree, OTHERS)
    keeps_lines('HEAD', tree)
    overwrites_none(tree)
    faults = incoming.new_faults('HEAD', tree)
    if faults:
        fail(f'nothing was pulled: {incoming.told(faults, "FETCH_HEAD")}: docs/FAULTS.md says what to do')
    status, _, said = git('merge', '-q', '--no-edit', '--allow-unrelated-histories', 'FETCH_HEAD')
    if status:
        git('merge', '--abort')
        raise Failure(*lines_of(said), 'draw: nothing was pulled, for the reason above')


def fetch():
    branch = sharing.answer('branch', '--show-current')
    status, _, said = git('ls-remote', '--exit-code', '--heads', 'origin', branch)
    if status == 2:
        fail(f'nobody pushed to the branch {branch} yet')
    if status == 0:
        status, _, said = git('fetch', '-q', 'origin', branch)
    if status:
        raise Failure(*lines_of(said))


def bring_back() -> list[str]:
    """Brings back site files of others that were deleted here. Answers which."""
    lost = sharing.deleted()
    for name in lost:
        storing.put(name, sharing.shown('HEAD', name))
    return [f'draw: {quoted(name)} was deleted here, and is back' for name in lost]


def pull():
    """Fetches what others pushed. Answers what came, and what is to be settled."""
    file = commit_own()
    came = bring_back()
    fetch()
    before = sharing.answer('rev-parse', '-q', '--verify', 'HEAD')
    file.lock()
    try:
        merge()
    finally:
        file.unlock()
    for entry in asked('diff', '--numstat', '-z', before, 'HEAD', '--', *site_files(), *SHARED).split(b'\0')[:-1]:
        new, _, name = entry.split(b'\t', 2)
        came.append(f'draw: {new.decode().replace("-", "something")} new in {os.fsdecode(name)}')
    if sharing.answer('rev-parse', 'HEAD') == before:
        came.append('draw: nothing new')
    return came, settling.Unsettled(lines(), file.site).told()


def word_pull():
    came, unsettled = pull()
    for line in came + unsettled:
        write(line)


def word_push() -> None:
    file = commit_own()
    refuse_to_send()
    status, _, said = git('push', '-q', '-u', 'origin', 'HEAD')
    if status and (b'fetch first' in said or b'non-fast-forward' in said):
        fail('others pushed since your last pull: draw pull, then draw push')
    if status:
        raise Failure(*lines_of(said), 'draw: nothing was pushed, for the reason above')
    write(f'draw: pushed {file.name}')


def refuse_to_send() -> None:
    """Refuses to send files that each copy has for itself, in any commit, and lines that others' pulls would refuse."""
    there = sharing.fetched()
    sent = sharing.answer('merge-base', 'HEAD', there)
    commit, name = sharing.unsent_of_one_copy()
    if commit:
        back = f'git reset --soft {sent[:10]}' if sent else 'git update-ref -d HEAD'
        fail(f'{quoted(name)} is in commit {commit}, and each copy has its own, so nothing was pushed: {back} && '
             f'git rm -r -q --cached --ignore-unmatch {quoted(name)} && git commit -q -m again')
    faults = incoming.new_faults(there if sent else '', 'HEAD')
    if faults:
        left = [name for name in site_files() if git('diff', '--quiet', 'HEAD', '--', name)[0]]
        left += [name for name in site_files() if not sharing.answer('ls-files', '--', name)]
        way = f'git add {" ".join(map(quoted, left))} && git commit -m today, or docs/FAULTS.md' if left else 'docs/FAULTS.md says what to do'
        fail(f'nothing was pushed: {incoming.told(faults, "HEAD")}: {way}')


def word_status() -> None:
    number = site()
    all_lines = lines()
    if number:
        write(f'draw: this copy is of site {number}')
        for line in blocked.told(number, all_lines):
            write(line)
    try:
        unsettled = settling.Unsettled(all_lines, number)
        told = unsettled.others + unsettled.told() + sharing.told_deleted()
    except Failure as failure:
        raise Failure(*failure.lines, *blocked.by_whom(failure.lines))
    for line in told or ['draw: all is settled']:
        write(line)
    if sharing.in_git():
        tell_unpushed(number)


def tell_unpushed(number):
    """What git knows of the files of the drawing: which are to be pushed, and which others' files were changed here."""
    branch, *changed = lines_of(asked('status', '--short', '--branch', '--', *site_files(), *SHARED))
    own_file = f'site-{number}.jsonl'
    mine = [line for line in changed if line.rpartition('/')[2].split(' ')[-1] in (own_file, *SHARED)]
    is_behind = '...' not in branch or 'ahead ' in branch
    if number and (mine or is_behind) and sharing.answer('remote'):
        write(f'draw: {own_file} is to be pushed: draw push')
    if 'behind ' in branch:
        write('draw: others pushed: draw pull')
    for line in changed:
        if line not in mine:
            write(line)
