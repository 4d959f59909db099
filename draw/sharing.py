"""What git knows of the folder, and what is asked of it before a file changes."""
import functools
import os

import storing
from calls import git, is_there
from folder import MOST_BYTES, SHARED, is_site_file, refuse_many, whole
from telling import fail, quoted

AS_IT_IS = '-text -filter -ident -working-tree-encoding'  # attributes by which git changes no byte of a file
MOST_SIGNS = 40  # of the name of an author
IGNORED = b'.gitignore\nsite\ndrawing.*\n'


def in_git() -> bool:
    """Whether git looks after this folder, as it does after one that is left out if it has files that are committed."""
    if not is_there('git') or answer('rev-parse', '--is-inside-work-tree') != 'true':
        return False
    return git('check-ignore', '-q', '.')[0] != 0 or git('ls-files', '--', '.')[1] != b''


def must_be_in_git() -> None:
    if not in_git():
        said = git('rev-parse', '--git-dir')[2].decode(errors='replace').strip() if is_there('git') else ''
        fail('this folder is in no work tree of git' + (f': {said}' if said and 'not a git repository' not in said else ''))


def answer(*words):
    """What git answers, one line, or nothing where it refuses."""
    status, wrote, _ = git(*words)
    return os.fsdecode(wrote.removesuffix(b'\n')) if status == 0 else ''


def exclude(*names: str) -> None:
    """Lets git leave out files of this copy, also where it begins later, and keep those that all share as they are.
    Refuses a copy in which a file of one copy was committed."""
    if in_git():
        stays_apart('HEAD', 'is committed here, though each copy has its own: '
                            "git rm -r {name} && git commit -m 'without {name}'")
        add_patterns('exclude', [pattern(name) for name in names])
        keep_as_they_are()
    elif not os.path.lexists('.gitignore'):
        storing.put('.gitignore', IGNORED)


def stays_apart(tree: str, refusal: str) -> None:
    """Refuses a commit with files that each copy has for itself, site files that are none, and what git would take for a
    repository of its own."""
    files = list(listed(tree))
    if {'HEAD', 'objects', 'refs'} <= {name for _, _, name in files}:
        fail('HEAD, objects and refs were committed, which would be another repository here: who did it types git rm -r')
    refuse_many([name for _, _, name in files if is_site_file(name)])
    for mode, size, name in files:
        if name == 'site' or name.startswith('drawing.'):
            fail(f'{quoted(name)} {refusal.format(name=quoted(name), author=author(name, tree) or "others")}')
        if (is_site_file(name) or name in SHARED) and not mode.startswith('100'):
            fail(f'{quoted(name)} was committed as a link or a folder: who did it types git rm')
        if is_site_file(name) and size > MOST_BYTES:
            fail(f'{quoted(name)} has more than {MOST_BYTES} bytes, which figgroup does not read')


def keep_as_they_are() -> None:
    """Keeps git from changing bytes of the files that all share, whatever .gitattributes says, and lets it keep the lines
    of both sides where two changed names at once. What a checkout changed before, in line ends, is put right."""
    patterns = [f'{pattern("site-*.jsonl")} {AS_IT_IS} merge']
    patterns += [f'{pattern(name)} {AS_IT_IS} merge=union' for name in SHARED]
    if not add_patterns('attributes', patterns):
        return
    for _, _, name in listed('HEAD'):
        if (is_site_file(name) or name in SHARED) and os.path.isfile(name) and not os.path.islink(name):
            put_right(name, shown('HEAD', name))


def put_right(name: str, committed: bytes) -> None:
    """Puts the ends of lines right of a file that begins with what was committed, but for these."""
    text = whole(name)
    lines = text.replace(b'\r\n', b'\n')
    if lines != text and lines.startswith(committed):
        storing.put(name, lines)
        if lines == committed:
            git('add', '--', name)  # git looks at the size that it wrote


@functools.cache
def prefix() -> str:
    """This folder within the repository."""
    return answer('rev-parse', '--show-prefix')


def pattern(name):
    """A name in this folder as git's files of patterns have it."""
    return '/' + ''.join('?' if sign in '][*?\\\n" \t' else sign for sign in prefix()) + name


def add_patterns(file: str, lines: list[str]) -> bool:
    """Adds lines to a file of patterns, and answers whether one of them was not there."""
    path = answer('rev-parse', '--git-path', f'info/{file}')
    os.makedirs(os.path.dirname(path), exist_ok=True)
    with open(path, 'a+b') as patterns:
        patterns.seek(0)
        there = patterns.read().split(b'\n')
        new = [line for line in map(os.fsencode, lines) if line not in there]
        patterns.write(b''.join(line + b'\n' for line in new))
    return new != []


def listed(tree):
    """The mode, the size and the name of each file and folder of a commit, in this folder."""
    status, wrote, _ = git('ls-tree', '-z', '-l', tree)
    for entry in wrote.split(b'\0')[:-1] if status == 0 else []:
        fields, _, name = entry.partition(b'\t')
        mode, _, _, size = fields.split()
        yield mode.decode(), int(size) if size != b'-' else 0, os.fsdecode(name)


def shown(tree, name):
    """A file of a commit, or nothing."""
    status, text, _ = git('show', f'{tree}:./{name}')
    return text if status == 0 else b''


def fetched() -> str:
    """What was last fetched of this branch."""
    return f"refs/remotes/origin/{answer('branch', '--show-current')}"


def unsent_of_one_copy() -> tuple[str, str]:
    """The last commit that was not sent with a file that each copy has for itself, and that file, if there is one."""
    wrote = answer('log', '-1', '--full-history', '-c', '--no-renames', '--diff-filter=d', '--format=%h', '--name-only',
                   'HEAD', '--not', '--remotes=origin', '--', 'site', 'drawing.*', ':(top,glob)**/drawing.secrets')
    commit, *names = list(filter(None, wrote.split('\n'))) or ['', '']
    return commit, os.path.relpath(names[0], prefix() or '.') if commit else ''


def keep_committed(own):
    """What was committed of the own file is in it, so that no number is used twice."""
    if in_git():
        with open(own, 'rb') as file:
            committed = shown('HEAD', own)
            if file.read(len(committed)) != committed:
                fail(f'{own} lost or changed what was committed: '
                     f'git diff {own} shows it, git checkout {own} fetches it')


def deleted():
    """The site files that are committed and were deleted here."""
    names = [name for _, _, name in listed('HEAD')] if in_git() else []
    return [name for name in names if is_site_file(name) and not os.path.lexists(name)]


def told_deleted():
    return [f'draw: {quoted(name)} is deleted here: draw pull brings it back' for name in deleted()]


def author(name: str, tree: str = 'HEAD') -> str:
    """Who committed a file last, up to a commit."""
    return answer('log', '-1', '--format=%an', tree, '--', name)[:MOST_SIGNS] if is_there('git') else ''


def author_of_line(tree: str, name: str, line: int) -> str:
    """Who committed a line of a file, or else the file last, up to a commit."""
    wrote = git('blame', '--porcelain', '-L', f'{line},{line}', tree, '--', name)[1]
    found = [told[7:].decode(errors='replace') for told in wrote.split(b'\n') if told.startswith(b'author ')]
    return found[0][:MOST_SIGNS] if found else author(name, tree)


def blame(name):
    """Each line of a file with its author, the time and the zone, where it is committed."""
    status, wrote, _ = git('blame', '--line-porcelain', '--', name) if is_there('git') else (1, b'', b'')
    if status:
        with open(name, 'rb') as file:
            for line in file.read().split(b'\n'):
                yield line, None
        return
    who = time = zone = ''
    for line in wrote.split(b'\n'):
        if line.startswith(b'author '):
            who = line[7:].decode(errors='replace').replace('\t', ' ')
        elif line.startswith(b'author-time '):
            time = line[12:].decode()
        elif line.startswith(b'author-tz '):
            zone = line[10:].decode()
        elif line.startswith(b'\t'):
            yield line[1:], (who, time, zone)
