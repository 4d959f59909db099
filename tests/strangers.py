#!/usr/bin/env python3
"""What a colleague's commit can do to a copy: tests/strangers.py. Three designers share a repository, and one of them
commits what runs a command, stops the words of the others, or takes lines from them.

FIGGROUP names the program, else it is the one in bin/."""
import functools
import json
import os
import shlex
import shutil
import subprocess
import tempfile
import unittest
from pathlib import Path

ROOT = Path(__file__).resolve().parent.parent
FIGGROUP = Path(os.environ.get('FIGGROUP', ROOT / 'bin' / 'figgroup')).resolve()
SECONDS = 60  # that one word may take
PLACE = tempfile.TemporaryDirectory(prefix='strangers-')
BOX = 'create box place 0 0 size 10 10 colour ff0000'


class Copy:
    """A folder in which a designer types."""

    def __init__(self, folder: Path, name: str, **more: str) -> None:
        self.folder, self.name = folder, name
        self.environment = {
            'PATH': f'{FIGGROUP.parent}:{ROOT / "bin"}:/usr/bin:/bin', 'HOME': '/nonexistent', 'GIT_CONFIG_NOSYSTEM': '1',
            'GIT_AUTHOR_NAME': name, 'GIT_AUTHOR_EMAIL': 'a@example.org', 'GIT_COMMITTER_NAME': name,
            'GIT_COMMITTER_EMAIL': 'a@example.org', **more}

    def run(self, *words: str, **more: str) -> 'subprocess.CompletedProcess[str]':
        return subprocess.run(words, cwd=self.folder, env={**self.environment, **more}, stdin=subprocess.DEVNULL,
                              stdout=subprocess.PIPE, stderr=subprocess.STDOUT, text=True, timeout=SECONDS)

    def draw(self, line: str, status: int = 0, **more: str) -> str:
        """Types a word, which ends with this status, and answers what it says."""
        run = self.run('draw', *shlex.split(line), **more)
        if run.returncode != status or 'Traceback' in run.stdout:
            raise AssertionError(f'draw {line}: status {run.returncode}: {run.stdout}')
        return run.stdout

    def git(self, line: str) -> str:
        run = self.run('git', *shlex.split(line))
        if run.returncode:
            raise AssertionError(f'git {line}: {run.stdout}')
        return run.stdout

    def write(self, name: str, content: 'str | bytes') -> None:
        path = self.folder / name
        path.parent.mkdir(parents=True, exist_ok=True)
        path.write_bytes(content if isinstance(content, bytes) else content.encode())

    def add(self, name: str, content: str) -> None:
        with open(self.folder / name, 'a') as file:
            file.write(content)

    def files(self) -> dict[str, bytes]:
        return {path.name: path.read_bytes() for path in self.folder.iterdir() if path.is_file()}

    def read(self, name: str) -> bytes:
        return (self.folder / name).read_bytes()

    def has(self, name: str) -> bool:
        return os.path.lexists(self.folder / name)

    def send(self, *names: str) -> None:
        """Commits files as they are, and pushes them by git alone."""
        self.git(f'add -A {"" if "." in names else "-f"} -- ' + shlex.join(names))
        self.git('commit -q -m more')
        self.git('push -q origin HEAD')

    def commands(self, line: str) -> str:
        """Types the commands that a message names."""
        run = self.run('/bin/sh', '-ec', line)
        if run.returncode:
            raise AssertionError(f'{line}: {run.stdout}')
        return run.stdout


def clone(top: Path, name: str, folder: str, where: str) -> Copy:
    """A clone of a designer, as from a server: the copy of a test has its own."""
    Copy(top, name).git(f'clone -q drawing.git {folder}')
    copy = Copy(top / folder, name)
    copy.git('remote set-url origin ../drawing.git')
    copy.git('switch -q main') if copy.git('branch -r') else copy.git('switch -q -c main')
    return Copy(top / folder / where, name)


@functools.cache
def begun(where: str) -> Path:
    """A repository and three copies, of which each has drawn and pulled."""
    top = Path(PLACE.name) / f'top-{where}'
    top.mkdir()
    Copy(top, 'Ann').git('init -q --bare -b main drawing.git')
    copies = []
    for site, name in enumerate(('Ann', 'Ben', 'Cleo'), 1):
        copies.append(clone(top, name, name, where))
        copies[-1].folder.mkdir(exist_ok=True)
        copies[-1].draw(f'site {site} {name}')
        copies[-1].draw(BOX)
        copies[-1].draw('push')
    for copy in copies[:2]:
        copy.draw('pull')
    return top


class Group(unittest.TestCase):
    """Ann and Ben, sites 1 and 2, and Cleo, site 3, who sends what harms. All have drawn."""

    where = ''  # the folder of the drawing in the repository

    def setUp(self) -> None:
        place = tempfile.TemporaryDirectory(prefix='strangers-')
        self.addCleanup(place.cleanup)
        self.top = Path(place.name) / 'top'
        shutil.copytree(begun(self.where), self.top)
        self.ann, self.ben, self.cleo = (Copy(self.top / name / self.where, name) for name in ('Ann', 'Ben', 'Cleo'))

    def clone(self, name: str, folder: str) -> Copy:
        return clone(self.top, name, folder, self.where)

    def line(self, id: list[int], past: list[int], **more: object) -> str:
        operation = {'colour': 'ff0000', 'id': id, 'kind': 'box', 'layer': 0, 'op': 'create', 'past': past,
                     'place': [0, 0], 'shown': True, 'size': [1, 1], **more}
        return json.dumps(operation, sort_keys=True, separators=(',', ':')) + '\n'

    def refused(self, copy: Copy, word: str, *said: str) -> str:
        """A word is refused in one line that has all these, and changes neither files nor commits."""
        before = copy.files()
        told = copy.draw(word, 1)
        self.assertEqual(before, copy.files())
        self.assertEqual(told.count('\n'), 1, told)
        for each in said:
            self.assertIn(each, told)
        return told


class Pulls(Group):
    """Lines that figgroup refuses do not come into a copy."""

    def test_line_at_fault(self) -> None:
        self.cleo.add('site-3.jsonl', '{"id":[3,2]}\n')
        self.cleo.send('site-3.jsonl')
        self.refused(self.ann, 'pull', 'site-3.jsonl line 2, by Cleo: Field: the key "op" is missing', 'docs/FAULTS.md')
        self.ann.draw(BOX)
        # The way out, typed by Cleo.
        self.cleo.commands("sed -i 2d site-3.jsonl && git commit -q -m 'take line 2 back' site-3.jsonl && git push -q")
        self.ann.draw('pull')
        self.assertEqual(self.ann.read('site-3.jsonl'), self.cleo.read('site-3.jsonl'))

    def test_wrong_past(self) -> None:
        self.cleo.add('site-3.jsonl', self.line([3, 2], [1, 1, 0, 0, 0, 0, 0, 0]))
        self.cleo.send('site-3.jsonl')
        self.refused(self.ann, 'pull', 'site-3.jsonl line 2, by Cleo: operation 3.2: BadClock: its past counts 0 of its own site')

    def test_forged_past(self) -> None:
        self.cleo.add('site-3.jsonl', self.line([3, 2], [9999, 1, 1, 0, 0, 0, 0, 0]))
        self.cleo.send('site-3.jsonl')
        self.refused(self.ann, 'pull', 'site-3.jsonl line 2, by Cleo: operation 3.2 waits for 1.2')
        self.ann.draw(BOX)
        self.refused(self.ann, 'pull', 'waits for 1.3')

    def test_operation_of_another_site(self) -> None:
        self.cleo.add('site-3.jsonl', self.line([1, 2], [1, 0, 0, 0, 0, 0, 0, 0]))
        self.cleo.send('site-3.jsonl')
        self.refused(self.ann, 'pull', 'site-3.jsonl line 2, by Cleo: operation 1.2 is of another site')

    def test_line_in_the_file_of_another(self) -> None:
        self.cleo.add('site-2.jsonl', self.line([2, 2], [0, 5, 0, 0, 0, 0, 0, 0]))
        self.cleo.send('site-2.jsonl')
        self.refused(self.ann, 'pull', 'site-2.jsonl line 2, by Cleo: operation 2.2: BadClock')

    def test_clash(self) -> None:
        self.cleo.write('site-4.jsonl', self.line([4, 1], [0] * 8) + self.line([4, 1], [0] * 8, layer=5))
        self.cleo.send('site-4.jsonl')
        self.refused(self.ann, 'pull', 'site-4.jsonl line 2, by Cleo: Clash: 4.1 is in site-4.jsonl line 1 too')

    def test_odd_lines(self) -> None:
        """Numbers of 5,000 digits, no numbers, deep nesting, no UTF-8: each is one line of a refusal."""
        digits, deep = '9' * 5000, '[' * 100_000
        odd = [f'{{"id":[3,{digits}]}}', '{"id":[3,1e999],"past":[0]}', deep, '{"id":' + '[' * 900 + ']' * 900 + '}',
               '{"id":[3,2],"past":"x"}', '{"id":[3,2],"past":[NaN]}', '[]', '3', '"\\ud800"', '\x00', '{"past":{"id":[3,2]}}',
               '\x1b[31m', '#FIG 3.2']
        before = self.cleo.read('site-3.jsonl')
        for line in odd:
            with self.subTest(line=line[:40]):
                self.cleo.write('site-3.jsonl', before + line.encode(errors='surrogatepass') + b'\n')
                self.cleo.send('site-3.jsonl')
                told = self.refused(self.ann, 'pull', 'site-3.jsonl line 2, by Cleo: ')
                self.assertLess(len(told), 400)
                self.assertTrue(told[:-1].isprintable())

    def test_one_bad_line_stops_nothing_that_was_there(self) -> None:
        """Who has a line at fault already pulls what mends it, and what is beside it."""
        self.cleo.add('site-3.jsonl', '{"id":[3,2]}\n')
        self.cleo.send('site-3.jsonl')
        self.ann.git('pull -q --no-rebase --no-edit origin main')
        self.ben.draw('set 2.1 colour 00ff00')
        self.ben.git('commit -q -a -m more')
        self.ben.git('pull -q --no-rebase --no-edit origin main')
        self.ben.git('push -q origin main')
        self.ann.run('draw', 'pull')
        self.assertIn(b'"id":[2,2]', self.ann.read('site-2.jsonl'))


class Pushes(Group):
    """What others would refuse is not sent."""

    def test_line_at_fault(self) -> None:
        self.cleo.add('site-3.jsonl', self.line([3, 2], [9999, 1, 1, 0, 0, 0, 0, 0]))
        told = self.cleo.draw('push', 1)
        self.assertIn('nothing was pushed: site-3.jsonl line 2, by Cleo: operation 3.2 waits for 1.2', told)
        self.assertEqual(self.cleo.git('rev-parse origin/main'), self.ann.git('ls-remote origin main').split()[0] + '\n')

    def test_operations_that_are_not_committed(self) -> None:
        """As of a page for several in one folder."""
        self.cleo.write('site-4.jsonl', self.line([4, 1], [1, 1, 1, 0, 0, 0, 0, 0]))
        self.cleo.draw('set 4.1 colour 00ff00')
        told = self.cleo.draw('push', 1)
        self.assertIn('operation 3.2 waits for 4.1: git add site-4.jsonl && git commit -m today', told)
        self.cleo.commands(told.split(': ')[-1].split(', or ')[0])
        self.cleo.draw('push')
        self.ann.draw('pull')
        self.assertIn('colour 00ff00', self.ann.draw('list'))

    def test_files_of_one_copy_in_the_past(self) -> None:
        self.cleo.write('drawing.secrets', '{}')
        self.cleo.git('add -f drawing.secrets')
        self.cleo.git('commit -q -m all')
        self.cleo.git('rm -q drawing.secrets')
        self.cleo.git('commit -q -m removed')
        self.cleo.draw(BOX)
        told = self.cleo.draw('push', 1)
        self.assertEqual(told.count('\n'), 1, told)
        self.assertIn('drawing.secrets is in commit ', told)
        self.cleo.commands(told.partition('so nothing was pushed: ')[2])
        self.cleo.draw('push')
        self.assertEqual(self.ann.git('fetch -q origin main') + self.ann.git('log --format=%h FETCH_HEAD -- drawing.secrets'), '')
        self.assertIn('1 new in site-3.jsonl', self.ann.draw('pull'))

    def test_files_of_one_copy_in_the_first_commit(self) -> None:
        self.top.joinpath('new').mkdir()
        dan = Copy(self.top / 'new', 'Dan')
        dan.git('init -q -b main .')
        dan.git(f'remote add origin {self.top}/new.git')
        dan.git(f'init -q --bare {self.top}/new.git')
        dan.write('drawing.secrets', '{}')
        dan.write('site-1.jsonl', self.line([1, 1], [0] * 8))
        dan.git('add -A')
        dan.git('commit -q -m all')
        told = dan.draw('site 1', 1)
        self.assertIn('drawing.secrets is committed here, though each copy has its own: git rm -r drawing.secrets && ', told)
        dan.commands(told.partition('its own: ')[2])
        dan.draw('site 1')
        dan.draw(BOX)
        dan.commands(dan.draw('push', 1).partition('so nothing was pushed: ')[2])
        dan.draw('push')
        self.assertEqual(dan.git('log --format=%h origin/main -- drawing.secrets'), '')

    def test_git_that_begins_later_leaves_out_files_of_one_copy(self) -> None:
        for first in ('site 1', 'page 1=Dan --port nonsense'):
            with self.subTest(first), tempfile.TemporaryDirectory() as folder:
                dan = Copy(Path(folder), 'Dan')
                dan.run('draw', *first.split())
                dan.write('drawing.secrets', '{}')
                dan.write('site-1.jsonl', '')
                dan.git('init -q .')
                dan.git('add -A')
                self.assertIn('site-1.jsonl', dan.git('ls-files'))
                for name in ('drawing.', 'site\n', '.gitignore'):
                    self.assertNotIn(name, dan.git('ls-files'))


class Clones(Group):
    """A new clone does not take what a colleague committed for its own."""

    def test_files_of_one_copy(self) -> None:
        for name in ('drawing.secrets', 'drawing.redo-1', 'drawing.fig', 'drawing.taken-1/x', 'site'):
            with self.subTest(name):
                self.cleo.write(name, '1\n')
                self.cleo.send(name)
                dan = self.clone('Dan', f'of-{name.partition("/")[0]}')
                for word in ('site 4 Dan', 'page 4=Dan'):
                    told = dan.draw(word, 1)
                    top = name.partition('/')[0]
                    self.assertEqual(told, f'draw: {top} is committed here, though each copy has its own: '
                                           f"git rm -r {top} && git commit -m 'without {top}'\n")
                self.assertFalse(dan.has('site-4.jsonl'))
                dan.commands(told.partition('its own: ')[2])
                self.assertFalse(dan.has(name))
                dan.draw('site 4 Dan')
                dan.draw(BOX)
                dan.git('push -q origin main')
                self.cleo.git('pull -q --no-rebase --no-edit origin main')

    def test_line_ends(self) -> None:
        """Attributes by which git would change lines, in a clone and in a copy that pulls."""
        for attribute in ('text eol=crlf', 'working-tree-encoding=UTF-16LE', 'ident', 'filter=lfs', '-merge', 'binary'):
            with self.subTest(attribute):
                self.cleo.write('.gitattributes', f'*.jsonl {attribute}\nnames {attribute}\ndesigners {attribute}\n')
                self.cleo.send('.gitattributes')
                self.ann.draw('pull')
                self.ann.draw(BOX)
                self.ann.draw('push')
                self.assertNotIn(b'\r', self.ann.read('site-1.jsonl'))
                self.cleo.draw('pull')
        self.cleo.write('.gitattributes', '*.jsonl text eol=crlf\n* text eol=crlf\n')
        self.cleo.send('.gitattributes')
        again = self.clone('Ben', 'again')
        self.assertIn(b'\r\n', again.read('site-2.jsonl'))  # git wrote it before draw could say anything
        again.draw('site 2 Ben')
        self.assertNotIn(b'\r', again.read('site-2.jsonl') + again.read('site-1.jsonl') + again.read('designers'))
        again.draw(BOX)
        self.assertNotIn('site-', again.git('status --short').replace('site-2', ''))
        again.draw('status')
        again.draw('push')
        self.ann.draw(BOX)
        self.ann.draw('pull')
        self.ann.draw('push')
        self.assertIn('1 new in site-1.jsonl', again.draw('pull'))
        again.draw('status')


class Ignored(Group):
    """A colleague's .gitignore takes no file of a drawing out of git."""

    where = 'house'

    def test_all_files(self) -> None:
        self.cleo.write('../.gitignore', '*\nhouse\n!drawing.*\n')
        self.cleo.write('.gitignore', '*\n!drawing.*\n')
        self.cleo.commands('cd .. && git add -A -f house/.gitignore .gitignore && git commit -q -m more && git push -q origin main')
        self.ann.draw('pull')
        self.ann.draw(BOX)
        self.ann.draw('push')
        self.assertIn('1 new in house/site-1.jsonl', self.ben.draw('pull'))
        dan = self.clone('Dan', 'dan')
        dan.draw('site 4 Dan')
        dan.draw(BOX)
        dan.draw('push')
        self.assertIn('1 new in house/site-4.jsonl', self.ann.draw('pull'))


class Commands(Group):
    """No command of a colleague runs, whatever word is typed."""

    where = 'house'
    WORDS = ['list', 'status', 'log', 'name', 'name box 1.1', 'move 1 1 1.1', 'undo', 'redo', 'keep --mine', 'set 1.1 layer 3',
             'copy 1 1 1.1', 'delete 1.1', 'restore 1.1', 'picture', 'picture house.pdf', 'picture house.svg', 'site 1', 'push',
             'pull', 'bring house.fig', 'plain', 'anew new', 'page --port none', '']

    def type_all(self, **more: str) -> None:
        """Types all words in Ann's copy; no matter what they say, nothing of the folder runs."""
        for word in self.WORDS:
            run = self.ann.run('draw', *word.split(), FIG_EDITOR='true', **more)
            self.assertNotIn('Traceback', run.stdout, word)
            self.assertFalse((self.top / 'ran').exists(), f'draw {word} ran a command of the folder: {run.stdout}')

    def test_modules(self) -> None:
        """Python takes no module from the folder, also where PYTHONPATH has an empty part."""
        for name in ('hashlib', 'json', 'fcntl', 're', 'tornado', 'sitecustomize', 'usercustomize', 'words', 'signal', 'time'):
            self.cleo.write(f'{name}.py', f'open({str(self.top / "ran")!r}, "w")\n')
        self.cleo.send('.')
        self.ann.draw('pull')
        self.type_all(PYTHONPATH=':/nonexistent', PYTHONHOME='', PYTHONSTARTUP='json.py')

    def test_programs(self) -> None:
        """No program is taken from the folder, also where PATH has it."""
        for name in ('git', 'figgroup', 'awk', 'pnmtopng', 'fig2dev', 'gs', 'xfig', 'sh', 'python3', 'draw'):
            self.cleo.write(name, f'#!/bin/sh\ntouch {self.top / "ran"}\n')
            (self.cleo.folder / name).chmod(0o755)
        self.cleo.send('.')
        self.ann.draw('pull')
        draw = str(ROOT / 'bin' / 'draw')
        for word in self.WORDS:
            self.ann.run(draw, *word.split(), PATH=f':.:house:{self.ann.environment["PATH"]}:', FIG_EDITOR='true')
            self.assertFalse((self.top / 'ran').exists(), f'draw {word} ran a program of the folder')

    def test_repository_in_the_folder(self) -> None:
        """A folder with HEAD, objects, refs and config looks like a repository to git, which does what its config says."""
        ran = self.top / 'ran'
        hook = self.top / 'hook'
        hook.write_text(f'#!/bin/sh\ntouch {ran}\n')
        hook.chmod(0o755)
        self.cleo.git('init -q --bare x.git')
        self.cleo.commands('rm -rf x.git/hooks x.git/description x.git/info; mv x.git/* .; rmdir x.git')
        self.cleo.write('config', f'[core]\nrepositoryformatversion = 0\nbare = false\nworktree = ..\nfsmonitor = {hook}\n'
                        f'hooksPath = {self.top}\nsshCommand = {hook}\npager = {hook}\neditor = {hook}\n'
                        f'[diff]\nexternal = {hook}\n[remote "origin"]\nurl = ext::{hook}\n')
        self.cleo.write('refs/x', '')
        self.cleo.write('objects/x', '')
        self.cleo.commands('cd .. && git add -A . && git commit -q -m more && git push -q origin main')
        self.refused(self.ann, 'pull', 'HEAD, objects and refs were committed')
        self.ann.git('pull -q --no-rebase --no-edit origin main')
        self.assertTrue(self.ann.has('HEAD') and self.ann.has('objects') and self.ann.has('refs'))
        self.type_all()
        self.assertIn('cannot use bare repository', self.ann.draw('pull', 1))

    def test_attributes_and_modules_of_git(self) -> None:
        self.cleo.write('.gitattributes', '* filter=evil diff=evil merge=evil\n')
        self.cleo.write('../.gitattributes', '* filter=evil diff=evil merge=evil\n')
        self.cleo.write('../.gitmodules', f'[submodule "x"]\npath = house/x\nurl = ext::touch% {self.top}/ran\nupdate = !touch {self.top}/ran\n')
        self.cleo.write('../.gitconfig', f'[core]\nfsmonitor = touch {self.top}/ran\n')
        self.cleo.write('../.mailmap', 'Eve <a@example.org>\n')
        self.cleo.write('../.githooks/post-merge', f'#!/bin/sh\ntouch {self.top}/ran\n')
        self.cleo.write('../.lfsconfig', '[lfs]\nurl = ext::false\n')
        self.cleo.commands('cd .. && git add -A . && git commit -q -m more && git push -q origin main')
        self.ann.draw('pull')
        self.type_all()

    def test_drawings(self) -> None:
        """A drawing of a colleague does not open in the editor."""
        self.cleo.write('drawing.fig', '#FIG 3.2\n')
        self.cleo.send('drawing.fig')
        dan = self.clone('Dan', 'dan')
        dan.draw('site 4', 1)
        dan.write('site', '4\n')
        dan.write('site-4.jsonl', '')
        self.assertIn('drawing.fig is committed here', dan.draw('', 1, FIG_EDITOR=f'touch {self.top}/ran'))
        self.assertFalse((self.top / 'ran').exists())


class Status(Group):
    """draw status says what keeps the own site from drawing, and what to do."""

    def says(self, copy: Copy, *said: str, status: int = 0) -> None:
        told = copy.draw('status', status)
        for each in said:
            self.assertIn(each, told)

    def test_forged_past(self) -> None:
        self.cleo.add('site-3.jsonl', self.line([3, 2], [9999, 1, 1, 0, 0, 0, 0, 0]))
        self.cleo.send('site-3.jsonl')
        self.ann.git('pull -q --no-rebase --no-edit origin main')
        self.says(self.ann, 'draw: site 1 draws again when 1.2 is here, for which operation 3.2 waits: draw pull brings it, '
                            'or Cleo takes 3.2 back: docs/FAULTS.md\n')

    def test_line_at_fault(self) -> None:
        self.cleo.add('site-3.jsonl', '{}\n')
        self.cleo.send('site-3.jsonl')
        self.ann.git('pull -q --no-rebase --no-edit origin main')
        self.says(self.ann, 'draw: site-3.jsonl line 2: Field: the key "op" is missing\n',
                  'draw: Cleo committed line 2 of site-3.jsonl, and takes it back or mends it: docs/FAULTS.md\n', status=1)
        self.ann.add('site-1.jsonl', '{}\n')
        self.says(self.ann, 'draw: site-1.jsonl line 2: Field', 'line 2 of site-1.jsonl is not committed', status=1)

    def test_two_copies(self) -> None:
        twin = self.clone('Ann', 'twin')
        twin.draw('site 1')
        twin.draw(BOX)
        twin.draw('push')
        self.ann.draw('create box place 5 5 size 1 1 colour 00ff00')
        self.ann.draw('pull', 1)
        self.says(self.ann, 'draw: two copies wrote to site-1.jsonl: one of them takes another number: docs/FAULTS.md\n')

    def test_drawing_and_own_file(self) -> None:
        self.ann.write('drawing.fig', '#FIG 3.2\n')
        self.says(self.ann, 'drawing.fig is not taken yet: draw opens it, rm drawing.fig gives it up\n')
        window = subprocess.Popen([ROOT / 'bin' / 'draw'], cwd=self.ben.folder, stdout=subprocess.PIPE,
                                  env={**self.ben.environment, 'FIG_EDITOR': 'echo open; read -r line; cat > /dev/null; true'},
                                  stdin=subprocess.PIPE, stderr=subprocess.DEVNULL)
        assert window.stdin and window.stdout
        self.assertEqual(window.stdout.readline(), b'open\n')
        self.says(self.ben, 'another draw is at work here: close its window first\n')
        window.communicate(b'\n')
        os.unlink(self.ann.folder / 'drawing.fig')
        os.unlink(self.ann.folder / 'site-1.jsonl')
        self.says(self.ann, 'draw: site-1.jsonl is lost: fetch it, as by git checkout site-1.jsonl\n')
        self.cleo.write('site-3.jsonl', self.cleo.read('site-3.jsonl')[:-1])
        self.says(self.cleo, 'the last line of site-3.jsonl has no end')


class Words(Group):
    """Odd files of others: each word says one line for a fault, and no traceback."""

    def test_log(self) -> None:
        for line in ('{"id":[3,1e999],"past":[0]}', '{"id":[3,2],"past":[1e999]}', '{"id":[3,2],"past":["x"]}', '[' * 100_000,
                     '{"id":[3,%s],"past":[0]}' % ('9' * 5000), '{"id":[3,2],"past":[0],"set":"place","to":' + '[' * 900 + ']' * 900 + '}'):
            with self.subTest(line=line[:40]):
                self.cleo.write('site-4.jsonl', line + '\n')
                self.assertIn('3.1 (Cleo ', self.cleo.draw('log'))

    def test_many_files(self) -> None:
        for number in range(9, 109):
            self.cleo.write(f'site-{number}.jsonl', '{}\n')
        self.cleo.send('.')
        self.refused(self.ann, 'pull', '103 files have names as site-1.jsonl, and draw reads at most 64: ')
        self.ann.git('pull -q --no-rebase --no-edit origin main')
        for word in ('list', 'log', 'status', 'push', 'undo'):
            self.refused(self.ann, word, '103 files have names as site-1.jsonl')

    def test_long_linked_and_endless_files(self) -> None:
        words = ['list', 'log', 'status', 'move 1 1 3.1', 'push', '']
        def make(name: str) -> None:
            with open(self.cleo.folder / name, 'w') as file:
                file.truncate(2 * 1024 ** 3)
        for name, how in [('site-4.jsonl', make), ('site-4.jsonl', lambda name: os.symlink('/dev/zero', self.cleo.folder / name)),
                          ('names', make), ('designers', make), ('site-4.jsonl', lambda name: os.mkfifo(self.cleo.folder / name)),
                          ('names', lambda name: os.symlink('/dev/zero', self.cleo.folder / name)), ('drawing.last', make),
                          ('drawing.word', make), ('site', make), ('drawing.redo-3', make)]:
            before = self.cleo.read(name) if self.cleo.has(name) else None
            if before is not None:
                os.unlink(self.cleo.folder / name)
            how(name)
            for word in words:
                with self.subTest(name=name, word=word):
                    run = subprocess.run(['prlimit', '--as=2000000000', ROOT / 'bin' / 'draw', *word.split()], cwd=self.cleo.folder,
                                         env={**self.cleo.environment, 'FIG_EDITOR': 'true'}, stdout=subprocess.PIPE,
                                         stderr=subprocess.STDOUT, timeout=SECONDS)
                    self.assertNotIn(b'Traceback', run.stdout)
                    self.assertGreaterEqual(run.returncode, 0)
            if self.cleo.has(name):
                os.unlink(self.cleo.folder / name)
            if before is not None:
                self.cleo.write(name, before)


if __name__ == '__main__':
    unittest.main()
