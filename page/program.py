"""The program figgroup: without a shell, and with bounds for memory and time."""
import asyncio
import json
import os
import re
import resource
import shutil
from collections.abc import Iterable

from sitefile import MOST_BYTES, Refusal, SiteFile

SECONDS = 30  # by the clock, for an answer
MOST_MEMORY = 4 * 1024 ** 3
MOST_ANSWER = 1024 * 1024  # bytes of the line before an answer
MOST_CUTS = 16  # lines left out for one request
AT_LINE = re.compile(r'line (\d+): (.*)')
DROPPED = re.compile(r'operation ([1-8])\.(\d+) dropped: .*')
PIPE = asyncio.subprocess.PIPE


def find_figgroup() -> str:
    """The program figgroup. A PATH with `.` does not find one in the folder of the drawing, to which others commit."""
    named = os.environ.get('FIGGROUP', 'figgroup')
    folders = [folder for folder in os.environ.get('PATH', os.defpath).split(':') if os.path.isabs(folder)]
    return os.path.abspath(named) if '/' in named else shutil.which(named, path=':'.join(folders)) or f'/usr/bin/{named}'


FIGGROUP = find_figgroup()


class Ended(Exception):
    """The process ended without an answer."""


class Unable(Refusal):
    """The process could not begin, as descriptors or memory are used up: to be tried again."""


class Cut(Exception):
    """A line of a file was left out, and the files are to be given again."""


class Keeper:
    """A `figgroup serve` that keeps the operations of files, asked one question at a time. It is begun when it is asked, and
    where it has ended, with all lines. Where what it made can't be added to a file, it has to be ended. A line that it
    refuses is left out with all that follow in that file."""

    def __init__(self, files: Iterable[SiteFile]) -> None:
        self.files = {file.site: file for file in files}
        self.process, self.given = None, {}  # of each site how many bytes, those that it made among them
        self.text = None  # the drawing of what it keeps, if it told that

    async def take(self, site, text, last):
        """The operations that make of the drawing that of a text. The last operation of the site is told, so that no other
        one is undone."""
        wrote = await self.ask({'do': 'take', 'site': site, 'after': last, 'named': True}, text)
        made, mark, named = wrote.partition(b'#FIG')
        self.text = (mark + named).decode()
        self.given[site] += len(made)
        return made

    async def show(self, site, name, shown):
        """The operations that show or hide an object."""
        command = {'site': site, 'do': 'set', 'object': [int(word) for word in name.split('.')], 'set': 'shown', 'to': shown}
        lines = b''.join(file.lines for file in self.files.values())
        return await edit(site, lines + json.dumps(command).encode())

    async def drawing(self):
        """The drawing as a text with names, and its status."""
        status = await self.ask({'do': 'status'})
        self.text = self.text or (await self.ask({'do': 'named'})).decode()
        return self.text, status.decode()

    async def ask(self, asked, body=b''):
        """What it answers, of all that the files have now; without a question they are only given."""
        ends = cuts = 0
        while True:
            try:
                await self.catch_up()
                return (await self.answer(asked, body))[1] if asked else b''
            except Cut as cut:
                cuts += 1
                if cuts > MOST_CUTS:
                    raise Refusal(str(cut))
            except Ended:
                self.process = None
                ends += 1
                if ends > 1:
                    raise Refusal('figgroup ended without an answer')

    async def catch_up(self) -> None:
        """Gives it what others brought into the files."""
        if self.process is None or self.process.returncode is not None:
            self.process = await begin('serve', limit=MOST_ANSWER)
            self.text, self.given = None, dict.fromkeys(self.files, 0)
        self.fit()
        for site, file in self.files.items():
            more = file.lines[self.given[site]:]
            if more:
                try:
                    await self.answer({'do': 'lines'}, more)
                except Refusal as refusal:
                    self.leave_out(file, more, str(refusal))
                    raise Cut(str(refusal))
                self.given[site] += len(more)
                self.text = None

    def fit(self) -> None:
        """Leaves out new lines of the file that has most of them, if all files together are too long."""
        while sum(len(file.lines) for file in self.files.values()) > MOST_BYTES:
            site = max(self.files, key=lambda site: len(self.files[site].lines) - self.given[site])
            self.files[site].reject(self.given[site], f'with it all files have more than {MOST_BYTES} bytes')

    def leave_out(self, file: SiteFile, more: bytes, words: str) -> None:
        """Finds the line that was refused when more lines of a file were given: one of these, or of an operation that waited
        for one of these. Any other refusal is none of a line."""
        if line := AT_LINE.fullmatch(words):
            begin = sum(len(text) + 1 for text in more.split(b'\n')[:int(line[1]) - 1])
            file.reject(self.given[file.site] + begin, line[2])
        elif dropped := DROPPED.fullmatch(words):
            file = self.files[int(dropped[1])]
            at = file.place_of(int(dropped[2]))
            file.reject(at, words)
            if at < self.given[file.site]:
                self.end()
        else:
            raise Refusal(words)

    async def answer(self, asked, body):
        process = self.process  # which may be ended meanwhile
        try:
            told, wrote = await asyncio.wait_for(exchange(process, asked, body), SECONDS)
        except asyncio.TimeoutError:
            self.end()
            raise Refusal(f'figgroup gave no answer within {SECONDS} seconds')
        except (OSError, EOFError, ValueError):
            process.stdin.close()
            raise Ended
        if 'refused' in told:
            if wrote == b'out of memory':
                self.end()
            raise Refusal(wrote.decode(errors='replace'))
        return told, wrote

    def end(self):
        """Ends the process, so that another one is begun."""
        if self.process and self.process.returncode is None:
            self.process.kill()
        self.process = None


async def exchange(process, asked, body):
    """The line and the body of what is answered to a request."""
    asked = {**asked, 'bytes': len(body)} if body else asked
    process.stdin.write(json.dumps(asked).encode() + b'\n' + body)
    await process.stdin.drain()
    told = json.loads(await process.stdout.readline())
    return told, await process.stdout.readexactly(told['bytes'])


async def edit(site, read):
    """What `figgroup edit` writes of these bytes."""
    process = await begin('edit', '--site', str(site), stderr=PIPE)
    try:
        wrote, said = await asyncio.wait_for(process.communicate(read), SECONDS)
    except asyncio.TimeoutError:
        process.kill()
        raise Refusal(f'figgroup gave no answer within {SECONDS} seconds')
    if process.returncode:
        raise Refusal(said.decode(errors='replace').replace('figgroup: ', '').strip())
    return wrote


async def begin(*words, **more):
    """A process of figgroup, bounded before it reads anything."""
    try:
        process = await asyncio.create_subprocess_exec(FIGGROUP, *words, stdin=PIPE, stdout=PIPE, **more)
        resource.prlimit(process.pid, resource.RLIMIT_AS, (MOST_MEMORY, MOST_MEMORY))
    except ProcessLookupError:
        pass  # it has ended
    except OSError as error:
        raise Unable(f'{FIGGROUP} does not run: {error.strerror}')
    return process
