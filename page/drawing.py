"""The drawing of a folder: the files of its sites, the pages that are open, and what these are told."""
import asyncio
import contextlib
import json
import os
import re
import time

from program import Keeper, Unable
from shared import Shared
from sitefile import Behind, Refusal, SiteFile, words_of
from telling import tell

SITES = range(1, 9)
WAIT = 30  # seconds, for a file that another program has locked
LOOK = 0.3  # seconds between looks at the files
ALIVE = 15  # seconds between two signs of life; a page that hears nothing for 40 hangs up
AGAIN = 1  # seconds, after which what could not be done is tried again
DAY = 24 * 60 * 60 * 1000  # milliseconds
WAITS = re.compile(r'operation ([1-8])\.(\d+) waits for ([1-8])\.(\d+)')


class Watching(Exception):
    """Nothing was made: another page of the site draws."""


class Drawing:
    """One page of each site draws, by its turn: the greatest turn that was given. The others of the site watch."""

    def __init__(self, names: dict[int, str]) -> None:
        self.files = {site: SiteFile('', site) for site in SITES}
        self.locks = {site: asyncio.Lock() for site in SITES}
        self.turns = {site: 0 for site in SITES}
        self.names = names  # of the sites that have an address
        self.shared = Shared()
        self.pages = set()
        self.changed = asyncio.Event()
        self.told = None
        self.reported: list[str] = []  # the faults of now, which the terminal has
        self.listed: list[int] = []  # the designers that pages were told last
        self.keeper, self.keeping = Keeper(self.files.values()), asyncio.Lock()
        self.appends = set()  # of what is kept and not yet on the disk

    async def open(self) -> None:
        """Reads what is there, and finishes appends that were cut short."""
        for site, file in self.files.items():
            if notice := file.know_requests():
                tell(notice)
            await self.look_at(site)
            if notice := file.lost():
                tell(notice)
        self.read_shared()
        try:
            await self.keeper.ask(None)
        except Refusal as refusal:
            tell(str(refusal))
        self.report(self.faults())
        self.changed.set()

    # ---- Who draws

    def join(self, page, turn, draws):
        """A page comes. One that was opened just now has no turn, and draws. One that comes again draws if it did, and
        no other page of its site came between, also before another run of this program."""
        if turn is None:
            turn = self.next_turn(page.site)
        page.turn = min(turn, now() + DAY)  # so that no page takes all turns that are left
        if draws and page.turn > self.turns[page.site]:
            self.turns[page.site] = page.turn
        self.tell_turns(page.site)
        self.tell_designers()
        page.tell({'names': self.shared.objects})
        if self.told:
            page.tell(self.told)

    def next_turn(self, site):
        return max(self.turns[site] + 1, now())

    def take_over(self, page):
        page.turn = self.turns[page.site] = self.next_turn(page.site)
        self.tell_turns(page.site)

    def draws(self, page):
        return page.turn == self.turns[page.site]

    def tell_turns(self, site):
        for page in self.pages:
            if page.site == site and page.turn is not None:
                page.tell({'draws': self.draws(page), 'turn': page.turn, 'last': self.files[site].last})

    # ---- What pages make

    @contextlib.asynccontextmanager
    async def held(self, site):
        """The file of a site, locked: what is read, made and added within is one step for all who lock it."""
        file = self.files[site]
        async with self.locks[site]:
            changed = file.read_more()
            if file.fault and not file.is_cut():
                raise Refusal(file.fault)
            end = time.monotonic() + WAIT
            while not (held := file.lock()):
                if time.monotonic() > end:
                    raise Refusal(f'another program has locked {file.name}')
                await asyncio.sleep(0.02)
            with held:
                await asyncio.to_thread(file.mend, held)
                if changed | self.read_more() | file.read_more():
                    self.changed.set()
                    async with self.keeping:
                        await self.keeper.ask(None)  # which finds lines at fault, so that the last operation is right
                if file.fault:
                    raise Refusal(file.fault)
                file.check_end(held)
                yield file, held

    async def make(self, page, request, after, change, *words):
        """Adds to the file of a site what `change` makes. A request that comes again, as its answer was lost, makes nothing,
        and gets its answer."""
        async with self.held(page.site) as (file, held):
            known = file.made_by(*request)
            if known:
                new, last = known
                return {'taken': last, 'made': new.decode()}
            if not self.draws(page):
                raise Watching
            if after != file.last:
                raise Behind(file.last)
            async with self.keeping:
                new = await change(page.site, *words)
                if file.fault:  # figgroup refused a line of it just now
                    self.keeper.end()
                    self.changed.set()
                    raise Refusal(file.fault)
                if new:
                    append = asyncio.create_task(asyncio.to_thread(file.append, held, new, *request))
                    self.appends.add(append)
            if new:
                await self.appended(append)
            return {'taken': file.last, 'made': new.decode()}

    async def appended(self, append):
        """Waits until lines are on the disk. If they do not come there, or others came before them, what figgroup keeps is
        not what the file has."""
        is_alone = False
        try:
            is_alone = await append
        finally:
            if not is_alone:
                self.keeper.end()
            self.appends.remove(append)
            self.changed.set()

    async def take(self, page, request, after, text):
        """Makes of the drawing that of a text."""
        text = text.encode()
        if not text.startswith(b'#FIG'):  # what stands before it would be read as operations
            raise Refusal('the drawing has to begin with #FIG')
        return await self.make(page, request, after, self.keeper.take, text, after)

    async def show(self, page, request, after, name, shown):
        """Shows or hides an object of which nothing is seen."""
        return await self.make(page, request, after, self.keeper.show, name, shown)

    # ---- What others change

    def read_more(self):
        """Reads what other programs added to files that no page is adding to. Reports whether there was something."""
        return any([file.read_more() for site, file in self.files.items() if not self.locks[site].locked()])

    async def look_at(self, site: int) -> None:
        """Reads what others added to a file, and completes it if it was cut."""
        file = self.files[site]
        if self.locks[site].locked():
            return
        changed = file.read_more()
        if file.is_cut():
            async with self.locks[site]:
                changed |= await self.complete(file)
        if changed:
            self.changed.set()

    async def complete(self, file: SiteFile) -> bool:
        """Writes back what a file had, or finishes an append, unless another program has locked it. Reports a change."""
        before = file.fault
        try:
            held = file.lock()
            if held:
                with held:
                    await asyncio.to_thread(file.mend, held)
            return file.read_more()
        except OSError as error:
            file.fault = f"{file.name} can't be completed: {words_of(error)}"
        return file.fault != before

    def read_shared(self) -> None:
        """Reads who draws, and the names of objects, and tells the pages if they changed."""
        if self.shared.read_designers():
            self.tell_designers()
        if self.shared.read_names():
            self.tell({'names': self.shared.objects})

    async def watch(self):
        while True:
            await asyncio.sleep(LOOK)
            for site in SITES:
                await self.look_at(site)
            try:
                self.read_shared()
            except OSError as error:
                tell(words_of(error))

    # ---- What pages are told

    async def publish(self):
        """Tells all pages the drawing, whenever it changed and is on the disk. What changes meanwhile is told together."""
        while True:
            await self.changed.wait()
            self.changed.clear()
            try:
                async with self.keeping:
                    text, status = await self.keeper.drawing()
                    appends = list(self.appends)
                await asyncio.gather(*appends)
                self.told = {'drawing': text, 'status': status, **self.fault(status)}
            except Unable as unable:
                self.told = {'fault': '; '.join([str(unable), *self.faults()])}
                asyncio.get_running_loop().call_later(AGAIN, self.changed.set)
            except Refusal as refusal:
                self.told = {'fault': '; '.join([str(refusal), *self.faults()])}
            except OSError:
                continue  # it is kept no more, and what is then told
            self.tell(self.told)
            if self.listed != self.designers():
                self.tell_designers()

    def faults(self) -> list[str]:
        return [file.fault for file in self.files.values() if file.fault]

    def report(self, faults: list[str]) -> None:
        """Reports new faults on the terminal of the server, too."""
        for fault in faults:
            if fault not in self.reported:
                tell(fault)
        self.reported = faults

    def fault(self, status: str) -> dict[str, str]:
        """Why files are left out in part, and why designers can't draw, all in one line."""
        faults = [*self.faults(), *waits(status, {site: self.name(site) for site in self.names})]
        self.report(faults)
        return {'fault': '; '.join(faults)} if faults else {}

    def name(self, site: int) -> str:
        """Who draws as a site: by the file `designers`, or as the server was begun."""
        return self.shared.designers.get(site) or self.names.get(site, f'site {site}')

    def designers(self) -> list[int]:
        """The sites that have a name or lines. Any other one is free."""
        return [site for site in SITES if site in self.names or site in self.shared.designers
                or self.files[site].lines or os.path.lexists(self.files[site].path)]

    def tell_designers(self):
        self.listed = self.designers()
        self.tell({'designers': [
            {'site': site, 'name': self.name(site),
             'pages': sum(page.site == site for page in self.pages),
             'holds': [name for page in self.pages if page.site == site for name in page.holds]}
            for site in self.listed]})

    async def show_life(self) -> None:
        """Lets each page know that its server is there."""
        while True:
            await asyncio.sleep(ALIVE)
            self.tell({'alive': ALIVE})

    def tell(self, what):
        message = json.dumps(what)
        for page in self.pages:
            page.tell(what, message)


def now() -> int:
    """The clock, in milliseconds."""
    return int(1000 * time.time())


def waits(status: str, names: dict[int, str]) -> list[str]:
    """Of each named site that can't draw as operations wait, who it is and what is missing."""
    told: dict[int, str] = {}
    for own, number, other, missing in WAITS.findall(status):
        if int(own) in names:
            told.setdefault(int(own), f"{names[int(own)]} can't draw: operation {own}.{number} waits for {other}.{missing}, "
                            f'which is not in site-{other}.jsonl. Fetch that file')
        if int(other) in names:
            told.setdefault(int(other), f"{names[int(other)]} can't draw: operation {own}.{number} counts {other}.{missing}, "
                            f'which is not in site-{other}.jsonl. Fetch that file, or take {own}.{number} out of '
                            f'site-{own}.jsonl')
    return [told[site] for site in sorted(told)]
