#!/usr/bin/python3
"""Four pages that draw at once while the server is killed: nothing is lost, nothing is doubled, all end alike."""
import random
import time
import unittest

from cases import PageTest
from helpers import wait

# Gestures by chance, from a seed, so many, with pauses.
ANY = '''
    let seed = given[0], left = given[1];
    return import(location.href + 'figure.js').then(({fresh, moved}) => {
        const colours = ['#d64545', '#2e7d32', '#2d4a8a'];
        const chance = most => (seed = (seed * 48271) % 2147483647) % most;
        window.left = () => left;
        const gesture = () => {
            const figures = drawing.figures, one = figures[chance(Math.max(1, figures.length))], way = chance(10);
            const change = how => drawing.change(figures.map(figure => figure === one ? how(figure) : figure));
            const box = () => fresh('box', [100 * chance(40), 100 * chance(25), 500, 500], colours[chance(3)]);
            if (!live.mayDraw) return setTimeout(gesture, 50);
            if (!one || way < 2 && figures.length < 12) drawing.change([...figures, box()]);
            else if (way < 5) change(figure => moved(figure, 100 * (chance(7) - 3), 100 * (chance(7) - 3)));
            else if (way < 7) change(figure => ({...figure, colour: colours[chance(3)]}));
            else if (way < 8) drawing.change(figures.filter(figure => figure.object !== one.object || figure === one));
            else if (way < 9) drawing.undo();
            else drawing.select([one.key]), drawing.arrange(1);
            if (--left) setTimeout(gesture, chance(160));
        };
        setTimeout(gesture, 0);
    })'''

# Draws so many boxes in a row of its own, and moves each one down, as soon as gestures are taken.
OWN = '''
    const [row, count] = given;
    let done = 0, last = null;
    return import(location.href + 'figure.js').then(({fresh, moved}) => {
        window.left = () => count - done;
        const gesture = () => {
            if (!live.mayDraw) return setTimeout(gesture, 20);
            const one = last && drawing.figures.find(({key}) => key === drawing.find(last));
            if (one) {
                drawing.change(drawing.figures.map(figure => figure === one ? moved(figure, 0, 5000) : figure));
                last = null;
                done++;
            } else if (last) return window.lost = last;
            else {
                const box = fresh('box', [1000 * done, 10000 * row, 500, 500], '#2e7d32');
                drawing.change([...drawing.figures, box]);
                last = box.key;
            }
            if (done < count) setTimeout(gesture, 37 * (done % 5));
        };
        gesture();
    })'''

# Who is asked says yes, and who watches draws now and then, as a designer might who goes from one window to the other.
BOTH = '''
    const [pause] = given;
    window.yes = setInterval(() => {
        if (live.asked && live.joined) live.makeAnew();
        else if (!live.draws && live.joined && window.left() > 0) live.takeOver();
    }, pause)'''


class Storm(PageTest):
    sites = 4

    def kills(self, count, seed, alive=.7):
        chance = random.Random(seed)
        for _ in range(count):
            time.sleep(alive * (.5 + chance.random()))
            self.server.kill()
            time.sleep(.2 * chance.random())
            self.server.start()

    def ended(self, pages):
        for page in pages:
            wait(lambda: page.js('return left()') == 0, 90,
                 lambda: page.module('return [left(), window.lost, live.state, live.mayDraw]'))
        for page in pages:
            wait(lambda: page.state in ('saved', 'watching'), 60, lambda: f'{page.state}: {page.logged()}')
        wait(lambda: len({str(page.figures) for page in pages}) == 1, 60, lambda: [page.figures for page in pages])
        self.assertEqual('', self.server.figgroup('check'))

    def test_any_gestures_and_kills(self):
        """Gestures by chance at four sites: all pages end alike, as the files say."""
        pages = [self.page(site) for site in (1, 2, 3, 4)]
        for i, page in enumerate(pages):
            page.module(ANY, 4711 + i + int(time.time()) % 1000, 60)
        self.kills(3, time.time(), 1.4)
        self.ended(pages)
        count = len(self.server.operations())
        self.assertEqual(len(pages[0].figures), self.server.figgroup('fig').count('\n2 2 '))
        self.assertEqual([[]] * 4, [page.text('.bubble') for page in pages])
        print(f'{count} operations, {len(pages[0].figures)} figures', end=' ')

    def test_nothing_is_lost(self):
        """Each page draws and moves figures of its own: each is there once, where it was moved to."""
        pages = [self.page(site) for site in (1, 2, 3, 4)]
        for row, page in enumerate(pages):
            page.module(OWN, row, 15)
        self.kills(3, time.time())
        self.ended(pages)
        self.own_figures(pages, 4, 15)

    def own_figures(self, pages, rows, count):
        every = sorted(f'rect #2e7d32 {1000 * i} {10000 * row + 5000} 500 500' for i in range(count) for row in range(rows))
        for page in pages:
            wait(lambda: sorted(page.figures) == every, what=lambda: (set(every) ^ set(page.figures), sorted(page.figures)))
        print(f'{len(self.server.operations())} operations', end=' ')

    def test_two_pages_of_each_site(self):
        """Two pages of each of two sites take over from each other while the server is killed, and who is asked says yes."""
        pages = [self.page(site, state) for site, state in ((1, 'saved'), (2, 'saved'), (1, 'saved'), (2, 'saved'))]
        for row, page in enumerate(pages):
            page.module(OWN, row, 8)
            page.module(BOTH, 130 + 60 * row)
        self.kills(3, time.time())
        self.ended(pages)
        for page in pages:
            wait(lambda: page.module('return !live.asked'))
        self.own_figures(pages, 4, 8)


if __name__ == '__main__':
    unittest.main(verbosity=2)
