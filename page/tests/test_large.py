#!/usr/bin/python3
"""A drawing of 1,000 figures."""
import unittest

from cases import PageTest, shot
from helpers import wait
from histories import prepared

WORK = '''
    return import(location.href + 'fig.js').then(({read, write}) => {
        const {text} = write(drawing.figures, '# figgroup knows nothing'), times = {};
        const time = (what, run) => {
            const began = performance.now();
            run();
            times[what] = Math.round(10 * (performance.now() - began)) / 10;
        };
        for (let i = 0; i < 5; i++) {
            time('read', () => read(text));
            time('write', () => write(drawing.figures, '# figgroup knows nothing'));
            time('draw', () => drawing.adopt(drawing.figures.map(figure => ({...figure}))));
        }
        return times;
    })'''


class Large(PageTest):
    def setUp(self):
        self.server = prepared(1000, 3000)

    def test_thousand_figures(self):
        ann, ben = self.page(1), self.page(2)
        for page in (ann, ben):
            wait(lambda: len(page.figures) == 1000)
        wait(lambda: ann.js('return document.querySelectorAll("#objects li").length') == 1000)
        ann.module('canvas.fit()')
        shot(ann, 'thousand')
        ann.keep_view(-100, -100, 8)
        x, y = next((int(words[2]), int(words[3])) for words in map(str.split, ann.figures) if words[0] == 'rect')
        before = len(self.server.operations())
        ann.drag((x + 45, y + 30), (x + 845, y + 1030))
        self.made(before + 1)
        one = self.server.operations(1)[-1]
        self.assertEqual('place', one['set'])
        wait(lambda: any(figure.split()[2:4] == [str(value) for value in one['to']] for figure in ben.figures))
        print(f'milliseconds of the page: {ann.module(WORK)}', end=' ')

    def test_all_moved_at_once(self):
        """Also offline, and sent when the page is back."""
        page = self.page(1)
        wait(lambda: len(page.figures) == 1000)
        self.server.kill()
        page.wait_for('offline')
        page.module('drawing.select(drawing.figures.map(({key}) => key))')
        page.module('return import(location.href + "figure.js").then(({moved}) => drawing.changeChosen(one => moved(one, 50, 0)))')
        self.server.start()
        page.wait_for('saved')
        self.made(4000)
        self.assertEqual('', self.server.figgroup('check'))


if __name__ == '__main__':
    unittest.main(verbosity=2)
