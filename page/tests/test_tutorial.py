#!/usr/bin/python3
"""The day of docs/DRAWING.md by the page, begun by the words of the README: a house, one fir at two places, offline."""
import os
import pathlib
import signal
import subprocess
import unittest

from cases import PageTest, shot
from helpers import DRAW, FIGGROUP, Keys, Server, free_port, wait

COLOURS = {'sky': '#a9d0f5', 'meadow': '#8bc34a', 'wall': '#fff3c4', 'roof': '#d64545', 'fir': '#2e7d32'}


class Draw(Server):
    """What `draw page 1=Ann 2=Ben` serves, typed in the folder."""

    def __init__(self):
        super().__init__(start=False)

    def start(self):
        environment = {**os.environ, 'PATH': f'{pathlib.Path(FIGGROUP).parent}:{os.environ["PATH"]}'}
        self.process = subprocess.Popen([DRAW, 'page', '1=Ann', '2=Ben', '--port', str(self.port)], cwd=self.folder,
                                        stdout=subprocess.PIPE, text=True, env=environment)
        lines = [self.process.stdout.readline().split(' draws at ') for _ in range(2)]
        assert [name for name, _ in lines] == ['Ann', 'Ben'], lines
        self.address = {site: line[1].strip() for site, line in enumerate(lines, 1)}


class Tutorial(PageTest):
    def setUp(self):
        self.server = Draw()
        self.server.start()

    def test_a_day(self):
        ann, ben = self.page(1), self.page(2)
        self.house(ann)
        wait(lambda: len(ben.figures) == 5)
        ann.wait_for('saved')
        self.both_move_the_fir(ann, ben)
        shot(ann, 'page')
        ann.here().execute_cdp_cmd('Emulation.setEmulatedMedia', {'features': [{'name': 'prefers-color-scheme', 'value': 'dark'}]})
        shot(ann, 'page-dark')
        ann.button_of("Ben's place")
        for page in (ann, ben):
            wait(lambda: len(page.figures) == 5, what=lambda: page.figures)
            page.wait_text('.versions b', [])
        self.offline_and_back(ann, ben)
        self.stopped_by_a_key()

    def house(self, page):
        """Sky, meadow, wall, roof, and a fir before the door."""
        for name, corners in [('sky', [(0, 0), (6000, 3000)]), ('meadow', [(0, 3000), (6000, 4200)]),
                              ('wall', [(2000, 1800), (4000, 3400)])]:
            page.button('[data-tool=box]')
            page.button(f'[title="{COLOURS[name]}"]')
            page.drag(*corners)
        for name, corners in [('roof', [(1800, 1800), (3000, 800), (4200, 1800)]), ('fir', [(3000, 1900), (3500, 3700), (2500, 3700)])]:
            page.button('[data-tool=polygon]')
            page.button(f'[title="{COLOURS[name]}"]')
            for corner in corners + corners[:1]:
                page.click(*corner)
        self.made(5)

    def both_move_the_fir(self, ann, ben):
        ann.drag((3000, 3000), (4800, 3000), hold=True)
        ben.drag((3000, 3000), (1000, 3000), hold=True)
        ann.release()
        ann.wait_for('saved')
        ben.release()
        for page in (ann, ben):
            wait(lambda: sorted(page.text('.versions b')) == ["Ann's place", "Ben's place"], what=lambda: page.text('.versions b'))
            page.wait_for('saved')
        self.assertEqual('2e7d32', self.server.colour_at(1000, 3000))
        self.assertEqual('2e7d32', self.server.colour_at(4800, 3000))
        said, _ = self.server.draw('status').communicate()
        self.assertRegex(said, '^1.5 place: Ann .*, Ben .*\n')

    def offline_and_back(self, ann, ben):
        self.server.kill()
        ann.wait_for('offline')
        ben.wait_for('offline')
        ann.press(Keys.ESCAPE)
        ann.button('[title="#f4c95d"]')
        ann.draw('c', (4600, 400), (5400, 1200))
        ben.press(Keys.ESCAPE)
        ben.click(3000, 1500)
        ben.button('[title="#7d5ba6"]')
        self.server.start()
        for page in (ann, ben):
            page.wait_for('saved')
            wait(lambda: len(page.figures) == 6 and any('#7d5ba6' in figure for figure in page.figures), what=lambda: page.figures)
        self.assertEqual('', self.server.figgroup('check'))

    def stopped_by_a_key(self):
        """Ctrl+C ends it without a word."""
        self.server.process.send_signal(signal.SIGINT)
        self.assertEqual(0, self.server.process.wait(20))

    def test_names_are_kept(self):
        """Without names it serves those of the last time; in git its files stay out."""
        self.server.kill()
        subprocess.run(['git', 'init', '-q'], cwd=self.server.folder, check=True)
        environment = {**os.environ, 'PATH': f'{pathlib.Path(FIGGROUP).parent}:{os.environ["PATH"]}'}
        process = subprocess.Popen([DRAW, 'page', '--port', str(free_port()), '--listen', '0.0.0.0'], env=environment,
                                   cwd=self.server.folder, stdout=subprocess.PIPE, stderr=subprocess.PIPE, text=True)
        try:
            self.assertIn('Ann draws at http://', process.stdout.readline())
            process.stdout.readline()
            self.assertIn('is not encrypted', process.stderr.readline())
        finally:
            process.kill()
            process.communicate()
        said = subprocess.run(['git', 'status', '--short'], cwd=self.server.folder, capture_output=True, text=True, check=True)
        self.assertEqual('?? designers\n', said.stdout)


if __name__ == '__main__':
    unittest.main(verbosity=2)
