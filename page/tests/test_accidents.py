#!/usr/bin/python3
"""Offline, killed, closed, and other programs in the same folder."""
import pathlib
import shutil
import unittest

from cases import PageTest, shot
from helpers import Keys, wait

FIRST = '#4f7cac'


class Accidents(PageTest):
    def test_offline_and_back(self):
        ann, ben = self.page(1), self.page(2)
        ann.draw('r', (0, 0), (1000, 1000))
        wait(lambda: len(ben.figures) == 1)
        ann.wait_for('saved')
        self.server.kill()
        ann.wait_for('offline')
        ben.wait_for('offline')
        ann.drag((500, 500), (500, 3500))
        ann.press(Keys.ESCAPE)
        ann.draw('c', (2000, 0), (3000, 1000))
        ben.drag((500, 500), (4500, 500))
        shot(ben, 'offline')
        self.server.start()
        for page in (ann, ben):
            page.wait_for('saved')
            wait(lambda: len(page.figures) == 3, what=lambda: page.figures)
        self.assertIn('object 1.1 place', self.server.figgroup('status'))
        self.assertEqual(4, len(self.server.operations()))

    def test_closed_while_offline(self):
        page = self.page()
        page.draw('r', (0, 0), (1000, 1000))
        page.press(Keys.ESCAPE)
        page.button('[title="#2e7d32"]')
        page.draw('r', (500, 3500), (1500, 4500))
        self.made(2)
        page.wait_for('saved')
        self.server.kill()
        page.wait_for('offline')
        page.drag((250, 500), (250, 3500))
        page.button('[data-do=front]')
        page.here().get('data:,')
        self.server.start()
        page.here().get(self.server.address[1])
        page.wait_for('saved')
        page.wait_figures(['rect #2e7d32 500 3500 1000 1000', f'rect {FIRST} 0 3000 1000 1000'])
        self.assertEqual('4f7cac', self.server.colour_at(700, 3700))

    def test_a_browser_that_forgets(self) -> None:
        """What waits on a page is not given up because its copy in the browser was cleared."""
        page = self.page()
        self.server.kill()
        page.wait_for('offline')
        page.draw('r', (0, 0), (1000, 1000))
        page.js('localStorage.clear()')
        page.draw('r', (2000, 0), (3000, 1000))
        self.server.start()
        page.wait_for('saved')
        self.made(2)
        page.wait_figures([f'rect {FIRST} 0 0 1000 1000', f'rect {FIRST} 2000 0 1000 1000'])

    def test_two_windows_that_were_closed(self) -> None:
        """Of several windows that were closed while their changes waited, a page shows one after the other."""
        page = self.page()
        self.server.kill()
        page.wait_for('offline')
        page.draw('r', (0, 0), (1000, 1000))
        page.js('''const [[key, record]] = Object.entries(localStorage);
            localStorage.setItem(`${key}more`, record.replaceAll('[0,0,1000,1000]', '[0,2000,1000,1000]'))''')
        page.here().get('data:,')
        self.server.start()
        page = self.page()
        page.wait_text('#bar span', ['Another window of yours was closed before its changes were saved.'])
        self.made(1)
        page.button_of('Show them')
        page.button_of('Draw them anew')
        self.made(2)
        page.wait_text('#bar span', [])
        self.assertEqual([[0, 0], [0, 2000]], sorted(operation['place'] for operation in self.made(2)))
        wait(lambda: page.js('return Object.keys(localStorage)') == [])

    def test_another_window_goes_on(self) -> None:
        """A page whose changes another window took over, as it gave no answer, gives them up, and says so."""
        one = self.page()
        self.server.kill()
        one.wait_for('offline')
        one.draw('r', (0, 0), (1000, 1000))
        one.mute()
        one.js('''window.frozen = BroadcastChannel.prototype.postMessage; BroadcastChannel.prototype.postMessage = () => {}''')
        self.server.start()
        two = self.page()
        two.wait_for('saved')
        self.made(1)
        one.mute(False)
        one.wait_text('#notices p', ['Another window goes on with the changes that waited here.'])
        self.made(1)

    def test_killed_between_gestures(self):
        page = self.page()
        for i in range(8):
            page.press(Keys.ESCAPE)
            page.draw('r', (0, 600 * i), (500, 600 * i + 500))
            self.restart()
        page.wait_for('saved')
        wait(lambda: len(self.server.operations()) == 8, what=lambda: self.server.operations())
        wait(lambda: len(page.figures) == 8)
        self.assertEqual('', self.server.figgroup('check'))

    def test_a_dead_connection(self):
        """What was said into a dead connection is said again by the next one, as soon as the network is known to be gone."""
        page = self.page()
        page.mute()
        page.draw('r', (0, 0), (1000, 1000))
        page.wait_for('sending')
        page.mute(False)
        page.js('window.dispatchEvent(new Event("offline"))')
        page.wait_for('saved')
        self.made(1)
        page.wait_figures([f'rect {FIRST} 0 0 1000 1000'])

    def test_disk_lost_lines(self):
        """A file that loses operations gets them again. One whose lines changed stops its site, and the page says so."""
        page = self.page()
        page.draw('r', (0, 0), (1000, 1000))
        self.made(1)
        page.wait_for('saved')
        path = self.server.folder / 'site-1.jsonl'
        path.write_bytes(b'')
        page.drag((500, 500), (1500, 500))
        self.made(2)
        page.wait_for('saved')
        whole = path.read_bytes()
        path.write_bytes(whole.replace(b'"colour":"4f7cac"', b'"colour":"4f7cad"'))
        page.wait_text('#state', ["You can't draw: see the message"])
        wait(lambda: 'lines changed' in ''.join(page.text('#notices .fault')), what=lambda: page.text('#notices p'))
        page.drag((1500, 500), (2500, 500))
        page.wait_for('refused')
        path.write_bytes(whole)
        page.button_of('Try again')
        page.wait_for('saved')
        self.made(3)


class Names(PageTest):
    """Which figure became which object."""

    def test_a_take_gives_an_object_to_another_figure(self):
        """One is drawn, and before its text is shown it is moved and another one drawn, in one text: the take may move
        the first to the place of the second, and create the first anew."""
        page = self.page()
        page.module('''return import(location.href + 'figure.js').then(({fresh}) => {
            live.busy = true;  // so that no text is shown
            window.first = fresh('box', [0, 0, 500, 500], '#2e7d32');
            window.second = fresh('box', [3000, 0, 500, 500], '#2e7d32');
            drawing.change([first]);
        })''')
        self.made(1)
        wait(lambda: page.module('return live.last === 1'))
        self.server.kill()
        page.wait_for('offline')
        page.module('''return import(location.href + 'figure.js').then(({moved}) => {
            drawing.change([moved(first, 0, 5000)]);
            drawing.change([moved(first, 0, 5000), second]);
        })''')
        self.server.start()
        self.made(3)
        wait(lambda: page.module('return live.last === 3'))
        page.module('live.rest()')
        page.wait_for('saved')
        wait(lambda: all('new' not in key for key in page.module('return drawing.figures.map(({key}) => key)')))
        shapes = page.module('''return [first, second].map(({key}) =>
            drawing.figures.find(figure => figure.key === drawing.find(key)).shape.slice(0, 2))''')
        self.assertEqual([[0, 5000], [3000, 0]], shapes)

    def test_a_conflict_that_came_and_was_settled(self):
        """A name leads to another one and back: the search for it ends."""
        page = self.page()
        ends = page.module('''
            const one = key => ({key, object: '1.1', at: 60, named: [], kind: 'box', shape: [0, 0, 9, 9], colour: '#ffffff'});
            for (const keys of [['1.1'], ['1.1 1.2', '1.1 2.1'], ['1.1'], ['1.1 1.3', '1.1 2.2'], ['1.1']]) drawing.adopt(keys.map(one));
            return ['1.1', '1.1 1.2', '1.1 1.3'].map(drawing.find)''')
        self.assertEqual(['1.1'] * 3, ends)


class Beside(PageTest):
    """draw and the real xfig in the same folder."""

    def test_another_program(self):
        """Another designer draws in the same folder with `draw`; here the editor is sed."""
        page = self.page()
        page.draw('r', (0, 0), (1000, 1000))
        self.made(1)
        self.server.draw('site', '3').communicate()
        said, _ = self.server.draw(editor="sed -i 's/^0 32 .*/0 32 #aa0000/'").communicate()
        self.assertIn('made 3.1: 1.1 colour; 1 changed', said)
        page.wait_figures(['rect #aa0000 0 0 1000 1000'])
        page.drag((500, 500), (1500, 500))
        self.assertEqual([1, 0, 1], self.made(3)[1]['past'][:3])

    def test_words_of_the_same_site(self):
        """A word of draw for the page's own site: the page goes on from it; what it drew at once is asked."""
        page = self.page()
        page.draw('r', (0, 0), (1000, 1000))
        self.made(1)
        page.wait_for('saved')
        self.server.draw('site', '1').communicate()
        page.drag((500, 500), (2500, 500), hold=True)
        said, _ = self.server.draw('set', '1.1', 'colour', 'aa0000').communicate()
        self.assertIn('made 1.2', said)
        page.release()
        page.wait_for('asked')
        page.button_of('Draw them anew')
        page.wait_figures(['rect #aa0000 2000 0 1000 1000'])
        self.made(3)

    def test_xfig(self):
        """While the window of the real xfig is open on site 3, a page draws: both keep what they did."""
        if not all(shutil.which(word) for word in ('xfig', 'Xvfb', 'xdotool')):
            self.skipTest('xfig, xvfb and xdotool are not here')
        page = self.page()
        page.draw('r', (0, 0), (1000, 1000))
        self.made(1)
        self.server.draw('site', '3').communicate()
        window = self.server.draw(editor=str(pathlib.Path(__file__).with_name('xfig_editor.sh')))
        wait((self.server.folder / 'drawing.fig').exists)
        page.wait_for('saved')
        page.drag((500, 500), (1500, 500))
        page.wait_for('saved')
        said, _ = window.communicate(timeout=90)
        self.assertIn('figgroup: made 3.1: 1 drawn', said)
        wait(lambda: len(page.figures) == 2 and f'rect {FIRST} 1000 0 1000 1000' in page.figures, what=lambda: page.figures)
        self.assertEqual([1, 0, 0], self.server.operations(3)[0]['past'][:3])
        self.assertEqual([1, 0, 0], self.server.operations(1)[-1]['past'][:3])


if __name__ == '__main__':
    unittest.main(verbosity=2)
