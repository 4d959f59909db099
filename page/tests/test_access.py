#!/usr/bin/python3
"""By fingers, by the keyboard alone, for who hears the page, in the dark, and on a narrow window."""
import unittest

from cases import PageTest, shot
from helpers import Keys, wait

FIRST = '#4f7cac'


class Touch(PageTest):
    def test_draw_and_move(self):
        page = self.page()
        page.button('[data-tool=box]')
        page.touch((page.pixel(1000, 1000), page.pixel(3000, 2000)))
        self.made(1)
        page.wait_for('saved')
        page.touch((page.pixel(2000, 1500), page.pixel(2600, 1900)))
        self.assertEqual(('place', [1600, 1400]), self.last(2, 'set', 'to'))

    def test_polygon(self):
        page = self.page()
        page.button('[data-tool=polygon]')
        for corner in [(0, 0), (2000, 0), (1000, 1500)]:
            page.touch((page.pixel(*corner), page.pixel(*corner)), steps=0)
        page.button('#done')
        self.assertEqual([[0, 0], [2000, 0], [1000, 1500]], self.made(1)[0]['points'])

    def test_two_fingers_zoom_and_move_the_view(self):
        page = self.page()
        page.draw('r', (1000, 1000), (3000, 2000))
        self.made(1)
        page.wait_for('saved')
        (x, y), unit = page.pixel(2000, 1500), page.module('return canvas.view.unit')
        page.touch(([x - 40, y], [x - 80, y + 60]), ([x + 40, y], [x + 80, y + 60]))
        self.assertAlmostEqual(unit / 2, page.module('return canvas.view.unit'), delta=.2)
        left, top = page.pixel(2000, 1500)
        self.assertLess(abs(left - x) + abs(top - y - 60), 6)
        page.wait_for('saved')
        self.assertEqual(1, len(self.server.operations()))  # nothing was moved
        page.touch((page.pixel(2000, 1500), page.pixel(2000, 2500)))
        self.made(2)


class Keyboard(PageTest):
    def focus(self, page, selector):
        """Goes there by the tabulator alone."""
        def there():
            if page.js('return document.activeElement?.matches(arguments[0])', selector):
                return True
            page.press(Keys.TAB)
            return False
        wait(there, what=f'no way to {selector}')

    def test_all_without_a_pointer(self):
        page = self.page()
        self.focus(page, '#canvas')
        page.press('r')
        page.press(Keys.ENTER)
        box = self.made(1)[0]
        page.wait_for('saved')
        page.press(Keys.ARROW_RIGHT, Keys.ARROW_RIGHT)
        step = page.module('return canvas.step()')
        self.assertEqual(('place', [box['place'][0] + 2 * step, box['place'][1]]), self.last(2, 'set', 'to'))
        page.wait_for('saved')
        page.press('c')
        page.press(Keys.ENTER)
        self.made(3)
        page.wait_for('saved')
        self.focus(page, '[title="#d64545"]')
        page.press(Keys.ENTER)
        self.assertEqual(('colour', 'd64545'), self.last(4, 'set', 'to'))
        page.wait_for('saved')
        self.focus(page, '#objects')
        page.press(Keys.ARROW_DOWN)
        wait(lambda: page.module('return drawing.chosen.map(({kind}) => kind)') == ['box'])
        page.press(Keys.DELETE)
        self.assertEqual(('shown', False), self.last(5, 'set', 'to'))

    def test_objects_one_after_the_other(self):
        """On the canvas Tab goes through the objects, and on behind the last one."""
        page = self.page()
        for x in (0, 2000):
            page.draw('r', (x, 0), (x + 1000, 1000))
        self.made(2)
        page.wait_for('saved')
        page.press(Keys.ESCAPE)
        self.focus(page, '#canvas')
        chosen = lambda: page.module('return drawing.chosen.map(({shape}) => shape[0])')
        for expected in ([0], [2000]):
            page.press(Keys.TAB)
            self.assertEqual(expected, chosen())
        page.press(Keys.SHIFT, Keys.TAB)
        self.assertEqual([0], chosen())
        page.press(Keys.TAB)
        page.press(Keys.TAB)
        self.assertFalse(page.js('return document.activeElement.matches("#canvas")'))

    def test_conflict_by_keys(self):
        ann, ben = self.page(1), self.page(2)
        ann.draw('r', (1000, 1000), (2000, 2000))
        wait(lambda: len(ben.figures) == 1)
        ann.wait_for('saved')
        ann.drag((1500, 1500), (1500, 3500), hold=True)
        ben.drag((1500, 1500), (4500, 1500))
        ben.wait_for('saved')
        ann.release()
        wait(lambda: len(ann.text('.versions b')) == 2)
        ann.wait_for('saved')
        self.focus(ann, '[aria-label^="Keep Ben\'s place"]')
        ann.press(Keys.ENTER)
        for page in (ann, ben):
            page.wait_figures([f'rect {FIRST} 4000 1000 1000 1000'])


class Heard(PageTest):
    def test_names_and_roles(self):
        """Each button, field and list has a name, and the list tells what is drawn."""
        page = self.page()
        page.draw('r', (0, 0), (2000, 1000))
        self.made(1)
        page.wait_for('saved')
        wait(lambda: page.js('return [...document.querySelectorAll("#objects li")].map(node => node.getAttribute("aria-label"))')
             == [f'box 1.1 at 0 0, 2000 wide, 1000 high, {FIRST}'])
        self.assertEqual(['true'], page.js('return [...document.querySelectorAll("#objects li")].map(node => node.ariaSelected)'))
        self.assertIn('light green', page.js('return [...document.querySelectorAll(".swatch")].map(node => node.ariaLabel)'))
        nameless = page.js('''return [...document.querySelectorAll('button, input, [role], ul, section[aria-label]')].filter(node =>
            node.checkVisibility() && !(node.ariaLabel || node.title || node.textContent.trim() || node.labels?.length
            || node.getAttribute('aria-labelledby') || node.getAttribute('role') === 'status')).map(node => node.outerHTML)''')
        self.assertEqual([], nameless)

    def test_what_is_told(self):
        ann, ben = self.page(1), self.page(2)
        ann.draw('r', (0, 0), (2000, 1000))
        wait(lambda: ben.text('#spoken') == ['others changed 1 object'], what=lambda: ben.text('#spoken'))
        self.server.kill()
        wait(lambda: ben.text('#state') == ['No connection: what you draw is kept here'])


class Dark(PageTest):
    words = ['--force-dark-mode']

    def test_dark(self):
        """Dark around, and the paper stays light, as the picture has a white ground."""
        page = self.page()
        page.here().execute_cdp_cmd('Emulation.setEmulatedMedia', {'features': [{'name': 'prefers-color-scheme', 'value': 'dark'}]})
        page.draw('r', (1000, 1000), (3000, 2000))
        self.made(1)
        page.wait_for('saved')
        shot(page, 'dark')
        light = page.js('''return ['header', 'aside', '#canvas', 'body'].map(name => Math.max(...
            getComputedStyle(document.querySelector(name)).backgroundColor.match(/\\d+/g).slice(0, 3)))''')
        self.assertTrue(light[0] < 60 and light[1] < 60 and light[2] > 180 and light[3] < 60, light)


class Narrow(PageTest):
    size = (420, 800)

    def test_narrow(self):
        """The canvas has the window; the panels come over it."""
        page = self.page()
        page.draw('r', (0, 1000), (2000, 2000))
        self.made(1)
        width = page.js('return innerWidth')
        box = page.js('const {left, right, height} = document.querySelector("#canvas").getBoundingClientRect(); return [left, right, height]')
        self.assertEqual([0, width], box[:2])
        self.assertGreater(box[2], 450)
        self.assertFalse(page.js('return document.querySelector("#objects").checkVisibility({visibilityProperty: true})'))
        page.button('#more')
        page.button('[title="#d64545"]')
        self.assertEqual(('colour', 'd64545'), self.last(2, 'set', 'to'))
        shot(page, 'narrow')
        page.button('#more')
        wait(lambda: not page.js('return document.querySelector("#objects").checkVisibility({visibilityProperty: true})'))

    def test_all_buttons_are_seen(self):
        """In a window of each width all that stands above is within it, also while that says that there is no connection."""
        page = self.page()
        self.addCleanup(lambda: self.driver.execute_cdp_cmd('Emulation.clearDeviceMetricsOverride', {}))
        self.server.kill()
        page.wait_for('offline')
        for width in (320, 390, 820, 1000):
            page.here().execute_cdp_cmd('Emulation.setDeviceMetricsOverride',
                                        {'width': width, 'height': 700, 'deviceScaleFactor': 1, 'mobile': False})
            wait(lambda: page.js('return innerWidth') == width)
            shot(page, f'offline-{width}')
            beyond = page.js("""return [...document.querySelectorAll('header button, #state')].filter(node => {
                const {left, right, width, height} = node.getBoundingClientRect();
                return node.checkVisibility() && (left < 0 || right > innerWidth || width < 20 || height < 20);
            }).map(node => node.outerHTML)""")
            self.assertEqual([], beyond)
            self.assertGreater(page.js('return parseFloat(getComputedStyle(document.querySelector("#state")).fontSize)'), 9)


if __name__ == '__main__':
    unittest.main(verbosity=2)
