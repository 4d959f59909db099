#!/usr/bin/python3
"""What one designer does in the page, in a real browser."""
import unittest

from cases import PageTest, shot
from helpers import Keys, wait

FIRST = '#4f7cac'  # the colour that a page draws in at first


class Gestures(PageTest):
    def test_draw_move_colour_resize(self):
        page = self.page()
        page.draw('r', (1000, 1000), (3000, 2000))
        one, = self.made(1)
        self.assertEqual(('box', [1000, 1000], [2000, 1000]), (one['kind'], one['place'], one['size']))
        page.drag((2000, 1500), (2600, 1900))
        self.assertEqual(('place', [1600, 1400]), self.last(2, 'set', 'to'))
        page.button('[title="#2e7d32"]')
        self.assertEqual(('colour', '2e7d32'), self.last(3, 'set', 'to'))
        page.wait_for('saved')
        page.handle('e', 400, 0)
        self.assertEqual(('size', [2400, 1000]), self.last(4, 'set', 'to'))
        self.assertEqual('2e7d32', self.server.colour_at(3900, 2000))
        page.wait_figures(['rect #2e7d32 1600 1400 2400 1000'])

    def test_round_ones_polygons_corners(self):
        page = self.page()
        page.draw('c', (0, 0), (1000, 1000))
        page.draw('e', (2000, 0), (4000, 1000))
        page.press('b')
        for corner in [(0, 2000), (2000, 2000), (1000, 3000)]:
            page.click(*corner)
        page.button('#done')
        circle, ellipse, polygon = self.made(3)
        self.assertEqual((circle['place'], circle['size']), ([500, 500], [500, 500]))
        self.assertEqual((ellipse['place'], ellipse['size']), ([3000, 500], [1000, 500]))
        self.assertEqual((polygon['place'], polygon['points']), ([0, 2000], [[0, 0], [2000, 0], [1000, 1000]]))
        page.drag((2000, 2000), (3000, 2000))
        self.assertEqual([[0, 0], [3000, 0], [1000, 1000]], self.made(4)[-1]['to'])
        page.drag((500, 2500), (0, 3000))  # out of the middle of an edge
        self.assertEqual([[0, 0], [3000, 0], [1000, 1000], [0, 1000]], self.made(5)[-1]['to'])

    def test_first_corner_ends_a_polygon(self):
        page = self.page()
        page.press('b')
        for corner in [(0, 0), (2000, 0), (1000, 1000), (0, 0)]:
            page.click(*corner)
        self.assertEqual([[0, 0], [2000, 0], [1000, 1000]], self.made(1)[0]['points'])

    def test_copy_delete_undo_redo(self):
        page = self.page()
        page.draw('r', (0, 0), (1000, 1000))
        self.made(1)
        page.press(Keys.CONTROL, 'd')
        self.made(2)
        page.press(Keys.DELETE)
        self.made(3)
        wait(lambda: len(page.figures) == 1)
        for keys, count in [((Keys.CONTROL, 'z'), 2), ((Keys.CONTROL, 'z'), 1), ((Keys.CONTROL, 'z'), 0),
                            ((Keys.CONTROL, Keys.SHIFT, 'z'), 1), ((Keys.CONTROL, Keys.SHIFT, 'z'), 2)]:
            page.press(*keys)
            page.wait_for('saved')
            wait(lambda: len(page.figures) == count)
        self.assertEqual(2, self.server.figgroup('fig').count('\n2 2 '))

    def test_undo_of_a_deletion_keeps_the_object(self):
        page = self.page()
        page.draw('r', (0, 0), (1000, 1000))
        wait(lambda: page.module('return drawing.figures[0]?.object') == '1.1')
        page.press(Keys.DELETE)
        self.made(2)
        page.wait_for('saved')
        page.press(Keys.CONTROL, 'z')
        self.assertEqual(([1, 1], 'shown', True), self.last(3, 'object', 'set', 'to'))
        page.wait_figures([f'rect {FIRST} 0 0 1000 1000'])

    def test_cut_and_paste(self):
        page = self.page()
        page.draw('r', (0, 0), (1000, 1000))
        page.press(Keys.CONTROL, 'x')
        page.wait_figures([])
        page.press(Keys.CONTROL, 'v')
        page.press(Keys.CONTROL, 'v')
        page.wait_figures([f'rect {FIRST} 200 200 1000 1000', f'rect {FIRST} 400 400 1000 1000'])

    def test_order(self):
        page = self.page()
        for x, colour in [(0, '#d64545'), (500, '#f4c95d'), (1000, '#2d4a8a')]:
            page.press(Keys.ESCAPE)
            page.button(f'[title="{colour}"]')
            page.draw('r', (x, x), (x + 1000, x + 1000))
        self.made(3)
        page.wait_for('saved')
        page.click(100, 100)
        page.button('[data-do=front]')
        self.assertEqual(('layer',), self.last(4, 'set'))
        self.assertEqual('d64545', self.server.colour_at(900, 900))
        page.button('[data-do=down]')
        page.button('[data-do=down]')
        wait(lambda: self.server.colour_at(900, 900) == 'f4c95d')
        page.press(Keys.HOME)
        wait(lambda: self.server.colour_at(900, 900) == 'd64545')

    def test_quick_gestures(self):
        """Gestures that do not wait for answers: all are taken, and each figure stays one."""
        page = self.page()
        for i in range(6):
            page.draw('r', (0, 700 * i), (500, 700 * i + 500))
            page.drag((250, 700 * i + 250), (2250, 700 * i + 250))
            page.press(Keys.ARROW_RIGHT)
        wait(lambda: page.state == 'saved' and len(page.figures) == 6)
        wait(lambda: self.server.figgroup('fig').count('\t 2100 ') == 6, what=lambda: self.server.figgroup('fig'))
        self.assertEqual(6, sum(operation['op'] == 'create' for operation in self.server.operations()))

    def test_a_run_of_arrow_keys_is_one_operation(self):
        page = self.page()
        page.draw('r', (0, 0), (1000, 1000))
        self.made(1)
        page.wait_for('saved')
        page.press(*[Keys.ARROW_RIGHT] * 7, Keys.ARROW_DOWN)
        self.assertEqual(('place', [700, 100]), self.last(2, 'set', 'to'))
        page.press(Keys.SHIFT, Keys.ARROW_RIGHT)
        self.assertEqual(('place', [1700, 100]), self.last(3, 'set', 'to'))
        page.press(Keys.ALT, Keys.ARROW_UP)
        self.assertEqual(('place', [1700, 99]), self.last(4, 'set', 'to'))

    def test_many_at_once(self):
        """What a box around catches moves and is recoloured together: one operation a figure."""
        page = self.page()
        for x in (0, 1500, 3000):
            page.draw('r', (x, 0), (x + 1000, 1000))
        self.made(3)
        page.drag((-200, -200), (2700, 1200))
        page.drag((500, 500), (500, 1500))
        self.assertEqual([[0, 1000], [1500, 1000]], sorted(operation['to'] for operation in self.made(5)[3:]))
        page.wait_for('saved')
        page.press(Keys.CONTROL, 'a')
        page.button('[title="#d64545"]')
        self.assertEqual(['colour'] * 3, [operation['set'] for operation in self.made(8)[5:]])

    def test_a_colour_for_what_comes(self):
        """Who chooses a tool, and then a colour, does not recolour what was drawn before."""
        page = self.page()
        page.draw('r', (0, 0), (1000, 1000))
        page.wait_text('#painted', ['Colour of what is selected'])
        page.button('[data-tool=box]')
        page.wait_text('#painted', ['Colour of what is drawn next'])
        page.button('[title="#d64545"]')
        wait(lambda: page.js('return document.querySelector(".swatch.on").title') == '#d64545')
        page.drag((2000, 0), (3000, 1000))
        page.wait_figures([f'rect {FIRST} 0 0 1000 1000', 'rect #d64545 2000 0 1000 1000'])
        self.made(2)

    def test_caps_lock(self):
        """A letter that Caps Lock made a capital is the same key."""
        page = self.page()
        page.draw('r', (0, 0), (1000, 1000))
        for key, expected in [('z', 0), ('y', 1), ('z', 0)]:
            page.js("""document.querySelector('#canvas').dispatchEvent(
                new KeyboardEvent('keydown', {key: arguments[0], ctrlKey: true, bubbles: true}))""", key.upper())
            wait(lambda: len(page.figures) == expected, what=lambda: page.figures)

    def test_zoom_and_pan(self):
        page = self.page()
        page.draw('r', (0, 0), (1000, 1000))
        self.made(1)
        page.press('3')
        unit = page.module('return canvas.view.unit')
        self.assertLess(unit, 8)
        page.press('-')
        self.assertAlmostEqual(1.25 * unit, page.module('return canvas.view.unit'), places=5)
        page.keep_view()
        page.drag((500, 500), (1300, 2100), key=' ')
        self.assertEqual([-1200, -2000, 8], page.module('return [canvas.view.x, canvas.view.y, canvas.view.unit]'))
        page.keep_view()
        page.scroll(0, 0, 50, 100)
        self.assertEqual([0, 400, 8], page.module('return [canvas.view.x, canvas.view.y, canvas.view.unit]'))
        page.keep_view()
        page.scroll(500, 500, 0, -100, key=Keys.CONTROL)
        self.assertLess(page.module('return canvas.view.unit'), 7)
        self.assertEqual(1, len(self.server.operations()))

    def test_grid(self):
        """Points keep to the grid unless it is put off."""
        page = self.page()
        page.draw('r', (-20, 30), (1030, 980))
        self.assertEqual(([0, 0], [1000, 1000]), self.last(1, 'place', 'size'))
        page.press('#')
        page.draw('r', (2024, 2024), (3024, 3024))
        place, size = self.last(2, 'place', 'size')
        self.assertTrue(all(abs(value - 2024) <= 8 for value in place), place)
        self.assertNotEqual(0, place[0] % 100)

    def fill(self, field, words):
        field.send_keys(Keys.CONTROL, 'a', Keys.NULL)
        field.send_keys(words, Keys.TAB)

    def test_measures_and_corners(self):
        page = self.page()
        page.draw('r', (0, 0), (1000, 1000))
        self.made(1)
        page.wait_for('saved')
        field = page.here().find_element('css selector', '[data-side="2"]')
        self.fill(field, '2500')
        self.assertEqual(('size', [2500, 1000]), self.last(2, 'set', 'to'))
        page.press(Keys.ESCAPE)
        page.here().find_element('css selector', '#canvas').send_keys('b', Keys.ENTER)
        self.made(3)
        page.wait_for('saved')
        field = page.here().find_element('css selector', '#corners')
        self.fill(field, '0,0 900,0 900,900 0,900')
        page.wait_figures([f'rect {FIRST} 0 0 2500 1000', f'polygon {FIRST} 0 0 900 0 900 900 0 900'])
        self.assertEqual(('points',), self.last(4, 'set'))

    def test_one_measure_changes_that_alone(self):
        """A circle keeps its size when it gets a place, the fields tell what came, and what is no number makes nothing."""
        page = self.page()
        page.draw('c', (0, 0), (1000, 1000))
        self.made(1)
        page.wait_for('saved')
        fields = page.here().find_elements('css selector', '#measures [data-side]')
        for side, typed, told in [(2, '2000', '0 -500 2000 2000'), (0, '300', '300 -500 2000 2000'),
                                  (3, '', '300 -500 2000 2000'), (1, '-100', '300 -100 2000 2000'), (2, '500', '300 650 500 500')]:
            self.fill(fields[side], typed)
            wait(lambda: ' '.join(field.get_property('value') for field in fields) == told,
                 what=lambda: (typed, [field.get_property('value') for field in fields]))
        fields[0].send_keys(Keys.CONTROL, 'a', Keys.NULL)
        fields[0].send_keys('77', Keys.ESCAPE)
        self.assertEqual('300', fields[0].get_property('value'))
        self.assertTrue(page.js('return document.activeElement.matches("#canvas")'))
        self.made(7)  # of a circle that grows or shrinks its place changes, too

    def test_refused_and_mended(self):
        """65 corners are one too many: told at the figure, and taken as soon as two clicks took one out."""
        page = self.page()
        page.press('#')
        page.press('b')
        for corner in [(60 * i + 60, 400 + 800 * (i % 2)) for i in range(64)] + [(2000, 3000)]:
            page.click(*corner)
        page.press(Keys.ENTER)
        page.wait_for('refused')
        wait(lambda: len(page.text('.bubble')) == 1)
        shot(page, 'refused')
        self.assertEqual([], self.server.operations())
        page.click(2000, 3000, times=2)
        page.wait_for('saved')
        self.assertEqual(64, len(self.made(1)[0]['points']))
        page.wait_text('.bubble', [])

    def test_operations_left(self):
        """From 9,000 on it is told how many are left."""
        page = self.page()
        page.wait_text('#left p', [])
        self.server.kill()
        line = '{"id":[1,%d],"object":[1,1],"op":"set","past":[%d,0,0,0,0,0,0,0],"set":"colour","to":"%06x"}\n'
        first = ('{"colour":"ff0000","id":[1,1],"kind":"box","layer":0,"op":"create","past":[0,0,0,0,0,0,0,0],'
                 '"place":[0,0],"shown":true,"size":[1000,1000]}\n')
        lines = first + ''.join(line % (i, i - 1, i) for i in range(2, 10000))
        (self.server.folder / 'site-1.jsonl').write_text(lines)
        self.server.start()
        wait(lambda: page.text('#left p')[:1] == ['1 of your 10,000 operations is left.'], what=lambda: page.text('#left p'))
        page.wait_for('saved')
        page.click(500, 500)
        page.press(Keys.ARROW_RIGHT)
        self.made(10000)
        wait(lambda: page.text('#left p')[:1] == ['Your 10,000 operations are used up.'], what=lambda: page.text('#left p'))
        page.press(Keys.ARROW_RIGHT)
        page.wait_for('refused')
        page.wait_text('#bar span', ['Your 10,000 operations are used up. Go on under another number.'])
        page.wait_text('#state', ['Not taken'])
        page.wait_text('.bubble', [])

    def test_help(self):
        page = self.page()
        page.press('?')
        wait(lambda: 'Undo' in page.text('#keys dd'))
        self.assertEqual({'R, F4', 'Ctrl+Z', '?'}, {'R, F4', 'Ctrl+Z', '?'} & set(page.text('#keys dt')))
        wait(lambda: page.js('return document.querySelector("#help").open'))
        shot(page, 'help')
        page.press('r')  # no key has its word meanwhile
        page.press(Keys.ESCAPE)
        wait(lambda: not page.js('return document.querySelector("#help").open'))
        self.assertEqual('select', page.module('return canvas.tool'))


if __name__ == '__main__':
    unittest.main(verbosity=2)
