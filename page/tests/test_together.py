#!/usr/bin/python3
"""What several designers do at once, each in a page, and what two pages of one site do."""
import unittest

from cases import PageTest, shot
from helpers import Keys, wait

FIRST = '#4f7cac'


class Together(PageTest):
    def two(self):
        """Ann and Ben, and a box that Ann drew."""
        ann, ben = self.page(1), self.page(2)
        ann.draw('r', (1000, 1000), (2000, 2000))
        ben.wait_figures([f'rect {FIRST} 1000 1000 1000 1000'])
        ann.wait_for('saved')
        return ann, ben

    def two_versions(self):
        ann, ben = self.two()
        # Both press at the same time on the same drawing; each releases without having seen the other.
        ann.drag((1500, 1500), (1500, 3500), hold=True)
        ben.drag((1500, 1500), (4500, 1500), hold=True)
        ann.release()
        ann.wait_for('saved')
        ben.release()
        for page in (ann, ben):
            wait(lambda: len(page.figures) == 2, what=lambda: page.figures)
        return ann, ben

    def test_conflict_and_keep(self):
        """A click on Ben's place settles it for both."""
        ann, ben = self.two_versions()
        for page in (ann, ben):
            wait(lambda: sorted(page.text('.versions b')) == ["Ann's place", "Ben's place"], what=lambda: page.text('.versions b'))
        self.assertEqual(['A', 'B'], sorted(ben.text('.badge text')))
        wait(lambda: '1 object has versions' in ''.join(ben.text('#spoken')), what=lambda: ben.text('#spoken'))
        shot(ann, 'conflict')
        ann.button_of("Ben's place")
        for page in (ann, ben):
            page.wait_figures([f'rect {FIRST} 4000 1000 1000 1000'])
            page.wait_text('.versions b', [])
        self.assertNotIn('object', self.server.figgroup('status').replace('object 1.1 has 2 versions, 1 shown', ''))

    def test_two_colours(self):
        """Of two versions at one place the badges stand beside each other."""
        ann, ben = self.two()
        ben.click(1500, 1500)
        ben.module('live.start()')
        ann.button('[title="#d64545"]')
        ann.wait_for('saved')
        ben.button('[title="#2e7d32"]')
        ben.module('live.rest()')
        for page in (ann, ben):
            wait(lambda: sorted(page.text('.versions b')) == ["Ann's colour", "Ben's colour"], what=lambda: page.text('.versions b'))
            left = page.js('return [...document.querySelectorAll(".badge")].map(node => node.getBoundingClientRect().x)')
            self.assertGreater(abs(left[0] - left[1]), 18)

    def test_undo_of_a_settlement(self):
        """Both see both versions again, each with the name of its designer, and one of them after a redo."""
        ann, ben = self.two_versions()
        ann.button_of("Ben's place")
        for page in (ann, ben):
            page.wait_text('.versions b', [])
            page.wait_for('saved')
        for keys, named in [((Keys.CONTROL, 'z'), ["Ann's place", "Ben's place"]), ((Keys.CONTROL, Keys.SHIFT, 'z'), [])]:
            ann.press(*keys)
            for page in (ann, ben):
                wait(lambda: sorted(page.text('.versions b')) == named, what=lambda: page.text('.versions b'))
                page.wait_for('saved')

    def test_both_keep_the_other_ones(self):
        """Ann keeps Ben's, Ben keeps Ann's, at once: both are seen again."""
        ann, ben = self.two_versions()
        for page in (ann, ben):
            page.wait_for('saved')
        ben.module('live.start()')  # as if a button were down, so that nothing newer is shown
        ann.button_of("Ben's place")
        ann.wait_for('saved')
        ben.button_of("Ann's place")
        ben.module('live.rest()')
        for page in (ann, ben):
            wait(lambda: len(page.figures) == 2, what=lambda: page.figures)
            wait(lambda: len(page.text('.versions b')) == 2, what=lambda: page.text('.versions b'))

    def test_others_do_not_disturb_a_gesture(self):
        """While the mouse is down nothing moves under it; a change of something else is no conflict."""
        ann, ben = self.two()
        ben.drag((1500, 1500), (3500, 1500), hold=True)
        ann.button('[title="#2e7d32"]')
        ann.wait_for('saved')
        wait(lambda: ben.module('return live.status').count('site 1 has 2'))  # it came, and is not shown
        self.assertEqual([f'rect {FIRST} 3000 1000 1000 1000'], ben.figures)
        ben.release()
        for page in (ann, ben):
            page.wait_figures(['rect #2e7d32 3000 1000 1000 1000'])

    def test_what_others_hold(self):
        ann, ben = self.two()
        ann.click(1500, 1500)
        wait(lambda: ben.text('.tag text') == ['Ann'], what=lambda: ben.text('.tag text'))
        self.assertEqual(1, len(ben.text('.held')))
        ann.press(Keys.ESCAPE)
        wait(lambda: ben.text('.tag text') == [])

    def test_who_holds_a_version(self):
        """In a conflict a designer's name stands at that designer's own version."""
        pages = self.two_versions()
        for page, name, badge in zip(pages, ('Ben', 'Ann'), 'BA'):
            wait(lambda: page.text('.tag text') == [name], what=lambda: page.text('.tag text'))
            beside = page.js("""const middle = node => node.getBoundingClientRect();
                const tag = middle(document.querySelector('.tag')), far = ({x, y}) => Math.hypot(x - tag.x, y - tag.y);
                return [...document.querySelectorAll('.badge')].sort((a, b) => far(middle(a)) - far(middle(b)))[0].textContent""")
            self.assertEqual(badge, beside)

    def hidden(self):
        ann, ben = self.two()
        ben.drag((1500, 1500), (3500, 1500), hold=True)
        ann.press(Keys.DELETE)
        ann.wait_for('saved')
        ben.release()
        ben.wait_text('#hidden p', ['Ben changed 1.1, which was deleted at the same time.'])
        ben.wait_for('saved')
        return ann, ben

    def test_deleted_and_changed(self):
        ann, ben = self.hidden()
        shot(ben, 'hidden')
        ben.button_of('Show it')
        for page in (ann, ben):
            page.wait_figures([f'rect {FIRST} 3000 1000 1000 1000'])
            page.wait_text('#hidden p', [])
        ben.draw('r', (0, 3000), (500, 3500))  # what is drawn then does not hide it again
        for page in (ann, ben):
            wait(lambda: len(page.figures) == 2, what=lambda: page.figures)

    def test_undo_of_a_deletion(self) -> None:
        """Ben moved what Ann deleted at the same time. Her undo shows it once, where she left it, and her redo deletes it."""
        ann, ben = self.hidden()
        ann.press(Keys.CONTROL, 'z')
        for page in (ann, ben):
            page.wait_figures([f'rect {FIRST} 1000 1000 1000 1000'])
            page.wait_text('#hidden p', [])
        ann.press(Keys.CONTROL, Keys.SHIFT, 'z')
        for page in (ann, ben):
            page.wait_figures([])
        self.assertEqual(1, sum(operation['op'] == 'create' for operation in self.server.operations()))

    def test_left_deleted(self):
        ann, ben = self.hidden()
        ann.button_of('Leave it deleted')
        for page in (ann, ben):
            page.wait_text('#hidden p', [])
            self.assertEqual([], page.figures)

    def test_colours_of_designers(self):
        ann, ben = self.two()
        wait(lambda: ann.text('#designers li') == ['Ann(you)', 'Ben'], what=lambda: ann.text('#designers li'))
        ben.driver.switch_to.window(ben.window)
        ben.driver.get('data:,')
        wait(lambda: ann.text('#designers li') == ['Ann(you)', 'Ben(away)'], what=lambda: ann.text('#designers li'))


class Three(PageTest):
    sites = 3

    def test_undo_of_one_deletion_of_three(self):
        """Of a box at three places one is deleted, and comes back, at once and behind what the server tells of it."""
        pages = [self.page(site) for site in (1, 2, 3)]
        ann = pages[0]
        ann.draw('r', (0, 0), (1000, 1000))
        for page in pages:
            page.wait_figures([f'rect {FIRST} 0 0 1000 1000'])
            page.wait_for('saved')
        for place, page in enumerate(pages, 1):
            page.drag((500, 500), (500, 500 + 1200 * place), hold=True)
        for page in pages:
            page.release()
        wait(lambda: len(ann.text('.versions b')) == 3, what=lambda: ann.text('.versions b'))
        ann.wait_for('saved')
        for waits in (False, True):
            ann.press(Keys.DELETE)
            if waits:
                wait(lambda: len(ann.text('.versions b')) == 2, what=lambda: ann.text('.versions b'))
                ann.wait_for('saved')
            ann.press(Keys.CONTROL, 'z')
            for page in pages:
                wait(lambda: len(page.text('.versions b')) == 3, what=lambda: page.text('.versions b'))
                page.wait_for('saved')


class OneSite(PageTest):
    """Two pages of one site: one draws, the other one watches."""

    def two(self):
        one = self.page(1)
        one.draw('r', (0, 0), (1000, 1000))
        self.made(1)
        one.wait_for('saved')
        two = self.page(1)
        one.wait_for('watching')
        return one, two

    def test_the_last_one_draws(self):
        one, two = self.two()
        one.wait_text('#bar span', ['Another page of yours draws: this one watches.'])
        shot(one, 'watching')
        one.drag((500, 500), (2500, 500))
        one.press('r')
        one.drag((3000, 3000), (4000, 4000))
        two.drag((500, 500), (500, 2500))
        for page in (one, two):
            page.wait_figures([f'rect {FIRST} 0 2000 1000 1000'])
        self.assertEqual(2, len(self.server.operations()))

    def test_draw_here(self):
        one, two = self.two()
        one.button_of('Draw here')
        two.wait_for('watching')
        one.wait_for('saved')
        one.drag((500, 500), (2500, 500))
        for page in (one, two):
            page.wait_figures([f'rect {FIRST} 2000 0 1000 1000'])

    def test_back_behind_a_kill(self):
        """Who drew draws again, and the other one watches again."""
        one, two = self.two()
        self.restart()
        two.wait_for('saved')
        one.wait_for('watching')
        two.drag((500, 500), (2500, 500))
        one.wait_figures([f'rect {FIRST} 2000 0 1000 1000'])

    def waiting(self, held=False):
        """One drew while it was offline, and another page of its site took over meanwhile, and drew. If `held`, the text that
        names the first figure of one is late."""
        one = self.page(1, held=[])
        if held:
            one.hold('{"drawing"')
        one.draw('r', (0, 0), (1000, 1000))
        self.made(1)
        one.wait_for('saved')
        self.server.kill()
        one.wait_for('offline')
        one.drag((500, 500), (500, 3500))
        one.press(Keys.ESCAPE)
        one.draw('c', (3000, 3000), (4000, 4000))
        one.mute()  # so that it comes last
        self.server.start()
        two = self.page(1)
        two.click(500, 500)
        two.button('[title="#d64545"]')
        self.made(2)
        two.wait_for('saved')
        one.mute(False)
        return one, two

    def asked(self, held=False):
        """The same, and one was asked what becomes of its changes."""
        one, two = self.waiting(held)
        one.hold()
        self.restart()
        one.wait_for('asked')
        two.wait_for('saved')
        one.wait_figures(['rect #d64545 0 0 1000 1000'])
        wait(lambda: len(one.text('.waits')) == 2)
        self.assertIn('2 changes wait here', one.text('#bar span')[0])
        shot(one, 'asked')
        return one, two

    def test_waiting_gestures_made_anew(self):
        one, two = self.asked()
        one.button_of('Draw them anew')
        for page in (one, two):
            page.wait_figures(['rect #d64545 0 3000 1000 1000', f'ellipse {FIRST} 3500 3500 500 500'])
        one.wait_for('saved')
        two.wait_for('watching')
        self.made(4)

    def test_waiting_gestures_dropped(self):
        one, two = self.asked()
        one.button_of('Drop them')
        one.wait_for('watching')
        wait(lambda: one.text('.waits') == [])
        one.button_of('Draw here')
        one.wait_for('saved')
        one.drag((500, 500), (1500, 500))
        for page in (one, two):
            page.wait_figures(['rect #d64545 1000 0 1000 1000'])
        self.made(3)

    def outlive(self, one, two):
        """One is closed before it was answered: a page of the site that is opened later asks."""
        one.here().get('data:,')
        two.wait_for('saved')
        three = self.page(1, 'asked')
        wait(lambda: len(three.text('.waits')) == 2, what=lambda: three.text('.waits'))
        three.button_of('Draw them anew')
        for page in (two, three):
            page.wait_figures(['rect #d64545 0 3000 1000 1000', f'ellipse {FIRST} 3500 3500 500 500'])
        three.wait_for('saved')
        self.assertEqual([], three.js('return Object.keys(localStorage)'))

    def test_waiting_gestures_outlive_their_page(self):
        self.outlive(*self.asked())

    def test_waiting_gestures_outlive_their_page_by_new_names(self):
        """The move of a figure that got its name while it waited is kept by that name."""
        self.outlive(*self.asked(held=True))

    def test_waiting_gestures_outlive_their_page_without_names(self):
        """Closed before the text with the name came."""
        one, two = self.waiting(held=True)
        self.restart()
        one.wait_for('asked')
        self.outlive(one, two)

    def test_waiting_gestures_of_what_was_deleted(self):
        """A change of an object that was deleted meanwhile is not dropped without a word."""
        one, two = self.waiting()
        two.press(Keys.DELETE)
        self.made(3)
        two.wait_for('saved')
        self.restart()
        one.wait_for('asked')
        gone = "1 change can't be made: its object was deleted meanwhile."
        wait(lambda: gone in one.text('#bar span')[0], what=lambda: one.text('#bar span'))
        one.button_of('Draw them anew')
        for page in (one, two):
            page.wait_figures([f'ellipse {FIRST} 3500 3500 500 500'])
        one.wait_text('#notices p', [gone])
        one.wait_for('saved')
        one.draw('r', (0, 0), (1000, 1000))
        one.wait_text('#notices p', [])


if __name__ == '__main__':
    unittest.main(verbosity=2)
