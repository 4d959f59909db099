"""What the tests in a browser share: one browser for a class of tests, a server for each test, a window for each page."""
import json
import os
import pathlib
import unittest

from helpers import TAP, Page, Server, browser, wait

SHOTS = os.environ.get('SHOTS')  # a folder for screenshots


def shot(page, name):
    if SHOTS:
        page.shot(pathlib.Path(SHOTS) / f'{name}.png')


class PageTest(unittest.TestCase):
    sites = 2
    size = (1280, 900)
    words = ()  # for the browser

    @classmethod
    def setUpClass(cls):
        cls.driver = browser(cls.size, *cls.words)
        cls.first = cls.driver.current_window_handle

    @classmethod
    def tearDownClass(cls):
        cls.driver.quit()

    def setUp(self):
        self.server = Server(self.sites)

    def tearDown(self):
        for window in self.driver.window_handles:
            if window != self.first:
                self.driver.switch_to.window(window)
                self.driver.close()
        self.driver.switch_to.window(self.first)
        self.driver.get('data:,')
        self.server.end()

    def page(self, site: int = 1, state: str = 'saved', held: list[str] | None = None) -> Page:
        """A further window with the page of a site, which is tapped if `held` tells what it does not hear at first."""
        self.driver.switch_to.window(self.first)
        if self.driver.current_url != 'data:,':
            self.driver.switch_to.new_window('window')
            self.driver.get('data:,')
        tap = None if held is None else self.driver.execute_cdp_cmd(
            'Page.addScriptToEvaluateOnNewDocument', {'source': TAP % json.dumps(held)})
        page = Page(self.driver, self.server.address[site], state)
        if tap:  # for this page alone, and for no later one in this window
            self.driver.execute_cdp_cmd('Page.removeScriptToEvaluateOnNewDocument', tap)
        page.keep_view()
        return page

    def restart(self):
        self.server.kill()
        self.server.start()

    def made(self, count, site=None):
        """The operations, as soon as there are so many."""
        wait(lambda: len(self.server.lines(site)) == count,
             what=lambda: f'{len(self.server.lines(site))} operations and not {count}: {self.server.lines(site)[-9:]}')
        return self.server.operations(site)

    def last(self, count, *keys):
        """Of the last of so many operations these values."""
        return tuple(self.made(count)[-1][key] for key in keys)
