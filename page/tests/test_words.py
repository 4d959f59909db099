#!/usr/bin/python3
"""What a page says of its limit, its connection, its files and its names."""
import http.server
import json
import os
import signal
import threading
import unittest
import urllib.error
import urllib.parse
import urllib.request

from cases import PageTest, shot
from helpers import Keys, Page, wait

FIRST = '#4f7cac'
PROXY = 'No connection to the server of this page. Is there a proxy in between? It must pass on web sockets.'


def create(number: int, x: int) -> str:
    return json.dumps({'op': 'create', 'id': [1, number], 'past': [number - 1] + [0] * 7, 'kind': 'box', 'colour': 'ff0000',
                       'layer': 0, 'shown': True, 'place': [x, 0], 'size': [100, 100]}) + '\n'


def paint(number: int) -> str:
    return json.dumps({'op': 'set', 'id': [1, number], 'past': [number - 1] + [0] * 7, 'object': [1, 1], 'set': 'colour',
                       'to': f'{number:06x}'}) + '\n'


class Limit(PageTest):
    """Twenty boxes, and ten operations are left."""

    def near_the_limit(self) -> Page:
        self.server.kill()
        lines = [create(number, 200 * number) for number in range(1, 21)] + [paint(number) for number in range(21, 9991)]
        (self.server.folder / 'site-1.jsonl').write_text(''.join(lines))
        self.server.start()
        page = self.page(held=[])
        wait(lambda: len(page.figures) == 20)
        page.press(Keys.CONTROL, 'a')
        page.press(Keys.ARROW_DOWN)
        page.wait_for('refused')
        return page

    def test_a_gesture_that_wants_more_than_is_left(self) -> None:
        page = self.near_the_limit()
        page.wait_text('#left p', ['10 of your 10,000 operations are left.', 'draw anew FOLDER begins a new drawing from this picture.'])
        page.wait_text('#bar span', ['This needs about 20 operations, and 10 are left. '
                                     'Undo it and make smaller changes, or go on under another number.'])
        page.wait_text('#state', ['Not taken'])  # nothing is marked that could be mended
        page.wait_text('.bubble', [])
        self.assertEqual(['Undo', 'Go on as site 3'], page.text('#bar button'))
        shot(page, 'limit')
        page.button_of('Undo')
        page.wait_for('saved')
        page.wait_text('#bar span', [])
        page.press(Keys.ESCAPE)
        page.click(250, 50)
        page.press(Keys.ARROW_DOWN)
        self.made(9991)

    def test_what_is_refused_after_a_reload(self) -> None:
        """Nothing can be undone then, and what is refused can be dropped."""
        page = self.near_the_limit()
        page.here().refresh()
        page.wait_for('refused')
        wait(lambda: page.text('#bar button') == ['Drop it', 'Go on as site 3'], what=lambda: page.text('#bar button'))
        page.button_of('Drop it')
        page.wait_for('saved')
        self.assertEqual([0] * 20, page.module('return drawing.figures.map(({shape}) => shape[1])'))
        self.made(9990)

    def test_on_under_another_number(self) -> None:
        """The changes that were refused are made there."""
        page = self.near_the_limit()
        page.js('window.kept = [\'{"another"\']')
        page.hold('{"designers"')
        page.hear(designers=[{'site': 1, 'name': 'Ann', 'pages': 1, 'holds': []}])
        page.button_of('Go on as site 2')
        self.assertEqual(['{"another":true}'], page.js('return window.sent'))
        page.hear(address=urllib.parse.urlsplit(self.server.address[2]).path)
        wait(lambda: page.here().current_url == self.server.address[2], what=lambda: page.here().current_url)
        made = [operation['set'] for operation in self.made(20, 2)]
        self.assertEqual(['place'] * 20, made)
        page.wait_for('saved')
        self.assertEqual([], page.js('return Object.keys(localStorage)'))
        self.assertEqual(9990, len(self.server.operations(1)))

    def test_no_number_is_free(self) -> None:
        page = self.near_the_limit()
        page.hold('{"designers"')
        page.hear(address=None)
        page.wait_text('#notices p', ['No number is free, or the server could not write its files.'])
        page.hear(designers=[{'site': site, 'name': f'site {site}', 'pages': 0, 'holds': []} for site in range(1, 9)])
        page.wait_text('#bar span', ['This needs about 20 operations, and 10 are left. '
                                     'Undo it and make smaller changes, or begin a new drawing: draw anew FOLDER.'])
        self.assertEqual(['Undo'], page.text('#bar button'))
        page.wait_text('#left button', [])


class Plain(http.server.BaseHTTPRequestHandler):
    """A proxy that passes on no web sockets, as nginx by `proxy_pass` alone."""
    behind = ''

    def do_GET(self) -> None:
        try:
            with urllib.request.urlopen(self.behind + self.path) as answer:
                self.pass_on(answer.status, answer.headers['Content-Type'], answer.read())
        except urllib.error.HTTPError as error:
            self.pass_on(error.code, 'text/plain', error.read())
        except OSError as error:
            self.pass_on(502, 'text/plain', str(error).encode())

    def pass_on(self, status: int, kind: str, body: bytes) -> None:
        self.send_response(status)
        self.send_header('Content-Type', kind)
        self.send_header('Content-Length', str(len(body)))
        self.end_headers()
        self.wfile.write(body)

    def log_message(self, *_: object) -> None:
        pass


class Connection(PageTest):
    def test_a_frozen_server(self) -> None:
        """Its connections stay open, and nothing comes any more."""
        page = self.page()
        page.module('live.patience = 3000')
        page.draw('r', (0, 0), (1000, 1000))
        self.made(1)
        page.wait_for('saved')
        os.kill(self.server.process.pid, signal.SIGSTOP)
        page.wait_for('offline')
        page.wait_text('#state', ['No connection: what you draw is kept here'])
        page.drag((500, 500), (500, 2500))
        page.module('live.patience = 40000')
        os.kill(self.server.process.pid, signal.SIGCONT)
        page.wait_for('saved')
        self.made(2)

    def test_a_server_that_is_alive(self) -> None:
        """A connection on which nothing is drawn is kept while the server says that it is alive."""
        page = self.page(held=[])
        page.module('''live.patience = 2000; window.ends = window.alive = 0;
            live.addEventListener('told', () => window.ends += !live.joined);
            window.beat = setInterval(() => { window.says('{"alive":15}'); window.alive++; }, 500)''')
        wait(lambda: page.js('return window.alive') >= 10)
        self.assertEqual(0, page.js('return window.ends'))
        page.js('clearInterval(window.beat)')
        wait(lambda: page.js('return window.ends'))
        page.module('live.patience = 40000')
        page.wait_for('saved')

    def test_a_page_without_its_script(self) -> None:
        """If a file of the page does not come, the page says what to do."""
        self.driver.execute_cdp_cmd('Network.enable', {})
        self.driver.execute_cdp_cmd('Network.setBlockedURLs', {'urls': ['*/figure.js']})
        self.driver.get(self.server.address[1])
        text = self.driver.find_element('id', 'state').text
        self.driver.execute_cdp_cmd('Network.setBlockedURLs', {'urls': []})
        self.driver.execute_cdp_cmd('Network.disable', {})
        self.assertEqual('Loading: if this stays, reload the page', text)

    def test_a_proxy_without_web_sockets(self) -> None:
        handler = type('Handler', (Plain,), {'behind': self.server.address[1].rsplit('/', 2)[0]})
        proxy = http.server.ThreadingHTTPServer(('127.0.0.1', 0), handler)
        threading.Thread(target=proxy.serve_forever, daemon=True).start()
        self.addCleanup(proxy.server_close)
        self.addCleanup(proxy.shutdown)
        path = urllib.parse.urlsplit(self.server.address[1]).path
        page = Page(self.driver, f'http://127.0.0.1:{proxy.server_port}{path}', 'offline')
        page.wait_text('#bar span', [PROXY])
        page.wait_text('#state', ['No connection'])
        shot(page, 'proxy')
        self.server.kill()
        page = self.page_that_was_connected()
        page.wait_text('#bar span', [])

    def page_that_was_connected(self) -> Page:
        self.server.start()
        page = self.page(1)
        self.server.kill()
        page.wait_for('offline')
        return page

    def test_a_server_that_lost_operations(self) -> None:
        """A page that knows more of its site than the server shows what the server has, and says so."""
        page = self.page()
        for x in (0, 2000):
            page.draw('r', (x, 0), (x + 1000, 1000))
        path = self.server.folder / 'site-1.jsonl'
        first = self.made(2) and path.read_text().splitlines(keepends=True)[0]
        page.wait_for('saved')
        self.server.kill()
        path.write_text(first)
        self.server.start()
        page.wait_text('#notices p', ['The server lost your operations from 1.2 on: draw again what is missing.'])
        page.wait_figures([f'rect {FIRST} 0 0 1000 1000'])
        page.draw('r', (4000, 0), (5000, 1000))
        page.wait_for('saved')
        self.made(2)

    def test_a_disk_that_fails(self) -> None:
        """While the server can't save, the page says why."""
        page = self.page(held=[])
        page.hold('{"taken"')
        page.draw('r', (0, 0), (1000, 1000))
        request = wait(lambda: page.js('return Object.values(localStorage).map(record => JSON.parse(record).sent?.request)[0]'))
        page.hear(again='the disk failed: No space left on device', request=request)
        page.wait_text('#state', ['Not saved yet: the disk failed: No space left on device'])
        page.hold()
        page.wait_for('saved')
        page.wait_text('#state', ['Saved'])
        self.made(1)

    def test_messages_that_no_page_knows(self) -> None:
        page = self.page(held=[])
        for data in ('', 'x', '[[[[', 'null', '5', '[]', '{"alive":15}', '{"more":{"you":1}}', '{"you":9,"drawing":5}'):
            page.js('window.says(arguments[0])', data)
        page.draw('r', (0, 0), (1000, 1000))
        page.wait_for('saved')
        self.made(1)


class Told(PageTest):
    """What the server tells of files and names."""

    def test_a_file_with_a_fault(self) -> None:
        """All are told, the drawing of the rest is shown, and the others draw on."""
        ann, ben = self.page(1), self.page(2)
        ann.draw('r', (0, 0), (1000, 1000))
        wait(lambda: len(ben.figures) == 1)
        ben.draw('r', (2000, 0), (3000, 1000))
        wait(lambda: len(ann.figures) == 2)
        self.made(2)
        path = self.server.folder / 'site-2.jsonl'
        path.write_text(path.read_text().replace('4f7cac', 'ffffff'))
        for page, words in ((ann, 'Saved; see the message'), (ben, "You can't draw: see the message")):
            page.wait_text('#state', [words])
            wait(lambda: 'site-2.jsonl' in ''.join(page.text('#notices .fault')), what=lambda: page.text('#notices p'))
        shot(ben, 'fault')
        ann.drag((500, 500), (500, 2500))
        self.made(2, 1)
        wait(lambda: f'rect {FIRST} 0 2000 1000 1000' in ben.figures, what=lambda: ben.figures)

    def test_several_faults_that_end(self) -> None:
        ann = self.page(held=[])
        first, second = 'site-1.jsonl: lines changed; yours are kept in drawing.kept-1: look', 'site-3.jsonl line 5: Field'
        text = ann.module('return import(location.href + "fig.js").then(({write}) => write([], "# figgroup knows nothing").text)')
        ann.hear(drawing=text, status='', fault=f'{first}; {second}')
        ann.wait_text('#notices .fault', [first, second])
        ann.wait_text('#state', ["You can't draw: see the message"])
        ann.hear(drawing=text, status='')
        ann.wait_text('#notices p', [])
        ann.wait_text('#state', ['Saved'])

    def test_operations_that_wait(self) -> None:
        """Who can't draw, as their own operations wait for others', sees the drawing and what the others change."""
        self.server.kill()
        waits = paint(2).replace('[1, 0, 0,', '[1, 0, 5,')
        (self.server.folder / 'site-1.jsonl').write_text(create(1, 0) + waits)
        self.server.start()
        ann, ben = self.page(state='sending', held=[]), self.page(2)
        ann.wait_figures(['rect #ff0000 0 0 100 100'])
        text = ann.module('return import(location.href + "fig.js").then(({write}) => write(drawing.figures, "# figgroup knows 1.1").text)')
        ann.hear(drawing=text, status='', fault="Ann can't draw: operation 1.2 waits for 3.5")
        ann.wait_text('#state', ["You can't draw: see the message"])
        ben.draw('r', (1000, 1000), (2000, 2000))
        ann.wait_figures(['rect #ff0000 0 0 100 100', f'rect {FIRST} 1000 1000 1000 1000'])
        self.assertFalse(ann.module('return live.mayDraw'))

    def test_no_drawing(self) -> None:
        """Where the first drawing does not come, there is a connection."""
        page = self.page(state='empty', held=['{"drawing"'])
        page.wait_text('#state', ['No drawing yet'])
        page.hear(fault='line 1: Field')
        page.wait_text('#state', ['No drawing: see the message'])
        page.wait_text('#notices .fault', ['line 1: Field'])

    def test_names_of_objects_and_designers(self) -> None:
        ann, ben = self.page(1, held=[]), self.page(2)
        ann.draw('r', (1000, 1000), (2000, 2000))
        wait(lambda: len(ben.figures) == 1)
        ann.wait_text('#objects li', ['box 1.1'])
        ann.hear(names={'sofa': ['1.1', '1.2'], 'couch': ['1.1']})
        ann.wait_text('#objects li', ['sofa (box 1.1)'])
        self.assertIn('sofa (box 1.1) at 1000 1000', ann.js('return document.querySelector("#objects li").ariaLabel'))
        ann.wait_for('saved')
        ann.drag((1500, 1500), (1500, 3500), hold=True)
        ben.drag((1500, 1500), (4500, 1500))
        ben.wait_for('saved')
        ann.release()
        ann.wait_text('#conflicts h3', ['2 versions of sofa (box 1.1)'])
        ann.hold('{"designers"')
        ann.hear(designers=[{'site': site, 'name': name, 'pages': 1, 'holds': []} for site, name in ((1, 'Ann'), (2, 'Cleo'))])
        wait(lambda: sorted(ann.text('.versions b')) == ["Ann's place", "Cleo's place"], what=lambda: ann.text('.versions b'))
        wait(lambda: sorted(ann.text('#objects li')) == ["sofa (box 1.1), Ann's place", "sofa (box 1.1), Cleo's place"],
             what=lambda: ann.text('#objects li'))
        shot(ann, 'names')
        ann.hear(names={})
        ann.wait_text('#conflicts h3', ['2 versions of box 1.1'])


if __name__ == '__main__':
    unittest.main(verbosity=2)
