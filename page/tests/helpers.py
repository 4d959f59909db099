"""A server in a folder of its own, and browsers that draw in its pages with real pointer gestures."""
import json
import os
import pathlib
import random
import shutil
import signal
import socket
import subprocess
import tempfile
import time

from selenium import webdriver
from selenium.common.exceptions import WebDriverException
from selenium.webdriver.chrome.service import Service
from selenium.webdriver.common.action_chains import ActionChains
from selenium.webdriver.common.actions.action_builder import ActionBuilder
from selenium.webdriver.common.actions.pointer_input import PointerInput
from selenium.webdriver.common.actions.wheel_input import ScrollOrigin
from selenium.webdriver.common.by import By
from selenium.webdriver.common.keys import Keys

PAGE = pathlib.Path(__file__).resolve().parent.parent
ROOT = PAGE.parent
FIGGROUP = os.environ.get('FIGGROUP', str(ROOT / 'bin' / 'figgroup'))
DRAW = ROOT / 'bin' / 'draw'
NAMES = ['Ann', 'Ben', 'Cleo', 'Dan', 'Eva', 'Finn', 'Gil', 'Hal']
LONG = 40  # seconds; the longest that anything took was 18, on four cores at a load of 35


def wait(until, seconds=LONG, what='nothing came'):
    """What `until` answers, as soon as that is true."""
    end = time.monotonic() + seconds
    while time.monotonic() < end:
        found = until()
        if found:
            return found
        time.sleep(0.02)
    raise AssertionError(what() if callable(what) else what)


def free_port():
    """One that no call from here gets as its own while a server is down. A browser refuses 10080."""
    while True:
        port = random.randint(10081, 30000)
        with socket.socket() as probe:
            try:
                probe.bind(('127.0.0.1', port))
                return port
            except OSError:
                pass


class Server:
    """serve.py over a folder; the addresses of its sites stay the same when it is started again."""

    def __init__(self, sites=2, folder=None, script=PAGE / 'serve.py', start=True):
        self.folder = pathlib.Path(folder or tempfile.mkdtemp(prefix='page-'))
        self.port, self.sites, self.script = free_port(), sites, script
        self.process = None
        if start:
            self.start()

    def start(self, **environment):
        names = [f'{i + 1}={name}' for i, name in enumerate(NAMES[:self.sites])]
        self.process = subprocess.Popen(
            ['/usr/bin/python3', str(self.script), str(self.folder), *names, '--port', str(self.port)],
            stdout=subprocess.PIPE, text=True, env={**os.environ, 'FIGGROUP': FIGGROUP, **environment})
        self.address = {}
        for site in range(1, self.sites + 1):
            self.address[site] = self.process.stdout.readline().split(' at ')[1].strip()

    def kill(self):
        if self.process:
            self.process.send_signal(signal.SIGKILL)
            self.process.wait()
            self.process.stdout.close()
        self.process = None

    def keeper(self):
        """The number of its newest process of figgroup."""
        return int(wait(lambda: subprocess.run(['pgrep', '-nP', str(self.process.pid)], capture_output=True).stdout))

    def end(self):
        self.kill()
        shutil.rmtree(self.folder)

    def lines(self, site: int | None = None) -> list[str]:
        """The whole lines of the file of a site, or of all."""
        files = [self.folder / f'site-{site}.jsonl'] if site else sorted(self.folder.glob('site-*.jsonl'))
        texts = [file.read_text() for file in files if file.exists()]
        return [line for text in texts for line in text[:text.rfind('\n') + 1].splitlines()]

    def operations(self, site: int | None = None) -> list[dict]:
        return [json.loads(line) for line in self.lines(site)]

    def figgroup(self, *words):
        read = b''.join(file.read_bytes() for file in sorted(self.folder.glob('site-*.jsonl')))
        return subprocess.run([FIGGROUP, *words], input=read, capture_output=True, check=True).stdout.decode('latin-1')

    def colour_at(self, x, y):
        return self.figgroup('paint', f'--x={x}', f'--y={y}', '--width=1', '--height=1')[-3:].encode('latin-1').hex()

    def draw(self, *words, editor='true'):
        """Begins a word of draw in the folder."""
        path = f'{pathlib.Path(FIGGROUP).parent}:{os.environ["PATH"]}'
        environment = {**os.environ, 'PATH': path, 'FIG_EDITOR': editor}
        return subprocess.Popen([DRAW, *words], cwd=self.folder, env=environment,
                                stdout=subprocess.PIPE, stderr=subprocess.STDOUT, text=True)


def browser(size=(1280, 900), *words):
    options = webdriver.ChromeOptions()
    for word in ['--headless=new', '--no-sandbox', '--disable-gpu', '--hide-scrollbars', '--disable-dev-shm-usage',
                 '--disable-renderer-backgrounding', '--disable-backgrounding-occluded-windows',
                 '--disable-background-timer-throttling', f'--window-size={size[0]},{size[1]}', *words]:
        options.add_argument(word)
    options.binary_location = shutil.which('chromium')
    options.set_capability('goog:loggingPrefs', {'browser': 'ALL'})
    driver = webdriver.Chrome(service=Service(shutil.which('chromedriver')), options=options)
    driver.set_script_timeout(LONG)
    return driver


# Lets a test hold back what the server says by how it begins, say something in its place, and keep what the page says.
TAP = '''{
    const {send} = WebSocket.prototype, {set} = Object.getOwnPropertyDescriptor(WebSocket.prototype, 'onmessage');
    window.held = %s;
    window.kept = [];
    window.sent = [];
    WebSocket.prototype.send = function(data) {
        if (window.kept.some(begin => data.startsWith(begin))) window.sent.push(data);
        else send.call(this, data);
    };
    Object.defineProperty(WebSocket.prototype, 'onmessage', {configurable: true, set(hear) {
        window.says = data => hear({data});
        set.call(this, ({data}) => window.held.some(begin => data.startsWith(begin)) || hear({data}));
    }});
}'''

MODULE = 'return import(location.href + "main.js").then(({live, drawing, canvas, gestures}) => {%s})'


class Page:
    """A window of a browser, with the page of a site."""

    def __init__(self, driver, address, state='saved'):
        self.driver, self.address = driver, address
        driver.get(address)
        self.window = driver.current_window_handle
        self.wait_for(state)

    def here(self):
        if self.driver.current_window_handle != self.window:
            self.driver.switch_to.window(self.window)
        return self.driver

    def js(self, code, *values):
        return self.here().execute_script(code, *values)

    def module(self, code, *values):
        """Runs code with the parts of the page; `values` are `given`."""
        return self.js('const given = [...arguments]; ' + MODULE % code, *values)

    @property
    def state(self):
        # Not what is shown of it, which waits for a frame.
        return self.module('return live.state')

    def wait_for(self, state='saved', seconds=LONG):
        wait(lambda: self.state == state, seconds, lambda: f'{self.state} and not {state}: {self.logged()}')

    def wait_figures(self, figures):
        wait(lambda: self.figures == figures, what=lambda: f'{self.figures} and not {figures}')

    def logged(self):
        return [entry['message'] for entry in self.here().get_log('browser')][-8:]

    def keep_view(self, x=-400, y=-400, unit=8):
        """Lets a pixel be so many units."""
        self.module('canvas.look({x: given[0], y: given[1], unit: given[2]})', x, y, unit)

    def pixel(self, x, y):
        return [round(value) for value in self.module('return canvas.pixel(given)', x, y)]

    def drag(self, *points, **more):
        """A drag of the left button through points, which are told in units of the drawing."""
        self.drag_pixels(*[self.pixel(*point) for point in points], **more)

    def drag_pixels(self, *pixels, steps=3, hold=False, key=None):
        """The same in pixels. The button stays down where `hold` is true; `key` is down meanwhile."""
        if key:
            ActionChains(self.here()).key_down(key).perform()
        actions = ActionBuilder(self.here(), duration=10)
        actions.pointer_action.move_to_location(*pixels[0])
        actions.pointer_action.pointer_down()
        for (ax, ay), (bx, by) in zip(pixels, pixels[1:]):
            for i in range(1, steps + 1):
                actions.pointer_action.move_to_location(round(ax + (bx - ax) * i / steps), round(ay + (by - ay) * i / steps))
        if not hold:
            actions.pointer_action.pointer_up()
        actions.perform()
        if key:
            ActionChains(self.driver).key_up(key).perform()

    def scroll(self, x, y, dx, dy, key=None):
        """Turns the wheel over a point of the drawing."""
        x, y = self.pixel(x, y)
        chain = ActionChains(self.here())
        if key:
            chain.key_down(key)
        chain.scroll_from_origin(ScrollOrigin.from_viewport(x, y), dx, dy)
        if key:
            chain.key_up(key)
        chain.perform()

    def release(self):
        actions = ActionBuilder(self.here(), duration=0)
        actions.pointer_action.pointer_up()
        actions.perform()

    def click(self, x, y, times=1):
        actions = ActionBuilder(self.here(), duration=5)
        actions.pointer_action.move_to_location(*self.pixel(x, y))
        for _ in range(times):
            actions.pointer_action.pointer_down()
            actions.pointer_action.pointer_up()
        actions.perform()

    def touch(self, *fingers, steps=4):
        """Fingers that go from one pixel to another, all at once."""
        self.here()
        pointers = []
        for i, (start, end) in enumerate(fingers):
            finger = PointerInput('touch', f'finger{i}')
            finger.create_pointer_move(duration=0, x=round(start[0]), y=round(start[1]))
            finger.create_pointer_down(button=0)
            for step in range(1, steps + 1):
                x, y = (round(a + (b - a) * step / steps) for a, b in zip(start, end))
                finger.create_pointer_move(duration=20, x=x, y=y)
            finger.create_pointer_up(button=0)
            pointers.append(finger)
        actions = ActionBuilder(self.driver, mouse=pointers[0])
        actions.devices = pointers
        actions.perform()

    def press(self, *keys):
        chain = ActionChains(self.here(), duration=5)
        held = [key for key in keys if key in (Keys.CONTROL, Keys.SHIFT, Keys.ALT)]
        for key in held:
            chain.key_down(key)
        for key in keys:
            if key not in held:
                chain.send_keys(key)
        for key in held:
            chain.key_up(key)
        chain.perform()

    def button(self, selector):
        """Clicks it as soon as it can be."""
        def clicked():
            try:
                found = self.here().find_elements(By.CSS_SELECTOR, selector)
                if found and found[0].is_enabled():
                    found[0].click()
                    return True
            except WebDriverException:
                pass  # it was made anew between, or something lies over it still
            return False
        wait(clicked, what=lambda: f'no {selector} to click: {self.logged()}')

    def button_of(self, words):
        """Clicks the button that has these words."""
        wait(lambda: self.js('''const found = [...document.querySelectorAll('button')].find(
            node => node.textContent.includes(arguments[0]) && !node.disabled && node.checkVisibility());
            found?.click(); return Boolean(found)''', words), what=f'no button {words}')

    def handle(self, edge, dx, dy):
        """Drags the handle of an edge so far."""
        x, y = self.js('''const {left, top, width, height} = document.querySelector(arguments[0]).getBoundingClientRect();
            return [left + width / 2, top + height / 2]''', f'[data-edge={edge}]')
        unit = self.module('return canvas.view.unit')
        self.drag_pixels([round(x), round(y)], [round(x + dx / unit), round(y + dy / unit)], steps=2)

    def draw(self, tool, *corners):
        self.press(tool)
        self.drag(*corners)

    @property
    def figures(self):
        """What is on the canvas, from the ground to the top."""
        return self.js('''return [...document.querySelectorAll('.figures > *')].map(node =>
            [node.tagName, node.getAttribute('fill'), ...['x', 'y', 'width', 'height', 'cx', 'cy', 'rx', 'ry', 'points']
                .map(name => node.getAttribute(name)).filter(value => value !== null)].join(' '))''')

    def text(self, selector):
        return self.js('return [...document.querySelectorAll(arguments[0])].map(node => node.textContent)', selector)

    def wait_text(self, selector, words):
        """Waits until so many elements read so."""
        wait(lambda: self.text(selector) == words, what=lambda: f'{self.text(selector)} and not {words}')

    def mute(self, on=True):
        """Lets nothing through to the server."""
        self.js('''window.say ??= WebSocket.prototype.send;
            WebSocket.prototype.send = arguments[0] ? () => {} : window.say''', on)

    def hold(self, *begins: str) -> None:
        """Holds back the messages of the server that begin so. The page has to be tapped."""
        self.js('window.held = [...arguments]', *begins)

    def hear(self, **message: object) -> None:
        """Lets the page hear this as said by the server."""
        self.js('window.says(arguments[0])', json.dumps(message))

    def shot(self, path):
        self.here().save_screenshot(str(path))
