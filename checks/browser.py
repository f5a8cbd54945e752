"""Drives a headless Chromium by its debugging pipe, with the standard library alone."""
from __future__ import annotations

import base64
import json
import os
import shutil
import subprocess
import tempfile
import time

from checking import LONG, Failed, Skipped

NAMES = 'chromium', 'chromium-browser', 'google-chrome', 'google-chrome-stable'
FLAGS = ['--headless=new', '--no-sandbox', '--disable-gpu', '--disable-dev-shm-usage', '--no-first-run', '--hide-scrollbars', '--disable-extensions',
         '--disable-background-networking', '--disable-component-update', '--disable-sync', '--remote-debugging-pipe']
# Keys that aren't letters, with their codes.
CODES = {'ArrowLeft': 37, 'ArrowUp': 38, 'ArrowRight': 39, 'ArrowDown': 40, 'PageUp': 33, 'PageDown': 34, 'End': 35, 'Home': 36, 'Escape': 27, ' ': 32}


class Browser:
    """A browser with one page, to be used with `with`."""

    def __init__(self):
        path = next(filter(None, map(shutil.which, NAMES)), None)
        if path is None:
            raise Skipped('there is no chromium')
        self.room = tempfile.mkdtemp(prefix='browser.')
        to_read, self.to = os.pipe()
        self.of, to_write = os.pipe()

        def pipes():
            # Chromium reads requests from descriptor 3 and writes answers to 4.
            os.dup2(to_read, 13)
            os.dup2(to_write, 14)
            os.dup2(13, 3)
            os.dup2(14, 4)
        self.running = subprocess.Popen([path, *FLAGS, f'--user-data-dir={self.room}', 'about:blank'], preexec_fn=pipes, close_fds=False,
                                        stdin=subprocess.DEVNULL, stdout=subprocess.DEVNULL, stderr=subprocess.DEVNULL, env={**os.environ, 'HOME': self.room})
        os.close(to_read)
        os.close(to_write)
        self.number, self.rest, self.errors, self.session, self.has_touch = 0, b'', [], None, False
        target = self.call('Target.createTarget', url='about:blank')['targetId']
        self.session = self.call('Target.attachToTarget', targetId=target, flatten=True)['sessionId']
        for domain in ('Page', 'Runtime', 'Log'):
            self.call(f'{domain}.enable')

    def __enter__(self):
        return self

    def __exit__(self, *_):
        self.running.terminate()
        try:
            self.running.wait(timeout=LONG)
        except subprocess.TimeoutExpired:
            self.running.kill()
            self.running.wait()
        os.close(self.to)
        os.close(self.of)
        shutil.rmtree(self.room, ignore_errors=True)

    def message(self) -> dict:
        while b'\0' not in self.rest:
            octets = os.read(self.of, 1 << 20)
            if not octets:
                raise Failed('the browser ended')
            self.rest += octets
        text, _, self.rest = self.rest.partition(b'\0')
        return json.loads(text)

    def call(self, method: str, **params) -> dict:
        """Sends a request and returns the browser's answer. Errors of the page that come before it are noted."""
        self.number += 1
        asked = {'id': self.number, 'method': method, 'params': params, **({'sessionId': self.session} if self.session else {})}
        os.write(self.to, json.dumps(asked).encode() + b'\0')
        while True:
            found = self.message()
            if found.get('id') == self.number:
                if 'error' in found:
                    raise Failed(f'{method}: {found["error"]["message"]}')
                return found['result']
            self.note(found)

    def note(self, found: dict):
        method, params = found.get('method'), found.get('params', {})
        if method == 'Runtime.exceptionThrown':
            self.errors.append(params['exceptionDetails'].get('exception', {}).get('description', 'an exception'))
        elif method == 'Runtime.consoleAPICalled' and params['type'] in ('error', 'assert', 'warning'):
            self.errors.append(' '.join(str(it.get('value', it.get('description'))) for it in params['args']))
        elif method == 'Log.entryAdded' and params['entry']['level'] == 'error':
            self.errors.append(f'{params["entry"]["text"]} {params["entry"].get("url", "")}')

    def opens(self, url: str):
        self.call('Page.navigate', url=url)
        self.until('document.readyState === "complete"')

    def of_page(self, expression: str):
        """The value of an expression in the page. A promise is awaited."""
        found = self.call('Runtime.evaluate', expression=expression, awaitPromise=True, returnByValue=True)
        if 'exceptionDetails' in found:
            raise Failed(f'{expression}: {found["exceptionDetails"].get("exception", {}).get("description")}')
        return found['result'].get('value')

    def until(self, expression: str, seconds: float = LONG):
        """Waits until an expression holds in the page."""
        end = time.monotonic() + seconds
        while not self.of_page(expression):
            if time.monotonic() > end:
                raise Failed(f'it never holds: {expression}')
            time.sleep(0.02)

    def press(self, key: str):
        named = {'key': key, 'windowsVirtualKeyCode': CODES.get(key, ord(key[0].upper()))}
        text = {'text': key} if len(key) == 1 else {}
        self.call('Input.dispatchKeyEvent', type='keyDown', **named, **text)
        self.call('Input.dispatchKeyEvent', type='keyUp', **named)

    def click(self, selector: str):
        """Clicks an element with the mouse, or taps it with a finger, in its middle. Fails if something else is there."""
        found = self.of_page(f'''(() => {{ const it = document.querySelector({json.dumps(selector)}); if (!it) return null; it.scrollIntoView({{block: 'center', behavior: 'instant'}});
            const box = it.getBoundingClientRect(), x = box.left + box.width / 2, y = box.top + box.height / 2; return [x, y, it.contains(document.elementFromPoint(x, y))]; }})()''')
        if found is None:
            raise Failed(f'there is no {selector}')
        x, y, is_there = found
        if not is_there:
            raise Failed(f'{selector} is covered')
        if self.has_touch:
            self.call('Input.dispatchTouchEvent', type='touchStart', touchPoints=[{'x': x, 'y': y}])
            self.call('Input.dispatchTouchEvent', type='touchEnd', touchPoints=[])
            return
        for kind in ('mousePressed', 'mouseReleased'):
            self.call('Input.dispatchMouseEvent', type=kind, x=x, y=y, button='left', clickCount=1)

    def types(self, selector: str, text: str):
        """Clicks a field, and types a text in place of what it has."""
        self.click(selector)
        it = f'document.querySelector({json.dumps(selector)})'
        self.until(f'document.activeElement === {it}')
        self.of_page(f'{it}.select()')
        self.call('Input.insertText', text=text)
        self.until(f'{it}.value === {json.dumps(text)}')

    def chooses(self, selector: str, value: str):
        """Chooses an option of a list. A headless browser draws no list that opens."""
        self.of_page(f'''(it => {{ it.value = {json.dumps(value)}; it.dispatchEvent(new Event('change')); }})(document.querySelector({json.dumps(selector)}))''')

    def looks(self, width: int, height: int = 800, is_dark: bool = False, has_touch: bool = False):
        """Gives the window this size, in light or in dark. With `has_touch` it is that of a phone, and `click` taps."""
        self.has_touch = has_touch
        self.call('Emulation.setDeviceMetricsOverride', width=width, height=height, deviceScaleFactor=1, mobile=has_touch)
        self.call('Emulation.setTouchEmulationEnabled', enabled=has_touch)
        self.call('Emulation.setEmulatedMedia', features=[{'name': 'prefers-color-scheme', 'value': 'dark' if is_dark else 'light'}])

    def picture(self, path: str):
        with open(path, 'wb') as file:
            file.write(base64.b64decode(self.call('Page.captureScreenshot', format='png')['data']))

    def is_wider(self) -> bool:
        """Whether the page is wider than its window."""
        return self.of_page('document.documentElement.scrollWidth > innerWidth + 1')
