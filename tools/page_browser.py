"""Headless Chromium for `make page`, driven by its DevTools protocol over a pipe: no port, and no
library beside Python's own. What it was asked, what it said and what ran are kept."""

import base64
import fcntl
import json
import os
import pathlib
import select
import shutil
import subprocess
import time
import urllib.parse

KEYS = {'Tab': 9, 'Enter': 13, 'Escape': 27, 'End': 35, 'Home': 36, 'ArrowLeft': 37, 'ArrowUp': 38, 'ArrowRight': 39, 'ArrowDown': 40, ' ': 32}
TEXTS = {'Enter': '\r', ' ': ' '}
OPTIONS = ['--headless=new', '--remote-debugging-pipe', '--no-first-run', '--no-default-browser-check', '--disable-background-networking',
           '--disable-component-update', '--disable-sync', '--disable-default-apps', '--disable-extensions', '--disable-gpu', '--mute-audio',
           '--password-store=basic', '--hide-scrollbars', '--force-color-profile=srgb', '--lang=en-GB',
           '--host-resolver-rules=MAP * ~NOTFOUND , EXCLUDE localhost']


class Failed(Exception):
    """What isn't so on the page."""


def busy():
    """How many times as long all takes, since the machine does other work."""
    return max(1, os.getloadavg()[0] / os.cpu_count())


def program():
    found = shutil.which('chromium') or shutil.which('chromium-browser') or shutil.which('google-chrome')
    if not found:
        raise SystemExit("page: chromium isn't there")
    return found


class Browser:
    """A browser that trusts one key, and keeps its files in a folder."""

    def __init__(self, folder, key):
        ours_in, theirs_out = os.pipe()
        theirs_in, ours_out = os.pipe()
        fds = [fcntl.fcntl(it, fcntl.F_DUPFD, 20) for it in (theirs_in, theirs_out)]

        def place():
            os.dup2(fds[0], 3)
            os.dup2(fds[1], 4)

        words = [program(), *OPTIONS, f'--user-data-dir={folder}', f'--ignore-certificate-errors-spki-list={key}']
        if os.geteuid() == 0:
            words.append('--no-sandbox')
        with open(pathlib.Path(folder).parent / 'chromium.log', 'w') as log:
            self.process = subprocess.Popen([*words, 'about:blank'], stdin=subprocess.DEVNULL, stdout=log, stderr=log,
                                            preexec_fn=place, pass_fds=(3, 4), start_new_session=True,
                                            env={**os.environ, 'HOME': str(folder), 'TZ': 'UTC'})
        for it in (*fds, theirs_in, theirs_out):
            os.close(it)
        self.ours_in, self.ours_out = ours_in, ours_out
        self.bytes, self.answers, self.last, self.tabs = b'', {}, 0, {}

    def send(self, method, session, parameters):
        self.last += 1
        message = {'id': self.last, 'method': method, 'params': parameters, **({'sessionId': session} if session else {})}
        left = json.dumps(message).encode() + b'\0'
        while left:
            left = left[os.write(self.ours_out, left):]
        return self.last

    def call(self, method, session=None, timeout=60, **parameters):
        number, end = self.send(method, session, parameters), time.monotonic() + timeout
        while number not in self.answers:
            if time.monotonic() > end:
                raise Failed(f'the browser does not answer {method}')
            self.pump(0.5)
        answer = self.answers.pop(number)
        if 'error' in answer:
            raise Failed(f'{method}: {answer["error"]["message"]}')
        return answer['result']

    def pump(self, seconds):
        """Reads what the browser says, for a while at most."""
        if not select.select([self.ours_in], [], [], seconds)[0]:
            return
        piece = os.read(self.ours_in, 1 << 20)
        if not piece:
            raise Failed('the browser ended')
        *whole, self.bytes = (self.bytes + piece).split(b'\0')
        for text in whole:
            message = json.loads(text)
            if 'id' in message:
                self.answers[message['id']] = message
            elif tab := self.tabs.get(message.get('sessionId')):
                tab.hear(message['method'], message['params'])

    def rest(self, seconds):
        end = time.monotonic() + seconds
        while (left := end - time.monotonic()) > 0:
            self.pump(left)

    def tab(self, before='', origin=''):
        """A tab of its own, with a script that runs before the page's; the page at the origin may copy."""
        context = self.call('Target.createBrowserContext')['browserContextId']
        if origin:
            self.call('Browser.grantPermissions', origin=origin, browserContextId=context, permissions=['clipboardReadWrite', 'clipboardSanitizedWrite'])
        target = self.call('Target.createTarget', url='about:blank', browserContextId=context)['targetId']
        session = self.call('Target.attachToTarget', targetId=target, flatten=True)['sessionId']
        return Tab(self, session, target, before)

    def end(self):
        self.process.terminate()
        try:
            self.process.wait(10)
        except subprocess.TimeoutExpired:
            self.process.kill()
            self.process.wait()


class Tab:
    """A tab: what it asked for, what went wrong in it, and what stands in for answers."""

    def __init__(self, browser, session, target, before):
        self.browser, self.session, self.target = browser, session, target
        self.requests, self.faults, self.violations, self.dialogs, self.bodies = [], [], [], [], {}
        self.stand_ins, self.held = [], []
        browser.tabs[session] = self
        for domain in ('Page', 'Runtime', 'Network', 'Log', 'DOM', 'Accessibility'):
            self.call(f'{domain}.enable')
        self.call('Fetch.enable', patterns=[{'urlPattern': '*'}])
        self.call('Emulation.setFocusEmulationEnabled', enabled=True)
        if before:
            self.call('Page.addScriptToEvaluateOnNewDocument', source=before)
        self.size(1280, 900)

    def call(self, method, **parameters):
        return self.browser.call(method, self.session, **parameters)

    def hear(self, method, it):
        if method == 'Fetch.requestPaused':
            self.pass_on(it)
        elif method == 'Network.requestWillBeSent':
            self.requests.append(it['request'] | {'kind': it.get('type'), 'id': it['requestId']})
        elif method == 'Runtime.exceptionThrown':
            self.faults.append(it['exceptionDetails'].get('exception', {}).get('description') or it['exceptionDetails']['text'])
        elif method == 'Log.entryAdded':
            self.note(it['entry'])
        elif method == 'Page.javascriptDialogOpening':
            self.dialogs.append(it['message'])
            self.browser.send('Page.handleJavaScriptDialog', self.session, {'accept': False})

    def note(self, entry):
        if 'Content Security Policy' in entry['text'] or entry['source'] == 'security':
            self.violations.append(entry['text'])
        elif entry['level'] == 'error' and entry['source'] != 'network':
            self.faults.append(entry['text'])

    def pass_on(self, it):
        """A request goes on, is answered by a stand-in, or waits for ever."""
        path = '/' + urllib.parse.unquote(it['request']['url'].split('/', 3)[-1].partition('?')[0])
        for pattern, answer in self.stand_ins:
            if pattern(path):
                return self.stand_in(it['requestId'], answer)
        return self.browser.send('Fetch.continueRequest', self.session, {'requestId': it['requestId']})

    def stand_in(self, request, answer):
        if answer == 'never':
            return self.held.append(request)
        if answer == 'lost':
            return self.browser.send('Fetch.failRequest', self.session, {'requestId': request, 'errorReason': 'ConnectionRefused'})
        status, body, kind = answer
        body = body if isinstance(body, bytes) else json.dumps(body).encode()
        return self.browser.send('Fetch.fulfillRequest', self.session, {
            'requestId': request, 'responseCode': status, 'body': base64.b64encode(body).decode(),
            'responseHeaders': [{'name': 'content-type', 'value': kind}]})

    # ---- what a person does

    def open(self, address):
        self.call('Page.navigate', url=address)
        self.until('document.readyState === "complete"', 'the page loads')

    def go(self, fragment):
        """To another view, as by a link."""
        self.js(f'void (location.hash = {json.dumps(fragment)})')
        self.settle()

    def size(self, width, height, scale=1):
        self.call('Emulation.setDeviceMetricsOverride', width=width, height=height, deviceScaleFactor=scale, mobile=False)

    def scheme(self, name):
        self.call('Emulation.setEmulatedMedia', features=[{'name': 'prefers-color-scheme', 'value': name}])

    def key(self, name, **more):
        code = {'key': name, 'code': name, 'windowsVirtualKeyCode': KEYS[name], **more}
        self.call('Input.dispatchKeyEvent', type='keyDown', **code, **({'text': TEXTS[name]} if name in TEXTS else {}))
        self.call('Input.dispatchKeyEvent', type='keyUp', **code)

    def type(self, text):
        self.call('Input.insertText', text=text)

    def click(self, expression):
        """Clicks the element that a script finds, where it stands."""
        place = self.js(f'''(() => {{ const it = {expression}; if (!it) return null; it.scrollIntoView({{ block: 'center' }});
            const box = it.getBoundingClientRect(); return [box.x + box.width / 2, box.y + box.height / 2]; }})()''')
        if not place:
            raise Failed(f'nothing to click: {expression}')
        for kind in ('mousePressed', 'mouseReleased'):
            self.call('Input.dispatchMouseEvent', type=kind, x=place[0], y=place[1], button='left', clickCount=1)

    def picture(self, file, is_whole=False):
        data = self.call('Page.captureScreenshot', format='png', captureBeyondViewport=is_whole)['data']
        pathlib.Path(file).write_bytes(base64.b64decode(data))

    # ---- what is so

    def js(self, expression):
        answer = self.call('Runtime.evaluate', expression=expression, returnByValue=True, awaitPromise=True, userGesture=True,
                           allowUnsafeEvalBlockedByCSP=False)
        if 'exceptionDetails' in answer:
            raise Failed(f'{expression}: {answer["exceptionDetails"].get("exception", {}).get("description")}')
        return answer['result'].get('value')

    def until(self, expression, what='', seconds=20):
        end = time.monotonic() + seconds * busy()
        while not self.js(f'!!({expression})'):
            if time.monotonic() > end:
                raise Failed(f'not within {seconds} s: {what or expression}')
            self.browser.rest(0.02)

    def settle(self):
        """Until the view is there and asks for nothing more."""
        self.browser.rest(0.05)
        self.until('!document.querySelector("[aria-busy]") && document.querySelector("main h1")', 'the view is there')

    def text(self, selector='body'):
        return self.js(f'document.querySelector({json.dumps(selector)})?.innerText ?? ""')

    def texts(self, selector):
        return self.js(f'[...document.querySelectorAll({json.dumps(selector)})].map((it) => it.innerText.trim())')

    def answer_by(self, pattern, status, body=None, kind='application/json'):
        """A stand-in for the answers to some paths."""
        self.stand_ins.insert(0, (pattern, (status, body if body is not None else {'error': 'Stand-in'}, kind)))

    def never(self, pattern):
        self.stand_ins.insert(0, (pattern, 'never'))

    def lose(self, pattern):
        self.stand_ins.insert(0, (pattern, 'lost'))

    def real(self):
        """Without stand-ins again."""
        self.stand_ins.clear()

    def body_of(self, request):
        """What was answered, if the browser still has it."""
        try:
            answer = self.call('Network.getResponseBody', requestId=request)
        except Failed:
            return ''
        return base64.b64decode(answer['body']).decode(errors='replace') if answer['base64Encoded'] else answer['body']

    def end(self):
        self.browser.call('Target.closeTarget', targetId=self.target)
        self.browser.tabs.pop(self.session, None)
