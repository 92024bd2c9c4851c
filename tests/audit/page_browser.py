"""page_browser.py: a page in headless Chromium, driven over a pipe by the DevTools protocol."""
import base64
import json
import os
import pathlib
import select
import shutil
import signal
import subprocess
import tempfile

PROGRAMS = 'chromium', 'chromium-browser', 'google-chrome'
OPTIONS = ['--headless=new', '--no-sandbox', '--disable-gpu', '--remote-debugging-pipe',
           '--hide-scrollbars', '--no-first-run', '--disable-extensions',
           '--disable-background-networking', 'about:blank']
PATIENCE = 240      # seconds for an answer
PAPERS = {'A4': (8.27, 11.69), 'letter': (8.5, 11)}     # inches


def program():
    """The browser that is installed, or None."""
    return next(filter(None, map(shutil.which, PROGRAMS)), None)


def end_all(process, profile):
    """Ends a browser that leads a session, with its other processes, and removes its profile. One of them may write there
    while it ends, so what can't be removed is left."""
    os.killpg(process.pid, signal.SIGKILL)
    process.wait()
    shutil.rmtree(profile, ignore_errors=True)


class Browser:
    """A browser with one window."""

    def __init__(self, *more):
        self.profile = tempfile.mkdtemp()
        words = [program(), '--user-data-dir=' + self.profile, *OPTIONS, *more]
        theirs_in, self.out = os.pipe()
        self.into, theirs_out = os.pipe()
        script = 'exec 3<&%d 4>&%d; exec "$@"' % (theirs_in, theirs_out)
        self.process = subprocess.Popen(
            ['bash', '-c', script, 'bash'] + words, pass_fds=(theirs_in, theirs_out),
            stdin=subprocess.DEVNULL, stdout=subprocess.DEVNULL, stderr=subprocess.DEVNULL, start_new_session=True,
            env=dict(os.environ, TMPDIR=self.profile))
        os.close(theirs_in)
        os.close(theirs_out)
        self.left, self.number, self.session = b'', 0, None
        target = self.call('Target.createTarget', url='about:blank')['targetId']
        held = self.call('Target.attachToTarget', targetId=target, flatten=True)
        self.session = held['sessionId']
        self.call('Page.enable')

    def end(self):
        os.close(self.out)
        os.close(self.into)
        end_all(self.process, self.profile)

    def next(self):
        """The next message."""
        while b'\0' not in self.left:
            if not select.select([self.into], [], [], PATIENCE)[0]:
                raise OSError('no answer')
            part = os.read(self.into, 1 << 20)
            if not part:
                raise OSError('it ended')
            self.left += part
        text, self.left = self.left.split(b'\0', 1)
        return json.loads(text.decode('utf-8'))

    def call(self, method, **values):
        """The browser's answer to a call."""
        self.number += 1
        message = {'id': self.number, 'method': method, 'params': values}
        message.update({'sessionId': self.session} if self.session else {})
        os.write(self.out, json.dumps(message).encode('utf-8') + b'\0')
        while True:
            got = self.next()
            if got.get('id') == self.number:
                if 'error' in got:
                    raise OSError('%s: %s' % (method, got['error']['message']))
                return got['result']

    def open(self, path, width, height=900, media='', scale=1):
        """Opens a page in a window of this width, or as it looks on paper of this width."""
        self.call('Emulation.setEmulatedMedia', media=media)
        self.call('Emulation.setDeviceMetricsOverride', width=width, height=height,
                  deviceScaleFactor=scale, mobile=False)
        told = self.call('Page.navigate', url=pathlib.Path(path).as_uri())
        if 'errorText' in told:         # it then shows a page that says so
            raise ValueError('%s: %s' % (path, told['errorText']))
        while self.next().get('method') != 'Page.loadEventFired':
            pass

    def value(self, script):
        """The value of a script that is run beside the page; the page itself has none."""
        held = self.call('Runtime.evaluate', expression=script, returnByValue=True)
        return held['result'].get('value')

    def picture(self):
        """What the window shows, as a PNG."""
        return base64.b64decode(self.call('Page.captureScreenshot', format='png')['data'])

    def printed(self, path, paper):
        """Prints the page to a PDF."""
        self.call('Emulation.setEmulatedMedia', media='')
        width, height = PAPERS[paper]
        data = self.call('Page.printToPDF', paperWidth=width, paperHeight=height)['data']
        with open(path, 'wb') as file:
            file.write(base64.b64decode(data))
