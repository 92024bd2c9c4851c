"""firefox.py: a page in headless Firefox, driven by its own protocol (Marionette)."""
import json
import os
import pathlib
import shutil
import socket
import subprocess
import tempfile
import time

import page_browser

PROGRAMS = 'firefox-esr', 'firefox'
PATIENCE = 240      # seconds for an answer
PREFERENCES = {'browser.download.folderList': 2, 'browser.download.useDownloadDir': True, 'browser.download.alwaysOpenPanel': False,
               'browser.helperApps.neverAsk.saveToDisk': 'text/plain,text/csv,application/json', 'datareporting.policy.dataSubmissionEnabled': False,
               'browser.shell.checkDefaultBrowser': False}


def program():
    """The browser that is installed, or None."""
    return next(filter(None, map(shutil.which, PROGRAMS)), None)


def free_port():
    with socket.socket() as its:
        its.bind(('127.0.0.1', 0))
        return its.getsockname()[1]


class Browser:
    """A browser with one window, which saves files in a folder."""

    def __init__(self, saved):
        self.saved, self.profile, port = saved, tempfile.mkdtemp(), free_port()
        with open(self.profile + '/user.js', 'w') as file:
            for name, value in {**PREFERENCES, 'marionette.port': port, 'browser.download.dir': saved}.items():
                file.write('user_pref(%s, %s);\n' % (json.dumps(name), json.dumps(value)))
        self.process = subprocess.Popen([program(), '--headless', '--marionette', '--no-remote', '--profile', self.profile],
                                        stdout=subprocess.DEVNULL, stderr=subprocess.DEVNULL,
                                        env=dict(os.environ, HOME=self.profile), start_new_session=True)
        self.left, self.number, self.socket = b'', 0, self.connected(port)
        self.next()
        self.call('WebDriver:NewSession', capabilities={'alwaysMatch': {'moz:webdriverClick': False}})
        self.call('WebDriver:SetTimeouts', script=PATIENCE * 1000)

    def connected(self, port):
        for _ in range(4 * PATIENCE):
            try:
                return socket.create_connection(('127.0.0.1', port), timeout=PATIENCE)
            except OSError:
                time.sleep(0.25 if self.process.poll() is None else 0)
        page_browser.end_all(self.process, self.profile)
        raise OSError('it does not listen')

    def end(self):
        self.socket.close()
        page_browser.end_all(self.process, self.profile)

    def next(self):
        """The next message, which stands behind its length and a colon."""
        while True:
            head, colon, rest = self.left.partition(b':')
            if colon and len(rest) >= int(head):
                self.left = rest[int(head):]
                return json.loads(rest[:int(head)])
            part = self.socket.recv(1 << 16)
            if not part:
                raise OSError('it ended')
            self.left += part

    def call(self, method, **values):
        """The browser's answer to a call."""
        self.number += 1
        message = json.dumps([0, self.number, method, values]).encode('utf-8')
        self.socket.sendall(b'%d:%s' % (len(message), message))
        _, _, fault, answer = self.next()
        if fault:
            raise OSError('%s: %s' % (method, fault['message']))
        return answer

    def open(self, path):
        self.call('WebDriver:Navigate', url=pathlib.Path(path).as_uri())

    def value(self, script):
        """The value of a script, or of the promise that it is."""
        script = 'const done = arguments[arguments.length - 1]; Promise.resolve(%s).then(done, it => done("fault: " + it))' % script
        return self.call('WebDriver:ExecuteAsyncScript', script=script, args=[], newSandbox=True, sandbox=None)['value']

    def give(self, selector, paths):
        """Chooses files in a field."""
        found = self.call('WebDriver:FindElement', using='css selector', value=selector)['value']
        self.call('WebDriver:ElementSendKeys', id=next(iter(found.values())), text='\n'.join(paths))
