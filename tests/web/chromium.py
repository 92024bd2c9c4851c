"""chromium.py: the page of web/ in headless Chromium, by tests/audit/page_browser.py."""
import page_browser

program = page_browser.program


class Browser(page_browser.Browser):
    """A browser with one window, which saves files in a folder, and keeps what it asks the network for."""

    def __init__(self, saved, *more):
        self.saved, self.asked = saved, []
        super().__init__(*more)
        self.call('Browser.setDownloadBehavior', behavior='allow', downloadPath=saved)
        self.call('Network.enable')

    def next(self):
        message = super().next()
        if message.get('method') == 'Network.requestWillBeSent':
            self.asked.append(message['params']['request']['url'])
        return message

    def open(self, path, width=1000, **more):
        super().open(path, width, **more)

    def value(self, script):
        """The value of a script, or of the promise that it is."""
        held = self.call('Runtime.evaluate', expression=script, returnByValue=True, awaitPromise=True)
        return held['result'].get('value') if 'exceptionDetails' not in held else 'fault: %s' % held['exceptionDetails']

    def give(self, selector, paths):
        """Chooses files in a field."""
        root = self.call('DOM.getDocument')['root']['nodeId']
        node = self.call('DOM.querySelector', nodeId=root, selector=selector)['nodeId']
        self.call('DOM.setFileInputFiles', nodeId=node, files=paths)

    def drop(self, selector, paths):
        """Drops files and folders on what a selector finds."""
        place = self.value("(it => [it.x + it.width / 2, it.y + it.height / 2])(document.querySelector('%s').getBoundingClientRect())" % selector)
        for kind in 'dragEnter', 'dragOver', 'drop':
            self.call('Input.dispatchDragEvent', type=kind, x=place[0], y=place[1], data={'items': [], 'files': paths, 'dragOperationsMask': 1})
