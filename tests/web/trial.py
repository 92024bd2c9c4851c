"""trial.py: what the tests of the page for a browser share: what is right and wrong, and how the page is driven."""
import hashlib
import os
import subprocess
import time

TOP = os.path.dirname(os.path.dirname(os.path.dirname(os.path.abspath(__file__))))
COUNTY = os.path.join(TOP, 'examples', 'county')
FILES = ['definition.json', 'scan.json', 'adjudicated.json', 'corrected.json', 'damaged.json']
SECONDS = 300       # of a command
PARTLY = 'INCOMPLETE: 1 of 4 files was refused'     # of these
REFUSED = ('refused, E3. The file does not have the form of a report: a required member is absent, at /CVR/0/UniqueId. '
           'Have it mended by the maker of the tool that wrote it, and exported again.')
COLUMNS = ['Ballots', 'Overvotes', 'Undervotes', 'Write-ins', 'Pending', 'Unassigned']
SETTLED = '''new Promise(done => {
  const look = () => { const it = document.getElementById('state').textContent; /^(Starting|Reading|Running)/.test(it) ? setTimeout(look, 20) : done(it) }
  look()
})'''
GIVEN = SETTLED.replace('(Starting|', '(0 files|Starting|')
TEXTS = "document.getElementById('%s').textContent"
PRESS = "[...document.querySelectorAll('button')].find(it => it.textContent === '%s').click()"
CLICK = "document.getElementById('%s').click()"
CHOOSE = "(it => { it.value = '%s'; it.dispatchEvent(new Event('change')) })(document.getElementById('definition'))"
OPTIONS = "[...document.getElementById('definition').options].map(it => it.value).filter(it => it)"


class Found(Exception):
    """Something is wrong, in a trial that needs no more."""


class Trial:
    """What was right and wrong in a browser, by a program and the page's module. One that doesn't tell ends at what is wrong."""

    def __init__(self, name, cvr, module, tells=True):
        self.name, self.cvr, self.module, self.tells, self.right, self.wrong = name, cvr, module, tells, 0, 0

    def see(self, what, got, wanted):
        if got == wanted:
            self.right += 1
        else:
            self.wrong += 1
            if not self.tells:
                raise Found(what)
            print('WRONG %s: %s\n    got      %.1500r\n    expected %.1500r' % (self.name, what, got, wanted), flush=True)

    def printed(self, *words):
        """What `cvr` prints in the folder of the county."""
        return subprocess.run([self.cvr, *words], cwd=COUNTY, stdout=subprocess.PIPE, stderr=subprocess.DEVNULL, timeout=SECONDS).stdout


def sum_of(path):
    with open(path, 'rb') as file:
        return hashlib.sha256(file.read()).hexdigest()


def tallied(browser, folder, names, chosen=None):
    """Gives files, has them tallied, under the definition that is chosen where one is, and answers what the page then says."""
    given(browser, [os.path.join(folder, it) for it in names])
    if chosen:
        browser.value(CHOOSE % chosen)
        browser.value(SETTLED)
    browser.value(CLICK % 'tally')
    return browser.value(SETTLED)


def given(browser, paths, selector='#files'):
    """Gives files in the place of those before; answers what the page says."""
    browser.value(CLICK % 'clear')
    browser.value(SETTLED)
    browser.give(selector, paths)
    return browser.value(GIVEN)


def saved(browser, label, name):
    """The bytes of the file that a button with this label saves, once they stand there."""
    path = os.path.join(browser.saved, name)
    if os.path.exists(path):
        os.remove(path)
    browser.value(PRESS % label)
    for _ in range(100):
        if os.path.exists(path) and os.path.getsize(path) and not os.path.exists(path + '.part') and not os.path.exists(path + '.crdownload'):
            with open(path, 'rb') as file:
                return file.read()
        time.sleep(0.1)
    return None
