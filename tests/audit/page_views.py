"""page_views.py: how a page looks: in Chromium, in a wide and a narrow window, and printed."""
import atexit
import collections
import os
import re
import shutil
import subprocess
import tempfile
import threading

import page_browser
import page_picture
import page_text
import tenth

WIDTHS = 1280, 390
SHEET = 680         # pixels between the margins of A4, the narrower paper
SHORT = 8           # characters of a text that may stand in other rows, too
PRINTED = 300000    # bytes of a page to print; Chromium takes minutes for the pages of many contests
# how much wider the page is than the window, and elements that reach beyond it
OVER = '''[document.documentElement.scrollWidth - innerWidth,
  [...document.querySelectorAll('body *')]
    .filter(it => it.getBoundingClientRect().right > innerWidth + 1 &&
      (matchMedia('print').matches || !it.closest('.wide')))
    .map(it => it.tagName + ' ' + it.textContent.slice(0, 40)).slice(0, 3)]'''
FIRST = 'document.querySelector(".contest td.number").getBoundingClientRect().top'
SCREEN = 1000       # pixels from the top of the page of a large county to its first votes
SHEETS = 30         # of A4, for such a county
BROWSERS = 3        # that run side by side
OWN = threading.local()
ANSWERS = 'later answers of Chromium'
LACKING = set()     # the tools that a line `left out` has named


def lacks(what, is_there, why='it is not there'):
    """Whether a tool isn't there; the first time, a line says so."""
    if not is_there and what not in LACKING:
        LACKING.add(what)
        tenth.leave_out(what, why)
    return not is_there


def shown():
    """The browser of this thread, which ends with the run."""
    if not hasattr(OWN, 'browser'):
        browser = OWN.browser = page_browser.Browser()
        atexit.register(browser.end)
    return OWN.browser


def see(trial, path, what):
    """Tests a page in windows and in print."""
    lacks('tidy', shutil.which('tidy'))
    if lacks('Chromium', page_browser.program()) or ANSWERS in LACKING:
        return
    try:
        look(trial, path, what, shown())
    except OSError as fault:
        # a browser that can't run here shows nothing about the page
        lacks(ANSWERS, False, '%s: %s' % (what, fault))


def look(trial, path, what, browser):
    """Tests how a browser shows a page."""
    for width in WIDTHS:
        browser.open(path, width)
        trial.see('%s at %d pixels' % (what, width), over_wrong(browser))
    if os.path.getsize(path) > PRINTED:
        return
    browser.open(path, SHEET, media='print')
    trial.see('%s on paper' % what, over_wrong(browser))
    if lacks('pdftotext', shutil.which('pdftotext')):
        return
    for paper in page_browser.PAPERS:
        trial.see('%s on %s' % (what, paper), list(print_wrong(browser, path, paper)))


def see_large(trial, path, what):
    """Tests where the first votes of a page stand, and how many sheets it has."""
    if page_browser.program() is None or ANSWERS in LACKING:
        return
    try:
        browser = shown()
        browser.open(path, WIDTHS[0])
        top = browser.value(FIRST)
        trial.see(what + ': the first votes', ['%s pixels down' % top] * (not 0 < top < SCREEN))
        if not lacks('pdftotext', shutil.which('pdftotext')):
            first, *sheets = sheets_of(browser, path, 'A4')
            trial.see(what + ': sheets', ['%d sheets' % len(sheets)] * (not 2 < len(sheets) < SHEETS))
            trial.see(what + ': the first sheet', ['it has no votes'] * ('SelectionVotes' not in first))
    except OSError as fault:
        lacks(ANSWERS, False, '%s: %s' % (what, fault))


def over_wrong(browser):
    """What reaches beyond the window; on a screen, except tables, which scroll."""
    over, parts = browser.value(OVER)
    return ['%d pixels too wide: %s' % (over, parts)] * (over > 0 or bool(parts))


def bare(text):
    """A text without white space, and without characters that a printed text spells otherwise."""
    return re.sub(r'[^!-~]', '', text)


def sheets_of(browser, path, paper):
    """The text of each sheet of the page that is open, and a last one that is empty."""
    with tempfile.TemporaryDirectory() as folder:
        pdf = os.path.join(folder, 'page.pdf')
        browser.printed(pdf, paper)
        done = subprocess.run(['pdftotext', '-raw', pdf, '-'], stdout=subprocess.PIPE, check=True, timeout=tenth.SECONDS)
    return [bare(it) for it in done.stdout.decode('utf-8', 'replace').split('\f')]


def print_wrong(browser, path, paper):
    """Rows of tables that no sheet has whole, and sheets that don't say what they belong to."""
    sheets = sheets_of(browser, path, paper)
    for number, sheet in enumerate(sheets[:-1], 1):
        if 'UNOFFICIAL' not in sheet or '%d/%d' % (number, len(sheets) - 1) not in sheet:
            yield 'sheet %d has no %d/%d' % (number, number, len(sheets) - 1)
    with open(path, encoding='utf-8') as file:
        page = file.read()
    rows = list(map(words_of, page_text.read(page).all('tr')))
    for row in rows:
        if not any(all(it in sheet for it in row) for sheet in sheets):
            yield 'no sheet has the row %r whole' % ' '.join(row)[:80]
    for text, count in collections.Counter(max(row, key=len, default='') for row in rows).items():
        found = sum(sheet.count(text) for sheet in sheets) if len(text) > SHORT else count
        if found < count:
            yield '%d of %d rows with %r are whole' % (found, count, text[:80])
    if len(sheets) < 2 or '<table' in page and not any(rows):
        yield 'no row is printed'


def words_of(row):
    """The texts of a row's cells, without those with characters that a sheet may have in another
    order."""
    texts = (re.sub('[–…]', '', it.text()) for it in row.all('th', 'td'))
    return [bare(it) for it in texts if it.isascii()]


def picture(path, to):
    """Writes the picture of a page."""
    browser = shown()
    browser.open(path, 860, 1380, scale=0.6)
    with open(to, 'wb') as file:
        file.write(page_picture.smaller(browser.picture()))
