"""choosing.py: what the page takes of what it is given: the definition by content, beside `cvr-audit definition`; what isn't in
the tally, and that this stays in sight; results that are of other files than are given; the list. The commands that the page
shows are run, and give the same text."""
import json
import os
import re
import shlex
import shutil
import subprocess
import sys
import tempfile
import zipfile

from trial import CHOOSE, CLICK, COUNTY, OPTIONS, SECONDS, SETTLED, TEXTS, TOP, given, saved, tallied

AUDIT = os.path.join(TOP, 'companion/cvr-audit')
EXPORTS = os.path.join(TOP, 'examples/exports')
SHOWN = "document.querySelector('#answer pre').textContent"
SAID = "[...document.querySelectorAll('#answer header p:not(.unofficial)')].map(it => it.textContent.replace(' Save the definition', '').trim())"
OUT = "[...document.querySelectorAll('.out li')].map(it => it.textContent)"
RED = "[...document.querySelectorAll('#answer .said, #answer .sheet')].map(it => it.textContent)"
EMPTY = "[document.getElementById('answer').children.length, document.title]"
NOTHING = [0, 'cvr: tally of cast vote records']
HAS_SUM = "document.getElementById('sum') !== null || document.querySelector('.sign') !== null"
LINES = "[...document.querySelectorAll('#list li')].map(it => it.textContent)"
OPEN = "(it => { it.open = true; it.dispatchEvent(new Event('toggle')) })(document.getElementById('list'))"
REMOVE = "document.querySelectorAll('#list button')[%d].click()"
WHY = "[document.getElementById('tally').disabled, document.getElementById('why').textContent]"
WHOLE = [5, 1, 2, 3, 4]         # records of each of the files without a definition
MANY = 3000
# What stands in the words of the page on an export of each maker.
FORMS = {'dominion.csv': 'Dominion', 'ess.csv': 'ES&S', 'clearballot.csv': 'Clear Ballot', 'hart': 'Hart'}


def read(path):
    with open(path, 'rb') as file:
        return file.read()


def write(folder, name, text):
    with open(os.path.join(folder, name), 'w', encoding='utf-8') as file:
        file.write(text if isinstance(text, str) else json.dumps(text))
    return name


def scan():
    return json.loads(read(os.path.join(COUNTY, 'scan.json')))


def named(report, records):
    """A report with these of a county's four records, each with a name of its own."""
    held = report['CVR']
    return dict(report, CVR=[dict(held[it % 4], UniqueId='n-%d' % it) for it in records])


def five(folder):
    """Reports of one election without a definition: one has another unit, one no party, one a number that JavaScript rounds."""
    count, names = 0, []
    for place, size in enumerate(WHOLE):
        report = named(scan(), range(count, count + size))
        report['GeneratedDate'] = '2024-11-0%dT20:00:00Z' % (9 - place)
        for election in report['Election']:
            election['Notes'] = {'long': 12345678901234567890, 'é': '\u2028"\\\x7f\t'}
        if place == 1:
            report['GpUnit'].insert(0, {'@id': 'a-unit', '@type': 'CVR.GpUnit', 'Type': 'precinct'})
        if place == 2:
            report['ReportingDevice'][0]['Notes'] = 'another text of a device'
        names.append(write(folder, 'precinct-%d.json' % place, report))
        count += size
    return names


def native(trial, folder, *words):
    """What cvr-audit prints, and how it ends."""
    done = subprocess.run([sys.executable, AUDIT, *words], cwd=folder, env=dict(os.environ, CVR=trial.cvr), stdout=subprocess.PIPE, stderr=subprocess.PIPE, timeout=SECONDS)
    return done.stdout, done.stderr.decode()


def done_as_shown(trial, folder, shown):
    """The text of the commands that the page shows, run in a folder."""
    for line in shown.splitlines():
        program, *words = shlex.split(line)
        if program == 'cvr-audit':
            native(trial, folder, *words)
        else:
            text = subprocess.run([trial.cvr, *words], cwd=folder, stdout=subprocess.PIPE, stderr=subprocess.DEVNULL, timeout=SECONDS).stdout
    return text.decode()


def ballots(text):
    """The ballots of the first contest of a tally."""
    rows = [line.split(' ') for line in text.splitlines()]
    return sum(int(row[3]) for row in rows if row[0] == rows[0][0])


def see_text(browser, trial, folder, what, count):
    """The commands that are shown give the text that is shown, which has so many ballots."""
    text = browser.value(TEXTS % 'text')
    trial.see(what + ': the commands', done_as_shown(trial, folder, browser.value(SHOWN)), text)
    trial.see(what + ': the ballots', ballots(text), count)


def see_made(browser, trial, folder):
    """Files of which each has records: a definition is made of them, as by cvr-audit definition."""
    names, what = five(folder), 'no definition'
    trial.see(what, tallied(browser, folder, names), 'Done.')
    see_text(browser, trial, folder, what, sum(WHOLE))
    trial.see(what + ': the file', saved(browser, 'Save the definition', 'made-definition.json'), native(trial, folder, 'definition', *names)[0])
    trial.see(what + ': the reason', browser.value(SAID), ['Definition: made-definition.json, made of 5 reports as cvr-audit definition makes it, since no report is without a record.'])


def see_chosen(browser, trial, folder):
    """A file of records that is chosen as the definition, or is the only one: its records are counted. The only file without records
    is the definition, whatever the names are."""
    report, what = scan(), 'a chosen file of records'
    names = [write(folder, 'Defiance-adjudicated.json', named(report, [0, 1])), write(folder, 'other.json', named(report, [2, 3, 4])),
             write(folder, 'election.json', dict(report, CVR=[]))]
    trial.see(what, tallied(browser, folder, names, names[1]), 'Done.')
    see_text(browser, trial, folder, what, 5)
    trial.see(what + ': its command', browser.value(SHOWN), 'cvr tally -- other.json other.json Defiance-adjudicated.json election.json')
    trial.see(what + ': the reason', browser.value(SAID), ['Definition: other.json, since it was chosen. Its records are counted, as those of a file.'])
    trial.see('a definition by content', tallied(browser, folder, names), 'Done.')
    see_text(browser, trial, folder, 'a definition by content', 5)
    trial.see('a definition by content: its command', browser.value(SHOWN), 'cvr tally -- election.json Defiance-adjudicated.json other.json')
    trial.see('a definition by content: the reason', browser.value(SAID), ['Definition: election.json, since it is the only file without a record.'])
    trial.see('one file', tallied(browser, folder, names[1:2]), 'Done.')
    see_text(browser, trial, folder, 'one file', 3)
    trial.see('one file: the reason', browser.value(SAID), ['Definition: other.json, since it is the only file. Its records are counted, as those of a file.'])
    trial.see('a definition alone', tallied(browser, folder, names[2:]), 'Only a definition was given, so there is no tally.')
    trial.see('a definition alone: no sum', browser.value(HAS_SUM), False)


def see_contents(browser, trial, folder):
    """Where a file has its records, and how: behind all else, in a member with escapes in its name, none behind many bytes."""
    report = scan()
    rest = {name: it for name, it in report.items() if name != 'CVR'}
    escaped = json.dumps(dict(rest, Notes='"CVR": [{', CVR=named(report, [0, 1])['CVR'])).replace('"CVR": [{"', '"\\u0043V\\u0052" : [ {"')
    names = [write(folder, 'a.json', escaped), write(folder, 'b.json', dict(rest, Notes='x' * (1 << 20), CVR=named(report, [2])['CVR'])),
             write(folder, 'c.json', dict(rest, Notes='"CVR": [{}] \\' + 'x' * (1 << 20), CVR=[]))]
    trial.see('records in odd places', tallied(browser, folder, names), 'Done.')
    trial.see('records in odd places: the command', browser.value(SHOWN), 'cvr tally -- c.json a.json b.json')
    see_text(browser, trial, folder, 'records in odd places', 3)


def see_several(browser, trial, folder):
    """Two files without a record: a definition is made of all. Two elections: none is, in the command's words."""
    report = scan()
    names = [write(folder, 'one.json', dict(report, CVR=[])), write(folder, 'two.json', dict(report, CVR=[])), write(folder, 'made-definition.json', named(report, [0]))]
    trial.see('two without a record', tallied(browser, folder, names), 'Done.')
    trial.see('two without a record: the reason', browser.value(SAID),
              ['Definition: 2-made-definition.json, made of 3 reports as cvr-audit definition makes it, since 2 reports are without a record.'])
    see_text(browser, trial, folder, 'two without a record', 1)
    other = named(scan(), [1])
    other['Election'][0]['Contest'][0]['Name'] = 'Another'
    names = [write(folder, 'x.json', named(report, [0])), write(folder, 'y.json', other)]
    log = native(trial, folder, 'definition', *names)[1]
    said = tallied(browser, folder, names)
    trial.see('two elections', said.split('another election: ')[1], re.sub('^cvr-audit: ', '', log.strip()) + '. Nothing is shown.')
    trial.see('two elections: nothing is shown', browser.value(EMPTY), NOTHING)
    other['Election'][0]['Contest'][0] = dict(report['Election'][0]['Contest'][0], **{'7': 1})
    names = [write(folder, 'x.json', other), write(folder, 'y.json', other)]
    trial.see('a member that is a number', tallied(browser, folder, names),
              'x.json: a member here has a number for its name; make the definition with cvr-audit definition. Nothing is shown.')


def see_refusals(browser, trial, folder):
    """Files that are refused: it is said in red, at the top, on each sheet, in the place of Done and in the CSV. Where all are, there is no tally."""
    report = scan()
    text = json.dumps(named(report, [0]))
    names = [write(folder, 'good.json', text), write(folder, 'cut.json', text[:-9]), write(folder, 'no.json', '{}'), write(folder, 'half.json', json.dumps(dict(report, CVR=[]))[:-9])]
    said = 'INCOMPLETE: 3 of 4 files were refused'
    trial.see('three refused', tallied(browser, folder, names), said + '.')
    trial.see('three refused: in red', browser.value(RED), [said, 'INCOMPLETE'])
    trial.see('three refused: the state is red', browser.value("document.getElementById('state').className"), 'bad')
    trial.see('three refused: they stay in sight', [re.match(r'\S+ refused, E\d', it).group() for it in browser.value(OUT)], ['cut.json: refused, E2', 'no.json: refused, E3', 'half.json: refused, E2'])
    trial.see('three refused: in the CSV', saved(browser, 'Save the totals as CSV', 'tally-incomplete.csv').decode('utf-8-sig').split('\r\n')[0], said)
    trial.see('three refused: the reason', browser.value(SAID), ['Definition: made-definition.json, made of 1 report as cvr-audit definition makes it, since no report is without a record.'])
    for what, some in ('all refused', names[1:]), ('one file that is refused', names[1:2]), ('all refused under a definition', names[1:]):
        if what.endswith('definition'):
            some = [write(folder, 'definition.json', dict(report, CVR=[])), *some]
        count = len([it for it in some if it != 'definition.json'])
        last = 'INCOMPLETE: %d of %d file%s refused' % (count, count, ' was' if count == 1 else 's were')
        ends = 'The definition was refused, so there is no tally.' if what.startswith('one') else '%s. Each file was refused, so there is no tally.' % last
        trial.see(what, tallied(browser, folder, some), ends)
        trial.see(what + ': no sum, and no lines to sign', browser.value(HAS_SUM), False)
        trial.see(what + ': each is listed', [it.split(':')[0] for it in browser.value(OUT)], [it for it in some if it != 'definition.json'])


def see_left(browser, trial, folder):
    """A ZIP with files whose names end otherwise: they are listed, and a report among them makes the tally incomplete."""
    report = scan()
    path = os.path.join(folder, 'county.zip')
    with zipfile.ZipFile(path, 'w') as archive:
        archive.writestr('definition.json', json.dumps(dict(report, CVR=[])))
        archive.writestr('a/precinct-1.json', json.dumps(named(report, [0])))
        archive.writestr('a/precinct-103.json.txt', json.dumps(named(report, [1, 2])))
        archive.writestr('readme.txt', 'nothing')
    said = given(browser, [path])
    trial.see('files with another ending', said, '2 files. 2 others will not be in the tally: the list has them.')
    browser.value(CLICK % 'tally')
    line = 'INCOMPLETE: 1 file that seems to have records is not in this tally'
    trial.see('a report with another ending', browser.value(SETTLED), line + '.')
    trial.see('a report with another ending: in red', browser.value(RED), [line, 'INCOMPLETE'])
    found = browser.value(OUT)
    trial.see('a report with another ending: it stays in sight', [it.split(': ')[0] for it in found], ['county.zip/a/precinct-103.json.txt', 'county.zip/readme.txt'])
    trial.see('a report with another ending: the reason', 'Rename it' in found[0], True)
    trial.see('a report with another ending: the ballots', ballots(browser.value(TEXTS % 'text')), 1)


def see_beside(browser, trial, folder):
    """An export of VxSuite with other files beside it: a report is missed, and what the scanner rejected isn't."""
    path = os.path.join(folder, 'export.zip')
    with zipfile.ZipFile(path, 'w') as archive:
        for above, _, names in os.walk(os.path.join(EXPORTS, 'vxsuite')):
            for it in names:
                archive.write(os.path.join(above, it), os.path.join('vx', os.path.relpath(above, os.path.join(EXPORTS, 'vxsuite')), it))
        archive.writestr('vx/notes.txt', 'nothing')
        archive.writestr('vx/late.json', json.dumps(named(scan(), [7])))
    given(browser, [path])
    browser.value(OPEN)
    trial.see('beside an export: the list', [re.sub(r'\d+', 'N', it) for it in browser.value(LINES)], ['export.zip: N files Remove'])
    browser.value(CLICK % 'tally')
    trial.see('beside an export', browser.value(SETTLED), 'INCOMPLETE: 1 file that seems to have records is not in this tally.')
    found = browser.value(OUT)
    trial.see('beside an export: the reasons', [(it.split('/')[2].split('-')[0].split(':')[0], 'seems to be a report' in it, 'rejected.' in it) for it in found],
              [('late.json', True, False), ('notes.txt', False, False), ('rejected', False, True)])


def see_twins(browser, trial, folder):
    """Two files of one name, and two ZIPs of one: both count."""
    report, paths = scan(), []
    for place in range(13):
        above = os.path.join(folder, str(place))
        os.mkdir(above)
        paths.append(os.path.join(above, write(above, 'scan.json', named(report, [place]))))
    write(folder, 'definition.json', dict(report, CVR=[]))
    tallied(browser, folder, ['definition.json', *paths])
    trial.see('thirteen of one name', (ballots(browser.value(TEXTS % 'text')), browser.value(SAID)[10:]),
              (13, ['Another scan.json was given before: "scan.json (11)" stands for the later one, so give that this name before you run the command.',
                    'So do 2 more names with a number behind it.']))
    said = given(browser, [os.path.join(folder, 'definition.json'), *paths[:2]])
    trial.see('two of one name', said, '3 files.')
    browser.value(CLICK % 'tally')
    trial.see('two of one name are tallied', (browser.value(SETTLED), ballots(browser.value(TEXTS % 'text'))), ('Done.', 2))
    trial.see('two of one name: a sentence', browser.value(SAID)[1:],
              ['Another scan.json was given before: "scan.json (2)" stands for the later one, so give that this name before you run the command.'])
    for place in range(2):
        shutil.copy(paths[place], os.path.join(folder, ['scan.json', 'scan.json (2)'][place]))
    see_text(browser, trial, folder, 'two of one name', 2)
    zips = []
    for place, path in enumerate(paths[:2]):
        zips.append(os.path.join(os.path.dirname(path), 'county.zip'))
        with zipfile.ZipFile(zips[-1], 'w') as archive:
            archive.write(path, 'scan.json')
    given(browser, [os.path.join(folder, 'definition.json'), *zips])
    trial.see('two ZIPs of one name', browser.value(OPTIONS), ['definition.json', 'county.zip/scan.json', 'county.zip (2)/scan.json'])


def see_nothing(browser, trial, folder, has_folders=True):
    """What has no file that can be tallied: a sentence says what it is, and what to do."""
    trial.see('no file', (given_none(browser), browser.value(WHY)), ('0 files.', [True, 'No file was given yet.']))
    for name, maker in FORMS.items():
        path = os.path.join(folder, name + '.zip')
        with zipfile.ZipFile(path, 'w') as archive:
            for it in sorted(os.listdir(os.path.join(EXPORTS, name))) if maker == 'Hart' else [name]:
                archive.write(os.path.join(EXPORTS, *([name, it] if maker == 'Hart' else [name])), 'results/' + it)
        said = given(browser, [path])
        trial.see('an export of %s' % maker, (said[:40], 'It is an export of %s, as' % maker in said, 'cvr-audit gather %s.zip -o gathered' % name in said), ('Nothing that was given can be tallied. ' + name[:1], True, True))
        trial.see('an export of %s is not taken' % maker, browser.value(WHY), [True, 'Nothing that can be tallied was given.'])
    path = os.path.join(folder, 'dominion.zip')
    with zipfile.ZipFile(path, 'w') as archive:
        for it in sorted(os.listdir(os.path.join(EXPORTS, 'dominion-json'))):
            archive.write(os.path.join(EXPORTS, 'dominion-json', it), it)
    given(browser, [path])
    browser.value(CLICK % 'tally')
    trial.see('an export of JSON', browser.value(SETTLED), 'INCOMPLETE: 4 of 4 files were refused. Each file was refused, so there is no tally.')
    trial.see('an export of JSON: its maker', ['It is an export of Dominion, as JSON.' in it for it in browser.value(OUT)], [False, False, True, False])
    path = os.path.join(folder, 'letter.docx')
    with zipfile.ZipFile(path, 'w') as archive:
        archive.writestr('[Content_Types].xml', '<x/>')
        archive.writestr('word/document.xml', '<x/>')
    said = given(browser, [path])
    trial.see('a document of Word', said, 'Nothing that was given can be tallied. letter.docx: It is a document of an office program, which has no records. '
              'Ask for the export that it was made from.')
    browser.value(OPEN)
    trial.see('a document of Word: the list', browser.value(LINES), ['letter.docx: 2 files not taken Remove'])
    if has_folders:
        above = os.path.join(folder, 'sheets')
        os.mkdir(above)
        write(above, 'a.csv', 'a,b\n')
        said = given(browser, [above], '#folder')
        trial.see('a folder of CSV', ('sheets: It has 1 file, and none whose name ends in .json.' in said, 'ES&S, Hart, VxSuite: cvr-audit gather sheets -o gathered' in said), (True, True))


def given_none(browser):
    browser.value(CLICK % 'clear')
    return browser.value(SETTLED)


def see_stale(browser, trial, folder):
    """What is added, removed or chosen takes the result away; the list removes one file."""
    report = scan()
    names = [write(folder, 'definition.json', dict(report, CVR=[])), *(write(folder, '%d.json' % it, named(report, [it])) for it in range(3))]
    acts = [('a file that is added', lambda: browser.give('#files', [os.path.join(folder, '2.json')])), ('another definition', lambda: browser.value(CHOOSE % '0.json')),
            ('a file that is removed', lambda: browser.value(REMOVE % 2))]
    browser.value(OPEN)
    for what, act in acts:
        trial.see('before ' + what, tallied(browser, folder, names[:3]), 'Done.')
        act()
        browser.value(SETTLED)
        trial.see(what + ': nothing stale', browser.value(EMPTY), NOTHING)
    trial.see('the list', browser.value(LINES), ['definition.json Remove', '0.json Remove'])
    trial.see('the focus is on the list', browser.value('document.activeElement.ariaLabel'), 'Remove 0.json')
    browser.value(CLICK % 'tally')
    trial.see('what is left', (browser.value(SETTLED), ballots(browser.value(TEXTS % 'text')), browser.value(SHOWN)), ('Done.', 1, 'cvr tally -- definition.json 0.json'))
    for _ in range(2):
        browser.value(REMOVE % 0)
        browser.value(SETTLED)
    trial.see('all are removed', (browser.value(TEXTS % 'state'), browser.value(WHY)), ('0 files.', [True, 'No file was given yet.']))


def see_many(browser, trial, folder):
    """A ZIP of files of one ballot each, of which one is removed from the list."""
    report, path = scan(), os.path.join(folder, 'many.zip')
    with zipfile.ZipFile(path, 'w', zipfile.ZIP_DEFLATED) as archive:
        archive.writestr('definition.json', json.dumps(dict(report, CVR=[])))
        for it in reversed(range(MANY)):
            archive.writestr('ballots/%05d.json' % it, json.dumps(named(report, [it])), zipfile.ZIP_STORED if it % 2 else zipfile.ZIP_DEFLATED)
    given(browser, [path])
    browser.value(OPEN)
    trial.see('many files: the list', len(browser.value(LINES)), MANY + 1)
    browser.value(REMOVE % 7)
    browser.value(SETTLED)
    browser.value(CLICK % 'tally')
    trial.see('many files', browser.value(SETTLED), 'Done.')
    trial.see('many files: the ballots', ballots(browser.value(TEXTS % 'text')), MANY - 1)
    browser.value(REMOVE % (MANY - 1))
    browser.value(SETTLED)
    browser.value(CLICK % 'tally')
    trial.see('many files without a definition', browser.value(SETTLED), 'Done.')
    trial.see('many files without a definition: the ballots', ballots(browser.value(TEXTS % 'text')), MANY - 1)


def see_narrow(browser, trial):
    """On a phone the state of each file is in sight."""
    edges = browser.value("[...document.querySelectorAll('.inputs [data-head=State]')].map(it => it.getBoundingClientRect()).map(it => [it.left >= 0, it.right <= innerWidth, it.width > 100])")
    trial.see('the states are in sight', [all(it) for it in edges], [True] * len(edges))
    trial.see('there are states', len(edges) > 0, True)


ALL = see_made, see_chosen, see_contents, see_several, see_refusals, see_left, see_beside, see_twins, see_stale, see_many, see_nothing


def see_choosing(browser, trial, folder, has_folders=True):
    """All of these; in a browser whose protocol gives no folders, without one."""
    for call in ALL:
        call(browser, trial, tempfile.mkdtemp(dir=folder), *[has_folders] * (call is see_nothing))
