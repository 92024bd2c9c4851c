"""why.py: what the page says of refused files, of what isn't read, and of what is in conflict. The table by which `cvr-audit why`
is tested (tests/audit/why.json) goes through the page: so both say the same."""
import base64
import json
import os
import re
import subprocess
import tempfile
import time

import rows
from slips import Way
from trial import COUNTY, FILES, PARTLY, PRESS, SETTLED, TEXTS, tallied

READER = """[...document.querySelectorAll('#answer tbody tr')].filter(it => it.querySelector('.bad')).map(row => ({
  file: row.cells[0].textContent, code: row.querySelector('.bad > strong').textContent.trim(), ...Object.fromEntries([...row.querySelectorAll('.bad [class]')].map(it =>
    [it.className, (it.className === 'kind' ? it : it.querySelector('code') ?? it).textContent.trim().replace(/^\\w.*: nothing$/, '-')]))}))"""
LINES = 'means', 'where', 'record', 'value', 'around', 'definition', 'seems', 'kind', 'do'
KINDS = {'ess': 'It is an export of ES&S, as CSV. cvr-audit gather ess.csv -o gathered'}
OPENED = {'zip', 'letter.docx', 'manifest.csv'}        # which the page opens, and refuses whole, or takes for a manifest


def in_a_line(text):
    return ''.join(it if it.isprintable() else json.dumps(it)[1:-1] for it in text)


def wanted_in(lines):
    """What lines of `cvr-audit why` say of each file, in the order of the files."""
    held = []
    for line in lines:
        name, _, said = line.partition(' ')
        if name == 'refused':
            file, code, path, _ = re.fullmatch(r'"(.*)" (E\d)(?: (\S*))?( \d+)?', said).groups()
            held.append(dict({'file': file, 'code': 'refused, %s.' % code}, **({'path': path} if path else {})))
        else:
            held[-1][name] = KINDS.get(said, said) if name == 'kind' else said
    return held


def wanted_of(row):
    if '--format' not in row['words']:
        return wanted_in(row['out'])
    made = [{name: it for name, it in one.items() if it is not None} for one in json.loads(''.join(row['out']))['refused']]
    for it in made:
        it.pop('rule', None)
        it['code'] = 'refused, %s.' % it['code']
        if 'record' in it:
            it['record'] = ' '.join(json.dumps(one) for one in it['record'])
        if 'kind' in it:
            it['kind'] = KINDS[it['kind']]
    return made


def see_table(browser, trial, _):
    """The rows on refused files, but that on a file which isn't there."""
    for row in [it for it in rows.held() if it['name'].startswith('why: ') and it['status'] < 2]:
        with tempfile.TemporaryDirectory() as folder:
            rows.lay(folder, row.get('files', {}))
            subprocess.run(['sh', '-c', row.get('before', ':')], cwd=folder, check=True)
            words = [it for it in dict.fromkeys(row['words'][1:]) if it not in ('--format', 'json') and it not in OPENED]
            tallied(browser, folder, words)
            found = [{name: in_a_line(it) for name, it in one.items()} for one in browser.value(READER)]
            trial.see('the page: ' + row['name'], found, [it for it in wanted_of(row) if it['file'] in words])


SEEN = """seenAs({path: '%s', file: new Blob([Uint8Array.from(atob('%s'), it => it.charCodeAt(0))]), size: %d}).then(it => [it.seems, it.todo])"""
MAKER = 'It is a table such as CSV. It is an export of %s, as CSV.'
GATHER = 'cvr-audit gather makes reports of it. cvr-audit gather %s -o gathered'
OFFICE = ['It is a document of an office program, which has no records.', 'Ask for the export that it was made from.']
BOOK = ['It is a ZIP, or a workbook, which is one.', 'Unpack it, or have the records of a workbook exported as CSV.']
# What each source seems to be, and what to do, by its path and its bytes.
SOURCES = [
    ('a.zip/1.xml', b'<?xml version="1.0"?><Cvr xmlns="http://tempuri.org/CVRDesign.xsd"/>', ['It is XML or a page of the web. It is an export of Hart, as XML.', GATHER % 'a.zip']),
    ('csv/d.csv', b'x,,\nCvrNumber,TabulatorNum,BatchId,RecordId\n', [MAKER % 'Dominion', GATHER % 'csv']),
    ('csv/c.CSV', b'RowNumber,BoxID,BoxPosition,BallotID\n', [MAKER % 'Clear Ballot', GATHER % 'csv']),
    ("it's/e.txt", b'Cast Vote Record,Precinct\n', [MAKER % 'ES&S', GATHER % "'it'\"'\"'s'"]),
    ('x/CvrExport_1.json', b'{"Version": "5", "Sessions": []}', ['It is JSON of another kind than a report. It is an export of Dominion, as JSON.', GATHER % 'x']),
    ('x/metadata.json', b'{"castVoteRecordReportMetadata": {}}', ['It is JSON of another kind than a report. It is an export of VxSuite.', GATHER % 'x']),
    ('x/manifest.csv', b'batch,ballots\n', ['It is a table such as CSV.', 'Have the records exported as JSON; a list of voters or of batches has none.']),
    ('x/1.xml', b' <a/>', ['It is XML or a page of the web.', 'Have the records exported as JSON.']),
    ('a.docx/word/document.xml', b'<w/>', OFFICE), ('a.rtf', b'{\\rtf1 x}', OFFICE), ('a.xlsx/xl/workbook.xml', b'<w/>', BOOK), ('zip', b'PK\3\4', BOOK),
    ('x/', b'', ['It is empty.', 'Copy it again.']), ('blank', b'\n \t', ['It is empty.', 'Copy it again.']),
    ('cut.json', b'[1, tr', ['It is JSON that ends too soon.', 'Copy it again, and compare the lengths.']),
    ('bad.json', b'[1, tru]', ['It is JSON that is damaged.', 'Have it exported again.']),
    ('late.json', b' ' * 5000 + b'{"a": 01}', ['It is JSON that is damaged.', 'Have it exported again.']),
    ('long.json', b'[' + b'1,' * 600000, ['It is JSON of another kind than a report.', '']),     # only its first bytes are read
]


def see_sources(browser, trial, _):
    """What sources seem to be that aren't read."""
    for path, data, wanted in SOURCES:
        trial.see('what %s seems to be' % path, browser.value(SEEN % (path.replace("'", "\\'"), base64.b64encode(data).decode(), len(data))), wanted)


# ---- the fields of a volume

NO_DATE = 'The date has to be a date and time with its offset from UTC. Write it as 2024-11-06T08:00:00Z or 2024-11-06T03:00:00-05:00.'
NO_NUMBER = 'The volume has to be a number from 1 to 2.'
FIELDS = "['date-said', 'number-said'].map(it => document.getElementById(it).textContent.trim())"


def see_fields(browser, trial, press):
    """What stands beside a field that gives no volume of the county, and on top."""
    for date, number, wanted in ('never', '1', [NO_DATE, '']), ('', '1', [NO_DATE, '']), ('2024-11-07T00:00:00Z', '3', ['', NO_NUMBER]), \
            ('2024-11-07T00:00:00Z', '0', ['', NO_NUMBER]), ('2024-11-07T00:00:00Z', '', ['', NO_NUMBER]):
        browser.value("(document.getElementById('date').value = '%s', document.getElementById('number').value = '%s')" % (date, number))
        browser.value(press)
        said = browser.value(SETTLED)
        trial.see('a volume %s of %s' % (number, date), [*browser.value(FIELDS), said], [*wanted, ''.join(wanted) + ' Nothing is saved.'])


# ---- conflicts

BESIDE = """[...document.querySelectorAll('.conflict')].map(it => [...it.querySelectorAll('table, details.shut > summary')].map(one => one.tagName === 'SUMMARY' ? one.textContent :
  [...one.rows].slice(1).map(row => [...row.cells].map(cell => cell.textContent))))"""
OPENED_ALL = """(() => { const its = [...document.querySelectorAll('.conflict details.shut')]; for (const it of its) it.open = true;
  return new Promise(done => setTimeout(() => done(its.map(it => [...it.querySelectorAll('tr')].map(row => [...row.cells].map(cell => cell.textContent)))), 200)) })()"""


def county(name):
    with open(os.path.join(COUNTY, name), encoding='utf-8') as file:
        return json.load(file)


def lay(folder, **files):
    rows.lay(folder, {})
    for name, value in files.items():
        with open(os.path.join(folder, name + '.json'), 'w', encoding='utf-8') as file:
            file.write(value if isinstance(value, str) else json.dumps(value))


def scan_with(**members):
    """The report of the first scan, whose first record alone is there, with members of its header."""
    report = county('scan.json')
    report['CVR'] = [dict(report['CVR'][0], **members)]
    return report


def see_conflict(browser, trial, folder):
    """Two headers that differ in an item, a member that one lacks, a part that one has in place of a text, and in a long text."""
    long = 'x' * 600
    lay(folder, one=scan_with(more=[1, 2, {}], b={'c': 1}, t=long + 'one' + long), two=scan_with(more=[1, 3, {}, []], b='c', lacks=None, t=long + 'two' + long))
    trial.see('a conflict', tallied(browser, folder, ['definition.json', 'one.json', 'two.json']), 'Done.')
    wanted = [['Files', 'one.json', 'two.json'], ['/b', '', '"c"'], ['/b/c', '1', ''], ['/lacks', '', 'null'], ['/more/1', '2', '3'], ['/more/3', '', '[]'],
              ['/t', *('…"%s%s%s"…' % ('x' * 20, it, 'x' * 477) for it in ('one', 'two'))]]
    its = browser.value(BESIDE)
    order = its[0][0][0][1:] if its and its[0] else []
    wanted = wanted if order == ['one.json', 'two.json'] else [[it[0], it[2], it[1]] for it in wanted]
    trial.see('its members that differ', its, [[wanted, 'Members that are the same: 8']])
    same = [['/@type', '"CVR.CVR"'], ['/BallotStyleUnitId', '"precinct-1"'], ['/BatchId', '"batch-1"'], ['/CreatingDeviceId', '"scanner-1"'], ['/ElectionId', '"election-2024"'],
            ['/UniqueId', '"1-0001"'], ['/more/0', '1'], ['/more/2', '{}']]
    trial.see('its members that are the same', browser.value(OPENED_ALL), [[['Member', 'Each text'], *same]])


# ---- files that do harm

NAME, MANY = 'n' * 60000, 30000
QUICK = 30      # seconds
LONGEST = 'Number(document.body.dataset.longest)'      # milliseconds for which the page was held up
WATCHED = """(() => { document.body.dataset.longest = 0; let last = performance.now(); setInterval(() => {
  const now = performance.now(); document.body.dataset.longest = Math.max(%s, now - last); last = now }, 10); return 0 })()""" % LONGEST


def harmful():
    """Files that are refused, or in conflict, with a place that is long and stands above many values."""
    zeros = '[%s]' % ', '.join('0' * MANY)
    part = '"%s": %s' % (NAME, zeros)
    scan = json.dumps(county('scan.json'))
    return {
        'rule': scan.replace('"CVR": [{', '"CVR": [{%s, ' % part.replace('0]', '0.5]'), 1),
        'differs': scan.replace('"Election": [{', '"Election": [{%s, ' % part, 1),
        'deep': '[' * 100000, 'open': '{"a": ' * 100000 + '1',
        **{name: json.dumps(scan_with(z={name + str(it): 0 for it in range(MANY)})).replace('"CVR": [{', '"CVR": [{%s, ' % part.replace('0]', end), 1)
           for name, end in (('one', '0]'), ('two', '1]'))}}


def see_harm(browser, trial, folder):
    """They neither take long nor hold the page up."""
    lay(folder, **harmful())
    browser.value(WATCHED)
    begun = time.time()
    trial.see('files that do harm', tallied(browser, folder, ['definition.json', *('%s.json' % it for it in harmful())]), 'INCOMPLETE: 4 of 6 files were refused.')
    trial.see('they take no longer', time.time() - begun < QUICK, True)
    trial.see('and never hold the page up', browser.value(LONGEST) < 5000, True)
    place = '/CVR/0/%s…' % NAME[:500 - len('/CVR/0/')]
    found = {it['file']: it for it in browser.value(READER)}
    trial.see('a long place', (found['rule.json']['value'], found['rule.json']['path'] == place), ('0.5', True))
    trial.see('a long name', (found['differs.json']['definition'], found['differs.json']['value'][:5]), ('-', '[0,0,'))
    trial.see('what is deep', [found[it]['seems'][:32] for it in ('deep.json', 'open.json')], ['It is JSON that not every reader'] * 2)
    shown = browser.value(BESIDE)
    trial.see('a long name in conflict', [[it[0][1][0], sorted(it[0][1][1:])] for it in shown], [['/%s…/%d' % (NAME[:500], MANY - 1), ['0', '1']]])


OPEN = "[...document.querySelectorAll('#answer details[open] > summary')].map(it => it.textContent.split(':')[0]).filter(it => it.startsWith('By '))"


def see_wide(browser, trial, folder):
    """The lines by unit, batch and device of a contest stand open, but not those of one with very many selections."""
    report = county('scan.json')
    selections = report['Election'][0]['Contest'][0]['ContestSelection']
    selections += [dict(selections[0], **{'@id': 'more-%d' % it}) for it in range(1000)]
    lay(folder, wide=report, without=dict(report, CVR=[]))
    for names, wanted in (['definition.json', 'scan.json'], ['By unit', 'By batch', 'By device'] * 2), (['without.json', 'wide.json'], []):
        trial.see('what stands open of %s' % names[1], (tallied(browser, folder, names), browser.value(OPEN)), ('Done.', wanted))


# ---- words

SENTENCES = [       # which the page has to have, as it has the words
    'A unit is a precinct or another district.', 'Pending are votes of which nobody has decided yet whether they count; no selection has them.',
    'Unassigned are votes that count, and name no selection.', "A text is what some of the files say: of a device; of a record's header, which has its unit, batch and style;",
    'or of a snapshot, which is one reading of a ballot.', 'Inputs, below, says why.', 'Proved program', 'All records as a report for another office (a volume;']


def see_words(browser, trial, _):
    """Words of the county's page that stand in no newspaper are explained there."""
    trial.see('the county, for its words', tallied(browser, COUNTY, FILES), PARTLY + '.')
    said = browser.value(TEXTS % 'answer')
    trial.see('words are explained', [it for it in SENTENCES if it not in said], [])
    trial.see('DEF is no word of it', re.findall(r'(?<![(\w])DEF\b', said), [])


# ---- all of it

def within(see, browser, trial):
    with tempfile.TemporaryDirectory() as folder:
        see(browser, trial, folder)


def see_county_fields(browser, trial, _):
    tallied(browser, COUNTY, FILES)
    see_fields(browser, trial, PRESS % 'Save the volume')


def seen(browser):
    """What finds the slips."""
    held = {'why': see_table, 'sources': see_sources, 'conflict': see_conflict, 'harm': see_harm, 'words': see_words, 'fields': see_county_fields}
    return {name: lambda own, see=see: within(see, browser, own) for name, see in held.items()}


def see_all(browser, trial):
    for see in see_table, see_sources, see_conflict, see_harm, see_wide, see_words:
        within(see, browser, trial)


WAYS = [
    Way('counts_items_from_zero', 'why.js', 'Number(rest[1]) + 1', 'Number(rest[1])', 'why'),
    Way('takes_the_first_member_of_a_name', 'why.js', 'if (number === null ? orderOf(', 'if (inner.way.length ? true : number === null ? orderOf(', 'why'),
    Way('shows_whole_texts', 'why.js', 'signs.length <= SHOWN ? text', 'true ? text', 'why'),
    Way('shows_numbers_as_javascript_does', 'why.js', 'return cut(latin(bytes.subarray(at, Math.min(behindValue(bytes, at), at + 2 * SHOWN))))',
        'return cut(String(Number(latin(bytes.subarray(at, behindValue(bytes, at))))))', 'why'),
    Way('shows_nothing_around', 'why.js', '!is_there && way.length === steps.length ?', 'false ?', 'why'),
    Way('names_another_record', 'why.js', 'recordAt(bytes, way[2])', "recordAt(bytes, wayTo(bytes, ['CVR', '0'])[2])", 'why'),
    Way('takes_the_unit_at_the_same_place', 'why.js', ".find(it => it['@id'] === id)", '[steps[1]]', 'why'),
    Way('holds_the_last_member_that_is_lacked', 'why.js', 'if (order < 0) lacked', 'if (order !== 0) lacked', 'why'),
    Way('finds_no_item_too_few', 'why.js', 'found ?? (count < value.length ?', 'found ?? (false ?', 'why'),
    Way('takes_all_json_for_a_report', 'why.js', "bytes[type] === QUOTE && shortAt(bytes, type) === A_REPORT", 'true', 'why'),
    Way('goes_on_with_the_advice_of_the_code', 'answer.js', 'why.todo ?? todo', 'todo', 'why'),
    Way('takes_cut_json_for_damaged', 'instead.js', "whole.awaits === 'end' ? 'json' : 'cut'", "whole.awaits === 'end' ? 'json' : 'damaged'", 'why'),
    Way('takes_a_cut_word_for_damaged', 'instead.js', "end === bytes.length && CUT_WORD.test(word) ? 'cut'", "false ? 'cut'", 'why'),
    Way('takes_a_cut_sign_for_damaged', 'instead.js', "    fault = 'cut'", "    fault = 'damaged'", 'why'),
    Way('knows_no_ballot_of_vxsuite', 'instead.js', "baseOf(path) === RULES.REPORT ? 'ballot' : kind", 'kind', 'why'),
    Way('knows_no_maker', 'instead.js', 'kinds.length === 1 ? kinds[0][0] : null', 'null', 'why'),
    Way('names_the_command_of_one_file', 'instead.js', "path.split('/')[0]", 'path', 'sources'),
    Way('looks_at_blanks_alone', 'instead.js', 'bytes.subarray(from, from + LOOKED)', 'bytes.subarray(0, LOOKED)', 'sources'),
    Way('takes_a_beginning_for_cut_json', 'instead.js', 'true, bytes.length === source.size)', 'true)', 'sources'),
    Way('looks_at_no_file_in_a_zip', 'instead.js', 'INSIDE.find(([form]) => form.test(path))?.[1] ??', '', 'sources'),
    Way('takes_any_nesting', 'instead.js', '> DEEP ?', '> Infinity ?', 'harm'),
    Way('shows_all_members_as_differing', 'members.js', 'sort = is_same ? same : differ', 'sort = differ', 'conflict'),
    Way('takes_a_member_that_lacks_for_the_same', 'members.js', 'here.every(it => isAlike(it, here[0]))', 'here.every(it => it === undefined || here[0] === undefined || isAlike(it, here[0]))', 'conflict'),
    Way('forgets_items_of_the_longer_array', 'members.js', 'Math.max(...values.map(it => it.length))', 'Math.min(...values.map(it => it.length))', 'conflict'),
    Way('shows_the_same_beginning_of_long_texts', 'members.js', 'Math.max(0, commonIn', 'Math.min(0, commonIn', 'conflict'),
    Way('shows_whole_names', 'texts.js', "it.length > SHORT ? it.slice(0, SHORT) + '…' : it", 'it', 'harm'),
    Way('shows_nothing_of_what_is_the_same', 'conflicts.js', "its.append(made())", "made()", 'conflict'),
    Way('takes_any_number_of_a_volume', 'saved.js', '&& number <= volumes', '', 'fields'),
    Way('takes_a_bad_date_for_a_stop', 'saved.js', 'merge: H1', 'merge: H9', 'fields'),
    Way('says_nothing_beside_the_field', 'page.js', "at(field + '-said').textContent = ` ${said} `, ", '', 'fields'),
    Way('explains_no_column', 'answer.js', "text('p', text('small', HELD.numbers)),", '', 'words'),
]
