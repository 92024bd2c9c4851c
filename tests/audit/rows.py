"""rows.py: the rows of rows.json, those of hostile.json, where someone or something does harm, those of
why.json, on refused files, and those of testing.json, on reports of a test. Each is run in a folder of its own with the files of examples/county and its
own files; its output, log and status are compared.

A log of argparse isn't compared, as it differs between versions of Python. A line that ends with
`@KIND` is one of `warnings`, with its advice for that kind, for which `{advice KIND}` stands within a
line. In a line of CSV `{of CONTEST}` stands
for the heads of the columns of the tally, `{undervotes 1, pending 2}` for their numbers, which are 0
where they aren't named, and `{absent}` for empty cells. A column that no row names may have any number
here, and any line of `compare`: sets.py holds it against the tally. A row that `needs` a path of the
system is left out where that isn't there, and a line `left out` says so."""
import json
import os
import re
import shutil
import subprocess
import sys
import tempfile

import printed

HERE = os.path.dirname(os.path.abspath(__file__))
sys.path.append(os.path.dirname(HERE))
import companion  # noqa: E402
import tenth      # noqa: E402 (they stand in tests/)

TOP = os.path.dirname(os.path.dirname(HERE))
COUNTY = os.path.join(TOP, 'examples', 'county')
ALLOWED = ['"VoteVariation": "plurality"', '"VoteVariation": "plurality", "VotesAllowed": 1']
COLUMNS = printed.Texts.columns[1:]     # of a contest in a line of CSV
ANY = '\0'          # stands for any number
SECONDS = 300
TEXTS = []
for rows_name in 'rows.json', 'hostile.json', 'why.json', 'testing.json':
    with open(os.path.join(HERE, rows_name), encoding='utf-8') as rows_file:
        TEXTS.append(rows_file.read())
UNNAMED = [it for it in COLUMNS if not re.search('[{ ]%s [0-9]' % it, ''.join(TEXTS))]


def held():
    rows = [row for text in TEXTS for row in json.loads(text)['rows']]
    lacking = [row for row in rows if not os.path.exists(row.get('needs', HERE))]
    for row in lacking:
        tenth.leave_out('row ' + row['name'], '%s is not there' % row['needs'])
    return [row for row in rows if row not in lacking]


# ---- the files of a row

def county(name):
    with open(os.path.join(COUNTY, name), encoding='utf-8') as file:
        return file.read()


def selection_of(parts):
    """A CVRContestSelection of its id or None, HasIndication, IsAllocable or None, NumberVotes; then
    its other members, and those of its position, where it has some."""
    name, indication, allocable, votes, *more = parts
    position = {'@type': 'CVR.SelectionPosition', 'HasIndication': indication, 'NumberVotes': votes}
    position.update({'IsAllocable': allocable} if allocable else {})
    position.update(*more[1:])
    selection = {'@type': 'CVR.CVRContestSelection', 'SelectionPosition': [position]}
    selection.update(*more[:1])
    return dict({'ContestSelectionId': name} if name else {}, **selection)


def contest_of(short):
    chosen = list(map(selection_of, short['CVRContestSelection']))
    return dict(short, **{'@type': 'CVR.CVRContest', 'CVRContestSelection': chosen})


def snapshot_of(short):
    contests = list(map(contest_of, short.get('contests', [])))
    members = {name: part for name, part in short.items() if name != 'contests'}
    return dict(members, **{'@type': 'CVR.CVRSnapshot', 'CVRContest': contests})


def record_of(short):
    """A CVR of its short form in rows.json."""
    snapshots = list(map(snapshot_of, short['snapshots']))
    members = {name: part for name, part in short.items() if name != 'snapshots'}
    return {'CurrentSnapshotId': snapshots[0]['@id'], **members, '@type': 'CVR.CVR', 'ElectionId': 'election-2024',
            'CVRSnapshot': snapshots}


def replaced(text, part):
    """The text of a county's file, with what the row changes in it."""
    for old, new in part.get('replace', []) + [ALLOWED] * part.get('allowed', False):
        if text.count(old) != 1:
            raise ValueError('%r stands %d times, not once' % (old, text.count(old)))
        text = text.replace(old, new)
    return text


def content(part):
    """The text of a row's file: a text, a changed file of the county, or the county's definition with
    records."""
    if isinstance(part, str):
        return part
    is_made = part['of'] == 'report'
    text = replaced(county('definition.json' if is_made else part['of']), part)
    if 'records' not in part:
        return text
    report = json.loads(text)
    if is_made:
        report.update(part.get('members', {}))
        report['CVR'] = list(map(record_of, part['records']))
    else:
        report['CVR'] = [it for it in report['CVR'] if it['UniqueId'] in part['records']]
    return json.dumps(report)


def lay(folder, files):
    for name in os.listdir(COUNTY):
        shutil.copy(os.path.join(COUNTY, name), folder)
    for name, part in files.items():
        with open(os.path.join(folder, name), 'w', encoding='utf-8') as file:
            file.write(content(part))
        os.chmod(os.path.join(folder, name), 0o700)     # one may be a program


# ---- a run

def closed_pipe():
    """A pipe without a reader."""
    ours, theirs = os.pipe()
    os.close(ours)
    return theirs


def run(copy, cvr, row, folder):
    """(output, log, status) of a run with the row's words."""
    script = '%s\nexec "$@" %s' % (row.get('before', ':'), row.get('redirected', ''))
    words = ['sh', '-c', script, 'sh', *companion.PYTHON, os.path.join(copy, 'cvr-audit')]
    env = dict(os.environ, CVR=row.get('program', cvr), REAL=cvr)
    env.pop('PYTHONUNBUFFERED', None)       # with it Python writes at once, and nothing at the end
    with open(os.path.join(folder, 'out'), 'wb') as out:
        done = subprocess.run(words + row['words'], cwd=folder, env=env, stdin=subprocess.DEVNULL,
                              stdout=closed_pipe() if row.get('pipe') else out,
                              stderr=subprocess.PIPE, timeout=SECONDS)
    with open(os.path.join(folder, 'out'), encoding='utf-8', newline='') as out:
        return out.read(), done.stderr.decode('utf-8', 'replace'), done.returncode


def cells_of(found):
    """The cells of a contest's columns, for what stands between `{` and `}`."""
    said = found.group(1)
    if said.startswith('of '):
        return ','.join('%s %s' % (said[3:], it) for it in COLUMNS)
    others = {it: '' if said == 'absent' else ANY if it in UNNAMED else '0' for it in COLUMNS}
    return ','.join(dict(others, **dict(re.findall('([a-z-]+) ([0-9]+)', said))).values())


def spelled(lines, advice):
    """The text of a row's lines, in which `@KIND` stands for a kind's advice, `{..}` for cells."""
    text = ''
    for line in lines:
        head, mark, kind = line.rpartition(': @')
        text += ('%s: %s' % (head, advice[kind]) if mark else line) + '\n'
    text = re.sub(r'\{advice (.*?)\}', lambda found: advice[found.group(1)], text)
    return re.sub(r'\{(?!")(.*?)\}', cells_of, text)


def differences(copy, cvr, row, advice):
    """What differs between a row and its run, as lines."""
    with tempfile.TemporaryDirectory() as folder:
        lay(folder, row.get('files', {}))
        out, *got = run(copy, cvr, row, folder)
    for column in UNNAMED:
        out = re.sub('(?m)^(?:row|part) .* %s .*\n' % column, '', out)
    log = got[0] if row['err'] is None else spelled(row['err'], advice)
    expected = spelled(row['out'], advice), log, row['status']
    return ['row %s: %s\n    got      %r\n    expected %r' % (row['name'], what, a, b)
            for what, a, b in zip(('output', 'log', 'status'), [out, *got], expected)
            if not re.fullmatch(re.escape(str(b)).replace(ANY, '[0-9]+'), str(a))]
