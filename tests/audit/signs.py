"""signs.py: names that would forge lines on a terminal. Each id and name of examples/county, and each path, has signs behind it
that end a line, move the cursor, or turn a text around. What each command prints and logs, but for JSON, CSV and the text
of `cvr` itself, has to have none of them, and as many lines as where letters stand in their place."""
import csv
import io
import json
import os
import subprocess
import sys
import tempfile

import rows

HOSTILE, PLAIN = '\n\x1b[1A\x1b[2K\r\u202e\x9b2J\u2028totals: 0\u2066\U000e0041\n', 'qq'
MEMBERS = {'@id', 'Name', 'Selection', 'Manufacturer', 'Model', 'SerialNumber', 'AdjudicatorName', 'Text', 'BatchId', 'UniqueId', 'CreatingDeviceId',
           'ContestId', 'ContestSelectionId', 'CurrentSnapshotId', 'BallotStyleUnitId', 'BallotStyleId', 'BallotAuditId', 'CandidateIds', 'PartyId', 'PartyIds',
           'ElectionId', 'ElectionScopeId', 'ReportGeneratingDeviceIds', 'ReportingDeviceIds', 'ContestIds', 'CompositeGpUnitIds', 'EndorsementPartyIds'}
CONTEST = ['--contest', 'council']
COMMANDS = [['warnings', '--all'], ['warnings'], ['without'], ['writeins'], ['trace', *CONTEST], ['trace', *CONTEST, '--selection', 'council-iris'], ['why'],
            *(['totals', '--by', it] for it in ('unit', 'batch', 'device', 'style')), ['totals'], ['strict', 'check'], ['strict', 'tally'],
            ['records'], ['totals', '--format', 'csv'], ['totals', '--format', 'json'], ['lines', 'tally'], ['definition'], ['page']]
OF_CVR, TABLES, TREES = ('strict',), ('records', 'totals --format csv'), ('totals --format json', 'lines', 'definition')


def signed(value, signs, member=None):
    """A value whose ids and names have these signs behind them."""
    if isinstance(value, dict):
        return {name: signed(it, signs, name) for name, it in value.items()}
    if isinstance(value, list):
        return [signed(it, signs, member) for it in value]
    return value + signs if isinstance(value, str) and member in MEMBERS else value


def laid(folder, signs):
    """Writes the county's files so; answers their names."""
    rows.lay(folder, {})
    names = []
    for name in 'definition', 'scan', 'adjudicated', 'corrected', 'damaged', 'half':
        with open('%s/%s.json' % (folder, name if name != 'half' else 'scan'), encoding='utf-8') as file:
            value = signed(json.load(file), signs)
        value['CVR'] = [{**it, 'x' + signs: 1.5} if name == 'half' else it for it in value.get('CVR', [])]       # refused, with the member's name
        names.append(name + signs.replace('/', '') + '.json')
        with open(os.path.join(folder, names[-1]), 'w', encoding='utf-8') as file:
            json.dump(value, file)
    return names


def runs(companion, cvr, folder, signs):
    """(words, output, log) of each command."""
    definition, *files = laid(folder, signs)
    asked = {it: it + signs for it in ('council', 'council-iris')}
    every = [[*map(lambda it: asked.get(it, it), words), *([definition] if words[0] != 'definition' else []), *files] for words in COMMANDS]
    every += [['compare', definition, '--one', files[0], '--other', *files[1:]], ['gather', '--as', 'cdf', '-o', 'out', *files[:2]], ['trace', '--contest', 'x' + signs, definition],
              ['strict', 'check', definition, files[0], files[0]], ['totals', 'absent' + signs, *files], ['totals', *files[:2]]]
    for words in every:
        done = subprocess.run([sys.executable, os.path.join(companion, 'cvr-audit'), *words], cwd=folder, env=dict(os.environ, CVR=cvr), stdin=subprocess.DEVNULL,
                              stdout=subprocess.PIPE, stderr=subprocess.PIPE, timeout=rows.SECONDS)
        yield ' '.join(it for it in words if signs not in it), done.stdout.decode('utf-8'), done.stderr.decode('utf-8'), done.returncode


def lines_of(what, text):
    """How many lines, rows or members a text has."""
    if what.startswith(TABLES):
        return len(list(csv.reader(io.StringIO(text))))
    return len(json.loads(text)) if what.startswith(TREES) else text.count('\n')


def differences(companion, cvr):
    held = []
    for signs in HOSTILE, PLAIN:
        with tempfile.TemporaryDirectory() as folder:
            held.append(list(runs(companion, cvr, folder, signs)))
    found = []
    for (what, text, log, status), (_, other, other_log, wanted) in zip(*held):
        is_text = not what.startswith((*OF_CVR, *TABLES, *TREES, 'page'))
        bad = {it for it in log + (text if is_text else '') if it != '\n' and not it.isprintable()}
        if bad:
            found.append('signs: %s prints %r' % (what, bad))
        if status != wanted or log.count('\n') != other_log.count('\n') or text and not what.startswith((*OF_CVR, 'page')) and lines_of(what, text) != lines_of(what, other):
            found.append('signs: %s has other lines: %d %d, %r' % (what, status, wanted, (log, other_log)))
    return found if len(held[0]) == len(held[1]) > 20 else found + ['signs: too few commands']
