#!/usr/bin/env python3
"""hostile.py [--cvr PATH] [--page PATH] [--size 300000] [--only COMMAND] [--keep NAME] [SHAPE ..]

Measures what the author of a file can make each command of `cvr-audit`, and the page of dist/ in Chromium, cost: the
county of examples/county, with one text that is long, one list that is long, a member that no table has, or two files
that contradict each other, each of some `size` bytes. Of each command it prints the most memory and the most processor
time for a byte of the files, beside what the county alone takes, and the shape that took it. The memory is the peak of
`cvr-audit`, or of a `cvr` that it runs. With names of shapes it measures these alone, and prints each command. With
--keep the figures are appended to runs/DATE-NAME.md, and --only measures one command, or `cvr.html`. The status is 1
where a command is killed, or has a fault of its own."""
import argparse
import copy
import json
import os
import re
import resource
import subprocess
import sys
import tempfile

from bench import TOP, Report, commit, keep, machine

sys.path[:0] = [os.path.join(TOP, 'tests', 'web'), os.path.join(TOP, 'tests', 'audit')]
import chromium     # noqa: E402
from trial import SETTLED, tallied      # noqa: E402 (these stand in tests/web)

COUNTY = os.path.join(TOP, 'examples', 'county')
PAGE = 'cvr.html'
SECONDS, MEMORY = 300, 6 << 30      # that a command may take
COMMANDS = {
    'records': ['records', 'DEF', 'FILES'], 'records --columns ranks': ['records', 'DEF', '--columns', 'ranks', 'FILES'],
    'records --columns arlo': ['records', 'DEF', '--columns', 'arlo', 'FILES'],
    'compare': ['compare', 'DEF', '--one', 'FILES', '--other', 'DEF'], 'trace': ['trace', 'DEF', '--contest', 'council', 'FILES'],
    'without': ['without', 'DEF', 'FILES'], 'page': ['page', 'DEF', 'FILES'], 'page --public': ['page', 'DEF', '--public', 'FILES'],
    'warnings': ['warnings', 'DEF', 'FILES'], 'totals': ['totals', 'DEF', 'FILES'], 'totals --by batch': ['totals', 'DEF', '--by', 'batch', 'FILES'],
    'lines tally': ['lines', 'tally', 'DEF', 'FILES'], 'lines conflicts': ['lines', 'conflicts', 'DEF', 'FILES'],
    'strict tally': ['strict', 'tally', 'DEF', 'FILES'], 'why': ['why', 'DEF', 'FILES'], 'writeins': ['writeins', 'DEF', 'FILES'],
    'definition': ['definition', 'FILES'], 'gather': ['gather', 'FILES', '--as', 'cdf', '-o', 'OUT'],
}


# ---- shapes: each changes one or two reports of the county, which are the definition and the files

def at(*steps):
    """What has a part of a report, and the last step to it."""
    def of(report):
        for step in steps[:-1]:
            report = report[step]
        return report, steps[-1]
    return of


RECORD, SNAPSHOT = ('CVR', 0), ('CVR', 0, 'CVRSnapshot', 0)
CONTEST = (*SNAPSHOT, 'CVRContest', 0)
CHOSEN = (*CONTEST, 'CVRContestSelection', 0)
POSITION = (*CHOSEN, 'SelectionPosition', 0)
ELECTION = ('Election', 0)
# Texts, and whether the definition has them, too; other texts that name the same are changed with them.
TEXTS = {
    'Notes': ('Notes',), 'Issuer': ('Issuer',), 'ReportType': ('OtherReportType',), 'election': (*ELECTION, 'Name'),
    'contest': (*ELECTION, 'Contest', 0, 'Name'), 'selection': (*ELECTION, 'Contest', 1, 'ContestSelection', 0, 'Selection'),
    'candidate': (*ELECTION, 'Candidate', 0, 'Name'), 'party': ('Party', 0, 'Name'), 'unit': ('GpUnit', 1, 'Name'),
    'device': ('ReportingDevice', 0, 'Manufacturer'), 'BatchId': (*RECORD, 'BatchId'), 'UniqueId': (*RECORD, 'UniqueId'),
    'BallotStyleId': (*RECORD, 'BallotStyleId'), 'BallotPrePrintedId': (*RECORD, 'BallotPrePrintedId'),
    'BallotAuditId': (*RECORD, 'BallotAuditId'), 'Code of a position': (*POSITION, 'Code'), 'written name': (*POSITION, 'CVRWriteIn'),
}
IDS = {'id of a contest': 'council', 'id of a selection': 'council-iris', 'id of a unit': 'precinct-1', 'id of a device': 'scanner-1'}


def long_text(steps, sign):
    def shape(report, size):
        holder, name = at(*steps)(report)
        text = sign * (size // len(json.dumps(sign)[1:-1]))
        holder[name] = {'@type': 'CVR.CVRWriteIn', 'Text': text} if name == 'CVRWriteIn' else text
        return [report]
    return shape


def long_id(old):
    return lambda report, size: [json.loads(json.dumps(report).replace('"%s"' % old, '"%s"' % ('i' * (size // json.dumps(report).count('"%s"' % old)))))]


def repeated(steps, change):
    """An item of a list as often as fits; `change` gives each an id of its own."""
    def shape(report, size):
        holder, place = at(*steps)(report)
        item = holder[place]
        for number in range(size // (len(json.dumps(item)) + 8)):
            holder.append(change(copy.deepcopy(item), number))
        return [report]
    return shape


def named(member):
    return lambda item, number: {**item, member: '%s-%d' % (item.get(member), number)}


def fresh_contest(item, number):
    item['@id'] += '-%d' % number
    for one in item['ContestSelection']:
        one['@id'] += '-%d' % number
    return item


def unknown(text, where=RECORD):
    """A member that no table has."""
    def shape(report, size):
        holder, name = at(*where)(report)
        holder[name]['Unknown'] = json.loads(text(size))
        return [report]
    return shape


def contradicting(one, other, member='Unknown'):
    """Two files in which one record has another member, or one of two texts."""
    def shape(report, size):
        files = [copy.deepcopy(report) for _ in range(2)]
        for file, text in zip(files, (one, other)):
            file['CVR'][0][member] = json.loads(text(size // 2))
        return files
    return shape


def zeros(name, count):
    return lambda size: json.dumps({'n' * (size * name // 100): [0] * (size * count // 200)})


def many_of(item, end='0'):
    return lambda size: '[%s,%s]' % (','.join([item] * (size // (len(item) + 1))), end)


SHAPES = {
    **{'long %s' % it: long_text(steps, 'a') for it, steps in TEXTS.items()},
    **{'%s of controls' % it: long_text(TEXTS[it], '\1') for it in ('BatchId', 'UniqueId', 'contest', 'written name')},
    **{'%s of signs of four bytes' % it: long_text(TEXTS[it], '\U0001f5f3') for it in ('BatchId', 'contest')},
    **{'long %s' % it: long_id(old) for it, old in IDS.items()},
    'many records': repeated((*RECORD,), named('UniqueId')), 'one record again': repeated((*RECORD,), lambda item, _: item),
    'many batches': repeated((*RECORD,), lambda item, number: {**named('UniqueId')(item, number), 'BatchId': 'b%d' % number}),
    'many snapshots': repeated(SNAPSHOT, named('@id')),
    'many positions': repeated(POSITION, lambda item, _: item), 'many selections of a snapshot': repeated(CHOSEN, lambda item, _: item),
    'many contests': repeated((*ELECTION, 'Contest', 1), fresh_contest),
    'many selections': repeated((*ELECTION, 'Contest', 1, 'ContestSelection', 0), named('@id')),
    'many candidates': repeated((*ELECTION, 'Candidate', 0), named('@id')), 'many units': repeated(('GpUnit', 1), named('@id')),
    'many parties': repeated(('Party', 0), named('@id')), 'many devices': repeated(('ReportingDevice', 0), named('@id')),
    'an unknown array of zeros': unknown(many_of('0')), 'of empty objects': unknown(many_of('{}', '{}')), 'of empty arrays': unknown(many_of('[]', '[]')),
    'of objects in one another': unknown(lambda size: many_of('{"a":' * 90 + '0' + '}' * 90)(size)),
    'a long unknown name over zeros': unknown(zeros(67, 33)), 'another definition': unknown(many_of('[0]'), (*ELECTION, 'Contest', 0)),
    'a record that differs in an array': contradicting(many_of('0'), many_of('1')),
    'in the last item': contradicting(many_of('0'), many_of('0', '1')),
    'in a long name over zeros': contradicting(zeros(67, 33), zeros(66, 33)), 'below a long name': contradicting(zeros(67, 33), lambda size: zeros(67, 33)(size).replace('0]', '1]')),
    'in names': contradicting(lambda size: json.dumps({'a%d' % it: 0 for it in range(size // 12)}), lambda size: json.dumps({'b%d' % it: 0 for it in range(size // 12)})),
    'in a long text': contradicting(lambda size: '"%s"' % ('a' * size), lambda size: '"%sb"' % ('a' * size)),
    'in a batch': contradicting(lambda size: '"%s"' % ('a' * size), lambda size: '"%sb"' % ('a' * size), 'BatchId'),
}


def laid(folder, shape, size):
    """Writes the files of a shape; their names, the definition first, and their length."""
    with open(os.path.join(COUNTY, 'scan.json'), encoding='utf-8') as file:
        reports = shape(json.load(file), size)
    for place, report in enumerate([dict(reports[0], CVR=[]), *reports]):
        with open(os.path.join(folder, '%d.json' % place), 'w', encoding='utf-8') as file:
            json.dump(report, file, ensure_ascii=False)
    names = ['%d.json' % place for place in range(len(reports) + 1)]
    return names, sum(os.path.getsize(os.path.join(folder, it)) for it in names)


# ---- measuring

def run(words, folder, cvr):
    """(processor seconds, bytes of memory) of a run of `cvr-audit`, or the words of its end."""
    limit = lambda: resource.setrlimit(resource.RLIMIT_AS, (MEMORY, MEMORY))
    words = [sys.executable, '-B', os.path.join(TOP, 'companion', 'cvr-audit'), *words]
    with tempfile.TemporaryFile() as log:
        child = subprocess.Popen(['timeout', str(SECONDS), *words], cwd=folder, env=dict(os.environ, CVR=cvr), stdin=subprocess.DEVNULL, stdout=subprocess.DEVNULL,
                                 stderr=log, preexec_fn=limit)
        _, status, usage = os.wait4(child.pid, 0)
        child.returncode = os.waitstatus_to_exitcode(status)
        log.seek(0)
        text = log.read().decode('utf-8', 'replace')
    is_well = child.returncode in (0, 1, 2) and 'a fault of cvr-audit' not in text
    return (usage.ru_utime + usage.ru_stime, usage.ru_maxrss << 10) if is_well else (child.returncode, text.strip()[-200:])


def renderers(browser):
    """(processor seconds, greatest bytes of memory) of each process of a browser that shows pages."""
    for name in filter(str.isdigit, os.listdir('/proc')):
        try:
            words, stat, status = (open('/proc/%s/%s' % (name, it), encoding='utf-8').read() for it in ('cmdline', 'stat', 'status'))
        except OSError:         # it ended
            continue
        held = stat.rpartition(')')[2].split()      # from the third on
        if '--type=renderer' in words and int(held[3]) == browser.process.pid:
            yield sum(map(int, held[11:13])) / os.sysconf('SC_CLK_TCK'), int(re.search(r'VmHWM:\s+(\d+)', status).group(1)) << 10


def shown(page, folder, names):
    """The same of the page in Chromium, which tallies files; or its words where it doesn't end."""
    with tempfile.TemporaryDirectory() as room:
        browser = chromium.Browser(room)
        try:
            browser.open(page)
            browser.value(SETTLED)
            said = tallied(browser, folder, names)
            seconds, room = map(max, zip(*renderers(browser)))
        except OSError as fault:
            return 'page', str(fault)
        finally:
            browser.end()
    return (seconds, room) if 'memory' not in said else ('page', said)


def figures(shape, size, words):
    """Of each command the seconds and bytes of memory over a shape, and the bytes of its files."""
    with tempfile.TemporaryDirectory() as folder:
        names, length = laid(folder, shape, size)
        if chromium.program() and words.only in (None, PAGE):
            yield PAGE, length, shown(words.page, folder, names)
        given = {'DEF': names[:1], 'FILES': names[1:], 'OUT': ['out']}
        for command, parts in COMMANDS.items():
            if words.only in (None, command):
                yield command, length, run([part for it in parts for part in given.get(it, [it])], folder, words.cvr)


def worst(report, found, alone):
    """A table: of each command the shape with the most memory for a byte, and that with the most time."""
    report.say('| | bytes of memory for a byte | | nanoseconds for a byte | |')
    report.say('|---|---|---|---|---|')
    for command in alone:
        least_seconds, least_bytes = alone[command]
        held = [(name, length, its) for name, length, its in found[command] if isinstance(its[1], int)]
        room = max(held, key=lambda it: (it[2][1] - least_bytes) / it[1])
        time = max(held, key=lambda it: (it[2][0] - least_seconds) / it[1])
        report.say('| `%s` | %.0f | %s | %.0f | %s |' % (command, (room[2][1] - least_bytes) / room[1], room[0],
                                                       1e9 * (time[2][0] - least_seconds) / time[1], time[0]))


def main():
    words = argparse.ArgumentParser()
    words.add_argument('--cvr', default=os.path.join(TOP, 'out', 'cvr'))
    words.add_argument('--page', type=os.path.abspath, default=os.path.join(TOP, 'dist', PAGE))
    words.add_argument('--size', type=int, default=300000)
    words.add_argument('--only', choices=[PAGE, *COMMANDS])
    words.add_argument('--keep')
    words.add_argument('shapes', nargs='*')
    words = words.parse_args()
    report, failed = Report(), 0
    alone = {command: its for command, _, its in figures(lambda held, _: [held], 0, words)}
    found = {command: [] for command in alone}
    report.say('%s, %s; %d shapes of %d bytes' % (machine(), commit(), len(words.shapes or SHAPES), words.size))
    report.say()
    for name in words.shapes or SHAPES:
        for command, length, its in figures(SHAPES[name], words.size, words):
            found[command].append((name, length, its))
            if not isinstance(its[1], int):
                failed += 1
                report.say('%s over %s: %s' % (command, name, its))
            elif words.shapes:
                report.say('%s: %.1f s, %.0f MiB of %d bytes' % (command, its[0], its[1] / 2**20, length))
    report.say()
    worst(report, found, alone)
    if words.keep:
        keep(report, words.keep)
    sys.exit(1 if failed else 0)


if __name__ == '__main__':
    main()
