"""chosen.py [--cvr PATH] [--keep NAME] [rows] [tree] [drill] [stack]

Measures what the author of a file, or who calls a command, can make a run cost by definition. `rows`: a file of which
half is records and half are the selections of its contest, many with short ids or one with a long id, all of which each
row has. `tree`: a member that no table has, full of small values, beside as many bytes in one text. `drill`: a file that
goes from office to office. `stack`: the least stack, to 4 KiB, with which each command ended three times as it does with
8 MiB, over a file as deep as one may be and over one of many items, with few words and no environment, which stand on
the stack, too. Without a word all four. The figures of the others are of one run each. With --keep they are appended to
runs/DATE-NAME.md. The status is 1 where a command fails."""
import json
import os
import resource
import subprocess
import tempfile

from bench import Failed
from gen import write
from running import measure, objects, record, report

TRIES = 3
DEEP = 127          # as deep as JSON may be nested
STEP = 4096         # bytes, to which the least stack is found
MOST = 8 << 20      # bytes of stack that a system mostly gives
# Small values, and a long one with a short one behind it.
SMALL = ['[0]', '{"":0}', '[]', '""', '0', '{"a":{"b":0}}', '[],[0]', '[%s],[0]' % ','.join('0' * 129)]


def run(words, folder, status=0, stack=None):
    """(bytes of text, processor seconds, MiB) of one run; a stack is a limit in bytes."""
    limit = None if stack is None else lambda: resource.setrlimit(resource.RLIMIT_STACK, (stack, stack))
    with tempfile.TemporaryFile() as out:
        child = subprocess.Popen(words, cwd=folder, env={}, stdin=subprocess.DEVNULL, stdout=out, stderr=subprocess.DEVNULL,
                                 preexec_fn=limit)
        _, found, usage = os.wait4(child.pid, 0)
        child.returncode = os.waitstatus_to_exitcode(found)
        length = out.seek(0, 2)
    if child.returncode != status:
        raise Failed('%s: status %d, not %d' % (' '.join(words)[:200], child.returncode, status))
    return length, usage.ru_utime + usage.ru_stime, usage.ru_maxrss / 1024


def laid(folder, name, text):
    """Writes a file, in a process of its own, as what this one holds would count as memory of the commands; its length."""
    child = os.fork()
    if not child:
        write(folder, name, text())
        os._exit(0)
    if os.wait4(child, 0)[1]:
        raise Failed('%s could not be laid' % name)
    return os.path.getsize(os.path.join(folder, name))


def short(number):
    """A record with as few bytes as one of a contest may have, in a batch of its own."""
    contest = {'@type': 'CVR.CVRContest', 'ContestId': 'mayor'}
    snapshot = {'@id': 'a', '@type': 'CVR.CVRSnapshot', 'CVRContest': [contest], 'Type': 'original'}
    return {'@type': 'CVR.CVR', 'BatchId': '%x' % number, 'CVRSnapshot': [snapshot], 'CreatingDeviceId': 's1', 'CurrentSnapshotId': 'a',
            'ElectionId': 'e', 'UniqueId': '%x' % number}


def wide(count, names):
    """A report with so many short records and a contest with selections of these names."""
    whole = json.loads(report(list(map(short, range(count)))))
    whole['Election'][0]['Contest'][0]['ContestSelection'] = objects('ContestSelection', *names)
    return json.dumps(whole, separators=(',', ':'))


def beside(text):
    """A report with this text in a member that no table has."""
    return report([])[:-1] + ',"Z":' + text + '}'


class Measuring:
    def __init__(self, cvr, folder, told):
        self.cvr, self.folder, self.told = cvr, folder, told

    def run(self, *words, **more):
        return run([self.cvr, *words], self.folder, **more)

    def rows(self):
        self.told.say('records  selections  bytes of an id  file MB  text MB  tally s    MiB')
        for count in (650, 1300, 2600):
            self.of_rows(count, ['%x' % it for it in range(6 * count)])
            self.of_rows(count, ['a' * 256 * count])

    def of_rows(self, count, names):
        length = laid(self.folder, 'wide.json', lambda: wide(count, names))
        text, seconds, memory = self.run('tally', 'wide.json', 'wide.json')
        self.told.say('%7d %11d %15d %8.2f %8.2f %8.2f %6.0f' % (count, len(names), len(names[-1]), length / 1e6, text / 1e6, seconds, memory))

    def tree(self):
        self.told.say('          value  file MB  check s    MiB  bytes of memory a byte')
        laid(self.folder, 'def.json', lambda: report([]))
        for size in (14000000, 56000000):
            for value in SMALL:
                self.of_tree(value[:15], lambda: '[%s]' % ','.join([value] * (size // (len(value) + 1))))
            self.of_tree('one text', lambda: '"%s"' % ('a' * size))

    def of_tree(self, value, text):
        length = laid(self.folder, 'tree.json', lambda: beside(text()))
        _, seconds, memory = self.run('check', 'def.json', 'tree.json')
        self.told.say('%15s %8.2f %8.2f %6.0f %23.1f' % (value, length / 1e6, seconds, memory, memory * 2 ** 20 / length))

    def drill(self):
        self.told.say('offices  file MB  drill s    MiB  bytes of memory a byte')
        laid(self.folder, 'def.json', lambda: report([]))
        length = laid(self.folder, 'file.json', lambda: report([record(it) for it in range(12000)]))
        for offices in (1, 2, 8, 16, 32, 64):
            steps = ['1=file.json'] + ['%d>%d' % (it, it + 1) for it in range(1, offices)]
            _, seconds, memory = self.run('drill', 'def.json', str(offices), *steps)
            self.told.say('%7d %8.2f %8.2f %6.0f %23.1f' % (offices, length / 1e6, seconds, memory, memory * 2 ** 20 / length))

    def stack(self):
        self.told.say('least stack in KiB          deep  many items')
        laid(self.folder, 'def.json', lambda: report([]))
        laid(self.folder, 'deep.json', lambda: beside('[' * (DEEP - 1) + ']' * (DEEP - 1)))
        laid(self.folder, 'many items.json', lambda: report([record(it) for it in range(3000)]))
        laid(self.folder, 'deeper.json', lambda: beside('[' * DEEP + ']' * DEEP))
        for name, words in {'check': [], 'conflicts': [], 'currents': [], 'tally': [],
                            'merge': ['2024-11-06T08:00:00Z', 'desk', '1'], 'drill': ['2']}.items():
            found = []
            for file in 'deep.json', 'many items.json':
                files = ['1=' + file, '1>2'] if name == 'drill' else [file]
                found.append(self.least([name, 'def.json', *words, *files]) / 1024)
            self.told.say('%-18s %12.0f %11.0f' % (name, *found))
        for name, words, status in ('explain', ['explain', 'E2'], 0), ('help', ['--help'], 0), ('too deep', ['check', 'def.json', 'deeper.json'], 1):
            self.told.say('%-18s %12.0f' % (name, self.least(words, status) / 1024))

    def least(self, words, status=0):
        """The least stack with which a command ends as it should."""
        self.run(*words, status=status, stack=MOST)
        low, high = 0, MOST         # it fails with the first, and ends as it should with the second
        while high - low > STEP:
            middle = (low + high) // 2 // STEP * STEP
            try:
                for _ in range(TRIES):
                    self.run(*words, status=status, stack=middle)
                high = middle
            except (Failed, OSError, subprocess.SubprocessError):
                low = middle
        return high


if __name__ == '__main__':
    measure(__doc__, ['rows', 'tree', 'drill', 'stack'], Measuring)
