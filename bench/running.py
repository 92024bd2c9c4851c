#!/usr/bin/env python3
"""running.py [--cvr PATH] [--rounds 3] [--keep NAME] [small] [large] [listed] [growing]

Measures what running totals cost: `cvr tally`, and `cvr check` beside it, over invented files that it writes in a
folder of its own. `small`: many files of five records beside one file of all of them; `large`: 20,000 to 200,000
records in files of 4,000; `listed`: files of one record each, 1,000 to 100,000 of them, whose paths come from a list;
`growing`: what each of many files adds to one list, where that list is long: snapshots of one record, texts of one
snapshot, or devices. Without a word all four. It prints processor seconds, the least of the rounds, and the greatest
resident memory. README.md says what the figures mean. With --keep they are appended to runs/DATE-NAME.md. The status is
1 where a command fails, or reports another number of ballots than was written."""
import argparse
import json
import multiprocessing
import os
import shutil
import subprocess
import sys
import tempfile

from bench import TOP, Failed, Report, commit, keep, machine
from gen import write

PER = 4000      # the records of a file of `large`
DEFINITION = 'definition.json'


def objects(kind, *ids):
    return [{'@id': it, '@type': 'CVR.' + kind} for it in ids]


def report(records, devices=()):
    """The text of a report with these records: two contests, two units, three devices, and these."""
    mayor = objects('CandidateSelection', 'ann', 'bob', 'wi')
    contests = [{'@id': 'mayor', '@type': 'CVR.CandidateContest', 'ContestSelection': mayor},
                {'@id': 'question', '@type': 'CVR.BallotMeasureContest',
                 'ContestSelection': objects('BallotMeasureSelection', 'yes', 'no')}]
    whole = {'@type': 'CVR.CastVoteRecordReport', 'CVR': records,
             'Election': [{'@id': 'e', '@type': 'CVR.Election', 'Contest': contests, 'ElectionScopeId': 'p1'}],
             'GeneratedDate': '2024-11-06T08:00:00Z', 'GpUnit': objects('GpUnit', 'p1', 'p2'),
             'ReportGeneratingDeviceIds': ['desk'], 'ReportType': ['aggregated'],
             'ReportingDevice': objects('ReportingDevice', 'desk', 's1', 's2', *devices), 'Version': '1.0.0'}
    return json.dumps({name: it for name, it in whole.items() if it != []}, separators=(',', ':'))


def snapshot(id, number=0, votes=1):
    """A snapshot of one contest; selections take turns."""
    position = {'@type': 'CVR.SelectionPosition', 'HasIndication': 'yes', 'NumberVotes': votes}
    selection = {'@type': 'CVR.CVRContestSelection', 'ContestSelectionId': 'ann' if number % 3 else 'bob',
                 'SelectionPosition': [position]}
    contest = {'@type': 'CVR.CVRContest', 'CVRContestSelection': [selection], 'ContestId': 'mayor'}
    return {'@id': id, '@type': 'CVR.CVRSnapshot', 'CVRContest': [contest], 'Type': 'original'}


def record(number, snapshots=None):
    """A record with these snapshots, or with one; units take turns."""
    snapshots = snapshots or [snapshot('a', number)]
    return {'@type': 'CVR.CVR', 'BallotStyleUnitId': 'p1' if number % 2 else 'p2', 'CVRSnapshot': snapshots,
            'CreatingDeviceId': 's1', 'CurrentSnapshotId': snapshots[0]['@id'], 'ElectionId': 'e',
            'UniqueId': 'u%07d' % number}


class Files:
    """Files in a folder, and how long they are."""

    def __init__(self, folder, texts):
        # A process of its own writes them: what this one holds would count as memory of each command that it starts.
        child = multiprocessing.get_context('fork').Process(target=lay, args=(folder, texts))
        child.start()
        child.join()
        if child.exitcode:
            raise Failed('the files could not be laid')
        self.folder, self.names = folder, sorted(it for it in os.listdir(folder) if it != DEFINITION)
        self.bytes = sum(os.path.getsize(os.path.join(folder, it)) for it in self.names)


def lay(folder, texts):
    """Writes a definition, and a file for each text."""
    shutil.rmtree(folder, ignore_errors=True)
    os.makedirs(folder)
    write(folder, DEFINITION, report([]))
    for number, text in enumerate(texts):
        write(folder, 'f%06d.json' % number, text)


def parts(amount, per):
    """Reports of so many records, with so many in each."""
    return (report([record(it) for it in range(first, min(first + per, amount))])
            for first in range(0, amount, per))


def in_no_order(count):
    """The numbers below count, each once."""
    return (it * 7919 % count for it in range(count))


# One more of a list, by its number: the text of a report that brings those of these numbers.
GROWING = {
    'snapshots of one record': lambda numbers: report([record(0, [snapshot('a%06d' % it) for it in numbers])]),
    'texts of one snapshot': lambda numbers: report([record(0, [snapshot('a', 0, 1 + it)]) for it in numbers]),
    'devices': lambda numbers: report([], ['d%06d' % it for it in numbers]),
}
LONG, FURTHER = 80000, 20       # what one file brings, and how many files then bring one more each


class Measuring:
    """The program, how often each command is run, and where the figures are printed."""

    def __init__(self, cvr, folder, report, rounds):
        self.cvr, self.rounds, self.folder, self.report = cvr, rounds, folder, report

    def files(self, name, texts):
        return Files(os.path.join(self.folder, name), texts)

    def once(self, command, files, ballots, is_listed=False):
        """(processor seconds, MiB) of one run; a tally has to have so many ballots, unless that is None."""
        with tempfile.TemporaryFile() as out, tempfile.TemporaryFile() as paths:
            paths.write('\n'.join(files.names).encode())
            paths.seek(0)
            words = [self.cvr, command, DEFINITION] + (['--files-from', '-'] if is_listed else files.names)
            child = subprocess.Popen(words, cwd=files.folder, stdin=paths, stdout=out)
            _, status, usage = os.wait4(child.pid, 0)
            child.returncode = status
            out.seek(0)
            told = [line.split() for line in out.read().decode().splitlines()]
        found = sum(int(words[3]) for words in told) if command == 'tally' and ballots is not None else ballots
        if status or found != ballots:
            raise Failed('%s: wait status %d, %d ballots and not %d' % (command, status, found, ballots))
        return usage.ru_utime + usage.ru_stime, usage.ru_maxrss / 1024

    def least(self, command, files, ballots, is_listed=False):
        runs = [self.once(command, files, ballots, is_listed) for _ in range(self.rounds)]
        return min(run[0] for run in runs), max(run[1] for run in runs)

    def small(self):
        self.report.say('   files  tally s  check s   one: s  check s   ratio  less check    MiB')
        for count in (2000, 4000, 8000, 10000):
            one, many = self.files('one', parts(5 * count, 5 * count)), self.files('many', parts(5 * count, 5))
            (a, memory), (b, _) = self.least('tally', many, 5 * count), self.least('check', many, 0)
            (c, _), (d, _) = self.least('tally', one, 5 * count), self.least('check', one, 0)
            self.report.say('%8d %8.2f %8.2f %8.2f %8.2f %7.2f %11.2f %6.0f' % (count, a, b, c, d, a / c, (a - b) / (c - d), memory))

    def large(self):
        self.report.say(' records  tally s  microseconds a record    MiB  bytes of memory a byte')
        for amount in (20000, 100000, 200000):
            files = self.files('large', parts(amount, PER))
            seconds, memory = self.least('tally', files, amount)
            self.report.say('%8d %8.2f %22.2f %6.0f %23.2f' % (amount, seconds, 1e6 * seconds / amount, memory, memory * 2 ** 20 / files.bytes))

    def listed(self):
        self.report.say('   files  tally s  microseconds a file  check s    MiB  KiB a file')
        for count in (1000, 10000, 100000):
            files = self.files('listed', parts(count, 1))
            (a, memory), (b, _) = (self.least(command, files, count, True) for command in ('tally', 'check'))
            self.report.say('%8d %8.2f %20.1f %8.2f %6.0f %11.2f' % (count, a, 1e6 * a / count, b, memory, 1024 * memory / count))

    def growing(self):
        for what, text in GROWING.items():
            self.report.say('%s, one a file  tally s  microseconds a file' % what)
            for count in (1000, 2000, 4000, 8000):
                files = self.files('growing', (text([it]) for it in in_no_order(count)))
                seconds, _ = self.least('tally', files, None, True)
                self.report.say('%*d %8.2f %20.1f' % (len(what) + 12, count, seconds, 1e6 * seconds / count))
        self.further('snapshots of one record')
        self.further('devices')

    def further(self, what):
        """What one more file costs, once another has brought a long list."""
        first, more = range(1, 2 * LONG, 2), range(0, 2 * LONG, 2 * LONG // FURTHER)
        text = GROWING[what]
        seconds = [self.least('tally', self.files('further', [text(it) for it in lists]), None)[0]
                   for lists in ([first], [first] + [[it] for it in more])]
        self.report.say('one more file after %d %s: %.2f ms' % (LONG, what, 1e3 * (seconds[1] - seconds[0]) / FURTHER))


def measure(about, kinds, measuring_of, rounds=None):
    """Measures what the words ask for: methods of `measuring_of(program, folder, report)`, and of rounds where
    these can be set."""
    words = argparse.ArgumentParser(description=about, formatter_class=argparse.RawDescriptionHelpFormatter)
    words.add_argument('what', nargs='*', metavar='|'.join(kinds))
    words.add_argument('--cvr', default=os.path.join(TOP, 'crates', 'cvr', 'out', 'cvr'))
    if rounds:
        words.add_argument('--rounds', type=int, default=rounds)
    words.add_argument('--keep', metavar='NAME')
    said = words.parse_args()
    if set(said.what) - set(kinds):
        words.error('one of these: ' + ', '.join(kinds))
    told = Report()
    told.say('%s, commit %s' % (machine(), commit()))
    try:
        with tempfile.TemporaryDirectory() as folder:
            more = [said.rounds] if rounds else []
            measuring = measuring_of(os.path.abspath(said.cvr), folder, told, *more)
            for what in said.what or kinds:
                getattr(measuring, what)()
    except Failed as why:
        sys.exit('%s: %s' % (words.prog, why))
    if said.keep:
        keep(told, said.keep)


if __name__ == '__main__':
    measure(__doc__, ['small', 'large', 'listed', 'growing'], Measuring, rounds=3)
