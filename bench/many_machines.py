#!/usr/bin/env python3
"""many_machines.py --data FOLDER [--cvr PATH] [--large] [--repeat N] [--keep NAME]

Measures examples/many-machines/tally.py with 1, 2 and 4 workers, in turns with `cvr tally` of the same files. It makes
the files in the folder where they aren't there: `small` has 20,000 records in 13 files, 170 MB; with --large also
`large`, 200,000 records in 33 files, 1.7 GB. One record in twenty comes again from one of three desks. It prints
seconds by the clock and of processors, and the peak memory of the largest process; each answer has to have the bytes of
`cvr tally`. `alone` is the share of a processor that a process gets which only counts: an idle machine gives 1, and a
load below 1 before the first run."""
import argparse
import datetime
import glob
import hashlib
import os
import platform
import statistics
import subprocess
import sys
import time

sys.dont_write_bytecode = True
import gen  # noqa: E402 (it stands beside this file)

TOP = os.path.dirname(os.path.dirname(os.path.abspath(__file__)))
SCRIPT = os.path.join(TOP, 'examples/many-machines/tally.py')
SIZES = {'small': (20000, 10), 'large': (200000, 30)}       # records and scanners
DESKS, ON_A_BALLOT = 3, 26
WORKERS = 1, 2, 4
# runs its words, and prints the seconds, the processor seconds, and the peak of the largest process
MEASURED = '''import json, resource, subprocess, sys, time
start = time.perf_counter()
subprocess.run(sys.argv[1:], check=True)
took = time.perf_counter() - start
used = resource.getrusage(resource.RUSAGE_CHILDREN)
print(json.dumps([took, used.ru_utime + used.ru_stime, used.ru_maxrss / 1024]), file=sys.stderr)
'''
HEAD = '''| | seconds | of `cvr tally` | of processors | largest process, MiB | of `cvr tally` |
|---|---|---|---|---|---|'''


def made(folder, name):
    """The definition and reports of a size, made where they aren't there."""
    path = os.path.join(folder, name)
    records, scanners = SIZES[name]
    if not os.path.isdir(path):
        gen.SCANNERS, gen.DESKS, gen.ON_A_BALLOT = scanners, DESKS, ON_A_BALLOT
        gen.Series.__init__.__defaults__ = gen.LIMIT - 1, True      # one file for each device
        os.makedirs(path)
        gen.records(path, records, 1)
    reports = sorted(glob.glob(path + '/scan-*.json') + glob.glob(path + '/desk-*.json'))
    return [os.path.join(path, 'definition.json')] + reports


def measured(words):
    """(seconds, processor seconds, MiB) of a command, and a checksum of what it prints."""
    done = subprocess.run([sys.executable, '-c', MEASURED] + words, stdout=subprocess.PIPE,
                          stderr=subprocess.PIPE, check=True)
    figures = [float(it) for it in done.stderr.decode().splitlines()[-1].strip('[]').split(',')]
    return figures, hashlib.sha256(done.stdout).hexdigest()


def alone():
    """The share of a processor that this process gets."""
    start, used = time.perf_counter(), time.process_time()
    sum(range(5000000))
    return (time.process_time() - used) / (time.perf_counter() - start)


def tasks(cvr, files):
    yield 'cvr tally', [cvr, 'tally'] + files
    for count in WORKERS:
        words = [sys.executable, SCRIPT, '--cvr', cvr, '--workers', str(count)]
        yield '%d worker%s' % (count, 's' * (count > 1)), words + files


def rounds(cvr, files, repeat):
    """What each line took, round by round, and the loads; all have to print the same."""
    runs, loads, sums = {}, [], set()
    for path in files:
        with open(path, 'rb') as file:
            file.read()
    for _ in range(repeat):
        for name, words in tasks(cvr, files):
            loads.append((os.getloadavg()[0], alone()))
            figures, told = measured(words)
            runs.setdefault(name, []).append(figures)
            sums.add(told)
    assert len(sums) == 1, 'the texts are not the same'
    return runs, loads


def table(runs):
    """Medians; a ratio is the median of each round's ratios."""
    yield HEAD
    whole = runs['cvr tally']
    for name, held in runs.items():
        took, used, peak = (statistics.median(column) for column in zip(*held))
        ratio, share = (statistics.median(it[k] / one[k] for it, one in zip(held, whole))
                        for k in (0, 2))
        yield '| %s | %.2f | %.2f | %.2f | %.0f | %.2f |' % (name, took, ratio, used, peak, share)


def lines_of(cvr, files, repeat):
    runs, loads = rounds(cvr, files, repeat)
    yield '%d files, %.0f MB; load %.1f to %.1f, alone %.2f to %.2f' % (
        len(files) - 1, sum(map(os.path.getsize, files[1:])) / 1e6,
        min(loads)[0], max(loads)[0], min(it[1] for it in loads), max(it[1] for it in loads))
    yield ''
    yield from table(runs)
    yield ''
    for name, held in runs.items():
        yield '    raw %s: %s' % (name, ' '.join('%.2f' % it[0] for it in held))
    yield ''


def read_words():
    words = argparse.ArgumentParser()
    words.add_argument('--data', required=True, help='a folder for the files')
    words.add_argument('--cvr', default=os.path.join(TOP, 'out/cvr'))
    words.add_argument('--large', action='store_true')
    words.add_argument('--repeat', type=int, default=5)
    words.add_argument('--keep', help='append to bench/runs/DATE-NAME.md')
    return words.parse_args()


def main():
    words = read_words()
    lines = ['Python %s, %d processors, %s' % (platform.python_version(), os.cpu_count(),
                                               platform.platform()), '']
    for name in ['small'] + ['large'] * words.large:
        lines += lines_of(os.path.abspath(words.cvr), made(words.data, name), words.repeat)
    print('\n'.join(lines))
    if words.keep:
        name = '%s-%s.md' % (datetime.date.today(), words.keep)
        with open(os.path.join(TOP, 'bench/runs', name), 'a', encoding='utf-8') as file:
            file.write('\n'.join(lines) + '\n')


if __name__ == '__main__':
    main()
