#!/usr/bin/env python3
"""audit.py --data FOLDER [--cvr PATH] [--repeat N] [--keep NAME]

Measures each command of companion/cvr-audit over the reports of a folder (def.json is the definition), in turns with
`cvr tally` of the same files. Python and the `cvr` that it starts are measured apart, in processor seconds and by their
peaks of resident memory; `tree` is a process that only reads the largest file with `json`."""
import argparse
import datetime
import json
import os
import platform
import statistics
import subprocess
import sys

TOP = os.path.dirname(os.path.dirname(os.path.abspath(__file__)))
# runs its words, and prints the seconds and the peak in KiB, of itself and of the processes below it
MEASURED = '''import json, os, resource, subprocess, sys
if sys.argv[1] == 'tree':
    json.load(open(sys.argv[2], encoding='utf-8'))
elif sys.argv[1] == 'cvr':
    subprocess.run(sys.argv[2:], stdout=subprocess.DEVNULL, check=True)
else:
    import gc
    gc.disable()
    sys.path.insert(0, sys.argv[1])
    from cvr_audit import line
    if line.main(sys.argv[2:]) > 1:
        sys.exit('a run failed')
used = [resource.getrusage(it) for it in (resource.RUSAGE_SELF, resource.RUSAGE_CHILDREN)]
print(json.dumps([[it.ru_utime + it.ru_stime, it.ru_maxrss] for it in used]), file=sys.stderr)
'''
HEAD = '''| | seconds of Python | of `cvr` below it | all, of `cvr tally` | MiB of Python | of `cvr` |
|---|---|---|---|---|---|'''


def measured(words, cvr):
    """(seconds, MiB) of a Python process, and of those below it."""
    done = subprocess.run([sys.executable, '-B', '-c', MEASURED] + words,
                          env=dict(os.environ, CVR=cvr), stdout=subprocess.DEVNULL,
                          stderr=subprocess.PIPE, check=True)
    used = json.loads(done.stderr.decode('utf-8').splitlines()[-1])
    return [(seconds, peak / 1024) for seconds, peak in used]


def tasks(definition, files, cvr):
    """The words of each line of the table, by its name."""
    companion = os.path.join(TOP, 'companion')
    with open(definition, encoding='utf-8') as file:
        contest = json.load(file)['Election'][0]['Contest'][0]['@id']
    sides = ['--one'] + files + ['--other'] + files[1:]
    return {
        'cvr tally': ['cvr', cvr, 'tally', definition] + files,
        'tree': ['tree', max(files, key=os.path.getsize)],
        'records': [companion, 'records', definition] + files,
        'compare': [companion, 'compare', definition] + sides,
        'trace': [companion, 'trace', definition, '--contest', contest] + files,
        'page': [companion, 'page', definition] + files,
        'warnings': [companion, 'warnings', definition] + files,
    }


def medians_of(runs):
    """The median seconds and peak of each line, for Python and for the processes below it."""
    return {name: [[statistics.median(run[side][k] for run in held) for k in (0, 1)]
                   for side in (0, 1)] for name, held in runs.items()}


def table(runs):
    """The lines of the table: medians, and the ratio of all seconds to those of `cvr tally`."""
    medians = medians_of(runs)
    tally = medians['cvr tally'][1][0]
    yield HEAD
    for name, ((own, peak), (below, peak_below)) in medians.items():
        ratio = (own + below) / tally
        if name == 'cvr tally':
            yield '| `%s` | | %.2f | 1 | | %.0f |' % (name, below, peak_below)
        elif name == 'tree':
            yield '| `%s` | %.2f | | %.2f | %.0f | |' % (name, own, own / tally, peak)
        else:
            numbers = name, own, below, ratio, peak, peak_below
            yield '| `%s` | %.2f | %.2f | %.2f | %.0f | %.0f |' % numbers


def rounds(definition, files, cvr, repeat):
    """What each line took, round by round."""
    runs = {}
    for _ in range(repeat):
        for name, words in tasks(definition, files, cvr).items():
            runs.setdefault(name, []).append(measured(words, cvr))
    return runs


def read_words():
    words = argparse.ArgumentParser()
    words.add_argument('--data', required=True, help='a folder with def.json and reports')
    words.add_argument('--cvr', default=os.path.join(TOP, 'out/cvr'))
    words.add_argument('--repeat', type=int, default=3)
    words.add_argument('--keep', help='append to bench/runs/DATE-NAME.md')
    return words.parse_args()


def main():
    words = read_words()
    definition = os.path.join(words.data, 'def.json')
    names = sorted(name for name in os.listdir(words.data)
                   if name.endswith('.json') and name != 'def.json')
    files = [os.path.join(words.data, name) for name in names]
    runs = rounds(definition, files, os.path.abspath(words.cvr), words.repeat)
    machine = platform.python_version(), os.cpu_count(), platform.platform()
    lines = ['%d files, %.0f MB; ' % (len(files), sum(map(os.path.getsize, files)) / 1e6)
             + 'Python %s, %d cores, %s' % machine, '', *table(runs), '']
    for name, held in runs.items():
        raw = ' '.join('%.2f+%.2f' % (own[0], below[0]) for own, below in held)
        lines.append('    raw %s: %s' % (name, raw))
    print('\n'.join(lines))
    if words.keep:
        name = '%s-%s.md' % (datetime.date.today(), words.keep)
        with open(os.path.join(TOP, 'bench/runs', name), 'a', encoding='utf-8') as file:
            file.write('\n'.join(lines) + '\n')


if __name__ == '__main__':
    main()
