#!/usr/bin/env python3
"""gather.py [--cvr PATH] [--ballots N ..] [--seed N] [--keep NAME]

Measures `cvr-audit gather` of an invented export of each kind (tests/gather/make.py): Python and the `cvr` that it
starts apart, in processor seconds and by their peaks of resident memory, and whether the recount of
examples/recipes/recount.py agrees."""
import argparse
import datetime
import os
import platform
import re
import subprocess
import sys
import tempfile

TOP = os.path.dirname(os.path.dirname(os.path.abspath(__file__)))
sys.dont_write_bytecode = True
sys.path[:0] = [os.path.join(TOP, 'bench'), os.path.join(TOP, 'tests', 'gather')]
import audit    # noqa: E402
import make     # noqa: E402 (they stand there)

HEAD = '''| kind | ballots | MB of the export | MB of the records | seconds of Python | of `cvr` below it | MiB of Python | of `cvr` | votes compared |
|---|---|---|---|---|---|---|---|---|'''


def size_of(path):
    """The bytes of a file, or of all below a folder."""
    if os.path.isfile(path):
        return os.path.getsize(path)
    return sum(os.path.getsize(os.path.join(above, name)) for above, _, names in os.walk(path) for name in names)


def printed(script, *words):
    """What a script of the repository prints."""
    return subprocess.run([sys.executable, os.path.join(TOP, script), *words], stdout=subprocess.PIPE, check=True).stdout.decode('utf-8')


def line_of(kind, ballots, seed, cvr):
    """The line of the table for a kind. What else takes memory has processes of its own, as a process begins with the peak
    of the one that starts it."""
    with tempfile.TemporaryDirectory() as folder:
        printed('tests/gather/make.py', kind, folder, '--ballots', str(ballots), '--seed', str(seed))
        export, out = os.path.join(folder, kind), os.path.join(folder, 'out')
        export = export if os.path.isdir(export) else export + '.csv'
        (own, peak), (below, peak_below) = audit.measured([os.path.join(TOP, 'companion'), 'gather', export, '-o', out], cvr)
        said = re.fullmatch(r'(\d+) votes compared, 0 differences\n', printed('examples/recipes/recount.py', kind, export, out, '--cvr', cvr))
        records = sum(size_of(os.path.join(out, it)) for it in os.listdir(out) if it.startswith('records'))
        numbers = kind, ballots, size_of(export) / 1e6, records / 1e6, own, below, peak, peak_below, said.group(1)
    return '| `%s` | %d | %.1f | %.1f | %.2f | %.2f | %.0f | %.0f | %s |' % numbers


def main():
    words = argparse.ArgumentParser()
    words.add_argument('--cvr', default=os.path.join(TOP, 'out/cvr'))
    words.add_argument('--ballots', type=int, nargs='+', default=[3000, 21000])
    words.add_argument('--seed', type=int, default=5)
    words.add_argument('--keep', help='append to bench/runs/DATE-NAME.md')
    words = words.parse_args()
    election = make.random_election(make.random.Random(words.seed), 1)
    lines = ['%d contests with %d choices; Python %s, %d cores, %s' % (len(election.contests), len(make.columns(election)),
             platform.python_version(), os.cpu_count(), platform.platform()), '', HEAD]
    for ballots in words.ballots:
        for kind in make.KINDS:
            lines.append(line_of(kind, ballots, words.seed, os.path.abspath(words.cvr)))
            print(lines[-1], flush=True)
    if words.keep:
        path = os.path.join(TOP, 'bench/runs', '%s-%s.md' % (datetime.date.today(), words.keep))
        with open(path, 'a', encoding='utf-8') as file:
            file.write('\n'.join(lines) + '\n')


if __name__ == '__main__':
    main()
