#!/usr/bin/env python3
"""run.py --cvr PATH [--tenth WORD]

Tests companion/cvr-audit with the given program: the rows of rows.json and hostile.json, the cases of
contests.json, what a terminal shows, names that would forge lines there (signs.py), random sets of
files (sets.py), what a journal holds (journal.py), and what a run leaves beside what it prints
(outputs.py). Then the slips of wrong_ways.py: each is made in a copy, and
the row that it names, the terminal, the sets or a part of journal.py have to find it. With --tenth a
tenth of the sets and of the slips are tried. The last line is `audit: N right, M wrong`; the status is
0 only where M is 0 and N is not."""
import os
import subprocess
import sys
import tempfile
from concurrent.futures import ThreadPoolExecutor
from operator import attrgetter

sys.dont_write_bytecode = True
HERE = os.path.dirname(os.path.abspath(__file__))
TOP = os.path.dirname(os.path.dirname(HERE))
sys.path[:0] = [HERE, os.path.dirname(HERE), os.path.join(TOP, 'tests', 'rows')]
import companion   # noqa: E402
import contests    # noqa: E402
import journal     # noqa: E402
import outputs     # noqa: E402
import rows        # noqa: E402
import sets        # noqa: E402
import signs       # noqa: E402
import tenth       # noqa: E402
import terminal    # noqa: E402
import wrong_ways  # noqa: E402 (these stand beside this file and in tests/)

SIDE_BY_SIDE = 4
SETS = 60
FEW = 12            # the sets with which a slip is tried
SHOWN = ['cvr check: 3 files', 'cvr check: 3 files', 'cvr merge: 3 files', 'read 0 of 2 files',
         'read 1 of 2 files', 'cvr tally: 3 files']
SCREEN = ['damaged.json: E3 /CVR/0/UniqueId 2',
          'cvr-audit: see cvr-audit warnings: counted 1, decides 1, undone 1', '']
BROKEN = 'NameError', 'SyntaxError', 'ImportError'


def terminal_differences(copy, cvr):
    """What is wrong with what a terminal shows of a run over three files, one of them refused."""
    words = ['records', 'definition.json', 'scan.json', 'damaged.json', 'adjudicated.json']
    with tempfile.TemporaryDirectory() as folder:
        rows.lay(folder, {})
        log = terminal.End('terminal')
        done = subprocess.run([sys.executable, os.path.join(copy, 'cvr-audit')] + words,
                              cwd=folder, env=dict(os.environ, CVR=cvr), stdin=subprocess.DEVNULL,
                              stdout=subprocess.PIPE, stderr=log.theirs, timeout=rows.SECONDS)
    screen, before = terminal.screen(log.all())
    found = []
    if (screen, done.returncode) != (SCREEN, 1):
        found.append('terminal: the screen has %r, the status is %d' % (screen, done.returncode))
    if [one for one in before if one] != SHOWN:
        found.append('terminal: the line said %r' % before)
    return found


def number_differences(package):
    """What is wrong with the JSON of numbers that not every reader keeps whole."""
    text = package.written.text_of({'a': 2 ** 53, 'b': [2 ** 53 + 1, None, True]})
    wanted = '{"a":9007199254740992,"b":["9007199254740993",null,true]}'
    return [] if ''.join(text.split()) == wanted else ['numbers: ' + text]


def set_differences(copy, cvr):
    """What a few sets find wrong with a copy of the companion, which has a process of its own."""
    words = [copy, cvr, str(FEW)]
    done = subprocess.run([sys.executable, os.path.join(HERE, 'sets.py')] + words,
                          stdin=subprocess.DEVNULL, stdout=subprocess.PIPE,
                          stderr=subprocess.STDOUT, timeout=rows.SECONDS)
    return done.stdout.decode('utf-8', 'replace').splitlines()


def way_differences(cvr, held, advice, way):
    """Nothing where the row, terminal or sets that a slip names find it."""
    with tempfile.TemporaryDirectory() as folder:
        copy = companion.made(folder, way)
        if way.row == wrong_ways.TERMINAL:
            found = terminal_differences(copy, cvr)
        elif way.row == wrong_ways.SETS:
            found = set_differences(copy, cvr)
        elif way.row == wrong_ways.SIGNS:
            found = signs.differences(copy, cvr)
        elif way.row.startswith(wrong_ways.JOURNAL):
            found = journal.differences(copy, cvr, way.row[len(wrong_ways.JOURNAL):])
        else:
            found = rows.differences(copy, cvr, held[way.row], advice)
    if any(word in line for line in found for word in BROKEN):
        return ['wrong way %s: the copy doesn\'t run' % way.name]
    return [] if found else ['wrong way %s: not found by: %s' % (way.name, way.row)]


def jobs(words):
    """What is tested, each as a call that answers what is wrong."""
    cvr, copy = words.cvr, companion.compiled()
    package, held = companion.package_in(copy), {row['name']: row for row in rows.held()}
    advice = package.advice.ADVICE
    yield from ((rows.differences, copy, cvr, row, advice) for row in held.values())
    yield from ((contests.differences, copy, cvr, case) for case in contests.held())
    yield terminal_differences, copy, cvr
    yield number_differences, package
    yield signs.differences, copy, cvr
    yield from ((outputs.differences, copy, cvr, see) for see in outputs.SEEN)
    yield from ((journal.differences, copy, cvr, name) for name in journal.PARTS)
    for seed in tenth.chosen(words.tenth, range(1, 1 + SETS)):
        yield sets.differences, package, cvr, seed
    for way in tenth.chosen(words.tenth, wrong_ways.WAYS, attrgetter('name')):
        yield way_differences, cvr, held, advice, way


def tried(job):
    """What a job finds wrong; a job that fails is wrong, too."""
    try:
        return job[0](*job[1:])
    except Exception as fault:
        name = getattr(job[-1], 'name', job[-1])
        return ['%s of %s: %s: %s' % (job[0].__name__, name, type(fault).__name__, fault)]


def main():
    right = wrong = 0
    with ThreadPoolExecutor(min(SIDE_BY_SIDE, len(os.sched_getaffinity(0)))) as pool:
        for found in pool.map(tried, jobs(tenth.words().parse_args())):
            right, wrong = right + (not found), wrong + bool(found)
            for line in found:
                print('WRONG ' + line)
    print('audit: %d right, %d wrong' % (right, wrong))
    sys.exit(0 if right and not wrong else 1)


if __name__ == '__main__':
    main()
