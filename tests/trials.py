"""What tests/targets.py and tests/library/run.py share: a module, not a command. A trial is a function that answers what is
wrong, or None."""
import os
import re
import subprocess
import sys
from concurrent.futures import ThreadPoolExecutor
from functools import partial

HERE = os.path.dirname(os.path.abspath(__file__))
TOP = os.path.dirname(HERE)
sys.path.insert(0, os.path.join(HERE, 'rows'))
import members      # noqa: E402
import run as rows  # noqa: E402 (both stand in tests/rows)
from tenth import chosen    # noqa: E402 (it stands beside this file)

COUNTY = os.path.join(TOP, 'examples', 'county')
FILES = ['definition.json', 'scan.json', 'adjudicated.json']
CALLED = os.path.join('library', 'elsewhere.txt')      # the rows that differ where the library is called
SECONDS = 3000      # of a command, also where it proves beside other proofs
FAULTS = OSError, subprocess.SubprocessError


def printed(command, **more):
    """(status, output) of a command among the files of the county; its standard error stands in the output."""
    how = dict(cwd=COUNTY, stdin=subprocess.DEVNULL, stdout=subprocess.PIPE, stderr=subprocess.STDOUT, encoding='utf-8', errors='replace',
               timeout=SECONDS)
    ran = subprocess.run(command, **dict(how, **more))
    return ran.returncode, ran.stdout


def told_fault(name, command, **more):
    """What is wrong with a test whose last line is `NAME: N right, M wrong`, or None. It prints that line."""
    status, told = printed(command, **more)
    last = told.strip().split('\n')[-1]
    print('  ' + last, flush=True)
    return None if re.fullmatch(name + r': [1-9]\d* right, 0 wrong', last) and not status else told


def compiled(words, program, *sources, libraries=()):
    """Compiles a program of sources below tests/. What the compiler says of them is shown, and ends the trials."""
    subprocess.run([*words, '-o', program, *(os.path.join(HERE, it) for it in sources), *libraries], check=True, timeout=SECONDS)
    return program


def listed_in(name):
    """The rows of a file, each with its reason: lines `# REASON`, and below each the names of its rows."""
    found, reason = {}, ''
    with open(os.path.join(HERE, name), encoding='utf-8') as file:
        for line in file.read().splitlines():
            if line.startswith('# '):
                reason = line[2:]
            elif line:
                found[line] = reason
    return found


def row_trials(cvr, listed, word, is_left_out=lambda row: False):
    """Yields a trial for each row with a program, or with a word for a tenth of them."""
    every = [it[1:] for it in rows.all_rows()] + [(row, {}) for row in members.rows()]
    some = [it for it in chosen(word, every, lambda it: it[0]['name']) if not is_left_out(it[0])]
    print('  %s: %d of %d rows, of which %d are listed as differing' % (os.path.basename(cvr), len(some), len(every), len(listed)), flush=True)
    for row, short in some:
        yield partial(row_fault, cvr, row, short, listed.get(row['name']))
    for name in sorted(set(listed) - {row['name'] for row, _ in every}):
        yield partial(str, 'no row is called %s, which is listed' % name)


def row_fault(cvr, row, short, reason=None):
    """What is wrong with a row, or with the reason for which it is listed as one that differs."""
    found, what = rows.tried(cvr, row, short), 'row %s with %s' % (row['name'], os.path.basename(cvr))
    if reason:
        return None if found else '%s is listed (%s), and right' % (what, reason)
    return '%s: %s' % (what, '; '.join(found)) if found else None


def call_trials(words, folder, library, listed, word, script=str, is_left_out=lambda row: False):
    """Yields those of a library that is called from C: by calls.c, by offices.c, and by driver.c, through which the rows go."""
    calls, offices, driver = (script(compiled([*words, '-I', os.path.join(TOP, 'library')], '%s/%s.exe' % (folder, it), 'library/%s.c' % it, library))
                              for it in ('calls', 'offices', 'driver'))
    yield partial(told_fault, 'calls', [calls, *FILES])
    yield partial(told_fault, 'offices', [offices, *FILES])
    yield from row_trials(driver, listed, word, is_left_out)


def outcome(trial):
    """What a trial finds wrong; also that something is missing, or takes too long."""
    try:
        return trial()
    except FAULTS as fault:
        return '%s: %s' % (type(fault).__name__, fault)


def outcomes(trials):
    """What each trial finds wrong, or None. Some are made side by side."""
    with ThreadPoolExecutor(min(rows.SIDE_BY_SIDE, len(os.sched_getaffinity(0)))) as pool:
        return list(pool.map(outcome, trials))
