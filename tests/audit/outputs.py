"""outputs.py: what a run of `cvr-audit` leaves beside what it prints: the modes of files, what is there
after a failure, what modules of others are run, and how long a page is."""
import json
import os
import resource
import stat
import subprocess
import sys
import tempfile

import rows

MODULE = 'open("run.txt", "w").close()\n'
HELD = 'held before\n'


def run(companion, cvr, folder, words, limit=None, **more):
    """(log, status) of a run whose files have at most `limit` bytes."""
    def limited():
        os.umask(0o022)
        if limit is not None:
            resource.setrlimit(resource.RLIMIT_FSIZE, (limit, limit))
    done = subprocess.run([sys.executable, os.path.join(companion, 'cvr-audit'), *words], cwd=folder,
                          env=dict(os.environ, CVR=cvr, **more), stdin=subprocess.DEVNULL,
                          stdout=subprocess.PIPE, stderr=subprocess.PIPE, preexec_fn=limited,
                          timeout=rows.SECONDS)
    return done.stderr.decode('utf-8', 'replace'), done.returncode


def mode_of(path):
    return stat.S_IMODE(os.stat(path).st_mode)


def see_modes(companion, cvr, folder):
    """A file with ballots is for its owner alone, also where one stood before; others are as usual."""
    for path, words, wanted in (('a.csv', ['records'], 0o600), ('b.html', ['page'], 0o600),
                                ('c.html', ['page', '--public'], 0o644)):
        with open(os.path.join(folder, path), 'w', encoding='utf-8') as file:
            file.write(HELD)
        log, status = run(companion, cvr, folder,
                          words + ['definition.json', 'scan.json', '-o', path])
        mode = mode_of(os.path.join(folder, path))
        if (status, mode) != (0, wanted):
            yield '%s: status %d, mode %o, log %r' % (path, status, mode, log)


def see_failure(companion, cvr, folder):
    """Where a file can't be written whole, the one before stays, and no part of the new one."""
    path, names = os.path.join(folder, 'd.html'), {*os.listdir(folder), 'd.html'}
    with open(path, 'w', encoding='utf-8') as file:
        file.write(HELD)
    log, status = run(companion, cvr, folder,
                      ['page', 'definition.json', 'scan.json', '-o', 'd.html'], limit=9000)
    with open(path, encoding='utf-8') as file:
        text = file.read()
    if (text, status, {*os.listdir(folder)}) != (HELD, 3, names) or not log.endswith('out: X1\n'):
        yield 'a failure leaves %d characters, status %d, log %r, files %s' % (
            len(text), status, log, {*os.listdir(folder)} - names)


def see_modules(companion, cvr, folder):
    """A module of a folder that a variable names isn't run."""
    os.mkdir(os.path.join(folder, 'modules'))
    for name in 'signal.py', 'json.py', 'hashlib.py', 'argparse.py':
        with open(os.path.join(folder, 'modules', name), 'w', encoding='utf-8') as file:
            file.write(MODULE)
    log, status = run(companion, cvr, folder, ['records', 'definition.json', 'scan.json'],
                      PYTHONPATH=os.path.join(folder, 'modules'))
    if status or os.path.exists(os.path.join(folder, 'run.txt')):
        yield 'modules of others: status %d, log %r' % (status, log)


def long_report(name):
    """A report with long texts: of a snapshot, which has another one in another report, and of ids."""
    report = json.loads(rows.county('corrected.json'))
    note = {'@type': 'CVR.Annotation', 'TimeStamp': '2024-11-06T09:40:00-05:00',
            'AdjudicatorName': [name * 300000], 'Message': [name] * 60000}
    for record in report['CVR']:
        record['CVRSnapshot'][0]['Annotation'] = [note]
    return json.dumps(report)


def see_length(companion, cvr, folder):
    """Files of long texts make no page that is many times as long."""
    length = 0
    for name in 'x', 'y':
        with open(os.path.join(folder, name + '.json'), 'w', encoding='utf-8') as file:
            length += file.write(long_report(name))
    log, status = run(companion, cvr, folder,
                      ['page', 'definition.json', 'x.json', 'y.json', '-o', 'e.html'])
    size = os.path.getsize(os.path.join(folder, 'e.html')) if not status else 0
    if status or size > length:
        yield 'a page of %d bytes of files of %d: status %d, log %r' % (size, length, status, log)


def named_below(name, number):
    """A report with a member of a long name over many numbers, which another number begins."""
    report = json.loads(rows.county('scan.json'))
    report['CVR'][0]['CVRSnapshot'][0]['Annotation'] = [{'@type': 'CVR.Annotation', name: [number] * len(name)}]
    return json.dumps(report)


def see_long_names(companion, cvr, folder):
    """Two texts that differ in many places below a member of a long name are compared in one line."""
    length = 0
    for number in 1, 2:
        with open(os.path.join(folder, '%d.json' % number), 'w', encoding='utf-8') as file:
            length += file.write(named_below('n' * 20000, number))
    words = ['compare', 'definition.json', '--one', '1.json', '--other', '2.json']
    done = subprocess.run([sys.executable, os.path.join(companion, 'cvr-audit'), *words], cwd=folder, env=dict(os.environ, CVR=cvr),
                          stdout=subprocess.PIPE, stderr=subprocess.PIPE, timeout=rows.SECONDS)
    if done.returncode != 1 or not length / 2 < len(done.stdout) < 2 * length:
        yield 'a comparison of %d bytes of files of %d: status %d, log %r' % (len(done.stdout), length, done.returncode, done.stderr)


def see_programs(companion, cvr, folder):
    """A run writes over none of the programs that it runs."""
    for name, more in ('second', ['--second', './second']), ('first', []):
        path = os.path.join(folder, name)
        with open(path, 'w') as file:
            file.write('#!/bin/sh\nexec "$REAL" "$@"\n')
        os.chmod(path, 0o755)
        log, status = run(companion, cvr if more else './first', folder, ['page', 'definition.json', 'scan.json', *more, '-o', name], REAL=cvr)
        with open(path) as file:
            if (status, log) != (2, "cvr-audit: %s: it is read, so it can't be written\n" % name) or not file.read().startswith('#!'):
                yield 'a program %s that is written over: status %d, log %r' % (name, status, log)


SEEN = see_modes, see_failure, see_modules, see_length, see_long_names, see_programs


def differences(companion, cvr, see):
    """What is wrong with one of these, as lines."""
    with tempfile.TemporaryDirectory() as folder:
        rows.lay(folder, {})
        return list(see(companion, cvr, folder))
