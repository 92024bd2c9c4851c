#!/usr/bin/env python3
"""build.py

How `./cvr` builds the program where there is none of the sources as they are: what it has `rt ci` prove, what it reports,
when it builds nothing, and what a build leaves that fails or is stopped. Each run is in a false repository of small
crates, with the `cvr` and `tools` of this one and a false `rt` first on the PATH. That takes as long as a crate's source
says, and notes where it ran and which crates it was given. A crate that a signal or another call has to meet takes
seconds, so that a busy machine doesn't change what happens. Signals have their defaults in each run, also where this
ignores them, as in the background of a shell. The last line is `build: N right, M wrong`; the status is 0 only where M is
0 and N is not."""
import os
import re
import shutil
import signal
import subprocess
import sys
import tempfile
import time

TOP = os.path.dirname(os.path.dirname(os.path.abspath(__file__)))
SECONDS = 60
CRATES = {'low': '', 'left': 'low', 'right': 'low json', 'top': 'left right', 'cvr': 'low top', 'beside': 'low'}
NEEDED = ['cvr', 'left', 'low', 'right', 'top']
RT = r'''#!%(python)s
import os, sys, time
if sys.argv[1:] == ['version']:
    print(%(kit)r)
    sys.exit()
with open(%(log)r, 'a') as file:
    files = sorted(os.path.relpath(os.path.join(at, it)) for at, _, names in os.walk('.') for it in names)
    file.write('%%s\n' %% [sys.argv[1:], os.getpid(), os.getcwd(), files])
for name in [line.split(':')[0] for line in open('crates.txt')]:
    text = open('crates/%%s/src/lib.rt' %% name).read()
    print('statements of', name, flush=True)
    time.sleep(float(text.split()[1]))
    if 'fails' in text:
        print('fn %%s::wrong: not proved' %% name)
        sys.exit(1)
    os.makedirs('crates/%%s/out/rlib/%%s.rlib' %% (name, name))
    with open('crates/%%s/out/rlib/%%s.rlib/format' %% (name, name), 'w') as file:
        file.write(text)
    if name == 'cvr':
        with open('crates/cvr/out/cvr', 'w') as file:
            file.write('#!/bin/sh\n[ "$*" != pipe ] || kill -PIPE $$\nprintf "%%s\\n" "$@"\necho told >&2\nexit 7\n# ' + text)
        os.chmod('crates/cvr/out/cvr', 0o755)
    print('rt: %%s %%s' %% (name, 'is kept: it was proved' if 'kept' in text else 'proved'), flush=True)
'''


def logic():
    with open(TOP + '/README.md', encoding='utf-8') as file:
        return re.search(r'`(logic [0-9a-f]+)`', file.read()).group(1)


def set_signals():
    for it in signal.SIGINT, signal.SIGTERM, signal.SIGHUP:
        signal.signal(it, signal.SIG_DFL)


def write(path, text):
    os.makedirs(os.path.dirname(path), exist_ok=True)
    with open(path, 'w', encoding='utf-8') as file:
        file.write(text)


class Tree:
    """A false repository, and a folder with a false rt."""

    def __init__(self, room):
        self.top, self.bin, self.log, self.temporary = (os.path.join(room, it) for it in ('a tree', 'bin', 'log', 'temporary'))
        os.mkdir(self.temporary)
        for name in 'cvr', 'tools/sum', 'tools/program', 'tools/build', 'README.md':
            os.makedirs(os.path.dirname('%s/%s' % (self.top, name)), exist_ok=True)
            shutil.copy2('%s/%s' % (TOP, name), '%s/%s' % (self.top, name))
        self.write('crates.txt', '# Each crate.\n' + ''.join('%s: %s\n' % it for it in CRATES.items()))
        self.write('HANDLES', 'Handles allowed: none.\n')
        for name in CRATES:
            for path in 'src/lib.rt', 'specs/Lib.antt', 'proofs/Lib.antt', 'wrong/body.edit', 'must-fail/body.edit', 'out/old':
                self.write('crates/%s/%s' % (name, path), 'seconds 0.1\n')
        self.rt('kit-a ' + logic())

    def write(self, path, text):
        write('%s/%s' % (self.top, path), text)

    def rt(self, line):
        """A false rt, whose kit this line names."""
        write(self.bin + '/rt', RT % {'python': sys.executable, 'kit': line, 'log': self.log})
        os.chmod(self.bin + '/rt', 0o755)

    def begin(self, *words, cvr=None, rt=True):
        path = (self.bin + ':' if rt else '') + os.path.dirname(sys.executable) + ':/usr/bin:/bin'
        return subprocess.Popen([cvr or self.top + '/cvr', *words], stdin=subprocess.DEVNULL, stdout=subprocess.PIPE, stderr=subprocess.PIPE,
                                text=True, cwd='/', env={'PATH': path, 'TMPDIR': self.temporary}, start_new_session=True, preexec_fn=set_signals)

    def run(self, *words, **how):
        """(status, standard output, standard error) of a call."""
        with open(self.log, 'w'):
            pass
        process = self.begin(*words, **how)
        output, told = process.communicate(timeout=SECONDS)
        return process.returncode, output, told

    def noted(self):
        """Of each run of `rt ci` its words, its process, its folder and the files there."""
        with open(self.log) as file:
            return [eval(line) for line in file]

    def waits(self):
        """Waits until `rt ci` runs, and answers its process."""
        end = time.time() + SECONDS
        while not self.noted() and time.time() < end:
            time.sleep(0.05)
        return self.noted()[0][1]

    def files(self):
        """All files and folders, with their times."""
        return sorted((path, os.lstat(path).st_mtime_ns) for at, _, names in os.walk(self.top) for path in [at, *('%s/%s' % (at, it) for it in names)])


# ---- the runs: each yields what is tried, and whether it is right

def builds_what_it_needs(tree):
    tree.write('crates/left/src/lib.rt', 'seconds 0 kept\n')
    status, output, told = tree.run('tally', 'a b')
    lines = re.findall(r'^cvr: (\w+): (proved|proved before); (\d) of 5 crates, 0:\d\d gone$', told, re.M)
    yield 'the program is run with the words, and its status and output are its own', (status, output) == (7, 'tally\na b\n')
    yield 'a line for each crate', sorted(it[0] for it in lines) == NEEDED and [it[2] for it in lines] == list('12345')
    yield 'one that was proved before', [it[0] for it in lines if it[1] != 'proved'] == ['left']
    yield 'nothing else is printed', len(told.splitlines()) == 7 and told.endswith('\ntold\n')
    (words, _, folder, files), = tree.noted()
    wanted = ['HANDLES', 'crates.txt', *('crates/%s/%s' % (it, path) for it in NEEDED for path in ('proofs/Lib.antt', 'specs/Lib.antt', 'src/lib.rt'))]
    yield 'rt ci proves these crates alone, outside of the checkout', (words, files) == (['ci'], wanted) and folder.startswith(tree.temporary)
    yield 'and nothing is left there', os.listdir(tree.temporary) == []
    rlibs = [it for it in CRATES if os.path.isfile('%s/crates/%s/out/rlib/%s.rlib/format' % (tree.top, it, it))]
    yield 'the libraries stand beside their crates', sorted(rlibs) == ['left', 'low', 'right', 'top']
    yield 'what else stood there stays', all(os.path.exists('%s/crates/%s/out/old' % (tree.top, it)) for it in CRATES)
    yield 'the program, and notes of it', sorted(os.listdir(tree.top + '/out')) == ['built', 'cvr', 'kit', 'lock']
    yield 'a broken pipe ends the program', tree.run('pipe')[0] == -signal.SIGPIPE


def builds_nothing_twice(tree):
    tree.run()
    before = tree.files()
    yield 'a second call builds and reports nothing, and needs no rt', tree.run('a', rt=False) == (7, 'a\n', 'told\n')
    yield 'nor does it write', tree.files() == before
    for path, _ in before:
        os.utime(path)
    yield 'dates do not matter', tree.run('a', rt=False) == (7, 'a\n', 'told\n')
    os.symlink(tree.top + '/cvr', tree.bin + '/link')
    yield 'through a link', tree.run('a', rt=False, cvr=tree.bin + '/link') == (7, 'a\n', 'told\n')
    tree.write('crates/low/src/lib.rt', 'seconds 0.2\n')
    tree.write('crates/low/src/lib.rt', 'seconds 0.1\n')
    tree.write('README.md', open(tree.top + '/README.md').read() + 'more\n')
    yield 'what is put back, and other files', tree.run('a', rt=False) == (7, 'a\n', 'told\n')
    for name in CRATES:
        shutil.rmtree('%s/crates/%s/out' % (tree.top, name))
    yield 'what `rt ci` takes away', tree.run('a', rt=False) == (7, 'a\n', 'told\n')


def builds_what_changed(tree):
    tree.run()
    for path in 'crates/left/src/lib.rt', 'crates/left/specs/Lib.antt', 'crates/left/proofs/Lib.antt', 'crates.txt', 'HANDLES', 'out/cvr', 'out/built':
        tree.write(path, open('%s/%s' % (tree.top, path)).read() + '#\n')
        yield 'a change of %s' % path, tree.run()[0] == 7 and len(tree.noted()) == 1
        yield '%s as it is then' % path, tree.run(rt=False)[0] == 7
    with open(tree.top + '/crates/left/out/rlib/left.rlib/format') as file:
        yield 'the library of a changed crate', file.read() == 'seconds 0.1\n#\n'
    os.rename(tree.top + '/crates/left/specs/Lib.antt', tree.top + '/crates/left/specs/Other.antt')
    yield 'a new name', tree.run(rt=False)[0] == 69 and tree.run()[0] == 7
    os.remove(tree.top + '/out/cvr')
    yield 'a program that is gone', tree.run(rt=False)[0] == 69 and tree.run()[0] == 7


def needs_a_kit(tree):
    status, output, told = tree.run(rt=False)
    yield 'no rt: one line', (status, output) == (69, '') and 'no rt on the PATH' in told and told.count('\n') == 1
    for line in '', 'rt 4.4.2', logic(), 'kit-a ' + logic() + ' and more', 'kit-a logic none':
        tree.rt(line)
        status, output, told = tree.run()
        yield '`rt version` prints %r' % line, (status, output) == (69, '') and repr(line) in told and told.count('\n') == 1
    yield 'nothing is begun', not tree.noted() and not os.path.exists(tree.top + '/out')


def builds_by_any_kit(tree):
    kit = lambda: open(tree.top + '/out/kit').read()
    status, _, told = tree.run()
    yield 'a kit of the logic that README names', status == 7 and 'logic' not in told and kit() == 'kit-a %s\n' % logic()
    tree.rt('kit-b ' + logic())
    yield 'another letter: what is built stands', tree.run('a') == (7, 'a\n', 'told\n') and kit() == 'kit-a %s\n' % logic()
    tree.write('crates/cvr/src/lib.rt', 'seconds 0\n')
    status, _, told = tree.run()
    yield 'and builds without a word', status == 7 and 'logic' not in told and kit() == 'kit-b %s\n' % logic()
    tree.rt('kit-c logic 0')
    tree.write('crates/cvr/src/lib.rt', 'seconds 0.1\n')
    status, _, told = tree.run()
    said = [line for line in told.splitlines() if 'logic' in line]
    yield 'another logic proves it, and one line says so', status == 7 and len(said) == 1 and logic() in said[0] and 'kit-c logic 0' in said[0]
    yield 'the kit that built it', kit() == 'kit-c logic 0\n'


def tells_what_fails(tree):
    tree.run()
    tree.write('crates/left/src/lib.rt', 'seconds 0 fails\n')
    before = tree.files()
    status, output, told = tree.run()
    yield 'status 70, and the log', (status, output) == (70, '') and 'fn left::wrong: not proved\n' in told and '`rt ci` failed' in told
    yield 'all stays as it was', tree.files() == before and os.listdir(tree.temporary) == []
    tree.write('crates/left/src/lib.rt', 'seconds 0.1\n')
    yield 'the program of these sources', tree.run('a', rt=False) == (7, 'a\n', 'told\n')


def is_stopped(tree):
    tree.write('crates/left/src/lib.rt', 'seconds 30\n')
    for number, to_all in (signal.SIGINT, True), (signal.SIGTERM, False), (signal.SIGHUP, False):
        open(tree.log, 'w').close()
        process = tree.begin()
        proof = tree.waits()
        (os.killpg if to_all else os.kill)(process.pid, number)
        output, told = process.communicate(timeout=SECONDS)
        yield 'signal %d ends it: status %d, %r' % (number, process.returncode, told), (process.returncode, output) == (128 + number, '') and 'stopped' in told
        yield 'and what it began', not os.path.exists('/proc/%d' % proof)
        yield 'nothing half done', os.listdir(tree.top + '/out') == ['lock'] and os.listdir(tree.temporary) == []
    tree.write('crates/left/src/lib.rt', 'seconds 0\n')
    yield 'the next call builds', tree.run()[0] == 7


def two_at_once(tree):
    tree.write('crates/right/src/lib.rt', 'seconds 3\n')
    open(tree.log, 'w').close()
    first = tree.begin('a')
    tree.waits()
    second = tree.begin('b')
    output, told = second.communicate(timeout=SECONDS)
    yield 'the second waits, and runs what the first built', (second.returncode, output) == (7, 'b\n') and 'waiting' in told
    yield 'the first', first.communicate(timeout=SECONDS)[0] == 'a\n' and first.returncode == 7
    yield 'all is built once', len(tree.noted()) == 1


def changes_meanwhile(tree):
    tree.write('crates/right/src/lib.rt', 'seconds 3\n')
    open(tree.log, 'w').close()
    process = tree.begin()
    tree.waits()
    tree.write('crates/beside/src/lib.rt', 'seconds 9\n')
    _, told = process.communicate(timeout=SECONDS)
    yield 'a source that is changed meanwhile', process.returncode == 70 and 'changed' in told and os.listdir(tree.top + '/out') == ['lock']


def keeps_what_rt_built(tree):
    keep = lambda: subprocess.run([tree.top + '/tools/build', 'keep', sources], stderr=subprocess.PIPE, env=dict(os.environ, PATH='%s:%s' % (tree.bin, os.environ['PATH'])))
    sources = subprocess.run([tree.top + '/tools/sum'], stdout=subprocess.PIPE, text=True).stdout.strip()
    tree.write('crates/cvr/out/cvr', '#!/bin/sh\necho kept\n')
    os.chmod(tree.top + '/crates/cvr/out/cvr', 0o755)
    yield 'a program that `rt ci` built at the top', keep().returncode == 0 and tree.run(rt=False) == (0, 'kept\n', '')
    tree.write('HANDLES', 'Handles allowed: Threads.\n')
    yield 'of other sources', keep().returncode == 70 and tree.run(rt=False)[0] == 69


RUNS = [builds_what_it_needs, builds_nothing_twice, builds_what_changed, needs_a_kit, builds_by_any_kit, tells_what_fails, is_stopped,
        two_at_once, changes_meanwhile, keeps_what_rt_built]


def main():
    right = wrong = 0
    for run in RUNS:
        with tempfile.TemporaryDirectory(prefix='build-') as room:
            for what, is_right in run(Tree(room)):
                right, wrong = right + bool(is_right), wrong + (not is_right)
                if not is_right:
                    print('WRONG %s: %s' % (run.__name__, what))
    print('build: %d right, %d wrong' % (right, wrong))
    sys.exit(0 if right and not wrong else 1)


if __name__ == '__main__':
    main()
