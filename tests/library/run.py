#!/usr/bin/env python3
"""run.py [--dist] [--tenth WORD]

Tries the library for Linux that tools/targets makes, or with --dist that of the release (dist_files.py), whose shared
form is linked then: calls.c and offices.c, which call it from C; the package for Python (package.py), also as a wheel
(wheel.py), and with slips (slips.py), each of which has to be found; its types, by `mypy`, and its columns, by pandas,
where these are; that for JavaScript in the same ways (package.mjs, types.mts), where Node is, over the module that
tools/targets makes or the release has; the commands in docs/LIBRARY.md, which show an example in each language; and the
rows of tests/rows, through the packages (package_rows.py) and through driver.c, which is the command line of the program
over the library. With --tenth it tries a tenth of the rows and slips. Rows that driver.c can't answer as the program does
stand in elsewhere.txt, each with the reason: one that is answered rightly all the same is wrong, and so is one that is no
row.

Without a C compiler, `cc`, it only tries the packages. The last line is `library: N right, M wrong`; the status
is 0 only where M is 0."""
import argparse
import os
import re
import shutil
import subprocess
import sys
import tempfile
from functools import partial

sys.dont_write_bytecode = True
HERE = os.path.dirname(os.path.abspath(__file__))
TOP = os.path.dirname(os.path.dirname(HERE))
sys.path.insert(0, os.path.join(TOP, 'tests'))
import commands     # noqa: E402
import dist_files   # noqa: E402
import slips        # noqa: E402 (it stands beside this file)
import tenth        # noqa: E402
import trials       # noqa: E402 (the others stand there)

FLAGS = ['cc', '-std=c11', '-O1', '-Wall', '-Wextra', '-Werror', '-pthread']
NODE = ['node', '--expose-gc', HERE + '/package.mjs']
PYTHONS = sys.executable, '/usr/bin/python3'        # which may have pandas
FRAMES = '''
import pandas, cvr
rows = cvr.tally('definition.json', ['scan.json', 'adjudicated.json'])
table, votes = pandas.DataFrame(cvr.columns(rows)), pandas.DataFrame(cvr.vote_columns(rows))
assert len(table) == len(rows) and table.ballots.sum() == sum(it.ballots for it in rows) > 0
assert table[table.batch == 'batch-1'].ballots.tolist() == [it.ballots for it in rows if it.batch == 'batch-1'] != []
assert votes.groupby('selection').votes.sum()['parks-yes'] == sum(it.votes.get('parks-yes', 0) for it in rows) > 0
'''


def complete(library):
    """Puts beside the shared library of the release what tools/library does: as libcvr.a what the linker reads as its name."""
    os.environ['LD_LIBRARY_PATH'] = library
    shutil.copy(os.path.join(TOP, 'library/cvr.h'), library)
    os.symlink('libcvr.so', library + '/libcvr.so.1')       # by its SONAME
    with open(os.path.join(library, 'libcvr.a'), 'w') as file:
        file.write('INPUT(%s/libcvr.so)\n' % library)


def examples_fault(folder, library, module):
    """What is wrong with the commands in docs/LIBRARY.md, run where they find the examples, the packages and the library; the
    module is the release's where none is given."""
    copy = os.path.join(folder, 'copy')
    script(copy, 'dist', module or TOP + '/dist/cvr.wasm')
    for name in 'examples', 'python':
        shutil.copytree(os.path.join(TOP, name), os.path.join(copy, name))
    shutil.copytree(library, os.path.join(copy, 'out/library'))
    right, wrong = commands.try_all('docs/LIBRARY.md', '', copy)
    return None if right and not wrong else '%d commands in docs/LIBRARY.md are wrong' % wrong


def silent_fault(command, **more):
    """What a command prints whose status isn't 0, or None."""
    status, told = trials.printed(command, **more)
    return told or 'status %d' % status if status else None


def slip_fault(way, path, command, env=None):
    """What is wrong with a slip of a package in the file at a path, which a command has to find, or None."""
    with open(path, encoding='utf-8') as file:
        text = file.read()
    if text.count(way.old) != 1:
        return 'the slip %s stands %d times, not once' % (way.name, text.count(way.old))
    with open(path, 'w', encoding='utf-8') as file:
        file.write(text.replace(way.old, way.new))
    status, told = trials.printed(command, env=env)
    return None if status == 1 and re.search(r'\n\w+: \d+ right, [1-9]\d* wrong\n$', told) else 'the slip %s is not found: %s' % (way.name, told)


def python_slip_fault(way, folder, env):
    copy = shutil.copytree(os.path.join(TOP, 'python'), os.path.join(folder, way.name))
    return slip_fault(way, os.path.join(copy, 'cvr', way.file), [sys.executable, HERE + '/package.py', copy], env)


def script(folder, name, module):
    """The path of a copy of the package for JavaScript in a new folder, with the module."""
    own = shutil.copytree(os.path.join(TOP, 'javascript'), os.path.join(folder, name))
    shutil.copy(module, own)
    return os.path.join(own, 'cvr.mjs')


def script_slip_fault(way, folder, module):
    own = script(folder, 'script-' + way.name, module)
    return slip_fault(way, own, [*NODE, own])


def types_fault(folder, module):
    """What is wrong with the types of the package for JavaScript, or None."""
    own = os.path.dirname(script(folder, 'types', module))
    shutil.copy(HERE + '/types.mts', own)
    return silent_fault([*'tsc --strict --noEmit --target es2022 --module node16 --moduleResolution node16'.split(), own + '/types.mts'])


def script_trials(folder, module, word):
    """Yields those of the package for JavaScript, over a module."""
    if not module or not shutil.which('node'):
        tenth.leave_out('the package for JavaScript', 'there is no %s' % ('node' if module else 'module'))
        return
    own = script(folder, 'script', module)
    yield partial(trials.told_fault, 'javascript', [*NODE, own])
    yield partial(trials.told_fault, 'javascript rows', [sys.executable, HERE + '/package_rows.py', '--node', own, word])
    for way in tenth.chosen(word, slips.SCRIPT, lambda it: it.name):
        yield partial(script_slip_fault, way, folder, module)
    if shutil.which('tsc'):
        yield partial(types_fault, folder, module)
    else:
        tenth.leave_out('the types of the package for JavaScript', 'there is no tsc')


def package_trials(folder, shared, word):
    """Yields those of the package for Python, over a library."""
    env = dict(os.environ, LIBCVR=shared, PYTHONPATH=TOP + '/python', PYTHONDONTWRITEBYTECODE='1')
    yield partial(trials.told_fault, 'python', [sys.executable, HERE + '/package.py'], env=env)
    yield partial(trials.told_fault, 'python rows', [sys.executable, HERE + '/package_rows.py', word], env=env)
    for way in tenth.chosen(word, slips.WAYS, lambda it: it.name):
        yield partial(python_slip_fault, way, folder, env)
    if shutil.which('mypy'):
        yield partial(silent_fault, ['mypy', '--strict', '--cache-dir=' + os.devnull, TOP + '/python/cvr'])
    else:
        tenth.leave_out('the types of the package for Python', 'there is no mypy')
    python = next((it for it in PYTHONS if shutil.which(it) and not subprocess.call([it, '-c', 'import pandas'], stderr=subprocess.DEVNULL)), None)
    if python:
        yield partial(silent_fault, [python, '-c', FRAMES], env=env)
    else:
        tenth.leave_out('columns of the package for Python', 'there is no pandas')


def all_trials(folder, library, module, word):
    """Yields the trials of the library in a folder, and of a module."""
    shared = os.path.join(library, 'libcvr.so')
    yield from package_trials(folder, shared, word)
    yield from script_trials(folder, module, word)
    if not shutil.which('cc'):
        tenth.leave_out('calls of the library from C, and its wheel', 'there is no C compiler, cc')
        return
    if shutil.which('g++'):
        yield partial(silent_fault, ['g++', '-std=c++17', '-Wall', '-Wextra', '-pedantic', '-Werror', '-fsyntax-only', '-x', 'c++', TOP + '/library/cvr.h'])
    else:
        tenth.leave_out('the header in C++', 'there is no g++')
    yield partial(trials.told_fault, 'wheel', [sys.executable, HERE + '/wheel.py', shared])
    yield partial(examples_fault, folder, library, module)
    yield from trials.call_trials(FLAGS, folder, library + '/libcvr.a', trials.listed_in(trials.CALLED), word)


def main():
    words = argparse.ArgumentParser()
    words.add_argument('--dist', action='store_true', help='try the library of the release')
    words.add_argument('--tenth', default='', metavar='WORD', help='try a tenth of the rows, by a hash of this word')
    words, found = words.parse_args(), []
    sys.stdout.reconfigure(errors='backslashreplace')       # a word of a row may be invalid UTF-8
    with tempfile.TemporaryDirectory() as folder:
        shared = dist_files.taken('linux-x86_64/libcvr.so', words.dist, folder)
        if shared:
            if words.dist:
                complete(os.path.dirname(shared))
            module = dist_files.taken('wasm/cvr.wasm', words.dist, folder)
            found = trials.outcomes(all_trials(folder, os.path.dirname(shared), module, words.tenth))
        else:
            tenth.leave_out('library', dist_files.LACKS if words.dist else 'it is not made')
    for line in found:
        if line:
            print('WRONG: ' + line)
    print('library: %d right, %d wrong' % (found.count(None), len(found) - found.count(None)))
    sys.exit(1 if set(found) - {None} else 0)


if __name__ == '__main__':
    main()
