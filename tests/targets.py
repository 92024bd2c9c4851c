#!/usr/bin/env python3
"""targets.py [--only NAME] [--dist] [--tenth WORD]

Makes the program for other systems with tools/targets, and runs every row of tests/rows with each, with --tenth a tenth of
them: ARM's under qemu-user, Windows' under Wine, with a server that stays. Output, log and status have to be the same
bytes as the row states. The rows that a system can't run, such as those with names that Windows forbids, stand by their
names and reasons in tests/targets/windows.txt; one that differs and doesn't stand there is wrong, and so is one that
stands there and doesn't differ. Each also reads random files (tests/rows/random_files.py), and is tried on what no row
has: standard input and a closed pipe, and on Windows also paths, and what tools/system.c says of open files
(targets/looks.c). None needs a library of the system but those in NEEDED. Before that, small texts show what
tools/targets changes in LLVM's text, and what it refuses.

On a busy machine Wine gives a wrong answer once in some thousand runs, also to a few lines of C (tests/rows/README.md says
more). So under Wine a trial that differs is tried once more, alone. How many are right only then is printed, with what
differed at first; where more than SECOND differ, none is tried again, and all are wrong.

The module of WebAssembly runs in Node; targets/wasm.py has what is tried of it besides.

Where a target has the library, it is tried, too: that of Linux by tests/library/run.py; that of Windows by its driver.c,
through which the rows go, and by calls.c and offices.c.

Of a target that passes whole, out/targets/NAME/tried has the sum of the program, and tried_library that of the library, so
that tools/package packs them. With --dist nothing is made: the programs, Windows' library and the module are those of the
release (dist_files.py), whose needs and whose library for Linux aren't tried. A target whose tools, qemu or Wine are missing is left out,
and that is said.

The last line is `targets: N right, M wrong`; the status is 0 only where M is 0 and N is not."""
import argparse
import contextlib
import hashlib
import os
import re
import runpy
import select
import shlex
import shutil
import subprocess
import sys
import tempfile
from functools import partial

sys.dont_write_bytecode = True
HERE = os.path.dirname(os.path.abspath(__file__))
TOP = os.path.dirname(HERE)
sys.path.insert(0, os.path.join(HERE, 'targets'))
import dist_files   # noqa: E402
import tenth        # noqa: E402
import trials       # noqa: E402 (these stand beside this file)
import wasm         # noqa: E402 (it stands in tests/targets)
from trials import rows     # noqa: E402

TOOL = runpy.run_path(os.path.join(TOP, 'tools/targets'))
ROUNDS = '3'        # of random files for each target; one of them with --tenth
SECOND = 5          # so many trials under Wine may differ at first
SECONDS = 300       # of one run of a program
WINE, SERVER = '/usr/lib/wine/wine64', '/usr/lib/wine/wineserver64'
# The libraries that each needs.
NEEDED = {'cvr': set(), 'cvr.exe': {'KERNEL32.dll', 'msvcrt.dll', 'SHELL32.dll'}, 'cvr.dll': {'KERNEL32.dll', 'msvcrt.dll'}}
COMPILED = ['x86_64-w64-mingw32-gcc', '-std=c11', '-O1', '-Wall', '-Wextra', '-Werror', '-static', '-pthread']


class Target:
    """A target: the words that run its program, the packages of Debian that have them, and the file of the rows that it
    can't run."""

    def __init__(self, name, before=(), packages='', listed=None):
        self.name, self.before, self.packages, self.is_windows = name, list(before), packages, name.startswith('windows')
        self.is_wasm, self.listed = name == 'wasm', trials.listed_in(listed) if listed else {}

    def take(self, is_dist, folder):
        """Takes what the release has of it, or has it made. Answers why it can't be run, or None."""
        self.path, self.library = (it and dist_files.taken('%s/%s' % (self.name, it), is_dist, folder) for it in TOOL['FILES'][self.name])
        missing = [it for it in self.before if not shutil.which(it)]
        if missing:
            return 'there is no %s. On Debian: apt-get install %s' % (missing[0], self.packages)
        return None if self.path else 'it is not made'

    def script(self, folder, program):
        """A command that runs a program for the target, as a file."""
        path = os.path.join(folder, os.path.basename(program) + '.sh')
        with open(path, 'w') as file:
            file.write('#!/bin/sh\nexec %s "$@"\n' % shlex.join(self.before + [program]))
        os.chmod(path, 0o755)
        return path


# ---- how tools/targets changes LLVM's text

BEFORE = r"""target datalayout = "e-m:e-p270:32:32-p271:32:32-p272:64:64-i64:64-i128:128-f80:128-n8:16:32:64-S128"
target triple = "x86_64-unknown-linux-gnu"
@static.0 = private constant [7 x i8] c"@read(\22", align 1
define i32 @main() #0 {
  %r0 = call { i64, i64 } @rattle_alloc(i64 8, i64 8)
  %r1 = call i64 @write(i32 1, ptr @static.0, i64 7)
  %r2 = call i64 @__write(i32 2, ptr @static.0, i64 7)
  %r3 = call i32 (ptr, i32, ...) @open(ptr @static.0, i32 524544)
  ret i32 0
}
declare { i64, i64 } @rattle_alloc(i64 noundef, i64 noundef) #1
declare i64 @write(i32, ptr, i64) #1
declare i64 @__write(i32, ptr, i64) #1
declare i32 @open(ptr, i32, ...) #1
declare void @llvm.trap() #1
attributes #0 = { nounwind "probe-stack"="inline-asm" "stack-probe-size"="3072" "target-cpu"="x86-64-v2" }
attributes #1 = { nobuiltin nounwind }
"""
AFTER = r"""target datalayout = "e-m:w-p270:32:32-p271:32:32-p272:64:64-i64:64-i128:128-f80:128-n8:16:32:64-S128"
target triple = "x86_64-w64-windows-gnu"
@static.0 = private constant [7 x i8] c"@read(\22", align 1
define i32 @cvr_main() #0 {
  %r0 = call x86_64_sysvcc { i64, i64 } @rattle_alloc(i64 8, i64 8)
  %r1 = call i64 @cvr_write(i32 1, ptr @static.0, i64 7)
  %r2 = call i64 @cvr_write(i32 2, ptr @static.0, i64 7)
  %r3 = call i32 (ptr, i32, ...) @cvr_open(ptr @static.0, i32 524544)
  ret i32 0
}
declare x86_64_sysvcc { i64, i64 } @rattle_alloc(i64 noundef, i64 noundef) #1
declare i64 @cvr_write(i32, ptr, i64) #1
declare i32 @cvr_open(ptr, i32, ...) #1
declare void @llvm.trap() #1
attributes #0 = { nounwind "target-cpu"="x86-64-v2" }
attributes #1 = { nobuiltin nounwind }
"""
# What isn't known: another function or intrinsic, layout, system, word in an attribute, kind of variable.
ODD = [('@llvm.trap()', '@getenv(ptr)'), ('@llvm.trap()', '@llvm.frameaddress.p0(i32)'), ('e-m:e-', 'E-m:e-'), ('-unknown-linux-gnu', '-pc-solaris'),
       ('"target-cpu"', '"patchable-function"'), ('private constant', 'thread_local constant'), ('nobuiltin', 'nobuiltin "stackrealign"')]


def text_faults():
    """Yields a line for each text that tools/targets changes wrongly, or doesn't refuse, and None for each other."""
    changed, _ = TOOL['retargeted'](BEFORE, TOOL['FOR_WINDOWS'])
    yield None if changed == AFTER else 'tools/targets changes its text to %s' % changed
    for old, new in ODD:
        try:
            TOOL['retargeted'](BEFORE.replace(old, new), TOOL['FOR_WINDOWS'])
            yield 'tools/targets takes a text with %s' % new
        except TOOL['Stopped']:
            yield None
    yield from wasm.text_faults(TOOL)


def second_faults():
    """Yields a line where trials that differ, once or twice, aren't counted as they should be, and None for each other."""
    for differing, second, wrong in (1, None, 0), (1, 'differs', 1), (SECOND, None, 0), (SECOND + 1, None, SECOND + 1):
        found = [None] + ['differs'] * differing
        tried_again([lambda: 'a right one'] + [lambda: second] * differing, found)
        counted = len(found) - found.count(None)
        yield None if counted == wrong else '%d trials differ, then %s: %d count as wrong' % (differing, second, counted)


# ---- what no row has

def whole(words, out='', err='', status=0, files=None, folders=()):
    row = rows.whole_row(' '.join(words)[:60], words, files or {}, out, err, status)
    return dict(row, folders=list(folders))


LONG = ['a' * 120, 'b' * 120, 'c' * 120]     # folders, one in the other
VECTOR = {'of': 'f2.json'}
# Of Windows: backslashes, names beyond ASCII, a path longer than MAX_PATH, a device, a word that isn't UTF-16.
PATHS = [
    whole(['check', 'def.json', 'sub\\other.json', '.\\sub/other.json'], out='sub\\other.json 1\n.\\sub/other.json 1\n',
          files={'sub/other.json': VECTOR}, folders=['sub']),
    whole(['check', 'def.json', 'W\u00e4hler \u7968 \U0001f5f3.json'], out='W\u00e4hler \u7968 \U0001f5f3.json 1\n',
          files={'W\u00e4hler \u7968 \U0001f5f3.json': VECTOR}),
    whole(['check', 'def.json', '\\'.join(LONG + ['other.json'])], out='\\'.join(LONG + ['other.json 1\n']),
          files={'/'.join(LONG + ['other.json']): VECTOR}, folders=['/'.join(LONG)]),
    whole(['check', 'def.json', 'NUL'], err='NUL: E2\n', status=1),
    whole(['check', 'def.json', 'sub'], err='sub: K1\n', status=3, folders=['sub']),
    whole(['check', 'def.json', 'none\\other.json'], err='none\\other.json: K1\n', status=3),
]
# What stands behind a text shows whether standard input comes unchanged: `\x1a` ends it where it isn't read as bytes.
INPUTS = [(b'', 0, b'/dev/stdin 1\n', b''), (b'\r\n', 0, b'/dev/stdin 1\n', b''), (b'\x1a', 1, b'', b'/dev/stdin: E2\n')]


def own_trials(target, cvr, folder, is_dist):
    """Yields the trials of what no row has."""
    for row in PATHS if target.is_windows else []:
        yield partial(trials.row_fault, cvr, row, {})
    for name in 'def.json', 'f2.json':
        with open(os.path.join(folder, name), 'wb') as file:
            file.write(rows.VECTORS[name])
    for given in INPUTS:
        yield partial(input_fault, cvr, folder, *given)
    if not target.is_wasm:      # a closed pipe ends the driver, which isn't the program; serve.mjs sees what is imported
        yield partial(pipe_fault, cvr, folder)
        yield from [] if is_dist else [partial(needed_fault, target.path)]


def input_fault(cvr, folder, more, *wanted):
    """What is wrong where a file and more bytes come on standard input, or None."""
    got = subprocess.run([cvr, 'check', 'def.json', '/dev/stdin'], cwd=folder, input=rows.VECTORS['f2.json'] + more,
                         stdout=subprocess.PIPE, stderr=subprocess.PIPE, timeout=SECONDS)
    return None if (got.returncode, got.stdout, got.stderr) == wanted else 'standard input with %r: %r' % (more, got)


def looks_fault(target, folder):
    """What is wrong with what tools/system.c says of a file and of a pipe, as looks.c prints it, or None."""
    looks, path = os.path.join(folder, 'looks.exe'), os.path.join(folder, 'f2.json')
    trials.compiled(COMPILED, looks, 'targets/looks.c', '../tools/system.c', libraries=['-lshell32'])
    os.utime(path, ns=(0, 1234567890123456700))
    got = trials.printed([target.script(folder, looks)], cwd=folder, stdin=None, input='')[1].split('\n')
    wanted = ['8000 %d 12345678901234567' % os.path.getsize(path), 'no file', '']
    return None if [it.rstrip() for it in got] == wanted else 'looks.c: %r, expected %r' % (got, wanted)


def pipe_fault(cvr, folder):
    """What is wrong where standard output is a closed pipe, or None."""
    (reader, writer), closed = os.pipe(), select.poll()
    os.close(reader)
    closed.register(writer, 0)
    closed.poll(1000 * SECONDS)     # until no process that is just being started has the other end, either
    got = subprocess.run([cvr, 'check', 'def.json', 'f2.json'], cwd=folder, stdin=subprocess.DEVNULL, stdout=writer, stderr=subprocess.PIPE,
                         timeout=SECONDS)
    os.close(writer)
    return None if (got.returncode, got.stderr) == (3, b'out: X1\n') else 'a closed pipe: %r' % got


def needed_fault(path):
    """What is wrong with the libraries that a program or a library needs, or None. A static program also has no loader."""
    is_elf = '.' not in os.path.basename(path)
    words, form = (['readelf', '-dl'], r'(NEEDED.*|INTERP)') if is_elf else (['x86_64-w64-mingw32-objdump', '-p'], r'DLL Name: (\S+)')
    found = set(re.findall(form, trials.printed([*words, path])[1]))
    return None if found == NEEDED[os.path.basename(path)] else '%s needs %s' % (path, found)


# ---- the library of a target

def library_trials(target, folder, words):
    """Yields the trials of a target's library, if it has one."""
    if target.is_wasm:
        yield from wasm.trials(target.path, folder)
    elif target.is_windows and not shutil.which(COMPILED[0]):
        tenth.leave_out('calls of cvr.dll, and looks.c', 'there is no ' + COMPILED[0])
    elif target.is_windows:
        yield partial(looks_fault, target, folder)
        yield from dll_trials(target, folder, words)
    elif target.library and not words.dist:
        yield partial(trials.told_fault, 'library', [sys.executable, HERE + '/library/run.py', '--tenth', words.tenth])


def dll_trials(target, folder, words):
    """Yields those of a DLL, called by programs that stand beside it, and of its wheel. The driver has the words in the letters
    of Windows' own code page, so a row with others is left out."""
    room = os.path.join(folder, 'dll')
    os.mkdir(room)
    shutil.copy(target.library, room)
    yield from [] if words.dist else [partial(needed_fault, target.library)]
    yield partial(trials.told_fault, 'wheel', [sys.executable, HERE + '/library/wheel.py', target.library])
    is_odd = lambda row: row['name'] in target.listed or not str((row['words'], list(row.get('files', ())))).isascii()
    yield from trials.call_trials(COMPILED, room, target.library, {}, words.tenth, partial(target.script, room), is_odd)


# ---- all trials of a target

@contextlib.contextmanager
def wine(folder):
    """Has Wine keep its own files in the folder, and one server for all calls."""
    os.environ.update(WINEPREFIX=folder + '/wine', WINEDEBUG='-all', WINEDLLOVERRIDES='mscoree,mshtml=', WINEARCH='win64')
    os.environ.pop('DISPLAY', None)
    quiet = {'stdin': subprocess.DEVNULL, 'stdout': subprocess.DEVNULL, 'stderr': subprocess.DEVNULL}
    os.mkdir(os.environ['WINEPREFIX'])
    server = subprocess.Popen([SERVER, '-f', '-p'], **quiet)
    try:
        subprocess.run([WINE, 'wineboot', '-i'], **quiet, timeout=SECONDS)      # what it says for once, it says here
        yield
    finally:
        if server.poll() is not None:
            print('  the server of Wine has ended meanwhile, with status %d' % server.returncode)
        subprocess.run([SERVER, '-k'], **quiet, timeout=SECONDS)
        server.kill()
        server.wait()


def server(target, folder):
    """What runs beside the trials of a target."""
    if target.is_wasm:
        return wasm.serving(target.path, folder)
    return wine(folder) if target.is_windows else contextlib.nullcontext()


def tried(target, words):
    """(right, wrong) of a target that is made."""
    with tempfile.TemporaryDirectory() as folder, server(target, folder):
        cvr = wasm.driver(folder) if target.is_wasm else target.script(folder, target.path)
        every = [*own_trials(target, cvr, folder, words.dist), *library_trials(target, folder, words),
                 *trials.row_trials(cvr, target.listed, words.tenth)]
        random_files = [sys.executable, HERE + '/rows/random_files.py', '--cvr', cvr, '--rounds', ROUNDS, '--tenth', words.tenth]
        every.append(partial(trials.told_fault, 'files', random_files))
        found = trials.outcomes(every)
        at_first = tried_again(every, found) if target.is_windows else []
    for line in at_first:
        print('  right at the second try: ' + line[:300])
    for line in found:
        if line:
            print('WRONG %s: %s' % (target.name, line))
    right, wrong = found.count(None), len(found) - found.count(None)
    print('%s: %d right, %d of them at the second try; %d wrong' % (target.name, right, len(at_first), wrong), flush=True)
    return right, wrong


def tried_again(every, found):
    """Tries the few that differ once more, one by one, and notes what is found then. Answers what differed at first of
    those that are right then."""
    again = [(number, fault) for number, fault in enumerate(found) if fault]
    for number, _ in again if len(again) <= SECOND else []:
        found[number] = trials.outcome(every[number])
    return [fault for number, fault in again if found[number] is None]


def note(target, is_right):
    """Notes for tools/package that the program and the library passed, or that they didn't."""
    for name, path in ('tried', target.path), ('tried_library', target.library):
        noted = os.path.join(os.path.dirname(target.path), name)
        if os.path.exists(noted):
            os.remove(noted)
        if is_right and path:
            with open(path, 'rb') as file, open(noted, 'w') as out:
                out.write(hashlib.sha256(file.read()).hexdigest() + '\n')


TARGETS = [
    Target('linux-x86_64'),
    Target('windows-x86_64', [WINE], 'wine64', 'targets/windows.txt'),
    Target('linux-aarch64', ['qemu-aarch64-static'], 'qemu-user-static'),
    Target('wasm', ['node', 'gcc'], 'nodejs gcc', trials.CALLED),
]


def outcome(target, words):
    """(right, wrong) of a target, which is left out where something is missing."""
    with tempfile.TemporaryDirectory() as folder:
        try:
            lacking = target.take(words.dist, folder)
            if lacking:
                tenth.leave_out(target.name, lacking)
                return 0, 0
            right, wrong = tried(target, words)
        except trials.FAULTS as fault:
            print('WRONG %s: %s: %s' % (target.name, type(fault).__name__, fault))
            return 0, 1
        if not (words.dist or words.tenth):
            note(target, not wrong)
        return right, wrong


def main():
    words = argparse.ArgumentParser()
    words.add_argument('--only', help='the name of a target')
    words.add_argument('--dist', action='store_true', help='try the programs of the release')
    words.add_argument('--tenth', default='', metavar='WORD', help='try a tenth of the rows, by a hash of this word')
    words = words.parse_args()
    sys.stdout.reconfigure(errors='backslashreplace')       # a word of a row may be invalid UTF-8
    faults = [*text_faults(), *second_faults()]
    for line in faults:
        if line:
            print('WRONG ' + line)
    found = [(faults.count(None), len(faults) - faults.count(None))]
    if words.dist and not dist_files.is_of_these():
        tenth.leave_out('programs for other systems', dist_files.LACKS)
    else:
        found += [outcome(it, words) for it in TARGETS if words.only in (None, it.name)]
    right, wrong = map(sum, zip(*found))
    print('targets: %d right, %d wrong' % (right, wrong))
    sys.exit(0 if right and not wrong else 1)


if __name__ == '__main__':
    main()
