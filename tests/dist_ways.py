"""How `./cvr` comes to a program, tried in small trees with a release of stand-ins, without a kit and without Python: it
runs the release's program where that was made of the tree's sources, and says so once; where dist/ is damaged, or of other
sources, or can't be unpacked, it says what is wrong, and builds if it can. Nothing half unpacked is left. `make install` asks
tools/program for the library for C, which comes out of the same release. A module, not a command: tests/dist.py runs it."""
import functools
import glob
import hashlib
import io
import os
import re
import runpy
import shutil
import signal
import subprocess
import sys
import tarfile
import tempfile
import time

import tenth
from dist_files import PAGE, PLACES     # (both stand here)

TOP = os.path.dirname(os.path.dirname(os.path.abspath(__file__)))
TOOL = runpy.run_path(os.path.join(TOP, 'tools/package'))
SUMS, TOLD = TOOL['SUMS'], TOOL['TOLD']
SECONDS = 60     # in which `./cvr` answers


def held(path):
    """The bytes of a file; none where it isn't there."""
    return TOOL['held'](path) if os.path.exists(path) else b''


def sum_of(data):
    return hashlib.sha256(data).hexdigest()


def called(name):
    """What PROVENANCE calls the sum of a file below out/targets."""
    target, file = name.split('/')
    return {'cvr.wasm': 'page-module', 'cvr': target, 'cvr.exe': target}.get(file, 'library-' + target)


def named(archive, version):
    """The name of an archive of a version, as tools/package writes it."""
    return archive.replace('*-', 'cvr-%s-%s' % (version, 'py3-none-' if archive.endswith('.whl') else ''), 1)


# ---- a release of stand-ins

NAMED, PROGRAM = '9.8.7', b'#!/bin/sh\n[ "$*" != --version ] || { echo cvr 9.8.7; exit; }\necho released $# "$@"\nexit 7\n'
RAN = 7, 'released 2 a b c\n'       # with the words that follow
WORDS = 'a b', 'c'


@functools.lru_cache(None)
def page_of(module):
    """A page with this module."""
    with tempfile.TemporaryDirectory() as room:
        TOOL['write'](room + '/module', module)
        subprocess.run([sys.executable, 'tools/html', room + '/module', room + '/page'], cwd=TOP, stdout=subprocess.DEVNULL, check=True)
        return held(room + '/page')


def stand_in(folder, version=NAMED, sources='none', told=None):
    """Makes a release whose files are small texts, and whose PROVENANCE has the sums of these, or others that are `told`."""
    texts = {it: PROGRAM if it.endswith('/cvr') else it.encode() for it in PLACES}
    page = page_of(texts['wasm/cvr.wasm'])
    its = {'version': version, 'sources': sources, 'page': sum_of(page), **{called(name): sum_of(text) for name, text in texts.items()}}
    text = TOOL['provenance']({**its, **(told or {})}).encode()
    archives = {}
    for name, (archive, place) in PLACES.items():
        archives.setdefault(archive, {'cvr-%s/%s' % (version, TOLD): text})[place.replace('*', 'cvr-' + version)] = texts[name]
    os.makedirs(folder)
    for archive, held_in in archives.items():
        pack(os.path.join(folder, named(archive, version).replace('*', '2_14')), held_in)
    for name, data in (PAGE, page), (TOLD, text), ('cvr.wasm', texts['wasm/cvr.wasm']), *((it, it) for it in TOOL['SCRIPTS']):
        TOOL['write'](os.path.join(folder, name), data)
    list_files(folder)
    return folder


def pack(path, texts):
    """Packs texts, and puts beside an archive for Linux what has to stand there."""
    if path.endswith('.tar.gz'):
        with tarfile.open(path, 'w:gz') as file:
            for name, text in texts.items():
                entry = tarfile.TarInfo(name)
                entry.size, entry.mode = len(text), 0o755
                file.addfile(entry, io.BytesIO(text))
        TOOL['write'](path[:-len('.tar.gz')] + '.o', 'an object')
    else:
        TOOL['WHEELS']['zipped'](path, texts)


def list_files(folder):
    """Writes the sums of a folder's files."""
    names = set(os.listdir(folder)) - {SUMS}
    TOOL['write'](os.path.join(folder, SUMS), TOOL['listed']({it: held(os.path.join(folder, it)) for it in names}))


# ---- the ways of `./cvr`

CALLED = 'basename cat chmod cut dirname find grep gzip id mkdir mktemp mv readlink rm sed sha256sum sort tar tr xargs'.split()


class Tree:
    """A small repository with a release of stand-ins, and a folder with the programs that `cvr` calls, without a kit."""

    def __init__(self, room, shell):
        self.top, self.bin, self.temporary = room + '/a tree', room + '/bin', room + '/a folder'
        for path in 'cvr', 'tools/program', 'tools/sum':
            self.write(path, held(os.path.join(TOP, path)).replace(b'#!/bin/sh\n', b'#!%s\n' % shell.encode()), 0o755)
        for path in 'crates.txt', 'HANDLES', 'crates/one/src/lib.rt', 'crates/one/specs/One.antt', 'crates/one/proofs/One.antt':
            self.write(path, path)
        for it in self.bin, self.temporary:
            os.mkdir(it)
        for it in filter(shutil.which, CALLED):
            os.symlink(shutil.which(it), os.path.join(self.bin, it))
        self.tool('uname', '[ "$1" = -s ] && echo Linux || echo x86_64')
        self.release()

    def write(self, path, text, mode=0o644):
        TOOL['write'](os.path.join(self.top, path), text, mode)

    def release(self, **how):
        """Puts a release of the tree's sources in dist/."""
        shutil.rmtree(self.top + '/dist', ignore_errors=True)
        total = subprocess.run([self.top + '/tools/sum'], stdout=subprocess.PIPE, text=True, check=True).stdout.strip()
        self.archive = os.path.join(stand_in(self.top + '/dist', **{'sources': total, **how}), 'cvr-%s-linux-x86_64.tar.gz' % how.get('version', NAMED))

    def tool(self, name, text):
        """Puts another program first on the PATH."""
        path = os.path.join(self.bin, name)
        if os.path.lexists(path):
            os.remove(path)
        TOOL['write'](path, '#!/bin/sh\n' + text, 0o755)

    def begin(self):
        """A call of `cvr`, in a session of its own."""
        env, ends = {'PATH': self.bin, 'TMPDIR': self.temporary}, {'stdin': subprocess.DEVNULL, 'stdout': subprocess.PIPE, 'stderr': subprocess.PIPE}
        return subprocess.Popen([self.top + '/cvr', *WORDS], cwd='/', env=env, text=True, start_new_session=True, preexec_fn=may_be_stopped, **ends)

    def run(self):
        """(status, standard output, standard error) of a call."""
        process = self.begin()
        output, told = process.communicate(timeout=SECONDS)
        return process.returncode, output, told

    def runs(self, version=NAMED):
        """Whether a call runs the release's program, and says so in one line."""
        status, output, told = self.run()
        return (status, output) == RAN and told.startswith('cvr: running release %s of dist/' % version) and told.count('\n') == 1

    def left(self):
        """What stands in the folders for unpacked programs."""
        return sorted(name for it in (self.top + '/out', self.temporary) for _, _, names in os.walk(it) for name in names)


def may_be_stopped():
    for it in signal.SIGINT, signal.SIGHUP:         # which the background of a shell ignores, and nohup
        signal.signal(it, signal.SIG_DFL)


def replace(path, how):
    """Changes the content of a file."""
    TOOL['write'](path, how(held(path)))


def remove_dist(tree):
    shutil.rmtree(tree.top + '/dist')


# What is wrong with a release, and what is said of it; {archive} is its name.
REFUSED = {
    'another byte in the program': (lambda it: pack(it.archive, {'cvr-9.8.7/bin/cvr': PROGRAM + b'#'}), 'dist/{archive} is missing or damaged'),
    'another name in the archive': (lambda it: pack(it.archive, {'cvr/bin/cvr': PROGRAM}), 'dist/{archive} is missing or damaged'),
    'a cut archive': (lambda it: replace(it.archive, lambda data: data[:100]), 'dist/{archive} is missing or damaged'),
    'no archive': (lambda it: os.remove(it.archive), 'dist/{archive} is missing or damaged'),
    'a link to nothing': (lambda it: (os.remove(it.archive), os.symlink('nothing', it.archive)), 'dist/{archive} is missing or damaged'),
    'another sum': (lambda it: it.release(told={'linux-x86_64': '0' * 64}), 'dist/{archive} is missing or damaged'),
    'another processor': (lambda it: it.tool('uname', '[ "$1" = -s ] && echo Linux || echo s390x'), 'has no program of release 9.8.7 for linux-s390x'),
    'other sources': (lambda it: it.write('crates/one/src/lib.rt', 'other'), 'whose program is in dist/{archive}'),
    'other sources, without the archive': (lambda it: (it.write('HANDLES', 'other'), os.remove(it.archive)), ''),
    'an empty PROVENANCE': (lambda it: it.write('dist/PROVENANCE', ''), ''),
    'no dist': (remove_dist, ''),
    'an empty dist': (lambda it: (remove_dist(it), os.mkdir(it.top + '/dist')), ''),
    'no folder to unpack to': (lambda it: (it.write('out', ''), os.rmdir(it.temporary), TOOL['write'](it.temporary, '')), "can't be written to"),
}


def is_refused(tree, said=''):
    """Whether a call runs nothing, and says why in lines of its own; the last one says what building lacks."""
    status, output, told = tree.run()
    lines, is_told = told.splitlines(), told.count(said) == 1 if said else told.count('\n') == 1
    return (status, output) == (69, '') and is_told and len(lines) <= 2 and all(it.startswith('cvr: ') for it in lines) \
        and re.search(r'no python3 on the PATH(: .*)?$', told)


def refuses(tree, how, said):
    how(tree)
    said = said.format(archive=os.path.basename(tree.archive))
    yield 'runs none', is_refused(tree, said)
    yield 'leaves nothing', tree.left() == []
    for name in 'python3', 'rt':
        tree.tool(name, '')
    tree.write('tools/build', '#!/bin/sh\necho built $# "$@"\n', 0o755)
    status, output, _ = tree.run()
    yield 'builds where it can', (status, output) == (0, 'built 3 run a b c\n')


def runs_once(tree):
    yield 'runs, and says so', tree.runs()
    yield 'once', tree.run() == (*RAN, '')
    yield 'leaves the program alone', tree.left() == ['cvr']
    tree.write('out/release/cvr', PROGRAM + b'#', 0o755)
    yield 'runs no program that was changed', tree.runs() and held(tree.top + '/out/release/cvr') == PROGRAM and tree.left() == ['cvr']
    remove_dist(tree)
    yield 'runs none of which dist/ says nothing', is_refused(tree)


def runs_older(tree):
    tree.release(version='9.8.6')
    yield 'runs an older release of the same sources', tree.runs('9.8.6')


def runs_linked(tree):
    shutil.move(tree.archive, tree.bin)
    os.symlink(os.path.join(tree.bin, os.path.basename(tree.archive)), tree.archive)
    yield 'reads an archive through a link', tree.runs()


def runs_elsewhere(tree):
    tree.write('out', 'a file')
    yield 'unpacks to a temporary folder', tree.runs()
    yield 'once', tree.run() == (*RAN, '')
    yield 'leaves the program alone', tree.left() == ['cvr'] and held(tree.top + '/out') == b'a file'


def runs_of_others(tree):
    """A temporary folder in which another user could change the program after it was looked at, or has put a link."""
    tree.write('out', 'a file')
    place = '%s/cvr-%d-%s' % (tree.temporary, os.getuid(), sum_of(PROGRAM))
    TOOL['write'](place + '/cvr', PROGRAM, 0o755)
    yield 'runs a program that stands there', tree.run() == (*RAN, '')
    os.rename(place, place + '-2')
    os.symlink(place + '-2', place)
    yield 'runs none through a link', is_refused(tree, "can't be written to")
    os.remove(place)
    os.rename(place + '-2', place)
    if os.getuid():
        tenth.leave_out('a folder of another user', 'only root can make one')
        return
    os.chown(place, 12345, 12345)
    yield 'runs none in a folder of another user', is_refused(tree, "can't be written to")


def runs_at_once(tree):
    calls = [tree.begin() for _ in range(4)]
    found = [(it.communicate(timeout=SECONDS)[0], it.returncode) for it in calls]
    yield 'runs several at once', found == [RAN[::-1]] * 4 and tree.left() == ['cvr']


def is_stopped(tree):
    tree.tool('tar', 'printf "#!/bin/sh\\n"; exec %s 60' % shutil.which('sleep'))
    for number in signal.SIGINT, signal.SIGTERM, signal.SIGHUP:
        process, end = tree.begin(), time.time() + SECONDS
        while not any(map(held, glob.glob(tree.top + '/out/release/*'))) and time.time() < end:
            time.sleep(0.01)
        begun = tree.left()
        os.killpg(process.pid, number)
        output, _ = process.communicate(timeout=SECONDS)
        yield 'ends by signal %d' % number, (len(begun), process.returncode, output, tree.left()) == (1, 128 + number, '', [])
    tree.tool('tar', 'exec %s "$@"' % shutil.which('tar'))
    yield 'runs then', tree.runs() and tree.left() == ['cvr']


# What an archive has of the library, and its names in the folder that tools/program prints.
LIBRARY = {'include/cvr.h': 'cvr.h', 'lib/libcvr.a': 'libcvr.a', 'lib/libcvr.so.' + NAMED: 'libcvr.so', 'lib/pkgconfig/cvr.pc': 'cvr.pc'}


def library_of(tree):
    """The folder that `tools/program library` prints, the files in it, and how many lines standard error has."""
    env = {'PATH': tree.bin, 'TMPDIR': tree.temporary}
    done = subprocess.run([tree.top + '/tools/program', 'library'], env=env, stdout=subprocess.PIPE, stderr=subprocess.PIPE, text=True, timeout=SECONDS)
    folder = done.stdout[:-1]
    return folder, {it: held(os.path.join(folder, it)).decode() for it in (os.listdir(folder) if folder else ())}, done.stderr.count('\n')


def finds_library(tree):
    for path in 'tools/kit.py', 'tools/library', 'library/cvr.c':
        tree.write(path, path)
    none, held_in = ('', {}, 1), {name: name for name in LIBRARY.values()}
    yield 'no library in a release without one, and nothing left', library_of(tree) == none and tree.left() == []
    pack(tree.archive, {'cvr-%s/%s' % (NAMED, it): LIBRARY[it].encode() for it in LIBRARY})
    yield 'none of an archive with another sum', library_of(tree) == none
    list_files(tree.top + '/dist')
    yield 'the library of the release', library_of(tree) == (tree.top + '/out/release', held_in, 0)
    shutil.rmtree(tree.top + '/out')
    tree.write('out', 'a file')
    yield 'in a temporary folder', library_of(tree) == ('%s/cvr-%d-%s' % (tree.temporary, os.getuid(), sum_of(PROGRAM)), held_in, 0)
    os.remove(tree.top + '/out')
    made = subprocess.run([tree.top + '/tools/sum', 'tools/kit.py', 'library', 'tools/library'], stdout=subprocess.PIPE, text=True, check=True).stdout
    tree.write('out/library/of', made + 'a kit')
    yield 'the one that was made here', library_of(tree) == (tree.top + '/out/library', {'of': made + 'a kit'}, 0)
    tree.write('crates/one/src/lib.rt', 'other')
    yield 'none of other sources', library_of(tree) == none


# Where out/, or the temporary folder, too, is on a disk of another kind.
READ, RUNS_NONE = 'mount --bind "%s" "%s" && mount -o remount,bind,ro "%s" && ', 'mount -t tmpfs -o noexec none "%s" && '
OUT = 'mkdir "$0/out" && '
APART = ['unshare', '-m' if os.getuid() == 0 else '-rm', 'sh', '-c']


def runs_on_disks(tree):
    if subprocess.run([*APART, RUNS_NONE % tree.temporary + ':'], stdout=subprocess.DEVNULL, stderr=subprocess.DEVNULL).returncode:
        tenth.leave_out('disks that can only be read or run no programs', 'mount or unshare is missing or refused')
        return
    temporary = '%s/cvr-%d-%s/cvr' % (tree.temporary, os.getuid(), sum_of(PROGRAM))
    for what, mounts, wanted in (('a disk that can only be read', OUT + READ % (('$0/out',) * 3), (*RAN, temporary)),
                                 ('a disk that runs no programs', OUT + RUNS_NONE % '$0/out', (*RAN, temporary)),
                                 ('two of these', OUT + RUNS_NONE % '$0/out' + RUNS_NONE % '$TMPDIR', (69, '', ''))):
        script = mounts + 'PATH=$BIN "$0/cvr" "a b" c; status=$?; find "$0/out" "$TMPDIR" -type f; exit $status'
        env = dict(os.environ, BIN=tree.bin, TMPDIR=tree.temporary)
        done = subprocess.run([*APART, script, tree.top], env=env, stdout=subprocess.PIPE, stderr=subprocess.PIPE, text=True, timeout=SECONDS)
        status, output, left = wanted
        yield what, (done.returncode, done.stdout) == (status, output + left + '\n' * bool(left)) and done.stderr.count('\n') == 1
        for it in tree.top + '/out', *glob.glob(tree.temporary + '/*'):
            shutil.rmtree(it)


WAYS = [runs_once, runs_older, runs_linked, runs_elsewhere, runs_of_others, runs_at_once, is_stopped, finds_library, runs_on_disks]


def way_faults(folder):
    """Yields a line for each thing that `./cvr` does wrongly, in each shell that may be `sh`, and None for each that is right."""
    ways = {way.__name__: way for way in WAYS}
    ways.update((what, functools.partial(refuses, how=how, said=said)) for what, (how, said) in REFUSED.items())
    for shell in {os.path.realpath(it) for it in map(shutil.which, ('sh', 'bash')) if it}:
        for what, way in ways.items():
            with tempfile.TemporaryDirectory(dir=folder) as room:
                try:
                    for it, is_right in way(Tree(room, shell)):
                        yield None if is_right else '%s, with %s: not so: %s' % (what, shell, it)
                except subprocess.TimeoutExpired as fault:
                    yield '%s, with %s: %s' % (what, shell, fault)
