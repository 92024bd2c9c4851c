#!/usr/bin/env python3
"""dist.py [--built]

Looks at dist/, the release that stands in the repository. SHA256SUMS has the sums of all its files, and there is each once.
PROVENANCE names the newest release in CHANGELOG.md, and has the sums of the page, of the module in it, and of the programs
and libraries in the archives and wheels; it stands in each of these, too. The program for this system says the version.
The page starts in Chromium or in Firefox, where one of them is installed: so it has tallied the county that it carries,
and found the text that has to come. The module beside the package for JavaScript is the page's. Each signature beside PROVENANCE is one of it.

Then `./cvr` is tried with releases of stand-ins (dist_ways.py), and so is this test, on some in which a part is changed.

With --built it compares the release with what tools/targets and tools/html make here, where these are of the same sources,
by the same kit, and with the same packages of Debian; and it runs the rows of tests/rows with the release's program.

The last line is `dist: N right, M wrong`; the status is 0 only where M is 0 and N is not, or where it is said what was left
out."""
import argparse
import base64
import fnmatch
import gzip
import io
import os
import re
import shutil
import subprocess
import sys
import tarfile
import tempfile
import zipfile
import zlib

sys.dont_write_bytecode = True
HERE = os.path.dirname(os.path.abspath(__file__))
TOP = os.path.dirname(HERE)
sys.path[:0] = [HERE] + [os.path.join(HERE, it) for it in ('web', 'audit')]
import chromium     # noqa: E402
import firefox      # noqa: E402 (both stand in tests/web)
import tenth        # noqa: E402
from dist_files import DIST, LACKS, PAGE, PLACES, is_of_these, of_release   # noqa: E402
from dist_ways import NAMED, SUMS, TOLD, TOOL, called, held, list_files, named, stand_in, sum_of, way_faults     # noqa: E402 (these stand here)
from trial import SETTLED   # noqa: E402 (it stands in tests/audit)

VERSION = TOOL['VERSION']
HERE_TARGET = '%s-%s' % (os.uname().sysname.lower(), os.uname().machine)
SIGNED = TOLD + '.builder.sig'
MODULE = 'cvr.wasm'
FAULTS = EOFError, OSError, ValueError, tarfile.TarError, zipfile.BadZipFile, zlib.error


def told_in(text):
    """What a PROVENANCE says, by name."""
    return dict(re.findall(r'^([\w-]+)  +(\S.*)$', text.decode('utf-8', 'replace'), re.M))


def inside(name, data):
    """The files in an archive, or the module in the page, by their names; none where it can't be read."""
    try:
        if name == PAGE:
            return {MODULE: gzip.decompress(base64.b64decode(re.search(rb'id="module">([^<]*)<', data).group(1)))}
        if name.endswith('.tar.gz'):
            with tarfile.open(fileobj=io.BytesIO(data)) as file:
                return {it.name: file.extractfile(it).read() for it in file if it.isfile()}
        with zipfile.ZipFile(io.BytesIO(data)) as file:
            return {it: file.read(it) for it in file.namelist()}
    except (AttributeError, *FAULTS):
        return {}


def one(its, pattern):
    """The only one of these texts whose name has this pattern; nothing where there is none, or several."""
    found = fnmatch.filter(its, pattern)
    return its[found[0]] if len(found) == 1 else b''


def is_signature(folder, name):
    """Whether a file is somebody's signature of PROVENANCE as it stands there."""
    with open(os.path.join(folder, TOLD), 'rb') as told:
        words = ['ssh-keygen', '-Y', 'check-novalidate', '-n', 'cvr', '-s', os.path.join(folder, name)]
        return subprocess.run(words, stdin=told, stdout=subprocess.DEVNULL, stderr=subprocess.DEVNULL).returncode == 0


def faults(folder, version=VERSION):
    """Yields what is wrong with the files of a folder: first a word, then why."""
    texts = {it: held(os.path.join(folder, it)) for it in os.listdir(folder)}
    signatures = fnmatch.filter(texts, TOLD + '*.sig')
    for name in signatures:
        del texts[name]
        if shutil.which('ssh-keygen') and not is_signature(folder, name):
            yield '%s: no signature of this PROVENANCE' % name
    if texts.pop(SUMS, b'').decode('utf-8', 'replace') != TOOL['listed'](texts):
        yield '%s: other sums, or other files' % SUMS
    names = {named(archive, version) for archive, _ in PLACES.values()}
    wanted = {TOLD, MODULE, *TOOL['SCRIPTS'], *names, *(it[:-len('.tar.gz')] + '.o' for it in names if it.endswith('.tar.gz'))}
    if len(texts) != len(wanted) or not all(one(texts, it) for it in wanted):
        yield 'files: %s' % ', '.join(sorted(texts))
    told = told_in(texts.get(TOLD, b''))
    if told.get('version') != version:
        yield 'version: PROVENANCE has another than %s' % version
    sums = {'page': texts.get(PAGE, b'')}
    held_in = {it: inside(it, one(texts, named(it, version))) for it, _ in PLACES.values()}
    sums.update((called(name), one(held_in[archive], place)) for name, (archive, place) in PLACES.items())
    for name, data in sums.items():
        if told.get(name) != sum_of(data):
            yield '%s: PROVENANCE has another sum' % name
    if texts.get(MODULE) != held_in[PAGE].get(MODULE):
        yield 'module: %s is another one than the page has' % MODULE
    for archive in set(held_in) - {PAGE}:
        if one(held_in[archive], '*/' + TOLD) != texts.get(TOLD):
            yield 'inside: another PROVENANCE in %s' % archive


def browser():
    """The first browser that is installed, or None."""
    return next((it for it in (chromium, firefox) if it.program()), None)


def start_faults(folder, kind):
    """Yields why the page of a folder doesn't start in a browser."""
    with tempfile.TemporaryDirectory() as room:
        its = kind.Browser(room)
        try:
            its.open(os.path.join(folder, PAGE))
            said = its.value(SETTLED)
            if its.value("document.getElementById('give').hidden") is not False:
                yield 'the page does not start: %s' % said
        finally:
            its.end()


def version_faults(folder):
    """Yields why the program for this system doesn't say its version."""
    with tempfile.TemporaryDirectory() as room:
        path, name = os.path.join(room, 'cvr'), 'cvr-%s-%s.tar.gz' % (VERSION, HERE_TARGET)
        TOOL['write'](path, one(inside(name, held(os.path.join(folder, name))), '*/bin/cvr'), 0o755)
        try:
            said = subprocess.run([path, '--version'], stdout=subprocess.PIPE, stderr=subprocess.STDOUT).stdout.decode('utf-8', 'replace')
        except OSError as fault:
            said = str(fault)
    if said != 'cvr %s\n' % VERSION:
        yield 'the program says %r' % said


# ---- this test itself

def change(name, old):
    """A change of one sign of a file, the last of this text."""
    def how(folder):
        path = os.path.join(folder, name)
        assert held(path).count(old) >= 1
        TOOL['write'](path, held(path).replace(old, old[:-1] + b'?', 1))
    return how


def remove(folder):
    os.remove(os.path.join(folder, 'cvr-%s-linux-aarch64.o' % NAMED))
    list_files(folder)


def add(folder):
    TOOL['write'](os.path.join(folder, 'cvr-9.8.6-linux-x86_64.tar.gz'), 'an older one')
    list_files(folder)


def sign(folder):
    if shutil.which('ssh-keygen'):
        key = os.path.join(os.path.dirname(folder), 'key')
        if not os.path.exists(key):
            subprocess.run(['ssh-keygen', '-q', '-t', 'ed25519', '-N', '', '-f', key], check=True)
        subprocess.run(['ssh-keygen', '-q', '-Y', 'sign', '-f', key, '-n', 'cvr', os.path.join(folder, TOLD)], check=True, stderr=subprocess.DEVNULL)
        os.rename(os.path.join(folder, TOLD + '.sig'), os.path.join(folder, SIGNED))


def sign_another(folder):
    sign(folder)
    change(TOLD, b'To check')(folder)


# What is changed in a release, or told of it, and the first words of what is found.
CHANGES = [
    (change(PAGE, b'</html'), {}, {SUMS, 'page'}),
    (change(PAGE, b'id="module">H4'), {}, {SUMS, 'page', 'page-module', 'module'}),
    (change(MODULE, b'wasm/cvr'), {}, {SUMS, 'module'}),
    (change(TOLD, b'To check'), {}, {SUMS, 'inside'}),
    (change(SUMS, b'cvr.html'), {}, {SUMS}),
    (change('cvr-%s-linux-x86_64.tar.gz' % NAMED, b'\x1f\x8b'), {}, {SUMS, 'linux-x86_64', 'inside'}),
    (remove, {}, {'files'}),
    (add, {}, {'files'}),
    (sign, {}, set()),
    (sign_another, {}, {SUMS, 'inside', *[SIGNED] * bool(shutil.which('ssh-keygen'))}),
    *((lambda folder: None, {it: 'another'}, {it}) for it in ('version', 'page', *map(called, PLACES))),
]


def own_faults(folder, kind):
    """Yields for each release of stand-ins what this test finds wrongly, or None."""
    for number, (how, told, wanted) in enumerate([(lambda folder: None, {}, set()), *CHANGES]):
        made = stand_in(os.path.join(folder, '%d' % number), told=told)
        how(made)
        found = {it.partition(':')[0] for it in faults(made, NAMED)}
        yield None if found == wanted else 'change %d of a release: %s, expected %s' % (number, found, wanted)
    yield None if list(version_faults(made)) else 'a program that is not there says its version'
    if kind:
        yield None if list(start_faults(made, kind)) else 'a page without a module starts'


# ---- what is made here

def bases(name):
    """What has to be the same here for a sum to be the same."""
    if name.startswith('page'):
        return ['kit', 'page-sources', 'page-tools']
    return ['kit'] if name == 'native' else ['kit', 'linked-' + name.replace('library-', ''), *['page-sources'] * (name != 'linux-x86_64')]


def built_faults(folder):
    """Yields a line for each sum of the release that differs from that of what is made here of the same, and None for each
    other; then the same of the rows."""
    if not is_of_these():
        tenth.leave_out("a comparison with the release's programs", LACKS)
        return
    subprocess.run([sys.executable, 'tools/targets'], cwd=TOP, stdout=subprocess.DEVNULL)
    targets = [it for it in map(TOOL['Target'], TOOL['TARGETS']['FILES']) if it.is_made()]
    page = TOOL['make_page'](folder, targets)
    told, here = told_in(held(os.path.join(DIST, TOLD))), TOOL['told'](targets, page)
    for name in ['native', *(it for it in ('page', *map(called, PLACES)) if it in here)]:
        others = ['%s is %s here, and was %s' % (it, here.get(it), told.get(it)) for it in bases(name) if here.get(it) != told.get(it)]
        if others:
            print('%s is not compared: %s' % (name, '; '.join(others)))
        else:
            yield None if told.get(name) == here[name] else '%s: the release has another one than is made here' % name
    for name in TOOL['SCRIPTS'] if told.get('page-sources') == here.get('page-sources') else ():
        yield None if held(os.path.join(DIST, name)) == held(os.path.join(TOP, 'javascript', name)) else '%s: the release has another one' % name
    rows = subprocess.run([sys.executable, 'tests/rows/run.py', '--cvr', of_release('linux-x86_64/cvr', folder)], cwd=TOP, stdout=subprocess.PIPE, text=True).stdout
    yield None if re.search(r'^rows: [1-9]\d* right, 0 wrong\n\Z', rows, re.M) else rows[-2000:]


def release_faults(kind):
    """Yields a line for each thing that is wrong with dist/, or else None."""
    found = list(faults(DIST)) if os.path.isdir(DIST) else ['there is no dist/: `make release` makes it']
    found += version_faults(DIST) if HERE_TARGET in map(called, PLACES) else []
    found += start_faults(DIST, kind) if kind and not found else []
    yield from found or [None]


def main():
    words = argparse.ArgumentParser()
    words.add_argument('--built', action='store_true', help='compare dist/ with what is made here')
    words, kind = words.parse_args(), browser()
    with tempfile.TemporaryDirectory() as folder:
        if words.built:
            found = list(built_faults(folder))
        else:
            if not kind:
                tenth.leave_out('the start of the page', 'neither Chromium nor Firefox is installed')
            found = [*release_faults(kind), *own_faults(folder, kind), *way_faults(folder)]
    for line in found:
        if line:
            print('WRONG ' + line)
    right, wrong = found.count(None), len(found) - found.count(None)
    print('dist: %d right, %d wrong' % (right, wrong))
    sys.exit(1 if wrong or not (right or words.built) else 0)


if __name__ == '__main__':
    main()
