#!/usr/bin/env python3
"""package.py [--installed] --cvr PATH

What is installed: `make install` below a folder. There the commands of all documents are run with its programs, but for
those that read the sources, in a folder with a copy of its examples, made as the guide says. Each link of a document leads
to something there, and what links to a source in a checkout, to the reference. `man` finds and reads the pages. The library
for C stands there under its names, and with one that tools/program finds an example can be linked, as `pkg-config` says.
`make uninstall` leaves all that was there before `make install`, also what a package adds, and nothing else. With
--installed that is all.

Else also what is packed, in two copies of the repository without git: with what tools/targets made, as if it was tried;
for what isn't made here (tests/targets.py makes it) something else stands in. Both copies give the same bytes, in out/packages
as in dist/, which tests/dist.py finds whole. In what the archive of the static program has, the commands of README and of
AUDITING are run, and so are those in its PROVENANCE: they print each sum in it, and sign it, and find the signature right
or wrong, where there is `ssh-keygen`. The packages of Debian have the same files, and `man` reads their pages. The library
for C is tried as above in the archive, and where dpkg installs its packages. The packed program needs no library, and the
object file beside it can be linked again. The bill of materials names what is linked in and what is imported. Nothing is
packed that was not tried, or isn't noted as built; and no release that lacks a target, or has files that git doesn't know.
Where lintian is installed, it finds no error.

The last line is `package: N right, M wrong`; the status is 0 only where M is 0 and N is not."""
import gzip
import importlib.machinery
import importlib.util
import json
import os
import re
import shlex
import shutil
import subprocess
import sys
import tempfile

sys.dont_write_bytecode = True
HERE = os.path.dirname(os.path.abspath(__file__))
TOP = os.path.dirname(HERE)
sys.path.insert(0, HERE)
import commands  # noqa: E402
import dist      # noqa: E402
import tenth     # noqa: E402 (all stand here)
from dist import TOOL, held, inside, one, told_in    # noqa: E402

RUN = ['bin/cvr', 'bin/cvr-audit']
FOR_EACH = ['share/man/man1/%s.1', 'share/bash-completion/completions/%s',
            'share/zsh/site-functions/_%s', 'share/fish/vendor_completions.d/%s.fish']
READ = [path % name for name in ('cvr', 'cvr-audit') for path in FOR_EACH]
READ += ['share/doc/cvr/docs/FAULTS.md', 'share/doc/cvr/docs/AUDITING.md']
READ += ['share/doc/cvr/docs/reference/README.md', 'share/doc/cvr/docs/reference/cvr_office.md']
READ += ['share/cvr/cvr_audit/line.py']
SONAME = 'libcvr.so.' + dist.VERSION.partition('.')[0]
SHARED, LINKS = 'libcvr.so.' + dist.VERSION, {SONAME: 'libcvr.so.' + dist.VERSION, 'libcvr.so': SONAME}
MULTIARCH = '/usr/lib/x86_64-linux-gnu'
SUMS, TOLD, BILL, sum_of, write = (TOOL[it] for it in ('SUMS', 'TOLD', 'BILL', 'sum_of', 'write'))
FILES = TOOL['TARGETS']['FILES']     # of each target the program, and the library
FIRST = 'linux-x86_64'      # the target that runs here
SECONDS = 3600  # which a command may take, also beside proofs
NOT_COPIED = shutil.ignore_patterns('.git', 'out', '__pycache__')


def done(*words, top=TOP, **more):
    """(status, both outputs) of a command at the top."""
    told = subprocess.run(words, cwd=top, stdin=subprocess.DEVNULL, stdout=subprocess.PIPE, stderr=subprocess.STDOUT, timeout=SECONDS, **more)
    return told.returncode, told.stdout.decode('utf-8', 'replace')


# ---- what is installed

def is_installed(prefix):
    """Whether everything is below a prefix, for everybody to read, and the programs to run."""
    modes = [os.stat(os.path.join(prefix, name)).st_mode & 0o777 for name in RUN + READ]
    folders = {os.stat(it).st_mode & 0o777 for top in ('bin', 'share') for it, _, _ in os.walk(os.path.join(prefix, top))}
    return modes == [0o755] * len(RUN) + [0o644] * len(READ) and folders == {0o755}


def has_page(prefix, page):
    """Whether the page for a browser, where there is one, is below a prefix, and else none."""
    path = os.path.join(prefix, 'share/doc/cvr/cvr.html')
    return held(path) == held(page) if os.path.exists(page) else not os.path.exists(path)


def pages(prefix):
    """The text of each document below a prefix, by its path."""
    folder = os.path.join(prefix, 'share/doc/cvr')
    paths = [os.path.join(below, name) for below, _, names in os.walk(folder) for name in names if name.endswith('.md')]
    return {os.path.relpath(path, folder): held(path).decode('utf-8') for path in paths}


def first_runs(prefix, names):
    """Yields each command of some documents and whether the programs installed below a prefix print what it shows, in a
    folder with what the guide says to copy there. Commands that read the sources are left out."""
    texts, status, audit = pages(prefix), 0, shlex.quote(os.path.join(prefix, 'bin/cvr-audit'))
    copy = re.search('^    (cp -r )/usr/local(/share/doc/cvr/.*)$', texts['docs/GUIDE.md'], re.M)
    with tempfile.TemporaryDirectory() as folder:
        yield 'what the guide copies', commands.run(copy.group(1) + shlex.quote(prefix) + copy.group(2), '', 0, folder) == ('', 0)
        shown = [it for name in names for it in commands.commands(texts[name], lambda *_: None)]
        for command, expected, _ in (it for it in shown if 'crates/' not in it[0]):
            found, status = commands.run(command.replace('companion/cvr-audit', audit), os.path.join(prefix, 'bin/cvr'), status, folder)
            yield '%s below %s' % (command, os.path.basename(prefix)), found == expected


def links(prefix):
    """Which links of the documents below a prefix lead nowhere, and whether none does."""
    loader = importlib.machinery.SourceFileLoader('wording', os.path.join(TOP, 'tools/wording'))
    wording = importlib.util.module_from_spec(importlib.util.spec_from_loader('wording', loader))
    loader.exec_module(wording)
    texts, folder = pages(prefix), os.path.join(prefix, 'share/doc/cvr')
    lost = [it for name, text in texts.items() for it in wording.lost(name, text, texts, lambda path: os.path.exists(os.path.join(folder, path)))]
    is_led = '[`Ran`](../docs/reference/cvr_run.md#Ends.Ran)' in texts['docs/HEADLINE.md']        # and not to a source
    return 'links below %s: %s' % (os.path.basename(prefix), ', '.join(lost)), is_led and not lost


def everything(folder):
    """The paths of all files and folders below a folder."""
    return {os.path.join(below, name) for below, folders, names in os.walk(folder) for name in folders + names}


def is_uninstalled(cvr, folder, others, *words):
    """Whether files of others below a folder, and nothing else, are left there after `make install` and `make uninstall`."""
    for path in others:
        os.makedirs(os.path.join(folder, os.path.dirname(path)))
        open(os.path.join(folder, path), 'x').close()
    before = everything(folder)
    is_done = all(done('make', rule, 'CVR=' + cvr, *words)[0] == 0 for rule in ('install', 'uninstall'))
    return is_done and everything(folder) == before


def uninstalls(cvr, folder, library):
    """Yields each trial of `make uninstall`, and whether it is right."""
    new, old, tree = (os.path.join(folder, name) for name in ('a new prefix', 'an old prefix', 'a tree'))
    library = 'LIBRARY=' + library
    yield 'make uninstall, of a new prefix', is_uninstalled(cvr, new, [], 'PREFIX=' + new, library)
    yield 'make uninstall, beside other files', is_uninstalled(cvr, old, ['bin/other', 'lib/other', 'share/doc/cvr/PROVENANCE'], 'PREFIX=' + old, library)
    yield 'make uninstall, below DESTDIR', is_uninstalled(cvr, tree, ['usr/other'], 'DESTDIR=' + tree, 'PREFIX=/usr', 'ZSH=/usr/share/zsh/vendor-completions', 'LIBDIR=' + MULTIARCH, library)


def man_page(prefix, name):
    """(status, both outputs) of `man` for a page below a prefix."""
    words = ['--warnings', '-E', 'UTF-8', '-M', os.path.join(prefix, 'share/man'), name]
    env = dict(os.environ, MANPAGER='cat', MANWIDTH='100', LC_ALL='C.UTF-8')
    return done('man', *words, env=env)


def read_pages(prefix):
    """Yields whether `man` reads the pages below a prefix."""
    for name, about in ('cvr', r'cvr +- +check'), ('cvr-audit', r'cvr-audit +- +print'):
        status, text = man_page(prefix, name)
        yield 'man reads the page of %s below %s' % (name, prefix), bool(status == 0 and re.search(about, text) and not re.search(r':\d+: warning', text))


def stand_in(folder):
    """A folder as tools/library makes it, of small texts."""
    for name in 'libcvr.a', 'libcvr.so', 'cvr.h':
        write(os.path.join(folder, name), name)
    write(os.path.join(folder, 'cvr.pc'), held(os.path.join(TOP, 'library/cvr.pc.in')).replace(b'@VERSION@', dist.VERSION.encode()))
    return folder


def is_library(prefix, libdir, library):
    """Whether the library of a folder is below a prefix, for everybody to read, under its names."""
    names = {'cvr.h': prefix + '/include/cvr.h', 'libcvr.a': libdir + '/libcvr.a', 'libcvr.so': os.path.join(libdir, SHARED)}
    are_same = all(held(os.path.join(library, name)) == held(path) and os.stat(path).st_mode & 0o777 == 0o644 for name, path in names.items())
    links = {name: os.readlink(os.path.join(libdir, name)) for name in os.listdir(libdir) if os.path.islink(os.path.join(libdir, name))}
    return are_same and links == LINKS and sorted(os.listdir(libdir)) == sorted([*LINKS, SHARED, 'libcvr.a', 'pkgconfig'])


def link_trials(cvr, libdir, root=''):
    """Yields whether callers see the calls of cvr.h alone in the library in a folder, of another root where one is named; and
    whether an example that is linked with it as `pkg-config` says, in either form, tallies the county as the program does."""
    lacking = [it for it in ('cc', 'nm', 'pkg-config', 'readelf') if not shutil.which(it)]
    lacking += [] if lacking or os.path.isabs(done('cc', '-print-file-name=libc.a')[1].strip()) else ['libc.a']
    if lacking:
        tenth.leave_out('programs that are linked with the library', '%s is missing' % lacking[0])
        return
    for words in ['-D', SHARED], ['-g', 'libcvr.a']:
        status, told = done('nm', '-P', '--defined-only', words[0], os.path.join(libdir, words[1]))
        yield 'what callers see of %s: %s' % (words[1], told), re.findall(r'^(\w+) [A-Z] ', told, re.M) == TOOL['TARGETS']['kit'].SEEN
    env = dict(os.environ, PKG_CONFIG_LIBDIR=libdir + '/pkgconfig', PKG_CONFIG_SYSROOT_DIR=root, LD_LIBRARY_PATH=libdir)
    env.update(dict.fromkeys(['PKG_CONFIG_ALLOW_SYSTEM_CFLAGS', 'PKG_CONFIG_ALLOW_SYSTEM_LIBS'], '1'))
    yield 'pkg-config says the version of ' + libdir, done('pkg-config', '--modversion', 'cvr', env=env) == (0, dist.VERSION + '\n')
    county = ['examples/county/%s.json' % it for it in ('definition', 'scan', 'adjudicated')]
    with tempfile.TemporaryDirectory() as room:
        for form, words in ('shared', []), ('static', ['--static']):
            program, (status, flags) = os.path.join(room, form), done('pkg-config', *words, '--cflags', '--libs', 'cvr', env=env)
            status, told = done('cc', *words, '-o', program, 'examples/library/tally.c', *shlex.split('' if status else flags))
            is_right = status == 0 and done(program, *county, env=env) == done(cvr, 'tally', *county)
            yield 'an example, linked with the %s library in %s: %s' % (form, libdir, told), is_right
            yield 'whether that needs the library, by its SONAME', ('[%s]' % SONAME in done('readelf', '-d', program)[1]) == (not words)


def installed_library(cvr, prefix, said, folder):
    """Yields each trial of the library for C: of a stand-in in a tree, and of the one that tools/program finds in a prefix,
    of which `make install` said something where it finds none."""
    tree, stand = os.path.join(folder, 'a root'), stand_in(os.path.join(folder, 'a stand-in'))
    words = ['LIBRARY=' + stand, 'DESTDIR=' + tree, 'PREFIX=/usr', 'LIBDIR=' + MULTIARCH]
    yield 'make install-library', done('make', 'install-library', *words, umask=0o077)[0] == 0 and is_library(tree + '/usr', tree + MULTIARCH, stand)
    told = held(tree + MULTIARCH + '/pkgconfig/cvr.pc').decode('utf-8')
    yield 'cvr.pc has the prefix', re.findall('^(?:prefix|libdir)=(.*)', told, re.M) == ['/usr', MULTIARCH]
    yield from uninstalls(cvr, folder, stand)
    library, libdir = done('tools/program', 'library')[1].strip(), os.path.join(prefix, 'lib')
    if os.path.isdir(library):
        yield 'make install, the library of these sources', is_library(prefix, libdir, library)
        yield from link_trials(cvr, libdir)
    else:
        yield 'make install says that it finds no library', library != '' and library in said and sorted(os.listdir(prefix)) == ['bin', 'share']
        tenth.leave_out('a library that is installed', 'tools/program finds none of these sources')


def installed(cvr, folder):
    """Yields each trial of what is installed."""
    prefix = os.path.join(folder, 'a prefix')
    status, said = done('make', 'install', 'CVR=' + cvr, 'PREFIX=' + prefix, umask=0o077)
    yield 'make install', status == 0 and is_installed(prefix)
    yield 'make install, the page for a browser', has_page(prefix, os.path.join(TOP, 'dist/cvr.html'))
    yield links(prefix)
    yield from read_pages(prefix)
    yield from first_runs(prefix, commands.FILES)
    yield from installed_library(cvr, prefix, said, folder)


# ---- what is packed

class Copy:
    """A copy of the repository."""

    def __init__(self, folder):
        self.top, self.packages, self.dist = folder, folder + '/out/packages', folder + '/dist'

    def make(self):
        """Makes it as if all targets were made and tried, and the program was built."""
        shutil.copytree(TOP, self.top, ignore=NOT_COPIED)
        for name in 'cvr', 'kit':
            write(self.path('out', name), held(os.path.join(TOP, 'out', name)), 0o755)
        write(self.path('out/built'), done('tools/sum', 'out/cvr', top=self.top)[1])
        for name, files in FILES.items():
            made, place = TOOL['Target'](name), self.path('out/targets', name)
            is_made = made.is_made()
            shutil.copytree(made.folder if is_made else self.path('out/targets', FIRST), place, ignore=shutil.ignore_patterns('tried*'))
            for note, file, other in zip(('tried', 'tried_library'), files, FILES[FIRST]):
                if file and not is_made:
                    shutil.copy(self.path('out/targets', FIRST, other), os.path.join(place, file))
                if file:
                    write(os.path.join(place, note), sum_of(os.path.join(place, file)))

    def path(self, *names):
        return os.path.join(self.top, *names)

    def pack(self, *words, **more):
        """(status, both outputs) of tools/package."""
        return done('tools/package', *words, top=self.top, **more)


def elsewhere(folder):
    """Other settings of the user who runs a command: its files go to a folder that passes on its group, as one for several
    people does, and a `make` above it was given other folders."""
    room = os.path.join(folder, 'a room')
    os.mkdir(room)
    os.chmod(room, 0o2700)
    more = {'TMPDIR': room, 'MAKEFLAGS': ' -- DESTDIR=/nonexistent ZSH=/nonexistent', 'LC_ALL': 'C', 'TZ': 'Asia/Kolkata'}
    return {'umask': 0o077, 'env': dict(os.environ, **more)}


def texts_of(folder):
    """The content of each file of a folder, by name."""
    return {name: held(os.path.join(folder, name)) for name in os.listdir(folder)}


def packed(copy, other, folder):
    """Yields whether both copies are packed to the same, and that a release has of it what it has to have."""
    status, told = copy.pack()
    yield 'tools/package: ' + told, status == 0
    found = texts_of(copy.packages)
    yield 'in another place the same', other.pack(**elsewhere(folder))[0] == 0 and texts_of(other.packages) == found
    write(copy.dist + '/cvr-1.0.0-linux-x86_64.o', 'of an older release')
    yield 'a release', copy.pack('--release')[0] == 0
    its = texts_of(copy.dist)
    yield 'a release has the same', {**its, SUMS: b''} == {name: text for name, text in {**found, SUMS: b''}.items() if not name.endswith('.deb')}
    yield 'its sums are those', its[SUMS] == b''.join(it for it in found[SUMS].splitlines(True) if not it.endswith(b'.deb\n'))
    for what in list(dist.faults(copy.dist)) or ['']:
        yield 'dist/ of a copy: ' + what, not what
    yield from sums(copy.packages)


def sums(folder, list_of=SUMS):
    """Yields whether SHA256SUMS has every other file of a folder but links, with its sum."""
    status, text = done('sh', '-c', 'cd "$0" && sha256sum -c "$1"', folder, list_of)
    files = [path for path in everything(folder) if os.path.isfile(path) and not os.path.islink(path)]
    others = {os.path.relpath(path, folder) for path in files} - {list_of}
    yield 'the sums in ' + folder, status == 0 and {line.rpartition(': ')[0] for line in text.splitlines()} == others


def archive(copy, place):
    """Yields each trial of the archive, unpacked below a prefix."""
    os.mkdir(place)
    words = ['tar', '-xzf', os.path.join(copy.packages, 'cvr-%s-%s.tar.gz' % (dist.VERSION, FIRST)), '-C', place, '--strip-components=1']
    yield 'tar unpacks it', done(*words, umask=0o022)[0] == 0 and is_installed(place)
    yield 'the page for a browser in the archive', has_page(place, os.path.join(copy.packages, 'cvr.html'))
    yield from first_runs(place, ['README.md', 'docs/AUDITING.md'])
    yield from sums(place, 'share/doc/cvr/' + SUMS)
    yield 'the library in the archive', is_library(place, place + '/lib', copy.path('out/targets', FIRST))
    yield from link_trials(place + '/bin/cvr', place + '/lib')
    program, told = os.path.join(place, 'bin/cvr'), os.path.join(place, 'share/doc/cvr')
    yield 'no library', re.findall(r'NEEDED.*|INTERP', done('readelf', '-dl', program)[1]) == []
    status, page = done(program + '-audit', 'page', 'examples/county/definition.json', env=dict(os.environ, CVR=program))
    yield 'a page names the kit', status == 0 and ', kit %s</dd>' % told_in(held(told + '/PROVENANCE'))['kit'] in page
    text = held(os.path.join(told, 'copyright'))
    yield 'the licences', held(os.path.join(TOP, 'LICENSE')).strip() in text and b'GNU LESSER GENERAL PUBLIC LICENSE' in text


def debian(copy, place, unpacked):
    """Yields each trial of the packages of Debian, which have what the archive has, unpacked."""
    paths = {name: os.path.join(copy.packages, '%s_%s_amd64.deb' % (name, dist.VERSION)) for name in ('cvr', SONAME.replace('.so.', ''), 'libcvr-dev')}
    for name, path in paths.items():
        usr, list_of = os.path.join(place, name, 'usr'), 'share/doc/%s/%s' % (name, SUMS)
        os.makedirs(usr)
        yield 'dpkg-deb unpacks ' + name, done('dpkg-deb', '-x', path, os.path.dirname(usr))[0] == 0
        yield from sums(usr, list_of)
        if shutil.which('lintian'):
            status, text = done('lintian', '--allow-root', '--fail-on', 'error', path)
            yield 'lintian: ' + text, status == 0
        else:
            tenth.leave_out('lintian', 'it is missing')
    yield from debian_program(place + '/cvr/usr', unpacked)
    yield from debian_library(copy, place, list(paths)[1], list(paths.values())[1:], unpacked)
    for architecture in 'amd64', 'arm64':
        control = done('dpkg-deb', '-f', paths['cvr'].replace('amd64', architecture), 'Architecture', 'Depends', 'Maintainer')[1]
        yield 'no package is needed: ' + control, re.fullmatch(r'Architecture: %s\nMaintainer: .*\.invalid>\n' % architecture, control) is not None


def debian_program(usr, unpacked):
    """Yields each trial of the package of the program, which has what the archive has, but for the library."""
    list_of, more = 'share/doc/cvr/' + SUMS, ('share/doc/cvr/changelog', 'share/lintian/overrides/cvr')
    found, wanted = ({os.path.relpath(it, top): held(it) for it in TOOL['files_below'](top) if not os.path.islink(it)} for top in (usr, unpacked))
    packed = [name for name in found if re.search(r'man1/|/changelog', name)]
    found.update({name[:-len('.gz')]: gzip.decompress(found.pop(name)) for name in packed})
    wanted = {name.replace('site-functions', 'vendor-completions'): text for name, text in wanted.items() if not re.match('lib/|include/', name)}
    yield 'it has what the archive has, and its own', {**wanted, list_of: found[list_of], **{it: found[it] for it in more}} == found
    yield from read_pages(usr)


def debian_library(copy, place, name, paths, unpacked):
    """Yields each trial of the packages of the library, which dpkg installs in another root; who isn't root unpacks them. The
    first alone has what a linked program needs."""
    root, number = place + '/root', SONAME.rpartition('.')[2]
    yield 'what a linked program needs', sorted(os.listdir(os.path.join(place, name) + MULTIARCH)) == [SONAME, SHARED]
    write(root + '/var/lib/dpkg/status', '')
    for name in 'info', 'triggers', 'updates':
        os.mkdir(os.path.join(root, 'var/lib/dpkg', name))
    env = dict(os.environ, PATH=os.environ['PATH'] + ':/usr/sbin:/sbin')
    ways = [['dpkg-deb', '-x', it, root] for it in paths] if os.getuid() else [['dpkg', '--root=' + root, '--force-depends', '-i', *paths]]
    told = [done(*it, env=env) for it in ways]
    yield 'dpkg installs the library: %s' % told, not any(it[0] for it in told) and is_library(root + '/usr', root + MULTIARCH, copy.path('out/targets', FIRST))
    yield from link_trials(unpacked + '/bin/cvr', root + MULTIARCH, root)
    needed = [done('dpkg-deb', '-f', it, 'Depends')[1] for it in paths]
    yield 'what they need: %s' % needed, re.match(r'libc6 \(>= 2\.\d+\)\n', needed[0]) and needed[1] == 'libcvr%s (= %s)\n' % (number, dist.VERSION)
    said = [done('dpkg-deb', '-I', paths[0], it)[1] for it in ('shlibs', 'triggers')]
    yield 'what dpkg does for it: %s' % said, said == ['libcvr %s libcvr%s (>= %s)\n' % (number, number, dist.VERSION), 'activate-noawait ldconfig\n']


def others(copy):
    """Yields each trial of the ZIP and the wheels."""
    found = {name: inside(name, text) for name, text in texts_of(copy.packages).items() if name.endswith(('.zip', '.whl'))}
    for name, texts in found.items():
        yield 'README names ' + name, name in held(os.path.join(TOP, 'README.md')).decode('utf-8')
        licences, text = one(texts, '*/LICENSE' if name.endswith('.whl') else '*/copyright'), held(os.path.join(TOP, 'LICENSE')).strip()
        yield 'the licences in ' + name, text in licences and b'of the Rattle kit' in licences
        yield from bill(name, one(texts, '*/' + BILL), copy, FIRST if 'linux' in name else 'windows-x86_64')
    texts = {name.partition('/')[2]: text for name, text in one(found, '*.zip').items()}
    yield 'one of each name in the ZIP, in whatever case', len({it.lower() for it in texts}) == len(texts)
    wanted = {'cvr.exe', 'cvr.dll', 'cvr.h', 'cvr-audit', 'cvr_audit/line.py', 'README.md', 'docs/FORMAT.md', 'examples/county/scan.json'}
    yield 'what stands in the ZIP: %s' % (wanted - set(texts)), wanted <= set(texts)
    yield 'the sums in the ZIP', texts.pop(SUMS, b'').decode('utf-8') == TOOL['listed'](texts)


def bill(of, text, copy, target):
    """Yields what the bill of materials of a package has to have, and whether it does."""
    told, paths = json.loads(text), [copy.path('out/targets', target, it) for it in [*FILES[target], *['libcvr.a'] * (target == FIRST)]]
    named = {it['name']: it for it in told['packages']}
    names, ids = set(named), [it['SPDXID'] for it in told['packages']]
    ends = [it[end] for it in told['relationships'] for end in ('spdxElementId', 'relatedSpdxElement')]
    yield 'the form of SPDX in ' + of, told['spdxVersion'] == 'SPDX-2.3' and len(set(ids)) == len(ids) and set(ends) <= {*ids, told['SPDXID']}
    yield 'each part stands in a relation in ' + of, set(ids) <= set(ends)
    lines, kit = held(os.path.join(TOP, 'crates.txt')).decode('utf-8'), held(copy.path('out/kit')).decode('utf-8').strip()
    crates = re.findall(r'^(\w+)[^:\n]*:', lines, re.M)
    used = {word for line in re.findall(r'^(?!#|cvr_example|cvr_calls)[^:\n]*:(.*)', lines, re.M) for word in line.split()} - set(crates)
    yield 'the libraries of the kit in ' + of, used == {it['name'] for it in told['packages'] if it['versionInfo'] == kit} - {'rattle kit'}
    linked = {tuple(it.split()) for it in held(copy.path('out/targets', target, 'linked')).decode().splitlines()}
    yield 'what is linked in, in ' + of, linked and linked <= {(name, it['versionInfo']) for name, it in named.items()}
    for path in paths:
        yield 'the sum of %s in %s' % (path, of), named[os.path.basename(path)]['checksums'][0]['checksumValue'] == sum_of(path)
    folders, env = [os.path.join(TOP, it) for it in ('companion', 'python')], dict(os.environ, LIBCVR=copy.path('out/targets', FIRST, FILES[FIRST][1]))
    status, loaded = done(sys.executable, '-c', LOADED, *folders, env=env)
    yield 'the modules of Python: ' + loaded, status == 0 and {it.partition(':')[2] for it in names if it.startswith('python:')} == set(loaded.split())


# The modules that any file of these two packages names, once all are loaded.
LOADED = '''import importlib, pkgutil, sys, types
sys.dont_write_bytecode, sys.path[:0] = True, sys.argv[1:]
found = {'sys', 'os', 'gc', 'signal', 'fcntl'}      # of the script itself; the last of a function
for package in 'cvr_audit', 'cvr':
    top = importlib.import_module(package)
    for it in [top] + [importlib.import_module(package + '.' + it.name) for it in pkgutil.iter_modules(top.__path__)]:
        for value in vars(it).values():
            name = value.__name__ if isinstance(value, types.ModuleType) else getattr(value, '__module__', None) or ''
            found.add(name.lstrip('_').split('.')[0])
print(' '.join(sorted(found - {'', 'cvr', 'cvr_audit', 'builtins', 'frozen_importlib', 'frozen_importlib_external', 'thread'})))'''


def commands_of(copy):
    """Yields whether the commands in PROVENANCE print each sum in it, but those that build, and that ask git."""
    text = held(os.path.join(copy.packages, TOLD)).decode('utf-8')
    shown = re.findall(r'^    (\S.*?)(?:  .*)?$', text.partition('There\n')[2].partition('\n\nWho')[0], re.M)
    words = [it for it in shown if not re.match(r'git |rt |tools/build$', it)]
    yield 'the commands in PROVENANCE: ' + ', '.join(shown), len(shown) - len(words) == 3 and len(words) == 5
    status, told = done('sh', '-c', 'set -e\n' + '\n'.join(words), top=copy.top, env=dict(os.environ, PATH=copy.path('out') + ':' + os.environ['PATH']))
    sums = {name: value for name, value in told_in(text.encode('utf-8')).items() if re.fullmatch('[0-9a-f]{64}', value)}
    lacking = [name for name, value in sums.items() if value not in told]
    yield 'they print the sums: %s: %s' % (lacking, told), status == 0 and not lacking and len(sums) >= 10


def signed(path, folder):
    """Yields whether the commands in a PROVENANCE sign it, and find that; and no other text, key or name."""
    if not shutil.which('ssh-keygen'):
        tenth.leave_out('signatures', 'ssh-keygen is missing')
        return
    room = os.path.join(folder, 'signed')
    os.mkdir(room)
    shutil.copy(path, os.path.join(room, 'PROVENANCE'))
    sign, verify = re.findall(r'^ +(ssh-keygen .*)$', held(path).decode('utf-8'), re.M)
    words = {'KEYFILE': 'builder', 'KEYS': 'keys', 'NAME': 'second@builder'}
    sign, verify = (re.sub(r'\bKEYFILE\b|\bKEYS\b|\bNAME\b', lambda word: words[word.group()], it) for it in (sign, verify))
    for name in 'builder', 'other':
        done('ssh-keygen', '-q', '-t', 'ed25519', '-N', '', '-C', '', '-f', os.path.join(room, name))
    key = {name: held(os.path.join(room, name + '.pub')).decode('utf-8') for name in ('builder', 'other')}
    checks = lambda who, name='second@builder': write(os.path.join(room, 'keys'), name + ' ' + key[who]) or done('sh', '-c', 'cd "$0" && ' + verify, room)[0] == 0
    yield 'a builder signs PROVENANCE', done('sh', '-c', 'cd "$0" && ' + sign, room)[0] == 0
    yield 'the signature of a builder is found', checks('builder')
    yield 'that of another key is not', not checks('other')
    yield 'that under another name is not', not checks('builder', 'first@builder')
    write(os.path.join(room, 'PROVENANCE'), held(path).decode('utf-8').replace('native ', 'native 0', 1))
    yield 'that of another text is not', not checks('builder')


def refused(copy, *words):
    """What tools/package says where it packs nothing, and what was packed stays; else ''."""
    before = [texts_of(it) for it in (copy.packages, copy.dist)]
    status, told = copy.pack(*words)
    return told if status == 1 and 'nothing is packed' in told and before == [texts_of(it) for it in (copy.packages, copy.dist)] else ''


def fewer(copy):
    """Yields whether nothing is packed that was not tried, is not noted as built, or is of other sources; and no release
    without it, or with a file that git doesn't know."""
    for words in ['init', '-q'], ['add', '-A']:
        done('git', *words, top=copy.top)
    write(copy.path('web/other.js'), '')
    yield 'no release with an unknown file', refused(copy, '--release').endswith('\nweb/other.js\n\n')
    os.remove(copy.path('web/other.js'))
    for name, note in (FIRST, 'tried_library'), ('windows-x86_64', 'tried'), ('wasm', 'of'):
        write(copy.path('out/targets', name, note), 'another')
        yield 'no release without ' + name, name + ' is not packed' in refused(copy, '--release')
    wanted = {TOLD, SUMS, 'cvr_%s_arm64.deb' % dist.VERSION, *('cvr-%s-linux-aarch64%s' % (dist.VERSION, it) for it in ('.o', '.tar.gz'))}
    yield 'what is not tried is not packed', copy.pack()[0] == 0 and set(os.listdir(copy.packages)) == wanted
    for path, text in ('out/built', ''), ('out/cvr', '#!/bin/sh\necho cvr 1.0.0\n'), ('crates/cvr/src/main.rt', ''):
        before = held(copy.path(path))
        write(copy.path(path), text)
        yield 'nothing with another ' + path, bool(refused(copy))
        write(copy.path(path), before)


def whole(folder):
    """Yields each trial of what is packed."""
    status, told = done(sys.executable, 'tools/targets', FIRST)
    yield 'tools/targets: ' + told, status == 0
    if status:
        return
    copy, other, place = Copy(folder + '/one'), Copy(folder + '/another place'), folder + '/local'
    copy.make()
    shutil.copytree(copy.top, other.top)
    yield from packed(copy, other, folder)
    yield from archive(copy, place)
    yield from debian(copy, folder + '/unpacked', place)
    yield from others(copy)
    yield from bill('the archive', held(place + '/share/doc/cvr/' + BILL), copy, FIRST)
    yield from commands_of(copy)
    yield from signed(os.path.join(copy.packages, TOLD), folder)
    program = folder + '/linked again'
    status, _ = done('gcc', '-static-pie', '-o', program, os.path.join(copy.packages, 'cvr-%s-%s.o' % (dist.VERSION, FIRST)))
    yield 'the object file, linked again', status == 0 and done(program, '--version') == done(place + '/bin/cvr', '--version')
    yield from fewer(copy)
    yield 'the same bytes where a clone changes ends of lines', held(os.path.join(TOP, '.gitattributes')) == b'* -text\n'


def main():
    words = tenth.words()
    words.add_argument('--installed', action='store_true', help='try what is installed alone')
    words = words.parse_args()
    os.environ.pop('MAKEFLAGS', None)       # of a `make` that runs this, whose DESTDIR is not for what is installed here
    with tempfile.TemporaryDirectory() as folder:
        found = [*installed(words.cvr, folder), *([] if words.installed else whole(folder))]
    for what, is_right in found:
        if not is_right:
            print('WRONG: not so: ' + what)
    wrong = sum(not is_right for _, is_right in found)
    print('package: %d right, %d wrong' % (len(found) - wrong, wrong))
    sys.exit(0 if found and not wrong else 1)


if __name__ == '__main__':
    main()
