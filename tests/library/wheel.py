#!/usr/bin/env python3
"""wheel.py LIBRARY

Tries the wheel that tools/wheel packs with a library, libcvr.so or cvr.dll: the files that it has, their sums, its tag,
and that it is the same bytes twice. One for Linux is also installed into a new environment of Python, by `pip` and without
a network, and package.py is run over it there; where Python has no `venv` or no `pip`, that is left out and said. That for
Windows isn't installed anywhere. The last line is `wheel: N right, M wrong`."""
import base64
import email
import hashlib
import os
import re
import sys
import tempfile
import zipfile

sys.dont_write_bytecode = True
HERE = os.path.dirname(os.path.abspath(__file__))
TOP = os.path.dirname(os.path.dirname(HERE))
sys.path.insert(0, os.path.dirname(HERE))
import trials               # noqa: E402
from dist_files import held     # noqa: E402 (both stand there)


def printed(*words):
    """(status, output) of a command in a folder that has nothing of cvr, without what says where the library is."""
    return trials.printed(words, cwd='/', env={name: text for name, text in os.environ.items() if name not in ('LIBCVR', 'PYTHONPATH')})


def packed(library, folder):
    """The path of a wheel that is packed into a new folder."""
    os.mkdir(folder)
    status, told = printed(os.path.join(TOP, 'tools/wheel'), library, folder)
    if status:
        sys.exit('WRONG: tools/wheel: %s\nwheel: 0 right, 1 wrong' % told.strip())
    return told.strip()


def wanted_tag(library):
    """The tag for what a library needs, as `readelf` tells it."""
    if library.endswith('.dll'):
        return 'win_amd64'
    needed = {tuple(map(int, it.split('.'))) for it in re.findall(r'Name: GLIBC_([\d.]+)', printed('readelf', '-V', library)[1])}
    return 'manylinux_%d_%d_x86_64' % max(needed)[:2]


def of_files(path, library):
    """Whether a wheel has what it has to have, and says so."""
    with zipfile.ZipFile(path) as file:
        texts = {it: file.read(it) for it in file.namelist()}
    about, tag = 'cvr-%s.dist-info/' % os.path.basename(path).split('-')[1], wanted_tag(library)
    yield 'its name has the tag of the library', path.endswith('-py3-none-%s.whl' % tag)
    yield 'so has WHEEL', texts[about + 'WHEEL'].endswith(b'\nRoot-Is-Purelib: false\nTag: py3-none-%s\n' % tag.encode())
    yield 'METADATA names it', texts[about + 'METADATA'].startswith(b'Metadata-Version: 2.1\nName: cvr\nVersion: ')
    told = email.message_from_bytes(texts[about + 'METADATA'])
    yield 'and says for which Python', told['Requires-Python'] == '>=3.8' and 'Programming Language :: Python :: 3 :: Only' in told.get_all('Classifier')
    yield 'and for which system', ('Operating System :: Microsoft :: Windows' in told.get_all('Classifier')) == library.endswith('.dll')
    yield 'and has a description', told['Description-Content-Type'] == 'text/markdown' and '    import cvr\n' in told.get_payload()
    yield 'it has the library', texts['cvr/' + os.path.basename(library)] == held(library)
    package = os.path.join(TOP, 'python/cvr')
    for name in os.listdir(package):
        yield 'it has ' + name, texts.get('cvr/' + name) == held(os.path.join(package, name))
    sums = {it: 'sha256=' + base64.urlsafe_b64encode(hashlib.sha256(text).digest()).decode().strip('=') for it, text in texts.items()}
    lines = {','.join((it, sums[it], str(len(texts[it])))) for it in texts if it != about + 'RECORD'} | {about + 'RECORD,,'}
    record = texts[about + 'RECORD'].decode().splitlines()
    yield 'RECORD has each file once, with its sum and size', len(record) == len(texts) and set(record) == lines


def of_package(path, folder):
    """Whether `pip` installs a wheel, and package.py finds it right."""
    place = os.path.join(folder, 'environment')
    if printed(sys.executable, '-m', 'venv', place)[0]:
        print('the wheel is not installed: Python has no venv with pip here')
        return
    python = os.path.join(place, 'bin/python')
    status, told = printed(python, '-m', 'pip', 'install', '--no-index', path)
    yield 'pip installs it: ' + told[-400:], status == 0
    version = 'import cvr, importlib.metadata as its; print(its.version("cvr") == cvr.__version__)'
    yield 'it has the version of its library', printed(python, '-I', '-c', version) == (0, 'True\n')
    status, told = printed(python, '-I', os.path.join(HERE, 'package.py'), '--installed')
    yield 'the package that is installed: ' + told, status == 0 and re.fullmatch(r'python: [1-9]\d* right, 0 wrong\n', told) is not None


def main():
    library = os.path.abspath(sys.argv[1])
    with tempfile.TemporaryDirectory() as folder:
        path = packed(library, os.path.join(folder, 'one'))
        found = [('it is the same bytes twice', held(packed(library, os.path.join(folder, 'other'))) == held(path))]
        found += [*of_files(path, library), *(of_package(path, folder) if library.endswith('.so') else [])]
    for name, is_right in found:
        if not is_right:
            print('WRONG: not so: ' + name)
    wrong = [is_right for _, is_right in found].count(False)
    print('wheel: %d right, %d wrong' % (len(found) - wrong, wrong))
    sys.exit(1 if wrong else 0)


if __name__ == '__main__':
    main()
