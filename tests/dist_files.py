"""What tests try of what is made of the program: files of the release in dist/, if that was made of the program's sources as
they are, by its PROVENANCE; or else what tools/targets makes. The variable DIST names another folder. A module, not a
command."""
import base64
import glob
import gzip
import os
import re
import shutil
import subprocess
import sys

TOP = os.path.dirname(os.path.dirname(os.path.abspath(__file__)))
DIST = os.environ.get('DIST', os.path.join(TOP, 'dist'))
MAKING = 3000       # seconds of tools/targets, also beside proofs
PAGE, LACKS = 'cvr.html', 'dist/ has nothing of these sources; ./prove makes it'
# Of each file below out/targets the archive in dist/ that has it, and its place there.
PLACES = {'linux-x86_64/cvr': ('*-linux-x86_64.tar.gz', '*/bin/cvr'), 'linux-aarch64/cvr': ('*-linux-aarch64.tar.gz', '*/bin/cvr'),
          'linux-x86_64/libcvr.so': ('*-manylinux_*.whl', 'cvr/libcvr.so'), 'windows-x86_64/cvr.exe': ('*-windows-x86_64.zip', '*/cvr.exe'),
          'windows-x86_64/cvr.dll': ('*-win_amd64.whl', 'cvr/cvr.dll'), 'wasm/cvr.wasm': (PAGE, 'cvr.wasm')}


def held(*path):
    with open(os.path.join(*path), 'rb') as file:
        return file.read()


def is_of_these():
    """Whether there is a release of the program's sources as they are."""
    path = os.path.join(DIST, 'PROVENANCE')
    told = re.search(rb'^sources +(\w+)$', held(path), re.M) if os.path.exists(path) else None
    return bool(told) and told.group(1) == subprocess.run([TOP + '/tools/sum'], stdout=subprocess.PIPE, check=True).stdout.strip()


def of_release(name, folder):
    """The path of a file of the release, unpacked in a folder; None where there is none of these sources."""
    if not is_of_these():
        return None
    (archive, place), folder = PLACES[name], os.path.join(folder, os.path.dirname(name))
    [path] = glob.glob(os.path.join(DIST, archive))
    if archive == PAGE:
        os.makedirs(folder)
        with open(os.path.join(folder, place), 'wb') as file:
            file.write(gzip.decompress(base64.b64decode(re.search(rb'id="module">([^<]*)<', held(path)).group(1))))
    else:
        shutil.unpack_archive(path, folder, 'gztar' if path.endswith('.gz') else 'zip')
    [path] = glob.glob(os.path.join(folder, place))
    return path


def taken(name, is_dist, folder):
    """The path of a file of the release, or of one that tools/targets makes; None where there is none."""
    if is_dist:
        return of_release(name, folder)
    subprocess.run([sys.executable, 'tools/targets', name.split('/')[0]], cwd=TOP, check=True, timeout=MAKING)
    path = os.path.join(TOP, 'out/targets', name)
    return path if os.path.exists(path) else None
