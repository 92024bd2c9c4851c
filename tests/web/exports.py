"""exports.py: ZIPs and exports of VxSuite in the page, beside `cvr-audit gather`: the files that it makes, its left-out lines,
and the faults of tests/gather/faults.py."""
import contextlib
import os
import re
import shutil
import struct
import subprocess
import sys
import tempfile
import zipfile

from trial import CLICK, COUNTY, FILES, OPTIONS, SECONDS, SETTLED, TEXTS, TOP, given, saved

sys.path.append(os.path.join(TOP, 'tests/gather'))
import faults   # noqa: E402
import make     # noqa: E402
import planted  # noqa: E402 (these stand there)

BALLOTS = 40
DAMAGED = 'the ZIP is damaged here, or packed in a way that is not known'
# What the page can't see of a fault, or takes for files of another kind.
NOT_HERE = {'vxsuite: no metadata', 'vxsuite: a link', 'vxsuite: a folder that is a link', 'export.zip: a damaged byte', 'export.zip: a workbook'}
SAID = re.compile(r"^What was given can't be read: |\. Nothing (?:of it is added|is shown)\.$")
LEFT = "[...document.querySelectorAll('#answer details')].filter(it => /^Not in them/.test(it.textContent)).flatMap(it => [...it.querySelectorAll('code')].map(one => one.textContent))"


@contextlib.contextmanager
def inside(folder):
    """Works in a folder."""
    before = os.getcwd()
    os.chdir(folder)
    try:
        yield
    finally:
        os.chdir(before)


def packed(folder, name, to, **more):
    """A folder's folder as a ZIP, with its folders without files; answers its path."""
    path = os.path.join(to, 'export.zip')
    with zipfile.ZipFile(path, 'w', **more) as archive, inside(folder):
        for above, folders, names in os.walk(name):
            for it in folders + names:
                archive.write(os.path.join(above, it))
    return path


def tally(browser):
    browser.value(CLICK % 'tally')
    return browser.value(SETTLED)


def native(trial, words, folder):
    """What cvr-audit prints in a folder."""
    done = subprocess.run([sys.executable, os.path.join(TOP, 'companion/cvr-audit'), *words], cwd=folder, env=dict(os.environ, CVR=trial.cvr),
                          stdout=subprocess.PIPE, stderr=subprocess.STDOUT, text=True, timeout=SECONDS)
    return done.stdout


def see_files(browser, trial, out):
    """What the page makes are the files of cvr-audit gather, and its tally is theirs."""
    for name in 'definition.json', 'records-1.json':
        trial.see('an export: ' + name, saved(browser, 'Save ' + name, name), faults.read(os.path.join(out, name)))
    text = subprocess.run([trial.cvr, 'tally', 'definition.json', 'records-1.json'], cwd=out, stdout=subprocess.PIPE, timeout=SECONDS).stdout
    trial.see('an export: its tally', browser.value(TEXTS % 'text'), text.decode())


def see_export(browser, trial, room, has_folders):
    """A random export, with a file and a member that aren't known, as a ZIP and, where the protocol gives folders, as one."""
    make.make('vxsuite', room, BALLOTS, 5)
    meta = os.path.join(room, 'vxsuite/metadata.json')
    faults.write(os.path.join(room, 'vxsuite/notes.txt'), b'unknown')
    faults.write(meta, faults.read(meta).replace(b'{"arePollsClosed"', b'{"mystery": 1, "arePollsClosed"').replace(b'"Version": "1.0.0"', b'"Version": "1.0.0", "OtherReportType": "x"', 1))
    shutil.copytree(os.path.dirname(os.path.join(room, 'vxsuite', next(it for it in make.files_below(os.path.join(room, 'vxsuite')) if it.endswith('report.json')))),
                    os.path.join(room, 'vxsuite/rejected-1'))
    for path in [packed(room, 'vxsuite', room)] + [os.path.join(room, 'vxsuite')] * has_folders:
        out = 'out-' + os.path.basename(path)
        told = native(trial, ['gather', os.path.basename(path), '-o', out], room).splitlines()
        said = given(browser, [path], '#files' if path.endswith('.zip') else '#folder')
        trial.see('an export is known', re.sub(r'\d+', 'N', said), 'An export of VxSuite: N files.')
        trial.see('an export is tallied', tally(browser), 'Done.')
        trial.see('an export: what is left out', browser.value(LEFT), [it for it in told if it.startswith(('left out', 'note'))])
        trial.see('an export: the commands', browser.value("document.querySelector('#answer pre').textContent").splitlines()[0],
                  'cvr-audit gather %s -o gathered' % os.path.basename(path))
        see_files(browser, trial, os.path.join(room, out))


def see_fault(browser, trial, fault, room):
    """An export that is wrong: the page says what cvr-audit says; the texts of JSON's faults, and of those of cvr, are its own."""
    shutil.copytree(make.EXAMPLES, room, dirs_exist_ok=True)
    with inside(room):
        fault.change()
    path, log = os.path.join(room, 'export.zip'), re.sub(r': line \d+(?=: it is no JSON)', '', fault.log)
    if fault.export == 'vxsuite':
        path, log = packed(room, 'vxsuite', room), log.replace('vxsuite/', 'export.zip/vxsuite/')
    said = given(browser, [path])
    found = SAID.sub('', tally(browser) if said.startswith('An export') else said)
    its = re.match(r'.*: cvr refuses it: E\d [^ ]+', log)
    wanted = its.group() if its else log.rstrip('.') if log.endswith('..') else log
    trial.see('a fault: ' + fault.name, found[:len(wanted)] if its or log.endswith('..') else found, wanted)
    trial.see('nothing of it is shown: ' + fault.name, browser.value(TEXTS % 'answer'), '')


def see_planted(browser, trial, case, room):
    """An export that isn't what it seems is refused in the words of cvr-audit gather, and nothing of it is shown."""
    with inside(room):
        case.lay()
    given(browser, [packed(room, 'export', room)])
    trial.see('planted: ' + case.name, SAID.sub('', tally(browser)), case.log.replace('export/', 'export.zip/export/'))
    trial.see('nothing of it is shown: ' + case.name, browser.value(TEXTS % 'answer'), '')


def see_test(browser, trial, room):
    """An export of a test: each number stands below a line that says so, and so does the CSV; beside a report of an election the files
    of what was gathered are refused."""
    with inside(room):
        make.vxsuite(planted.election([4, 3]), '.')
        planted.changed(planted.VX, lambda it: planted.of_a_test(it['castVoteRecordReportMetadata']))
    given(browser, [packed(room, 'vxsuite', room)])
    trial.see('a test is tallied', tally(browser), 'Done.')
    line = 'TEST: 2 of 2 reports are of a test'
    trial.see('a test: the page', browser.value("[...document.querySelectorAll('#answer > p')].map(it => it.textContent).slice(0, 2)"), [line, 'TEST'])
    trial.see('a test: the CSV', saved(browser, 'Save the totals as CSV', 'tally-test.csv').split(b'\r\n')[0], b'\xef\xbb\xbf' + line.encode())
    native(trial, ['gather', 'export.zip', '-o', 'out'], room)
    see_files(browser, trial, os.path.join(room, 'out'))
    path = os.path.join(room, 'out/records-1.json')
    faults.write(os.path.join(room, 'out/live.json'), faults.read(path).replace(b'"OtherReportType":"test"', b'"OtherReportType":"export"'))
    given(browser, [os.path.join(room, 'out', it) for it in ('definition.json', 'records-1.json', 'live.json')])
    trial.see('a test beside an election', SAID.sub('', tally(browser)), planted.MIXED % ('definition.json', 'live.json', 2, 1))


def see_damaged(browser, trial, room):
    """A ZIP whose first report isn't as it was packed, by a byte, both where it is packed and where it isn't."""
    for kind in zipfile.ZIP_STORED, zipfile.ZIP_DEFLATED:
        path = packed(make.EXAMPLES, 'vxsuite', room, compression=kind)
        with zipfile.ZipFile(path) as archive:
            entry = next(it for it in sorted(archive.infolist(), key=lambda it: it.filename) if it.filename.endswith('report.json'))
        data = bytearray(faults.read(path))
        data[entry.header_offset + 30 + len(entry.filename) + 50] ^= 1
        faults.write(path, bytes(data))
        given(browser, [path])
        trial.see('a damaged byte in a ZIP', SAID.sub('', tally(browser)), 'export.zip/%s: %s' % (entry.filename, DAMAGED))


def widened(data):
    """A ZIP with its numbers in 64 bits, as one of more than 4 GiB or 65,535 files has them."""
    *_, count, size, place, _ = struct.unpack('<4s4H2LH', data[-22:])
    entries, at = b'', place
    for _ in range(count):
        name, more, note = struct.unpack('<3H', data[at + 28:at + 34])
        packed_size, whole, begin = *struct.unpack('<2L', data[at + 20:at + 28]), *struct.unpack('<L', data[at + 42:at + 46])
        head, at = data[at:at + 46 + name], at + 46 + name + more + note
        wide = struct.pack('<2H3Q', 1, 24, whole, packed_size, begin)
        entries += head[:20] + b'\xff' * 8 + head[28:30] + struct.pack('<2H', 28, 0) + head[34:42] + b'\xff' * 4 + head[46:] + wide
    list_64 = b'PK\x06\x06' + struct.pack('<Q2H2L4Q', 44, 45, 45, 0, 0, count, count, len(entries), place)
    locator = b'PK\x06\x07' + struct.pack('<LQL', 0, place + len(entries), 1)
    return data[:place] + entries + list_64 + locator + b'PK\x05\x06' + b'\0' * 4 + b'\xff' * 12 + b'\0' * 2


def see_zip(browser, trial, room, is_wide):
    """A ZIP of files for cvr, of 32 or of 64 bits."""
    path = os.path.join(room, 'county.zip')
    with zipfile.ZipFile(path, 'w') as archive:
        for name in FILES[:3]:
            archive.write(os.path.join(COUNTY, name), 'county/' + name, zipfile.ZIP_DEFLATED)
        archive.writestr('county/other.txt', b'')
    data = faults.read(path)
    faults.write(path, widened(data) if is_wide else data)
    with zipfile.ZipFile(path) as archive:      # Python reads it, too
        trial.see('a ZIP that is whole', archive.testzip(), None)
    given(browser, [path])
    trial.see('a ZIP of files', browser.value(OPTIONS), ['county.zip/county/' + it for it in sorted(FILES[:3])])
    trial.see('it is tallied', tally(browser), 'Done.')
    trial.see('its text', browser.value(TEXTS % 'text'), trial.printed('tally', *FILES[:3]).decode())


def see_exports(browser, trial, folder, is_whole):
    """All of these; in the second browser an export as a ZIP alone, since its protocol gives no folders."""
    room = tempfile.mkdtemp(dir=folder)
    see_export(browser, trial, room, is_whole)
    see_damaged(browser, trial, room)
    if is_whole:
        see_zip(browser, trial, room, False)
        see_zip(browser, trial, room, True)
        see_test(browser, trial, tempfile.mkdtemp(dir=folder))
        for case in planted.CASES:
            if case.kind == 'vxsuite' and case.log:
                see_planted(browser, trial, case, tempfile.mkdtemp(dir=folder))
        for fault in faults.all_faults():
            if fault.export in ('vxsuite', 'export.zip') and fault.name not in NOT_HERE:
                see_fault(browser, trial, fault, tempfile.mkdtemp(dir=folder))
