#!/usr/bin/env python3
"""terminal.py --cvr PATH [--tenth WORD]

What a run shows on a terminal, beside what it prints. Where standard error is a terminal, it has a line `read N files`
from the second file on. The next such line overwrites it, and it is removed before anything else is written and at the
end. So the screen ends with the log and the notes of the run; with output, log and notes where all go to it. Where
standard error is no terminal, it gets the log and not a byte more, also beside an output that is a terminal.

- Runs over files that are accepted, refused or missing, of each command, and of help and refused words: on a terminal
each, on one terminal for both, and on pipes.
- Notes, as stated below by hand: why a file is refused, of each code, and what stands there; of one that is no JSON, where
it stops, and what it is instead; of one that can't be read again, or was written to, only why; records of the definition's own; names with several texts; no files; what the system says of a file that
can't be read. Of more than ten refused files, ten and how many more; of 100,000, too, and with no more memory than the
same run takes where there is no terminal.
- A file that another program writes to while it is read (devices.c), DEF or another: its length grows, or it has a later
time; and where the definition is refused, too.
- A file that is read slowly, by a named pipe: the line stays while the run waits for it.
- The terminal fails at each call of the line, with one byte a call (devices.c): output, log and status are as usual.
Where there is no cc, or nothing can be loaded with the program, a line `left out` says that devices.c is not used.

The texts are those of tests/rows/printed.py. The judge of a screen is tried first, on right and on wrong ones. The last
line is `terminal: N right, M wrong`; the status is 0 only where M is 0 and N is not."""
import argparse
import errno
import gzip
import json
import os
import pty
import re
import subprocess
import sys
import tempfile
import threading
import tty

sys.dont_write_bytecode = True
HERE = os.path.dirname(os.path.abspath(__file__))
sys.path.insert(0, HERE)
import damage  # noqa: E402
import tenth   # noqa: E402 (they stand here)

SECONDS = 60
MARK = b'\0'         # no run prints it
NAMED = 10          # refused files that have a note
MANY = 100000       # refused files of a long run, and the most memory, in KiB, that its notes may take
SPARE = 1024
# A program that runs another, and writes to the file `most` how much memory it took, in KiB.
MEASURED = '''#!%s -S
import os, sys
child = os.spawnv(os.P_NOWAIT, %r, ['cvr'] + sys.argv[1:])
_, ended, usage = os.wait4(child, 0)
with open('most', 'w') as file:
    file.write(str(usage.ru_maxrss))
sys.exit(os.waitstatus_to_exitcode(ended))
'''
ENDS = ('terminal', 'pipe')
F2 = damage.rows.VECTORS['f2.json']
DEF = damage.rows.VECTORS['def.json']

# What a file is instead of a report, and what to do.
EXPORTS = ' cvr-audit gather makes reports of the exports that it knows.'
KINDS = {
    'nothing': 'It is empty. Copy it again.',
    'cut': 'It is JSON that ends too soon. Copy it again, and compare the lengths.',
    'mark': 'It has a byte order mark before its text. Have it written without one.',
    'utf-16': 'It is a text in UTF-16. Have it written in UTF-8.',
    'zip': 'It is a ZIP, or a workbook, which is one. Unpack it, or have the records of a workbook exported as CSV.' + EXPORTS,
    'gzip': 'It is packed by gzip. Unpack it.',
    'pdf': 'It is a PDF, which has no records. Ask for the export that it was printed from.',
    'xml': 'It is XML or a page of the web. Have the records exported as JSON.' + EXPORTS,
    'table': 'It is a table such as CSV. Have the records exported as JSON; a list of voters or of batches has none.' + EXPORTS,
    'json': 'It is JSON of another kind than a report.' + EXPORTS,
    'damaged': 'It is JSON that is damaged. Have it exported again.',
    'unknown': 'It is of no kind that is known here. Ask the maker of the tool that wrote it for JSON of the standard.',
    'strange': 'It is JSON that not every reader takes: it is nested too deep, or has a number that is too large, half a sign, or a word such as NaN. '
               'Have it exported again.',
}

# Files that are no JSON, each with the line and the byte where JSON ends in it, and what it is.
NO_JSON = {
    'half': (F2[:100], 1, 100, 'cut'),
    'word': (b'{"a": tru', 1, 7, 'cut'),
    'gz': (gzip.compress(F2, mtime=0), 1, 2, 'gzip'),
    'zip': (b'PK\x03\x04', 1, 1, 'zip'),
    'pdf': (b'%PDF-1.7', 1, 1, 'pdf'),
    'xml': (b'\n <CastVoteRecordReport/>', 2, 2, 'xml'),
    'csv': (b'Cast Vote Record,Precinct\n1,P\n', 1, 1, 'table'),
    'tabs': (b'Record\tPrecinct\n1\tP\n', 1, 1, 'table'),
    'wide': (b'Cast Vote Record ' * 200 + b',Precinct\n1,P\n', 1, 1, 'table'),
    'prose': (b'Dear office\nhere are, as you asked\n', 1, 1, 'unknown'),
    'empty': (b'', 1, 0, 'nothing'),
    'blank': (b' \r\n\t', 2, 1, 'nothing'),
    'utf16': (F2.decode('utf-8').encode('utf-16'), 1, 1, 'utf-16'),
    'utf16-le': (F2.decode('utf-8').encode('utf-16-le'), 1, 2, 'utf-16'),
    'utf16-mark-be': (b'\xfe\xff' + F2.decode('utf-8').encode('utf-16-be'), 1, 1, 'utf-16'),
    'utf16-be': (F2.decode('utf-8').encode('utf-16-be'), 1, 1, 'utf-16'),
    'mark': (b'\xef\xbb\xbf' + F2, 1, 1, 'mark'),
    'more': (F2 + b'\n}', 2, 1, 'damaged'),
    'latin': (F2.replace(b'"p1"', b'"p\xe9"', 1), 1, 85, 'damaged'),
    'twice': (F2.replace(b':', b'::', 1), 1, 10, 'damaged'),
    'red\x1b[31m': (b'', 1, 0, 'nothing'),
    'lines': (b'{\n  "\xc3\xa9": nul\n}', 2, 9, 'damaged'),
}

# What is wrong with a refused file, by code, and by rule.
WORDS = {
    'E1': 'The file is longer than 67,108,864 bytes. Have the tool that wrote it write several files.',
    'E2': 'The file is no JSON text. Look whether it was cut off, or is of another kind, as XML; take away a byte order mark.',
    'E4': 'A text of it has to be the id of something in the file, and is not. Look the id up in the file, and have it exported again.',
    'E5': "Its election, a unit or a party of it is not the definition's. Was it exported under another version of the election? "
          'Use the definition that it was made under, or have it exported again.',
}
RULES = {
    '1': 'an object is needed', '2': 'a required member is absent', '3': 'a value is of another kind', '4': 'a text is none of those listed',
    '5': 'an object of another class stands there', '6': 'a name is empty', '7': 'a count is out of range', '8': 'an array has too few items',
    '9': 'an array has too many items', '10': 'fractional votes are not counted', '11': 'a text is no date and time with an offset',
    '12': 'an id stands twice', '13': 'a contest stands twice in a snapshot', '14': 'a number is not whole',
}


def changed(old, new):
    """A file that is accepted, with another text in the place of one."""
    return damage.rows.replaced(F2.decode('utf-8'), old, new).encode('utf-8')


# Files that are refused, each with its fault as a log line has it.
ONE = '/CVR/0/CVRSnapshot/0'
# The definition with records of its own.
OWN = json.dumps(dict(json.loads(DEF), CVR=json.loads(F2)['CVR'] * 3)).encode('utf-8')
POSITION = ONE + '/CVRContest/0/CVRContestSelection/0/SelectionPosition/0'
SAID = 'record: "s1" "u1")'
BAD = {
    'bad': (damage.BAD, 'E3 /CVR/0/UniqueId 2', ' (value: -; record: "s1" -)'),
    'long': (b' ' * 67108865, 'E1', ''),
    'large': (changed('"NumberVotes":1', '"NumberVotes":1e999'), 'E2', ''),
    'array': (b'[]', 'E3  1', ' (value: []). ' + KINDS['json']),
    'number': (changed('"u1"', '1'), 'E3 /CVR/0/UniqueId 3', ' (value: 1; record: "s1" 1)'),
    'version': (changed('"1.0.0"', '"1.0.1"'), 'E3 /Version 4', ' (value: "1.0.1")'),
    'class': (changed('"CVR.CVR"', '"CVR.Election"'), 'E3 /CVR/0/@type 5', ' (value: "CVR.Election"; ' + SAID),
    'no-name': (changed('"u1"', '""'), 'E3 /CVR/0/UniqueId 6', ' (value: ""; record: "s1" "")'),
    'below': (changed('"NumberVotes":1', '"NumberVotes":-1'), 'E3 %s/NumberVotes 7' % POSITION, ' (value: -1; ' + SAID),
    'deep': (changed('"ReportGeneratingDeviceIds":["s1"]', '"ReportGeneratingDeviceIds":["s1"],"x":{"y":[1.5]}'), 'E3 /x/y/0 14', ' (value: 1.5)'),
    'few': (json.dumps(dict(json.loads(F2), Election=[])).encode('utf-8'), 'E3 /Election 8', ' (value: [])'),
    'many-of-one': (json.dumps(dict(json.loads(F2), Election=json.loads(F2)['Election'] * 2)).encode('utf-8'), 'E3 /Election 9',
                    ' (value: [{"@id":"e","@type":"CVR.Election","Contest":[{"@id":"mayor"…)'),
    'fraction': (changed('"NumberVotes":1', '"FractionalVotes":"0.5","NumberVotes":1'), 'E3 %s/FractionalVotes 10' % POSITION, ' (value: "0.5"; ' + SAID),
    'moment': (changed('2024-11-05T20:00:00Z', '2024-11-05'), 'E3 /GeneratedDate 11', ' (value: "2024-11-05")'),
    'twice-id': (changed('"GpUnit":[', '"GpUnit":[{"@id":"p2","@type":"CVR.GpUnit","Type":"precinct"},'), 'E3 /GpUnit/2/@id 12', ' (value: "p2")'),
    'twice-contest': (changed('"ContestId":"mayor"}', '"ContestId":"mayor"},{"@type":"CVR.CVRContest","ContestId":"mayor"}'), 'E3 %s/CVRContest/1/ContestId 13' % ONE,
                      ' (value: "mayor"; ' + SAID),
    'half-vote': (changed('"NumberVotes":1', '"NumberVotes":0.5'), 'E3 %s/NumberVotes 14' % POSITION, ' (value: 0.5; ' + SAID),
    'name': (changed('"UniqueId":"u1"', '"UniqueId":"u1","a/b~":0.5'), 'E3 /CVR/0/a~1b~0 14', ' (value: 0.5; ' + SAID),
    'stranger': (changed('"ContestSelectionId":"ann"', '"ContestSelectionId":"eve"'), 'E4 %s/CVRContest/0/CVRContestSelection/0/ContestSelectionId' % ONE,
                 ' (value: "eve"; ' + SAID),
    'red': (changed('"ContestSelectionId":"ann"', '"ContestSelectionId":"\\u001b[31m\\u009b\u009b%s"' % ('e' * 60)), 'E4 %s/CVRContest/0/CVRContestSelection/0/ContestSelectionId' % ONE,
            ' (value: "\\u001b[31m\\u{9b}\\u{9b}%s…; %s' % ('e' * 47, SAID)),
    'other': (changed('"Selection":"Yes"', '"Selection":"Aye"'), 'E5 /Election/0',
              ' (first difference: /Election/0/Contest/1/ContestSelection/0/Selection: "Aye", in the definition "Yes")'),
    'fewer': (changed(',{"@id":"no","@type":"CVR.BallotMeasureSelection","Selection":"No"}', ''), 'E5 /Election/0',
              ' (first difference: /Election/0/Contest/1/ContestSelection/1: -, in the definition {"@id":"no","@type":"CVR.BallotMeasureSelection","Selection"…)'),
    'named': (changed('"ElectionScopeId":"p1"', '"ElectionScopeId":"p1","Name":"A/~"'), 'E5 /Election/0', ' (first difference: /Election/0/Name: "A/~", in the definition -)'),
    'both': (changed('"IsWriteIn":true', '"Extra":1'), 'E5 /Election/0', ' (first difference: /Election/0/Contest/0/ContestSelection/2/Extra: 1, in the definition -)'),
    'unit': (changed('"GpUnit":[', '"GpUnit":[{"@id":"p3","@type":"CVR.GpUnit","Type":"precinct"},'), 'E5 /GpUnit/0',
             ' (first difference: /GpUnit/0/@id: "p3", in the definition -)'),
}

# Of them those whose notes can't say more where they aren't read again, each with its fault.
UNKNOWN = ('half', 'E2'), ('number', BAD['number'][1])

# Options of other programs, each with what there is in its place.
TABLES = 'cvr prints lines; cvr-audit totals DEF FILE.. --format json, or csv, prints tables'
TRIED = {**dict.fromkeys(('--json', '--csv', '--format'), TABLES), **dict.fromkeys(('-o', '--out', '--output'), 'cvr prints to standard output, which > OUT saves in a file')}


# ---- the judge

def line(files):
    """The text of the line, or nothing where there is no line."""
    return 'read %d files' % files if files > 1 else ''


def screen(text):
    """The rows that a terminal shows, and the row of the cursor at each carriage return."""
    found, row, column, before = [], '', 0, []
    for sign in text:
        if sign == '\r':
            before.append(row.rstrip())
            column = 0
        elif sign == '\n':
            found.append(row.rstrip())
            row, column = '', 0
        else:
            row, column = row[:column] + sign + row[column + 1:], column + 1
    return found + [row.rstrip()], before


def wrong_of(text, files, told):
    """What is wrong with what a terminal got, or nothing. So many files were read, and `told` was printed on it."""
    shown, before = screen(text)
    lines = [line(number) for number in range(2, files + 1)]
    if shown != screen(told)[0]:
        return 'the screen shows %r, expected %r' % (shown, told)
    if [one for one in before if one] != lines:
        return 'the line said %r, expected %r' % (before, lines)
    if lines and (before[0] or before[-1]):
        return 'the line was not taken away: %r' % before
    return '' if '\r' in text or text == told else 'no line, and other bytes than those expected: %r' % text


def judged():
    """Yields what is wrong with the judge, or nothing."""
    told = 'a: E2\nb: E1\n'
    first, second, gone = '\rread 2 files', '\rread 3 files', '\r%s\r' % (' ' * 20)
    right = [(told, 1), (told, 0), (first + gone + told, 2), (first + second + gone + told, 3)]
    wrong = [(told, 2), (' ' + told, 1), (told + ' ', 1), ('', 0)]
    wrong += [(first + told, 2), (first + '\n' + told, 2), (first + gone, 2), (first + gone + '\n' + told, 2), (first + gone + told[6:], 2)]
    wrong += [(first + gone + told, 1), (first + gone + told, 3), (second + gone + told, 3), (first + second + gone + told, 2)]
    wrong += [(first + second + gone[:9] + '\r' + told, 3), (told[:6] + first + gone + told[6:], 3), (first + gone + told + first, 2), (first + first + gone + told, 2)]
    for text, files in right:
        yield wrong_of(text, files, told) and 'judge: %r is right' % text
    for text, files in wrong:
        yield '' if wrong_of(text, files, told) else 'judge: %r is wrong' % text


# ---- runs

class End:
    """A terminal or a pipe that a run writes to, and what it got. It stays open until MARK comes behind the run's text,
    since what is written just before the last writer closes a terminal can be lost."""

    def __init__(self, kind):
        self.got, self.stood = b'', threading.Condition()
        self.ours, self.theirs = pty.openpty() if kind == 'terminal' else os.pipe()
        if kind == 'terminal':
            tty.setraw(self.theirs)     # else it makes two characters of a line feed
        self.reading = threading.Thread(target=self.read, daemon=True)
        self.reading.start()

    def read(self):
        while not self.got.endswith(MARK):
            data = os.read(self.ours, 4096)
            with self.stood:
                self.got += data
                self.stood.notify_all()

    def waits_for(self, text):
        """Whether this text comes."""
        with self.stood:
            return self.stood.wait_for(lambda: text in self.got, SECONDS)

    def all(self):
        """All that it got, once the run has ended."""
        os.write(self.theirs, MARK)
        self.reading.join(SECONDS)
        for end in self.ours, self.theirs:
            os.close(end)
        return self.got.removesuffix(MARK).decode('utf-8')


class Run:
    """A run of the program whose output and log are ends; one for both where they are the same."""

    def __init__(self, program, words, out, log, device=None, given=subprocess.DEVNULL):
        self.out, self.log = out, log
        self.process = subprocess.Popen([program.cvr] + words, cwd=program.folder, env=damage.with_device(device), stdin=given,
                                        stdout=out.theirs, stderr=log.theirs)

    def left(self):
        """What the ends got, and the status."""
        try:
            status = self.process.wait(SECONDS)
        except subprocess.TimeoutExpired:
            self.process.kill()
            status = 'no end, %r' % self.process.wait()
        log = self.log.all()
        return log if self.out is self.log else self.out.all(), log, status


def differs(got, wanted):
    return '' if got == wanted else 'status %r, expected %r' % (got, wanted) if isinstance(wanted, int) else 'took %r, expected %r' % (got, wanted)


def note_on(named, fault):
    """The note on a refused file, or on the step that imports it. Control characters are escaped."""
    path, code = named.split('=')[-1], fault.split(' ')[0]
    name = re.sub('[\0-\x1f\x7f-\x9f]', lambda it: '\\u{%x}' % ord(it[0]), named)
    if path in NO_JSON:
        line, byte, kind = NO_JSON[path][1:]
        return 'note: %s: no JSON at line %d, byte %d. %s\n' % (name, line, byte, KINDS[kind])
    if code == 'E2':
        return 'note: %s: %s\n' % (name, KINDS['strange'])
    return 'note: %s: %s%s\n' % (name, words_on(fault), BAD[path][2])


def words_on(fault):
    """What is wrong in general, and where."""
    code, _, rest = fault.partition(' ')
    place, rule = rest.rsplit(' ', 1) if code == 'E3' else (rest, None)
    return (place and 'at %s: ' % place) + (RULES[rule] if rule else WORDS[code])


def notes(program, asked):
    """The notes of a run, by its log and by the table above."""
    log = asked.log.decode('utf-8')
    if asked.status == 2:
        return next(('note: %s: %s\n' % (it, TRIED[it]) for it in (word.split('=')[0] for word in asked.words) if it in TRIED), '')
    if asked.status == 3:
        code = errno.EISDIR if '.: K1' in log else errno.ENOENT
        return 'note: K1: %s (os error %d)\n' % (os.strerror(code), code)
    if asked.words[0] not in damage.printed.TASKS or asked.status > 1:
        return ''
    path, *given = damage.printed.paths(asked.words)
    refused = [note_on(*one) for one in re.findall(r'^(.*?): (E[1-5].*)$', log, re.M)]
    if log.startswith(path + ': '):
        return refused[0]
    more = len(re.findall(r': [EN]\d', log)) - NAMED
    found = ''.join(refused[:NAMED]) + ('note: %d more were refused\n' % more if more > 0 else '')
    with open(program.path(path), 'rb') as file:
        records = len(json.load(file)['CVR'])
    if records and path not in given:
        found += 'note: %s: records of its own, which are not counted: %d\n' % (path, records)
    if asked.words[0] in damage.TASKS and asked.words[0] != 'conflicts':
        read = [(one, damage.reading(damage.rows.VECTORS[one])) for one in given if one in damage.rows.VECTORS]
        several = damage.case('conflicts', read).out.count(b'\n') - 1
        found += 'note: names with several texts, which cvr conflicts lists: %d\n' % several if several else ''
    return found + ('' if given else 'note: no files were given\n')


def wrongs(program, asked, files, noted):
    """Yields, for each kind of its ends, what is wrong with a run, or nothing. The run reads so many files beside its
    first, and has these notes."""
    told, log = asked.out.decode('utf-8'), asked.log.decode('utf-8')
    for out_kind in ENDS:
        for log_kind in ENDS:
            left = Run(program, asked.words, End(out_kind), End(log_kind)).left()
            is_wrong = wrong_of(left[1], files, log + noted) if log_kind == 'terminal' else differs(left[1], log)
            yield differs(left[0], told) or is_wrong or differs(left[2], asked.status)
    both = {}
    for kind in ENDS:
        end = End(kind)
        both[kind], _, status = Run(program, asked.words, end, end).left()
        yield differs(status, asked.status)
    yield differs(len(both['pipe']), len(told + log)) or wrong_of(both['terminal'], files, both['pipe'] + noted)


def slow(program, names):
    """What is wrong with a run over files, or nothing; the last file comes slowly."""
    asked = damage.case('currents', damage.held(*names))
    os.mkfifo(program.path('slow'))
    run = Run(program, asked.words[:-1] + ['slow'], End('pipe'), End('terminal'))
    stands = run.log.waits_for(line(len(names) - 1).encode('ascii'))
    writer = subprocess.Popen(['cp', names[-1], 'slow'], cwd=program.folder)       # waits until the run reads it
    out, log, status = run.left()
    writer.kill()
    writer.wait()
    return ('' if stands else 'the line does not stand while the run waits') or differs(out, asked.out.decode('utf-8')) \
        or wrong_of(log, len(names), asked.log.decode('utf-8') + notes(program, asked)) or differs(status, asked.status)


def written_to(program):
    """Yields what is wrong with a run, or nothing, while which a file is written to."""
    asked = damage.case('tally', damage.held('f2.json', 'f6.json'))
    refused = asked._replace(words=['tally', 'twice', 'f2.json'], out=b'', log=b'twice: E2\n', status=1)
    behind = lambda *names: 1 + sum(os.path.getsize(program.path(name)) + 1 for name in names)
    runs = [(asked, 'def.json', 1), (asked, 'f2.json', behind('def.json')), (asked, 'f6.json', behind('def.json', 'f2.json'))]
    for run_of, name, call in runs + [(refused, 'twice', 1), (refused, 'f2.json', behind('twice'))]:
        is_judged = run_of is asked or name == 'twice'
        for how in 'grows', 'rewritten':
            held = program.data(name)
            os.utime(program.path(name), (0, 0))
            out, log, status = Run(program, run_of.words, End('pipe'), End('terminal'), '0 %d %s' % (call, how)).left()
            program.put(name, held)
            told = notes(program, run_of) + is_judged * ('note: %s: it was written to while it was read\n' % name)
            yield differs(out, run_of.out.decode('utf-8')) or wrong_of(log, len(run_of.words) - 2, run_of.log.decode('utf-8') + told) \
                or differs(status, run_of.status)


def failing(program):
    """Yields what is wrong with a run, or nothing. Its terminal fails at a call that writes or removes the line. The
    log is whole in each, and stands alone unless the line could not be removed."""
    asked = damage.case('currents', damage.held('f2.json', 'f6.json') + [('half', 'E2')])
    log = asked.log.decode('utf-8') + notes(program, asked)
    took = Run(program, asked.words, End('pipe'), End('terminal')).left()[1]
    last = took.rfind('\r')
    yield '' if last > 0 else 'no line'
    for call in range(1, last + 2):
        out, got, status = Run(program, asked.words, End('pipe'), End('terminal'), '2 %d fails' % call).left()
        is_whole = got.endswith(log) and (screen(got)[0] == screen(log)[0] or call > took.rfind('\r', 0, last))
        yield differs(out, asked.out.decode('utf-8')) or differs(status, asked.status) or ('' if is_whole else 'call %d: took %r' % (call, got))


def piped(program):
    """What is wrong with a run whose definition comes through a pipe, or nothing: notes are as those of a file."""
    refused = [('half', 'E2'), ('other', BAD['other'][1])]
    asked = damage.case('check', refused + damage.held('f2.json'))
    told = ''.join(note_on(*one) for one in refused) + 'note: /dev/stdin: records of its own, which are not counted: 3\n'
    with given(OWN) as pipe:
        out, log, status = Run(program, ['check', '/dev/stdin'] + asked.words[2:], End('pipe'), End('terminal'), given=pipe).left()
    return differs(out, asked.out.decode('utf-8')) or wrong_of(log, 3, asked.log.decode('utf-8') + told) or differs(status, asked.status)


def given(data):
    """A pipe through which this comes."""
    ours, theirs = os.pipe()
    with open(theirs, 'wb') as pipe:
        pipe.write(data)
    return open(ours, 'rb')


def unknown(program):
    """Yields what is wrong with a run, or nothing. A refused file came through a pipe, so it can't be read again. Its note
    has the words on its fault alone."""
    for name, code in UNKNOWN:
        with given(program.data(name)) as pipe:
            out, log, status = Run(program, ['check', 'def.json', '/dev/stdin'], End('pipe'), End('terminal'), given=pipe).left()
        yield differs(out, '') or differs(log, '/dev/stdin: %s\nnote: /dev/stdin: %s\n' % (code, words_on(code))) or differs(status, 1)


def rewritten(program):
    """The same for a refused file that was written to."""
    for name, code in UNKNOWN:
        held, call = program.data(name), 2 + os.path.getsize(program.path('def.json'))
        os.utime(program.path(name), (0, 0))
        out, log, status = Run(program, ['check', 'def.json', name], End('pipe'), End('terminal'), '0 %d rewritten' % call).left()
        program.put(name, held)
        told = '%s: %s\nnote: %s: %s\nnote: %s: it was written to while it was read\n' % (name, code, name, words_on(code), name)
        yield differs(out, '') or differs(log, told) or differs(status, 1)


def lacking(program):
    """Yields what is wrong with a run for which memory is refused once a file was refused, or nothing: it has no notes."""
    words = ['tally', 'def.json', 'half', 'f2.json', 'f6.json']
    out, log, status = Run(program, words, End('pipe'), End('terminal'), '3 4 lacking').left()
    yield differs(out, '') or wrong_of(log, 2, 'f6.json: K2\n') or differs(status, 4)


def many(program):
    """Yields what is wrong with a run over many refused files, or nothing."""
    program.put('many', b'half\n' * MANY)
    program.put('measured', (MEASURED % (sys.executable, program.cvr)).encode('utf-8'))
    os.chmod(program.path('measured'), 0o755)
    measured = argparse.Namespace(cvr=program.path('measured'), folder=program.folder)
    told, most = note_on('half', 'E2') * NAMED + 'note: %d more were refused\n' % (MANY - NAMED), {}
    for kind, notes_of in ('pipe', ''), ('terminal', told):
        out, log, status = Run(measured, ['check', 'def.json', '--files-from', 'many'], End('pipe'), End(kind)).left()
        with open(program.path('most'), encoding='ascii') as file:
            most[kind] = int(file.read())
        yield differs(out, '') or differs(status, 1) or differs(log.rpartition('\r')[2], 'half: E2\n' * MANY + notes_of)
    taken = most['terminal'] - most['pipe']
    yield 'notes took %d KiB' % taken if taken > SPARE else ''


def refused_runs():
    """Runs over files that are refused for each cause, and over files that are accepted and print nothing."""
    refused, accepted = [(name, fault) for name, (_, fault, _) in BAD.items()], damage.held('f2.json')
    for one in refused:
        yield damage.case('tally', [one] + accepted), 2
    yield damage.case('check', refused), len(refused)
    yield damage.case('check', [('long', 'E1'), ('half', 'E2')]), 2
    yield damage.drill(['drill', 'def.json', '2', '1=f2.json', '2=bad', '1>3', '1>2']), 2
    yield damage.case('currents', damage.held('def.json', 'def.json')), 2
    yield damage.case('check', accepted * 1001), 1001


def asked_runs(program):
    """Runs, each with the number of files that it reads beside the definition."""
    held = damage.held('f2.json', 'f6.json', 'f8.json')
    for task in damage.TASKS + ('check',):
        for files in [], held[:1], held, held * 4:
            yield damage.case(task, files), len(files)
        yield damage.case(task, held[:1] + [('half', 'E2')] + held[1:]), 4
    drill = damage.drill(damage.DRILL)
    yield drill, len(damage.printed.paths(drill.words)) - 1
    missing = damage.Case(['tally', 'def.json', 'f2.json', 'f6.json', 'f8.json', 'none', 'f2.json'], None, b'', b'none: K1\n', 3)
    yield missing, 3
    yield missing._replace(words=['tally', 'none', 'f2.json']), 0
    yield missing._replace(words=['tally', 'def.json', 'half', '.'], log=b'.: K1\n'), 2
    odd = [(name, 'E2') for name in NO_JSON]
    for task in 'check', 'tally':
        yield damage.case(task, held + odd), len(held) + len(odd)
    for first in range(0, len(odd), NAMED):     # each has a note in one of these
        some = odd[first:first + NAMED]
        yield damage.case('check', some), len(some)
    yield damage.Case(['tally', 'half', 'gz'], None, b'', b'half: E2\n', 1), 1
    yield damage.Case(['tally', 'bad', 'half'], None, b'', b'bad: E3 /CVR/0/UniqueId 2\n', 1), 1
    for files in [], held:
        asked = damage.case('tally', files)
        yield asked._replace(words=['tally', 'own'] + asked.words[2:]), len(files)
    own = damage.case('tally', [('own', damage.reading(OWN))])
    yield own._replace(words=['tally', 'own', 'own']), 1
    yield from refused_runs()
    for name in 'help-drill', 'no-command-taly-alone', 'no-step-x', 'option-json', 'option-o', 'option-format', 'option-output-of-a-path':
        yield damage.stated(name), 0
    option = damage.stated('option-json')
    for other in '--csv', '--out', '--output':
        words = [other if word == '--json' else word for word in option.words]
        yield option._replace(words=words, log=option.log.replace(b'--json', other.encode('ascii'))), 0


def main():
    words = tenth.words().parse_args()
    found = [('', one) for one in judged()]
    if not any(one for _, one in found):
        with tempfile.TemporaryDirectory() as folder:
            program = damage.Program(words.cvr, folder)
            for name, (data, *_) in NO_JSON.items():
                program.put(name, data)
            for name, (data, *_) in BAD.items():
                program.put(name, data)
            program.put('own', OWN)
            for asked, files in asked_runs(program):
                found += [(' '.join(asked.words), one) for one in wrongs(program, asked, files, notes(program, asked))]
            given = damage.case('tally', damage.held('f2.json', 'f8.json') + [('half', 'E2')])
            program.put('list', '\n'.join(given.words[2:]).encode('utf-8'))
            listed = given._replace(words=given.words[:2] + ['--files-from', 'list'])
            found += [('a list', one) for one in wrongs(program, listed, 4, notes(program, given))]
            refused = damage.case('tally', [('half', 'E2')])._replace(words=['tally', 'half', '--files-from', 'list'])
            found += [('a refused definition and a list', one) for one in wrongs(program, refused._replace(out=b''), 4, note_on('half', 'E2'))]
            found += [('a definition by a pipe', piped(program)), ('a slow file', slow(program, ['f2.json', 'f6.json', 'f8.json']))]
            lacks = program.lacks_devices()
            if lacks:
                tenth.leave_out('devices that fail, and files that are written to while they are read', lacks)
            for see in (unknown, many) if lacks else (unknown, many, lacking, rewritten, written_to, failing):
                found += [(see.__name__, one) for one in see(program)]
    wrong = [': '.join(filter(None, one)) for one in found if one[1]]
    for one in wrong[:50]:
        print('WRONG: %s' % one)
    print('terminal: %d right, %d wrong' % (len(found) - len(wrong), len(wrong)))
    sys.exit(0 if found and not wrong else 1)


if __name__ == '__main__':
    main()
