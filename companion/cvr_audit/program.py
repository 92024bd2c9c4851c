"""What `cvr` prints for a definition and files: it alone decides which files are accepted, and which
body of a name counts."""
import errno
import os
import re
import shutil
import stat
import subprocess
import tempfile

from . import reading, testing
from .progress import Progress
from .terminal import in_a_line

DATE = '1970-01-01T00:00:00Z'       # of the heading of a volume, which nothing here reads
MOST = 100000                       # characters of paths that are given as words
WORDS = 2                           # the status for words that can't be carried out
FAILED = 3                          # the status where a file can't be read or written
MEMORY = 4
UNFIT = 69                          # where there is no `cvr` of this version, or it was killed
MISMATCH = 70                       # where a text doesn't agree with what `cvr` prints
VERSION = re.compile(rb'cvr 1\.[0-9]+\.[0-9]+( [^\n]*)?\n')     # the versions whose texts are known here


class Ended(Exception):
    """The end of a run before its text: a status, and lines for standard error."""

    def __init__(self, status, log):
        super().__init__(status, log)
        self.status, self.log = status, log


def ended(status, text):
    return Ended(status, ('cvr-audit: %s\n' % in_a_line(text)).encode('utf-8', 'surrogateescape'))


def mismatch(text):
    return ended(MISMATCH, text)


def in_order(paths, log):
    """The log of a run of `cvr` over these paths, each of them in a line."""
    log, place, lines = log.decode('utf-8', 'surrogateescape'), 0, []
    for path in paths:
        if log.startswith(path + ': ', place):
            end = log.find('\n', place + len(path))
            lines.append(in_a_line(log[place:end]) + '\n')
            place = end + 1
    return (''.join(lines) + log[place:]).encode('utf-8', 'surrogateescape')


def see_one_sort(reports, is_meant):
    """Stops where some reports are of a test and others aren't, unless that is meant."""
    if reports.mixed() and not is_meant:
        raise ended(1, reports.mixed())


def find():
    """The program: the one that the variable CVR names, or else `cvr` on the PATH; of version 1."""
    program = os.environ.get('CVR') or shutil.which('cvr')
    if not program:
        raise ended(UNFIT, 'no program `cvr` on the PATH; the variable CVR may name it')
    done = started([program, '--version'])
    if done.returncode or not VERSION.fullmatch(done.stdout):
        raise ended(UNFIT, '%s: `--version` prints no version 1 of `cvr`' % program)
    return program


def started(words, out=subprocess.PIPE):
    """A run of the program that has ended, by itself."""
    try:
        done = subprocess.run(words, stdin=subprocess.DEVNULL, stdout=out, stderr=subprocess.PIPE)
    except OSError as fault:
        raise unstarted(words[0], fault) from None
    if done.returncode < 0:
        raise ended(UNFIT, '%s: killed by signal %d' % (words[0], -done.returncode))
    return done


def unstarted(path, fault):
    """Why a program was not started."""
    if fault.errno == errno.ENOMEM:
        return MemoryError()
    return ended(UNFIT, '%s: %s' % (path, fault.strerror))


def mark_of(path):
    """A mark that a file keeps while nobody changes it; None where there is no file, which `cvr`
    reports."""
    try:
        held = os.stat(path)
    except OSError:
        return None
    if not stat.S_ISREG(held.st_mode) and not stat.S_ISDIR(held.st_mode):
        raise ended(FAILED, '%s: no regular file; it has to be read more than once' % path)
    return held.st_dev, held.st_ino, held.st_size, held.st_mtime_ns


class Files:
    """A definition and files. `accepted` has the paths of the accepted files, each with the number of
    its records, and `log` the lines of the others; `own_records` is the number of the definition's
    own records, which are not counted; `notes` is what a command says of them on standard error, and
    `recount` its own count of the records that it reads."""

    def __init__(self, program, definition, files, log):
        self.program, self.definition, self.files = program, definition, files
        self.progress = Progress(log, len(files))
        self.marks = {path: mark_of(path) for path in [definition] + files}
        status, out, log = self.run('check', [definition], [definition])
        if status:
            raise Ended(status, in_order([definition], log))
        self.own_records = accepted_in([definition], out)[0][1]
        self.status, out, self.log = self.run('check', [definition], files)
        if self.status > 1:
            raise Ended(self.status, self.shown_log(self.log))
        self.accepted = accepted_in(files, out)
        self.notes, self.recount, self.tallied = '', None, None
        self.report, self.reports = self.report_at(definition), testing.Reports()
        self.reports.take_definition(definition, self.report)

    def run(self, task, words, files, out=subprocess.PIPE):
        """(status, output, log) of a command of the program; more paths than a system may take as words
        stand in a list."""
        self.progress.show('cvr %s: %d files' % (task, len(self.files)))
        if sum(map(len, files)) <= MOST or words[0].startswith('-'):
            done = started([self.program, task, '--'] + words + files, out)
        else:
            with tempfile.NamedTemporaryFile() as paths:
                paths.write(b''.join(os.fsencode(it) + b'\0' for it in files))
                paths.flush()
                listed = ['--files-from', paths.name, '--null']
                done = started([self.program, task] + words + listed, out)
        self.progress.end()
        return done.returncode, done.stdout, done.stderr

    def text(self, task):
        """The text that a command prints of the accepted files."""
        status, out, log = self.run(task, [self.definition], self.files)
        self.see_same(status, log)
        return out.decode('utf-8', 'surrogateescape')       # `check` prints paths as they are

    def shown_log(self, log):
        return in_order([self.definition, *self.files], log)

    def refused(self):
        """Each refused file with its fault, from the log, whose lines are in the order of the files."""
        accepted, place = {path for path, _ in self.accepted}, 0
        for path in self.files:
            if path not in accepted:
                fault, place = line_of(path, b': ', self.log, place)
                if not fault:
                    raise mismatch('the log of `cvr check` is of other files than it was given')
                yield path, fault.decode('utf-8')

    def see_same(self, status, log):
        """Stops where a command failed, or refused other files than `check`."""
        if status > 1:
            raise Ended(status, self.shown_log(log[len(self.log):] if log.startswith(self.log) else log))
        if (status, log) != (self.status, self.log):
            raise mismatch('a file was changed while it was read')

    def see_unchanged(self):
        """Stops where a file has changed since before `check`."""
        for path, mark in self.marks.items():
            if mark_of(path) != mark:
                raise mismatch('%s was changed while it was read' % path)

    def tally(self):
        if self.tallied is None:
            self.tallied = self.text('tally')
        return self.tallied

    def volume(self, number):
        """A volume of the files, in a file that has no name and disappears with this process."""
        devices = self.report['ReportingDevice']
        if not devices:
            raise ended(1, 'DEF has no ReportingDevice, and `cvr merge` needs one of its own')
        file = tempfile.TemporaryFile()
        words = [self.definition, DATE, devices[0]['@id'], str(number)]
        status, _, log = self.run('merge', words, self.files, file)
        self.see_same(status, log)
        file.seek(0)
        return reading.Volume(file)

    def each_report(self, take):
        """Passes on the path and the value of each accepted file. Only one value at a time is in
        memory: nothing keeps it after the call."""
        try:
            for place, (path, _) in enumerate(self.accepted):
                self.progress.show('read %d of %d files' % (place, len(self.accepted)))
                report = self.report_at(path)
                self.reports.take(path, report)
                take(path, report)
        finally:
            self.progress.end()

    def report_at(self, path):
        """The value of an accepted file, as it was when `check` read it."""
        try:
            report = reading.report(path)
        except ValueError:              # no JSON
            report = None
        if report is None or mark_of(path) != self.marks[path]:
            raise mismatch('%s was changed while it was read' % path)
        return report


def accepted_in(files, text):
    """(path, number of records) of each accepted file, from the lines of `check`, which are in the
    order of the files."""
    held, place = [], 0
    for path in files:
        count, end = line_of(path, b' ', text, place)
        if count.isdigit():
            held.append((path, int(count)))
            place = end
    if place != len(text):
        raise mismatch('the lines of `cvr check` are of other files than it was given')
    return held


def line_of(path, mark, text, place):
    """The line at an index of a text of `cvr`, after the path of a file and the mark, and the index of
    the next line; the line is empty where it is another file's."""
    head = os.fsencode(path) + mark
    if not text.startswith(head, place):
        return b'', place
    end = text.index(b'\n', place + len(head))
    return text[place + len(head):end], end + 1
