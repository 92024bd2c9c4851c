"""A journal of runs of `cvr`: a line of JSON when a run begins, and one when it has ended. Each has
the hash of the line before, so that a line that is changed, taken out or moved shows in the next one."""
import datetime
import hashlib
import json
import os
import signal
import subprocess
import threading

from . import digests, paths, program

FIRST = '0' * 64                    # in the place of the hash of a line before the first
PIECE = 1 << 16
STANDARD = '/dev/stdin'             # what `cvr` takes the list `-` for


def digest_of(path):
    """The SHA-256 of a regular file; None of anything else, or where it can't be read."""
    try:
        return digests.of_file(path)[0] if os.path.isfile(path) else None
    except OSError:
        return None


def list_in(words):
    """The list of files that the last words name, and whether its paths end with NUL bytes."""
    is_null = words[-1:] == ['--null']
    *before, option, path = [None, None] + (words[:-1] if is_null else words)
    is_there = option == '--files-from' and '--' not in before
    return (STANDARD if path == paths.STANDARD else path) if is_there else None, is_null


def listed(words):
    """The list that the words name, and the paths in it. The run reads it again, so it is no pipe."""
    path, is_null = list_in(words)
    if path is None or not os.path.exists(path):
        return []
    if not os.path.isfile(path):
        raise program.ended(program.WORDS, '%s: a list of files for a journal has to be a file' % path)
    try:
        return [path] + paths.listed(path, is_null)
    except OSError:                 # which `cvr` reports
        return [path]


def files_of(words):
    """The files that words may name, with their hashes: a word, what stands after the `=` of a step, or
    what is in a list."""
    held = words + [it.partition('=')[2] for it in words if '=' in it] + listed(words)
    return {path: digest_of(path) for path in dict.fromkeys(held) if os.path.exists(path)}


def now():
    return datetime.datetime.now(datetime.timezone.utc).isoformat(timespec='milliseconds')


# ---- the lines

def for_owner(path, flags):
    """Opens a journal; one that is made is for its owner alone."""
    return os.open(path, flags, 0o600)


def add(path, held):
    """Adds a line, once no other run is adding one; answers its hash."""
    import fcntl                    # Windows has none, and no journal
    try:
        with open(path, 'a+b', opener=for_owner) as file:
            fcntl.flock(file, fcntl.LOCK_EX)
            file.seek(0)
            last = None
            for last in file:
                pass
            if last and not (last.endswith(b'\n') and value_of(last)):
                text = '%s: its last line is none of a journal, or has no end; name another file'
                raise program.ended(program.FAILED, text % path)
            before = digests.of(last[:-1]) if last else FIRST
            line = json.dumps(dict(held, before=before)).encode('ascii')
            file.write(line + b'\n')
            file.flush()
            os.fsync(file.fileno())
    except OSError as fault:
        raise program.ended(program.FAILED, '%s: %s' % (path, fault.strerror)) from None
    return digests.of(line)


class Passed(threading.Thread):
    """Passes on what a run writes to one of its outputs, and computes its hash."""

    def __init__(self, source, target):
        super().__init__()
        self.source, self.target = source, target
        self.found, self.has_failed = hashlib.sha256(), False
        self.start()

    def run(self):
        """Where the target fails, closes the pipe, so that the run finds its output failing."""
        with self.source:
            for piece in iter(lambda: self.source.read1(PIECE), b''):
                self.found.update(piece)
                try:
                    self.write(piece)
                except OSError:
                    self.has_failed = True
                    return

    def write(self, piece):
        while piece:
            piece = piece[os.write(self.target, piece):]


def started(words):
    """A run whose output and log are passed on; signals that would end this process go to it."""
    try:
        child = subprocess.Popen(words, stdout=subprocess.PIPE, stderr=subprocess.PIPE, close_fds=False)
    except OSError as fault:
        raise program.unstarted(words[0], fault) from None
    for it in signal.SIGINT, signal.SIGTERM, signal.SIGHUP:
        if signal.getsignal(it) is not signal.SIG_IGN:
            signal.signal(it, lambda number, _: child.send_signal(number))
    return child


def keep_three():
    """Where an output is closed, opens what can't be written in its place, so that no file takes its
    number."""
    while True:
        opened = os.open(os.devnull, os.O_RDONLY)
        if opened > 2:
            return os.close(opened)


def record(path, words):
    """Runs `cvr` with these words, between its two lines; answers its status."""
    keep_three()
    found = program.find()
    files = files_of(words)
    begun = add(path, {'begun': now(), 'words': words, 'folder': os.getcwd(),
                       'program': digest_of(found), 'audit': digests.of_companion(), 'files': files})
    child = started([found] + words)
    text, log = Passed(child.stdout, 1), Passed(child.stderr, 2)
    status = child.wait()
    text.join()
    log.join()
    status = 128 - status if status < 0 else status
    changed = [it for it in files if digest_of(it) != files[it]]
    is_lost = text.has_failed and status in (0, 1)      # all was written before the output failed
    status = program.FAILED if is_lost else status
    add(path, {'ended': now(), 'run': begun, 'status': status, 'text': text.found.hexdigest(),
               'log': log.found.hexdigest(), 'changed': changed})
    if is_lost:
        raise program.Ended(status, b'out: X1\n')
    return status


# ---- what a journal shows

def value_of(line):
    """The value of a line, or None."""
    try:
        held = json.loads(line)
    except (ValueError, RecursionError):
        return None
    return held if isinstance(held, dict) and ('begun' in held) != ('ended' in held) else None


def broken(lines):
    """The number of each line that doesn't follow the one before it, or ends no run that has begun;
    then the numbers of the lines of runs that have no end."""
    before, runs, found = FIRST, {}, []
    for number, line in enumerate(lines, 1):
        held = value_of(line)
        is_right = held and held.get('before') == before
        if is_right and 'ended' in held:
            is_right = runs.pop(str(held.get('run')), None)
        elif is_right:
            runs[digests.of(line)] = number
        found += [] if is_right else [number]
        before = digests.of(line)
    return found, sorted(runs.values())


def verify(path):
    """The text about a journal, and whether it is broken."""
    with open(path, 'rb') as file:
        *lines, rest = file.read().split(b'\n')
    found, left = broken(lines + [rest] if rest else lines)
    text = ['broken %d: this line or the one before it was changed, taken out or moved' % it
            for it in found]
    text += ['cut %d: this line has no end' % (len(lines) + 1)] if rest else []
    text += ['open %d: this run was killed, or goes on' % it for it in left]
    text += ['lines %d' % len(lines), 'last %s' % (digests.of(lines[-1]) if lines else FIRST)]
    return ''.join(it + '\n' for it in text), 1 if found or rest else 0


def run(words):
    """The text, if there is one, and the status."""
    if words.verify == bool(words.files):
        raise program.ended(program.WORDS, 'after `journal JOURNAL` comes either --verify, or -- and the '
                                           'words of a run of cvr')
    if words.verify:
        return verify(words.definition)
    return None, record(words.definition, words.files)
