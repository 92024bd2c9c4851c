"""What `./test` and `./prove` share: parts of a run, each a command whose last line says how much passed and failed, that
run side by side and are added up; and what in a checkout `rt ci` stops at."""
import collections
import os
import re
import shutil
import signal
import subprocess
import sys
import tempfile
import threading
import time
from concurrent.futures import ThreadPoolExecutor

TOP = os.path.dirname(os.path.dirname(os.path.abspath(__file__)))
SHARED = '/dev/shm'         # a folder in memory, on most systems
ROOM = 2 * 10 ** 9          # the bytes of it that parts may need
LAST = 20                   # how many last lines of a part that failed are shown again at the end
LIMIT = 3600                # the seconds after which a part is ended
SUMS = re.compile(r'(?:.*: )?(\d+) \w+, (\d+) \w+')
LEFT_OUT = 'left out: '     # the beginning of a line in which a part says what it left out, and why


class Stopped(Exception):
    """A signal asked the run to end."""


def stop(number, _):
    raise Stopped('by signal %d' % number)


def tell(line):
    if not Part.is_stopped:
        print(line, flush=True)


def processors():
    return len(os.sched_getaffinity(0))


def in_memory():
    """Where parts make their files, which are many and small, so that a disk takes longer to make them than the program to
    read them: a folder in memory, if it has room, and runs programs, as some of these files are; else the usual one."""
    if os.access(SHARED, os.W_OK) and shutil.disk_usage(SHARED).free > ROOM and not os.statvfs(SHARED).f_flag & os.ST_NOEXEC:
        return SHARED
    return tempfile.gettempdir()


def commit():
    """The hash of the commit, by which some cases are chosen; without git, as in an archive of the sources, always the same
    word."""
    has_git = shutil.which('git') and os.path.exists(TOP + '/.git')
    found = subprocess.run(['git', 'rev-parse', 'HEAD'], cwd=TOP, stdout=subprocess.PIPE, text=True).stdout.strip() if has_git else ''
    return found or 'none'


def strays(top=TOP):
    """The paths in a checkout at which `rt ci` stops: links, sources where no check reads them, and what begins another
    repository."""
    found = []
    for at, folders, names in os.walk(top):
        folders[:] = [it for it in folders if (at, it) != (top, '.git')]
        for name in folders + names:
            path = os.path.relpath(os.path.join(at, name), top)
            is_read = re.match(r'crates/\w+/(?:out/|%s/)' % ('src' if name.endswith('.rt') else 'specs/|proofs'), path)
            is_other = name in ('BUILD.bazel', 'MODULE.bazel') or name in ('crates.txt', '.git') and at != top
            if is_other or os.path.islink(os.path.join(top, path)) and at != top or name.endswith(('.rt', '.antt')) and not is_read:
                found.append(path)
    return found


class Part:
    """A command whose last line reports how much passed and failed, and what running it took. Once the run is stopped,
    none starts, and nothing more is printed of those that run."""
    running, failing, left_out, is_stopped = set(), [], [], False

    def __init__(self, name, command, tell=tell, room=tempfile.gettempdir(), limit=LIMIT):
        """Runs the command, which makes its files in `room`. Hands each of its lines to `tell` as it comes, then one
        with its sums and its cost."""
        if Part.is_stopped:
            raise Stopped('before ' + name)
        start, last, self.name, self.lines = time.time(), '', name, collections.deque(maxlen=LAST)
        # names of files are UTF-8 here, in whatever language a terminal is
        process = subprocess.Popen(command, cwd=TOP, env=dict(os.environ, TMPDIR=room, PYTHONUTF8='1'),
                                   stdin=subprocess.DEVNULL, stdout=subprocess.PIPE, start_new_session=True)
        Part.running.add(process)
        timer = threading.Timer(limit, end, [process, signal.SIGKILL])
        timer.start()
        is_left_out = False
        for line in process.stdout:
            line = line.decode('utf-8', 'replace').rstrip()
            last = line.strip() or last
            self.lines.append(line)
            if line.startswith(LEFT_OUT):
                is_left_out = True
                Part.left_out.append(line)
            tell(line)
        _, status, used = os.wait4(process.pid, 0)
        timer.cancel()
        Part.running.discard(process)
        process.returncode = os.waitstatus_to_exitcode(status)
        found = SUMS.fullmatch(last)
        self.passed, self.failed = map(int, found.groups()) if found else (0, 0)
        if not (found and (self.passed or is_left_out) and (process.returncode == 0) == (self.failed == 0)):
            self.failed += 1
        for path in strays():
            self.failed += 1
            self.lines.append('there is %s, at which `rt ci` stops' % path)
        if self.failed:
            Part.failing.append(self)
        tell('%s: %d passed, %d failed; %.1f min, %.1f processor min, largest process %.1f GB'
             % (name, self.passed, self.failed, (time.time() - start) / 60,
                (used.ru_utime + used.ru_stime) / 60, used.ru_maxrss / 1e6))


def end(process, number=signal.SIGTERM):
    """Ends a part, with what it started."""
    try:
        os.killpg(process.pid, number)
    except ProcessLookupError:
        pass


class Run:
    """One run of parts, and its sums."""

    def __init__(self):
        self.total, self.adding = [0, 0], threading.Lock()

    def add(self, passed, failed):
        with self.adding:
            self.total[:] = self.total[0] + passed, self.total[1] + failed

    def side_by_side(self, parts, lanes):
        """Runs parts, the longest first, as they are listed."""
        with ThreadPoolExecutor(lanes) as pool, tempfile.TemporaryDirectory(prefix='test-', dir=in_memory()) as room:
            for part in pool.map(lambda words: Part(*words, room=room), parts):
                self.add(part.passed, part.failed)

    def play(self, how):
        """Runs `how`, and ends this process with the sums in its last line."""
        signal.signal(signal.SIGTERM, stop)
        try:
            how()
        except BaseException as fault:
            print('%s %s' % (type(fault).__name__, fault))
            self.add(0, 1)
        Part.is_stopped = True
        for process in list(Part.running):
            end(process)
        for part in Part.failing:
            print('\n'.join(['%s failed, and these are its last lines:' % part.name, *part.lines]))
        print('\n'.join(sorted(set(Part.left_out))))
        passed, failed = self.total
        print('%d passed, %d failed' % (passed, failed), flush=True)
        sys.exit(0 if passed and not failed else 1)
