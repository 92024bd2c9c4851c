"""Where the text of a run goes: to standard output, or to a file, which has it whole or not at all."""
import os
import stat
import sys
import tempfile

from . import program


def see_apart(output, inputs):
    """Stops where the file to write is one that is read, also by another name."""
    for path in inputs:
        try:
            is_same = os.path.samefile(output, path)
        except OSError:         # one of them isn't there
            continue
        if is_same and stat.S_ISREG(os.stat(output).st_mode):
            raise program.ended(program.WORDS, '%s: it is read, so it can\'t be written' % output)


def is_special(path):
    """Whether the path is one of a device or a pipe, in whose place no file can be put."""
    try:
        return not stat.S_ISREG(os.stat(path).st_mode)
    except OSError:
        return False


def put(data, path, is_secret):
    """Writes a file beside the path, and puts it there once it is whole. One with ballots is for its
    owner alone."""
    path = os.path.realpath(path)
    place, beside = tempfile.mkstemp(dir=os.path.dirname(path), prefix='.cvr-audit-')
    try:
        with open(place, 'wb') as file:
            file.write(data)
        if not is_secret:
            mask = os.umask(0)
            os.umask(mask)
            os.chmod(beside, 0o666 & ~mask)
        os.replace(beside, path)
    except BaseException:
        os.unlink(beside)
        raise


def write(text, path, is_secret=True):
    """Writes the text to the file at the path, or to standard output."""
    data = text.encode('utf-8', 'surrogateescape')
    try:
        if path and not is_special(path):
            put(data, path, is_secret)
            return
        if not path and sys.stdout is None:
            raise OSError('standard output is closed')
        with open(path or sys.stdout.fileno(), 'wb', closefd=bool(path)) as file:
            file.write(data)
    except OSError:
        raise program.Ended(program.FAILED, b'out: X1\n') from None
