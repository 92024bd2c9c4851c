"""The SHA-256 of bytes, of files, and of `cvr-audit` itself."""
import hashlib
import os

SIZE = 1 << 20
HERE = os.path.dirname(os.path.abspath(__file__))


def of(data):
    return hashlib.sha256(data).hexdigest()


def of_file(path):
    """The SHA-256 of a file, and its length."""
    held, length = hashlib.sha256(), 0
    with open(path, 'rb') as file:
        for part in iter(lambda: file.read(SIZE), b''):
            held.update(part)
            length += len(part)
    return held.hexdigest(), length


def of_companion():
    """That of the files of `cvr-audit`, as docs/AUDITING.md says how to compute it."""
    names = ['cvr-audit'] + ['cvr_audit/' + it for it in os.listdir(HERE) if it.endswith('.py')]
    sums = ['%s  %s\n' % (of_file(os.path.join(HERE, '..', it))[0], it) for it in names]
    return of(''.join(sorted(sums)).encode('ascii'))
