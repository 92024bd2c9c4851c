"""The files that words name: paths, folders, and lists of paths."""
import os

from .program import WORDS, ended

STANDARD = '-'          # in place of a list: standard input


def below(folder):
    """The reports below a folder, whose names end with `.json`, in the order of their paths."""
    found = [os.path.join(place, name) for place, _, names in os.walk(folder, onerror=stop)
             for name in names if name.lower().endswith('.json')]
    if not found:
        raise ended(WORDS, '%s: no file below the folder has a name that ends with .json' % folder)
    return sorted(found, key=os.fsencode)


def stop(fault):
    raise fault


def is_same(path, definition):
    """Whether a path is DEF's, which in a folder stands among the reports."""
    return definition is not None and os.path.exists(definition) and \
        os.path.samefile(path, definition)


def files_of(paths, definition):
    """The paths, and in place of each folder those of the reports below it, without DEF."""
    held = []
    for path in paths:
        if os.path.isdir(path):
            held += [it for it in below(path) if not is_same(it, definition)]
        else:
            held.append(path)
    return held


def listed(path, is_null):
    """The paths in a list: each ends at a line feed, or at a NUL byte; the last one need not."""
    with open(0 if path == STANDARD else path, 'rb', closefd=path != STANDARD) as file:
        parts = file.read().split(b'\0' if is_null else b'\n')
    return [os.fsdecode(it) for it in (parts if parts[-1] else parts[:-1])]
