"""companion.py: a copy of companion/ whose modules are compiled, since cvr-audit writes nothing beside itself, and so
compiles them in each run; and copies of it with a slip."""
import atexit
import compileall
import functools
import importlib
import os
import py_compile
import shutil
import sys
import tempfile

HERE = os.path.dirname(os.path.abspath(__file__))
PYTHON = [sys.executable, '-I', '-X', 'utf8']       # as cvr-audit starts itself again otherwise


@functools.lru_cache(None)
def compiled():
    """The folder of the copy, which ends with the process."""
    folder = tempfile.mkdtemp()
    atexit.register(shutil.rmtree, folder, True)
    copy = shutil.copytree(os.path.join(os.path.dirname(HERE), 'companion'), os.path.join(folder, 'companion'))
    # by their texts, since two may be written in a second
    compileall.compile_dir(copy, quiet=1, invalidation_mode=py_compile.PycInvalidationMode.CHECKED_HASH)
    return copy


def package_in(folder):
    """The modules of a companion, of which a process has one."""
    sys.path.insert(0, folder)
    return importlib.import_module('cvr_audit.line') and sys.modules['cvr_audit']


def made(folder, way):
    """Makes a copy with a slip, a text that stands once in its file; answers its folder."""
    copy = shutil.copytree(compiled(), os.path.join(folder, 'companion'))
    path = os.path.join(copy, 'cvr_audit', way.file)
    with open(path, encoding='utf-8') as file:
        text = file.read()
    if text.count(way.old) != 1:
        raise ValueError('its text stands %d times in %s, not once' % (text.count(way.old), way.file))
    with open(path, 'w', encoding='utf-8') as file:
        file.write(text.replace(way.old, way.new))
    return copy
