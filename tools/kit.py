"""What tools/library and tools/targets share: they have the kit prove and compile a crate once more, over the libraries that
stand proved below it, as `rt ci` and `./cvr` leave them in out/rlib of each crate. For the kit keeps neither the object file
of a program, nor a library of C, nor what it hands to LLVM.

It stands on these insides of the kit: its folder, with toolchain/; of bin/rtlib.py `Crate` with `below`, `rlib` and `words`,
`guarded`, `RATTLE` and `KIT`; and that `--toolchain` names the folder of the clang that `rattle` calls, with a file *.bc
among its words."""
import fcntl
import functools
import importlib.machinery
import importlib.util
import os
import shlex
import shutil
import subprocess
import sys
import tempfile

TOP = os.path.dirname(os.path.dirname(os.path.realpath(__file__)))
MADE = os.path.join(TOP, 'out/made')        # what was compiled: NAME.TRIPLE
X86 = 'x86_64-unknown-linux-gnu'
FORMS = {'cvr': ('cvr.o', []), 'cvr_call': ('libcvr_call.a', ['--backend', 'llvm'])}       # of each crate the file that is made
SECONDS = 3000      # of a command, also where it proves beside other proofs
# The calls that are proved; and those of the library, the names that callers see, of which library/cvr.c has four.
PROVED = ['cvr_call', *('cvr_office_' + it for it in ('conflicts', 'currents', 'drop', 'import', 'join_itself', 'join_other', 'new', 'tally', 'volume'))]
BELOW = ['cvr_office_drop', 'cvr_office_join_itself', 'cvr_office_join_other']     # on which these four stand
SEEN = sorted({*PROVED, 'cvr_office_free', 'cvr_office_join', 'cvr_status_text', 'cvr_version'} - set(BELOW))
# A clang that keeps what it compiles, and its words.
KEEPS = '''#!/bin/sh
for word; do case $word in *.bc) cp "$word" {kept}/text.bc; printf '%s\\n' "$@" >{kept}/words;; esac; done
exec {clang} "$@"
'''


class Stopped(Exception):
    """Why something isn't made."""


FAULTS = Stopped, AttributeError, ImportError, OSError, SyntaxError, TypeError, subprocess.SubprocessError  # also of a kit with other insides


def done(words, **more):
    """What a command prints; where it fails, stops with its last line."""
    ran = subprocess.run(words, stdin=subprocess.DEVNULL, stdout=subprocess.PIPE, stderr=subprocess.STDOUT, text=True, errors='replace',
                         timeout=SECONDS, **more)
    if ran.returncode:
        raise Stopped('%s: %s' % (os.path.basename(words[0]), ''.join(ran.stdout.strip().splitlines()[-1:])))
    return ran.stdout


def held(path):
    with open(path, 'rb') as file:
        return file.read()


def write(path, text):
    with open(path, 'w', encoding='utf-8') as file:
        file.write(text)


@functools.lru_cache
def rtlib():
    """The kit's module of crates."""
    found = shutil.which('rt')
    if not found:
        raise Stopped('there is no rt on the PATH')
    sys.dont_write_bytecode = True
    loader = importlib.machinery.SourceFileLoader('rtlib', os.path.join(os.path.dirname(os.path.realpath(found)), 'rtlib.py'))
    module = importlib.util.module_from_spec(importlib.util.spec_from_loader('rtlib', loader))
    sys.modules['rtlib'] = module
    loader.exec_module(module)
    return module


def of_kit(path):
    return os.path.join(rtlib().KIT, path)


def crate(name):
    """A crate, over the libraries that were built last."""
    made = rtlib().Crate(os.path.join(TOP, 'crates', name), TOP, {})
    if not all(os.path.exists(it.rlib + '/format') for it in made.below() if it.folder.startswith(TOP)):
        raise Stopped('the libraries below crates/%s are not built: ./cvr builds them' % name)
    return made


def toolchain(folder, clang):
    """Makes the kit's toolchain in a new folder, with a script for clang. It has links, at which `rt ci` stops in a checkout."""
    os.makedirs(folder + '/bin')
    for name in set(os.listdir(of_kit('toolchain/bin'))) - {'clang'}:
        os.symlink(of_kit('toolchain/bin/' + name), '%s/bin/%s' % (folder, name))
    write(folder + '/bin/clang', clang)
    os.chmod(folder + '/bin/clang', 0o755)
    return folder


def of_what(*more):
    """What something is made of: the sources, with other files; and the kit."""
    return done([TOP + '/tools/sum', 'tools/kit.py', *more], cwd=TOP) + held(of_kit('KIT-ID')).decode()


def is_of(folder, what):
    """Whether what a folder has was made of the same."""
    return os.path.exists(folder + '/of') and held(folder + '/of').decode() == what


def compiled(name, triple, what, see=None):
    """Has `rattle` prove and compile a crate for a triple. Answers the folder that has the crate's file, and what LLVM was
    given; what was made of the same stays. Of two calls at once the second waits. `see` looks at a new folder first."""
    folder, (file, more) = os.path.join(MADE, '%s.%s' % (name, triple)), FORMS[name]
    fresh = folder + '.new'
    os.makedirs(MADE, exist_ok=True)
    with open(os.path.join(MADE, name + '.lock'), 'w') as lock:
        fcntl.flock(lock, fcntl.LOCK_EX)
        if is_of(folder, what):
            return folder
        for it in folder, fresh:
            shutil.rmtree(it, ignore_errors=True)
        os.mkdir(fresh)
        words = [*rtlib().guarded(), rtlib().RATTLE, 'build', *crate(name).words(['--jobs', '1'], keeps=False), *more, '--target', triple]
        with tempfile.TemporaryDirectory() as room:
            chain = toolchain(room + '/chain', KEEPS.format(kept=shlex.quote(fresh), clang=shlex.quote(of_kit('toolchain/bin/clang'))))
            done(words + ['--toolchain', chain, '-o', os.path.join(fresh, file)], cwd=os.path.join(TOP, 'crates', name))
        if see:
            see(fresh)
        write(fresh + '/of', what)
        os.rename(fresh, folder)
    return folder
