"""What the parts of the tests share: their words, which cases a short run of them tries, and how they report what they
leave out. With `--tenth WORD` a part tries a tenth of its dear cases, chosen by a hash of the word, such as the
commit's, and of their names, so that each commit tries others; without it, it tries all."""
import argparse
import faulthandler
import hashlib
import os
import struct

SHARE = 10
SECONDS = 600       # which a command may take that a part waits for
LIMIT = 3600        # seconds after which a part fails, and prints where it stands
INTERPRETER = 3     # the kind of the segment of an ELF file that names the loader of a dynamically linked program


def words():
    """The parser of a part's words, to which it adds its own."""
    faulthandler.dump_traceback_later(LIMIT, exit=True)
    parser = argparse.ArgumentParser()
    parser.add_argument('--cvr', required=True, type=os.path.abspath, help='the program to try')
    parser.add_argument('--tenth', default='', metavar='WORD', help='try a tenth of the dear cases, by a hash of this word')
    return parser


def chosen(word, cases, name_of=str):
    """One of SHARE of these cases, and at least one, in their order; all of them where there is no word."""
    cases = list(cases)
    digests = [hashlib.sha256(('%s %s' % (word, name_of(it))).encode('utf-8')).digest() for it in cases]
    few = sorted(range(len(cases)), key=digests.__getitem__)[:-(-len(cases) // SHARE)]
    return [cases[place] for place in sorted(few)] if word else cases


def leave_out(what, why):
    """Prints what a part leaves out, as `./test` collects it."""
    print('left out: %s, since %s' % (what, why), flush=True)


def is_static(program):
    """Whether a program is an ELF file without a loader, so that LD_PRELOAD loads nothing with it."""
    with open(program, 'rb') as file:
        data = file.read()
    if data[:4] != b'\x7fELF':
        return False
    start, (size, count) = struct.unpack_from('<Q', data, 32)[0], struct.unpack_from('<HH', data, 54)
    return all(struct.unpack_from('<I', data, start + size * place)[0] != INTERPRETER for place in range(count))
