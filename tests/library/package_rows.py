#!/usr/bin/env python3
"""package_rows.py [--node MODULE] [WORD]

Puts the rows of tests/rows through the functions of the package for Python, over the library that LIBCVR names, or of that
for JavaScript at a path, by rows.mjs; with a word a tenth of them. What is answered has to spell the text of the row, and
the first line that is logged has to be the fault. Rows of other commands, of refused words and of a failing output have no
such function; in JavaScript none has a name that isn't UTF-8. docs/LIBRARY.md says where the functions differ: a missing
file is noted when its turn comes, so after the fault of one before it; and a path may have no NUL. The last line is `python
rows: N right, M wrong`, or the same of javascript."""
import argparse
import json
import os
import subprocess
import sys
import tempfile

sys.dont_write_bytecode = True
TOP = os.path.dirname(os.path.dirname(os.path.dirname(os.path.abspath(__file__))))
sys.path[:0] = [os.path.join(TOP, it) for it in ('python', 'tests', 'tests/rows')]
import members                  # noqa: E402
import run as rows              # noqa: E402
from tenth import chosen        # noqa: E402 (all stand there)

HERE = os.path.dirname(os.path.abspath(__file__))
LATER = {'missing-before-refused', 'missing-after-refused', 'missing-after-refused-of-tally', 'merge-missing-file-before-all'}
NUL = 'files-from-nul-in-a-path'


def line(*parts):
    """A printed line: texts are quoted, numbers and words as they are."""
    return ' '.join(it if isinstance(it, str) else 'null' if it is None else json.dumps(it[0], ensure_ascii=False) for it in parts) + '\n'


def quoted(*texts):
    return [None if it is None else [it] for it in texts]


def conflict(it):
    name = ['device', *quoted(it.device)] if it.kind == 'device' else [*quoted(it.device, it.record), it.kind, *(quoted(it.snapshot) if it.snapshot else [])]
    return line(*name, str(it.bodies))


def spelled(command, definition, *words):
    """The text of a command, from what its function answers."""
    if command == 'merge':
        return python().merge(definition, words[0], words[1], int(words[2]), words[3:]).decode()
    found = getattr(python(), command)(definition, words)
    if command == 'check':
        return ''.join('%s %d\n' % (it, found[it] // words.count(it)) for it in words)
    if command == 'currents':
        return ''.join(line(*quoted(*it[:3]), it.type) for it in found)
    if command == 'conflicts':
        return ''.join(map(conflict, found.names)) + line('volumes', str(found.volumes))
    votes = [[part for name, count in it.votes.items() for part in ([name], str(count))] for it in found]
    return ''.join(line(*quoted(*it[:3]), *map(str, it.numbers), *own) for it, own in zip(found, votes))


def python():
    """The package for Python, which needs a library."""
    import cvr
    return cvr


def answered(folder, words):
    """(text, line, status) of a command in a folder by its function in Python."""
    os.chdir(folder)
    try:
        return spelled(*words), '', 0
    except python().Fault as fault:
        return '', '%s\n' % fault, fault.status
    except OSError:
        return '', '', 3
    finally:
        os.chdir(TOP)


def asked(module):
    """The same by its function in JavaScript."""
    node = subprocess.Popen(['node', HERE + '/rows.mjs', module], stdin=subprocess.PIPE, stdout=subprocess.PIPE, text=True, encoding='utf-8')

    def answer(folder, words):
        node.stdin.write(json.dumps({'folder': folder, 'words': words}) + '\n')
        node.stdin.flush()
        return tuple(json.loads(node.stdout.readline()))
    return answer


def expected(row, short):
    """The same, of a row: of what is logged its first line, as the package shows it."""
    out, err, status = rows.spelled(row['out'], short), rows.spelled(row['err'], short), row['status']
    files = sorted((it for it in rows.by_paths(row, short)['words'] if err.startswith(it + ': ')), key=len)
    end = err.find('\n', len(files[-1]) if files else 0) + 1
    shown = err[:end - 1].replace('\n', '\\n').replace('\x7f', '\\x7f') + '\n' if end else ''
    return ('', shown, 1) if status == 1 else (out, '', 0) if status == 0 else ('', '', status)


def words_of(row, short):
    """The command and the words behind it, if the package has a function for them."""
    command, *words = rows.by_paths(row, short)['words'] or ['']
    is_plain = '--' in words or not any(it.startswith('-') for it in words)
    if command in ('tally', 'currents', 'conflicts', 'check', 'merge') and row['status'] in (0, 1, 3) and not row.get('full') and is_plain:
        return [command, *words[:words.index('--')], *words[words.index('--') + 1:]] if '--' in words else [command, *words]
    return None


def fault_of(row, short, words, answered):
    """What is wrong with a row, or None."""
    with tempfile.TemporaryDirectory() as folder:
        rows.lay(folder, row, short)
        got = answered(folder, words)
    wanted = expected(row, short)
    if row['name'] in LATER:
        return None if (got[2], wanted[2]) == (1, 3) else 'a fault comes first'
    return None if got == wanted else 'got %.300r, expected %.300r' % (got, wanted)


def is_utf8(words):
    """Whether words are texts; bytes that aren't are there as halves of surrogates."""
    return not any('\ud800' <= sign <= '\udfff' for sign in ''.join(words))


def main():
    given = argparse.ArgumentParser()
    given.add_argument('--node', metavar='MODULE', help='the package for JavaScript')
    given.add_argument('word', nargs='?', default='', help='of which a tenth of the rows follows')
    given, right, wrong = given.parse_args(), 0, 0
    call, is_odd = (asked(given.node), lambda it: not is_utf8(it)) if given.node else (answered, lambda it: False)
    every = [(row, short, words_of(row, short)) for row, short in [it[1:] for it in rows.all_rows()] + [(row, {}) for row in members.rows()]]
    for row, short, words in chosen(given.word, [it for it in every if it[2] and it[0]['name'] != NUL and not is_odd(it[2])], lambda it: it[0]['name']):
        found = fault_of(row, short, words, call)
        if found:
            print('WRONG: %s: %s' % (row['name'], found))
        right, wrong = right + (not found), wrong + bool(found)
    print('%s rows: %d right, %d wrong' % ('javascript' if given.node else 'python', right, wrong))
    sys.exit(1 if wrong or not right else 0)


if __name__ == '__main__':
    main()
