#!/usr/bin/env python3
"""run.py --cvr PATH [--only NAME] [-v]

Runs the program on every row of the *.json files beside this one, each in a temporary folder of its own, and compares
standard output, standard error and status byte for byte. The folder has to stay as it was: the program creates, changes
and removes no file. README.md says how a row is written. The last line is `rows: N right, M wrong`; the status is 0
only where M is 0 and N is not."""
import argparse
import glob
import hashlib
import json
import os
import stat
import subprocess
import sys
import tempfile
from concurrent.futures import ThreadPoolExecutor

sys.dont_write_bytecode = True
HERE = os.path.dirname(os.path.abspath(__file__))
sys.path.insert(0, HERE)
import make_vectors  # noqa: E402
import members       # noqa: E402 (both stand beside this file)

VECTORS = make_vectors.vectors()
SECONDS = 300
SIDE_BY_SIDE = 4            # rows at most; the largest takes about 600 MB
SHOWN = 1200
ROW_MEMBERS = {'name', 'words', 'files', 'folders', 'out', 'err', 'status', 'full', 'file', 'fault', 'cvrs', 'why'}


class BadRow(Exception):
    """A row whose form isn't that of README.md."""


def spelled(part, short):
    """The text of a TEXT: a string with its short names expanded, a list of texts, or a repeated text, numbered or
    not."""
    if isinstance(part, str):
        for name, long in short.items():
            part = part.replace(name, long)
        return part
    if isinstance(part, list):
        return ''.join(spelled(one, short) for one in part)
    if set(part) - {'repeat', 'times', 'between', 'number'}:
        raise BadRow('no text: %r' % part)
    one = spelled(part['repeat'], short)
    every = [one.replace(part['number'], '%d' % n) for n in range(part['times'])] if 'number' in part else [one] * part['times']
    return spelled(part.get('between', ''), short).join(every)


def replaced(text, old, new):
    if text.count(old) != 1:
        raise BadRow('%r stands %d times, not once' % (old, text.count(old)))
    return text.replace(old, new)


def content(part, short):
    """The bytes of a row's file: a TEXT, or an object that names a vector and what is changed in it."""
    if not (isinstance(part, dict) and 'of' in part):
        return spelled(part, short).encode('utf-8')
    if set(part) - {'of', 'replace', 'cut', 'byte', 'pad'}:
        raise BadRow('no file: %r' % part)
    text = VECTORS[part['of']].decode('utf-8')
    for old, new in part.get('replace', []):
        text = replaced(text, spelled(old, short), spelled(new, short))
    data = text.encode('utf-8')
    if 'cut' in part:
        data = data[:part['cut']]
    if 'byte' in part:
        place, value = part['byte']
        if data[place] == value:
            raise BadRow('byte %d is %d already' % (place, value))
        data = data[:place] + bytes([value]) + data[place + 1:]
    if 'pad' in part:
        if part['pad'] < len(data):
            raise BadRow('longer than %d already' % part['pad'])
        data += b' ' * (part['pad'] - len(data))
    return data


def whole_row(name, words, files, out='', err='', status=0):
    return {'name': name, 'words': words, 'files': files, 'out': out, 'err': err, 'status': status}


def short_rows(row):
    """The two rows that a short one stands for: its file is checked under the usual definition, and is itself the
    definition."""
    name, files = row['name'], {'file.json': row['file']}
    if ('fault' in row) == ('cvrs' in row):
        raise BadRow('one of fault and cvrs')
    if 'fault' in row:
        err = 'file.json: %s\n' % row['fault']
        return [whole_row(name, ['check', 'def.json', 'file.json'], files, err=err, status=1),
                whole_row(name + ' (as definition)', ['currents', 'file.json', 'def.json'], files, err=err, status=1)]
    return [whole_row(name, ['check', 'def.json', 'file.json'], files, out='file.json %d\n' % row['cvrs']),
            whole_row(name + ' (as definition)', ['currents', 'file.json'], files)]


def prefix_row(row):
    """One run over every proper prefix of a vector, each in a file of its own: each is refused."""
    length = len(VECTORS[row['prefixes']])
    names = ['prefix-%05d' % n for n in range(length)]
    files = {name: {'of': row['prefixes'], 'cut': n} for n, name in enumerate(names)}
    return whole_row(row['name'], ['check', 'def.json'] + names, files,
                     err=''.join('%s: E2\n' % name for name in names), status=1)


def damage_row(row):
    """One run over a vector with one byte replaced, for each of its bytes: each is refused."""
    vector, value = row['damaged'], row['value']
    names = ['byte-%05d' % n for n in range(len(VECTORS[vector]))]
    files = {name: {'of': vector, 'byte': [n, value]} for n, name in enumerate(names)}
    return whole_row(row['name'], ['check', 'def.json'] + names, files,
                     err=''.join('%s: E2\n' % name for name in names), status=1)


def rows_of(path):
    """The rows of one file as (row, short names)."""
    with open(path, encoding='utf-8') as file:
        held = json.load(file)
    short = held.get('short', {})
    for row in held['rows']:
        if 'prefixes' in row:
            made = [prefix_row(row)]
        elif 'damaged' in row:
            made = [damage_row(row)]
        elif set(row) - ROW_MEMBERS:
            raise BadRow('%s: no such members: %s' % (row.get('name'), sorted(set(row) - ROW_MEMBERS)))
        elif 'file' in row:
            made = short_rows(row)
        else:
            made = [row]
        for one in made:
            yield dict(one, words=[spelled(word, {}) for word in one['words']]), short


def by_paths(row, short):
    """The row with `list` where its words name a list that is there; if the list is UTF-8, its paths become words."""
    words = row['words']
    null = words[-1:] == ['--null']
    before, flag = words[:-2 - null], words[-2 - null:-1 - null]
    named = words[-1 - null] if flag else None
    if flag != ['--files-from'] or named not in row.get('files', {}):
        return row
    try:
        text = content(row['files'][named], short).decode('utf-8')
    except UnicodeDecodeError:
        return dict(row, list=named)
    *paths, rest = text.split('\0' if null else '\n')
    return dict(row, words=before + ['--'] + paths + [rest] * bool(rest), list=named)


def lay(folder, row, short):
    """Writes the vectors that a word or a list names, and the row's own files, into the folder."""
    words = row['words'] + by_paths(row, short)['words']
    for name, data in VECTORS.items():
        if any(name in word for word in words):
            with open(os.path.join(folder, name), 'wb') as file:
                file.write(data)
    for name in row.get('folders', []):
        os.makedirs(os.path.join(folder, name))
    for name, part in row.get('files', {}).items():
        with open(os.path.join(folder, name), 'wb') as file:
            file.write(content(part, short))


def run(cvr, row, folder):
    """(standard output, standard error, status) of the program on the row's words."""
    command = [cvr] + row['words']
    if row.get('full'):
        with open('/dev/full', 'wb') as out:
            done = subprocess.run(command, cwd=folder, stdin=subprocess.DEVNULL, stdout=out,
                                  stderr=subprocess.PIPE, timeout=SECONDS)
        return b'', done.stderr, done.returncode
    done = subprocess.run(command, cwd=folder, stdin=subprocess.DEVNULL, stdout=subprocess.PIPE,
                          stderr=subprocess.PIPE, timeout=SECONDS)
    return done.stdout, done.stderr, done.returncode


def shown(data):
    """The bytes as a literal; of long ones the first and the last bytes."""
    if len(data) <= SHOWN:
        return repr(data)
    return '%r .. %r (%d bytes)' % (data[:SHOWN // 2], data[-SHOWN // 2:], len(data))


def first_difference(got, wanted):
    place = next((n for n, (a, b) in enumerate(zip(got, wanted)) if a != b), min(len(got), len(wanted)))
    return 'they differ from byte %d on' % place


def differences(row, short, answer):
    out, err, status = answer
    found = []
    if status != row['status']:
        found.append('status %d, expected %d' % (status, row['status']))
    for what, got, wanted in (('standard output', out, row['out']), ('standard error', err, row['err'])):
        wanted = spelled(wanted, short).encode('utf-8')
        if got != wanted:
            found.append('%s: %s\n      got      %s\n      expected %s'
                         % (what, first_difference(got, wanted), shown(got), shown(wanted)))
    return found


def look(path):
    """What an entry of a folder is: its kind and rights, and for a file a checksum of its bytes."""
    try:
        mode = os.lstat(path).st_mode
        if not stat.S_ISREG(mode):
            return mode, ''
        with open(path, 'rb') as file:
            return mode, hashlib.sha256(file.read()).hexdigest()
    except OSError as fault:
        return fault.errno, ''


def entries(folder):
    """What a folder holds, as {path within it: what it is}; the folder itself is '.'."""
    held = {'.': look(folder)}
    for base, folders, files in os.walk(folder):
        for path in (os.path.join(base, name) for name in folders + files):
            held[os.path.relpath(path, folder)] = look(path)
    return held


def touched(before, after):
    """What a run did to its folder, as lines: the program may only read."""
    return (['%r is gone' % name for name in sorted(set(before) - set(after))]
            + ['%r is new' % name for name in sorted(set(after) - set(before))]
            + ['%r has changed' % name for name in sorted(set(before) & set(after))
               if before[name] != after[name]])


def tried(cvr, row, short):
    """What differs in one row, as lines."""
    with tempfile.TemporaryDirectory() as folder:
        try:
            lay(folder, row, short)
            before = entries(folder)
            found = differences(row, short, run(cvr, row, folder))
            return found + touched(before, entries(folder))
        except BadRow as fault:
            return ['the row is not well written: %s' % fault]
        except subprocess.TimeoutExpired:
            return ['no end within %d s' % SECONDS]


def all_rows():
    """Every row as (name of its file, row, short names); no two of them have the same name."""
    names = set()
    held = []
    for path in sorted(glob.glob(os.path.join(HERE, '*.json'))):
        for row, short in rows_of(path):
            if row['name'] in names:
                raise BadRow('two rows are called ' + row['name'])
            names.add(row['name'])
            held.append((os.path.basename(path), row, short))
    return held


def vectors_differ():
    wrong = make_vectors.differing()
    for name in wrong:
        print('WRONG vectors/%s is not as make_vectors.py gives it' % name)
    return bool(wrong)


def main():
    words = argparse.ArgumentParser()
    words.add_argument('--cvr', required=True, help='the program to try')
    words.add_argument('--only', help='rows whose name begins with this text')
    words.add_argument('-v', action='store_true', help='name each row')
    words = words.parse_args()
    sys.stdout.reconfigure(errors='backslashreplace')       # a word may be invalid UTF-8
    cvr = os.path.abspath(words.cvr)
    right = wrong = 0
    if vectors_differ():
        wrong += 1
    chosen = [it for it in all_rows() + [('members.py', row, {}) for row in members.rows()]
              if it[1]['name'].startswith(words.only or '')]
    pool = ThreadPoolExecutor(min(SIDE_BY_SIDE, len(os.sched_getaffinity(0))))
    for (where, row, short), found in zip(chosen, pool.map(lambda it: tried(cvr, *it[1:]), chosen)):
        if found:
            wrong += 1
            print('WRONG %s: %s: cvr %s' % (where, row['name'], ' '.join(row['words'])[:200]))
            for line in found:
                print('    ' + line)
        else:
            right += 1
            if words.v:
                print('right ' + row['name'])
    if right + wrong == 0:
        print('no row was run')
    print('rows: %d right, %d wrong' % (right, wrong))
    sys.exit(0 if right and not wrong else 1)


if __name__ == '__main__':
    main()
