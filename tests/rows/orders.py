#!/usr/bin/env python3
"""orders.py --cvr PATH [--tenth WORD]

Runs the rows again with the members of each file in other orders: by name, reversed, `CVR` first and last, each time
with the members of no table between them. What is printed and logged and the status have to be the row's: a file is
read record by record where that can be done, else as a whole, and no answer may show which. Then with a second, empty
`CVR` after all: the answer has to be the one for an empty `CVR` alone, since of two members of one name the last
counts. This doesn't hold where a row's file is no JSON, as the list that doesn't count may be the reason.

Members are moved as text, so that each number and each text keeps its spelling. A file stays as it is where it is no
object, has a name twice, or has more than 256 KiB. A row without any other file isn't run, nor one of more than a
hundred files, which differ in a byte, nor a row's second run with its file as the definition. With --tenth it runs a
tenth of the rows. It tries itself first.
The last line is `orders: N right, M wrong`; the status is 0 only where M is 0 and N is not."""
import functools
import multiprocessing
import os
import sys
import tempfile
from concurrent.futures import ProcessPoolExecutor

sys.dont_write_bytecode = True
sys.path.insert(0, os.path.dirname(os.path.dirname(os.path.abspath(__file__))))
import run           # noqa: E402
import members       # noqa: E402
import tenth         # noqa: E402 (they stand here and in tests/)

MOST = 1 << 18      # the most bytes of a file that is arranged
FILES = 100         # the most files of a row that is run
BLANK = ' \t\n\r'
BETWEEN = ['"Of no table %d":{"CVR":[{"@type":"CVR.CVR"}],"GpUnit":[-1]}' % n for n in range(3)]


class NoMembers(Exception):
    """The text is no object whose members have different names."""


def end_of_text(text, first):
    """The index behind the JSON string that begins at an index."""
    place = first + 1
    while text[place] != '"':
        place += 2 if text[place] == '\\' else 1
    return place + 1


def members_of(text):
    """The members of an object, as (name, text)."""
    found, place, deep, first = [], 0, 0, 0
    try:
        while True:
            sign = text[place]
            if sign == '"':
                place = end_of_text(text, place) - 1
            elif sign in '{[':
                deep += 1
                first = place + 1 if deep == 1 else first
            elif sign in '}]' or sign == ',' and deep == 1:
                deep -= sign != ','
                if deep == 0 or sign == ',' and deep == 1:
                    found.append(text[first:place].strip(BLANK))
                    first = place + 1
                if deep == 0:
                    break
            place += 1
    except IndexError:
        raise NoMembers
    if not text.lstrip(BLANK).startswith('{') or text[place + 1:].strip(BLANK) or not all(it.startswith('"') for it in found):
        raise NoMembers
    named = [(it[:end_of_text(it, 0)], it) for it in found]
    if len({name for name, _ in named}) < len(named) or any('\\' in name for name, _ in named):
        raise NoMembers
    return named


def by_name(named):
    return sorted(named)


def backwards(named):
    return sorted(named, reverse=True)


def records_first(named):
    return sorted(named, key=lambda it: it[0] != '"CVR"')


def records_last(named):
    return sorted(named, key=lambda it: it[0] == '"CVR"')


def mixed(named):
    """The texts of members, with the members of no table after the first, in the middle and at the end."""
    texts = [text for _, text in named]
    return texts[:1] + BETWEEN[:1] + texts[1:len(texts) // 2 + 1] + BETWEEN[1:2] + texts[len(texts) // 2 + 1:] + BETWEEN[2:]


def emptied(named):
    """The members' texts with an empty list of records."""
    return [(name, '"CVR":[]' if name == '"CVR"' else text) for name, text in named]


def cut(data):
    """The members of a file, or None where it stays as it is."""
    try:
        return members_of(data.decode('utf-8')) if len(data) <= MOST else None
    except (UnicodeDecodeError, NoMembers):
        return None


def arranged(named, arrange):
    """The bytes of a file of these members, arranged, or None where that can't be done."""
    texts = arrange(named) if named is not None else None
    return ('{%s}' % ','.join(texts)).encode('utf-8') if texts else None


ORDERS = [lambda named, order=order: mixed(order(named)) for order in (by_name, backwards, records_first, records_last)]


def twice(named):
    """The members' texts with a second, empty list of records after all; None where there is no list."""
    return [text for _, text in named] + ['"CVR":[]'] if '"CVR"' in dict(named) else None


def once(named):
    return [text for _, text in emptied(named)] if '"CVR"' in dict(named) else None


class Laid:
    """The folder of a row: its folders, and of each file the bytes and the members."""

    def __init__(self, row, short):
        self.folders, self.files = [], {}
        with tempfile.TemporaryDirectory() as top:
            run.lay(top, row, short)
            for folder, folders, files in os.walk(top):
                self.folders += [os.path.relpath(os.path.join(folder, name), top) for name in folders]
                for path in (os.path.join(folder, name) for name in files):
                    with open(path, 'rb') as file:
                        data = file.read()
                    self.files[os.path.relpath(path, top)] = data, cut(data)

    def arranged(self, arrange):
        """The bytes of each file, arranged where that can be done; None where it can't for any."""
        made = {name: arranged(named, arrange) for name, (_, named) in self.files.items()}
        if all(it is None for it in made.values()):
            return None
        return {name: self.files[name][0] if it is None else it for name, it in made.items()}

    def lay(self, top, files):
        """Makes the folder again, with these bytes of its files."""
        for name in self.folders:
            os.mkdir(os.path.join(top, name))
        for name, data in files.items():
            with open(os.path.join(top, name), 'wb') as file:
                file.write(data)


def answer(cvr, row, laid, arrange):
    """What the program does over the arranged files of a row, or None where none could be arranged."""
    files = laid.arranged(arrange)
    if files is None:
        return None
    with tempfile.TemporaryDirectory() as folder:
        laid.lay(folder, files)
        return run.run(cvr, row, folder)


def tried(cvr, held):
    """(how many runs of a row are right, what differs in the others)."""
    _, row, short = held
    laid, right, wrong = Laid(row, short), 0, []
    for arrange in ORDERS:
        got = answer(cvr, row, laid, arrange)
        found = run.differences(row, short, got) if got else []
        right, wrong = right + bool(got and not found), wrong + found
    if ': E2\n' in run.spelled(row['err'], short):
        return right, wrong
    got, wanted = answer(cvr, row, laid, twice), answer(cvr, row, laid, once)
    if got and got != wanted:
        wrong.append('a second, empty CVR: got %r, expected %r' % (got, wanted))
    return right + bool(got and got == wanted), wrong


def try_itself():
    """What is wrong with how a few texts are arranged."""
    text = b' {"b" : [1.50,"}\\"]"] , "CVR":[{"a":{}}],\n"a":"\\u0041,"} '
    a, b, records = b'"a":"\\u0041,"', b'"b" : [1.50,"}\\"]"]', b'"CVR":[{"a":{}}]'
    told = []
    for order, wanted in zip(ORDERS, [(records, a, b), (b, a, records), (records, b, a), (b, a, records)]):
        pieces = [piece for pair in zip(wanted, BETWEEN) for piece in (pair[0], pair[1].encode())]
        if arranged(cut(text), order) != b'{%s}' % b','.join(pieces):
            told.append('%r' % arranged(cut(text), order))
    if arranged(cut(text), twice) != text.strip()[:-1].replace(b' , ', b',').replace(b',\n', b',') + b',"CVR":[]}':
        told.append('twice: %r' % arranged(cut(text), twice))
    told += ['%r is arranged' % it for it in (b'', b'[]', b'{"a":1', b'{"a":1,"a":2}', b'{"a":1}x', b'"{}"', b'\xff{}', b'{"\\u0061":1}')
             if arranged(cut(it), ORDERS[0]) is not None]
    return told


def main():
    words, right, wrong = tenth.words().parse_args(), 0, 0
    sys.stdout.reconfigure(errors='backslashreplace')       # a word may be invalid UTF-8
    for line in try_itself():
        print('WRONG the tool itself: %s' % line)
        wrong += 1
    rows = [it for it in run.all_rows() + [('members.py', row, {}) for row in members.rows()]
            if len(it[1].get('files', {})) <= FILES and not it[1]['name'].endswith('(as definition)')]
    rows = tenth.chosen(words.tenth, rows, lambda it: it[1]['name'])
    # processes, since moving the members takes the time
    lanes = min(run.SIDE_BY_SIDE, len(os.sched_getaffinity(0)))
    with ProcessPoolExecutor(lanes, multiprocessing.get_context('fork')) as pool:
        for (where, row, _), (count, found) in zip(rows, pool.map(functools.partial(tried, words.cvr), rows)):
            right, wrong = right + count, wrong + bool(found)
            for line in found:
                print('WRONG %s: %s: %s' % (where, row['name'], line))
    print('orders: %d right, %d wrong' % (right, wrong))
    sys.exit(0 if right and not wrong else 1)


if __name__ == '__main__':
    main()
