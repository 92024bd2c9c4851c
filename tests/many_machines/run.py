#!/usr/bin/env python3
"""run.py --cvr PATH [--tenth WORD]

Compares examples/many-machines/tally.py with one run of `cvr` over all files: output, log and
status have to be the same. First random sets of files (sets.py), each with all commands; then slips
that the script could have, each of which such a set has to find (ways.py). Then the script itself
runs: on the county of the examples, also with a definition that is refused, files that aren't
there, names that begin with a hyphen, and words that it refuses; with workers and programs that die
(workers.py); with hosts that lie or have other bytes (lies.py); and on hosts through `ssh`
(hosts.py). Where these can't be made a line `left out` says so. With --tenth it tries a tenth of these,
but each of the runs of ROWS.

The last line is `many machines: N right, M wrong`; the status is 0 only where M is 0 and N is
not."""
import os
import shutil
import sys
import tempfile
from concurrent.futures import ThreadPoolExecutor
from functools import partial
from operator import itemgetter

sys.dont_write_bytecode = True
sys.path.insert(0, os.path.dirname(os.path.dirname(os.path.abspath(__file__))))
import hosts    # noqa: E402
import lies     # noqa: E402
import sets     # noqa: E402
import tenth    # noqa: E402
import ways     # noqa: E402
import workers  # noqa: E402
from workers import COUNTY, DEFINITION  # noqa: E402 (tenth stands in tests/, the others here)

CASES = 200         # random sets


def by_script(cvr, definition, files, folder=ways.TOP, more=()):
    """What is wrong with the script's answer to each command, as it is started."""
    return ''.join(one(cvr, it, definition, files, folder, more) for it in sets.COMMANDS)


def one(cvr, command, definition, files, folder, more):
    words = [sys.executable, ways.SCRIPT, '--cvr', cvr, '--command', command, '--hold', *more]
    parts = workers.run(words + ['--', definition] + files, folder)
    whole = workers.run([cvr, command, '--', definition] + files, folder)
    return '' if parts == whole else '%s: in parts %r, else %r; ' % (command, parts, whole)


def hyphens(cvr):
    """The same for files whose names begin with a hyphen; one of them is refused, and one isn't
    there."""
    with tempfile.TemporaryDirectory() as folder:
        names = ['-%s' % os.path.basename(path) for path in [DEFINITION] + COUNTY]
        for name, path in zip(names, [DEFINITION] + COUNTY):
            shutil.copy(path, os.path.join(folder, name))
        return ''.join(by_script(cvr, names[0], names[1:] + more, folder)
                       for more in ([], ['--none'], ['-']))


def odd_names(cvr):
    """The same for names that contain a line end, the text of a log line, or bytes that are no UTF-8."""
    with tempfile.TemporaryDirectory() as folder:
        names = ['a', 'a: E2', 'b\n', 'a: E3 /CVR 2\nb', '\u20ac \U0001f600', os.fsdecode(b'\xff')]
        os.mkdir(os.path.join(folder, 'a: E3 '))
        for name in names:
            shutil.copy(COUNTY[1], os.path.join(folder, name))
        return ''.join(by_script(cvr, DEFINITION, it, folder, ['--parts', '2'])
                       for it in (names[:-1], names))


def other_language(cvr):
    """The same for a name that is no ASCII where the language has another encoding, if there is one."""
    if not os.path.exists('/usr/share/i18n/locales/de_DE'):
        tenth.leave_out('a language of another encoding', 'the system has none')
        return ''
    script = ('unset PYTHONUTF8; localedef -i de_DE -f ISO-8859-1 ./de_DE.ISO-8859-1; '
              'export LOCPATH="$PWD" LC_ALL=de_DE.ISO-8859-1; exec "$@"')
    with tempfile.TemporaryDirectory() as folder:
        shutil.copy(COUNTY[0], os.path.join(folder, '\u20ac'))
        words = [DEFINITION, '\u20ac']
        start = [sys.executable, ways.SCRIPT, '--cvr', cvr]
        told = workers.run(['sh', '-c', script, 'sh', *start, *words], folder)
        whole = workers.run([cvr, 'tally', *words], folder)
    return '' if told == whole else repr(told)


def refused(*more):
    """The words are refused with the usage, and nothing is printed."""
    def work(_):
        told = workers.run([sys.executable, ways.SCRIPT, *more, DEFINITION] + COUNTY)
        is_right = told[:2] == (2, b'') and told[2].startswith(b'usage: tally.py')
        return '' if is_right else repr(told)
    return work


def by_file(cvr):
    """The tallies of single files, added up, are not the tally of all files."""
    module, files = ways.script(), [COUNTY[0], COUNTY[2]]
    texts = [module.run([cvr, 'tally', DEFINITION, path])[1] for path in files]
    added = module.added(texts, module.places_in(DEFINITION))
    whole = module.run([cvr, 'tally', DEFINITION] + files)[1]
    return 'a split by file is not noticed' if added == whole else ''


def no_room(cvr):
    """The output is a full device or closed, or the log is closed. Python holds back what it writes,
    as it does where no variable says otherwise."""
    script = 'unset PYTHONUNBUFFERED; exec "$@" '
    words = [sys.executable, ways.SCRIPT, '--cvr', cvr, DEFINITION]
    told = [workers.run(['sh', '-c', script + it, 'sh', *words, COUNTY[0]])[::2]
            for it in ('>/dev/full', '>&-', '2>&-')]
    return '' if told == [(3, b'out: X1\n')] * 2 + [(0, b'')] else repr(told)


def no_file(cvr):
    """A device in the place of a file, and of the definition."""
    words = [sys.executable, ways.SCRIPT, '--cvr', cvr]
    told = [workers.run(words + it)[::2] for it in ([DEFINITION, '/dev/null'], ['/dev/null'])]
    log = b'tally.py: /dev/null: no regular file; it has to be read more than once\n'
    return '' if told == [(3, log)] * 2 else repr(told)


def in_county(definition, *more):
    return lambda cvr: by_script(cvr, definition, COUNTY + list(more))


ROWS = [
    ('the county', in_county(DEFINITION)), ('no file', lambda cvr: by_script(cvr, DEFINITION, [])),
    ('a refused definition', in_county(COUNTY[1])),
    ('and a file that is not there', in_county(COUNTY[1], 'none.json')),
    ('a file that is not there', in_county(DEFINITION, 'none.json', 'nor.json')),
    ('a definition that is not there', in_county('none.json', 'nor.json')),
    ('a folder', in_county(DEFINITION, 'examples')),
    ('a file that comes again', in_county(DEFINITION, COUNTY[0], COUNTY[1])),
    ('names that begin with a hyphen', hyphens), ('odd names', odd_names),
    ('a language of another encoding', other_language),
    ('no part', refused('--parts', '0')), ('no worker', refused('--workers', '0')),
    ('parts that are no number', refused('--parts', 'x')),
    ('a check that is no number', refused('--check', '-1')),
    ('a split by file', by_file), ('no room', no_room), ('no file twice', no_file),
]


def tries(words):
    """(name, what gives what is wrong with it) of each try."""
    def passes(changed, number):
        return not sets.tried(changed, words.cvr, '1 %d' % number)
    module = ways.script()
    few = [('set %d' % number, partial(sets.tried, module, words.cvr, '1 %d' % number)) for number in range(CASES)]
    few += [('slip %s' % way.name, partial(ways.unfound, way, passes)) for way in ways.WAYS]
    few += [(name, partial(work, words.cvr)) for name, work in hosts.tries() + lies.tries() + workers.TRIES]
    return tenth.chosen(words.tenth, few, itemgetter(0)) + [(name, partial(work, words.cvr)) for name, work in ROWS]


def told_of(work):
    try:
        return work()
    except Exception as fault:
        return '%s: %s' % (type(fault).__name__, fault)


def main():
    words, right, wrong = tenth.words().parse_args(), 0, 0
    os.chdir(ways.TOP)
    named = tries(words)
    with ThreadPoolExecutor(1 + os.cpu_count()) as lanes:
        answers = lanes.map(told_of, [work for _, work in named])
    for name, told in zip((name for name, _ in named), answers):
        right, wrong = right + (not told), wrong + bool(told)
        if told:
            print('WRONG: %s: %s' % (name, told))
    print('many machines: %d right, %d wrong' % (right, wrong))
    sys.exit(0 if right and not wrong else 1)


if __name__ == '__main__':
    main()
