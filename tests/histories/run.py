"""run.py [--write | --many CASES [--seed N] [--files N]]

Random histories of offices: imports, exchanges, and imports of volumes that another office has
written; and what offices answer after them, by a model made anew from the definitions in
crates/*/specs (model.py). The histories of one seed stand in data/ of crates/cvr_calls, whose program
plays them in offices of both kinds; the model's answers are the end of its file stdout.

Without a word it checks, in a second or two, that these are the files that the model gives, that
each thing that they have to show happens in them, and that each slip of wrong_rules.py has another
answer. --write makes the files anew. --many has the built program play so many other histories.

The last line is `histories: N right, M wrong`; the status is 0 only where M is 0 and N is not."""
import argparse
import os
import re
import shutil
import subprocess
import sys
import tempfile

sys.dont_write_bytecode = True
HERE = os.path.dirname(os.path.abspath(__file__))
TOP = os.path.dirname(os.path.dirname(HERE))
sys.path[:0] = [HERE, os.path.join(TOP, 'tests', 'rows')]
import chance        # noqa: E402
import model         # noqa: E402
import wrong_rules   # noqa: E402 (they stand beside this file; model needs printed of rows/)

CRATE = os.path.join(TOP, 'crates', 'cvr_calls')
DATA, STDOUT, PROGRAM = (os.path.join(CRATE, *it) for it in (['data'], ['stdout'], ['out', 'cvr_calls']))
BEGIN = 'histories\n'        # the line before their answers
SEED, CASES, FILES, STEPS = 20261141, 32, 18, 8
# What has to happen in some history: a header with two bodies, a snapshot and a device with three, a
# refusal of each kind, offices that aren't the same, rows without unit and with a batch, and votes
# of both contests in either unit.
WANTED = [r'"[a-z0-9]+" "\d+" header [2-9]', r'"[a-z0-9]+" "\d+" snapshot "[^\n]* [3-9]\n',
          r'device "[a-z0-9]+" [3-9]', r'\bE ', r'\bJ1 ', r'\bN1 ', r'\bN2 ', r'false\n',
          r'"mayor" null null ', r'"mayor" "p1" "b" ', r'"q1" "p2" ', r'"q1"[^\n]* "no" [1-9]\n']


# ---- the files

def event_text(event):
    return '%d%s%d' % (event[0], '=' if isinstance(event, model.Import) else '>', event[1])


def step_text(step):
    giver = '' if step.giver is None else '%d: ' % step.giver
    return giver + ' '.join(map(event_text, step.events))


def history_text(history):
    return '\n'.join([' '.join(map(str, history.definitions)), *map(step_text, history.steps)])


def texts(pool):
    """The files in which the histories stand, by name."""
    definitions, reports = ([model.spelled_as_it_stands(it) + '\n' for it in held] for held in (pool.definitions, pool.files))
    return {'definitions.txt': ''.join(definitions), 'reports.txt': ''.join(reports),
            'histories.txt': '\n\n'.join(map(history_text, pool.histories)) + '\n'}


def read(path):
    with open(path, encoding='utf-8') as file:
        return file.read()


def write(folder, pool):
    for name, text in texts(pool).items():
        with open(os.path.join(folder, name), 'w', encoding='utf-8') as file:
            file.write(text)


def write_told(told):
    begun = read(STDOUT).partition(BEGIN)[0]
    with open(STDOUT, 'w', encoding='utf-8') as file:
        file.write(begun + BEGIN + ''.join(told))


def is_written(pool, told):
    """Whether these histories stand in the files, with their answers."""
    return (all(read(os.path.join(DATA, name)) == text for name, text in texts(pool).items())
            and read(STDOUT).partition(BEGIN)[2] == ''.join(told))


# ---- what is checked

def seen(pool, told):
    """Each thing that is checked, and whether it is right."""
    yield 'the files of cvr_calls are stale: --write', is_written(pool, told)
    for text in WANTED:
        yield 'no history shows %s' % text, any(re.search(text, it) for it in told)
    for said, of, name, rule in wrong_rules.WRONG:
        with wrong_rules.in_place(of, name, rule):
            yield 'no history shows that %s' % said, is_shown(pool, told)


def is_shown(pool, told):
    """Whether some history has another answer under the rules as they now are."""
    return any(model.Play(model.Rules(), pool, history).text != text
               for history, text in zip(pool.histories, told))


def is_played(pool, told):
    """Whether the built program gives the same answers to these histories."""
    with tempfile.TemporaryDirectory() as folder:
        data = os.path.join(folder, 'data')
        shutil.copytree(DATA, data)
        write(data, pool)
        ran = subprocess.run([PROGRAM], cwd=data, stdin=subprocess.DEVNULL, stdout=subprocess.PIPE, text=True,
                             timeout=600)
    return ran.returncode == 0 and ran.stdout.partition(BEGIN)[2] == ''.join(told)


def told_by(seed, cases, files):
    """Histories of a seed, and the model's answers to them."""
    pool = chance.made(seed, cases, files, STEPS)
    return pool, model.told_of(model.Rules(), pool)


def others(cases, seed, files):
    """So many other histories, and whether the program gives the model's answers."""
    pool, told = told_by(seed, cases, files)
    yield 'the program goes another way', is_played(pool, told)


def main():
    words = argparse.ArgumentParser()
    words.add_argument('--write', action='store_true')
    words.add_argument('--many', type=int, metavar='CASES', help='how many other histories')
    words.add_argument('--seed', type=int, default=1)
    words.add_argument('--files', type=int, default=FILES, help='of how many files')
    words = words.parse_args()
    pool, told = told_by(SEED, CASES, FILES)
    if words.write:
        write(DATA, pool)
        write_told(told)
    found = others(words.many, words.seed, words.files) if words.many else seen(pool, told)
    right, wrong = 0, 0
    for said, is_right in found:
        right, wrong = right + is_right, wrong + (not is_right)
        if not is_right:
            print('WRONG ' + said)
    print('histories: %d right, %d wrong' % (right, wrong))
    sys.exit(0 if right and not wrong else 1)


if __name__ == '__main__':
    main()
