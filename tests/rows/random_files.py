#!/usr/bin/env python3
"""random_files.py --cvr PATH [--tenth WORD] [--rounds N] [--seed N]

Compares the program with rules.py and printed.py on random files. First vectors with one to three random changes, with
members in any order and sometimes twice: each file is checked beside its vector's definition, and has to have the fault
that rules.py gives, or its number of records; and output, log and status have to be those of all of them. Then several
files at once, random reports as of round_trip.py and changed vectors: what `currents`, `tally`, `conflicts` and `merge`
print and log for them, and a `drill` of random steps, has to be what printed.py gives. Each difference is printed with
its files. One seed gives the same files in a round on every machine. The last line is `files: N right, M wrong`, of files
that were checked and of commands; the status is 0 only where M is 0 and N is not."""
import copy
import json
import os
import random
import subprocess
import sys
import tempfile

sys.dont_write_bytecode = True
sys.path.insert(0, os.path.dirname(os.path.dirname(os.path.abspath(__file__))))
import make_vectors           # noqa: E402
import members                # noqa: E402
import printed                # noqa: E402
import round_trip             # noqa: E402
import rules as format_rules  # noqa: E402
import tenth                  # noqa: E402 (they stand here and in tests/)

VECTORS = make_vectors.vectors()
DEFINITIONS = {'classes.json': 'classes.json', 'parties.json': 'parties-def.json', 'f2.json': 'def.json', 'f11.json': 'def.json', 'f20.json': 'def.json'}
FILES = 150                 # in one run of the program
CASES = 12                  # with several files, after each such run
DRILLS = 3                  # over the files of a case
DATES = ['2024-11-06T08:00:00Z'] * 10 + ['2024-11-06T03:00:00.5-05:00', '20241106 08Z', '2024-11-06', '2024-11-06T08:00:00Z[UTC]']
DEVICES = ['desk'] * 9 + ['s1', 's2', 's3', 'p1']
OFFICES = [1, 2, 2, 3, 3, 3, 4, 7, 64]
VALUES = members.PLAIN + ['-0', '1e0', '1e999', '18446744073709551616', '[]', '[[]]', '["x"]', '[{}]', '""', '"yes"', '"other"', '"original"',
                          '"CVR.CVR"', '"CVR.Contest"', '"2024-11-05T20:00:00Z"', '"\\ud800"', '"\\ud83d\\ude00"'] + ['"%s"' % it for it in members.IDS]


class Spelled:
    """A value as it is to stand in the file."""

    def __init__(self, text):
        self.text = text


def paths(value, path=()):
    yield path
    for name, part in value.items() if isinstance(value, dict) else enumerate(value) if isinstance(value, list) else ():
        yield from paths(part, path + (name,))


def change(chance, value, names):
    """Changes one part of a value: it is replaced, removed, doubled or renamed, or a member is added."""
    path = chance.choice([path for path in paths(value) if path])
    held, name = members.at(value, path[:-1]), path[-1]
    kind = chance.choice(['set', 'set', 'set', 'drop', 'copy', 'more'])
    if kind == 'set':
        held[name] = Spelled(chance.choice(VALUES))
    elif kind == 'drop':
        del held[name]
    elif kind == 'copy':
        held[name] = copy.deepcopy(members.at(value, chance.choice([path for path in paths(value) if path])))
    elif isinstance(held, list):
        held.insert(name, copy.deepcopy(held[name]))
    else:
        held[chance.choice(names)] = held.pop(name) if chance.random() < 0.5 else Spelled(chance.choice(VALUES))


def text_of(chance, value):
    """The JSON text, with the members of each object in any order, and sometimes one of them twice."""
    if isinstance(value, Spelled):
        return value.text
    if isinstance(value, list):
        return '[%s]' % ','.join(text_of(chance, part) for part in value)
    if not isinstance(value, dict):
        return json.dumps(value)
    parts = [(name, text_of(chance, part)) for name, part in value.items()]
    chance.shuffle(parts)
    if parts and chance.random() < 0.03:
        parts.append((parts[0][0], chance.choice(VALUES)))
    return '{%s}' % ','.join('%s:%s' % (json.dumps(name, ensure_ascii=False), part) for name, part in parts)


def made(chance, vector, names, amounts=(1, 1, 1, 2, 3)):
    value = json.loads(VECTORS[vector])
    for _ in range(chance.choice(amounts)):
        if value:
            change(chance, value, names)
    return text_of(chance, value)


def laid(files, work):
    """The answer of `work` in a folder of its own with the files in it."""
    with tempfile.TemporaryDirectory() as folder:
        for name, data in files.items():
            with open(os.path.join(folder, name), 'wb') as file:
                file.write(data)
        return work(folder)


def run(cvr, words, folder):
    done = subprocess.run([cvr] + words, cwd=folder, stdout=subprocess.PIPE, stderr=subprocess.PIPE, timeout=tenth.SECONDS)
    return done.stdout.decode('utf-8'), done.stderr.decode('utf-8'), done.returncode


def told_of(out, err):
    """What the program reports of each file: its fault, or the number of its records where it is accepted."""
    return dict([line.rsplit(' ', 1) for line in out.splitlines()] + [line.split(': ', 1) for line in err.splitlines()])


def checked(cvr, rules, chance, names):
    """Files checked one by one, and then output, log and status of the whole. Yields each difference, or None."""
    vector, definition = chance.choice(sorted(DEFINITIONS.items()))
    files = {'%d' % n: made(chance, vector, names).encode('utf-8') for n in range(FILES)}
    known, words = read(rules, VECTORS[definition]), ['check', 'definition'] + list(files)
    got = laid(dict(files, definition=VECTORS[definition]), lambda folder: run(cvr, words, folder))
    wanted = printed.answer(printed.Texts(), words, known, [(name, read(rules, data, known)) for name, data in files.items()])
    told, expected = told_of(*got[:2]), told_of(*wanted[:2])
    for name, data in files.items():
        yield None if told.get(name) == expected[name] else '%r, expected %r: %s' % (told.get(name), expected[name], data.decode('utf-8'))
    yield None if got == wanted else 'check of %d files: %r, expected %r' % (len(files), got, wanted)


# ---- several files

def reports(chance, names):
    """The definition's bytes, and those of some files for it, by name."""
    if chance.random() < 0.7:
        definition, held = VECTORS['def.json'], round_trip.Case(chance).files
        held += [made(chance, chance.choice(['f2.json', 'f11.json', 'f20.json']), names, (0, 1)).encode('utf-8') for _ in range(chance.randint(0, 2))]
    else:
        vector, name = chance.choice(sorted(DEFINITIONS.items()))
        definition, held = VECTORS[name], [made(chance, vector, names, (0, 0, 1)).encode('utf-8') for _ in range(chance.randint(1, 3))]
    chance.shuffle(held)
    return definition, {'%d' % n: data for n, data in enumerate(held)}


def read(rules, data, definition=None):
    """The value of a file, or its fault as a log line has it."""
    try:
        value = format_rules.read(rules, data)
    except format_rules.Fault as fault:
        return str(fault)
    return format_rules.fault_in(rules, value, definition) or value


def number(chance, offices):
    """An office's number, sometimes one of no office, or with zeros before it."""
    if chance.random() < 0.05:
        return chance.choice(['0', '000', str(offices + 1), '999999999'])
    return chance.choice(['', '', '', '', '0']) + str(chance.randint(1, offices))


def drill(chance, files):
    """The words of a drill of these files, in random steps."""
    offices = chance.choice(OFFICES)
    few = min(offices, chance.choice([3, 3, 64]))       # of many offices most usually take in nothing
    steps = ['%s=%s' % (number(chance, few), chance.choice(files)) if chance.random() < 0.5 else '%s>%s' % (number(chance, few), number(chance, few))
             for _ in range(chance.randint(0, 12))]
    return ['drill', 'definition', str(offices)] + ['--'] * (chance.random() < 0.1) + steps


def printed_of(cvr, rules, chance, names):
    """What the program prints for some files, by command. Yields each difference, or None."""
    definition, files = reports(chance, names)
    known = read(rules, definition)
    values = {name: read(rules, data, known) for name, data in files.items()}
    heading = [chance.choice(DATES), chance.choice(DEVICES), chance.choice('111223')]
    asked = [[task, 'definition'] + (heading if task == 'merge' else []) + list(files) for task in printed.LINES + ('merge',)]
    asked += [drill(chance, list(files)) for _ in range(DRILLS)]
    told = laid(dict(files, definition=definition), lambda folder: [run(cvr, words, folder) for words in asked])
    for words, got in zip(asked, told):
        wanted = printed.answer(printed.Texts(), words, known, [(path, values[path]) for path in printed.paths(words)[1:]])
        yield None if got == wanted else '%s: %r, expected %r: %r' % (' '.join(words), got, wanted, files)


def main():
    words = tenth.words()
    words.add_argument('--rounds', type=int, default=30)
    words.add_argument('--seed', type=int, default=1)
    words, rules, right, wrong = words.parse_args(), format_rules.Rules(), 0, 0
    names = sorted({'@type', '@id', 'x', 'a/b~', '', '\ue000', '\U0001f600'}.union(*rules.classes.values()))
    for seed in tenth.chosen(words.tenth, ('%d %d' % (words.seed, number) for number in range(words.rounds))):
        chance = random.Random(seed)
        found = list(checked(words.cvr, rules, chance, names))
        for _ in range(CASES):
            found += printed_of(words.cvr, rules, chance, names)
        right, wrong = right + found.count(None), wrong + len(found) - found.count(None)
        for one in found:
            if one:
                print('WRONG ' + one)
    print('files: %d right, %d wrong' % (right, wrong))
    sys.exit(0 if right and not wrong else 1)


if __name__ == '__main__':
    main()
