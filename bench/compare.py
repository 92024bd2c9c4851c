#!/usr/bin/env python3
"""compare.py [--before PROGRAM] [--after PROGRAM] [--peer NAME=PROGRAM ..] [--folder FOLDER ..] [--rounds N] [--cpu K] [--keep NAME]

Times two builds of cvr on the same files, in turns, each run alone; without --before, one build. First the reports of
gen.py: one as long as a file may be; short records; the long report with a fault in its first record, in the middle, in
its last one, two of other kinds in its last one, one after all records, cut off, accepted with a number with a sign,
and where records name a party; each of these beside the same file with another CVR before all (`tree`), which programs
until 2026-11-26 read as one tree; and one file of one record, named many times. Then each given folder (definition.json
or def.json, and reports), beside the peers: programs that take the words of cvr. It prints processor seconds (the
median of the rounds, and the least), the peak memory, the ratio of the medians to the first program's, and whether the
texts are the same. With --cpu all of it runs on one processor."""
import argparse
import glob
import json
import os
import re
import statistics
import subprocess
import sys
import tempfile
from concurrent.futures import ProcessPoolExecutor

sys.dont_write_bytecode = True
import bench        # noqa: E402 (it stands beside this file)

MANY = 10000        # how often the file of one record is named
SHORT = (20000, 200000)
KEY = '"UniqueId":"'
WRONG = '"UniqueID":"'      # no member of that name is required, and UniqueId is
STYLE, PARTY = r'"BallotStyleId":"style-\d+"', '"PartyIds":["blue"]'
ACCEPTED = ('sign', 'party', 'party late', 'party unlisted')
LATE = {'unknown': ('"ContestId":"', '"ContestId":"no '), 'fraction': ('"NumberVotes":1', '"NumberVotes":1.5')}


class Run:
    """One run of a program in a folder: its processor seconds, its peak memory in MiB, its status and its text."""

    def __init__(self, command, out, folder):
        with open(out, 'wb') as file:
            child = subprocess.Popen(command, cwd=folder, stdin=subprocess.DEVNULL, stdout=file, stderr=subprocess.DEVNULL)
            _, status, usage = os.wait4(child.pid, 0)
        child.returncode = status
        self.status, self.out = os.waitstatus_to_exitcode(status), out
        self.seconds, self.memory = usage.ru_utime + usage.ru_stime, usage.ru_maxrss / 1024


def compared(report, title, commands, rounds, status=0):
    """Prints a line for each command, (name, words, folder). Returns whether all ended with this status and printed the
    same text."""
    runs = {name: [] for name, _, _ in commands}
    with tempfile.TemporaryDirectory() as folder:
        for _ in range(rounds):
            for name, words, where in commands:
                runs[name].append(Run(words, os.path.join(folder, name), where))
        first = runs[commands[0][0]][0]
        is_same = all(bench.same_bytes(first.out, held[0].out) for held in runs.values())
    is_right = is_same and all(run.status == status for held in runs.values() for run in held)
    report.say('%s: %s' % (title, 'the same text' if is_right else 'THEY DIFFER, or ended otherwise'))
    base = statistics.median(run.seconds for run in runs[commands[0][0]])
    for name, held in runs.items():
        middle = statistics.median(run.seconds for run in held)
        report.say('    %-11s %8.3f   least %8.3f   %8.1f MiB   ratio %6.3f'
                   % (name, middle, min(run.seconds for run in held), max(run.memory for run in held), middle / max(base, 1e-6)))
        report.raw('%s, %s, processor seconds' % (title, name), ['%.3f' % run.seconds for run in held])
    return is_right


def reports_in(folder):
    """(definition, reports) of a folder."""
    every = sorted(glob.glob(os.path.join(folder, '*.json')))
    definitions = [path for path in every if os.path.basename(path) in ('definition.json', 'def.json')]
    if len(definitions) != 1:
        sys.exit('%s: one definition.json or def.json' % folder)
    return definitions[0], [path for path in every if path not in definitions]


def spoiled(folder, path):
    """The names of files. Each is the same report: with a fault of form in its first record, in the middle, and in its
    last one; with a text in its last record that names nothing, and with a fraction; with a fault of form after all
    records; with the last record's fault of form, or its fraction, and another after all records; cut off at its end;
    accepted, with a number with a sign at its end; and those of_parties. The files in the folder `tree` also have
    another CVR before all."""
    with open(path, encoding='utf-8') as file:
        text = file.read()
    places = {'first': text.find(KEY), 'middle': text.find(KEY, len(text) // 2), 'last': text.rfind(KEY)}
    if -1 in places.values():
        raise bench.Failed('%s names no record by %s' % (path, KEY))
    texts = {name: text[:at] + WRONG + text[at + len(KEY):] for name, at in places.items()}
    for name, (old, new) in LATE.items():
        at = text.rindex(old)
        texts[name] = text[:at] + new + text[at + len(old):]
    texts['rest'] = text.rstrip()[:-1] + ',"Version":1}'
    texts['both'] = texts['last'].rstrip()[:-1] + ',"Version":1}'
    texts['fractions'] = texts['fraction'].rstrip()[:-1] + ',"Of no table":0.5}'
    texts['cut'] = text.rstrip()[:-1]
    texts['sign'] = text.rstrip()[:-1] + ',"Of no table":-1}'
    texts.update(of_parties(text))
    os.mkdir(os.path.join(folder, 'tree'))
    for name, changed in texts.items():
        for front, *steps in ('{',), ('{"CVR":[],', 'tree'):
            with open(os.path.join(folder, *steps, name + '.json'), 'w', encoding='utf-8') as file:
                file.write(front + changed.lstrip()[1:])
    return list(texts)


def of_parties(text):
    """The text of the report where each record names a party in place of a ballot style; where only the last record but
    one does, also with a fault of form in the last one; and the first text again, for a definition with one party more
    than the report lists."""
    each, at = re.sub(STYLE, PARTY, text), [found.start() for found in re.finditer(STYLE, text)][-2]
    late = text[:at] + re.sub(STYLE, PARTY, text[at:], count=1)
    last = late.rfind(KEY)
    return {'party': each, 'party late': late, 'party before': late[:last] + WRONG + late[last + len(KEY):], 'party unlisted': each}


def with_a_party(folder, path):
    """The definition with one more party."""
    with open(path, encoding='utf-8') as file:
        value = json.load(file)
    value['Party'].append({'@id': 'unlisted', '@type': 'CVR.Party'})
    with open(os.path.join(folder, 'wider.json'), 'w', encoding='utf-8') as file:
        json.dump(value, file)
    return os.path.join(folder, 'wider.json')


def one_record(folder):
    """A report of one record."""
    path = os.path.join(bench.TOP, 'examples', 'county', 'scan.json')
    with open(path, encoding='utf-8') as file:
        value = json.load(file)
    value['CVR'] = value['CVR'][:1]
    with open(os.path.join(folder, 'one.json'), 'w', encoding='utf-8') as file:
        json.dump(value, file)
    return os.path.join(folder, 'one.json')


def own_files(report, words, programs):
    """The reports of gen.py."""
    def both(title, task, definition, files):
        commands = [(name, [program, task, definition] + files, None) for name, program in programs]
        return compared(report, title, commands, words.rounds)

    def late(folder, name):
        beside = with_a_party(folder, definition) if name == 'party unlisted' else definition
        wanted = [(program, [path, 'check', beside, name + '.json']) for program, path in programs]
        commands = [(program, command, folder) for program, command in wanted]
        commands += [(program + ' tree', command, os.path.join(folder, 'tree')) for program, command in wanted]
        return compared(report, 'check of that report, %s' % name, commands, words.rounds, int(name not in ACCEPTED))

    special = os.path.abspath(bench.made(words.data, 'special', ['special']))
    definition, large = os.path.join(special, 'definition.json'), os.path.join(special, 'large.json')
    is_right = both('check of a report of 64 MiB', 'check', definition, [large])
    for amount in SHORT:
        folder = bench.made(words.data, 'volumes-%d' % amount, ['volumes', '--records', str(amount)])
        for task in 'check', 'tally':
            is_right = both('%s of %d short records' % (task, amount), task, *reports_in(folder)) and is_right
    with tempfile.TemporaryDirectory() as folder:
        with ProcessPoolExecutor(1) as pool:    # else a run's peak is at least what these texts take here
            names = pool.submit(spoiled, folder, large).result()
        for name in names:
            is_right = late(folder, name) and is_right
        county = os.path.join(bench.TOP, 'examples', 'county', 'definition.json')
        is_right = both('check of a record, %d times' % MANY, 'check', county, [one_record(folder)] * MANY) and is_right
    return is_right


def given():
    words = argparse.ArgumentParser()
    words.add_argument('--before', help='a build of cvr')
    words.add_argument('--after', default=os.path.join(bench.TOP, 'crates', 'cvr', 'out', 'cvr'), help='another one')
    words.add_argument('--peer', action='append', default=[], metavar='NAME=PROGRAM', help='what is timed on the folders, too')
    words.add_argument('--folder', action='append', default=[], help='a definition and reports')
    words.add_argument('--data', default=os.path.join(bench.HERE, 'data'), help='where generated data is kept')
    words.add_argument('--rounds', type=int, default=5)
    words.add_argument('--cpu', type=int, help='the processor on which all runs')
    words.add_argument('--folders-only', action='store_true', help='no reports of gen.py')
    words.add_argument('--keep', metavar='NAME', help='append the raw figures to runs/DATE-NAME.md')
    return words.parse_args()


def main():
    words = given()
    if words.cpu is not None:
        os.sched_setaffinity(0, {words.cpu})
    report = bench.Report()
    report.say('%s, seed %d, commit %s' % (bench.machine(), bench.SEED, bench.commit()))
    builds = [('before', words.before)] * bool(words.before) + [('after', words.after)]
    programs = [(name, os.path.abspath(program)) for name, program in builds]
    peers = [tuple(peer.split('=', 1)) for peer in words.peer]
    is_right = words.folders_only or own_files(report, words, programs)
    for folder in words.folder:
        definition, files = reports_in(folder)
        length = sum(map(os.path.getsize, files))
        bench.read_all([definition] + files)
        for task in 'check', 'tally', 'currents':
            title = '%s of %s, %d files, %d bytes' % (task, os.path.basename(os.path.normpath(folder)), len(files), length)
            beside = peers if task != 'check' else []
            commands = [(name, program.split() + [task, definition] + files, None) for name, program in programs + beside]
            is_right = compared(report, title, commands, words.rounds) and is_right
    if words.keep:
        bench.keep(report, words.keep)
    sys.exit(0 if is_right else 1)


if __name__ == '__main__':
    main()
