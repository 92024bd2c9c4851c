#!/usr/bin/env python3
"""bench.py [--sizes 10000,100000] [--rounds 5] [--jq-rounds 3] [--stages-only] [--keep NAME]

Times, at two sizes or more, `cvr currents` beside jq and beside reading the files alone, `cvr tally`, and `cvr merge`
beside jq; a volume that is read back beside jq; the check of one report, and the reading of one definition, beside the
JSON reader alone; the stages from there to the tally; and the writing of volumes. It compares current snapshots, and a
volume, with jq byte by byte, and a volume that is read back with what was read. README.md says what the figures mean.
The status is 1 where a command fails or a text differs. With --keep the raw figures are appended to runs/DATE-NAME.md.
With --stages-only `cvr` isn't run."""
import argparse
import datetime
import glob
import os
import platform
import re
import shutil
import statistics
import subprocess
import sys
import tempfile
import time

HERE = os.path.dirname(os.path.abspath(__file__))
TOP = os.path.dirname(HERE)
SEED = 1
MANY = 150000               # records in a file of short records
CONTESTS, SELECTIONS, UNITS, RECORDS = 2000, 50, 20000, 20000
REPEATS = (10000, 100000)   # how often one record is repeated in a file
VOLUMES = (10000, 100000, 1000000)      # the records of the volumes that are written
DATE = '2024-11-06T08:00:00Z'           # of the volumes that `merge` writes
HEADING = [DATE, 'desk-0', '1']
# Makes the volume of one report whose records are in order.
AS_VOLUME = '.GeneratedDate = "%s" | .ReportType = ["aggregated"] | .GpUnit |= sort_by(.["@id"])' % DATE
JQ_HINT = 'jq is missing: install it, as by `apt-get install jq`, `brew install jq` or `dnf install jq`'
CVR_HINT = '%s is missing: `./cvr currents examples/county/definition.json` builds it'
STAGES_HINT = '%s or cvr_volumes is missing, so the stages are left out: `bench/build_stages` builds them'


class Failed(Exception):
    """A command that ended with another status than 0."""


class Report:
    """What is printed, kept line by line."""

    def __init__(self):
        self.lines = []

    def say(self, line=''):
        self.lines.append(line)
        print(line)
        sys.stdout.flush()

    def raw(self, what, figures):
        """Figures that are kept but not printed."""
        self.lines.append('raw %s: %s' % (what, ' '.join(figures)))


def made(folder, name, words):
    """The folder of generated data, made where it isn't there."""
    path = os.path.join(folder, name)
    if not os.path.isdir(path):
        part = path + '.part'
        shutil.rmtree(part, ignore_errors=True)
        subprocess.run([sys.executable, os.path.join(HERE, 'gen.py')] + words + ['--seed', str(SEED), '--out', part],
                       check=True)
        os.rename(part, path)
    return path


def timed(command, out):
    """(seconds, peak memory in MiB) of a command that runs alone and prints to the file `out`."""
    with open(out, 'wb') as file:
        start = time.perf_counter()
        child = subprocess.Popen(command, stdin=subprocess.DEVNULL, stdout=file)
        _, status, usage = os.wait4(child.pid, 0)
        seconds = time.perf_counter() - start
        child.returncode = status
    if status:
        raise Failed('%s .. ended with wait status %d' % (' '.join(command[:3]), status))
    return seconds, usage.ru_maxrss / 1024


def read_all(paths):
    """Reads the files once, so that all commands find them in memory."""
    for path in paths:
        with open(path, 'rb') as file:
            while file.read(1 << 24):
                pass


def same_bytes(one, other):
    with open(one, 'rb') as a, open(other, 'rb') as b:
        while True:
            x, y = a.read(1 << 20), b.read(1 << 20)
            if x != y:
                return False
            if not x:
                return True


def count_lines(path):
    with open(path, 'rb') as file:
        return sum(1 for _ in file)


def row(name, runs, megabytes):
    """A line of the table: median and spread of the seconds, speed, peak memory."""
    seconds = [run[0] for run in runs]
    middle = statistics.median(seconds)
    return '%-8s %9.3f   %8.3f to %8.3f %9.1f %10.1f' % (
        name, middle, min(seconds), max(seconds), megabytes / middle, max(run[1] for run in runs))


def measured(report, commands, folder, megabytes):
    """The runs of each command, (name, command, rounds); in each round they run one after the other."""
    runs = {name: [] for name, _, _ in commands}
    for turn in range(max(rounds for _, _, rounds in commands)):
        for name, command, rounds in commands:
            if turn < rounds:
                runs[name].append(timed(command, os.path.join(folder, name)))
    report.say('%-8s %9s   %20s %9s %10s' % ('', 'seconds', 'spread', 'MB/s', 'peak MiB'))
    for name, _, _ in commands:
        report.say(row(name, runs[name], megabytes))
        report.raw(name + ' seconds', ['%.4f' % run[0] for run in runs[name]])
        report.raw(name + ' peak MiB', ['%.1f' % run[1] for run in runs[name]])
    return {name: statistics.median(run[0] for run in held) for name, held in runs.items()}


def size(report, words, amount):
    """Times the commands on `amount` records. Returns the seconds of `currents`, `tally` and `merge`, and whether all was well."""
    data = made(words.data, 'records-%d' % amount, ['records', '--records', str(amount)])
    definition = os.path.join(data, 'definition.json')
    files = sorted(glob.glob(os.path.join(data, 'scan-*.json')) + glob.glob(os.path.join(data, 'desk-*.json')))
    megabytes = sum(map(os.path.getsize, files)) / 1e6
    report.say()
    report.say('currents (cvr, jq), tally, and merge beside jq -c, %d records, %d files, %.1f MB' % (amount, len(files), megabytes))
    read_all([definition] + files)
    commands = [('reading', ['cat'] + files, words.rounds),
                ('cvr', [words.cvr, 'currents', definition] + files, words.rounds),
                ('tally', [words.cvr, 'tally', definition] + files, words.rounds),
                ('merge', [words.cvr, 'merge', definition] + HEADING + files, words.rounds)]
    if shutil.which('jq'):
        jq = ['jq', '-rn', '-f', os.path.join(HERE, 'currents.jq')] + files
        commands += [('jq', jq, words.jq_rounds), ('jq -c', ['jq', '-c', '.'] + files, words.jq_rounds)]
    with tempfile.TemporaryDirectory() as folder:
        middle = measured(report, commands, folder, megabytes)
        is_right = True
        if 'jq' in middle:
            is_right = same_bytes(os.path.join(folder, 'cvr'), os.path.join(folder, 'jq'))
            report.say('texts of cvr and jq: %s, %d lines'
                       % ('the same' if is_right else 'THEY DIFFER', count_lines(os.path.join(folder, 'cvr'))))
            report.say('cvr / jq %.3f, cvr / reading %.1f, merge / jq -c %.3f'
                       % (middle['cvr'] / middle['jq'], middle['cvr'] / middle['reading'], middle['merge'] / middle['jq -c']))
        else:
            report.say('cvr / reading %.1f; no text was compared. %s' % (middle['cvr'] / middle['reading'], JQ_HINT))
        report.say('tally / cvr %.3f, merge / tally %.3f' % (middle['tally'] / middle['cvr'], middle['merge'] / middle['tally']))
    return (middle['cvr'], middle['tally'], middle['merge']), is_right


def read_whole(path):
    with open(path, 'rb') as file:
        return file.read()


def round_trip(report, words):
    """Times the writing of a volume, and a merge that reads it back. Returns whether they and jq give the same bytes."""
    data = made(words.data, 'volumes-%d' % RECORDS, ['volumes', '--records', str(RECORDS)])
    file = os.path.join(data, 'report-001.json')
    merge = [words.cvr, 'merge', os.path.join(data, 'definition.json'), DATE, 'd', '1']
    with tempfile.TemporaryDirectory() as folder:
        volume = os.path.join(folder, 'volume')
        timed(merge + [file], volume)
        whole = read_whole(volume)
        report.say()
        report.say('round trip of %d records: merge, merge of its volume (back), jq -cS, %.1f MB' % (RECORDS, len(whole) / 1e6))
        commands = [('merge', merge + [file], words.rounds), ('back', merge + [volume], words.rounds)]
        if shutil.which('jq'):
            commands.append(('jq -cS', ['jq', '-cS', AS_VOLUME, file], words.jq_rounds))
        middle = measured(report, commands, folder, len(whole) / 1e6)
        texts = [read_whole(os.path.join(folder, name)) for name in middle]
    is_right = texts[:2] == [whole, whole] and texts[2:] in ([], [whole + b'\n'])
    report.say('volumes: %s' % ('the same' if is_right else 'THEY DIFFER'))
    report.say('back / merge %.3f' % (middle['back'] / middle['merge'])
               + (', merge and back / jq -cS %.3f' % ((middle['merge'] + middle['back']) / middle['jq -cS']) if 'jq -cS' in middle else ''))
    return is_right


def stages(words, task, definition, report):
    """(microseconds of what is below, microseconds of the stage) per round."""
    command = [words.stages, task, definition, report, str(words.rounds)]
    done = subprocess.run(command, stdin=subprocess.DEVNULL, stdout=subprocess.PIPE)
    if done.returncode:
        raise Failed('%s .. ended with status %d' % (' '.join(command[:4]), done.returncode))
    lines = done.stdout.decode('ascii').splitlines()
    found = [re.match(r'(?:read|check) (\d+) (?:check|facts) (\d+)$', line) for line in lines]
    if len(found) != words.rounds or None in found:
        raise Failed('%s .. printed %r' % (' '.join(command[:4]), lines[:3]))
    return [(int(one.group(1)), int(one.group(2))) for one in found]


def stage(report, words, name, task, definition, path):
    """A line of the table of stages: a stage beside the one below it, over one file. Returns its median."""
    runs = stages(words, task, definition, path)
    reads, checks = [run[0] / 1e6 for run in runs], [run[1] / 1e6 for run in runs]
    ratios = [run[1] / max(run[0], 1) for run in runs]
    report.say('%-22s %6.1f   %9.3f   %9.3f   %8.3f to %8.3f   %8.3f   %5.2f to %5.2f'
               % (name, os.path.getsize(path) / 1e6, statistics.median(reads), statistics.median(checks),
                  min(checks), max(checks), statistics.median(ratios), min(ratios), max(ratios)))
    report.raw('%s %s microseconds' % (name, 'check/facts' if task == 'facts' else 'read/check'),
               ['%d/%d' % run for run in runs])
    return statistics.median(checks)


def lists_made(words, name, contests, selections, units, records):
    """(definition, report) with so many of each."""
    data = made(words.data, name, ['lists', '--contests', str(contests), '--selections', str(selections),
                                   '--units', str(units), '--records', str(records)])
    return os.path.join(data, 'definition.json'), os.path.join(data, 'report.json')


def check(report, words):
    """Times the check of reports, and the reading of a definition, beside the JSON reader alone."""
    data = made(words.data, 'special', ['special'])
    county = os.path.join(data, 'definition.json')
    many_definition, many = lists_made(words, 'many', 10, 5, 100, MANY)
    wide_definition, wide = lists_made(words, 'wide', CONTESTS, SELECTIONS, UNITS, RECORDS)
    report.say()
    report.say('stages, from the bytes to the freed tree')
    report.say('%-22s %6s   %9s   %9s   %20s   %8s   %14s'
               % ('', 'MB', 'read s', 'check s', 'spread of check', 'c / r', 'spread of c / r'))
    for name in ('large', 'snapshots', 'devices'):
        stage(report, words, name, 'report', county, os.path.join(data, name + '.json'))
    stage(report, words, '%d records' % MANY, 'report', many_definition, many)
    stage(report, words, 'definition with lists', 'definition', wide_definition, wide_definition)
    stage(report, words, 'report with lists', 'report', wide_definition, wide)
    report.say('lists: %d contests of %d selections each, %d units; %d records'
               % (CONTESTS, SELECTIONS, UNITS, RECORDS))
    facts(report, words, data, county)
    peaks(report, words, county, os.path.join(data, 'large.json'))


def facts(report, words, data, county):
    """Times the facts of reports beside their check."""
    report.say()
    report.say('facts, from the report to the freed list')
    report.say('%-22s %6s   %9s   %9s   %20s   %8s   %14s'
               % ('', 'MB', 'check s', 'facts s', 'spread of facts', 'f / c', 'spread of f / c'))
    stage(report, words, 'large', 'facts', county, os.path.join(data, 'large.json'))
    seconds = [stage(report, words, 'repeated %d' % amount, 'facts', county, os.path.join(data, 'repeated-%d.json' % amount))
               for amount in REPEATS]
    report.say('one record, time per repeat at %d / at %d: %.3f'
               % (REPEATS[1], REPEATS[0], seconds[1] / REPEATS[1] / (seconds[0] / REPEATS[0])))


STAGES = ('read', 'check', 'facts', 'import', 'tally')


def office(report, words):
    """Times each stage from the JSON reader to the tally, file by file, each in an office of its own."""
    amount = words.sizes[0]
    data = made(words.data, 'records-%d' % amount, ['records', '--records', str(amount)])
    files = sorted(glob.glob(os.path.join(data, 'scan-*.json')) + glob.glob(os.path.join(data, 'desk-*.json')))
    sums = dict.fromkeys(STAGES, 0)
    for path in files:
        command = [words.stages, 'office', os.path.join(data, 'definition.json'), path, str(words.rounds)]
        told = subprocess.run(command, stdin=subprocess.DEVNULL, stdout=subprocess.PIPE, check=True).stdout.decode('ascii')
        for name in STAGES:
            held = [int(text) for text in re.findall(r'\b%s (\d+)' % name, told)]
            sums[name] += statistics.median(held)
            report.raw('%s %s microseconds' % (os.path.basename(path), name), ['%d' % one for one in held])
    report.say()
    report.say('stages of %d records, sums of the medians of %d files; import has its own check and facts in it'
               % (amount, len(files)))
    report.say(', '.join('%s %.3f s' % (name, sums[name] / 1e6) for name in STAGES))
    report.say('beyond check and facts an import takes %.3f of the check, the tally %.3f'
               % ((sums['import'] - sums['check'] - sums['facts']) / sums['check'], sums['tally'] / sums['check']))


WRITING = ('write', 'walk', 'facts', 'copy')


def volume(report, words, amount):
    """Times the writing of a volume of so many records. Returns the median of each figure, in seconds."""
    data = made(words.data, 'volumes-%d' % amount, ['volumes', '--records', str(amount)])
    files = sorted(glob.glob(os.path.join(data, 'report-*.json')))
    command = [words.volumes, os.path.join(data, 'definition.json'), str(words.rounds)] + files
    told = subprocess.run(command, stdin=subprocess.DEVNULL, stdout=subprocess.PIPE, check=True).stdout.decode('ascii')
    middle = {}
    for name in WRITING:
        held = [int(text) for text in re.findall(r'\b%s (\d+)' % name, told)]
        middle[name] = statistics.median(held) / 1e6
        report.raw('%d records %s microseconds' % (amount, name), ['%d' % one for one in held])
    length = int(re.search(r'bytes (\d+)', told).group(1))
    alone = middle['write'] - middle['facts']
    report.say('%8d %8.1f %9.3f %9.3f %9.3f %9.3f %9.3f   %6.2f'
               % (amount, length / 1e6, middle['write'], middle['walk'], middle['facts'], alone, middle['copy'],
                  alone / max(middle['copy'], 1e-6)))
    return middle


def volumes(report, words):
    """Times the writing of volumes from an office in memory, beside its look-ups and a copying of the same bytes."""
    report.say()
    report.say('volumes, from an office in memory; walk and look-ups are part of the writing')
    report.say('%8s %8s %9s %9s %9s %9s %9s   %6s'
               % ('records', 'MB', 'write s', 'walk s', 'look-up s', 'alone s', 'copy s', 'a / c'))
    found = {amount: volume(report, words, amount) for amount in VOLUMES}
    for most in VOLUMES[1:]:
        report.say('time per record at %d / at %d: %.3f'
                   % (most, VOLUMES[0], found[most]['write'] / most / (found[VOLUMES[0]]['write'] / VOLUMES[0])))


def peaks(report, words, definition, path):
    """The peak memory of the check of a report, beside that of the JSON reader, each in a process of its own."""
    found = {}
    for task in ('read', 'check', 'facts'):
        with tempfile.NamedTemporaryFile() as out:
            runs = [timed([words.stages, task, definition, path, '1'], out.name) for _ in range(2)]
        found[task] = max(run[1] for run in runs)
        report.raw('large %s peak MiB' % task, ['%.1f' % run[1] for run in runs])
    report.say('large, peak MiB with the %.1f MiB of the file: read %.1f, check %.1f, facts %.1f; check / read %.3f'
               % (os.path.getsize(path) / 2 ** 20, found['read'], found['check'], found['facts'],
                  found['check'] / found['read']))


def machine():
    """The processor, the number of cores and the system, as they describe themselves."""
    name = platform.processor() or platform.machine()
    try:
        with open('/proc/cpuinfo') as file:
            name = next(line.split(':', 1)[1].strip() for line in file if line.startswith('model name'))
    except (OSError, StopIteration):
        pass
    return '%s, %s cores, %s %s' % (name, os.cpu_count(), platform.system(), platform.release())


def commit():
    done = subprocess.run(['git', '-C', TOP, 'describe', '--always', '--dirty'], stdout=subprocess.PIPE,
                          stderr=subprocess.DEVNULL)
    return done.stdout.decode('utf-8').strip() or 'none'


def keep(report, name):
    date = datetime.date.today().isoformat()
    os.makedirs(os.path.join(HERE, 'runs'), exist_ok=True)
    path = os.path.join(HERE, 'runs', '%s-%s.md' % (date, name))
    is_new = not os.path.exists(path)
    with open(path, 'a') as file:
        if is_new:
            file.write('# Runs of %s, %s\n' % (date, name))
        file.write('\n' + ''.join('    %s\n' % line if line else '\n' for line in report.lines))
    print('kept in ' + os.path.relpath(path))


def given():
    words = argparse.ArgumentParser()
    words.add_argument('--cvr', default=os.path.join(TOP, 'crates', 'cvr', 'out', 'cvr'))
    words.add_argument('--stages', default=os.path.join(HERE, 'data', 'cvr_stages'))
    words.add_argument('--volumes', default=os.path.join(HERE, 'data', 'cvr_volumes'))
    words.add_argument('--data', default=os.path.join(HERE, 'data'), help='where generated data is kept')
    words.add_argument('--sizes', default='10000,100000', help='numbers of records, two or more')
    words.add_argument('--rounds', type=int, default=5)
    words.add_argument('--jq-rounds', type=int, default=3)
    words.add_argument('--stages-only', action='store_true', help='no runs of cvr')
    words.add_argument('--keep', metavar='NAME', help='append the raw figures to runs/DATE-NAME.md')
    words = words.parse_args()
    words.sizes = sorted(int(text) for text in words.sizes.split(','))
    if len(words.sizes) < 2:
        sys.exit('two sizes or more: one alone shows no growth')
    if words.keep and not re.match(r'[\w.-]+$', words.keep):
        sys.exit('a name of letters, digits, points and lines')
    words.cvr, words.stages, words.volumes = map(os.path.abspath, (words.cvr, words.stages, words.volumes))
    if not words.stages_only and not os.path.exists(words.cvr):
        sys.exit(CVR_HINT % words.cvr)
    return words


def commands(report, words):
    """Times `cvr currents`, `tally` and `merge` on each size. Returns whether every text was right."""
    is_right, seconds = True, {}
    for amount in words.sizes:
        seconds[amount], is_same = size(report, words, amount)
        is_right = is_right and is_same
    least, most = words.sizes[0], words.sizes[-1]
    report.say()
    for place, name in enumerate(('currents', 'tally', 'merge')):
        report.say('%s, time per record at %d records / at %d records: %.3f'
                   % (name, most, least, seconds[most][place] / most / (seconds[least][place] / least)))
    return is_right


def main():
    words = given()
    report = Report()
    report.say('%s, seed %d, commit %s' % (machine(), SEED, commit()))
    is_right = True
    try:
        if not words.stages_only:
            is_right = commands(report, words)
            is_right = round_trip(report, words) and is_right
        if os.path.exists(words.stages) and os.path.exists(words.volumes):
            check(report, words)
            office(report, words)
            volumes(report, words)
        else:
            report.say(STAGES_HINT % os.path.relpath(words.stages))
    except Failed as fault:
        report.say('FAILED: %s' % fault)
        is_right = False
    if words.keep:
        keep(report, words.keep)
    sys.exit(0 if is_right else 1)


if __name__ == '__main__':
    main()
