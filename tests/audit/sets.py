"""sets.py COMPANION CVR N: N random sets of files, and what cvr-audit prints for them, compared
with `cvr` and with the files. Each line is a difference; run.py runs most sets in its own process.

A set is a definition and files as random_files.py makes them: most records come again with other
bodies, and some files are refused. For each set `records` has to add up to the tally, `compare` to
agree with `drill` and with the tallies of both sides, `trace` to come to each row's number by
places that exist in the files, and `warnings` to have what the texts of `cvr` have. The bodies that
the companion finds in the files have to be those of volumes 1 to N, and `definition` has to have
each object of the accepted files once, by id, and of a device the greatest text."""
import json
import os
import random
import re
import sys
import tempfile
from types import SimpleNamespace

TOP = os.path.dirname(os.path.dirname(os.path.dirname(os.path.abspath(__file__))))
sys.path[:0] = [os.path.join(TOP, 'tests', it) for it in ('audit', '.', 'rows')]
sys.dont_write_bytecode = True
import companion              # noqa: E402
import printed                # noqa: E402
import random_files           # noqa: E402
import rules as format_rules  # noqa: E402
import said                   # noqa: E402 (they stand in tests/ and beside this file)

CELL = re.compile(r'("(?:[^"]|"")*"|[^,"\r\n]*)([,\n])')
WORD = re.compile(r'"(?:[^"\\]|\\.)*"|[^ ]+')
FIXED = 15          # columns of a record before those of the contests
KINDS = 'device', 'header', 'snapshot'
SAID = ('repeated', 'counted', 'decides', 'unsigned', 'nobody', 'later', 'waiting', 'ranked', 'undone', 'exceeds',
        'doubled')
WORDS = 'again', 'elsewhere'
HEADING = '2024-11-06T18:00:00-05:00'
RULES = format_rules.Rules()
NAMES = sorted({'@type', '@id', 'x', '', 'BallotAuditId'}.union(*RULES.classes.values()))


class Wrong(Exception):
    """What a set finds wrong."""


def see(is_right, text):
    if not is_right:
        raise Wrong(text)


def csv_lines(text):
    """The cells of each line of a CSV text; None where a cell is empty and has no quotes."""
    lines, cells, place = [], [], 0
    while place < len(text):
        found = CELL.match(text, place)
        cell, end = found.groups()
        cells.append(cell[1:-1].replace('""', '"') if cell[:1] == '"' else cell or None)
        place = found.end()
        if end == '\n':
            lines.append(cells)
            cells = []
    return lines


def spelled(value):
    return json.dumps(value, ensure_ascii=False, sort_keys=True, separators=(',', ':'))


def tally_rows(text):
    """The numbers of a printed tally, by contest, unit and batch, then by column."""
    return {tuple(map(json.loads, words[:3])): printed.row_of(words) for words in lines_in(text)}


def lines_in(text):
    return [WORD.findall(line) for line in text.split('\n')[:-1]]


def changes(one, other):
    """What each column of each row grows by from one tally to the other; only what changes."""
    grown = {}
    for row in {*one, *other}:
        for column in {*one.get(row, {}), *other.get(row, {})}:
            number = other.get(row, {}).get(column, 0) - one.get(row, {}).get(column, 0)
            grown.update({row + (column,): number} if number else {})
    return grown


class Set:
    """A random definition and files, in a folder of their own."""

    def __init__(self, package, cvr, chance, folder):
        self.package, self.cvr, self.chance, self.folder = package, cvr, chance, folder
        definition, files = random_files.reports(chance, NAMES)
        self.definition = self.lay('definition', definition)
        self.paths = [self.lay(name, data) for name, data in files.items()]
        self.known = random_files.read(RULES, definition)
        self.accepted = {}
        for path, data in zip(self.paths, files.values()):
            value = random_files.read(RULES, data, self.known)
            if not isinstance(value, str):          # a fault, as its line has it
                self.accepted[path] = value
        contests = self.known['Election'][0]['Contest']
        self.contests = {it['@id']: [one['@id'] for one in it.get('ContestSelection', [])]
                         for it in contests}

    def lay(self, name, data):
        path = os.path.join(self.folder, name)
        with open(path, 'wb') as file:
            file.write(data)
        return path

    def files(self, paths):
        return self.package.program.Files(self.cvr, self.definition, paths, None)

    def printed(self, task, paths, *words):
        run = [task, '--', self.definition, *words, *paths]
        return random_files.run(self.cvr, run, self.folder)[0]

    # ---- records

    def added_up(self, lines):
        """The rows that the lines of CSV add up to, by the indices of their cells."""
        rows = {}
        for cells in lines[1:]:
            place = FIXED
            for contest, chosen in self.contests.items():
                columns = printed.Texts.columns + list(map(spelled, chosen))
                numbers = cells[place:place + len(columns) - 1]
                place += len(numbers)
                if any(it is not None for it in numbers):
                    row = rows.setdefault((contest, cells[2], cells[3]), dict.fromkeys(columns, 0))
                    for column, number in zip(columns, [1, *map(int, numbers)]):
                        row[column] += number
        return rows

    def see_records(self):
        words = SimpleNamespace(columns=None, spreadsheet=False)
        lines = csv_lines(self.package.records.run(self.files(self.paths), words)[0])
        tally = tally_rows(self.printed('tally', self.paths))
        see(self.added_up(lines) == tally, 'records don\'t add up to the tally')
        currents = [list(map(json.loads, words[:3])) + words[3:]
                    for words in lines_in(self.printed('currents', self.paths))]
        found = [[it[0], it[1], it[6], it[7]] for it in lines[1:]]
        see(sorted(found) == currents, 'records are not those of currents')
        see(lines[1:] == sorted(lines[1:], key=in_pile), 'records are in another order')
        for cells in lines[1:]:
            held = [path for path, value in self.accepted.items() if self.has(value, cells[:2])]
            see(cells[10] == '; '.join(held), 'the files of a record are others')

    @staticmethod
    def has(report, name):
        records = report.get('CVR', [])
        return any([it['CreatingDeviceId'], it['UniqueId']] == name for it in records)

    # ---- bodies

    def see_bodies(self):
        """Compares the bodies of each name with volumes 1 to N; that of volume 1 comes first."""
        found, shown, files = {}, {}, self.files(self.paths)
        bodies = self.package.bodies
        conflicts, volume = bodies.conflicts_of(files), files.volume(1)
        for record in (bodies.record_of(it, conflicts) for it in volume):
            found[('header', *record.name)] = record.headers
            for snapshot, held in record.snapshots.items():
                found[('snapshot', *record.name, snapshot)] = held
        for device, held in bodies.devices(volume, conflicts).items():
            found[('device', device)] = held
        count = int(self.printed('conflicts', self.paths).split()[-1])
        device = self.known['ReportingDevice'][0]['@id']
        for number in range(1, count + 1):
            text = self.printed('merge', self.paths, HEADING, device, str(number))
            for name, value in bodies.facts_of(json.loads(text)):
                shown.setdefault(name, {})[spelled(value)] = None
        see(found.keys() == shown.keys(), 'other names than those of the volumes')
        for name, held in found.items():
            see(held.keys() == shown[name].keys(), 'other bodies than those of the volumes')
            see(next(iter(held)) == next(iter(shown[name])), 'the body of volume 1 isn\'t first')
            see(all(spelled(value) == text for text, value in held.items()), 'another value')

    # ---- compare

    def see_compare(self):
        sides = [[path for path in self.paths if self.chance.random() < 0.7] for _ in range(2)]
        text, is_found = self.package.compare.run(*map(self.files, sides), None)
        steps = ['%d=%s' % (number, path) for number in (1, 2) for path in sides[number - 1]]
        is_same = self.printed('drill', steps, '2').endswith(' same 1\n')
        see(is_same == (text == '') == (not is_found), 'compare and drill differ')
        grown = changes(*(tally_rows(self.printed('tally', side)) for side in sides))
        lines = lines_in(text)
        for kind in ('row', 'part'):
            found = {}
            for words in (it for it in lines if it[0] == kind):
                place = tuple(map(json.loads, words[1:4])) + (words[4],)
                found[place] = found.get(place, 0) + int(words[-1]) - int(words[-2])
            see(found == grown, '%s lines don\'t make the difference' % kind)
        one, other = ({tuple(words[:2]) for words in lines_in(self.printed('currents', side))}
                      for side in sides)
        for side, alone in (('one', one - other), ('other', other - one)):
            found = {tuple(it[1:3]) for it in lines if it[0] == 'record' and it[3] == side}
            see(found == alone, 'records of %s alone' % side)

    # ---- trace

    def see_trace(self):
        contest = self.chance.choice(sorted(self.contests))
        selection = self.chance.choice([None] + self.contests[contest])
        words = SimpleNamespace(contest=contest, unit=None, batch=None, selection=selection)
        column = 'ballots' if selection is None else spelled(selection)
        tally = tally_rows(self.printed('tally', self.paths))
        expected = {row: numbers[column] for row, numbers in tally.items() if row[0] == contest}
        rows, parts, row, name = {}, {}, None, None
        for line in lines_in(self.package.trace.run(self.files(self.paths), words)[0]):
            if line[0] == 'row':
                row, number = tuple(map(json.loads, line[1:4])), int(line[5])
                rows[row] = [number, 0]
            elif line[0] == 'record':
                name = tuple(map(json.loads, line[1:4]))
                rows[row][1] += int(line[4])
                parts[name] = [int(line[4]), {}, 0]
            else:
                self.see_place(line, row, name, selection, parts[name])
        both = {row: [number, number] for row, number in expected.items()}
        see(rows == both, 'trace doesn\'t come to the rows')
        for votes, held, headers in parts.values():
            is_whole = headers and held and all(it == votes for it in held.values())
            see(is_whole, 'the places of a record don\'t come to its votes')

    def see_place(self, line, row, name, selection, part):
        """Compares a place with the file, and adds its votes to those of the file."""
        path, steps = json.loads(line[1]), json.loads(line[2]).split('/')[1:]
        value = cvr = self.accepted[path]['CVR'][int(steps[1])]
        is_it = (cvr['CreatingDeviceId'], cvr['UniqueId']) == name[:2]
        see(is_it, 'a place in another record')
        if line[0] == 'header':
            is_of_row = (cvr.get('BallotStyleUnitId'), cvr.get('BatchId')) == row[1:]
            see(is_of_row, 'a header of another row')
            part[2] += 1
            return
        seen = {}
        for step in steps[2:]:
            value = value[int(step)] if isinstance(value, list) else value[step]
            for member, kind in (('SelectionPosition', 'selection'), ('ContestId', 'contest')):
                if isinstance(value, dict) and member in value:
                    seen[kind] = value
        is_there = cvr['CVRSnapshot'][int(steps[3])]['@id'] == name[2]
        see(is_there and seen['contest']['ContestId'] == row[0], 'a place in another snapshot')
        if selection is not None:
            is_counted = value.get('IsAllocable', value['HasIndication']) == 'yes'
            is_its = seen['selection']['ContestSelectionId'] == selection
            see(is_counted and is_its, 'a place that doesn\'t count')
        place, votes = (path, steps[1]), 1 if selection is None else value['NumberVotes']
        part[1][place] = part[1].get(place, 0) + votes
        see(int(line[3]) == votes, 'other votes than at the place')

    # ---- warnings

    def see_warnings(self):
        words = SimpleNamespace(manifest=None, all=True)
        text, is_found = self.package.warnings.run(self.files(self.paths), words)
        kinds = {}
        for words in lines_in(text):
            kinds.setdefault(words[0], []).append(words)
        see(is_found == bool({*kinds} - {'counted', 'decides'}), 'whether something needs a person')
        refused = len(self.paths) - len(self.accepted)
        see(len(kinds.get('refused', [])) == refused, 'refused files')
        see(self.conflicts(kinds) == self.printed_conflicts(), 'conflicts')
        rows = tally_rows(self.printed('tally', self.paths))
        for column in ('pending', 'unassigned'):
            found = {tuple(map(json.loads, words[1:4])): int(words[4].rstrip(':'))
                     for words in kinds.get(column, [])}
            held = {row: numbers[column] for row, numbers in rows.items() if numbers[column]}
            see(found == held, column)
        see(self.said(kinds) == sorted(map(str, said.lines(self.known, self.accepted))),
            'what is said of files and marks')
        lacking = {json.loads(words[1].rstrip(':')) for words in kinds.get('contest', [])}
        see(lacking == set(self.contests) - {row[0] for row in rows}, 'contests without a row')

    # ---- definition

    def texts_of(self, kind):
        """The texts of each object of a kind in the accepted files, by its id."""
        texts = {}
        for report in self.accepted.values():
            for one in report.get(kind, []):
                texts.setdefault(one['@id'], set()).add(spelled(one))
        return texts

    def see_definition(self):
        if not self.accepted:
            return
        os.environ['CVR'] = self.cvr
        words = SimpleNamespace(files=list(self.accepted), test=True)
        made = json.loads(self.package.definition.run(words)[0])
        for kind in ('GpUnit', 'Party', 'ReportingDevice'):
            found = [(it['@id'], spelled(it)) for it in made.get(kind, [])]
            held = {name: max(texts) for name, texts in self.texts_of(kind).items()}
            see(found == sorted(held.items()), 'other objects, or another order: ' + kind)
        see(spelled(made['Election']) == spelled(self.known['Election']), 'another election')
        see(made['CVR'] == [], 'records in a definition')

    @staticmethod
    def said(kinds):
        """The lines on files and marks, each as its kind, texts and numbers."""
        lines = [parts_of(words) for kind in SAID for words in kinds.get(kind, [])]
        return sorted(str(tuple(it for it in parts if it not in WORDS)) for parts in lines)

    @staticmethod
    def conflicts(kinds):
        """Each conflict in the warnings: its kind, and how many texts it has."""
        return sorted((kind, words[:words.index(':')].count('text'))
                      for kind in KINDS for words in kinds.get(kind, []))

    def printed_conflicts(self):
        lines = lines_in(self.printed('conflicts', self.paths))[:-1]
        return sorted((words[0] if words[0] == 'device' else words[2], int(words[-1]))
                      for words in lines)


def in_pile(cells):
    """A line's device, batch, place in the batch and UniqueId; what is empty comes first."""
    return cells[0], cells[3] is not None, cells[3] or '', cells[11] is not None, \
        int(cells[11] or 0), cells[1]


def parts_of(words):
    """The kind of a line of `warnings`, and its texts, numbers and words, without the advice."""
    if words[0] == 'undone':        # the readings behind these parts are seen by rows alone
        words = words[:6] + [':']
    end = next(place for place, word in enumerate(words) if word.endswith(':'))
    last = words[end].rstrip(':')
    parts = words[:end] + [last] * bool(last)
    return [json.loads(it) if it[0] in '"-0123456789' and it != '-' else it for it in parts]


def differences(package, cvr, seed):
    """What one set finds wrong, as lines."""
    found = []
    for task in ('records', 'bodies', 'compare', 'trace', 'warnings', 'definition'):
        with tempfile.TemporaryDirectory() as folder:
            held = Set(package, cvr, random.Random(seed), folder)
            try:
                getattr(held, 'see_' + task)()
            except Wrong as wrong:
                found.append('set %d: %s: %s' % (seed, task, wrong))
            except package.program.Ended as end:
                found.append('set %d: %s: status %d, %r' % (seed, task, end.status, end.log))
            except Exception as fault:
                name = type(fault).__name__
                found.append('set %d: %s: %s %s' % (seed, task, name, fault))
    return found


def main():
    folder, cvr, count = sys.argv[1:]
    package = companion.package_in(folder)
    for seed in range(1, 1 + int(count)):
        found = differences(package, cvr, seed)
        print(''.join(line + '\n' for line in found), end='')
        if found:
            break


if __name__ == '__main__':
    main()
