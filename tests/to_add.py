#!/usr/bin/env python3
"""to_add.py

Holds rows of the table "To add" in CONTRIBUTING.md against the tools. Each row of PLAYS is played on a copy of the
repository: what it asks for by hand is put in, and the tools run that have files in brackets behind them, in that
order. Its second column then has to name just the files that were changed by hand, a bracket just those that the tool
wrote, and no check may find anything wrong. Each row is also tried with a file too many or too few, which has to show,
and those of MISTAKES with these, at each of which the tool has to stop.

The last line is `to add: N right, M wrong`; the status is 0 only where M is 0 and N is not."""
import re
import shutil
import subprocess
import sys
import tempfile
from concurrent.futures import ThreadPoolExecutor
from pathlib import Path

TOP = Path(__file__).resolve().parent.parent
NOT_COPIED = shutil.ignore_patterns('.git', 'out', '__pycache__')
# By the first words of a row, what is put in by hand: (file, a line of it, a line to stand below that, or nothing where
# that line is left out).
PLAYS = {
    'a member of the format': [
        ('docs/FORMAT.md', '| `BatchId` | O | text | |', '| `BatchNote` | O | text | |'),
        ('crates/cdf_form/specs/TableExamples.antt', '    (codes "BatchId", 0, 0, 3, 3) ∷', '    (codes "BatchNote", 0, 0, 3, 3) ∷')],
    'a text of an enumeration': [
        ('docs/FORMAT.md', '| ReportType | aggregated | Gathered from several devices. |', '| ReportType | mended | After a fault was mended. |')],
    'a rule': [
        ('docs/FAULTS.md', '| 14 | NotWhole |', '| 15 | BlankText | A name has only spaces. | `scan.json: E3 /CVR/0/UniqueId 15` | Give it a name. | a name is blank |')],
    'a code': [
        ('docs/FAULTS.md', '| N1 | There is no office', '| N3 | An office has no number. | `>4: N3` | Name an office. | |')],
    'a column of the tally': [
        ('docs/FORMAT.md', '| unassigned |', '| blanks | 1 for each record that has no mark for the contest |'),
        ('tests/rows/printed.py', '    columns = [', "    columns += ['blanks']"),
        ('tests/rows/printed.py', '        columns.update(', "        columns['blanks'] = int('yes' not in [it['HasIndication'] for it in self.positions(every)])"),
        # rows whose files are too long to be read here
        *(('tests/rows/tally.json', '{"name": "tally-%s"' % it, '') for it in ('1024-of-64-positions', '65536-unnamed-selections')),
        ('tests/rows/edges.json', '{"name": "70000-records-in-a-file"', '')],
}
ROW = r'{"name": "%s", "words": ["tally", "def.json", "f2.json"], "out": "\"mayor\" \"p1\" null %s \"ann\" 1 \"bob\" 0 \"wi\" 0\n", "err": "", "status": 0},'
MISTAKES = {
    'a column of the tally': [
        ('README.md', '"council" "precinct-1" ', '"council" "precinct-1" "batch-1" 1 0 0 0 0 1 "council-iris" 1 "council-omar" 0 "council-other" 0'),
        *(('tests/rows/tally.json', '{"name": "tally-one-file"', ROW % (it, it)) for it in ('1 0 0 0 1 0', '1 0 0 0 0 0 1'))],
}
IN_PART = 'a rule', 'a code', 'a column of the tally'       # rows that ask for more by hand than is played
CHECKS = [['tools/edits', '--fit'], ['tools/tables', '--check'], ['tests/tables.py'], ['tools/codes', '--check'], ['tools/reference', '--check']]
TOOL = re.compile(r'`(tools/\w+)` \(([^)]*)\)')
PATH = r'[\w./]+(?:\.\w+|/stdout)'
NAMED = re.compile(r'\b(FORMAT|FAULTS)\b|`(\w+)`:|`(%s)`' % PATH)


def row(text, name):
    """The second and the third cell of the row that begins with these words."""
    found = re.findall(r'^\| %s\b[^|]*\| (.*) \| (.*) \|$' % name, text, re.M)
    if len(found) != 1:
        raise ValueError('CONTRIBUTING.md has %d rows that begin with %r' % (len(found), name))
    return found[0]


def files(cell):
    """The files that a cell names, by their paths from the top; those behind `CRATE`: are the crate's."""
    found, folder = set(), ''
    for page, crate, path in NAMED.findall(cell):
        folder = 'crates/%s/' % crate if crate else folder
        if not crate:
            found.add('docs/%s.md' % page if page else folder + path if path.startswith(('src/', 'specs/', 'proofs/')) else path)
    return found


def differences(name, cells, by_hand, by_tool):
    """What the cells of a row say otherwise than its play has it."""
    named = {'by hand': files(cells[0]) & by_hand if name in IN_PART else files(cells[0])}
    named.update((tool, files(inner)) for tool, inner in TOOL.findall(cells[1]))
    for who, changed in {'by hand': by_hand, **by_tool}.items():
        yield from ('%s: not changed %s: %s' % (name, who, it) for it in sorted(named[who] - changed))
        yield from ('%s: changed %s, and not named: %s' % (name, who, it) for it in sorted(changed - named[who]))


def held(top):
    return {str(it.relative_to(top)): it.read_bytes() for it in top.rglob('*') if it.is_file()}


def run(top, words):
    """What a command prints where it doesn't end well."""
    done = subprocess.run([sys.executable, *words], cwd=top, stdout=subprocess.PIPE, stderr=subprocess.STDOUT, text=True, timeout=600)
    return done.stdout if done.returncode else ''


def played(name, cells, mistakes=()):
    """The files that a play changes by hand, those that each tool writes, and what is then wrong."""
    with tempfile.TemporaryDirectory() as folder:
        top = Path(shutil.copytree(TOP, Path(folder, 'cvr'), ignore=NOT_COPIED))
        for path, line, more in [*PLAYS[name], *mistakes]:
            text, found = re.subn(r'^%s.*\n' % re.escape(line), lambda it: more and it.group() + more + '\n', (top / path).read_text('utf-8'), flags=re.M)
            if found != 1:
                raise ValueError('%s: %s has %d lines %r' % (name, path, found, line))
            (top / path).write_text(text, 'utf-8')
        by_tool, wrong = {}, []
        for tool, _ in TOOL.findall(cells[1]):
            before = held(top)
            wrong += {run(top, [tool]), run(top, [tool])}       # again, since some read what they wrote
            by_tool[tool] = {path for path, data in held(top).items() if before.get(path) != data}
        wrong += [run(top, words) for words in CHECKS]
    return {path for path, _, more in PLAYS[name] if more}, by_tool, ['%s: %s' % (name, it.strip()) for it in wrong if it]


def slips(name, cells, by_hand, by_tool):
    """The cells with a file too few or too many that the comparison doesn't see."""
    where, also = cells
    named = [it for it in re.findall('FORMAT|FAULTS|`%s`' % PATH, where) if name not in IN_PART or files(it) <= by_hand]
    changed = [(where.replace(it, 'it', 1), also) for it in named] + [(where + '; `x/y.py`', also)] * (name not in IN_PART)
    for tool, inner in TOOL.findall(also):
        for less in [inner.replace(it, 'it', 1) for it in re.findall('`%s`' % PATH, inner)] + [inner + ', `x/y.py`']:
            changed.append((where, also.replace('(%s)' % inner, '(%s)' % less, 1)))
    return ['this test, on the row | %s | %s | %s |' % (name, *it) for it in changed if not list(differences(name, it, by_hand, by_tool))]


def tried(name):
    """What is wrong with a row."""
    cells = row((TOP / 'CONTRIBUTING.md').read_text('utf-8'), name)
    by_hand, by_tool, wrong = played(name, cells)
    wrong = wrong + list(differences(name, cells, by_hand, by_tool)) or slips(name, cells, by_hand, by_tool)
    if name in MISTAKES:
        _, written, told = played(name, cells, MISTAKES[name])
        if any(written.values()) or ''.join(told).count('WRONG') != len(MISTAKES[name]):
            wrong.append('%s: mistakes are not told: %s %s' % (name, written, told))
    return wrong


def main():
    with ThreadPoolExecutor() as pool:
        found = list(pool.map(tried, PLAYS))
    for line in (line for lines in found for line in lines):
        print('WRONG: ' + line)
    print('to add: %d right, %d wrong' % (found.count([]), sum(map(len, found))))
    sys.exit(0 if all(lines == [] for lines in found) else 1)


if __name__ == '__main__':
    main()
