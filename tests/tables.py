#!/usr/bin/env python3
"""tables.py

Holds the tables of the definitions, which tools/tables fills in, against docs/FORMAT.md as tests/rows/rules.py reads
it: no theorem sees a mistake of that tool, which is in definition and code alike. It is tried first, on such mistakes.
And it holds that tool to stop at odd rows, each of which it has to name.

The last line is `tables read again: N right, M wrong`; the status is 0 only where M is 0 and N is not."""
import re
import runpy
import sys
from pathlib import Path

sys.dont_write_bytecode = True
TOP = Path(__file__).resolve().parent.parent
sys.path.insert(0, str(TOP / 'tests/rows'))
import rules as format_rules        # noqa: E402 (it stands there)

FORMAT = runpy.run_path(str(TOP / 'tools/tables'))['Format']
EQUATION = re.compile(r'^(\w+) (?:class|group|listing)\.(\w+) =((?:.|\n(?= ))*)', re.M)
MEMBER = re.compile(r'(required|optional)_member \(codes "(.+?)"\)\s*\((One|Array) (?:\(leaf\.\w+ (listing|group)\.(\w+)\)|leaf\.(\w+))'
                    r'(?: (\d+) (\w+) key\.(\w+))?\) ∷')
REPEATS = {None: 0, 'Free': 0, 'Id': 12, 'Contest': 13}
MISTAKES = [('required_member (codes "UniqueId")', 'optional_member (codes "UniqueId")'), ('0 65536 key', '0 any key'), (' 1 any key.Id', ' 0 any key.Id'),
            ('group.Candidates) 0 any key.Id', 'group.Candidates) 0 any key.Free'), ('    class.RetentionContest ∷\n', ''),
            ('\n    optional_member (codes "Notes") (One leaf.Text) ∷', 2 * '\n    optional_member (codes "Notes") (One leaf.Text) ∷'),
            ('listing.CvrStatus)', 'listing.ContestStatus)'), ('    codes "rcv-round" ∷\n', ''), ('"Rank") (One leaf.Whole)', '"Rank") (One leaf.Count)')]

# What stands in FORMAT, and the rows below it at which tools/tables has to stop.
ODD = {
    '| `BatchId` | O | text | |': [
        '| `BatchId` | O | text | |', '| `Aaa` | O | text | |', '| BatchNote | O | text | |', '| `Batch Note` | O | text | |', '| `BatchNote` | X | text | |',
        '| `BatchNote` | O | text |', '| `BatchNote` | O | text | | |', '| `BatchNote` | O | texts | |', '| `BatchNote` | O | array(text | |',
        '| `BatchNote` | O | array(array(text)) | |', '| `BatchNote` | O | array(text, 2, 1) | |', '| `BatchNote` | O | array(text, 0, 1, 2) | |',
        '| `BatchNote` | O | listed(Colour) | |', '| `BatchNote` | O | classes(Colour) | |', '| `BatchNote` | O | classes(CVR, Party) | |',
        '| `BatchNote` | O | array(text) | rule 12 |', '| `BatchNote` | O | array(classes(Party)) | rule 14 |'],
    '| ReportType | aggregated | Gathered from several devices. |': [
        '| ReportType | aggregated | Twice. |', '| ReportType | mended- | A dash. |', '| ReportType | 2nd | A digit. |', '| ReportType | mended | |',
        '| ReportType | mended | A pipe | in it. |', '| CVRType | mended | Elsewhere. |', '| Colour | red | No enumeration. |'],
}


def plain(name):
    return name.replace('Cvr', 'CVR')


def read(text):
    """The classes as rules.py has them, and the enumerations, as the definitions have them."""
    found = {'table': {}, 'type_text': {}, 'classes_of': {}, 'listed_in': {}}
    for word, name, body in EQUATION.findall(text):
        found[word][plain(name)] = body if word == 'table' else re.findall(r'class\.(\w+)' if word == 'classes_of' else r'codes "(.+?)"', body)

    def kind(form, sort, of, leaf, least, most):
        inner = [leaf.lower()] if leaf else ['listed', '1.0.0' if of == 'Version' else plain(of)] if sort == 'listing' \
            else ['classes', [plain(it) for it in found['classes_of'][plain(of)]]]
        return inner if form == 'One' else ['array', inner, int(least), None if most == 'any' else int(most)]

    classes = {found['type_text'][name][0][len('CVR.'):]: [(it[1], [it[0] == 'required', kind(*it[2:8]), REPEATS[it[8] or None]]) for it in MEMBER.findall(body)]
               for name, body in found['table'].items()}
    return classes, {'1.0.0' if name == 'Version' else name: sorted(texts) for name, texts in found['listed_in'].items()}


def wrong(text, rules):
    classes, lists = read(text)
    wanted = {**{name: list(table.items()) for name, table in rules.classes.items()}, **{name: sorted(texts) for name, texts in rules.lists.items()}}
    found = {**classes, **lists}
    return [name for name in sorted(set(found) | set(wanted)) if found.get(name) != wanted.get(name)]


def stops(text, row):
    """Whether tools/tables stops at this row of FORMAT, and names it."""
    try:
        FORMAT(text)
    except ValueError as fault:
        return str(fault).endswith(row)
    return False


def main():
    text, rules = (TOP / 'crates/cdf_form/specs/Tables.antt').read_text('utf-8'), format_rules.Rules()
    found = ['%s is not as in docs/FORMAT.md' % name for name in wrong(text, rules)]
    found += ['this test, where %r is %r' % it for it in MISTAKES if it[0] not in text or not wrong(text.replace(*it), rules)]
    page = (TOP / 'docs/FORMAT.md').read_text('utf-8')
    odd = [(line, row) for line, more in ODD.items() for row in more]
    found += ['tools/tables takes the row %s' % row for line, row in odd if not stops(page.replace(line, line + '\n' + row), row)]
    for line in found:
        print('WRONG: %s' % line)
    right = len(rules.classes) + len(rules.lists) + len(MISTAKES) + len(odd) - len(found)
    print('tables read again: %d right, %d wrong' % (right, len(found)))
    sys.exit(0 if right and not found else 1)


if __name__ == '__main__':
    main()
