#!/usr/bin/env python3
"""changes.py [-v]

Which changes of the format's rules does no row notice? The rules are those of docs/FORMAT.md, as rules.py reads them.
First they have to give every row's refusals as the row states them. Then one thing in them is changed at a time: a
member is not walked, or not required, or is required, or has another kind; a class or a listed text is accepted, or no
longer; a bound moves by one; ids may repeat, or may not; a text has to name something, or something else, or nothing;
an object need not be the definition's. A row notices a change where its refusals are no longer those that it states.
With -v each change is printed with the row that notices it.

The last line is `changes: N noticed, M not`; the status is 0 only where M is 0 and N is not."""
import hashlib
import itertools
import multiprocessing
import os
import re
import sys

sys.dont_write_bytecode = True
HERE = os.path.dirname(os.path.abspath(__file__))
sys.path.insert(0, HERE)
import members                # noqa: E402
import printed                # noqa: E402
import rules as format_rules  # noqa: E402
import run as rows            # noqa: E402 (all of them stand beside this file)

LONG = 1000000              # bytes of a row's files; a row with more is tried last, and only for bounds


class Row:
    """A row's files, and the refusals that it states."""
    read = {}               # the value of a file, or its refusal, by the file's content

    def __init__(self, where, row, short):
        self.is_of_limits = where == 'limits.json'
        self.name, self.short, self.files = row['name'], short, row.get('files', {})
        self.stated = re.sub(r'^(out: X1|merge: .*|.*: N1)\n', '', rows.spelled(row['err'], short), flags=re.M)
        self.paths = printed.paths(row['words'])
        self.told = [(what, path) for what, path, office in printed.told_files(row['words'])
                     if office is None or 1 <= office <= printed.offices_of(row['words'])]
        self.size = sum(len(self.data(path)) for path in self.paths)
        self.marks = {}

    def data(self, path):
        name = os.path.normpath(path)
        return rows.content(self.files[name], self.short) if name in self.files else rows.VECTORS[name]

    def value(self, rules, path):
        """What reading a file gives. It is kept as long as the rules of reading are unchanged."""
        if rules.is_read_otherwise:
            return tried(rules, self.data(path))
        if path not in self.marks:
            data = self.data(path)
            self.marks[path] = hashlib.sha256(data).digest()
            if self.marks[path] not in Row.read:
                Row.read[self.marks[path]] = tried(rules, data)
        return Row.read[self.marks[path]]

    def refusals(self, rules):
        """The lines of the log that the rules give, one by one."""
        known = self.value(rules, self.paths[0])
        fault = fault_in(rules, known, None)
        if fault:
            yield '%s: %s\n' % (self.paths[0], fault)
            return
        for what, path in self.told:
            fault = fault_in(rules, self.value(rules, path), known)
            if fault:
                yield '%s: %s\n' % (what, fault)

    def is_as_stated(self, rules):
        """Whether the rules give the refusals that the row states; files after the first difference aren't read."""
        left = self.stated
        for line in self.refusals(rules):
            if not left.startswith(line):
                return False
            left = left[len(line):]
        return not left


def tried(rules, data):
    try:
        return format_rules.read(rules, data)
    except format_rules.Fault as fault:
        return fault


def fault_in(rules, value, definition):
    """The fault that the rules give. Changed rules may accept a form in which references can't be read: that is a fault
    of its own."""
    try:
        return format_rules.fault_in(rules, value, definition)
    except (AttributeError, KeyError, TypeError):
        return 'a form that no row has'


def is_asked(row, short):
    """Whether the words of a row ask for a task, and the whole of its files can be read."""
    lines = rows.spelled(row['err'], short).splitlines()
    return (row['words'][:1] != [] and row['words'][0] in printed.TASKS and row['status'] != 2
            and not {'--help', '-h', '/dev/zero', '--files-from'} & set(row['words'])
            and not any(': K' in line for line in lines))


def asked():
    """The rows that test the format. Of the long rows only those of the limits, as no others test a rule by their
    length."""
    every = rows.all_rows() + [('members.py', row, {}) for row in members.rows()]
    held = (Row(*it) for it in every if is_asked(*it[1:]))
    return [row for row in held if row.size <= LONG or row.is_of_limits]


# ---- changes: a name, and what is done to a copy of the rules

LEAVES = [['text'], ['name'], ['count'], ['whole'], ['truth'], ['moment'], ['fractional']]


def kinds_changed(rules, kind):
    """The kinds that differ by one change, each with its name."""
    word = kind[0]
    if word == 'array':
        _, inner, least, most = kind
        yield 'is no array', inner
        yield from (('has items of which each ' + name, ['array', changed, least, most]) for name, changed in kinds_changed(rules, inner))
        yield from ((name, ['array', inner] + changed) for name, changed in bounds_changed(least, most))
        return
    yield 'is an array', ['array', kind, 0, None]
    if word == 'classes':
        for name in rules.classes:
            if kind[1] != [name]:
                yield ('takes no ' if name in kind[1] else 'takes a ') + name, ['classes', sorted(set(kind[1]) ^ {name})]
    else:
        leaves = LEAVES + [['listed', name] for name in rules.lists]
        yield from (('is of kind %s' % ' '.join(leaf), leaf) for leaf in leaves if not is_same(rules, leaf, kind))


def is_same(rules, leaf, kind):
    return leaf == kind or leaf[0] == kind[0] == 'listed' and rules.lists[leaf[1]] == rules.lists[kind[1]]


def bounds_changed(least, most):
    yield 'needs one item more', [least + 1, most]
    if least:
        yield 'needs one item less', [least - 1, most]
    if most is not None:
        yield 'takes one item more', [least, most + 1]
        yield 'takes one item less', [least, most - 1]
        yield 'takes any number', [least, None]
    else:
        yield 'takes one item at most', [least, max(least, 1)]


def set_row(name, member, row):
    def change(rules):
        if row is None:
            del rules.classes[name][member]
        else:
            rules.classes[name][member] = row
    return change


def changes_of_rows(rules):
    for name, table in rules.classes.items():
        for member, (is_required, kind, rule) in table.items():
            what = '%s.%s ' % (name, member)
            yield what + 'is not walked', set_row(name, member, None)
            yield what + ('is optional' if is_required else 'is required'), set_row(name, member, [not is_required, kind, rule])
            if kind[0] == 'array' and kind[3] != 1:
                for other, may in ((0, 'may repeat ids'), (12, 'may not repeat @id'), (13, 'may not repeat ContestId')):
                    if other != rule and (kind[1][0] == 'classes' or not other):
                        yield what + may, set_row(name, member, [is_required, kind, other])
            for told, changed in kinds_changed(rules, kind):
                yield what + told, set_row(name, member, [is_required, changed, rule])


def set_item(table, key, value):
    """Sets a key of one of the tables of the rules, or drops it where there is no value."""
    def change(rules):
        held = getattr(rules, table)
        held.pop(key)
        held.update({} if value is None else {key: value})
    return change


def changes_of_lists(rules):
    for name, texts in rules.lists.items():
        for text in texts:
            yield '%s lacks %s' % (name, text), set_item('lists', name, [it for it in texts if it != text])
        for more in ('', 'x', texts[0].title(), texts[0] + ' '):
            if more not in texts:
                yield '%s has %r' % (name, more), set_item('lists', name, texts + [more])


def set_bound(name, value):
    def change(rules):
        setattr(rules, name, value)
        rules.is_read_otherwise = name not in ('most_count', 'agreeing')
    return change


def changes_of_bounds(rules):
    for name in ('most_bytes', 'most_nested', 'most_count', 'least_whole', 'most_whole'):
        for by in (-1, 1):
            yield '%s is changed by %d' % (name, by), set_bound(name, getattr(rules, name) + by)


def set_target(name, member, target):
    def change(rules):
        rules.references[name, member] = target
    return change


def changes_of_looks(rules):
    targets = sorted(set(rules.references.values())) + ['any selection', 'any CVRSnapshot']
    for name, table in rules.classes.items():
        for member, (_, kind, _) in table.items():
            named = rules.references.get((name, member))
            if named:
                yield '%s.%s may name nothing' % (name, member), set_item('references', (name, member), None)
            if (kind[1] if kind[0] == 'array' else kind)[0] in ('text', 'name'):
                for target in targets:
                    if target != named and is_near(name, target) and not (member == '@id' and is_own(name, target)):
                        yield '%s.%s has to name: %s' % (name, member, target), set_target(name, member, target)


def is_near(name, target):
    """Whether the things that may be named are known in objects of a class: a selection in a CVRContest, a snapshot in
    a CVR."""
    return {'selection': name == 'CVRContestSelection', 'CVRSnapshot': name in ('CVR', 'CVRSnapshot', 'CVRContest')}.get(target, True)


def is_own(name, target):
    """Whether objects of a class are the things that may be named: then each `@id` names its own object, and no answer
    changes."""
    return (target == name or target == 'any ' + name or target == 'contest' and name.endswith('Contest')
            or target == 'any selection' and name.endswith('Selection'))


def changes_of_agreement(rules):
    held = rules.agreeing
    for number in range(len(held)):
        for other in itertools.permutations(held, number):
            yield 'of the definition are only: ' + ' '.join(other), set_bound('agreeing', list(other))
    for other in itertools.permutations(held):
        if list(other) != held:
            yield 'the definition is held against in the order: ' + ' '.join(other), set_bound('agreeing', list(other))
    yield 'ReportingDevice has to be the definition\'s', set_bound('agreeing', held + ['ReportingDevice'])


# Of moments: forms that may be refused, and what would have to stand in place of others for these to be taken.
REFUSED = {
    'a date without dashes': r'.*\d{8}[Tt ].*', 'a time of hours alone': r'.*[Tt ]\d\d[Zz+-].*', 'a time without seconds': r'.*[Tt ]\d\d:\d\d[Zz+-].*',
    'a time without colons': r'.*[Tt ]\d{4}.*', 'a small t': '.*t.*', 'a space for T': '.* .*', 'a small z': '.*z', 'a comma': '.*,.*',
    'a fraction of nine digits': r'.*\.\d{9}.*', 'a second 60': r'.*[Tt ]\d\d:\d\d:60.*', '29 February 2000': '2000-02-29.*',
    'an offset of hours alone': r'.*[Tt ].*[+-]\d\d', 'an offset without a colon': r'.*[Tt ].*[+-]\d{4}', 'an offset of six digits': r'.*[Tt ].*[+-]\d{6}',
    'an offset with seconds': r'.*[Tt ].*[+-]\d\d:\d\d:\d\d', 'an offset of 24 hours or more': r'.*[Tt ].*[+-]2[45].*',
    'an offset with a fraction': r'.*[Tt ].*[+-]\d\d:\d\d:\d\d[.,]\d+', 'an offset with a comma': r'.*[Tt ].*[+-].*,.*'}
TAKEN = {
    'an underscore for T': ('_', 'T'), 'a fraction of ten digits': (r'(\.\d{9})\d', r'\1'), 'a fraction of no digits': (r'\.Z', 'Z'),
    'a fraction of minutes': (r'(T\d\d:\d\d)\.\d+', r'\1'), 'a minute 60': (r'(T\d\d):60', r'\1:59'), 'a second 61': (r'(T\d\d:\d\d):61', r'\1:60'),
    '29 February 1900': ('1900-02-29', '1900-02-28'), 'an offset of 26 hours': (r'([+-])26:', r'\g<1>25:'),
    'an offset of minute 60': (r'([+-]\d\d):60', r'\1:59'), 'an offset of second 60': (r'([+-]\d\d:\d\d):60', r'\1:59'),
    'an offset with one colon': (r'([+-]\d\d):(\d{4})', r'\1\2'), 'an offset that is rounded to 26 hours': (r'([+-]25:59:59)\.5', r'\1'),
    'an offset with a fraction of minutes': (r'([+-]\d\d:\d\d)\.\d+', r'\1')}


def set_moments(is_moment):
    def change(rules):
        rules.is_moment = is_moment
    return change


def changes_of_moments(rules):
    held = rules.is_moment
    for name, form in REFUSED.items():
        yield 'a moment with %s is refused' % name, set_moments(lambda text, form=form: held(text) and not re.fullmatch(form, text))
    for name, (wrong, right) in TAKEN.items():
        yield 'a moment with %s is taken' % name, set_moments(lambda text, wrong=wrong, right=right: held(re.sub(wrong, right, text)))


def all_changes(rules):
    for changes in (changes_of_rows, changes_of_lists, changes_of_bounds, changes_of_looks, changes_of_agreement, changes_of_moments):
        yield from changes(rules)


def noticing(held, rules, name):
    """The first row that notices, or None. The changed member's own row comes first, for a changed bound then those of
    the limits, and then the row that noticed last. Long rows are tried for bounds alone."""
    mine, is_bound = 'member ' + name.split(' ')[0], bool(re.search('one item|any number|changed by', name))
    for row in sorted(held, key=lambda row: (row.name != mine, is_bound and not row.is_of_limits, row.size > LONG)):
        if (is_bound or row.size <= LONG) and not row.is_as_stated(rules):
            held.insert(0, held.pop(held.index(row)))
            return row.name
    return None


def read_otherwise(held, rules):
    """How many rows state other refusals than the rules give. Prints each."""
    wrong = 0
    for row in held:
        if not row.is_as_stated(rules):
            wrong += 1
            print('READ OTHERWISE %s: %r, stated %r' % (row.name, ''.join(row.refusals(rules))[:300], row.stated[:300]))
    return wrong


def by_place(place):
    return notice(place)


def main():
    rules, held = format_rules.Rules(), asked()
    every = list(all_changes(rules))
    wrong, noticed = read_otherwise(held, rules), 0

    global notice                       # the pool's processes are copies of this one, and have it too

    def notice(place):
        changed = rules.copy()
        every[place][1](changed)
        return every[place][0], noticing(held, changed, every[place][0])

    with multiprocessing.get_context('fork').Pool(len(os.sched_getaffinity(0))) as pool:
        for name, row in pool.imap(by_place, range(0 if wrong else len(every)), 40):
            noticed, wrong = noticed + bool(row), wrong + (not row)
            if not row or '-v' in sys.argv[1:]:
                print('%s: %s' % (name, row or 'NO ROW NOTICES'), flush=True)
    print('changes: %d noticed, %d not' % (noticed, wrong))
    sys.exit(0 if noticed and not wrong else 1)


if __name__ == '__main__':
    main()
