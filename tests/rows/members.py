#!/usr/bin/env python3
"""members.py: rows for every member of every class, made from the tables of docs/FORMAT.md.

Each row is one run of `check` over many files: vectors/classes.json with one value after another at one member. A file
is named after the value, with ' and = for " and :, which no name on Windows has. rules.py works out the answers from
the tables, without the program. Where a changed Election, GpUnit or Party has the right form, it isn't the
definition's, and the answer is E5."""
import copy
import json

import make_vectors
import rules as format_rules

VECTOR = 'classes.json'
HERE = '<here>'
PLAIN = ['null', 'true', '0', '-1', '4294967295', '4294967296', '18446744073709551615', '-9223372036854775808', '1.5', '{}', '"x"']
TEXTS = ['', ' ', 'X']
NAMED = str.maketrans({'"': "'", ':': '='})
IDS = ['s1', 'p1', 'red', 'cora', 'e', 'm', 'judge', 'for-cora', 'no']      # of each class that is named; and of another contest
MOMENTS = ['2024-11-05T20:00:00Z', '20241105T20Z', '2024-11-05T20:00:00Z[UTC]', '2024-11-05']


def objects(value, path):
    """Each object under a value as (its class, its path)."""
    parts = value.items() if isinstance(value, dict) else enumerate(value) if isinstance(value, list) else ()
    if isinstance(value, dict):
        yield value['@type'][len('CVR.'):], path
    for name, part in parts:
        yield from objects(part, path + [name])


def at(value, path):
    for name in path:
        value = value[name]
    return value


def spelled(value):
    return json.dumps(value, separators=(',', ':'), ensure_ascii=False)


def with_here(report, path, member):
    """The report's text with a mark in the place of the member's value."""
    changed = copy.deepcopy(report)
    at(changed, path)[member] = HERE
    return spelled(changed)


def without(report, path, member):
    changed = copy.deepcopy(report)
    at(changed, path).pop(member, None)
    return spelled(changed)


def leaf_values(rules, kind):
    """The values that are tried where a value of a kind belongs."""
    yield from PLAIN
    if kind[0] in ('text', 'name', 'moment', 'listed'):
        yield from map(spelled, TEXTS)
    if kind[0] in ('text', 'name'):
        yield from map(spelled, IDS)
    if kind[0] == 'moment':
        yield from map(spelled, MOMENTS)
    if kind[0] == 'listed':
        first = rules.lists[kind[1]][0]
        yield from map(spelled, sorted(set().union(*rules.lists.values())) + [first + ' ', first.title()])
    if kind[0] == 'classes':
        yield from ('{"@type":"CVR.%s"}' % name for name in rules.classes)
        yield from ('{"@type":"%s"}' % kind[1][0], '{"@type":1}')


def twins(item):
    """Two items that are the same only in one of the members that may not repeat."""
    for same, other in (('@id', 'ContestId'), ('ContestId', '@id')):
        yield 'two of one ' + same, spelled([dict(item, **{same: 'same', other: text}) for text in ('one', 'other')])


def values(rules, kind, held):
    """The values that are tried at a member of a kind, each with its name; `held` is the vector's value there, or
    None."""
    texts = ['[]', '["x"]', '[[]]'] + PLAIN
    if kind[0] == 'array':
        texts += ['["x","y"]'] + ['[%s]' % text for text in leaf_values(rules, kind[1])]
    else:
        texts += leaf_values(rules, kind)
    yield from ((text.translate(NAMED), text) for text in texts)
    if kind[0] == 'array' and kind[1][0] == 'classes' and held:
        yield from twins(held[-1])


def row(rules, report, name, member, path):
    """The row of a member, with the object of its class at the path."""
    whole, before = with_here(report, path, member), at(report, path).get(member)
    files = {'absent': without(report, path, member)}
    for value_name, text in values(rules, rules.classes[name][member][1], before):
        files[value_name] = whole.replace(spelled(HERE), text)
    out = err = ''
    for file, text in files.items():
        fault = answer(rules, text, report)
        if fault:
            err += '%s: %s\n' % (file, fault)
        else:
            out += '%s %d\n' % (file, len(json.loads(text).get('CVR', [])))
    return {'name': 'member %s.%s' % (name, member), 'words': ['check', VECTOR, '--'] + list(files), 'files': files,
            'out': out, 'err': err, 'status': 1 if err else 0}


def answer(rules, text, definition):
    try:
        return format_rules.fault_in(rules, format_rules.read(rules, text.encode('utf-8')), definition)
    except format_rules.Fault as fault:
        return str(fault)


def rows():
    """The rows, in the form that run.py runs."""
    rules = format_rules.Rules()
    report = json.loads(make_vectors.vectors()[VECTOR])
    places = dict(objects(report, []))      # the last object of each class, which nothing names
    for name, table in rules.classes.items():
        for member in table:
            yield row(rules, report, name, member, places[name])
