"""cvr-audit compare: what differs between two sets of files, and between their tallies."""
import itertools
from collections import namedtuple

from . import bodies, counting, notes, reading
from .bodies import first
from .program import mismatch
from .reading import spelled

ABSENT = '-'        # in place of a value that one side doesn't have
NOTHING = object()  # that value
LONG = 200
SIDES = 'one', 'other'
Shown = namedtuple('Shown', 'name value text')      # a record as volume 1 shows it


def steps_of(one, other):
    """The members or items of two values, each with both its values; None where these have none."""
    if isinstance(one, dict) and isinstance(other, dict):
        names = sorted({*one, *other})
        return [(name, one.get(name, NOTHING), other.get(name, NOTHING)) for name in names]
    if isinstance(one, list) and isinstance(other, list):
        pairs = itertools.zip_longest(one, other, fillvalue=NOTHING)
        return [(place, *pair) for place, pair in enumerate(pairs)]
    return None


def members(one, other, path=''):
    """The places where two values differ, each with the texts of both values there. A value below which
    a place has more than LONG characters is one place, so that no long name stands there many times."""
    steps = steps_of(one, other)
    if steps is None or any(len(path) + len(str(step)) > LONG for step, _, _ in steps):
        texts = [ABSENT if it is NOTHING else spelled(it) for it in (one, other)]
        if texts[0] != texts[1]:
            yield path, texts
        return
    for step, a, b in steps:
        yield from members(a, b, path + reading.pointer(step))


def lines_of(parts, one, other):
    """The lines for a name whose bodies on the two sides are these."""
    if one.keys() == other.keys():
        return
    if not one or not other:
        yield parts + [SIDES[not one]]
        return
    if len(one) != len(other):
        yield parts + ['texts', str(len(one)), str(len(other))]
    both = one.keys() & other.keys()
    alone = [[value for text, value in side.items() if text not in both] for side in (one, other)]
    for a, b in itertools.zip_longest(*alone):
        for path, texts in members(a or first(one), b or first(other)):
            yield parts + [spelled(path)] + texts


def record_lines(name, one, other):
    """The lines for a record that one side may not have."""
    parts = list(map(spelled, name))
    if not one or not other:
        yield ['record'] + parts + [SIDES[not one]]
        return
    yield from lines_of(['header'] + parts, one.headers, other.headers)
    for snapshot in sorted({*one.snapshots, *other.snapshots}):
        sides = [it.snapshots.get(snapshot, {}) for it in (one, other)]
        yield from lines_of(['snapshot'] + parts + [spelled(snapshot)], *sides)


def shown_in(volume, said):
    """The records of volume 1, which are in byte order of their names."""
    for value, text in volume.with_texts():
        said.take(value)
        yield Shown(reading.name_of(value), value, text)


def pairs(one, other):
    """The records of two sides by name; None where a side doesn't have it."""
    a, b = next(one, None), next(other, None)
    while a or b:
        name = min(it.name for it in (a, b) if it)
        has_a, has_b = bool(a) and a.name == name, bool(b) and b.name == name
        yield name, a if has_a else None, b if has_b else None
        a, b = next(one, None) if has_a else a, next(other, None) if has_b else b


def is_same(shown, conflicts):
    """Whether a record has one text on both sides, and no conflict."""
    one, other = shown
    if not one or not other or one.text != other.text:
        return False
    return not any(one.name in held.records for held in conflicts)


def added_by(record, selections):
    """What a record adds to each of its rows."""
    if not record:
        return {}
    current = first(record.snapshots[record.current])
    return counting.rows_of(first(record.headers), current, selections)


def changes_of(name, one, other, selections, changes):
    """Notes in `changes`, under each row, what a record adds to it on either side, where that
    differs."""
    added = [added_by(it, selections) for it in (one, other)]
    for row in {*added[0], *added[1]}:
        nothing = [0] * len(counting.columns_of(row[0], selections))
        numbers = [it.get(row, nothing) for it in added]
        if numbers[0] != numbers[1]:
            changes.setdefault(row, []).append((name, numbers))


def row_lines(row, tallies, changes, selections):
    """The lines for each column of a row that differs, with those for the records that make the
    difference."""
    columns, names = counting.columns_of(row[0], selections), counting.named(row)
    numbers = [it.get(row, [0] * len(columns)) for it in tallies]
    for place, column in enumerate(columns):
        one, other = (it[place] for it in numbers)
        parts = [(name, a[place], b[place]) for name, (a, b) in changes if a[place] != b[place]]
        if other - one != sum(b - a for _, a, b in parts):
            raise mismatch('the records don\'t make the difference of the row %s' % names)
        if one != other:
            yield ['row', names, column, str(one), str(other)]
            for name, a, b in parts:
                yield ['part', names, column, *map(spelled, name), str(a), str(b)]


def device_lines(one, other):
    for name in sorted({*one, *other}):
        yield from lines_of(['device', spelled(name)], one.get(name, {}), other.get(name, {}))


def run(one, other, words):
    """The text, and whether anything differs."""
    selections, changes, lines = counting.selections_of(one.report), {}, []
    conflicts = [bodies.conflicts_of(side) for side in (one, other)]
    volumes = [side.volume(1) for side in (one, other)]
    said = [notes.Notes(side) for side in (one, other)]
    for name, *shown in pairs(*map(shown_in, volumes, said)):
        if not is_same(shown, conflicts):
            a, b = (bodies.record_of(it.value, held) if it else None
                    for it, held in zip(shown, conflicts))
            lines += record_lines(name, a, b)
            changes_of(name, a, b, selections, changes)
    lines += device_lines(*map(bodies.devices, volumes, conflicts))
    tallies = [counting.rows_in(side.tally()) for side in (one, other)]
    for row in counting.in_order({*tallies[0], *tallies[1]}, selections):
        lines += row_lines(row, tallies, changes.get(row, []), selections)
    for name, side, held in zip(SIDES, (one, other), said):
        side.each_report(held.take_file)
        side.notes = held.text(name + ': ')
    return ''.join(' '.join(it) + '\n' for it in lines), bool(lines)
