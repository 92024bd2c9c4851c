"""cvr-audit lines: what `cvr tally`, `currents`, `conflicts` or `check` prints, as JSON with names."""
import json

from . import counting, notes, page_names, reading, written

CURRENTS = 'CreatingDeviceId', 'UniqueId', 'CurrentSnapshotId', 'Type'


def tally(files):
    """The rows, each with its names."""
    selections, names = counting.selections_of(files.report), page_names.Names(files.report)
    for (contest, unit, batch), numbers in counting.rows_in(files.tally()).items():
        held, votes = counting.parts(numbers)
        chosen = [{'id': one, 'name': names.selections[contest, one][0], 'votes': number}
                  for one, number in zip(selections[contest], votes)]
        yield {'contest': {'id': contest, 'name': names.contests[contest]},
               'unit': None if unit is None else {'id': unit, 'name': names.units.get(unit)},
               'batch': batch, **held, 'selections': chosen}


def currents(files):
    """The records, each with its current snapshot."""
    for line in files.text('currents').split('\n')[:-1]:
        *names, kind = reading.words_of(line)
        yield dict(zip(CURRENTS, [*map(json.loads, names), kind]))


def conflicts(files):
    """The names in conflict, each with the number of its texts."""
    for line in files.text('conflicts').split('\n')[:-2]:       # the last line counts the volumes
        *words, count = reading.words_of(line)
        kind = words[0] if words[0] == 'device' else words[2]
        yield {'kind': kind, 'name': [json.loads(it) for it in words if it.startswith('"')],
               'texts': int(count)}


def check(files):
    """The files, each with the number of its records, or its fault."""
    records = iter(files.accepted)
    faults = dict(files.refused())
    for path in files.files:
        fault = faults.get(path)
        yield {'path': path, 'records': None if fault else next(records)[1], 'fault': fault}


TASKS = {'tally': tally, 'currents': currents, 'conflicts': conflicts, 'check': check}


def run(files, words):
    """The text, and whether there is something to look at."""
    files.notes = notes.use_text(files)
    made = {'schema': 'cvr-audit lines %s 1' % words.task, 'lines': list(TASKS[words.task](files))}
    return written.text_of(made), False
