"""cvr-audit totals: the sums of each contest and selection, by name and id."""
from . import counting, notes, page_names, reading, table, written
from .advice import ADVICE
from .terminal import in_a_line

GROUPS = {'unit': 'BallotStyleUnitId', 'batch': 'BatchId', 'device': 'CreatingDeviceId',
          'style': 'BallotStyleId'}
PRINTED = {'unit': 1, 'batch': 2}       # the groups that a row of the tally has
NUMBERS = counting.COLUMNS
RANKED = 'RANKED: %s: %s'
UNSTATED = 'not stated'     # in place of a number that no file states


def counted(files, said, selections, member):
    """The sums of the records by contest and by a member of the header."""
    sums = {}
    for record in files.volume(1):
        said.take(record)
        current = reading.current_of(record)
        for row, numbers in counting.rows_of(record, current, selections).items():
            counting.add(sums, (row[0], record.get(member)), numbers)
    files.each_report(said.take_file)
    return sums


def sums_of(files, said, selections, group):
    """The sums by contest and group, in the order of the definition, then of the group's ids."""
    sums = counted(files, said, selections, GROUPS.get(group))
    files.notes = said.text()
    if group is None or group in PRINTED:
        place = PRINTED.get(group)
        rows = counting.rows_in(files.tally())
        sums = counting.added(rows, lambda row: (row[0], None if place is None else row[place]))
    return [(key, sums[key]) for key in counting.in_order(sums, selections)]


def entries(files, group, said):
    """Each contest in each group: ids, names and numbers."""
    selections, names = counting.selections_of(files.report), page_names.Names(files.report)
    for (contest, key), numbers in sums_of(files, said, selections, group):
        held, votes = counting.parts(numbers)
        held.update((it, None) for it in NUMBERS if not said.is_stated(contest, it))
        entry = {} if group is None else {GROUPS[group]: key}
        if group == 'unit':
            entry['unit'] = names.units.get(key)
        chosen = [{'id': one, 'name': names.selections[contest, one][0], 'votes': number}
                  for one, number in zip(selections[contest], votes)]
        yield dict(entry, contest={'id': contest, 'name': names.contests[contest]}, **held,
                   votes=sum(votes), selections=chosen)


def shown(name, key):
    return in_a_line(key if name is None else '%s (%s)' % (name, key))


def as_text(made, group):
    """Lines for a reader."""
    for it in made:
        numbers = ', '.join('%s %s' % ((column, UNSTATED) if it[column] is None else (it[column], column))
                            for column in NUMBERS)
        where = ''
        if group is not None:
            key = it[GROUPS[group]]
            where = ', no ' + group if key is None else ', %s %s' % (group, shown(it.get('unit'), key))
        yield '%s%s: %s\n' % (shown(it['contest']['name'], it['contest']['id']), where, numbers)
        for one in it['selections']:
            yield '  %s: %d\n' % (shown(one['name'], one['id']), one['votes'])


def as_csv(made, group):
    """A line for each contest with its numbers, and one for each selection with its votes."""
    head = [] if group is None else [GROUPS[group]]
    yield head + ['ContestId', 'contest', 'ContestSelectionId', 'selection', 'votes', *NUMBERS]
    for it in made:
        first = [it[name] for name in head] + list(it['contest'].values())
        numbers = [UNSTATED if it[column] is None else it[column] for column in NUMBERS]
        yield first + [None, None, it['votes']] + numbers
        for one in it['selections']:
            yield first + [one['id'], one['name'], one['votes']] + [None] * len(NUMBERS)


FORMS = 'text', 'csv', 'json'


def run(files, words):
    """The text, and whether there is something to look at."""
    said = notes.Notes(files)
    made = list(entries(files, words.group, said))
    ranked = [RANKED % (it['contest']['id'], ADVICE['ranked']) for it in made
              if said.ranks.is_ranked(it['contest']['id'])]
    ranked = list(dict.fromkeys(ranked))        # a contest has an entry in each group
    if words.form == 'csv':
        lines = [[it] for it in ranked] + list(as_csv(made, words.group))
        return table.text_of(lines, words.spreadsheet), False
    if words.form == 'json':
        lines = [*files.reports.lines(), *ranked]
        return written.text_of({'schema': 'cvr-audit totals 1', 'by': words.group,
                                **({'said': lines} if lines else {}), 'totals': made}), False
    return ''.join([*(in_a_line(it) + '\n' for it in ranked), *as_text(made, words.group)]), False
