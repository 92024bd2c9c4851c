"""What to do about each thing that needs a person."""
import json

# by importance: first what can make a number wrong, last what is only worth knowing
ADVICE = {
    'refused': 'it is left out of every number; have it exported again',
    'alone': 'no file is given, so nothing is counted; name the files after DEF',
    'among': 'the definition (DEF) is one of the files, too, so its records count as those of that '
             'file; take the report from before the first ballot as the definition',
    'definition': 'the records of the definition (DEF) are not counted; take the report from before '
                  'the first ballot, or name it among the files, too',
    'header': 'find the ballot, decide where it belongs, and have the wrong file exported again; '
              'text 1 counts',
    'snapshot': 'look at both in the adjudication log, and have the wrong file exported again; '
                'text 1 is the one that can count',
    'undone': 'of two readings of the ballot (snapshots) the file names the first as the current '
              'one, and the second counts; look at both in the adjudication log, and where the '
              'adjudication was undone have the file exported without it',
    'repeated': 'the file has so many records of this name, which count as one; where they are '
                'ballots of their own, have it exported again with a name for each',
    'ballot': 'records of one ballot, or one id that was given twice; look at the ballots',
    'batch': 'the manifest and the records don\'t agree, where of ballots of several sheets, which '
             'BallotSheetId numbers, each is counted once; look for a file that is missing or a '
             'batch that was scanned twice',
    'exceeds': 'on this record more votes count than the contest allows, which is the second '
               'number; look at the ballot, and ask the maker of the files why it isn\'t overvoted',
    'doubled': 'on this record one selection has so many votes; look at the ballot, and ask the '
               'maker of the files',
    'votes': 'more votes than the ballots allow; look for a record that was made twice, and ask '
             'the maker of the files',
    'sum': 'votes, overvotes, undervotes, pending and unassigned don\'t come to the ballots; '
           'explain what is short or over',
    'waiting': 'the record waits for a person: it needs adjudication, or nobody knows whether a '
               'mark is one; look at the ballot, and finish the adjudication',
    'pending': 'nobody has decided on these marks, and they are in no selection\'s votes; finish '
               'the adjudication',
    'unassigned': 'these votes count for no selection; ask the maker of the files',
    'contest': 'no record has this contest; ask whether a file is missing',
    'record': 'the reading of it that counts (its current snapshot) has no contest, so it stands in '
              'no row of the tally; look at the ballot',
    'unsigned': 'so many records count as this file has them and another one doesn\'t, and neither '
                'an AdjudicatorName nor a TimeStamp stands with the reading that counts (the '
                'current snapshot); ask where the file comes from',
    'nobody': 'in so many records the reading that counts (the current snapshot) has a TimeStamp '
              'and no AdjudicatorName; ask who decided',
    'later': 'in so many records the reading that counts (the current snapshot) is later than the '
             'date of each file that has it; look at the clock of the desk, or for a file that was '
             'forged',
    'device': 'ask whether there were two machines with one id, whose records may have been joined',
    'ranked': 'the votes of all ranks or scores are added up, and no rounds are computed; hand the '
              'ranks on to a tool that does (records --columns ranks)',
    'unstated': 'no file states this number for the contest, so the zeros of its column mean '
                'nothing; ask the maker of the files',
    'counted': 'no fault: the files have the first number of records, and the second is counted: '
               'those of one name, again in a file or elsewhere in another one, count as one',
    'decides': 'adjudicated records, no fault: so many records of other files are counted by a '
               'reading of the ballot (a snapshot) that this file has and another one lacks; hold '
               'each against the adjudication log',
}
KNOWN = 'counted', 'decides'        # only worth knowing: of these alone the status is 0
FEW = 10                            # lines of one kind; more are folded, unless all are asked for
FOLDED = '; --all prints each'
# the kinds whose line begins with the id of a contest, and those whose next id is that of a unit
ROWS = 'votes', 'sum', 'pending', 'unassigned'
CONTESTS = (*ROWS, 'exceeds', 'doubled', 'contest', 'unstated', 'ranked')
OF_FILES = 'refused', 'undone', 'repeated', 'unsigned', 'nobody', 'later', 'decides'   # begin with a path
# where the names of records stand in the lines of other kinds
RECORDS = {'header': 0, 'snapshot': 0, 'ballot': 1, 'exceeds': 1, 'doubled': 2, 'waiting': 0, 'record': 0}


def ids_in(kind, parts):
    """The ids of contests in a line, and that of the unit or the selection behind the first one."""
    ids = [json.loads(it) if it[:1] == '"' else None for it in parts]
    contests = ids[2:] if kind == 'waiting' else ids[5::3] if kind == 'undone' else ids[:kind in CONTESTS]
    return contests, ids[1] if kind in ROWS or kind == 'doubled' else None


def names_in(kind, parts, names):
    """The names of what a line has ids of: its contests, and a unit or a selection."""
    contests, other = ids_in(kind, parts)
    held = [(names.contests.get(it), it) for it in contests]
    if other is not None:
        name = names.units.get(other) if kind in ROWS else names.selections[contests[0], other][0]
        held.append((name, other))
    return ', '.join('%s (%s)' % it for it in held if it[0])


def line_of(kind, parts, named=''):
    """A warning as a line: its kind, its parts, names, and what to do."""
    said = ''.join(json.dumps(it, ensure_ascii=False)[1:-1] + ': ' for it in (named,) if it)
    return '%s %s: %s%s\n' % (kind, ' '.join(parts), said, ADVICE[kind])


def paths_in(kind, parts, origins):
    """The paths of the files that a line is about, as far as it names a file or a record."""
    if kind in OF_FILES:
        return [json.loads(parts[0])]
    place = RECORDS.get(kind)
    return [] if place is None else origins.paths_of(tuple(map(json.loads, parts[place:place + 2])))


def counts_of(kind, lines, origins):
    """Each file with the number of the lines about it, or about a record in it."""
    counts = {}
    for path in (path for parts in lines for path in paths_in(kind, parts, origins)):
        counts[path] = counts.get(path, 0) + 1
    return counts
