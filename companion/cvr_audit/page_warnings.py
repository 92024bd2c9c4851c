"""The warnings of the page, by kind, before any number."""
from .advice import ADVICE, FEW, counts_of, names_in
from .page_tree import code, element, folded, name, section

# in the order of ADVICE
KINDS = {
    'refused': 'File refused', 'alone': 'No file', 'among': 'The definition is among the files',
    'definition': 'Records in the definition',
    'header': 'Two headers of a record (unit, batch, style)',
    'snapshot': 'Two texts of a snapshot (a reading of a ballot)',
    'undone': 'Another snapshot (reading) is named as current',
    'repeated': 'One record several times in a file', 'ballot': 'One ballot twice', 'batch': 'Batch',
    'exceeds': 'More votes on a ballot than it has', 'doubled': 'Several votes of a ballot for one',
    'votes': 'Too many votes', 'sum': 'Sum', 'waiting': 'Waiting', 'pending': 'Pending',
    'unassigned': 'Unassigned', 'contest': 'Contest without a record',
    'record': 'Record without a contest', 'unsigned': 'Decided without a name or a moment',
    'nobody': 'Decided by nobody', 'later': 'Later than its files', 'device': 'Two texts of a device',
    'ranked': 'Ranks or scores', 'unstated': 'Not stated',
    'counted': 'Fewer records than the files have', 'decides': 'Adjudicated records',
}
LEFT = 'The first {:,} of {:,}: cvr-audit warnings --all prints all.'
MOST = 200          # of more places of one kind the first ones stand here


def by_kind(facts):
    """The warnings of each kind; on a page for the public the kinds alone, always in one order."""
    held = {kind: [] for kind in KINDS}
    for kind, parts in facts.warnings:
        held[kind].append(parts)
    return {kind: places for kind, places in held.items() if places}


def kinds_of(facts):
    """The kinds of warnings there are; with their numbers, except for the public."""
    said = [KINDS[kind] if facts.is_public else '{} ({:,})'.format(KINDS[kind], len(places))
            for kind, places in by_kind(facts).items()]
    return ', '.join(said) or 'None'


def place_of(facts, kind, parts):
    """A warning, with the names of what it has ids of."""
    said = names_in(kind, parts, facts.names)
    return element('li', code(' '.join(parts)), *([': ', name(said)] if said else []))


def places_of(facts, kind, places):
    """What is warned of, in columns; where it is much, behind the number of cases in each file, and
    on a screen alone."""
    left = element('p', LEFT.format(MOST, len(places))) if len(places) > MOST else None
    lines = element('ul', *(place_of(facts, kind, it) for it in places[:MOST]), class_='places')
    counts = counts_of(kind, places, facts.seen.notes.origins)
    said = ', '.join('%s %s' % (path, '{:,}'.format(count)) for path, count in counts.items())
    if len(counts) > FEW:
        said = '{:,} files'.format(len(counts))
    summary = '{:,} cases{}'.format(len(places), said and ': ' + said)
    return folded(len(places) > FEW, summary, left, lines, is_shut=True)


def warned(facts):
    """Each kind of warning: what to do, and where."""
    items = [element('li', element('strong', KINDS[kind]), ': ' + ADVICE[kind] + ' ',
                     None if facts.is_public else places_of(facts, kind, places))
             for kind, places in by_kind(facts).items()]
    said = element('ul', *items, class_='warnings') if items else element('p', 'None.')
    return section('warnings', 'Warnings', said)
