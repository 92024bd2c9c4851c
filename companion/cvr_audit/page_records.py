"""What the page says about records: batches beside a manifest, conflicts, and adjudications."""
from . import counting, page_names, reading
from .manifest import has_devices
from .page_tree import code, codes, element, folded, section, table

MANY = 40           # a table with more rows is folded
FEW = 3             # conflicts of one kind; more are folded
MOST = 500          # members of a conflict; of more the first ones that differ are shown
LEFT = 'The first {:,} members that differ, of {:,}; cvr-audit compare prints all.'
# what the words of the section mean
CONFLICTS = ('The files contradict each other about these; find out which text is right before you '
             'use the numbers. A text is what some of the files say: of a device; of a record\'s '
             'header, which has its unit, batch and style; or of a snapshot, which is one reading of '
             'a ballot.')
NO_CONFLICT = 'None: the files agree about all devices and records.'
TITLES = {'device': 'Device', 'header': 'Header', 'snapshot': 'Snapshot'}
GROUPS = {'device': 'devices', 'header': 'headers of records', 'snapshot': 'snapshots'}
SAID = {'overvotes': 'overvoted', 'undervotes': 'undervoted', 'pending': 'pending',
        'unassigned': 'unassigned'}     # of a contest with a number in the column
TAKEN = {
    'device': 'Both are kept, and no number depends on them.',
    'header': 'Text 1 counts: of the texts of a header it is the greater one by its bytes.',
    'snapshot': 'Text 1 counts: it comes first {}.',
    'other': 'None of them counts, as another snapshot of the record is current. Of them text 1 '
             'comes first {}.',
}


# ---- batches

def batch_rows(facts):
    """Each batch: its devices, the ballots of the manifest, the ballots and the records found."""
    expected, sizes = facts.manifest, facts.seen.sizes
    found, is_whole, devices = sizes.by(expected), has_devices(expected), {}
    for device, batch in sizes.sheets:
        devices.setdefault((device if is_whole else None, batch), []).append(device)
    for name in sorted({*expected, *found}, key=lambda it: list(map(counting.nothing_first, it))):
        wanted, (ballots, records) = expected.get(name), found.get(name, (0, 0))
        beside = ['', ballots, ''] if wanted is None else [wanted, ballots, ballots - wanted]
        own = devices.get(name) or ([] if name[0] is None else name[:1])
        yield [page_names.batch(name[1]), codes(sorted(own)), *beside, records]


def batches(facts):
    """The ballots of each batch by device and, from the manifest, those counted by hand."""
    if facts.is_public:
        return element('p', 'The batches stand on the whole page alone.')
    if facts.manifest is None:
        return element('p', 'No manifest was given.')
    rows = list(batch_rows(facts))
    heads = ['Batch', 'Device', 'Manifest', 'Ballots', 'Difference', 'Records']
    sums = ['Sum', '', sum(facts.manifest.values()), sum(row[3] for row in rows), '',
            sum(row[5] for row in rows)]
    return folded(len(rows) > MANY, '{:,} batches'.format(len(rows)),
                  table('Batches of the manifest and of the records', heads, rows, sums))


def reconciliation(facts):
    return section('batches', 'Batches and the manifest', batches(facts))


# ---- conflicts

ABSENT = object()       # where a value has nothing


def steps_of(values):
    """The names or the numbers of the parts of values, in their order."""
    if all(isinstance(it, list) for it in values):
        return range(max(map(len, values)))
    return sorted({str(step) for it in values
                   for step in (it if isinstance(it, dict) else range(len(it)))})


def part_of(value, step):
    """What a value has at a step."""
    if isinstance(value, dict):
        return value.get(step, ABSENT)
    is_there = isinstance(value, list) and str(step).isdigit() and int(step) < len(value)
    return value[int(step)] if is_there else ABSENT


def leaves(values, way=None):
    """The places where a value has a text, a number or an empty part: the way there, as a step and
    the way above it, and the text of each value there; None of one that has nothing or parts. No
    place is spelled here, since a name may be long and have many values below it."""
    below = [it for it in values if isinstance(it, (dict, list)) and it]
    here = [None if it is ABSENT or isinstance(it, (dict, list)) and it else reading.spelled(it)
            for it in values]
    if any(it is not None for it in here):
        yield way, here
    for step in steps_of(below) if below else ():
        yield from leaves([part_of(it, step) for it in values], (step, way))


def path_of(way):
    """The JSON Pointer of a way."""
    steps = []
    while way:
        step, way = way
        steps.append(step)
    return reading.pointer(*reversed(steps))


class First:
    """The first of many rows, and how many there are."""

    def __init__(self):
        self.rows, self.count = [], 0

    def add(self, row):
        self.count += 1
        if self.count <= MOST:
            self.rows.append(row)


def members_of(texts):
    """The members of the texts side by side, of many those that differ: the first ones, and how
    many there are."""
    every, differ = First(), First()
    for way, parts in leaves(texts):
        every.add((way, parts))
        if len({*parts}) > 1:
            differ.add((way, parts))
    held = every if every.count <= MOST else differ
    return [(path_of(way), parts) for way, parts in held.rows], held.count


def text_rows(members):
    """A row for each member; differences are marked."""
    for path, parts in members:
        is_same = len({*parts}) == 1
        yield [code(path)] + ['' if part is None else code(part) if is_same else
                              element('mark', code(part)) for part in parts]


def is_current(facts, names):
    """Whether a snapshot is current, from what `cvr currents` prints."""
    return '\n%s ' % ' '.join(map(reading.spelled, names)) in facts.currents


def rule_of(kind, texts):
    """Which text is taken, and by which rule."""
    types = {it.get('Type') for it in texts}
    stamps = {tuple(note.get('TimeStamp') for note in it.get('Annotation', [])) for it in texts}
    rule = 'by its bytes' if len(stamps) == 1 else \
        'by its latest TimeStamp, or, where these are one moment, by its bytes'
    return TAKEN[kind].format('by its Type' if len(types) > 1 else rule)


def conflict(facts, key, texts):
    """A conflict: the names, the rule, the files, and the texts side by side."""
    kind, *names = key
    paths = [paths for _, paths in texts]
    values = [value for value, _ in texts]
    heads = ['Member'] + ['Text %d' % number for number in range(1, len(texts) + 1)]
    members, count = members_of(values)
    rows = [['Files'] + list(map(codes, paths))] + list(text_rows(members))
    left = LEFT.format(MOST, count) if count > MOST else None
    rule = 'other' if kind == 'snapshot' and not is_current(facts, names) else kind
    title = element('h3', TITLES[kind], ' ', codes(names))
    return element('div', title, element('p', rule_of(rule, values)), left and element('p', left),
                   folded(len(rows) > MANY, '{:,} members'.format(count),
                          table('Texts side by side', heads, rows, None, ' '.join(names))))


def conflicts(facts):
    """The conflicts of each kind, folded where they are many."""
    groups = {}
    for key, texts in facts.seen.texts.items():
        groups.setdefault(key[0], []).append(conflict(facts, key, texts))
    parts = [folded(len(held) > FEW, '{:,} {}'.format(len(held), GROUPS[kind]), *held)
             for kind, held in groups.items()]
    said = element('p', CONFLICTS if parts else NO_CONFLICT)
    return section('conflicts', 'Conflicts', said, *parts)


# ---- adjudications

def marks_of(facts, contest):
    """What a contest of a snapshot adds to the tally, in words."""
    key = contest['ContestId']
    chosen = facts.selections[key]
    held, votes = counting.parts(counting.sums(contest, chosen))
    said = [word for column, word in SAID.items() if held[column]]
    names = [facts.names.plain_selection(key, it) for it in chosen]
    said += [name if number == 1 else '%s ×%d' % (name, number)
             for name, number in zip(names, votes) if number]
    return ', '.join(said) or 'nothing'


def marks(facts, snapshot):
    return {it['ContestId']: marks_of(facts, it) for it in snapshot.get('CVRContest', [])}


def changed(facts, before, after):
    """The contests in which two snapshots differ, each with the marks in both."""
    sides = [marks(facts, it) if it else {} for it in (before, after)]
    absent = 'not there' if before else 'no scan, or several'
    return [(key, sides[0].get(key, absent), sides[1].get(key, 'not there'))
            for key in facts.selections if sides[0].get(key) != sides[1].get(key)]


def is_adjudication(snapshot):
    """Whether a person or a moment stands with it. A machine's own snapshot has neither, whatever its
    Type."""
    notes = snapshot.get('Annotation', [])
    return any(it.get('AdjudicatorName') or 'TimeStamp' in it for it in notes)


def scan_of(snapshots):
    """The snapshot before the adjudications; None where there is none, or more than one."""
    for kind in ('modified', 'interpreted', 'original'):
        found = [it for it in snapshots if it['Type'] == kind and not is_adjudication(it)]
        if found:
            return found[0] if len(found) == 1 else None
    return None


def adjudicated_in(facts, record):
    """Each adjudicated snapshot of a record: names, who, when, what changed, whether it counts."""
    before = scan_of(record['CVRSnapshot'])
    for snapshot in filter(is_adjudication, record['CVRSnapshot']):
        notes = snapshot.get('Annotation', [])
        who = [one for it in notes for one in it.get('AdjudicatorName', [])]
        when = [it['TimeStamp'] for it in notes if 'TimeStamp' in it]
        yield (reading.name_of(record), snapshot['@id'], who, when,
               changed(facts, before, snapshot), snapshot['@id'] == record['CurrentSnapshotId'])


def adjudication_rows(facts):
    """Who decided, and what."""
    for names, snapshot, who, when, changes, is_current in facts.seen.adjudicated:
        who = ', '.join(who)
        yield who, [codes(names), code(snapshot), element('bdi', who) if who else '', codes(when),
                    *(marks_cell(facts, changes, side) for side in (1, 2)),
                    'yes' if is_current else 'no']


def marks_cell(facts, changes, side):
    """The marks before (1) or after (2) an adjudication, where it changes them."""
    lines = [element('li', page_names.named(facts.names.contests[change[0]], change[0]), ': ',
                     element('bdi', change[side])) for change in changes]
    return element('ul', *lines) if lines else 'no change'


def adjudications(facts):
    """The adjudicated snapshots; where they are many, folded by who decided."""
    heads = ['Record', 'Snapshot', 'Who', 'When', 'Before', 'After', 'In the tally']
    every, groups = list(adjudication_rows(facts)), {}
    for who, row in every:
        groups.setdefault(who if len(every) > MANY else None, []).append(row)
    parts = []
    for who in sorted(groups, key=counting.nothing_first):
        made = table('Adjudicated snapshots', heads, groups[who], None, who)
        summary = '{:,} snapshots: {}'.format(len(groups[who]), who or 'no name')
        parts.append(folded(len(every) > MANY, summary, made))
    return section('adjudications', 'Adjudications', *(parts or [element('p', 'None.')]))
