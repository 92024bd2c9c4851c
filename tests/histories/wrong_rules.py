"""wrong_rules.py: slips that the model could have. Each replaces one rule, and has to give another
answer for some history."""
import contextlib
import json

import printed
from model import RANKS, Import, Play, Rules, in_bytes, spelled

WRONG = []          # the description of a slip, whose rule it is, the rule's name, and what replaces it
RIGHT = {name: rule for name, rule in vars(Rules).items() if callable(rule)}
RIGHT_PLAY = {name: rule for name, rule in vars(Play).items() if callable(rule)}


def wrong(said, of=Rules):
    def keep(rule):
        WRONG.append((said, of, rule.__name__, rule))
        return rule
    return keep


def wrong_key(said, place, change):
    """A slip in one part of the key of the order of choosing."""
    def key(rules, body):
        parts = list(RIGHT['key'](rules, body))
        parts[place] = change(parts[place])
        return tuple(parts)
    WRONG.append((said, Rules, 'key', key))


def wrong_states(said, name, *states):
    """A slip in which states of a position, its IsAllocable and HasIndication, are taken otherwise."""
    WRONG.append((said, printed.Texts, name, getattr(printed.Texts, name) ^ {*states}))


def wrong_columns(said, one, other):
    """A slip that exchanges two columns."""
    names = {one: other, other: one}
    WRONG.append((said, printed.Texts, 'columns', [names.get(it, it) for it in printed.Texts.columns]))


def wrong_votes(said, change):
    """A slip in which CVRContestSelections of a contest are added up."""
    def sums(rules, vote, selections):
        chosen = change([dict(it) for it in vote['CVRContestSelection']])
        return RIGHT['sums'](rules, dict(vote, CVRContestSelection=chosen), selections)
    WRONG.append((said, Rules, 'sums', sums))


@contextlib.contextmanager
def in_place(of, name, rule):
    """Puts a rule in the place of the right one."""
    right = vars(of)[name]
    setattr(of, name, rule)
    try:
        yield
    finally:
        setattr(of, name, right)


# ---- facts

@wrong('a header has the CurrentSnapshotId')
def header_of(rules, record):
    return spelled({name: it for name, it in record.items() if name != 'CVRSnapshot'})


@wrong('a header has the snapshots')
def header_of(rules, record):
    return spelled({name: it for name, it in record.items() if name != 'CurrentSnapshotId'})


@wrong('a header is what rows need of it')
def header_of(rules, record):
    return RIGHT['header_of'](rules, {name: it for name, it in record.items()
                                      if name != 'BallotStyleId'})


@wrong('the devices of files are no facts')
def facts(rules, report):
    found = RIGHT['facts'](rules, report)
    return {it for it in found if it[0] != 'device' or not report['CVR']}


@wrong('a record has its first snapshot alone')
def facts(rules, report):
    records = [dict(it, CVRSnapshot=it['CVRSnapshot'][:1]) for it in report['CVR']]
    return RIGHT['facts'](rules, dict(report, CVR=records))


@wrong('a record that comes again in its file is left out')
def facts(rules, report):
    records = {(it['CreatingDeviceId'], it['UniqueId']): it for it in report['CVR'][::-1]}
    return RIGHT['facts'](rules, dict(report, CVR=list(records.values())))


# ---- acceptance

@wrong('each Election agrees')
def agrees(rules, definition, report):
    return RIGHT['agrees'](rules, definition, dict(report, Election=definition['Election']))


@wrong('each GpUnit agrees')
def agrees(rules, definition, report):
    return RIGHT['agrees'](rules, definition, dict(report, GpUnit=definition['GpUnit']))


@wrong('a file has to list all GpUnits')
def agrees(rules, definition, report):
    return RIGHT['is_same_definition'](rules, definition, report)


@wrong('devices have to agree')
def agrees(rules, definition, report):
    bodies = {it['@id']: it for it in definition['ReportingDevice']}
    return (RIGHT['agrees'](rules, definition, report)
            and all(bodies.get(it['@id'], it) == it for it in report['ReportingDevice']))


@wrong('a contest may be none of the Election')
def is_sound(rules, report):
    return all('UniqueId' in it for it in report['CVR'])


@wrong('GpUnits stand in order')
def is_same_definition(rules, one, other):
    return (RIGHT['is_same_definition'](rules, one, other)
            and spelled(one['GpUnit']) == spelled(other['GpUnit']))


@wrong('the same definitions have the same devices')
def is_same_definition(rules, one, other):
    return (RIGHT['is_same_definition'](rules, one, other)
            and spelled(one['ReportingDevice']) == spelled(other['ReportingDevice']))


@wrong('the same definitions may have other GpUnits')
def is_same_definition(rules, one, other):
    return spelled(one['Election']) == spelled(other['Election'])


@wrong('the same definitions may have other Elections')
def is_same_definition(rules, one, other):
    return RIGHT['is_same_definition'](rules, one, dict(other, Election=one['Election']))


# ---- choosing

wrong_key('an interpreted snapshot is below the original', 0, lambda rank: (1, 0, 2)[rank])
wrong_key('an interpreted snapshot is above the modified', 0, lambda rank: (0, 2, 1)[rank])
wrong_key('the Type is not looked at', 0, lambda rank: 0)
wrong_key('no moment is above each', 1, lambda has_moment: not has_moment)
wrong_key('the earlier moment is chosen', 2, lambda moment: -moment)
wrong_key('the lesser body is chosen', 3, lambda body: [-it for it in body] + [1])


@wrong('moments are not looked at')
def key(rules, body):
    return RANKS[json.loads(body)['Type']], in_bytes(body)


@wrong('the least moment of a snapshot counts')
def moment(rules, snapshot):
    notes = snapshot.get('Annotation', [])
    stamps = [rules.instant(it['TimeStamp']) for it in notes if 'TimeStamp' in it]
    return min(stamps, default=None)


@wrong('the last moment of a snapshot counts')
def moment(rules, snapshot):
    stamps = [it['TimeStamp'] for it in snapshot.get('Annotation', []) if 'TimeStamp' in it]
    return rules.instant(stamps[-1]) if stamps else None


@wrong('offsets are not looked at')
def instant(rules, stamp):
    return RIGHT['instant'](rules, stamp[:19] + 'Z')


@wrong('parts of a second are not looked at')
def instant(rules, stamp):
    return int(RIGHT['instant'](rules, stamp))


@wrong('the snapshot with the greatest id is current')
def current(rules, facts, record):
    found = [it for it in facts if it[:2] == ('snapshot', record)]
    return max(found, key=lambda it: (in_bytes(it[2]), rules.key(it[-1])))


@wrong('a snapshot in conflict is not current')
def current(rules, facts, record):
    found = [it for it in facts if it[:2] == ('snapshot', record)]
    return max(found, key=lambda it: (-len(rules.bodies(facts, it[:-1])), rules.key(it[-1])))


@wrong('the least header counts')
def header(rules, facts, record):
    return json.loads(rules.bodies(facts, ('header', record))[-1])


@wrong('snapshots of a name come by their bytes')
def bodies(rules, facts, name):
    return sorted((it[-1] for it in facts if it[:-1] == name), key=in_bytes, reverse=True)


# ---- order, and volumes

@wrong('records come by UniqueId first')
def record_place(rules, record):
    return tuple(map(in_bytes, record[::-1]))


@wrong('UniqueIds come as numbers')
def record_place(rules, record):
    return record[0], int(record[1])


@wrong('devices come last')
def place(rules, name):
    found = RIGHT['place'](rules, name)
    return (2, *found[1:]) if name[0] == 'device' else found


@wrong('a header comes behind the snapshots')
def place(rules, name):
    found = RIGHT['place'](rules, name)
    return found[:2] + ((b'\xff',),) if name[0] == 'header' else found


@wrong('volumes are counted by devices alone')
def volumes(rules, facts):
    return max(count for name, count in rules.counted(facts) if name[0] == 'device')


@wrong('volumes are counted without devices')
def volumes(rules, facts):
    return max([1] + [count for name, count in rules.counted(facts) if name[0] != 'device'])


@wrong('each record stands in each volume')
def stands(rules, counted, name, i):
    return True


@wrong('a name stands where it has so many bodies')
def stands(rules, counted, name, i):
    return name[0] == 'device' or dict(counted)[name] >= i


@wrong('a device stands where it has so many bodies')
def stands(rules, counted, name, i):
    return dict(counted)[name] >= i if name[0] == 'device' else RIGHT['stands'](rules, counted,
                                                                                name, i)


@wrong('the last volume shows the greatest')
def shown(rules, facts, i):
    return RIGHT['shown'](rules, facts, rules.volumes(facts) + 1 - i)


# ---- the tally

wrong_states('what is not allocable counts where it is marked', 'counting', ('no', 'yes'), ('unknown', 'yes'))
wrong_states('what is allocable counts where it is marked', 'counting', ('yes', 'no'), ('yes', 'unknown'))
wrong_states('what may be marked counts', 'counting', (None, 'unknown'))
wrong_states('what is not marked is pending', 'pending', ('unknown', 'no'), ('unknown', 'unknown'))
wrong_states('what may be marked is pending', 'pending', ('unknown', 'unknown'))


@wrong('a position counts one vote', printed.Texts)
def votes(texts, position):
    return 1


@wrong('the first position counts alone', printed.Texts)
def positions(texts, selections):
    return [it['SelectionPosition'][0] for it in selections]


wrong_votes('the last of one selection counts', lambda chosen: list(
    {it.get('ContestSelectionId'): it for it in chosen}.values()))
wrong_votes('what names no selection is left out', lambda chosen: [
    it for it in chosen if 'ContestSelectionId' in it])
wrong_columns('overvotes and undervotes are exchanged', 'overvotes', 'undervotes')
wrong_columns('write-ins and pending votes are exchanged', 'write-ins', 'pending')


@wrong('the selections are exchanged')
def sums(rules, vote, selections):
    return RIGHT['sums'](rules, vote, selections[::-1])


@wrong('unit and batch are exchanged')
def row_of(rules, header):
    return header.get('BatchId'), header.get('BallotStyleUnitId')


@wrong('batches are not looked at')
def row_of(rules, header):
    return header.get('BallotStyleUnitId'), None


# ---- events

@wrong('an exchange hands on nothing')
def reach(rules, event, file, reached):
    return RIGHT['reach'](rules, event, file, reached) if isinstance(event, Import) else frozenset()


@wrong('an exchange hands on files alone')
def reach(rules, event, file, reached):
    return frozenset(it for it in RIGHT['reach'](rules, event, file, reached) if it[0] != 'office')


@wrong('an exchange hands on no volume that its giver took in')
def reach(rules, event, file, reached):
    found = RIGHT['reach'](rules, event, file, reached)
    return found if isinstance(event, Import) else frozenset(
        it for it in found if it[0] != 'volume')


@wrong('files are looked for before offices', Play)
def refusal(play, event):
    if isinstance(event, Import) and event.file >= len(play.files):
        return 'N2'
    return RIGHT_PLAY['refusal'](play, event)


@wrong('offices of other elections are the same', Play)
def is_same(play, one, other):
    return play.content(one) == play.content(other)


@wrong('the devices of offices may differ', Play)
def is_same(play, one, other):
    one, other = ({it for it in play.content(office) if it[0] != 'device'}
                  for office in (one, other))
    return one == other
