#!/usr/bin/env python3
"""make_vectors.py [--write]

The small reports that the rows start from, built from their rules. With --write the files of the folder `vectors` are
written anew; without it they are compared, and the status is 1 where one differs."""
import os
import sys

FOLDER = os.path.join(os.path.dirname(os.path.abspath(__file__)), 'vectors')


def item(kind, *members):
    """An object of a class: its `@id`, where that is the first member, its `@type`, and its other members."""
    first = [m for m in members if m.startswith('"@id":')]
    rest = [m for m in members if not m.startswith('"@id":')]
    return '{' + ','.join(first + ['"@type":"CVR.%s"' % kind] + rest) + '}'


def text(name, value):
    return '"%s":"%s"' % (name, value)


def number(name, value):
    return '"%s":%d' % (name, value)


def listing(name, items):
    return '"%s":[%s]' % (name, ','.join(items))


def naming(name, *ids):
    return listing(name, ['"%s"' % one for one in ids])


def choice(kind, name, *more):
    return item(kind, text('@id', name), *more)


def election():
    mayor = item('CandidateContest', text('@id', 'mayor'), listing('ContestSelection', [
        choice('CandidateSelection', 'ann'),
        choice('CandidateSelection', 'bob'),
        choice('CandidateSelection', 'wi', '"IsWriteIn":true')]))
    question = item('BallotMeasureContest', text('@id', 'q1'), listing('ContestSelection', [
        choice('BallotMeasureSelection', 'yes', text('Selection', 'Yes')),
        choice('BallotMeasureSelection', 'no', text('Selection', 'No'))]))
    return item('Election', text('@id', 'e'), listing('Contest', [mayor, question]), text('ElectionScopeId', 'p1'))


def election_with_parties():
    """An election with every member that names something: candidates of parties, and contests of both."""
    candidates = [
        choice('Candidate', 'cora', text('PartyId', 'red')),
        choice('Candidate', 'dan', text('PartyId', 'blue')),
        choice('Candidate', 'eve')]
    judge = item('CandidateContest', text('@id', 'judge'), listing('ContestSelection', [
        choice('CandidateSelection', 'for-cora', naming('CandidateIds', 'cora')),
        choice('CandidateSelection', 'for-team', naming('CandidateIds', 'dan', 'eve'))]))
    board = item('PartyContest', text('@id', 'board'), listing('ContestSelection', [
        choice('PartySelection', 'red-list', naming('PartyIds', 'red')),
        choice('PartySelection', 'joint-list', naming('PartyIds', 'red', 'blue'))]))
    return item('Election', text('@id', 'e'), listing('Candidate', candidates), listing('Contest', [judge, board]),
                text('ElectionScopeId', 'p1'))


def report_on(held, parties, cvrs):
    """A report of an election, with these parties as its member Party, or without that member."""
    return item(
        'CastVoteRecordReport',
        listing('CVR', cvrs),
        listing('Election', [held]),
        text('GeneratedDate', '2024-11-05T20:00:00Z'),
        listing('GpUnit', [item('GpUnit', text('@id', unit), text('Type', 'precinct')) for unit in ('p1', 'p2')]),
        *parties,
        naming('ReportGeneratingDeviceIds', 's1'),
        listing('ReportingDevice', [item('ReportingDevice', text('@id', d)) for d in ('desk', 's1', 's2')]),
        text('Version', '1.0.0'))


def report(*cvrs):
    return report_on(election(), [], cvrs)


def report_with_parties(held, *cvrs):
    return report_on(held, [listing('Party', [choice('Party', 'red'), choice('Party', 'blue')])], cvrs)


def position(indication='yes', votes=1, allocable=None, metric=None):
    members = [text('HasIndication', indication)]
    if allocable is not None:
        members.append(text('IsAllocable', allocable))
    if metric is not None:
        members.append(listing('MarkMetricValue', ['"%s"' % metric]))
    return item('SelectionPosition', *(members + [number('NumberVotes', votes)]))


def selection(name, place):
    members = [] if name is None else [text('ContestSelectionId', name)]
    return item('CVRContestSelection', *(members + [listing('SelectionPosition', [place])]))


def contest(name, selections, *more):
    return item('CVRContest', listing('CVRContestSelection', selections), text('ContestId', name), *more)


def snapshot(name, kind, contests, moment=None):
    members = [text('@id', name)]
    if moment is not None:
        members.append(listing('Annotation', [item('Annotation', text('TimeStamp', moment))]))
    return item('CVRSnapshot', *(members + [listing('CVRContest', contests), text('Type', kind)]))


def vote_on(held, name, kind, choice, moment=None):
    """A snapshot with one vote in a contest."""
    return snapshot(name, kind, [contest(held, [selection(choice, position())])], moment)


def vote(name, kind, choice, moment=None):
    """A snapshot with one vote for mayor."""
    return vote_on('mayor', name, kind, choice, moment)


def cvr_members(unit, snapshots, current):
    return [text('BallotStyleUnitId', unit), listing('CVRSnapshot', [snapshots]), text('CreatingDeviceId', 's1'),
            text('CurrentSnapshotId', current), text('ElectionId', 'e'), text('UniqueId', 'u1')]


def cvr(unit, snapshots, current):
    return item('CVR', *cvr_members(unit, snapshots, current))


def respelled(whole):
    """The first scan in another spelling: a space after each colon that follows a member name, the CVR's members in
    reverse order, and `u1` spelled by its code points. No text of that report has a quote before a colon."""
    members = ['"@type":"CVR.CVR"'] + cvr_members('p1', vote('a', 'original', 'ann'), 'a')
    forward, backward = '{' + ','.join(members) + '}', '{' + ','.join(reversed(members)) + '}'
    assert whole.count(forward) == 1 and whole.count('"u1"') == 1
    return whole.replace(forward, backward).replace('"u1"', '"\\u0075\\u0031"').replace('":', '": ')


def every_kind():
    mayor = contest('mayor', [
        selection('wi', position('yes', 1, 'unknown')),
        selection('ann', position('yes', 1)),
        selection('bob', position('no', 1)),
        selection(None, position('yes', 1))], number('WriteIns', 1))
    question = contest('q1', [
        selection('yes', position('no', 2, 'yes')),
        selection('no', position('yes', 1, 'no'))])
    return cvr('p1', snapshot('x', 'interpreted', [mayor, question]), 'x')


def with_image():
    mark = contest('mayor', [selection('ann', position(metric='0.17'))])
    return item(
        'CVR',
        listing('BallotImage', [item('ImageData', text('Location', 'x'))]),
        text('BallotStyleId', '1'), text('BallotStyleUnitId', 'p1'), text('BatchId', 'b1'), number('BatchSequenceId', 1),
        listing('CVRSnapshot', [snapshot('o', 'original', [mark])]),
        text('CreatingDeviceId', 's1'), text('CurrentSnapshotId', 'o'), text('ElectionId', 'e'), text('UniqueId', 'u2'))


def of_a_party():
    """A record of a party's ballot, with two snapshots."""
    scan = snapshot('o', 'original', [
        contest('judge', [selection('for-cora', position())]),
        contest('board', [selection('joint-list', position())])])
    decided = snapshot('m', 'modified', [contest('board', [selection('red-list', position())])])
    return item(
        'CVR', text('BallotStyleUnitId', 'p1'), listing('CVRSnapshot', [scan, decided]), text('CreatingDeviceId', 's1'),
        text('CurrentSnapshotId', 'm'), text('ElectionId', 'e'), naming('PartyIds', 'blue'), text('UniqueId', 'u1'))


def election_of_every_class():
    """An election with contests and selections of each class; nothing names the last one of each."""
    judges = [choice('CandidateSelection', 'for-cora', naming('CandidateIds', 'cora')), choice('CandidateSelection', 'for-dan')]
    contests = [choice(kind, name, listing('ContestSelection', choices)) for kind, name, choices in [
        ('CandidateContest', 'judge', judges),
        ('BallotMeasureContest', 'question', [choice('BallotMeasureSelection', 'no')]),
        ('CandidateContest', 'seat', [choice('CandidateSelection', 'for-eve')]),
        ('Contest', 'other', [choice('ContestSelection', 'none')]),
        ('PartyContest', 'board', [choice('PartySelection', 'red-list', naming('PartyIds', 'red'))]),
        ('RetentionContest', 'stay', [choice('BallotMeasureSelection', 'yes')])]]
    candidates = [choice('Candidate', 'cora'), choice('Candidate', 'dan')]
    return item('Election', text('@id', 'e'), listing('Candidate', candidates), listing('Contest', contests),
                text('ElectionScopeId', 'p1'))


def of_every_class():
    """A record with an object of each class that a record may have; nothing names its last snapshot."""
    place = item('SelectionPosition', '"CVRWriteIn":' + item('CVRWriteIn'), text('HasIndication', 'yes'), number('NumberVotes', 1))
    scan = item(
        'CVRSnapshot', text('@id', 'o'), listing('Annotation', [item('Annotation')]),
        listing('CVRContest', [contest('judge', [selection('for-cora', place)])]), text('Type', 'original'))
    return cvr('p1', vote_on('judge', 'm', 'modified', 'for-cora') + ',' + scan, 'm')


def with_unknown_members(whole):
    """The first scan with one unknown member in its snapshot and one at the top."""
    return (whole.replace('"Type":"original"', '"Type":"original","vxNote":"x"')
            .replace('"GeneratedDate"', '"Extra":1,"GeneratedDate"'))


def adjudicated(name, choice, moment=None):
    return report(cvr('p1', vote(name, 'modified', choice, moment), name))


def vectors():
    """The vectors by file name, as bytes. None has a line end."""
    scan = report(cvr('p1', vote('a', 'original', 'ann'), 'a'))
    texts = {
        'def.json': report(),
        'f2.json': scan,
        'f3.json': respelled(scan),
        'f4.json': with_unknown_members(scan),
        'f6.json': adjudicated('m', 'bob'),
        'f7.json': report(cvr('p1', vote('i', 'interpreted', 'ann'), 'i')),
        'f8.json': adjudicated('m', 'wi'),
        'f9.json': report(cvr('p2', vote('a', 'original', 'ann'), 'a')),
        'f10a.json': adjudicated('m1', 'ann', '2024-11-05T23:30:00-05:00'),
        'f10b.json': adjudicated('m2', 'bob', '2024-11-06T01:00:00Z'),
        'f10c.json': adjudicated('m9', 'wi'),
        'f10d.json': adjudicated('m4', 'bob', '2024-11-06T04:30:00Z'),
        'f11.json': report(every_kind()),
        'f20.json': report(with_image()),
        'parties-def.json': report_with_parties(election_with_parties()),
        'parties.json': report_with_parties(election_with_parties(), of_a_party()),
        'classes.json': report_with_parties(election_of_every_class(), of_every_class()),
    }
    return {name: content.encode('utf-8') for name, content in texts.items()}


def differing():
    """The names of the vectors whose file is missing or has other bytes, and of files that are not vectors."""
    wanted = vectors()
    held = {}
    for name in os.listdir(FOLDER):
        with open(os.path.join(FOLDER, name), 'rb') as file:
            held[name] = file.read()
    return sorted(name for name in set(wanted) | set(held) if wanted.get(name) != held.get(name))


def main():
    if sys.argv[1:] == ['--write']:
        for name, content in vectors().items():
            with open(os.path.join(FOLDER, name), 'wb') as file:
                file.write(content)
    wrong = differing()
    for name in wrong:
        print('%s is not as its rules give it' % name)
    sys.exit(1 if wrong else 0)


if __name__ == '__main__':
    main()
