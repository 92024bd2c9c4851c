"""page_sets.py: definitions and reports for pages: odd names, many contests, many units, several votes a
ballot, one ballot a file, and no records."""
import json

MOMENT = '2024-11-05T20:00:00Z'
LONG = 'Long name ' * 30                                # 300 characters
WIDE = 'Breit' * 60                                     # 300 characters without a space
MARKUP = '<script>alert("1")</script> & <b class=\'x\'>'
STYLED = MARKUP + '\'} body { background: url(x) } </style>\\'     # a name that ends a text of a style
ARABIC = 'مجلس المدينة ١٢'
TURNED = '\u202eabc\u0000\u0007\u0085\ufffe'            # another direction, and characters that HTML can't have
ODD = [MARKUP, ARABIC, LONG, WIDE, TURNED, '']


def report(contests, units, records=(), name='Invented election'):
    """A report. A contest is its id, name, VotesAllowed or None, and selections as (id, name)."""
    made = {'@type': 'CVR.CastVoteRecordReport', 'Version': '1.0.0', 'GeneratedDate': MOMENT,
            'ReportGeneratingDeviceIds': ['scanner'],
            'ReportingDevice': [{'@type': 'CVR.ReportingDevice', '@id': 'scanner'}],
            'GpUnit': [{'@type': 'CVR.GpUnit', '@id': key, 'Type': 'precinct', 'Name': title}
                       for key, title in units],
            'Election': [{'@type': 'CVR.Election', '@id': 'election', 'Name': name,
                          'ElectionScopeId': units[0][0], 'Contest': list(map(contest, contests))}]}
    return dict(made, CVR=list(records)) if records else made


def contest(parts):
    """A measure that allows so many votes, or 0 where it states none; or, with None, a contest of people that states none."""
    key, title, allowed, selections = parts
    kind = 'CVR.CandidateContest' if allowed is None else 'CVR.BallotMeasureContest'
    chosen = [{'@type': 'CVR.BallotMeasureSelection', '@id': one, 'Selection': text}
              for one, text in selections]
    return {'@type': kind, '@id': key, 'Name': title,
            'ContestSelection': chosen, **({'VotesAllowed': allowed} if allowed else {})}


def record(number, unit, batch, votes):
    """A record with a vote for one selection in each contest: the selection's id, None for no vote, the
    id with an IsAllocable under which the vote doesn't count, or a list of votes."""
    contests = [{'@type': 'CVR.CVRContest', 'ContestId': key, **marks(one)}
                for key, one in votes.items()]
    snapshot = {'@type': 'CVR.CVRSnapshot', '@id': 'a', 'Type': 'original', 'CVRContest': contests}
    return {'@type': 'CVR.CVR', 'CreatingDeviceId': 'scanner', 'UniqueId': '%06d' % number,
            'ElectionId': 'election', 'BallotStyleUnitId': unit, 'BatchId': batch,
            'CurrentSnapshotId': 'a', 'CVRSnapshot': [snapshot]}


def marks(selection):
    if selection is None:
        return {'Undervotes': 1}
    if isinstance(selection, list):
        return {'CVRContestSelection': [marks(it)['CVRContestSelection'][0] for it in selection]}
    position = {'@type': 'CVR.SelectionPosition', 'HasIndication': 'yes', 'NumberVotes': 1}
    if isinstance(selection, tuple):
        selection, position['IsAllocable'] = selection
    chosen = {'@type': 'CVR.CVRContestSelection', 'ContestSelectionId': selection,
              'SelectionPosition': [position]}
    return {'CVRContestSelection': [chosen]}


def odd():
    """Contests, selections, units and batches with odd names and odd ids."""
    ids = [it for it in ODD if it]
    selections = [(key, text) for key, text in zip(ids + ['none'], ODD)]
    contests = [(key, text, 1, selections) for key, text in zip(ids + ['none'], ODD)]
    units = list(zip(ids + ['none'], ODD))
    records = [record(number, units[number % 6][0], ODD[number % 6],
                      {contests[number % 5][0]: selections[number % 4][0]}) for number in range(60)]
    files = {'<b>.json': report(contests, units, records, STYLED)}
    return report(contests, units, name=STYLED), files


def many_contests(count=300):
    contests = [('contest-%d' % place, 'Contest %d' % place, 1,
                 [('yes', 'Yes'), ('no', 'No'), ('other', 'Other')]) for place in range(count)]
    units = [('unit-%d' % place, 'Unit %d' % place) for place in range(4)]
    records = [record(number, 'unit-%d' % (number % 4), 'batch-%d' % (number % 3),
                      {'contest-%d' % place: ('yes', 'no', 'other', None)[(number + place) % 4]
                       for place in range(number % 7, count, 7)}) for number in range(400)]
    return report(contests, units), {'records.json': report(contests, units, records)}


def many_units(count=2000):
    contests = [('mayor', 'Mayor', 1, [('a', 'Ada Hill'), ('b', 'Bo Lake'), ('w', 'Write-in')]),
                ('bond', 'School bond', 1, [('yes', 'Yes'), ('no', 'No')])]
    units = [('unit-%04d' % place, 'Precinct %d' % place) for place in range(count)]
    places = [unit for place, (unit, _) in enumerate(units) for _ in range(2 if place % 20 else 40)]
    records = [record(number, unit, 'batch-%03d' % (number // 200),
                      {'mayor': 'aabbab'[number % 6] if number % 41 else 'w',
                       'bond': ('yes', 'no')[number % 3 == 0]})
               for number, unit in enumerate(places)]
    return report(contests, units), {'records.json': report(contests, units, records)}


def small_units():
    """One contest in six units, of which some have few votes for a selection."""
    votes, units = [(30, 30), (25, 35), (12, 1), (40, 30), (2, 12), (45, 45)], []
    contests, records = [('bond', 'School bond', 1, [('yes', 'Yes'), ('no', 'No')])], []
    for place, numbers in enumerate(votes):
        units.append(('u%d' % place, 'Unit %d' % place))
        for key, number in zip(('yes', 'no'), numbers):
            records += [record(len(records) + it, 'u%d' % place, 'batch', {'bond': key}) for it in range(number)]
    return report(contests, units), {'records.json': report(contests, units, records)}


def several_votes():
    """A contest in which each ballot has three votes, beside one of one vote. In two of three units nearly
    all ballots have a vote for the second selection."""
    votes = [(60, [30, 30], [30, 59, 30, 31, 30]), (80, [40, 40], [60, 60, 40, 40, 40]),
             (40, [20, 20], [20, 38, 24, 19, 19])]
    contests = [('mayor', 'Mayor', 1, [('a', 'Ada'), ('b', 'Bo')]),
                ('board', 'School board', 3, [('s%d' % place, 'Member %d' % place) for place in range(5)])]
    units, records = [('u%d' % place, 'Unit %d' % place) for place in range(3)], []
    for (unit, _), (ballots, *each) in zip(units, votes):
        held = [spread(ballots, [it[0] for it in contest[3]], numbers)
                for contest, numbers in zip(contests, each)]
        records += [record(len(records) + place, unit, 'batch', {'mayor': mayor, 'board': board})
                    for place, (mayor, board) in enumerate(zip(*held))]
    return report(contests, units), {'records.json': report(contests, units, records)}


def spread(ballots, selections, numbers):
    """The votes of each ballot, where each selection has so many: dealt out in turn."""
    held, place = [[] for _ in range(ballots)], 0
    for selection, number in zip(selections, numbers):
        for _ in range(number):
            held[place % ballots].append(selection)
            place += 1
    return held


def one_each(is_in_definition=False):
    """The files of a set with one ballot each, of which four have a vote with a longer id, and what each
    file could be: its bytes by the vote. DEF may have the first ballot, too. No ballot has the contest
    that comes first."""
    keys, files, possible, units = ['ada', 'bob', 'constantine'], {}, [], [('u', 'Unit')]
    contests = [('tax', 'Tax', 1, [('yes', 'Yes')]), ('mayor', 'Mayor', 1, [(it, it) for it in keys])]
    for number, place in enumerate([0] * 25 + [1] * 30 + [2] * 4):
        made = [report(contests, units, [record(number, 'u', 'batch', {'mayor': key})])
                for key in keys]
        files['%02d.json' % number] = made[place]
        possible.append({('mayor', one): text_of(it) for one, it in enumerate(made)})
    definition = files['00.json'] if is_in_definition else report(contests, units)
    return texts_of((definition, files)), possible


def vote(chance, selections, can_be_less):
    """A random vote; where that can be, one in twenty is none, is pending or is rejected."""
    chosen = chance.choice(selections)
    if not can_be_less or chance.random() < 0.95:
        return chosen
    return chance.choice([None, (chosen, 'unknown'), (chosen, 'no')])


def uneven(chance, units=7):
    """Some contests with units of random sizes, and random votes."""
    contests = [('c%d' % place, 'Contest %d' % place, chance.choice([None, 1, 1, 2]),
                 [('s%d' % one, 'Selection %d' % one) for one in range(chance.randint(1, 9))])
                for place in range(chance.randint(1, 3))]
    places = [('u%d' % place, 'Unit %d' % place) for place in range(units)]
    records, can_be_less = [], chance.random() < 0.7
    for unit, _ in places:
        few = chance.choice([1, 2, 9])
        for _ in range(chance.randint(0, 2 * chance.choice([0, 1, 5, 20, 60]))):
            votes = {key: vote(chance, [one for one, _ in chosen][:few], can_be_less)
                     for key, _, _, chosen in contests if chance.random() < 0.9}
            records.append(record(len(records), unit, 'batch', votes))
    return report(contests, places), {'records.json': report(contests, places, records)}


def write_ins():
    """Contests with few votes for write-ins in two units: one in which a candidate is withheld beside them, one in
    which nobody is, and one with a single candidate. And one in which a write-in that is withheld leads."""
    units = [('u0', 'Unit 0'), ('u1', 'Unit 1')]
    contests = [candidates('mayor', 'Mayor', [('ann', 'Ann'), ('bob', 'Bob')], 2),
                candidates('sheriff', 'Sheriff', [('dan', 'Dan'), ('eve', 'Eve')], 2),
                candidates('clerk', 'Clerk', [('cyd', 'Cyd')], 1),
                candidates('coroner', 'Coroner', [('fay', 'Fay'), ('gus', 'Gus')], 2)]
    made = report([], units)
    made['Election'][0].update(Contest=[contest for contest, _ in contests],
                               Candidate=[it for _, held in contests for it in held])
    votes = [[(150, 100, 2, 3), (230, 12, 11, 2), (252, 3), (60, 2, 188, 5)],
             [(116, 140, 1, 1), (233, 12, 11, 2), (257, 1), (60, 1, 192, 5)]]
    records, keys = [], [it['@id'] for it, _ in contests]
    for (unit, _), numbers in zip(units, votes):
        held = [[[one['@id']] for one, number in zip(contest['ContestSelection'], each) for _ in range(number)]
                for (contest, _), each in zip(contests, numbers)]
        records += [record(len(records) + place, unit, 'batch', dict(zip(keys, chosen)))
                    for place, chosen in enumerate(zip(*held))]
    return made, {'records.json': dict(made, CVR=records)}


def candidates(key, title, people, count):
    """A contest of people and of so many write-ins, and its candidates."""
    named = [{'@type': 'CVR.Candidate', '@id': 'person-' + one, 'Name': name} for one, name in people]
    chosen = [{'@type': 'CVR.CandidateSelection', '@id': one, 'CandidateIds': ['person-' + one]} for one, _ in people]
    chosen += [{'@type': 'CVR.CandidateSelection', '@id': '%s-%d' % (key, place), 'IsWriteIn': True}
               for place in range(1, 1 + count)]
    return {'@type': 'CVR.CandidateContest', '@id': key, 'Name': title, 'VotesAllowed': 1,
            'ContestSelection': chosen}, named


def too_many():
    """Three ballots with seven votes in a contest that allows two of each: one has three."""
    contests = [('board', 'School board', 2, [('ann', 'Ann'), ('bob', 'Bob'), ('cyd', 'Cyd')])]
    records = [record(number, 'u', 'batch', {'board': held})
               for number, held in enumerate([['ann', 'bob', 'cyd'], ['ann', 'bob'], ['bob', 'cyd']])]
    return report(contests, [('u', 'Unit')]), {'records.json': report(contests, [('u', 'Unit')], records)}


def ranked(count=30):
    """A contest of ranks and one of scores, and one whose votes are neither, of `count` ballots."""
    contests = [('mayor', 'Mayor', 1, [('ada', 'Ada'), ('bob', 'Bob'), ('cyd', 'Cyd')]),
                ('score', 'Score', None, [('low', 'Low'), ('high', 'High')]),
                ('tax', 'Tax', 1, [('yes', 'Yes'), ('no', 'No')])]
    held = [report(contests, [('u', 'Unit')]), report(contests, [('u', 'Unit')])]
    for made in held:
        for place, variation in enumerate(['rcv', 'range']):
            made['Election'][0]['Contest'][place]['VoteVariation'] = variation
    held[1]['CVR'] = [record(number, 'u', 'batch', {'mayor': None, 'score': ('high', 'yes'), 'tax': 'yes'})
                      for number in range(count)]
    for number, made in enumerate(held[1]['CVR']):
        order = [(number + place) % 3 for place in range(1 + number % 3)]
        made['CVRSnapshot'][0]['CVRContest'][0] = {
            '@type': 'CVR.CVRContest', 'ContestId': 'mayor',
            'CVRContestSelection': [rank_of(contests[0][3][it][0], rank) for rank, it in enumerate(order, 1)]}
    return held[0], {'ranked.json': held[1]}


def rank_of(selection, rank):
    """A vote with a Rank of its position, which goes before that of the selection."""
    position = {'@type': 'CVR.SelectionPosition', 'HasIndication': 'yes', 'NumberVotes': 1, 'Rank': rank}
    return {'@type': 'CVR.CVRContestSelection', 'ContestSelectionId': selection, 'Rank': 9,
            'SelectionPosition': [position]}


def machines(count, contests=12, units=30, most=3000):
    """A county of `count` ballots as VxSuite writes them, `most` in a file: each has a second snapshot, of Type `modified`, in
    which no person had a part. One in forty has a write-in that waits for a person."""
    held = [('c%02d' % place, 'Contest %d' % place, 1,
             [('c%02d-%d' % (place, one), 'Candidate %d' % one) for one in range(4)])
            for place in range(contests)]
    places = [('u%02d' % place, 'Precinct %d' % place) for place in range(units)]
    records = []
    for number in range(count):
        votes = {key: None if (number + place) % 200 == 7 else chosen[(number * (place + 3)) // 5 % 4][0]
                 for place, (key, _, _, chosen) in enumerate(held)}
        made = record(number, places[number % units][0], 'batch-%02d' % (number // 100), votes)
        for one in made['CVRSnapshot'][0]['CVRContest']:
            one.update({'Overvotes': 0, 'WriteIns': 0}, Undervotes=one.get('Undervotes', 0))
        if number % 40 == 11:
            wait(made['CVRSnapshot'][0]['CVRContest'][0])
        machine = dict(made['CVRSnapshot'][0], **{'@id': 'b', 'Type': 'modified'})
        records.append(dict(made, CurrentSnapshotId='b', CVRSnapshot=[*made['CVRSnapshot'], machine]))
    return report(held, places), {'%02d.json' % part: report(held, places, records[part * most:][:most])
                                  for part in range((count + most - 1) // most)}


def wait(contest):
    """Makes the vote of a contest a write-in that nobody has decided on."""
    for chosen in contest.get('CVRContestSelection', []):
        chosen['Status'] = ['needs-adjudication']
        chosen['SelectionPosition'][0].update(IsAllocable='unknown', CVRWriteIn={
            '@type': 'CVR.CVRWriteIn', 'Text': 'Someone'})
        contest['WriteIns'] = 1


def text_of(value):
    return json.dumps(value).encode('utf-8')


def texts_of(made):
    """The files of a set: their bytes by name."""
    definition, files = made
    held = {'def.json': definition, **files}
    return {name: text_of(value) for name, value in held.items()}
