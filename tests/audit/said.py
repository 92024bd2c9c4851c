"""said.py: a second reading of the lines of docs/AUDITING.md that other commands count, too, for sets.py: those of a
definition and of accepted reports by path, as (kind, ..) with the texts and numbers in them."""
from collections import Counter

import printed
import rules as format_rules

RANKED = {'rcv', 'borda', 'range'}
NEEDS = 'needs-adjudication'


def name_of(cvr):
    return cvr['CreatingDeviceId'], cvr['UniqueId']


def stamps(snapshot):
    return [it['TimeStamp'] for it in snapshot.get('Annotation', []) if 'TimeStamp' in it]


def has_name(snapshot):
    return any('' != one for it in snapshot.get('Annotation', []) for one in it.get('AdjudicatorName', []))


def latest(texts):
    return max(map(format_rules.instant, texts))


def chosen_in(snapshot):
    """Each contest of a snapshot with its selections, and each of these with its positions."""
    for contest in snapshot.get('CVRContest', []):
        for selection in contest.get('CVRContestSelection', []):
            for position in selection['SelectionPosition']:
                yield contest['ContestId'], selection, position


def of_files(texts, held, accepted):
    """The lines on records that stand in several places, and on files that decide."""
    places = {path: Counter(map(name_of, report.get('CVR', []))) for path, report in accepted.items()}
    for path, counts in places.items():
        yield from (('repeated', path, *name, count) for name, count in counts.items() if count > 1)
    every, again = sum(sum(it.values()) for it in places.values()), sum(sum(it.values()) - len(it) for it in places.values())
    if every != len(held.records):
        yield 'counted', every, len(held.records), again, every - len(held.records) - again
    found = Counter()
    for name, record in held.records.items():
        current = texts.current(record)
        body = texts.compact(current)
        having = {path for path, report in accepted.items() for cvr in report.get('CVR', []) if name_of(cvr) == name
                  and body in map(texts.compact, cvr['CVRSnapshot'])}
        moments = stamps(current)
        if {path for path in places if name in places[path]} != having:
            found.update(('decides', path) for path in having)
            if not moments and not has_name(current):
                found.update(('unsigned', path) for path in having)
        if moments and not has_name(current):
            found.update(('nobody', path) for path in having)
        if moments and latest(moments) > latest(accepted[path]['GeneratedDate'] for path in having):
            found.update(('later', path) for path in having)
    yield from ((*key, count) for key, count in found.items())
    for path, report in accepted.items():
        for cvr in report.get('CVR', []):
            counts, named = texts.current(held.records[name_of(cvr)])['@id'], cvr['CurrentSnapshotId']
            if counts != named and any(it['@id'] == counts for it in cvr['CVRSnapshot']):
                yield 'undone', path, *name_of(cvr), named, counts


def of_votes(texts, held, definition, ranked):
    """The lines on single records with more votes than a contest allows, or several for one selection."""
    contests = {it['@id']: it for it in definition['Election'][0]['Contest'] if it['@id'] not in ranked}
    found = Counter()
    for name, record in held.records.items():
        for contest, selection, position in chosen_in(texts.current(record)):
            if position.get('IsAllocable', position['HasIndication']) == 'yes':
                found[name, contest, selection.get('ContestSelectionId')] += position['NumberVotes']
    sums = Counter()
    for (name, contest, selection), votes in found.items():
        sums[name, contest] += votes
        its = contests.get(contest, {'VoteVariation': 'cumulative'})
        one = {it['@id']: it for it in its.get('ContestSelection', [])}.get(selection, {'IsWriteIn': True})
        if votes >= 2 and its.get('VoteVariation') != 'cumulative' and not one.get('IsWriteIn', False):
            yield 'doubled', contest, selection, *name, votes
    for (name, contest), votes in sums.items():
        its = contests.get(contest, {'@type': None})
        most = its.get('VotesAllowed', 1 if its['@type'] in ('CVR.BallotMeasureContest', 'CVR.RetentionContest') else 0)
        if 0 < most < votes:
            yield 'exceeds', contest, *name, votes, most


def of_marks(texts, held, definition):
    """The lines on what waits, and on ranks."""
    ranks = {}
    for name, record in held.records.items():
        current = texts.current(record)
        waiting = [contest for contest, selection, position in chosen_in(current) if NEEDS in selection.get('Status', [])
                   or position['HasIndication'] == 'unknown' and position.get('IsAllocable') in (None, 'unknown')]
        if waiting or NEEDS in current.get('Status', []):
            yield ('waiting', *name, *dict.fromkeys(waiting))
        for contest, selection, position in chosen_in(current):
            held_rank = position.get('Rank', selection.get('Rank'))
            ranks.setdefault(contest, []).extend([] if held_rank is None else [held_rank])
    for contest in definition['Election'][0]['Contest']:
        greatest, variation = max(ranks.get(contest['@id'], []), default='-'), contest.get('VoteVariation', '-')
        if variation in RANKED or greatest != '-' and greatest > 1:
            yield 'ranked', contest['@id'], variation, greatest


def lines(definition, accepted):
    texts = printed.Texts()
    held = texts.hold(definition, list(accepted.values()))
    marks = list(of_marks(texts, held, definition))
    ranked = {it[1] for it in marks if it[0] == 'ranked'}
    return [*of_files(texts, held, accepted), *marks, *of_votes(texts, held, definition, ranked)]
