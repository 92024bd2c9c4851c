"""misread.py: tables and lists of votes that a converter could read wrongly without a word, each with numbers that were
worked out by hand. `log` is the line with which `cvr-audit gather` has to refuse it, or None where it doesn't; `words` are
the options with which it goes on, and `votes` what then stands in the tally, all units and batches together. Each of `ways`
takes the rule out of the converter: what it then makes has to go through, and the recount to find it. `note` is the end
of the only note, or empty where there is none."""
import os
from collections import namedtuple

import faults
import make

Misread = namedtuple('Misread', 'name kind write log words votes ways note', defaults=(None,))
SEVERAL = '; where these are several contests of one name, name the columns of each, as in --contests '
OR_ONE = '; where they are one, go on with --contests '
UNSTATED = 'note: %d contests in snapshots have more marks that are votes than are allowed, and state no overvote; each is taken for overvoted'


def table(kind, contests, rows):
    """Writes a table of a kind: contests of (name, votes, choices), of which a name may stand several times, and rows of
    (number of ballots, marked columns from 0)."""
    def write(folder):
        held = [make.Contest(name, allowed, [it if isinstance(it, tuple) else (it, '') for it in choices]) for name, allowed, choices in contests]
        places = [(k, i) for k, it in enumerate(held) for i in range(len(it.choices))]
        ballots = []
        for number, marked in rows:
            for _ in range(number):
                marks = {k: [i for place, (at, i) in enumerate(places) if at == k and place in marked] for k in range(len(held))}
                ballots.append(make.Ballot(1, 1, len(ballots) + 1, 0, marks))
        make.KINDS[kind](make.Election('Planted', held, ['Old Mill'], ballots), folder)
    return write


# ---- contests of one name side by side
# 120 ballots with two contests for one vote each; 99 mark both. Ann 3 + 20 + 28, Bob 7 + 23 + 28, Cy 4 + 20 + 23, Dee 7 + 28 + 28.
COUNCILS = [('Council', 1, ['Ann', 'Bob']), ('Council', 1, ['Cy', 'Dee'])]
COUNCIL_ROWS = [(3, {0}), (7, {1}), (4, {2}), (7, {3}), (20, {0, 2}), (28, {0, 3}), (23, {1, 2}), (28, {1, 3})]
MELTED = {'ballots': 120, 'overvotes': 99, 'undervotes': 0, 'write-ins': 0, 'Ann': 3, 'Bob': 7, 'Cy': 4, 'Dee': 7}
FIRST = {'ballots': 120, 'overvotes': 0, 'undervotes': 11, 'write-ins': 0, 'Ann': 51, 'Bob': 58}
SECOND = {'ballots': 120, 'overvotes': 0, 'undervotes': 10, 'write-ins': 0, 'Cy': 47, 'Dee': 63}
# 16 ballots; Ann 3 + 1 + 7, the first write-in 2, Bob 3 + 2 + 1, the second 1.
WRITTEN = [('Council', 1, ['Ann', 'Write-in']), ('Council', 1, ['Bob', 'Write-in'])]
WRITTEN_ROWS = [(3, {0, 2}), (1, {0, 3}), (2, {1, 2}), (2, set()), (1, {2}), (7, {0})]
FIRST_WRITTEN = {'ballots': 16, 'overvotes': 0, 'undervotes': 3, 'write-ins': 2, 'Ann': 11, 'write-in': 2}
SECOND_WRITTEN = {'ballots': 16, 'overvotes': 0, 'undervotes': 9, 'write-ins': 1, 'Bob': 6, 'write-in': 1}
ONE_WRITTEN = {'ballots': 16, 'overvotes': 6, 'undervotes': 2, 'Ann': 7, 'Bob': 1, 'write-in': 0}
NO_SHARE = ('lets_contests_melt', 'gather_columns.py', 'if may_be_several(over, marked):', 'if False:')
NO_WRITTEN = ('lets_written_names_melt', 'gather_columns.py', 'if len(written) > contest.allowed and', 'if False and')


def melted(kind, line, first):
    """The cases of a kind whose columns of selections begin with `first`."""
    one, cut = 'Council=%d-%d' % (first, first + 3), 'Council=%d-%d,%d-%d' % (first, first + 1, first + 2, first + 3)
    names = ['Council (columns %d-%d)' % (it, it + 1) for it in (first, first + 2)]
    place, ends = '%s.csv: line %d: the contest Council (columns %d-%d) ' % (kind, line, first, first + 3), SEVERAL + cut + OR_ONE + one
    over = place + 'is overvoted on %d of the %d ballots that mark it' + ends
    written = place + 'has 2 columns for written names, and 1 may be marked' + ends
    yield Misread('contests that melt', kind, table(kind, COUNCILS, COUNCIL_ROWS), over % (99, 120), ['--contests', cut],
                  {names[0]: FIRST, names[1]: SECOND}, [NO_SHARE])
    yield Misread('a contest that is overvoted', kind, table(kind, COUNCILS, COUNCIL_ROWS), over % (99, 120), ['--contests', one],
                  {'Council': MELTED}, [])
    yield Misread('written names that melt', kind, table(kind, WRITTEN, WRITTEN_ROWS), written, ['--contests', cut],
                  {names[0]: FIRST_WRITTEN, names[1]: SECOND_WRITTEN}, [NO_WRITTEN])
    yield Misread('two columns for one written name', kind, table(kind, WRITTEN, WRITTEN_ROWS), written, ['--contests', one],
                  {'Council': ONE_WRITTEN}, [])
    yield Misread('more than one in twenty', kind, table(kind, COUNCILS, [(10, {0, 2}), (189, {0}), (6, set())]), over % (10, 199), ['--contests', one],
                  {'Council': {'ballots': 205, 'overvotes': 10, 'undervotes': 6, 'Ann': 189, 'Bob': 0}},
                  [('takes_ten_for_few', 'gather_columns.py', 'over >= MANY and', 'over > MANY and'),
                   ('counts_blank_ballots', 'gather_columns.py', 'sum(numbers.values()) - numbers[0]', 'sum(numbers.values())')])
    yield Misread('one in twenty', kind, table(kind, COUNCILS, [(10, {0, 2}), (190, {0})]), None, [],
                  {'Council': {'ballots': 200, 'overvotes': 10, 'Ann': 190}}, [], '')
    # Ann 4 + 5, Bob 13 + 1; of the second contest 13 ballots are overvoted indeed
    later = 'Council (columns %d-%d)' % (first + 2, first + 4)
    more = SEVERAL + 'Council=%d-%d,%d-%d' % (first, first + 1, first + 2, first + 4) + OR_ONE + 'Council=%d-%d' % (first, first + 4)
    yield Misread('a part that is overvoted', kind,
                  table(kind, [*COUNCILS[:1], ('Council', 1, ['Cy', 'Dee', 'Eve'])], [(4, {0, 2}), (13, {1, 2, 3}), (5, {0, 4}), (1, {1})]),
                  '%s.csv: line %d: the contest Council (columns %d-%d) is overvoted on 22 of the 23 ballots that mark it' % (kind, line, first, first + 4) + more,
                  ['--contests', 'Council=%d-%d,%d-%d' % (first, first + 1, first + 2, first + 4), '--contests', '%s=%d-%d' % (later, first + 2, first + 4)],
                  {names[0]: {'ballots': 23, 'overvotes': 0, 'undervotes': 0, 'Ann': 9, 'Bob': 14},
                   later: {'ballots': 23, 'overvotes': 13, 'undervotes': 1, 'Cy': 4, 'Dee': 0, 'Eve': 5}}, [], '')
    yield Misread('nine, and half', kind, table(kind, COUNCILS, [(9, {0, 2}), (9, {0})]), None, [], {'Council': {'ballots': 18, 'overvotes': 9, 'Ann': 9}}, [],
                  ': ' + (place + 'is overvoted on 9 of the 18 ballots that mark it').split(': ', 2)[2])
    yield Misread('more than half', kind, table(kind, COUNCILS, [(2, {0, 2}), (1, {0}), (4, set())]), over % (2, 3), ['--contests', one],
                  {'Council': {'ballots': 7, 'overvotes': 2, 'Ann': 1, 'undervotes': 4}},
                  [('takes_more_than_half', 'gather_columns.py', 'over * HALF > marked', 'False')])
    yield Misread('one of one', kind, table(kind, COUNCILS, [(1, {0, 2}), (3, set())]), None, [], {'Council': {'ballots': 4, 'overvotes': 1, 'undervotes': 3}}, [],
                  ': ' + (place + 'is overvoted on 1 of the 1 ballots that mark it').split(': ', 2)[2])


# ---- marks of an overvoted contest

def sessions(ranks, allowed, ballots):
    """Writes Dominion's JSON of one contest: ballots of (number, stated overvotes, stated undervotes, marks as (choice, rank))."""
    def write(folder):
        held = []
        for number, over, under, marks in ballots:
            marks = [{'CandidateId': 'ABC'.index(choice), 'ManifestationId': 1, 'PartyId': 0, 'Rank': rank, 'MarkDensity': 99, 'IsAmbiguous': False,
                      'IsVote': True, 'OutstackConditionIds': []} for choice, rank in marks]
            contest = {'Id': 5, 'ManifestationId': 1, 'Undervotes': under, 'Overvotes': over, 'OutstackConditionIds': [], 'Marks': marks}
            for _ in range(number):
                held.append({'TabulatorId': 1, 'BatchId': 1, 'RecordId': len(held) + 1, 'Original': {
                    'PrecinctPortionId': 3, 'BallotTypeId': 1, 'IsCurrent': True, 'Cards': [{'Id': 1, 'Contests': [contest]}]}})
        lists = {'ContestManifest': [{'Id': 5, 'Description': 'Board', 'VoteFor': allowed, 'NumOfRanks': ranks}],
                 'CandidateManifest': [{'Id': k, 'Description': name, 'ContestId': 5, 'Type': 'Regular'} for k, name in enumerate(('Ann', 'Bob', 'Cy'))],
                 'PrecinctPortionManifest': [{'Id': 3, 'Description': 'Old Mill'}]}
        make.put(folder, 'dominion-json/CvrExport.json', make.json.dumps({'Sessions': held}))
        for name, items in lists.items():
            make.put(folder, 'dominion-json/%s.json' % name, make.json.dumps({'List': items}))
    return write


def sheets(ballots):
    """Writes Hart's XML of one contest: ballots of (number, stated overvotes, stated undervotes, marked choices). None isn't stated."""
    def write(folder):
        held = [it[1:] for it in ballots for _ in range(it[0])]
        for k, (over, under, choices) in enumerate(held):
            options = ''.join('<Option><Name>%s</Name><Id>%s</Id><Value>1</Value></Option>' % (it, it) for it in choices)
            numbers = ''.join('<%s>%d</%s>' % (name, number, name) for name, number in (('Undervotes', under), ('Overvotes', over)) if number is not None)
            make.put(folder, 'hart/%d.xml' % k, '<Cvr xmlns="%s"><Contests><Contest><Name>Board</Name><Id>b</Id><Options>%s</Options>%s'
                     '</Contest></Contests><PrecinctSplit><Name>Old Mill</Name><Id>m</Id></PrecinctSplit><BatchNumber>1</BatchNumber>'
                     '<CvrGuid>%d</CvrGuid></Cvr>' % (make.SPACE, options, numbers, k))
    return write


def overvoted():
    """Overvotes are 4 * 2 + 2 * 2 + 1 * 1; with ranks 2 * 1 + 1 * 1. Of a rank that is marked twice no mark counts."""
    abc = [('A', 1), ('B', 1), ('C', 1)]
    yield Misread('overvotes with votes', 'dominion-json',
                  sessions(0, 2, [(5, 0, 0, abc[:2]), (3, 0, 1, abc[:1]), (4, 2, 0, abc), (2, 0, 0, abc), (1, 1, 0, abc[:2])]), None, [],
                  {'Board': {'ballots': 15, 'overvotes': 13, 'undervotes': 3, 'Ann': 8, 'Bob': 5, 'Cy': 0}},
                  [('counts_overvoted_marks', 'gather_dominion_json.py', 'it.is_vote and it.rank not in over,', 'it.is_vote,'),
                   ('takes_overvotes_as_stated_alone', 'gather_dominion_json.py', 'if number > allowed}', 'if number > allowed and stated}'),
                   ('takes_overvotes_as_marked_alone', 'gather_dominion_json.py', 'return {None}', 'return {None} if len(marks) > contest.allowed else set()'),
                   ('states_no_overvotes', 'gather_dominion_json.py', "numbers.get('Overvotes') or contest.allowed", "numbers.get('Overvotes', 0)")],
                  UNSTATED % 2)
    ranked = [('A', 1), ('B', 2)]
    yield Misread('two at a rank', 'dominion-json',
                  sessions(3, 1, [(6, 0, 0, ranked), (2, 0, 0, [('A', 1), ('B', 1), ('C', 2)]), (1, 1, 0, [*ranked, ('C', 2)])]), None, [],
                  {'Board': {'ballots': 9, 'overvotes': 3, 'undervotes': 0, 'Ann': 7, 'Bob': 6, 'Cy': 2}},
                  [('counts_two_at_a_rank', 'gather_dominion_json.py', 'it.rank not in over,', 'None not in over,')], UNSTATED % 2)
    yield Misread('overvotes of Hart with votes', 'hart', sheets([(4, 0, 0, ['Ann']), (3, 1, 0, ['Ann', 'Bob']), (2, 0, 1, [])]), None, [],
                  {'Board': {'ballots': 9, 'overvotes': 3, 'undervotes': 2, 'Ann': 4, 'Bob': 0}},
                  [('counts_overvoted_marks', 'gather_hart.py', 'position(not is_over)', 'position()')])


def unequal():
    """A vote of two, once without the undervote that it leaves."""
    yield Misread('votes and undervotes that differ', 'dominion-json', sessions(0, 2, [(3, 0, 0, [('A', 1)]), (2, 0, 1, [('A', 1)])]), None, [],
                  {'Board': {'ballots': 5, 'overvotes': 0, 'undervotes': 2, 'Ann': 5, 'Bob': 0}}, [],
                  "note: in 3 contests in snapshots the votes and Undervotes don't come to VoteFor; each is written as it stands")


def too_many():
    """More marks than Hart's form says are allowed, which it doesn't: once 2 on 2 records and 1 on 10, and once without numbers."""
    yield Misread('more marks than undervotes allow', 'hart', sheets([(7, 0, 0, ['Ann']), (3, 0, 1, []), (2, 0, 0, ['Ann', 'Bob'])]),
                  'hart/10.xml: the marks and Undervotes of the contest b come to 2 on 2 records, as here, and to 1 on 10, as in hart/0.xml'
                  '; say how many votes it allows, as in --votes Board=1', ['--votes', 'Board=1'],
                  {'Board': {'ballots': 12, 'overvotes': 2, 'undervotes': 3, 'Ann': 7, 'Bob': 0}}, [('adds_nothing_up', 'gather_votes.py', 'if few != many:', 'if False:')])
    yield Misread('marks without undervotes', 'hart', sheets([(5, None, None, ['Ann']), (2, None, None, ['Ann', 'Bob'])]),
                  'hart/5.xml: the contest b has 2 marks here, and states neither Undervotes nor Overvotes; say how many votes it allows, as in --votes Board=2',
                  ['--votes', 'b=2'], {'Board': {'ballots': 7, 'overvotes': 0, 'undervotes': 0, 'Ann': 7, 'Bob': 2}},
                  [('takes_any_marks', 'gather_votes.py', 'or under is None and marks < 2', 'or under is None')])


# ---- choices and parties of Clear Ballot
# 15 ballots: the first choice 4, the second 2, the third 6, and 3 blank. Where a choice is cut or exchanged, the names are others.
ORDER = "; say what stands in all heads: --heads choice:party, party:choice or choice"
DOUBT = 'gather_choices.py'


def ends(name, texts, column, why, order, choices, ways):
    """A contest whose heads have these texts behind `Vote For 1:`."""
    def write(folder):
        table('clearballot', [('Board', 1, ['A', 'B', 'C'])], [(4, {0}), (2, {1}), (6, {2}), (3, set())])(folder)
        path = os.path.join(folder, 'clearballot.csv')
        with open(path, encoding='utf-8', newline='') as file:
            data = file.read()
        for sign, text in zip('ABC', texts):
            data = data.replace(':%s:Non-Partisan' % sign, ':' + text)
        make.put(folder, 'clearballot.csv', data)
    log = "clearballot.csv: line 1: column %d: which part of `%s` is the choice, and which the party, can't be told, since %s%s" % (
        column, texts[column - 11], why, ORDER)
    votes = dict(zip(choices, (4, 2, 6)), ballots=15, undervotes=3)
    return Misread(name, 'clearballot', write, log, ['--heads', order], {'Board': votes}, ways)


def parted():
    yield ends('a colon with a space', ['Plan: keep', 'Plan: stop', 'Dee:Non-Partisan'], 11, 'a space stands beside the colon', 'choice',
               ['Plan: keep', 'Plan: stop', 'Dee:Non-Partisan'], [('takes_a_space', DOUBT, 'if choice != choice.rstrip() or', 'if False and')])
    yield ends('a colon in a choice', ['Ann:HER', 'Plan:B:stop', 'Dee:Non-Partisan'], 12, 'it has 2 colons', 'choice:party', ['Ann', 'Plan:B', 'Dee'],
               [('takes_several_colons', DOUBT, "if ':' in choice and", 'if False and')])
    yield ends('a party before the choice', ['Ann:HER', 'Dee:Non-Partisan', 'Non-Partisan:Cy'], 13, 'a choice is never `Non-Partisan`', 'party:choice',
               ['HER', 'Non-Partisan', 'Cy'], [('takes_no_party_for_a_choice', DOUBT, 'if is_no_party(choice):', 'if False:')])
    yield ends('a choice for a party', ['Bonds:Yes', 'Bonds:No', 'Dee:Non-Partisan'], 11, 'a party is never `Yes`', 'choice',
               ['Bonds:Yes', 'Bonds:No', 'Dee:Non-Partisan'], [('takes_yes_for_a_party', DOUBT, 'if is_of_a_measure(party) or', 'if False and')])
    yield ends('a party of a measure', ['Dee:Non-Partisan', 'Yes:keep', 'No:stop'], 12, '`Yes` has no party', 'choice',
               ['Dee:Non-Partisan', 'Yes:keep', 'No:stop'], [('takes_a_party_of_a_measure', DOUBT, 'if is_of_a_measure(choice) and', 'if False and')])
    yield ends('parties before choices', ['HER:Ann', 'HER:Bob', 'LAR:Cy'], 11, 'no party stands behind several choices, or a choice has several', 'party:choice',
               ['Ann', 'Bob', 'Cy'], [('takes_any_order', DOUBT, 'is_shared and not is_parted', 'True')])
    yield ends('parties of one choice each', ['Ann:HER', 'Bob:LAR', 'Cy:OWL'], 11, 'no party stands behind several choices, or a choice has several', 'choice:party',
               ['Ann', 'Bob', 'Cy'], [('takes_single_parties', DOUBT, 'is_shared and not is_parted', 'not is_parted')])
    yield ends('no party', ['Ann', 'Bob', 'Cy'], 11, 'it has no colon', 'choice', ['Ann', 'Bob', 'Cy'], [])


# ---- a choice that has the name of a word for no vote: 11 ballots with Ann 4, Blank 2, and 5 undervotes

def listed():
    board, held = [('Board', 1, ['Ann', 'Blank', 'Cy'])], [(4, {0}), (2, {1}), (5, set())]
    said = faults.NO_CHOICE % ('Blank', 'Board', 'Blank=choice')
    for kind, write, place in (*((it, table(it, board, held), place) for it, place in (
            ('dominion', 'dominion.csv: line 4'), ('clearballot', 'clearballot.csv: line 1'), ('dominion-json', 'CandidateManifest.json'))),
            ('hart', sheets([(4, 0, 0, ['Ann']), (2, 0, 0, ['Blank']), (5, 0, 1, [])]), 'hart/4.xml')):
        yield Misread('a choice named Blank', kind, write, '%s: %s' % (place, said), ['--means', 'Blank=choice'],
                      {'Board': {'ballots': 11, 'overvotes': 0, 'undervotes': 5, 'Ann': 4, 'Blank': 2}}, [],
                      'by --means the text Blank says: choice; choices with it: %d' % (kind != 'hart' or 1))


def all_misread():
    yield from listed()
    yield from melted('dominion', 4, 9)
    yield from melted('clearballot', 1, 11)
    yield from overvoted()
    yield from unequal()
    yield from too_many()
    yield from parted()


def written(case, folder):
    """Writes the export of a case; answers its path."""
    case.write(folder)
    path = os.path.join(folder, case.kind)
    return path if os.path.isdir(path) else path + '.csv'
