"""misread_ess.py: tables of ES&S, and choices for written names in all forms, that a converter could read wrongly without a
word, as the cases of misread.py. A case of `twice` has two exports, and a name of a device for each."""
import os
import shlex
from collections import namedtuple

import make
from misread import Misread

HEADS = ['Cast Vote Record', 'Precinct', 'Ballot Style']
# `given` are the names with which the two exports are refused, if not without one
Twice = namedtuple('Twice', 'name kind write log given votes ways')
OUT_OR_IN = "go on with --left-out %s or, where it is a contest, with --contests %s"


def ways_on(name, column):
    """The end of a line on a column."""
    quoted = "'%s'" % name if ' ' in name else name
    return OUT_OR_IN % (quoted, "'%s=%s'" % (name, column) if ' ' in name else '%s=%s' % (name, column))


def rows(heads, held, first=1, base='ess.csv'):
    """Writes a table of ES&S with these heads behind the fixed ones, and rows of (number of ballots, cells)."""
    def write(folder):
        cells = [line for number, line in held for _ in range(number)]
        lines = [[k, 'Old Mill', 'Style 1', *line] for k, line in enumerate(cells, first)]
        make.put(folder, base, make.csv_text([HEADS + heads, *lines]))
    return write


# ---- columns: 17 ballots with Ann 5, Bob 9, and 3 undervotes, and a column that is no contest
COUNCIL = {'ballots': 17, 'overvotes': 0, 'undervotes': 3, 'write-ins': 0, 'Ann': 5, 'Bob': 9}
COUNCIL_ROWS = [(5, ['Ann']), (9, ['Bob']), (3, ['undervote'])]
ALL = 'gather_ess_columns.py'


def beside(head, texts):
    """A column before the council's: its texts one after the other."""
    lines = [line for number, line in COUNCIL_ROWS for _ in range(number)]
    return rows([head, 'Council'], [(1, [texts[k % len(texts)], *line]) for k, line in enumerate(lines)])


def left_out(head, number):
    return 'the column %s is left out; cells with a text: 17, different texts: %d' % (head, number)


def columns():
    for head, texts in ('Counter Group', ['In person', 'Mail']), ('Ballot Type', ['Regular', 'Write-in']), ('language', ['English', 'Spanish']), ('Session', ['Morning', 'Noon']), \
            ('Scanner', ['DS200 A', 'DS200 B']), ('BATCH_ID', ['1', '2']), ('Ballot Image', ['a/%d.tif' % k for k in range(17)]):
        yield Misread('a column of %s' % head, 'ess', beside(head, texts), None, [], {'Council': COUNCIL},
                      [('takes_origins_for_contests', ALL, 'return is_of_origin(head.name)', 'return False')] * ('Write-in' in texts), left_out(head, len(texts)))
    yield Misread('a contest of such a name', 'ess', beside('Location', ['Hall', 'Park', 'undervote']),
                  'ess.csv: line 4: the column Location says where a ballot comes from, but undervote stands here; ' + ways_on('Location', '4'),
                  ['--contests', 'Location=4'], {'Council': COUNCIL, 'Location': {'ballots': 17, 'undervotes': 5, 'Hall': 6, 'Park': 6}},
                  [('takes_contests_for_origins', ALL, 'if head.name not in self.names and', 'if False and')])
    for head in 'Ballot Status', 'Original Ballot Exception', 'Remade', 'Party':
        yield Misread('a column of ' + head, 'ess', beside(head, ['Fold', 'Write-in']), 'ess.csv: line 1: the column %s may say whether a ballot counts; %s' % (
            head, ways_on(head, '4')), ['--left-out', head], {'Council': COUNCIL}, [('asks_not_whether_a_ballot_counts', ALL, 'if is_of_doubt(head.name):', 'if False:')], left_out(head, 2))
    for name, texts, number in ('of three texts', ['Mail', 'Drop box', 'Counter'], 3), ('of one text', ['Regular'], 1), ('of texts that differ', ['Ward %d' % k for k in range(17)], 17):
        log = ('ess.csv: line 1: the column Way (4) has 17 cells with %d different texts, and none of them is undervote, overvote or a write-in, '
               'so nothing says that it is a contest; ' % number) + ways_on('Way', '4')
        yield Misread('a column ' + name, 'ess', beside('Way', texts), log, ['--left-out', 'Way'], {'Council': COUNCIL},
                      [('takes_any_column_for_a_contest', ALL, 'if not words & {UNDERVOTE, OVERVOTE} and', 'if False and')], left_out('Way', number))
    yield Misread('a contest in which each ballot has a vote', 'ess', beside('Way', ['Yes']), log.replace('with 17', 'with 1'), ['--contests', 'Way=4'],
                  {'Council': COUNCIL, 'Way': {'ballots': 17, 'undervotes': 0, 'Yes': 17}}, [])
    yield Misread('a contest without a choice', 'ess', beside('Way', ['undervote']), 'ess.csv: line 1: the column Way (4) has 17 cells and no choice in any of them; ' + ways_on('Way', '4'),
                  ['--contests', 'Way=4'], {'Way': {'ballots': 17, 'undervotes': 17}}, [('takes_words_alone_for_a_contest', ALL, 'if not contest.selections:', 'if False:')])
    yield Misread('paths', 'ess', beside('Scan', ['a\\%d.tif' % k for k in range(17)]), 'ess.csv: line 2: a\\0.tif in the column Scan is no choice, but the path of a file; ' + ways_on('Scan', '4'),
                  ['--left-out', 'Scan'], {'Council': COUNCIL}, [], left_out('Scan', 17))
    yield Misread('numbers', 'ess', beside('Order', [str(k) for k in range(17)]), 'ess.csv: line 2: 0 in the column Order is no choice, but a number, or signs; ' + ways_on('Order', '4'),
                  ['--left-out', 'Order'], {'Council': COUNCIL}, [], left_out('Order', 17))
    yield Misread('no head', 'ess', beside('', ['']), "ess.csv: line 1: column 4 has no head; go on with --left-out ''", ['--left-out', ''], {'Council': COUNCIL}, [],
                  'the column without a head is left out; cells with a text: 0, different texts: 0')


# ---- cells: 15 ballots with Ann 4, Bob 2 and one text more, 6, and 3 undervotes
def cell(name, text, found, words=(), ways=()):
    place = 'ess.csv: line 8: %s in the column Council is no choice, but %s' % (text.replace('\n', '\\n'), found)
    votes = {'Council': {'ballots': 15, 'overvotes': 0, 'undervotes': 3, 'Ann': 4, 'Bob': 2, text: 6}}
    return Misread(name, 'ess', rows(['Council'], [(4, ['Ann']), (2, ['Bob']), (6, [text]), (3, ['undervote'])]),
                   place + ('; ' + ways_on('Council', '4') if words else ''), list(words), votes, ways)


def cells():
    named = ['--contests', 'Council=4']
    for name, text in ('a line break', 'Dee\nBob'), ('a semicolon', 'Dee; Bob'), ('a bar', 'Dee|Bob'):
        yield cell(name, text, 'several texts in one cell', named, ways=[('takes_several_choices_for_one', 'gather_words.py', 'if SEVERAL.search(cell):', 'if False:')])
    yield cell('a number', '7', 'a number, or signs', named, ways=[('takes_numbers_for_choices', 'gather_words.py', 'if not any(map(str.isalpha, cell)):', 'if False:')])
    yield cell('a path', 'b.PNG', 'the path of a file', named, ways=[('takes_paths_for_choices', 'gather_words.py', "return 'the path of a file' if PATH.fullmatch(cell) else None", 'return None')])
    for text in 'Ann, Bob', 'Ann/Bob', 'Bob & Ann', 'Ann and Bob', 'Ann  Bob', 'Bob-Ann':
        log = ('ess.csv: line 1: the contest Council has the choice %s in 6 cells, and its parts are choices, too, so it may be several in one cell; '
               'where it is one, go on with --contests Council=4' % text)
        yield cell('two choices: ' + text, text, '', named)._replace(log=log, ways=[('takes_pairs_for_one_choice', ALL, 'if is_joined(bare(choice), names, lengths):', 'if False:')])
    log = 'ess.csv: line 1: the contest Council has ANN in 6 cells, and Ann in 4: one choice, or two; where they are two, go on with --contests Council=4'
    yield cell('one choice in two ways', 'ANN', '', named)._replace(log=log, ways=[('takes_one_choice_for_two', ALL, 'if first != choice:', 'if False:')])
    # one word for no vote beside 5 votes: 8 undervotes
    for text in 'No Selection', 'Blank', 'skipped', '(blank)', 'NOT VOTED':
        yield Misread('no vote: ' + text, 'ess', rows(['Council'], [(3, ['Ann']), (2, ['Write-in']), (8, [text])]), None, [],
                      {'Council': {'ballots': 13, 'overvotes': 0, 'undervotes': 8, 'write-ins': 2, 'Ann': 3, 'write-in': 2}},
                      [('knows_undervotes_alone', 'gather_words.py', 'UNDERVOTE if bare(cell) in NOTHING else cell', 'cell')],
                      'the word %s is read as undervote; cells with it: 8' % text.lower())
    yield Misread('two words for no vote', 'ess', rows(['Council'], [(3, ['Ann']), (5, ['Blank']), (8, ['undervote'])]),
                  'ess.csv: line 5: blank stands here for no vote, in 5 cells, and undervote elsewhere, in 8; whether both say that is not known; where they do, go on with --means Blank=undervote',
                  ['--means', 'Blank=undervote'], {'Council': {'ballots': 16, 'overvotes': 0, 'undervotes': 13, 'Ann': 3}},
                  [('takes_two_words_for_no_vote', ALL, 'if len(found) > 1:', 'if False:')], 'by --means the text Blank says: undervote; cells with it: 5')
    for text, meaning, votes in ('None', 'undervote', (16, 0, 13)), ('N/A', 'absent', (11, 0, 8)), ('not on ballot', 'absent', (11, 0, 8)), ('Over', 'overvote', (16, 5, 8)), \
            ('under vote', 'undervote', (16, 0, 13)), ('Overvoted', 'overvote', (16, 5, 8)), ('Under\u200bvote', 'undervote', (16, 0, 13)), ('X', 'choice', (16, 0, 8)):
        shown = text.replace('\u200b', '\\u200b')
        way, its = '%s=%s' % (shown, meaning), dict(zip(('ballots', 'overvotes', 'undervotes'), votes), Ann=3)
        yield Misread('an unknown word: ' + shown, 'ess', rows(['Council'], [(3, ['Ann']), (5, [text]), (8, ['undervote'])]),
                      'ess.csv: line 5: %s in the column Council is no choice, but nearly a word of this form, or one whose meaning is not known; say what it means, as in --means %s' % (
                          shown, shlex.quote(shown + '=absent')), ['--means', way], {'Council': {**its, text: 5} if meaning == 'choice' else its},
                      [('takes_unknown_words', 'gather_words.py', 'if why and not self.of(cell):', 'if False:')], 'by --means the text %s says: %s; cells with it: 5' % (shown, meaning))


# ---- two contests of one name: 23 ballots with Ann 4 + 3, Bob 6 + 7, Cy 4 + 6, Dee 3 + 7; 2 and 1 mark one of the two
def one_name():
    held = [(4, ['Ann', 'Cy']), (3, ['Ann', 'Dee']), (6, ['Bob', 'Cy']), (7, ['Bob', 'Dee']), (2, ['undervote', 'Cy']), (1, ['Ann', 'undervote'])]
    log = ('ess.csv: line 1: no choice stands in two columns of the contest Council (4-5), which 23 ballots have; where these are several contests of one name, '
           'name the columns of each, as in --contests Council=4,5; where they are one, go on with --contests Council=4-5')
    way = ('lets_contests_melt', ALL, 'if number >= MANY and', 'if False and')
    first = {'ballots': 23, 'undervotes': 2, 'Ann': 8, 'Bob': 13}
    yield Misread('contests that melt', 'ess', rows(['Council', 'Council'], held), log, ['--contests', 'Council=4,5'],
                  {'Council (column 4)': first, 'Council (column 5)': {'ballots': 23, 'undervotes': 1, 'Cy': 12, 'Dee': 10}}, [way])
    yield Misread('a contest for two', 'ess', rows(['Council', 'Council'], held), log, ['--contests', 'Council=4-5'],
                  {'Council': {'ballots': 23, 'undervotes': 3, 'Ann': 8, 'Bob': 13, 'Cy': 12, 'Dee': 10}}, [])
    # Ann 5 + 4, Bob 9 + 8 in columns of one contest with numbers; the same heads for questions go through
    held = [(5, ['Ann', 'Bob']), (4, ['undervote', 'Ann']), (9, ['Bob', 'undervote']), (3, ['undervote', 'Bob'])]
    yield Misread('heads with numbers', 'ess', rows(['Board 1', 'Board 2'], held),
                  "ess.csv: line 1: Board 1 and Board 2 have 2 choices in common, such as Ann and Bob, so they may be the columns of one contest, for each vote or rank; "
                  "where they are two contests, go on with --contests 'Board 1=4' --contests 'Board 2=5'", ['--contests', 'Board 1=4', '--contests', 'Board 2=5'],
                  {'Board 1': {'ballots': 21, 'undervotes': 7, 'Ann': 5, 'Bob': 9}, 'Board 2': {'ballots': 21, 'undervotes': 9, 'Ann': 4, 'Bob': 8}},
                  [('takes_numbered_columns_for_contests', ALL, '        self.see_numbered(frame)\n', '')])
    held = [(number, [{'Ann': 'Yes', 'Bob': 'No'}.get(it, it) for it in cells]) for number, cells in held]
    yield Misread('questions with numbers', 'ess', rows(['Measure 1', 'Measure 2'], held), None, [],
                  {'Measure 1': {'undervotes': 7, 'Yes': 5, 'No': 9}, 'Measure 2': {'undervotes': 9, 'Yes': 4, 'No': 8}}, [])
    ranks = 'Mayor Choice 1 of 2', 'Mayor Choice 2 of 2'
    yield Misread('ranks', 'ess', rows([*ranks, 'Council'], [(5, ['Cy', 'Dee', 'Ann']), (9, ['Dee', 'undervote', 'Bob']), (3, ['undervote', 'undervote', 'undervote'])]),
                  'ess.csv: line 1: the column %s has a rank in its head, and ranked contests are not read in this form; %s' % (ranks[0], ways_on(ranks[0], '4')),
                  ['--left-out', ranks[0], '--left-out', ranks[1]], {'Council': COUNCIL}, [('takes_ranks_for_contests', ALL, 'if is_ranked(head.name):', 'if False:')])
    yield Misread('a contest in two places', 'ess', rows(['Council', 'Parks', 'Council'], [(4, ['Ann', 'Yes', 'Cy']), (3, ['undervote', 'undervote', 'undervote'])]),
                  'ess.csv: line 1: the contest Council stands in two places; where these are several contests of one name, name the columns of each, as in --contests Council=4,6',
                  ['--contests', 'Council=4,6'], {'Council (column 4)': {'ballots': 7, 'Ann': 4}, 'Council (column 6)': {'ballots': 7, 'Cy': 4}}, [])


# ---- written names: 29 ballots of a contest for two. Ann 2 + 3, Write-Inmann 2 + 11, the write-in 3 + 6; 7 mark all three
WRITTEN = {'ballots': 29, 'overvotes': 14, 'undervotes': 17, 'write-ins': 9, 'Ann': 5, 'Write-Inmann': 13, 'write-in': 9}
MARKS = [(2, [0, 1]), (3, [0, 2]), (6, [2]), (7, [0, 1, 2]), (11, [1])]


def written_in(name):
    """Writes the same ballots in a form, with a name of the choice for written names."""
    def of(kind):
        def write(folder):
            marks = [marked for number, marked in MARKS for _ in range(number)]
            contest = make.Contest('Council', 2, [('Ann', ''), ('Write-Inmann', ''), (name, '')])
            ballots = [make.Ballot(1, 1, 6 * k + 2 + (kind != 'ess'), 0, {0: it}) for k, it in enumerate(marks, 1)]      # without a second written name
            make.KINDS[kind](make.Election('Planted', [contest], ['Old Mill'], ballots), folder)
        return write
    return of


def write_ins():
    for kind in ('dominion', 'dominion-json', 'ess', 'hart', 'clearballot'):
        for name in ('Unresolved Write-In', 'Uncertified Write-in', '*Write-in*', 'WRITEINS', 'Write–in 2', 'Ann Smith (W/I)', '(WI)', 'Por escrito'):
            ways = [('knows_write_ins_by_their_beginning', 'gather_writein.py', 'WORD.search(name)', 'WORD.match(name)')] * (name == 'Uncertified Write-in') + \
                [('takes_a_name_for_the_word', 'gather_writein.py', "(?![^\\W\\d_])'", "'"),
                 ('counts_written_names_of_overvotes', 'gather_writein.py', ' if counting.counts(it)', '')][:2 if kind in ('dominion', 'clearballot') else 1] * (name == 'WRITEINS')
            yield Misread('a choice of the name ' + name, kind, written_in(name)(kind), None, [], {'Council': WRITTEN}, ways)


def all_misread():
    for group in columns, cells, one_name, write_ins:
        yield from group()


# ---- two exports that number alike

def twice(kind, noon, evening):
    """Writes two exports of a kind, whose ballots have the same numbers: (number of ballots, marks), one after the other."""
    def write(folder):
        for name, held in ('noon', noon), ('evening', evening):
            marks = [marked for number, marked in held for _ in range(number)]
            ballots = [make.Ballot(1, 1, k, 0, {0: it}) for k, it in enumerate(marks, 1)]
            contest = make.Contest('Council', 1, [('Ann', ''), ('Bob', '')])
            make.KINDS[kind](make.Election('Planted', [contest], ['Old Mill'], ballots), os.path.join(folder, name))
    return write


ALIKE = ('; where these are two ballots, of exports that number alike, give each export as a FROM of its own, and go on with --device NAME for each FROM, in their order')
AGAIN = (': one may have the ballots of the other again; leave out what is given twice or, where they are other ballots, gather each export by itself')


def all_twice():
    """300 ballots with Ann 131 and Bob 90, and 300 with Ann 58 and Bob 200: 79 + 42 undervotes. `evening` is read before `noon`."""
    noon, evening = [(131, [0]), (90, [1]), (79, [])], [(42, []), (58, [0]), (200, [1])]
    votes = {'ballots': 600, 'overvotes': 0, 'undervotes': 121, 'Ann': 189, 'Bob': 290}
    prefix = [('joins_batches_of_devices', 'gather_frame.py', "batch and '%s/%s' % (source.device, batch)", 'batch')]
    for kind, line, name, ways in ('ess', 2, 'record "ess" "104001"', []), ('dominion', 5, 'record "1" "1-1-1"', prefix), ('clearballot', 2, 'BallotID BOX-1-1+00001', prefix):
        log = 'noon/%s.csv: line %d: the %s stands here and in evening/%s.csv: line %d%s' % (kind, line, name, kind, line, ALIKE)
        yield Twice('two exports', kind, twice(kind, noon, evening), log, [], votes, ways)
    # at noon 24 ballots with Ann 11 and Bob 9, in the evening 37: the same and 13 more, or 3 of the 24 are others
    for number, later in (24, [(11, [0]), (9, [1]), (4, []), (13, [1])]), (21, [(11, [0]), (9, [1]), (1, []), (16, [0])]):
        log = 'noon/ess.csv: 24 ballots have the number of one in evening/ess.csv, and %d of these its votes, too' % number + AGAIN
        few = number < 0.9 * 24
        yield Twice('an export that goes on, %d alike' % number, 'ess', twice('ess', [(11, [0]), (9, [1]), (4, [])], later), None if few else log, ['EVENING', 'NOON'],
                    {'ballots': 61, 'Ann': 38, 'Bob': 18, 'undervotes': 5} if few else {}, [] if few else [('counts_an_export_twice', 'gather_frame.py', '        self.ballots.see_others()\n', '')])


# ---- words with which exports of examples/exports are refused: the words, the line and the status
REFUSED = [
    (['ess.csv', '--device', 'a', '--device', 'b'], '--device: there are 2 NAME and 1 FROM; give a NAME for each, in their order', 2),
    (['ess.csv', '--device', 'a/b'], '--device: "a/b" is empty, or has a /, which parts it from the device that the form names', 2),
    (['ess.csv', '--device', ' '], '--device: " " is empty, or has a /, which parts it from the device that the form names', 2),
    (['hart', '--device', 'a'], '--device is of the kinds dominion, dominion-json, ess, clearballot alone, and this export is of the kind hart', 2),
    (['ess.csv', 'again.csv', '--device', 'a', '--device', 'b'], 'ess.csv: 4 ballots have the number of one in again.csv, and 4 of these its votes, too' + AGAIN, 1),
    (['few.csv', 'less.csv', '--contests', 'Council=4', '--device', 'a', '--device', 'b'], 'less.csv: it has the same bytes as few.csv, and another NAME of --device: one export, given twice', 1),
    (['dominion-json', 'again', '--device', 'a', '--device', 'b'], 'dominion-json/ContestManifest.json: it has to be there once, beside CvrExport.json; '
     'gather each export by itself, with --device NAME where they number their ballots alike', 1),
    (['dominion.csv', '--left-out', 'x'], '--left-out is of the kinds ess alone, and this export is of the kind dominion', 2),
    (['ess.csv', '--left-out', 'x'], 'ess.csv: line 1: --left-out: there is no column x that may be left out', 1),
    (['ess.csv', '--left-out', 'Precinct'], 'ess.csv: line 1: --left-out: there is no column Precinct that may be left out', 1),
    (['ess.csv', '--means', 'x=absent'], '--means: no cell of the export is x', 2),
    (['dominion.csv', '--means', 'x=choice'], '--means: no choice of the export is x', 2),
    *((['ess.csv', '--means', it], '--means: %s has to be a text, neither undervote nor overvote, and what it says (undervote, overvote, absent, choice), such as N/A=absent' % it, 2)
      for it in ('x', '=absent', 'x=none', 'Overvote=absent')),
    (['ess.csv', '--contests', 'x=5'], 'ess.csv: line 1: --contests names other columns of x than it has here: none', 1),
    (['ess.csv', '--contests', 'County Council=5'], 'ess.csv: line 1: --contests names other columns of County Council than it has here: 4', 1),
    (['ess.csv', '--contests', 'County Council=4', '--left-out', 'County Council'], 'ess.csv: line 1: --contests names other columns of County Council than it has here: none', 1),
]
