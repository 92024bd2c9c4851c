"""The columns of ES&S's CSV: which are contests, and what stands in them (docs/GATHER.md)."""
import shlex
from collections import Counter

from .gather_columns import MANY, Contests, Head, runs
from .gather_frame import Contest, position
from .gather_source import fault
from .gather_words import (OVERVOTE, UNDERVOTE, bare, is_answer, is_joined, is_of_doubt, is_of_origin,
                           is_ranked, numberless, way_of, why_no_choice)
from .terminal import in_a_line

NUMBER, UNIT, STYLE = NEEDED = ['Cast Vote Record', 'Precinct', 'Ballot Style']
OUT_OR_IN = 'go on with --left-out %s or, where it is a contest, with --contests %s'
OF_DOUBT = 'the column %s may say whether a ballot counts; '
RANKED = 'the column %s has a rank in its head, and ranked contests are not read in this form; '
ALIKE = ('the contest %s has %s in %d cells, and %s in %d: one choice, or two; where they are '
         'two, go on with --contests %s')
NO_WORD = ('the column %s (%s) has %d cells with %d different texts, and none of them is '
           'undervote, overvote or a write-in, so nothing says that it is a contest; ')
WORDS_ALONE = 'the column %s (%s) has %d cells and no choice in any of them; '
TWO_WORDS = ('%s stands here for no vote, in %d cells, and %s elsewhere, in %d; whether both say '
             'that is not known; where they do, go on with --means %s')
TOGETHER = ('the contest %s has the choice %s in %d cells, and its parts are choices, too, so it '
            'may be several in one cell; where it is one, go on with --contests %s')
NUMBERED = ('%s and %s have %d choices in common, such as %s and %s, so they may be the columns '
            'of one contest, for each vote or rank; where they are two contests, go on with '
            '--contests %s --contests %s')
APART = 'no choice stands in two columns of the contest %s (%s), which %d ballots have; '


def names_of(heads):
    """What --left-out and --contests say of the columns of a contest."""
    name = heads[0].name
    return shlex.quote(name), shlex.quote('%s=%s' % (name, runs(it.column for it in heads)))


class Cells:
    """What stands in the columns of a contest: the number of rows by their cells, for each the text of
    the contest in a snapshot, and its first place."""

    def __init__(self):
        self.rows, self.texts, self.places = Counter(), {}, {}


class Columns(Contests):
    """The columns of an export: those of contests, one for each vote, and those that are left out, with
    the number of rows by the texts in them."""

    def __init__(self, words):
        super().__init__(words)
        self.names, self.cells, self.left, self.first = words.left_out or [], {}, {}, None

    # ---- heads

    def read(self, table, frame, cells):
        """The indices of the columns of each contest, and the heads that are left out."""
        heads = [Head(column, it, it, None, None, None) for column, it in enumerate(cells, 1)
                 if it not in NEEDED]
        for name in self.names:
            if name not in [it.name for it in heads]:
                raise table.fault('--left-out: there is no column %s that may be left out' % name)
        left = [it for it in heads if self.is_left_out(table, it)]
        contests = self.take(table, frame, [it for it in heads if it not in left])
        allowed = {key: len(places) for key, places in contests.items()}
        self.first = allowed if self.first is None else self.first
        if allowed != self.first:
            raise table.fault('its contests are not those of the files before it')
        return contests, left

    def is_left_out(self, table, head):
        """Whether a column is no contest's; stops where nothing says so."""
        if head.name in self.names or head.name in self.cuts:
            return head.name in self.names
        if not head.name:
            raise table.fault("column %d has no head; go on with --left-out ''" % head.column)
        if is_of_doubt(head.name):
            raise table.fault(OF_DOUBT % head.name + OUT_OR_IN % names_of([head]))
        if is_ranked(head.name):
            raise table.fault(RANKED % head.name + OUT_OR_IN % names_of([head]))
        return is_of_origin(head.name)

    def contest(self, table, frame, key, heads):
        """Adds a contest; answers the indices of its columns."""
        for place, it in enumerate(heads):
            if it.column != heads[0].column + place:
                raise table.fault('the contest %s stands in two places; %s'
                                  % (key, self.ways(heads, place)))
        frame.contests.setdefault(key, Contest(key, key, len(heads)))
        self.cells.setdefault(key, Cells())
        return [it.column - 1 for it in heads]

    # ---- cells

    def leave_out(self, table, head, cell):
        """Counts a cell of a column that is left out; stops where it is a contest's."""
        if head.name not in self.names and cell.lower() in (UNDERVOTE, OVERVOTE):
            raise table.fault('the column %s says where a ballot comes from, but %s stands here; %s'
                              % (head.name, cell, OUT_OR_IN % names_of([head])))
        self.left.setdefault(head.name, Counter())[cell] += cell != ''

    def text(self, table, contest, cells):
        """The text of a contest in a snapshot; None where its cells are empty, as it isn't on the
        ballot."""
        held = self.cells[contest.key]
        if cells not in held.texts:
            held.texts[cells] = self.made(table, contest, cells)
            held.places[cells] = table.source.name, 'line %d' % table.line
        held.rows[cells] += 1
        return held.texts[cells]

    def made(self, table, contest, cells):
        words = [self.meanings.plain(it) for it in cells]
        if set(words) == {''}:
            return None
        if '' in words:
            raise table.fault('some cells of %s are empty and others are not' % contest.key)
        chosen = [it for it in words if it not in (UNDERVOTE, OVERVOTE)]
        if chosen and OVERVOTE in words:
            raise table.fault('%s stands beside a choice in %s' % (OVERVOTE, contest.key))
        for choice in chosen:
            self.see_choice(table, contest, choice)
            contest.add(choice, choice)
        marks = Counter(chosen)
        if any(number > 1 and not contest.selections[it] for it, number in marks.items()):
            heads = self.heads[contest.key]
            raise table.fault('a choice stands twice in %s; %s'
                              % (contest.key, self.ways(heads, len(heads) // 2)))
        numbers = {'Overvotes': words.count(OVERVOTE), 'Undervotes': words.count(UNDERVOTE)}
        numbers.update({'Status': ['overvoted']} if OVERVOTE in words else {})
        return contest.written([(it, [position()] * number) for it, number in marks.items()], numbers)

    def see_choice(self, table, contest, cell):
        """Stops at a cell that isn't the name of a choice, or may not be."""
        self.meanings.see_cell(table.fault, cell, contest.key)
        found = why_no_choice(cell)
        if found and not self.is_named(contest) and not self.meanings.of(cell):
            raise table.fault('%s in the column %s is no choice, but %s; %s'
                              % (cell, contest.key, found, OUT_OR_IN % names_of(self.heads[contest.key])))

    # ---- all rows

    def is_named(self, contest):
        """Whether --contests names the columns of a contest."""
        return self.heads[contest.key][0].name in self.cuts

    def see_contest(self, contest):
        """Stops where columns may be no contest, or several."""
        held, heads = self.cells[contest.key], self.heads[contest.key]
        rows = {cells: number for cells, number in held.rows.items() if held.texts[cells]}
        if not rows or self.is_named(contest):
            return
        words = {self.meanings.plain(it) for cells in rows for it in cells}
        told = contest.key, runs(it.column for it in heads), len(heads) * sum(rows.values())
        if not contest.selections:
            raise self.fault(WORDS_ALONE % told + OUT_OR_IN % names_of(heads))
        if not words & {UNDERVOTE, OVERVOTE} and not any(contest.selections.values()):
            raise self.fault(NO_WORD % (*told, len(words)) + OUT_OR_IN % names_of(heads))
        self.see_apart(contest, rows)
        self.see_choices(contest, rows)

    def see_choices(self, contest, rows):
        """Stops where a choice may be several, or two may be one."""
        numbers, known = Counter(), {}
        for cells, number in rows.items():
            numbers.update({it: number * cells.count(it) for it in {*cells}})
        way = names_of(self.heads[contest.key])[1]
        names = {bare(it) for it in contest.selections}
        lengths = sorted({len(it) for it in names if it})
        for choice, is_written in sorted(contest.selections.items()):
            first = choice if is_written else known.setdefault(bare(choice), choice)
            if first != choice:
                raise self.fault(ALIKE % (contest.key, first, numbers[first], choice, numbers[choice], way))
            if is_joined(bare(choice), names, lengths):
                raise self.fault(TOGETHER % (contest.key, choice, numbers[choice], way))

    def see_apart(self, contest, rows):
        """Stops where the columns of a contest have no choice in common, as several contests would."""
        names = [{*column} & {it for it, is_written in contest.selections.items() if not is_written}
                 for column in zip(*rows)]
        number, heads = sum(rows.values()), self.heads[contest.key]
        if number >= MANY and len(names) > 1 and all(names) \
                and sum(map(len, names)) == len(set().union(*names)):
            columns = runs(it.column for it in heads)
            raise self.fault(APART % (contest.key, columns, number)
                             + self.ways(heads, len(heads) // 2, contest.key))

    def see_numbered(self, frame):
        """Stops where two contests that differ by a number alone have two choices in common, as columns
        for each vote or rank would. Answers to questions are in many."""
        known = {}
        for contest in frame.contests.values():
            choices = {it for it, is_written in contest.selections.items()
                       if not is_written and not is_answer(it)}
            for other, its in known.setdefault(numberless(contest.key), []):
                both = sorted(choices & its)
                if len(both) > 1 and not (self.is_named(contest) and self.is_named(other)):
                    ways = (names_of(self.heads[it.key])[1] for it in (other, contest))
                    raise self.fault(NUMBERED % (other.key, contest.key, len(both), *both[:2], *ways))
            known[numberless(contest.key)].append((contest, choices))

    def fault(self, text):
        return fault(self.place[0], text, self.place[1])

    def each_cell(self):
        """Each text in a column of a contest, with a number of rows, and a place."""
        for held in self.cells.values():
            for cells, number in held.rows.items():
                yield from ((it, number, held.places[cells]) for it in cells)

    def see_words(self, out):
        """Notes what else than the word of the form says that there is no vote, and stops where an export
        has two words for that."""
        found, places, meanings = Counter(), {}, self.meanings
        for text, number, place in self.each_cell():
            if meanings.of(text):
                meanings.used[in_a_line(text)] += number
            elif meanings.plain(text) == UNDERVOTE:
                found[text.lower()] += number
                places.setdefault(text.lower(), (*place, text))
        if len(found) > 1:
            one, other = sorted(found, key=lambda it: it == UNDERVOTE)[:2]
            name, line, text = places[one]
            raise fault(name, TWO_WORDS % (one, found[one], other, found[other], way_of(text, UNDERVOTE)), line)
        for word, number in found.items():
            if word != UNDERVOTE:
                out.note('%s: the word %s is read as %s; cells with it: %d'
                         % (places[word][0], word, UNDERVOTE, number))

    def see(self, frame, out):
        """Stops where what was read may be something else, and notes what was left out."""
        for contest in frame.contests.values():
            self.see_contest(contest)
        self.see_numbered(frame)
        self.see_words(out)
        for name, texts in self.left.items():
            out.note('%s: the column %s is left out; cells with a text: %d, different texts: %d'
                     % (self.place[0], name or 'without a head', sum(texts.values()), len(+texts)))
