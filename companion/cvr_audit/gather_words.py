"""What heads and cells of ES&S's CSV say, and the names of choices in other forms (docs/GATHER.md). All are
compared by their letters and digits alone, without regard to case."""
import re
import shlex
from collections import Counter

from .program import WORDS, ended
from .terminal import in_a_line

UNDERVOTE, OVERVOTE = 'undervote', 'overvote'


def bare(text):
    return ''.join(filter(str.isalnum, text.lower()))


def each(text):
    """The names of a list with commas, bare."""
    return {bare(it) for it in text.split(',')}


# heads of columns that say where a ballot comes from
NAMED = each('Batch, Box, Scanner, Tabulator, Machine, Device, Ballot Image, Image, Sheet, Session')
ORIGINS = {one + more for one in NAMED for more in ('', 'id', 'name', 'number')} | each(
    'Counter Group, Counting Group, Reporting Group, Tabulator Group, Ballot Type, Vote Type, '
    'Voting Method, Language, Ballot Language, Tabulator CVR, CVR ID, CVR Number, Audit ID, Audit '
    'Number, Imprinted ID, Serial Number, Ballot ID, Ballot Number, Row, Row Number, Poll Place, '
    'Polling Place, Location, Vote Center, County, Election, Election ID, Batch Sequence, Image '
    'File, Image Path, Date, Time, Timestamp, Scan Date, Scan Time, Precinct ID, Precinct Name, '
    'Precinct Number, Precinct Split, Ballot Style ID')
# heads of columns that may say whether a ballot counts, or be a contest
DOUBTS = each('Write-in Type, Results Report, Remade, Duplicated, Party')
OF_DOUBT = re.compile('.*(exceptions?|status|flags?|reason)')
# cells without a vote
NOTHING = each(
    'Blank, Blank vote, Left blank, No selection, No selections, No selection made, Not selected, '
    'None selected, Nothing selected, No vote, No votes, Not voted, Did not vote, Unvoted, No '
    'choice, No choice made, No mark, No marks, Not marked, Unmarked, Skip, Skipped')
# cells of which it isn't known what they say
UNSURE = each(
    'None, Null, Nil, NaN, N/A, Not applicable, Not on ballot, Not eligible, No contest, Undefined, '
    'Unknown, Empty, Missing, Error, Spoiled, Void, Voided, Invalid, Rejected, Unreadable, '
    'Ambiguous, Multiple, Multiple votes, Too many, Too many votes, Double vote, Crossover, '
    'Pending, Under, Over, UV, OV, Total, Totals, Sum, True, False, X')
RANKED = re.compile(r'(?i).*(\b(choice|rank|ranking|preference)\W*\d|\b(\d+(st|nd|rd|th)|first|second|third)\W+'
                    r'(choice|rank|preference)\b)')
PATH = re.compile(r'.*\\.*|.*\.(jpe?g|png|tiff?|bmp|gif|pdf)', re.I | re.S)
SEVERAL = re.compile(r'[;|\n\r]')
# the answer to a question
ANSWER = re.compile(r'(yes|no|for|against|approved?|reject(ed)?|retain|do not|s[ií])(?![^\W\d_])', re.I)
NUMBER = re.compile(r'\d+')


def is_of_origin(head):
    return bare(head) in ORIGINS


def is_of_doubt(head):
    return bare(head) in DOUBTS or OF_DOUBT.fullmatch(bare(head)) is not None


def is_ranked(head):
    return RANKED.match(head) is not None


def plain(cell):
    """A cell, where it has no vote or too many as the form's word for that."""
    small = cell.lower()
    return small if small in (UNDERVOTE, OVERVOTE) else UNDERVOTE if bare(cell) in NOTHING else cell


def why_no_word(cell):
    """What a cell is, where it says something, but it isn't known what; None for others."""
    if bare(cell) in UNSURE or bare(cell).startswith((UNDERVOTE, OVERVOTE)):
        return 'nearly a word of this form, or one whose meaning is not known'
    return None


ABSENT, CHOICE = 'absent', 'choice'
MEANINGS = UNDERVOTE, OVERVOTE, ABSENT, CHOICE
BAD = ('--means: %s has to be a text, neither undervote nor overvote, and what it says (' + ', '.join(MEANINGS)
       + '), such as N/A=absent')
UNUSED = '--means: no %s of the export is %s'
NO_CHOICE = ('the choice %s of %s may say that there is no vote, or too many, or something else that is not known; '
             'have it exported without that choice or, where it is one, go on with --means %s')
NO_WORD = '%s in the column %s is no choice, but %s; say what it means, as in --means %s'


def meanings_in(texts):
    """What --means says: by text its meaning."""
    held = {}
    for it in texts or ():
        text, _, meaning = it.rpartition('=')
        if not text.strip() or text in held or text.lower() in (UNDERVOTE, OVERVOTE) or meaning not in MEANINGS:
            raise ended(WORDS, BAD % it)
        held[text] = meaning
    return held


class Meanings:
    """What texts say: as --means has it for a text as a refusal shows it, and else as the lists do. `used`
    has the number of cells or choices with each text of --means."""

    def __init__(self, texts):
        self.given, self.used = meanings_in(texts), Counter()

    def of(self, text):
        """What --means says of a text, or None."""
        return self.given.get(in_a_line(text))

    def plain(self, cell):
        """A cell, where it has no vote or too many as the form's word for that, and empty where its
        contest isn't on the ballot."""
        meaning = self.of(cell)
        return plain(cell) if meaning is None else {ABSENT: '', CHOICE: cell}.get(meaning, meaning)

    def see_listed(self, fault, name, contest):
        """Stops where a form lists as a choice what says that there is no vote, or what isn't known;
        `fault` makes the end of a text."""
        if self.of(name) == CHOICE:
            self.used[in_a_line(name)] += 1
        elif plain(name) in (UNDERVOTE, OVERVOTE) or why_no_word(name):
            raise fault(NO_CHOICE % (name, contest, way_of(name, CHOICE)))

    def see_cell(self, fault, cell, column):
        """Stops at a cell of which it isn't known what it says."""
        why = why_no_word(cell)
        if why and not self.of(cell):
            raise fault(NO_WORD % (cell, column, why, way_of(cell, ABSENT)))

    def see(self, out, what):
        """Stops at a text of --means that the export doesn't have, and notes how often it has each."""
        for text, meaning in self.given.items():
            if not self.used[text]:
                raise ended(WORDS, UNUSED % (what, text))
            out.note('by --means the text %s says: %s; %ss with it: %d' % (text, meaning, what, self.used[text]))


def way_of(text, meaning):
    """What --means may be given for a text."""
    return shlex.quote('%s=%s' % (in_a_line(text), meaning))


def why_no_choice(cell):
    """What a cell is, where it is no name of a choice as long as nobody says so; None for others."""
    if not any(map(str.isalpha, cell)):
        return 'a number, or signs'
    if SEVERAL.search(cell):
        return 'several texts in one cell'
    return 'the path of a file' if PATH.fullmatch(cell) else None


def is_joined(text, names, lengths):
    """Whether a bare text is put together of two names or more, as `Ann / Bob` is, or `Ann and Bob`. The
    lengths are those of the names."""
    ends = {0: 0}           # how many names lead to each place
    for place in range(len(text)):
        for length in lengths if place in ends else ():
            if text[place:place + length] in names and length < len(text):
                ends[place + length] = 2 if place else 1
        if ends.get(place) and text.startswith('and', place):
            ends.setdefault(place + 3, ends[place])
    return ends.get(len(text)) == 2


def is_answer(choice):
    """Whether a choice is the answer to a question, as several contests have."""
    return ANSWER.match(choice) is not None


def numberless(head):
    return NUMBER.sub('#', head)
