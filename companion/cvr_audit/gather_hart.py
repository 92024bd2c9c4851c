"""The export of Hart: a file of XML for each record, mostly in a ZIP."""
import collections
import re

from . import gather_xml
from .gather_frame import Contest, Frame, position, snapshot
from .gather_said import FORMS
from .gather_source import fault
from .gather_votes import Votes

SPACE = '{%s}' % FORMS['hart'][1][0]
ROOT = SPACE + 'Cvr'
# how an attribute of XML itself begins, which says how a file is read
SCHEMA = '{http://www.w3.org/2001/XMLSchema-instance}'
DEVICE = 'hart'             # the form names no device
WRITTEN = 'write-in'        # the id of a choice that is for a written name and has none of its own
# the elements in each, and whether it has to be there
INSIDE = {
    'Cvr': {'Contests': True, 'CvrGuid': True, 'BatchNumber': True, 'BatchSequence': False,
            'SheetNumber': False, 'PrecinctSplit': False, 'Party': False},
    'PrecinctSplit': {'Name': True, 'Id': True},
    'Contests': {'Contest': False},
    'Contest': {'Name': True, 'Id': True, 'Options': False, 'Undervotes': False,
                'Overvotes': False},
    'Options': {'Option': False},
    'Option': {'Name': False, 'Id': False, 'Value': True, 'WriteInData': False},
}
MANY = 'Contest', 'Option'
NUMBER = re.compile('[0-9]{1,18}')


def is_export(source):
    """Whether a source has to be a record. A Mac puts `._` before the names of its own files."""
    return source.is_named_as('hart')


def fits(source):
    return source.is_of('hart')


def stays(source):
    return False


class Reader:
    """A source as a record."""

    def __init__(self, source, frame, votes, meanings):
        self.source, self.frame, self.votes, self.meanings = source, frame, votes, meanings

    def fault(self, text):
        return fault(self.source.name, text)

    def parts(self, element, name):
        """The elements in an element, by name: one each, but lists of those of MANY."""
        self.see_bare(element, name)
        held = {it: [] for it in INSIDE[name] if it in MANY}
        for part in element:
            inner = part.tag[len(SPACE):]
            if not part.tag.startswith(SPACE) or inner not in INSIDE[name]:
                raise self.fault('the element %s in %s is not of this form as it is known'
                                 % (part.tag, name))
            if inner in MANY:
                held[inner].append(part)
            elif inner in held:
                raise self.fault('the element %s stands twice in a %s' % (inner, name))
            else:
                held[inner] = part
        lacking = [it for it, is_needed in INSIDE[name].items() if is_needed and it not in held]
        if lacking:
            raise self.fault('there is no %s in a %s' % (lacking[0], name))
        return held

    def see_bare(self, element, name):
        """Stops at an attribute of an element or of those in it, and at a text between these."""
        for attribute in (it for part in (element, *element) for it in part.attrib):
            if not attribute.startswith(SCHEMA):
                raise self.fault('the attribute %s in %s is not of this form as it is known'
                                 % (attribute, name))
        for text in (element.text, *(part.tail for part in element)):
            if text and text.strip():
                raise self.fault('there is a text between the elements of %s: %s'
                                 % (name, text.strip()))

    def text(self, held, name):
        """The text of an element that has only that; None where it isn't there."""
        if name not in held:
            return None
        if len(held[name]):
            raise self.fault('the element %s has elements of its own' % name)
        return (held[name].text or '').strip()

    def number(self, held, name):
        text = self.text(held, name)
        if text is None:
            return None
        if not NUMBER.fullmatch(text):
            raise self.fault('%s is no number, but %s' % (name, text))
        return int(text)

    def option(self, contest, element):
        """The id of a choice that is marked, or None."""
        held = self.parts(element, 'Option')
        value, is_written = self.text(held, 'Value'), 'WriteInData' in held
        if value not in ('0', '1'):
            raise self.fault('the Value of an Option is neither 1 nor 0, but %s' % value)
        name = self.text(held, 'Name') or (WRITTEN if is_written else '')
        key = self.text(held, 'Id') or (WRITTEN if is_written else '')
        if not key or not name:
            raise self.fault('an Option of %s has no Name or no Id' % contest.key)
        if key not in contest.selections:
            self.meanings.see_listed(self.fault, name, contest.shown['Name'])
        contest.add(key, name, is_written)
        if contest.names[key] != name:
            raise self.fault('the Option %s is named %s, and %s elsewhere'
                             % (key, name, contest.names[key]))
        if is_written and not contest.selections[key]:
            raise self.fault('the Option %s of %s has WriteInData, and none in a file before'
                             % (key, contest.key))
        return key if value == '1' else None

    def contest(self, element):
        """The text of a contest in a snapshot."""
        held = self.parts(element, 'Contest')
        key, name = self.text(held, 'Id'), self.text(held, 'Name')
        if key not in self.frame.contests:
            self.frame.contests[key] = Contest(key, name, self.votes.of(key, name))
        contest = self.frame.contests[key]
        if contest.shown['Name'] != name:
            raise self.fault('the Contest %s is named %s, and %s elsewhere'
                             % (key, name, contest.shown['Name']))
        options = self.parts(held['Options'], 'Options')['Option'] if 'Options' in held else []
        chosen = [it for it in (self.option(contest, one) for one in options) if it is not None]
        marks = collections.Counter(chosen)
        for it, number in marks.items():
            if number > 1 and not contest.selections[it]:
                raise self.fault('an Option of %s is marked twice' % key)
        numbers = {it: self.number(held, it) for it in ('Undervotes', 'Overvotes') if it in held}
        self.votes.take(self.source, contest, len(chosen), numbers)
        is_over = bool(numbers.get('Overvotes')) \
            or contest.allowed is not None and len(chosen) > contest.allowed
        if is_over:
            numbers.update(Overvotes=numbers.get('Overvotes') or contest.allowed, Status=['overvoted'])
        positions = [(it, [position(not is_over)] * number) for it, number in marks.items()]
        return contest.written(positions, numbers)

    def unit(self, held):
        """The id of the unit; None where there is none."""
        if 'PrecinctSplit' not in held:
            return None
        split = self.parts(held['PrecinctSplit'], 'PrecinctSplit')
        key, name = self.text(split, 'Id'), self.text(split, 'Name')
        if key and self.frame.units.get(key, name or key) != (name or key):
            raise self.fault('the PrecinctSplit %s is named %s, and %s elsewhere'
                             % (key, name, self.frame.units[key]))
        return self.frame.unit(key, name)

    def record(self):
        root = gather_xml.tree(self.source)
        if root.tag != ROOT:
            raise self.fault('its root is %s, and not Cvr' % root.tag)
        held = self.parts(root, 'Cvr')
        contests = self.parts(held['Contests'], 'Contests')['Contest']
        texts = [self.contest(it) for it in contests]
        header = {'BatchId': self.text(held, 'BatchNumber'), 'BallotStyleUnitId': self.unit(held),
                  'BallotSheetId': self.text(held, 'SheetNumber'),
                  'BatchSequenceId': self.number(held, 'BatchSequence')}
        name = DEVICE, self.text(held, 'CvrGuid')
        return self.frame.record(self.source, '', name, header,
                                 [('a', snapshot('a', 'interpreted', texts))])


def in_order(frame):
    """Puts contests and selections in order of their ids; the form has no list of them."""
    frame.contests = {key: frame.contests[key] for key in sorted(frame.contests)}
    for contest in frame.contests.values():
        contest.selections = {key: contest.selections[key] for key in sorted(contest.selections)}


def read(sources, out, cvr, words):
    """Adds the records; answers the definition."""
    frame, votes = Frame('hart'), Votes(words.votes)
    for source in filter(is_export, sources):
        out.add(Reader(source, frame, votes, words.meanings).record())
    votes.see(frame.contests)
    in_order(frame)
    return frame.report()


def count(sources):
    """The number of records and of names, counted in another way: one for each file."""
    held = list(filter(is_export, sources))
    return len(held), len(held)
