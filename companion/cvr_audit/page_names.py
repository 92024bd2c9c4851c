"""The definition's names for what cast vote records name by id."""
from .page_tree import code, element, name

SHORT = 40          # characters


def text_at(value, member):
    """A text of an object; None where it is absent, empty or no text."""
    text = value.get(member)
    return text if isinstance(text, str) and text else None


def texts_at(value, member):
    """The texts of an array; none where there is no such array."""
    texts = value.get(member)
    return [it for it in texts if isinstance(it, str)] if isinstance(texts, list) else []


def named(title, key, more=None):
    """A name with its id beside it; the id alone where there is no name."""
    if title is None:
        return code(key)
    return element('span', name(title), more and element('small', ' ', name(more)), ' ', code(key))


def short(text):
    """A text cut to the room in the head of a narrow column."""
    return text if text is None or len(text) <= SHORT else text[:SHORT - 1] + '…'


class Names:
    """The names of a definition."""

    def __init__(self, report):
        election = report['Election'][0]
        self.election = text_at(election, 'Name') or election['@id']
        self.units = {it['@id']: text_at(it, 'Name') for it in report['GpUnit']}
        self.parties = {it['@id']: text_at(it, 'Name') for it in report.get('Party', [])}
        self.candidates = {it['@id']: it for it in election.get('Candidate', [])}
        self.contests = {it['@id']: text_at(it, 'Name') for it in election['Contest']}
        self.selections = {(contest['@id'], it['@id']): self.of_selection(it)
                           for contest in election['Contest']
                           for it in contest.get('ContestSelection', [])}

    def of_selection(self, selection):
        """The name of a selection, or None, and the names of its parties, or None."""
        held = [self.candidates[it] for it in texts_at(selection, 'CandidateIds')
                if it in self.candidates]
        parties = [it['PartyId'] for it in held if 'PartyId' in it]
        parties += texts_at(selection, 'EndorsementPartyIds')
        names = [text_at(it, 'Name') or it['@id'] for it in held]
        if selection['@type'] == 'CVR.PartySelection':
            names = self.names_of(texts_at(selection, 'PartyIds'))
        title = text_at(selection, 'Selection') or ' / '.join(names) or text_at(selection, 'Name')
        if selection.get('IsWriteIn') is True:
            title = 'Write-in: ' + title if title else 'Write-in'
        return title or None, ', '.join(self.names_of(parties)) or None

    def names_of(self, parties):
        """The names of parties, each once."""
        return [self.parties.get(it) or it for it in dict.fromkeys(parties)]

    def contest(self, key):
        return named(self.contests[key], key)

    def plain_contest(self, key):
        """The name of a contest for a line of text."""
        return self.contests[key] or key

    def selection(self, contest, key):
        title, parties = self.selections[contest, key]
        return named(title, key, parties)

    def short_selection(self, contest, key):
        """A selection for the head of a column; the page has its whole name elsewhere."""
        title, parties = self.selections[contest, key]
        return named(short(title), short(key), short(parties))

    def plain_selection(self, contest, key):
        """The name of a selection for a line of text."""
        return self.selections[contest, key][0] or key

    def unit(self, key):
        return 'no unit' if key is None else named(self.units.get(key), key)


def batch(key):
    return 'no batch' if key is None else code(key)
