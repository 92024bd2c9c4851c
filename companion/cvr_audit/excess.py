"""Votes of one record that no ballot has: more than the contest allows, or several for one selection. A
sum of a row shows them only where no other ballot has fewer votes."""
from . import counting, reading
from .ranks import VARIATIONS
from .reading import spelled

ONE = 'CVR.BallotMeasureContest', 'CVR.RetentionContest'    # one vote, where nothing states how many
SEVERAL = 'cumulative', *VARIATIONS         # in which one selection may have several votes of a ballot


def allowed_of(definition):
    """How many votes a ballot has in each contest, where the definition says so."""
    contests = definition['Election'][0]['Contest']
    allowed = {it['@id']: it.get('VotesAllowed', 1 if it['@type'] in ONE else None) for it in contests}
    return {contest: most for contest, most in allowed.items() if type(most) is int and most > 0}


class Excess:
    """The records with such votes, by contest: each as its line."""

    def __init__(self, definition):
        contests = definition['Election'][0]['Contest']
        self.allowed = allowed_of(definition)
        self.selections = counting.selections_of(definition)
        self.singles = {it['@id']: singles_of(it) for it in contests}
        self.held = {contest: [] for contest in self.selections}

    def take(self, record, rows):
        """Notes a record of volume 1, and what it adds to each of its rows."""
        name = list(map(spelled, reading.name_of(record)))
        for (key, *_), numbers in rows.items():
            counted, most = counting.come_to(numbers)[0], self.allowed.get(key)
            if most and counted > most:
                self.held[key].append(('exceeds', [spelled(key), *name, str(counted), str(most)]))
            for selection, votes in zip(self.selections[key], counting.parts(numbers)[1]) if counted > 1 else ():
                if votes > 1 and selection in self.singles[key]:
                    self.held[key].append(('doubled', [spelled(key), spelled(selection), *name, str(votes)]))

    def lines(self, is_ranked):
        """The lines of the contests, but for those of ranks or scores."""
        for contest, lines in self.held.items():
            yield from () if is_ranked(contest) else lines


def singles_of(contest):
    """The selections that have one vote of a ballot at most: none for written names, of which a ballot may
    have several."""
    if contest.get('VoteVariation') in SEVERAL:
        return ()
    return {it['@id'] for it in contest.get('ContestSelection', []) if it.get('IsWriteIn') is not True}
