"""Contests whose votes are ranks or scores, of which `cvr` computes no rounds: it adds them up."""
from . import counting
from .reading import spelled

VARIATIONS = 'borda', 'range', 'rcv'
ABSENT = '-'        # in place of a VoteVariation or a Rank that nothing states


def positions_of(contest):
    """Each position of a contest: the id of its selection or None, its Rank or None, and itself."""
    for chosen in contest.get('CVRContestSelection', []):
        for position in chosen['SelectionPosition']:
            rank = position.get('Rank', chosen.get('Rank'))
            yield chosen.get('ContestSelectionId'), rank, position


def marks_in(snapshot):
    """Each position that counts: its contest, its Rank or None, its selection or None, its votes."""
    for contest in snapshot.get('CVRContest', []):
        for selection, rank, position in positions_of(contest):
            if counting.counts(position):
                yield contest['ContestId'], rank, selection, position['NumberVotes']


class Ranks:
    """For each contest the greatest Rank, and the votes by selection and Rank."""

    def __init__(self, definition):
        contests = definition['Election'][0]['Contest']
        self.variations = {it['@id']: it.get('VoteVariation') for it in contests}
        self.greatest, self.votes = {}, {}

    def take(self, snapshot):
        """Notes a current snapshot."""
        for contest in snapshot.get('CVRContest', []):
            key = contest['ContestId']
            for _, rank, _ in positions_of(contest):
                if rank is not None:
                    self.greatest[key] = max(rank, self.greatest.get(key, rank))
        for key, rank, selection, votes in marks_in(snapshot):
            place = key, selection, rank
            self.votes[place] = self.votes.get(place, 0) + votes

    def is_ranked(self, contest):
        return self.variations[contest] in VARIATIONS or self.greatest.get(contest, 0) > 1

    def by_rank(self, contest, selections):
        """The votes of these selections by each Rank, None first."""
        ranks = {rank for key, _, rank in self.votes if key == contest}
        order = sorted(ranks, key=lambda it: (it is not None, it or 0))
        return {rank: [self.votes.get((contest, it, rank), 0) for it in selections]
                for rank in order}

    def lines(self):
        """A line for each such contest: its VoteVariation, and the greatest Rank."""
        for contest, variation in self.variations.items():
            if self.is_ranked(contest):
                rank = self.greatest.get(contest, ABSENT)
                yield 'ranked', [spelled(contest), variation or ABSENT, str(rank)]
