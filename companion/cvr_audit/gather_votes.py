"""How many votes a contest of Hart allows, which its form doesn't state: as --votes says, or as marks
and undervotes come to."""
import re
import shlex

from .gather_source import fault
from .program import WORDS, ended

NUMBER = re.compile('[1-9][0-9]{0,8}')
BAD = '--votes: %s has to be the name or the Id of a contest and its number of votes, such as Council=2'
UNKNOWN = '--votes names the contest %s, and none has that name or Id'
DIFFERENT = ('the marks and Undervotes of the contest %s come to %d on %d records, as here, and to %d '
             'on %d, as in %s')
UNSTATED = 'the contest %s has %d marks here, and states neither Undervotes nor Overvotes'
WAY = '; say how many votes it allows, as in --votes %s'


def votes_in(texts):
    """The numbers of votes that --votes names, by the name or the Id of the contest."""
    votes = {}
    for text in texts or ():
        name, _, number = text.rpartition('=')
        if not name.strip() or name.strip() in votes or not NUMBER.fullmatch(number.strip()):
            raise ended(WORDS, BAD % text)
        votes[name.strip()] = int(number)
    return votes


class Votes:
    """The number of votes of each contest. `found` has by contest, for the ones that --votes doesn't
    name, what marks and Undervotes come to: the number of records, and the first of their sources."""

    def __init__(self, texts):
        self.given, self.used, self.found = votes_in(texts), set(), {}

    def of(self, key, name):
        """What --votes says of a contest; None where it says nothing."""
        self.used |= {key, name} & self.given.keys()
        return self.given.get(key, self.given.get(name))

    def take(self, source, contest, marks, numbers):
        """Notes what a record shows; stops where nothing says whether two marks are too many."""
        under, over = numbers.get('Undervotes'), numbers.get('Overvotes')
        if contest.allowed is not None or over or under is None and marks < 2:
            return
        if under is None:
            raise fault(source.name, self.told(UNSTATED % (contest.key, marks), contest, marks))
        held = self.found.setdefault(contest.key, {}).setdefault(marks + under, [0, source.name])
        held[0] += 1

    def told(self, text, contest, number):
        return text + WAY % shlex.quote('%s=%d' % (contest.shown['Name'], number))

    def see(self, contests):
        """Stops where a contest's marks and Undervotes come to different numbers, or --votes names
        none."""
        for name in sorted(self.given.keys() - self.used):
            raise ended(WORDS, UNKNOWN % name)
        for key, held in self.found.items():
            ranked = sorted(held.items(), key=lambda it: it[1][0])
            (few, (count, name)), (many, (more, other)) = ranked[0], ranked[-1]
            if few != many:
                text = DIFFERENT % (key, few, count, many, more, other)
                raise fault(name, self.told(text, contests[key], many))
