"""The option --device of `gather`: the source of the records of each FROM."""
from collections import Counter, defaultdict
from itertools import combinations

from .gather_source import fault
from .program import WORDS, ended
from .reading import spelled

OTHER_NUMBER = '--device: there are %d NAME and %d FROM; give a NAME for each, in their order'
NO_NAME = '--device: %s is empty, or has a /, which parts it from the device that the form names'
SAME = 'it has the same bytes as %s, and another NAME of --device: one export, given twice'
WAY = ('; where these are two ballots, of exports that number alike, give each export as a FROM '
       'of its own, and go on with --device NAME for each FROM, in their order')

# two exports may have the same ballots where so many have one name, and nine of ten of these the same votes
MANY, SHARE = 3, 0.9
OTHERS = ('%d ballots have the number of one in %s, and %d of these its votes, too: one may have '
          'the ballots of the other again; leave out what is given twice or, where they are other '
          'ballots, gather each export by itself')


def see_names(words):
    """Stops where the option doesn't name each FROM."""
    if words.device and len(words.device) != len(words.files):
        raise ended(WORDS, OTHER_NUMBER % (len(words.device), len(words.files)))
    for name in words.device or ():
        if not name.strip() or '/' in name:
            raise ended(WORDS, NO_NAME % spelled(name))


def see_distinct(sources):
    """Stops where one source was given twice, as of two devices."""
    held = {}
    for it in sources if sources[0].device else ():
        first = held.setdefault(it.digest, it) if it.digest else it
        if first.device != it.device:
            raise fault(it.name, SAME % first.name)


class Ballots:
    """The votes of each record by its name in the form, for each NAME of --device, and the first source
    of each NAME."""

    def __init__(self):
        self.held, self.firsts = defaultdict(dict), {}

    def take(self, source, name, votes):
        self.held[name][source.device] = hash(votes)
        self.firsts.setdefault(source.device, source.name)

    def see_others(self):
        """Stops where records of two NAMEs have one name, and nearly all of these the same votes."""
        met, same = Counter(), Counter()
        for held in self.held.values():
            for pair in combinations(held, 2):
                met[pair] += 1
                same[pair] += held[pair[0]] == held[pair[1]]
        for pair, number in met.items():
            if number >= MANY and same[pair] >= SHARE * number:
                first, second = (self.firsts[it] for it in pair)
                raise fault(second, OTHERS % (number, first, same[pair]))


def lines_of(words):
    """What is printed: each NAME with its FROM."""
    return ['device %s %s' % (spelled(name), spelled(path))
            for name, path in zip(words.device or (), words.files)]
