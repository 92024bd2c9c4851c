"""The one rule of write-ins for all forms of export (docs/GATHER.md): which choices are for names that
are written in, and how many votes these have."""
import re

from . import counting

# `write-in` as a word; no letter may stand beside it, but a small one before `WriteIn`
WORDS = r'write[\s_\u2010-\u2015-]*ins?|w/i|uwi|por escrito|\A\W*wi\W*\Z'
WORD = re.compile(r'((?<![^\W\d_])(%s)|(?<=[a-z])(?-i:Write-?Ins?))(?![^\W\d_])' % WORDS, re.I)


def is_write_in(name):
    """Whether the name of a choice, or of its type, says that it is for names that are written in."""
    return WORD.search(name) is not None


def votes_of(contest, chosen):
    """The votes for written names in a contest of a snapshot, by its selections with their positions:
    those that count, so none in an overvoted contest."""
    return sum(it['NumberVotes'] for key, positions in chosen if contest.selections[key]
               for it in positions if counting.counts(it))
