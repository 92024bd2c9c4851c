"""page_masks.py: what a reader of a page for the public can find out about the votes it withholds.

A reader knows that votes are no less than 0, knows the sums that the page shows, and knows that a
contest has no more votes than its ballots allow. Each withheld number is an unknown of a system of
equations; what the ballots leave open is one more. `solved` finds by elimination, in fractions, the
unknowns that have only one value; `most` finds the greatest value that one may have. A reader can also
make files with each possible vote, and look for their SHA-256 and their lengths on the page: `tried`
finds the equations that this adds. All are tried first on cases that were worked out by hand."""
import hashlib
import re
from collections import Counter
from fractions import Fraction

LEAST = 10
WORD = re.compile(r'\b(?:[0-9a-f]{64}|[0-9][0-9,]*)\b')
MARKS = (lambda data: hashlib.sha256(data).hexdigest()), (lambda data: str(len(data)))


def reduced(equations):
    """The equations (coefficients by unknown, sum) after elimination: each has a leading unknown."""
    held = []
    for parts, total in equations:
        parts, total = {name: Fraction(it) for name, it in parts.items()}, Fraction(total)
        for lead, (others, known) in held:
            factor = parts.get(lead, 0)
            if factor:
                parts, total = less(parts, others, factor), total - factor * known
        parts = {name: it for name, it in parts.items() if it}
        if parts:
            lead, factor = next(iter(parts.items()))
            row = {name: it / factor for name, it in parts.items()}, total / factor
            held = [(name, cleared(it, lead, row)) for name, it in held] + [(lead, row)]
        elif total:
            raise ValueError('the equations contradict each other')
    return held


def less(parts, others, factor):
    names = {*parts, *others}
    found = {name: parts.get(name, 0) - factor * others.get(name, 0) for name in names}
    return {name: it for name, it in found.items() if it}


def cleared(row, lead, by):
    """A row without the leading unknown of another one."""
    factor = row[0].get(lead, 0)
    return (less(row[0], by[0], factor), row[1] - factor * by[1]) if factor else row


def solved(equations):
    """The unknowns for which the equations alone leave one value."""
    return {lead for lead, (parts, _) in reduced(equations) if set(parts) == {lead}}


def most(name, equations):
    """The greatest value that an unknown may have, when others are no less than 0 and each unknown
    stands in one equation, with factor 1: what the sum leaves when the others are 0."""
    found = [(parts, total) for parts, total in equations if name in parts]
    if len(found) != 1 or any(it != 1 for it in found[0][0].values()):
        raise ValueError('%s stands in %d equations' % (name, len(found)))
    return found[0][1]


def tried(text, possible):
    """The equations that a reader finds on a page who makes what each file could be (of each file the
    bytes, by the vote): how often a mark stands there that files with these votes alone have. They
    hold where the page has such a mark of every file."""
    words = [it.replace(',', '') for it in WORD.findall(text)]
    for mark_of in MARKS:
        names = {}
        for name, data in (pair for it in possible for pair in it.items()):
            names.setdefault(mark_of(data), set()).add(name)
        found = Counter(frozenset(names[it]) for it in words if it in names)
        if sum(found.values()) == len(possible):
            yield from ((dict.fromkeys(it, 1), number) for it, number in found.items())


def wrong_of(equations, votes, more=()):
    """What is wrong with what is withheld of these votes, by unknown, as lines. Some equations are more
    than the page itself has."""
    found, known = [], solved([*equations, *more])
    for name, number in votes.items():
        if name in known:
            found.append('%s follows' % (name,))
        elif number < LEAST and most(name, equations) < LEAST:
            found.append('%s is seen to be below ten' % (name,))
    return found


# systems with the unknowns that follow from them; systems with votes, and how many things are wrong in
# them; then texts with what files could be, and the equations
KNOWN = [
    ([({'a': 1}, 4)], {'a'}),
    ([({'a': 1, 'b': 1}, 40)], set()),
    ([({'a': 1, 'b': 1}, 40), ({'b': 1}, 37)], {'a', 'b'}),
    ([({'a': 1, 'b': 1}, 9), ({'b': 1, 'c': 1}, 9), ({'a': 1, 'c': 1}, 8)], {'a', 'b', 'c'}),
    ([({'a': 1, 'b': 1}, 9), ({'b': 1, 'c': 1}, 9), ({'c': 1, 'd': 1}, 8)], set()),
    ([({'a': 1, 'b': 1}, 9), ({'b': 1, 'c': 1}, 9), ({'c': 1, 'd': 1}, 8), ({'a': 1, 'd': 1}, 8)],
     set()),
]
JUDGED = [
    ([({'a': 1}, 4)], {'a': 4}, 1), ([({'a': 1, 'b': 1}, 9)], {'a': 4, 'b': 5}, 2),
    ([({'a': 1, 'b': 1}, 10)], {'a': 4, 'b': 6}, 0),
    ([({'a': 1, 'b': 1}, 30)], {'a': 0, 'b': 30}, 0),
]
FILES = [{'a': b'abc', 'b': b'xyz', 'c': b'c' * 1003}] * 3
ABC = 'ba7816bf8f01cfea414140de5dae2223b00361a396177a9cb410ff61f20015ad'       # the SHA-256 of abc
TRIED = [
    ('<td>3</td><td>1,003</td><td>3</td>', FILES, [({'a': 1, 'b': 1}, 2), ({'c': 1}, 1)]),
    ('<td>3</td><td>1,003</td><td>13</td>', FILES, []),
    ('<code>%s</code>' % ABC, FILES[:1], [({'a': 1}, 1)]),
    ('<code>%s</code>' % ABC, FILES, []),
]


def judged():
    """What is wrong with the judge itself."""
    for equations, wanted in KNOWN:
        if solved(equations) != wanted:
            yield '%r has %r, and is said to have %r' % (equations, wanted, solved(equations))
    for equations, votes, count in JUDGED:
        if len(wrong_of(equations, votes)) != count:
            yield '%r: %r' % (equations, wrong_of(equations, votes))
    for text, possible, wanted in TRIED:
        if list(tried(text, possible)) != wanted:
            yield '%r has %r' % (text, list(tried(text, possible)))
