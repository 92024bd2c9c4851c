"""page_order.py: which selections of a contest a page for the public withholds, worked out by hand: write-ins first, and
then those with the fewest votes. The contest is of one unit, so that nothing else is withheld.

Then random contests of one vote: of each selection that is withheld, the tallies that docs/PAGE.md names, in which it
has each number from 0 to 9, or else ten numbers. Their pages have to be the same."""
import random

LEAST, RANDOM = 10, 400

# The votes, the places of write-ins, the ballots if each may have several votes, else None; and the places that are
# withheld, or None if nothing is shown.
CASES = [
    ([10, 20], (), None, set()),                                # none is below ten
    ([266, 240, 3, 4], {2, 3}, None, {1, 2, 3}),                # 3 and 4 come to 7, so the next one is withheld, too
    ([266, 240, 5, 6], {2, 3}, None, {2, 3}),                   # 11
    ([266, 240, 5, 6], (), None, {2, 3}),                       # 11, and 1 · 239
    ([50, 5, 5], (), None, {1, 2}),                             # ten
    ([50, 40, 4, 5], (), None, {1, 2, 3}),                      # nine, so 49, and 2 · 49
    ([3, 240, 266], (), None, {0, 1}),                          # 243, and 1 · 265
    # the first two come to 398 or 399, and the next one less one is 399
    ([400, 394, 4], (), None, {1, 2}), ([400, 395, 4], (), None, {0, 1, 2}),
    ([400, 397, 4], {2}, None, {1, 2}),                         # the same beside a write-in, which hides it whatever it has
    ([400, 399, 398, 9], (), None, {0, 1, 2, 3}),               # 407, and 1 · 398; 806, and 2 · 399; so all
    ([410, 399, 398, 9], (), None, {1, 2, 3}),                  # 407, and 1 · 398; 806, and 2 · 409
    ([500, 30, 25, 8], {2}, None, {2, 3}),                      # a write-in and the small one, though 25 + 8 is above 29
    ([500, 12, 300, 8], {2}, None, {2, 3}),                     # a write-in, not the next smallest
    ([500, 300, 4, 7, 60], {2, 3, 4}, None, {2, 3}),            # two of three write-ins: 11, and 1 · 59
    ([500, 300, 4, 7, 11], {2, 3, 4}, None, {2, 3, 4}),         # 11, and 1 · 10; so all three
    ([500, 300, 4, 70, 60], {3, 4}, None, {2, 3, 4}),           # all write-ins, before a small one that is none
    ([9], (), None, None), ([3, 4], (), None, None),            # one alone, and too few
    # several votes: only ballots without a vote are few, 3; then 43, and 1 · 49
    ([97, 60, 50, 40], (), 100, {0, 1}), ([97, 60, 58, 40], (), 100, {0, 1, 2}),
    ([97, 60, 50, 4], (), 100, {0, 1, 2, 3}),                   # few on both sides
    ([195, 180, 150, 4], (), 200, {0, 1, 2, 3}),                # and though 349 is below 2 · 179
    ([97, 60, 50, 4], {3}, 100, {0, 3}), ([97, 60, 50, 30], {3}, 100, {0, 3}),
    ([60, 54, 50, 4], (), 100, {1, 2, 3}),                      # as with one vote: 54, and 1 · 53; 108, and 2 · 59
]


def withheld(masking, votes, write_ins, ballots):
    """The places that the rule withholds."""
    held = {'u': [sum(votes) if ballots is None else ballots, *votes]}
    mask, = masking.masks([held], [ballots is None], [{*write_ins}])
    return None if mask.is_whole else {*mask.selections}


def wrong_of(masking):
    """The cases in which it withholds others, and the tallies that have another page, as lines."""
    for votes, write_ins, ballots, wanted in CASES:
        found = withheld(masking, votes, write_ins, ballots)
        if found != wanted:
            yield '%s, write-ins %s: %s is withheld, not %s' % (votes, sorted(write_ins), found, wanted)
    for seed in range(1, 1 + RANDOM):
        yield from contest_wrong(masking, *contest(random.Random(seed)))


# ---- other tallies with the same page

def contest(chance):
    """The votes of a random contest by unit, and the places of its write-ins."""
    count, write_ins = chance.randint(2, 6), chance.choice([0, 0, 1, 2, 3])
    greatest = [chance.choice([3, 9, 40, 300, 300]) for _ in range(count)]
    units = [[chance.randint(0, most) for most in greatest] for _ in range(chance.choice([1, 1, 2, 4]))]
    return units, {*chance.sample(range(count), min(write_ins, count))}


def mask_of(masking, units, write_ins):
    held = {'u%d' % place: [sum(votes), *votes] for place, votes in enumerate(units)}
    return masking.masks([held], [True], [write_ins])[0]


def contest_wrong(masking, units, write_ins):
    """The tallies with another page than that of a contest."""
    mask, sums = mask_of(masking, units, write_ins), list(map(sum, zip(*units)))
    if len(mask.selections) == 1 and not mask.is_whole:
        yield '%s: one alone is withheld' % units
        return
    for one in () if mask.is_whole else mask.selections:
        for number in range(LEAST):
            wanted = shared(one, number, {it: sums[it] for it in mask.selections}, write_ins)
            made = exchanged(units, wanted)
            if mask_of(masking, made, write_ins) != mask:
                yield '%s, write-ins %s: another page than %s' % (units, write_ins, made)


def shared(one, number, hidden, write_ins):
    """Other votes of the selections that are withheld, which come to the same: one has this number or, as the only
    write-in, all but this number."""
    total, others = sum(hidden.values()) - number, [it for it in hidden if it != one]
    if not write_ins or not write_ins <= {*hidden}:
        return {one: number, **{it: (total + place) // len(others) for place, it in enumerate(others)}}
    takes = next((it for it in others if it in write_ins), one)
    has = one if takes != one else others[0]
    return {**dict.fromkeys(hidden, 0), has: number, takes: total}


def exchanged(units, wanted):
    """The votes by unit with these sums of the selections that are withheld, which come to the same in each unit."""
    left, made = dict(wanted), []
    for votes in units:
        spare, new = sum(votes[it] for it in wanted), list(votes)
        for one in wanted:
            new[one] = min(spare, left[one])
            spare, left[one] = spare - new[one], left[one] - new[one]
        made.append(new)
    return made
