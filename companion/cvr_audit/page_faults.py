"""The fault of a refused file in words, with what to do. docs/FAULTS.md says more about each."""
from .fault_words import CODES, RULES

WHOLE = 'the whole file'


def place_in(fault):
    """The place of a fault and the number of its rule, where it has them."""
    words = fault.split(' ', 1)[1] if ' ' in fault else ''
    if not fault.startswith('E3 '):
        return words, None
    place, rule = words.rsplit(' ', 1)
    return place or WHOLE, int(rule)


def in_words(fault):
    """What a fault means, and what to do."""
    what, advice = CODES[fault.split(' ', 1)[0]]
    place, rule = place_in(fault)
    said = ', at '.join(part for part in (RULES.get(rule), place) if part)
    return ': '.join(filter(None, [what, said])) + '.', advice
