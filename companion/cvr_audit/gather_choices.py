"""What stands behind `Vote For N:` in a head of Clear Ballot: a choice and a party where that can be
told, and else what --heads says."""
import re

from .gather_writein import is_write_in

# a choice and a party for each order that --heads names; None where there is no colon
ORDERS = {
    'choice:party': lambda text: text.rpartition(':')[::2] if ':' in text else None,
    'party:choice': lambda text: text.partition(':')[::-2] if ':' in text else None,
    'choice': lambda text: (text, ''),
}
# what stands in the place of a party where there is none, and choices that have none
NO_PARTY = {'', 'nonpartisan', 'noparty', 'nopartypreference', 'np', 'npp', 'none', 'na'}
OF_A_MEASURE = {'yes', 'no', 'for', 'against', 'approve', 'reject'}
UNTOLD = ('column %d: which part of `%s` is the choice, and which the party, can\'t be told, since '
          '%s; say what stands in all heads: --heads choice:party, party:choice or choice')
NO_ORDER = 'no party stands behind several choices, or a choice has several'


def is_no_party(text):
    return re.sub(r'[\s/._-]', '', text).lower() in NO_PARTY


def is_of_a_measure(text):
    return text.lower() in OF_A_MEASURE


def doubt(text, parties):
    """Why the order of a head can't be told, or None. `parties` stand behind the only colon of
    others."""
    choice, colon, party = text.rpartition(':')
    if not colon:
        return 'it has no colon'
    if ':' in choice and not is_no_party(party) and party not in parties:
        return 'it has %d colons' % text.count(':')
    if choice != choice.rstrip() or party != party.lstrip():
        return 'a space stands beside the colon'
    if is_no_party(choice):
        return 'a choice is never `%s`' % choice
    if is_of_a_measure(party) or is_write_in(party):
        return 'a party is never `%s`' % party
    if is_of_a_measure(choice) and not is_no_party(party):
        return '`%s` has no party' % choice
    return None


def is_ordered(pairs):
    """Whether pairs have the party behind the choice: no party at all in some, or one of several
    choices where no choice has several."""
    choices, parties = ([it[place] for it in set(pairs)] for place in (0, 1))
    is_shared, is_parted = (len(set(it)) < len(it) for it in (parties, choices))
    return any(map(is_no_party, parties)) or is_shared and not is_parted


def choices_of(table, heads, order):
    """The choice and the party in each of these heads: (column, text behind `Vote For N:`)."""
    parties = {text.partition(':')[2] for _, text in heads if text.count(':') == 1}
    for column, text in heads if order is None else ():
        why = doubt(text, parties)
        if why:
            raise table.fault(UNTOLD % (column, text, why))
    pairs = [ORDERS[order or 'choice:party'](text) for _, text in heads]
    for (column, text), pair in zip(heads, pairs):
        if pair is None or not pair[0].strip():
            raise table.fault('column %d has no choice, or no party, as --heads %s says: %s'
                              % (column, order, text))
    if order is None and pairs and not is_ordered(pairs):
        raise table.fault(UNTOLD % (*heads[0], NO_ORDER))
    return [(choice.strip(), party.strip()) for choice, party in pairs]
