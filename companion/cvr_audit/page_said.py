"""What the reports of a page say of themselves: in red above all else, and on each printed sheet."""
from .page_tree import element


def shown(reports):
    """The sentences, and what each sheet has."""
    lines = list(reports.lines())
    yield from (element('p', it, class_='said') for it in lines)
    if lines:
        words = ' '.join(it.partition(':')[0] for it in lines)
        yield element('p', words, class_='sheet', aria_hidden='true')
