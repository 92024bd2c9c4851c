"""The definition and the files of the page."""
from . import page_faults
from .digests import of_file
from .page_tree import code, codes, element, folded, listed, section, table


def state_of(fault):
    """What is said about a file: accepted, or why not and what to do."""
    if fault is None:
        return 'accepted'
    what, advice = page_faults.in_words(fault)
    return element('span', element('strong', 'refused, ' + fault.split(' ', 1)[0]), '. %s %s'
                   % (what, advice))


def input_rows(facts):
    """DEF and the files, each with what it is and how it was judged."""
    files, records = facts.files, (count for _, count in facts.files.accepted)
    for number, path in enumerate([files.definition] + files.files):
        fault = facts.refused.get(path) if number else None
        count = '' if fault else next(records) if number else files.own_records
        yield [code(path), *file_cells(path), count, codes(facts.devices.get(path, [])),
               state_of(fault) if number else 'definition']


def file_cells(path):
    digest, length = of_file(path)
    return code(digest), length


def public_inputs(facts):
    """The definition alone. Nothing is said of a single file: a reader could make
    each file that it may be, and see which one fits. Nor of DEF, where it has records."""
    said = ['SHA-256 ', code(of_file(facts.files.definition)[0])]
    if facts.files.own_records:
        said = ['SHA-256 withheld, since it has records']
    return listed([('Definition', *said)])


def inputs(facts):
    """The definition and the files."""
    heads = ['File', 'SHA-256', 'Bytes', 'Records', 'Device', 'State']
    said = public_inputs(facts) if facts.is_public else \
        folded(True, 'The definition and {:,} files'.format(len(facts.files.files)),
               table('The definition and the files', heads, input_rows(facts)))
    return section('inputs', 'Inputs', said,
                   element('p', 'The records of the definition (DEF) are not counted.'))
