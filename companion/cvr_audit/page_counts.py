"""Who counted: `cvr`, `cvr-audit` in its own way and, where one is named, a second program. Each with its
version, the SHA-256 of its file, the kit that built it, and its own rows of the tally."""
import copy
import os
import re
import shutil
from collections import namedtuple

from . import VERSION, counting, digests, program
from .page_tree import code, element, folded, table

Counter = namedtuple('Counter', 'name version digest kit rows')
PROVENANCE = '../share/doc/cvr/PROVENANCE'      # beside the folder of an installed program
MANY = 12           # the counts of more contests are folded
SAME = ('Each of these programs added up the votes by itself, and they came to the same numbers; where they '
        'do not, there is no page. cvr-audit takes from cvr which records and snapshots count.')


def counter_of(name, path, text):
    """A program, by its file and by the text of its tally."""
    version = program.started([path, '--version']).stdout.decode('utf-8', 'replace')
    path = shutil.which(path) or path
    digest = digests.of_file(path)[0]
    return Counter(name, version.split('\n')[0], digest, kit_of(path, digest), counting.rows_in(text))


def kit_of(path, digest):
    """The kit that built a program, by the PROVENANCE of its package; None where there is none, or it
    is another program's."""
    folder = os.path.dirname(os.path.realpath(path))
    try:
        with open(os.path.join(folder, PROVENANCE), encoding='utf-8') as file:
            found = re.search(r'^kit +(.+)\n(?:.+\n)*\S+ +%s$' % digest, file.read(), re.M)
    except (OSError, UnicodeDecodeError):
        return None
    return found and found.group(1)


def second_text(files, path):
    """The tally of a second program, which has to be the same text."""
    other = copy.copy(files)
    other.program = path
    status, text, _ = other.run('tally', [files.definition], files.files)
    if status > 1 or text.decode('utf-8', 'replace') != files.tally():
        raise program.mismatch('%s: its tally is another one' % path)
    return text.decode('utf-8')


def counters_of(files, second):
    """Those who counted, once all records are read."""
    yield counter_of('cvr', files.program, files.tally())
    yield Counter('cvr-audit', 'cvr-audit ' + VERSION, digests.of_companion(), None, files.recount.rows)
    if second:
        yield counter_of('second', second, second_text(files, second))


def programs(counters):
    """The lines of the head on who counted."""
    for term, it in zip(('By', 'Counted again by', 'And by'), counters):
        yield term, it.version, ', SHA-256 ', code(it.digest), it.kit and ', kit ' + it.kit


def sums_of(rows):
    """The ballots and the votes of each contest."""
    sums = counting.added(rows, lambda row: row[0])
    return {contest: [numbers[0], sum(counting.parts(numbers)[1])] for contest, numbers in sums.items()}


def parts_of(facts, key, sums):
    """The ballots and the votes of a contest; of ranks, which are not added up, the ballots alone."""
    ballots, votes = sums.get(key, [0, 0])
    return [ballots, '–' if facts.is_ranked(key) else votes]


def counts(facts):
    """The ballots and votes of each contest as each program counted them."""
    heads = ['Contest'] + ['%s: %s' % (it.name, what) for it in facts.counters
                           for what in ('ballots', 'votes')]
    sums = [sums_of(it.rows) for it in facts.counters]
    rows = [[facts.names.contest(key)] + [part for it in sums for part in parts_of(facts, key, it)]
            for key in facts.selections]
    return element('div', element('p', SAME), folded(
        len(rows) > MANY, 'Counts of {:,} contests'.format(len(rows)), table('Counts', heads, rows)))
