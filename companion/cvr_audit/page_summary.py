"""The head of the page: the election, what the numbers are made from, by which programs and when."""
import datetime
import os
import shlex

from . import page_counts, page_warnings
from .page_tree import element, folded, listed

MANY = 12           # the command of more files is folded


def moment():
    """The page's moment: now, or that of SOURCE_DATE_EPOCH."""
    given = os.environ.get('SOURCE_DATE_EPOCH', '')
    if given.isdecimal():
        made = datetime.datetime.fromtimestamp(int(given), datetime.timezone.utc)
    else:
        made = datetime.datetime.now().astimezone()
    return made.isoformat(' ', 'seconds')


def files_of(facts):
    """How many files there are, and how many of them count."""
    given, accepted = len(facts.files.files), len(facts.files.accepted)
    return '{:,} given, {:,} accepted, {:,} refused'.format(given, accepted, given - accepted)


def records_of(facts):
    """How many records count, and how many the files have."""
    found = sum(count for _, count in facts.files.accepted)
    return '{:,} counted, {:,} in the files'.format(len(facts.seen.notes.origins.records), found)


def command_of(facts):
    """The command that gives the same numbers; a long one isn't printed, since Inputs has its files."""
    if facts.is_public:
        return element('pre', 'cvr tally -- DEF FILE ...')
    files = facts.files
    words = ['cvr', 'tally', '--', files.definition] + files.files
    return folded(len(files.files) > MANY, 'cvr tally of {:,} files, as Inputs has them'.format(len(files.files)),
                  element('pre', ' '.join(map(shlex.quote, words))), is_shut=True)


def head(facts):
    """What an official needs first, and how to get the same numbers again."""
    said = [('Made', moment()), ('Files', files_of(facts)),
            ('Records', '' if facts.is_public else records_of(facts)),
            ('Warnings', page_warnings.kinds_of(facts)),
            *page_counts.programs(facts.counters), ('Command', command_of(facts))]
    return element('header', element('p', 'UNOFFICIAL', class_='unofficial'),
                   element('h1', element('bdi', facts.names.election)),
                   listed([it for it in said if it[1] != '']), class_='summary')
