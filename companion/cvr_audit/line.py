"""The words of the command line, and how a run ends."""
import argparse
import os
import shutil
import sys

from . import (VERSION, compare, definition, gather, gather_choices, journal, lines, output, page,
               paths, program, records, strict, totals, trace, warnings, why, without, writeins)
from .terminal import in_lines

ABOUT = ('Print cast vote records one by one, compare two sets of files, trace a number of the '
         'tally, warn of what needs a person, make what a voting system exports into files that cvr '
         'accepts, and keep a journal of runs.')
STATUSES = [
    ('0', 'all was done; `compare` found no difference, and `warnings` nothing to warn of'),
    ('1', 'a file or export was refused, `strict` printed nothing, two sides or reports differ, there '
          'is a warning, or a journal was changed'),
    ('2', 'the words fit no command, the definition lacks a contest or selection that they name, '
          'or the manifest has another form; nothing is printed'),
    ('3', 'a file could not be read or written'),
    ('4', 'out of memory; nothing is printed'),
    ('69', 'there is no `cvr` of version 1, or something killed it; nothing is printed. `journal` ends '
           'with 128 and the number of the signal'),
    ('70', 'the numbers don\'t come to those of `cvr`, a file was changed during the run, or '
           '`cvr-audit` has a fault; nothing is printed'),
]
EPILOG = 'Statuses: ' + '. '.join('%s: %s' % it for it in STATUSES) + '.'
COMMANDS = {
    'records': (records.run, 'Print a line of CSV for each record: its current snapshot, and what '
                             'it adds to the tally.'),
    'compare': (compare.run, 'Print what differs between two sets of files, and between their '
                             'tallies.'),
    'trace': (trace.run, 'Print the records, the places in files and the votes that make up a '
                         'number of the tally.'),
    'without': (without.run, 'Print what each file does to the tally: the numbers that are others '
                             'without it.'),
    'page': (page.run, 'Print a page for a browser: the tally by name, with warnings, conflicts '
                       'and adjudications, and lines to sign.'),
    'warnings': (warnings.run, 'Print a line for each thing that needs a person before the tally '
                               'is used.'),
    'totals': (totals.run, 'Print the sums of each contest and selection, by name and id.'),
    'lines': (lines.run, 'Print the lines of a command of cvr (tally, currents, conflicts or check) '
                         'as JSON, with names.'),
    'strict': (strict.run, 'Print what a command of cvr prints; nothing where DEF has records of its '
                           'own, no FILE is given, or a FILE brings nothing new.'),
    'why': (why.run, 'Print of each refused file what its fault means, what stands there, and what to '
                     'do.'),
    'writeins': (writeins.run, 'Print the texts that were written in, with their votes and '
                               'records.'),
    'definition': (definition.run, 'Print a definition made of reports: their election, and all '
                                   'their units, parties and devices.'),
    'gather': (gather.run, 'Write a folder with a definition and reports, made of what a voting '
                           'system exports.'),
    'journal': (journal.run, 'Run `cvr` with the words after `--`, and note in a file what was run '
                             'over what, and what came of it; or see whether the file was changed.'),
}
# what a command takes beside its options: a definition or journal, and what stands for the rest
TAKEN = {'compare': ('DEF', None), 'definition': (None, 'FILE'), 'gather': (None, 'FROM'),
         'journal': ('JOURNAL', '-- WORD')}
MEANT = {'DEF': 'a report of the election; its own records are not counted',
         'JOURNAL': 'the file with the lines of all runs, which is made where there is none',
         '-- WORD': 'the words of a run of `cvr`, such as `tally DEF FILE`',
         'FILE': 'reports of cast vote records, or folders with them below, named .json',
         'FROM': 'the folders, ZIPs or files of an export'}
MANIFEST = 'a file of lines `batch,ballots` or `device,batch,ballots`'
# the options that take the paths of files from a list
LISTS = {'files_from': 'files', 'one_from': 'one', 'other_from': 'other'}
# the commands whose texts are for a reader, but for those that have another form
TEXTS = (compare.run, gather.run, journal.run, totals.run, trace.run, warnings.run, why.run, without.run,
         writeins.run)
TASK = 'TASK'       # the first word of these: a command of cvr
TASKS = {'lines': lines.TASKS, 'strict': strict.TASKS}
LAST = 'journal'    # whose words stand after `--`, behind its options
FROM = (('--files-from',), 'LIST', {'help': 'a list of the paths of files, one a line, in place of '
                                            'the files; - is standard input'})
NULL = (('--null',), None, {'action': 'store_true', 'help': 'paths in lists end with a NUL byte'})
PLAIN = (('--spreadsheet',), None, {'action': 'store_true', 'help': 'an apostrophe before each cell of CSV '
                                    'that a spreadsheet would take for a formula'})
TEST = (('--test',), None, {'action': 'store_true', 'help': 'takes reports of a test, also beside '
                            'others'})
# each command's options, with what stands for their values
OPTIONS = {
    'records': [
        (('-o',), 'CSV', {'dest': 'output',
                          'help': 'the file to write to, in place of standard output'}),
        (('--columns',), 'FORM', {'choices': list(records.FORMS),
                                  'help': 'another form: `manifest`, `batches`, `cvrs`, `ranks`, '
                                          '`arlo` or `raire`'}),
        PLAIN,
    ],
    'totals': [
        (('--by',), 'GROUP', {'choices': list(totals.GROUPS), 'dest': 'group',
                              'help': 'the sums of each `unit`, `batch`, `device` or `style`'}),
        (('--format',), 'FORM', {'choices': list(totals.FORMS), 'default': 'text', 'dest': 'form',
                                 'help': '`text`, `csv` or `json`'}),
        PLAIN,
        TEST,
        (('-o',), 'OUT', {'dest': 'output',
                          'help': 'the file to write to, in place of standard output'}),
    ],
    'lines': [
        (('--format',), 'FORM', {'choices': ['json'], 'default': 'json', 'dest': 'form',
                                 'help': '`json`'}),
        (('-o',), 'JSON', {'dest': 'output',
                           'help': 'the file to write to, in place of standard output'}),
    ],
    'strict': [TEST],
    'why': [
        (('--format',), 'FORM', {'choices': list(why.FORMS), 'default': 'text', 'dest': 'form',
                                 'help': '`text` or `json`'}),
        (('-o',), 'OUT', {'dest': 'output',
                          'help': 'the file to write to, in place of standard output'}),
    ],
    'writeins': [],
    'without': [],
    'compare': [
        (('--one',), 'FILE', {'nargs': '*', 'help': 'the files of one side'}),
        (('--other',), 'FILE', {'nargs': '*', 'help': 'the files of the other side'}),
        (('--one-from',), 'LIST', {'help': 'a list of paths in place of the files of one side'}),
        (('--other-from',), 'LIST', {'help': 'the same for the other side'}),
        NULL,
    ],
    'trace': [
        (('--contest',), 'ID', {'required': True, 'help': 'the @id of a contest'}),
        (('--unit',), 'ID', {'help': 'only the rows with this BallotStyleUnitId'}),
        (('--batch',), 'ID', {'help': 'only the rows with this BatchId'}),
        (('--selection',), 'ID', {'help': 'the @id of a selection of the contest: its votes, in '
                                          'place of the ballots'}),
    ],
    'page': [
        (('--manifest',), 'CSV', {'help': MANIFEST}),
        (('--public',), None, {'action': 'store_true', 'help': 'a page for the public: no path, no '
                               'record, and no number from which one below ten follows'}),
        (('--second',), 'PROGRAM', {'help': 'a second program, whose `tally` has to print the same'}),
        TEST,
        (('-o',), 'HTML', {'dest': 'output',
                           'help': 'the file to write to, in place of standard output'}),
    ],
    'warnings': [
        (('--manifest',), 'CSV', {'help': MANIFEST}),
        (('--all',), None, {'action': 'store_true', 'help': 'each line also where there are more than '
                            'ten of one kind, which are otherwise folded to their number'}),
    ],
    'definition': [
        TEST,
        (('-o',), 'JSON', {'dest': 'output',
                           'help': 'the file to write to, in place of standard output'}),
    ],
    'gather': [
        (('-o',), 'OUT', {'dest': 'folder', 'required': True,
                          'help': 'the folder to write, which isn\'t there yet'}),
        (('--as',), 'KIND', {'dest': 'kind', 'choices': list(gather.KINDS),
                             'help': 'the kind of the export, in place of recognising it'}),
        TEST,
        (('--incomplete',), None, {'action': 'store_true', 'help': 'goes on where ballots are missing '
                                   'that the export or a manifest states'}),
        (('--manifest',), 'CSV', {'help': MANIFEST}),
        (('--contests',), 'CONTEST=COLUMNS', {'action': 'append',
                                              'help': 'the columns of a table, from 1, that are a contest '
                                                      'each, such as `Council=4-5,6-7`'}),
        (('--left-out',), 'COLUMN', {'action': 'append', 'help': 'the head of a column of ES&S that is no '
                                                                 'contest, and is left out'}),
        (('--means',), 'TEXT=MEANING', {'action': 'append',
                                        'help': 'what a cell of ES&S says, such as `N/A=absent`: `undervote`, '
                                                '`overvote`, `absent` (not on the ballot) or `choice`; of the '
                                                'choices that another form lists only `choice`'}),
        (('--device',), 'NAME', {'action': 'append', 'help': 'the source of the records of each FROM, in '
                                 'the order of these'}),
        (('--votes',), 'CONTEST=N', {'action': 'append',
                                     'help': 'how many votes a contest of Hart allows, by its name or Id'}),
        (('--heads',), 'ORDER', {'choices': list(gather_choices.ORDERS),
                                 'help': 'what stands behind `Vote For N:` in heads of Clear Ballot: '
                                         '`choice:party`, `party:choice` or `choice`'}),
    ],
    'journal': [
        (('--verify',), None, {'action': 'store_true', 'help': 'in place of a run: print what was '
                               'changed, taken out or moved, and the hash of the last line'}),
    ],
}


for name in COMMANDS.keys() - {'compare', 'journal'}:
    OPTIONS[name] += [FROM, NULL]


def taken_of(name):
    return TAKEN.get(name, ('DEF', 'FILE'))


def usage_of(name):
    """The words of a command, as help shows them."""
    definition, files = taken_of(name)
    many = '[%s ...]' if definition else '%s ...'
    many, is_last = [many % files] * bool(files), name == LAST
    parts = ['cvr-audit', name] + [TASK] * (name in TASKS) + [definition] * bool(definition)
    parts += many * (not is_last)
    for words, value, more in OPTIONS[name]:
        value = '[%s ...]' % value if 'nargs' in more else value
        option = ' '.join(filter(None, [words[0], value]))
        parts.append(option if more.get('required') else '[%s]' % option)
    return ' '.join(parts + many * is_last)


class Command:
    """A command with two parsers: one for help, and one for its options alone, as these may stand
    before, between and after the files."""

    def __init__(self, name, commands):
        self.run, about = COMMANDS[name]
        self.options = argparse.ArgumentParser(add_help=False, allow_abbrev=False)
        for words, value, more in OPTIONS[name]:
            self.options.add_argument(*words, **(dict(more, metavar=value) if value else more))
        self.parser = commands.add_parser(name, parents=[self.options], help=about, epilog=EPILOG,
                                          description=about, usage=usage_of(name))
        self.definition, self.files = taken_of(name)
        self.tasks, self.is_last = list(TASKS.get(name, ())), name == LAST
        if self.tasks:
            self.parser.add_argument('task', metavar=TASK, choices=self.tasks,
                                     help='`tally`, `currents`, `conflicts` or `check`')
        if self.definition:
            self.parser.add_argument('definition', metavar=self.definition,
                                     help=MEANT[self.definition])
        if self.files:
            self.parser.add_argument('files', metavar=self.files, help=MEANT[self.files],
                                     nargs='*' if self.definition else '+')
        self.options.error = self.parser.error

    def read(self, words):
        """The words, by name; what follows `--` is no option."""
        place = words.index('--') if '--' in words else len(words)
        if {'-h', '--help'} & {*words[:place]}:
            self.parser.parse_args(['--help'])
        values, left = self.options.parse_known_args(words[:place])
        paths = left + words[place + 1:]
        paths = [] if self.is_last and len(left) != 1 else paths     # the others stand after `--`
        unknown = [it for it in left if it.startswith('-') and it != '-']
        unknown = unknown or ([] if self.files else paths[1:])
        if unknown:
            self.parser.error('unrecognized arguments: ' + ' '.join(unknown))
        if self.tasks:
            values.task = paths.pop(0) if paths else None
            if values.task not in self.tasks:
                self.parser.error('%s has to be one of %s' % (TASK, ', '.join(self.tasks)))
        is_listed = not self.definition and values.files_from is not None
        if not paths and not is_listed:
            needed = self.definition or self.files
            self.parser.error('the following arguments are required: ' + needed)
        values.definition = paths.pop(0) if self.definition else None
        values.run, values.files = self.run, paths if self.files else None
        values.output = getattr(values, 'output', None)
        self.see_lists(values)
        return values

    def see_lists(self, values):
        """Stops where files are given twice, or those of a side not at all."""
        for list_of, place in LISTS.items():
            if not hasattr(values, list_of):
                continue
            held, given = getattr(values, list_of), getattr(values, place)
            if held is not None and given:
                self.parser.error('--%s stands in place of files' % list_of.replace('_', '-'))
            if held is None and given is None:
                self.parser.error('the following arguments are required: --' + place)


class Version(argparse.Action):
    """Prints the version, in the place of a command."""

    def __call__(self, parser, *_):
        output.write('cvr-audit %s\n' % VERSION, None)
        parser.exit()


def parsers():
    """The parser of the first word, and the commands by name."""
    first = argparse.ArgumentParser(prog='cvr-audit', allow_abbrev=False, description=ABOUT,
                                    epilog=EPILOG)
    first.add_argument('--version', action=Version, nargs=0, help='print the version')
    commands = first.add_subparsers(metavar='COMMAND', required=True)
    return first, {name: Command(name, commands) for name in COMMANDS}


def read(words):
    """The words of a command, by name."""
    first, commands = parsers()
    if words and words[0] in commands:
        return commands[words[0]].read(words[1:])
    return first.parse_args(words)


def log(lines):
    """Writes lines to standard error. Where that fails the run goes on, as one of `cvr` does."""
    lines = in_lines(lines.decode('utf-8', 'surrogateescape')).encode('utf-8', 'surrogateescape')
    try:
        # not by Python's own buffer, which would be written once more, and fail, at the end
        with open(sys.stderr.fileno(), 'wb', closefd=False) as file:
            file.write(lines)
    except (AttributeError, OSError):       # standard error is closed, or can't be written
        pass


def sides(words):
    """The files of the run; for `compare` those of each side. The refused ones are logged."""
    found = program.find()
    lists = [words.one, words.other] if words.run is compare.run else [words.files]
    held = []
    for files in lists:
        held.append(program.Files(found, words.definition, files, sys.stderr))
        log(held[-1].shown_log(held[-1].log))
    return held


def find_files(words):
    """Puts the paths of lists and those below folders in the place of these."""
    for list_of, place in LISTS.items():
        path = getattr(words, list_of, None)
        if path is not None:
            setattr(words, place, paths.listed(path, words.null))
        if getattr(words, place, None) and words.run is not gather.run:
            setattr(words, place, paths.files_of(getattr(words, place), words.definition))


def made(words):
    """The text that the words ask for, if there is one, and the status of a run that prints it."""
    try:
        if words.run is journal.run:
            return journal.run(words)
        find_files(words)
        if words.output:
            output.see_apart(words.output, inputs_of(words))
        is_alone = words.definition is None or words.run is why.run
        files = [] if is_alone else sides(words)
        text, is_found = words.run(*files, words)
        for side in files:
            if side.recount:
                side.recount.see()
            side.see_unchanged()
            program.see_one_sort(side.reports, getattr(words, 'test', True))
            text = side.reports.headed(text) if is_headed(words) else text
            log((said_beside(side, words) + side.notes).encode('utf-8', 'surrogateescape'))
    except OSError as fault:
        parts = [str(it) for it in (fault.filename, fault.strerror) if it]
        raise program.ended(program.FAILED, ': '.join(parts)) from None
    return text, 1 if is_found or any(side.status for side in files) else 0


def is_text(words):
    """Whether what is printed is neither JSON, CSV nor a page, nor the text of `cvr` itself."""
    return words.run in TEXTS and getattr(words, 'form', 'text') == 'text'


def is_headed(words):
    """Whether what the reports say of themselves stands before the text."""
    return words.run in (totals.run, strict.run, warnings.run) and getattr(words, 'form', '') != 'json'


def said_beside(side, words):
    """The same for standard error, where it stands neither in the text nor on a page."""
    is_there = is_headed(words) or words.run in (page.run, totals.run)
    lines = () if is_there else side.reports.lines()
    return ''.join('cvr-audit: %s\n' % it for it in lines)


def inputs_of(words):
    """The paths that the words name beside the output."""
    held = [words.definition, getattr(words, 'manifest', None), shutil.which(os.environ.get('CVR') or 'cvr')]
    held += [shutil.which(getattr(words, 'second', None) or '')]
    held += [getattr(words, it, None) for it in LISTS]
    for name in LISTS.values():
        held += getattr(words, name, None) or []
    return [it for it in held if it not in (None, paths.STANDARD)]


def is_secret(words):
    """Whether what is printed shows how ballots were voted."""
    return not getattr(words, 'public', False) and words.run is not definition.run


def main(words):
    """Does what the words ask for; answers the status."""
    try:
        words = read(words)
        text, status = made(words)
        if text is not None:
            output.write(in_lines(text) if is_text(words) else text, words.output, is_secret(words))
        return status
    except program.Ended as end:
        log(end.log)
        return end.status
    except MemoryError:
        log(b'memory\n')
        return program.MEMORY
    except Exception as fault:      # a fault of this program; what a traceback says is no status
        log(program.mismatch('a fault of cvr-audit: %s: %s' % (type(fault).__name__, fault)).log)
        return program.MISMATCH
