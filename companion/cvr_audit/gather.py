"""cvr-audit gather: makes what a voting system exports into a definition and reports that `cvr`
accepts. docs/GATHER.md has the forms that are read."""
import os
import re
import sys

from . import (gather_cdf, gather_clearballot, gather_devices, gather_dominion, gather_dominion_json, gather_ess,
               gather_hart, gather_vxsuite, page_faults, program)
from . import gather_said as said
from .gather_out import DEFINITION, writing
from .gather_source import fault, sources_in
from .gather_words import Meanings
from .progress import Progress
from .reading import spelled
from .terminal import in_a_line

KINDS = {
    'vxsuite': gather_vxsuite,
    'cdf': gather_cdf,
    'dominion': gather_dominion,
    'dominion-json': gather_dominion_json,
    'ess': gather_ess,
    'hart': gather_hart,
    'clearballot': gather_clearballot,
}
# the options that not every kind reads
OF_KINDS = {'contests': ('dominion', 'clearballot', 'ess'), 'heads': ('clearballot',), 'votes': ('hart',), 'left_out': ('ess',),
            'device': ('dominion', 'dominion-json', 'ess', 'clearballot'),
            'means': ('dominion', 'dominion-json', 'ess', 'hart', 'clearballot')}
RECORD = re.compile(r'/CVR/(\d+)')
UNKNOWN = ('no form of export is recognised here (%s); if it is one of these, name it with --as, '
           'and see docs/GATHER.md' % ', '.join(KINDS))
UTF_16 = b'\xff\xfe', b'\xfe\xff'
WORKBOOK = 'it is a workbook of Excel; have the records exported as CSV in UTF-8'


def recognised(sources, paths):
    """The only kind to which something of the sources belongs."""
    found = [name for name, kind in KINDS.items() if any(map(kind.fits, sources))]
    if len(found) == 1:
        return found[0]
    for source in sources if not found else ():
        if source.name.endswith('/xl/workbook.xml'):
            raise fault(paths[0], WORKBOOK)
        if source.head().startswith(UTF_16):
            raise fault(source.name, said.NO_TEXT, 'line 1')
    if found:
        raise fault(paths[0], 'there is more than one kind here: %s; name one with --as'
                    % ', '.join(found))
    raise fault(paths[0], UNKNOWN)


def refused(out, log):
    """The end where `cvr` refuses what was written: its fault, at the place in the source."""
    lines = log.decode('utf-8', 'replace').split('\n')
    name, found = lines[0].rpartition(': ')[::2] if lines else ('', '')
    name = os.path.basename(name)
    place = RECORD.search(found)
    source, where = (name, None)
    if place and name in out.files:
        source, where = out.place_of(name, int(place.group(1)))
        found = found.replace(place.group(), '', 1)
    what, _ = page_faults.in_words(found) if found[:2] in page_faults.CODES else ('', None)
    return fault(source, ' '.join(it for it in ('cvr refuses it:', found, what) if it), where)


def see_accepted(cvr, out):
    """The number of records that `cvr check` prints, and what `cvr currents` prints."""
    paths = [out.at(DEFINITION)] + [out.at(name) for name in out.files]
    done = program.started([cvr, 'check', '--'] + paths)
    if done.returncode == 1:
        raise refused(out, done.stderr)
    if done.returncode:
        raise program.Ended(done.returncode, done.stderr)
    counts = program.accepted_in(paths[1:], done.stdout)
    done = program.started([cvr, 'currents', '--'] + paths)
    if done.returncode:
        raise program.Ended(done.returncode, done.stderr)
    return [count for _, count in counts], done.stdout


def see_counts(cvr, kind, sources, out, report):
    """Stops where the records that `cvr` reads are not as many as those of the sources, which are
    counted here in another way. Notes those that name another snapshot than `cvr` counts."""
    counts, currents = see_accepted(cvr, out)
    expected, names = kind.count(sources), currents.count(b'\n')
    if (sum(counts), names) != expected:
        text = ('cvr reads %d records with %d names, but the sources have %d with %d; nothing is '
                'written' % (sum(counts), names, *expected))
        raise program.mismatch(text)
    for note in out.named.notes(currents, report) if out.named else ():
        out.note(note)
    return counts


def text_of(name, words, out, counts, sources):
    """What is printed: the kind, the reports with their records, and what isn't in them."""
    lines = ['kind %s' % name] + gather_devices.lines_of(words)
    lines += ['%s %d' % (in_a_line(os.path.join(words.folder, file)), count)
              for file, count in zip(out.files, counts)]
    lines += ['left out %s' % spelled(it.name) for it in sources
              if it.digest is None and not KINDS[name].stays(it)]
    return out.reports.headed(''.join(line + '\n' for line in lines + out.left))


def see_options(words, name):
    """Stops at an option that the kind doesn't read."""
    for option, kinds in OF_KINDS.items():
        if getattr(words, option) and name not in kinds:
            raise program.ended(program.WORDS, '--%s is of the kinds %s alone, and this export is of the '
                                'kind %s' % (option.replace('_', '-'), ', '.join(kinds), name))


def see_said(out, report, words):
    """Gives the definition what the sources say of themselves. With --test all of it is of a test."""
    program.see_one_sort(out.reports, words.test)
    out.reports.is_made_test = words.test
    if words.manifest:
        out.see_manifest(words.manifest)
    report.update(out.reports.members())


def run(words):
    """Writes the folder; the text says what it has."""
    cvr, progress = program.find(), Progress(sys.stderr, 2)
    gather_devices.see_names(words)
    words.meanings = Meanings(words.means)
    sources = sources_in(words.files, words.device)
    name = words.kind or recognised(sources, words.files)
    kind = KINDS[name]
    if not any(map(kind.fits, sources)):
        raise fault(words.files[0], 'nothing here is of the kind %s' % name)
    see_options(words, name)
    with writing(words.folder) as out:
        out.take(words)
        out.way = gather_devices.WAY if name in OF_KINDS['device'] else ''
        try:
            progress.show('read %d sources of the kind %s' % (len(sources), name))
            report = kind.read(sources, out, cvr, words)
            words.meanings.see(out, 'cell' if name == 'ess' else 'choice')
            see_said(out, report, words)
            gather_devices.see_distinct(sources)
            if not out.count:
                raise fault(words.files[0], said.NO_RECORD % name)
            if not report['Election'][0]['Contest']:
                raise fault(words.files[0], said.NO_CONTEST)
            out.finish(report, sources)
            progress.show('cvr check: %d records' % out.count)
            counts = see_counts(cvr, kind, sources, out, report)
        finally:
            progress.end()
        text = text_of(name, words, out, counts, sources)
        out.keep()
    return text, False
