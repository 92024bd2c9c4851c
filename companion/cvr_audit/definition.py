"""cvr-audit definition: a definition made of reports: their Election, and all their units, parties
and devices, without a record."""
import json
import os
import sys
import tempfile
from contextlib import contextmanager

from . import VERSION, compare, program, reading, testing
from .progress import Progress
from .reading import spelled

KINDS = 'GpUnit', 'Party', 'ReportingDevice'
RECORD = 'CVR.CVR'
NOTES = ('Made, as by cvr-audit %s, of what reports of cast vote records say of their election. '
         'It was not written before the first ballot.' % VERSION)


def without_record(value):
    """Nothing in the place of a record, so that records take no room."""
    return None if value.get('@type') == RECORD else value


def frame_of(path):
    """An accepted report without its records."""
    with open(path, encoding='utf-8') as file:
        return dict(json.load(file, object_hook=without_record), CVR=[])


class Union:
    """What the reports that were taken say of their election. `status` is that of a run which they
    end by disagreeing."""

    def __init__(self, status=1):
        self.status, self.election, self.dates, self.makers = status, None, [], set()
        self.held = {kind: {} for kind in KINDS}    # by id: the object, and the path of its report

    def take(self, path, report):
        """Adds the frame of a report, which agrees with those before."""
        first = self.election or (report['Election'], path)
        self.see_same('/Election', path, report['Election'], first)
        self.election = first
        self.dates.append(report['GeneratedDate'])
        self.makers.update(report['ReportGeneratingDeviceIds'])
        for kind in KINDS:
            for place, one in enumerate(report.get(kind, [])):
                self.take_object(kind, path, one, reading.pointer(kind, place))

    def take_object(self, kind, path, one, place):
        """Adds an object. Two texts of a device are no fault: `cvr` doesn't compare devices, and
        `cvr conflicts` lists them; the greater text is kept, as in volume 1 of `cvr merge`."""
        held = self.held[kind].setdefault(one['@id'], (one, path))
        if kind != 'ReportingDevice':
            self.see_same(place, path, one, held)
        elif spelled(one) > spelled(held[0]):
            self.held[kind][one['@id']] = one, path

    def see_same(self, place, path, one, first):
        """Stops at the first member in which an object differs from that of an earlier report."""
        value, before = first
        difference = next(compare.members(value, one, place), None)
        if difference:
            where, (old, new) = difference
            text = '%s: %s %s, %s %s' % (where, before, old, path, new)
            raise program.ended(self.status, text)

    def report(self):
        """The definition: objects by the bytes of their ids, whatever the order of the reports."""
        made = {'@type': 'CVR.CastVoteRecordReport', 'Version': '1.0.0', 'Notes': NOTES,
                'GeneratedDate': min(self.dates), 'ReportGeneratingDeviceIds': sorted(self.makers)}
        for kind, held in self.held.items():
            if held or kind != 'Party':
                made[kind] = [held[name][0] for name in sorted(held)]
        return dict(made, Election=self.election[0], CVR=[])


def text_of(report):
    return json.dumps(report, ensure_ascii=False, indent=1) + '\n'


def see_accepted(cvr, words):
    """Stops where `cvr check` refuses one of these files, with its lines."""
    done = program.started([cvr, 'check', '--'] + words)
    if done.returncode:
        raise program.Ended(done.returncode, program.in_order(words, done.stderr))


@contextmanager
def laid(text):
    """The path of a file with a text, which is there as long as it is used."""
    with tempfile.TemporaryDirectory() as folder:
        path = os.path.join(folder, 'definition.json')
        with open(path, 'w', encoding='utf-8') as file:
            file.write(text)
        yield path


def run(words):
    """The definition, once `cvr` has accepted it and, under it, each of the reports."""
    cvr, union, reports = program.find(), Union(), testing.Reports()
    progress = Progress(sys.stderr, len(words.files))
    marks = {path: program.mark_of(path) for path in words.files}
    try:
        for place, path in enumerate(words.files):
            progress.show('read %d of %d files' % (place, len(words.files)))
            see_accepted(cvr, [path])
            frame = frame_of(path)
            reports.take(path, frame)
            union.take(path, frame)
    finally:
        progress.end()
    program.see_one_sort(reports, words.test)
    text = text_of({**union.report(), **reports.members()})
    with laid(text) as path:
        see_accepted(cvr, [path] + words.files)
    for path, mark in marks.items():
        if program.mark_of(path) != mark:
            raise program.mismatch('%s was changed while it was read' % path)
    return text, False
