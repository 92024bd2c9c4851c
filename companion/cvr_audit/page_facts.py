"""What a page is made from: the texts of `cvr`, and what was seen in records and files."""
from . import counting, excess, manifest, page_counts, page_names, warnings
from .page_records import adjudicated_in


class Seen(warnings.Seen):
    """What was seen in the records; also what adjudication changed in them."""

    def __init__(self, facts):
        super().__init__(facts.files)
        self.facts, self.adjudicated = facts, []

    def take(self, record):
        """Notes a record of volume 1."""
        super().take(record)
        self.adjudicated += adjudicated_in(self.facts, record)


class Facts:
    """What a page is made from."""

    def __init__(self, files, words):
        self.files, self.is_public = files, words.public
        self.names = page_names.Names(files.report)
        self.selections = counting.selections_of(files.report)
        self.write_ins = counting.write_ins_of(files.report)
        self.allowed = excess.allowed_of(files.report)
        self.manifest = manifest.manifest_in(words.manifest) if words.manifest else None
        self.seen = Seen(self)
        self.warnings = list(warnings.found_in(files, words.manifest, self.seen))
        self.refused = dict(files.refused())
        self.devices = devices_in(files)
        self.tally = files.tally()
        self.rows = counting.rows_in(self.tally)
        self.counters = list(page_counts.counters_of(files, words.second))
        self.currents = '\n' + files.text('currents') if self.seen.texts else ''

    def is_ranked(self, contest):
        return self.seen.notes.ranks.is_ranked(contest)


def devices_in(files):
    """The devices that say they made each accepted file."""
    held = {files.definition: files.report['ReportGeneratingDeviceIds']}

    def take(path, report):
        held[path] = report['ReportGeneratingDeviceIds']

    files.each_report(take)
    return held
