"""cvr-audit strict: what a command of cvr prints, unless its definition or a file can't be meant so."""
import os

from . import bodies, reading
from .program import Ended
from .terminal import in_a_line

TASKS = 'check', 'tally', 'currents', 'conflicts'


class Facts:
    """The facts of the definition's devices and of the files so far, and the files that brought none."""

    def __init__(self, files):
        self.held, self.idle = set(), []
        self.add(dict(files.report, CVR=[]))

    def add(self, report):
        """Whether a report has a fact that wasn't there."""
        before = len(self.held)
        self.held.update((*name, reading.digest(it)) for name, it in bodies.facts_of(report))
        return len(self.held) > before

    def take(self, path, report):
        if not self.add(report):
            self.idle.append(path)


def causes(files):
    """What speaks against a run, with the file: R1, DEF has records of its own; R2, no file is given;
    R3, a file brings nothing that the files before it don't have."""
    if files.own_records:
        yield files.definition, 'R1'
    if not files.files:
        yield files.definition, 'R2'
    facts = Facts(files)
    files.each_report(facts.take)
    for path in facts.idle:
        yield path, 'R3'


def run(files, words):
    """The text, and whether there is something to look at."""
    log = b''.join(os.fsencode('%s: %s\n' % (in_a_line(path), rule)) for path, rule in causes(files))
    if log:
        raise Ended(1, log)
    return files.text(words.task), False
