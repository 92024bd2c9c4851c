"""What reports say of themselves in OtherReportType: that they are of a test, or that ballots are
missing."""
import re

from . import gather_said as said

WORD = re.compile('[a-z]+')
TYPE, OTHER = 'ReportType', 'OtherReportType'


def words_of(report):
    return WORD.findall(report.get(OTHER, '').lower())


class Reports:
    """The reports that were taken, by path: `tests` are of a test, `parts` are not whole. What is made
    of them may be of a test, whatever they say, and `lacks` is how often ballots are missing in it."""

    def __init__(self):
        self.all, self.tests, self.parts = {}, {}, {}
        self.is_made_test, self.lacks = False, 0

    def take(self, path, report):
        words = words_of(report)
        self.all[path] = True
        if any(it.startswith(said.TESTS) for it in words):
            self.tests[path] = True
        if said.INCOMPLETE in words:
            self.parts[path] = True

    def take_definition(self, path, report):
        """DEF counts as a report only where it says something: one that was written before any ballot
        says nothing."""
        if words_of(report):
            self.take(path, report)

    def mixed(self):
        """What is wrong where some reports are of a test and others aren't, or None."""
        others = [path for path in self.all if path not in self.tests]
        if not self.tests or not others:
            return None
        return said.MIXED % (next(iter(self.tests)), others[0], len(self.tests), len(others))

    def lines(self):
        """What is said before all else."""
        if self.tests or self.is_made_test:
            text = said.MADE_TEST if self.is_made_test else said.OF_A_TEST
            yield text % (len(self.tests), len(self.all))
        if self.lacks:
            yield said.MADE_PART % self.lacks
        if self.parts:
            yield said.NOT_WHOLE % (len(self.parts), len(self.all))

    def headed(self, text):
        """A text behind what is said before all else."""
        return ''.join(it + '\n' for it in self.lines()) + text

    def members(self):
        """The members of a report that is made of these."""
        words = [said.TESTS[0]] * bool(self.tests or self.is_made_test)
        words += [said.INCOMPLETE] * bool(self.parts or self.lacks)
        return {TYPE: ['other'], OTHER: ','.join(words)} if words else {}
