"""The tally, counted again from the records: not by `cvr`, and in another way."""
from . import counting, reading
from .program import mismatch


class Recount:
    """What the records of volume 1 add to each row, added up while they are read."""

    def __init__(self, files):
        self.files, self.rows = files, {}
        self.selections = counting.selections_of(files.report)

    def take(self, record):
        """Counts a record of volume 1; answers what it adds to each of its rows."""
        rows = counting.rows_of(record, reading.current_of(record), self.selections)
        for row, numbers in rows.items():
            counting.add(self.rows, row, numbers)
        return rows

    def see(self):
        """Stops where this count isn't the tally; answers its rows."""
        text = self.files.tally()
        if counting.text_of(self.rows, self.selections) != text:
            raise mismatch('the records don\'t add up to what `cvr tally` prints')
        return counting.rows_in(text)
