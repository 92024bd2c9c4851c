"""How reports are read: a file whole, a volume record by record. Also names and places in them."""
import hashlib
import io
import json
import re

HEAD = '{"@type":"CVR.CastVoteRecordReport","CVR":['      # of a volume that has records
SIZE = 1 << 20
DECODER = json.JSONDecoder()
ENCODER = json.JSONEncoder(ensure_ascii=False, sort_keys=True, separators=(',', ':'))
WORD = re.compile(r'"[^"\\]*(?:\\.[^"\\]*)*"|[^ ]+')


def report(path):
    """The value of an accepted file."""
    with open(path, encoding='utf-8') as file:
        return json.load(file)


def spelled(value):
    """A text as a JSON string, as the program prints it; any value as its compact text."""
    return ENCODER.encode(value)


def digest(value):
    """A substitute for the compact text of a value, where many such texts would take too much room."""
    return hashlib.sha256(spelled(value).encode('utf-8')).digest()


def words_of(line):
    """The parts of a printed line: JSON strings, which may contain spaces, numbers and words."""
    return WORD.findall(line)


def name_of(record):
    return record['CreatingDeviceId'], record['UniqueId']


def header_of(record):
    """The header of a record: all but its snapshots and its own CurrentSnapshotId."""
    outside = 'CVRSnapshot', 'CurrentSnapshotId'
    return {name: part for name, part in record.items() if name not in outside}


def current_of(record):
    """The current snapshot of a record of volume 1."""
    current = record['CurrentSnapshotId']
    return next(it for it in record['CVRSnapshot'] if it['@id'] == current)


def pointer(*steps):
    """A JSON Pointer (RFC 6901) of these steps."""
    return ''.join('/' + str(step).replace('~', '~0').replace('/', '~1') for step in steps)


class Volume:
    """A written volume. Its records are read one at a time, in order, once; `rest` is the report
    without them, once the last of them is read."""

    def __init__(self, file):
        self.file, self.rest = io.TextIOWrapper(file, encoding='utf-8', newline=''), None

    def __iter__(self):
        return (record for record, _ in self.with_texts())

    def with_texts(self):
        """The records, each with its text, which is compact."""
        text = self.file.read(SIZE)
        has_records = text.startswith(HEAD)
        place = len(HEAD) if has_records else 0
        while has_records:
            record, text, start, place = self.next_value(text, place)
            yield record, text[start:place]
            if place == len(text):
                text, place = self.file.read(SIZE), 0
            has_records, place = text[place] == ',', place + 1
        rest = text[place:] + self.file.read()
        self.rest = json.loads('{"CVR":[]' + rest if place else rest)
        self.file.close()

    def next_value(self, text, place):
        """The value that begins at an index, the text in which it ends, and the indices there of its
        beginning and its end."""
        while True:
            try:
                value, end = DECODER.raw_decode(text, place)
                return value, text, place, end
            except ValueError:
                # twice as much each time, so that a long value takes few attempts
                more = self.file.read(max(SIZE, len(text) - place))
                if not more:
                    raise
                text, place = text[place:] + more, 0
