"""JSON of an export: a document whose long array is read item by item, each with its own text."""
import json
import re
from collections import Counter
from contextlib import contextmanager
from functools import partial
from json.decoder import scanstring

from . import definition, program
from . import gather_said as said
from .gather_out import Record
from .gather_source import fault
from .reading import pointer, spelled

UNSURE = 10         # signs at the end of what is held of a text, which may be part of a word or a number
WHITE = re.compile(r'[ \t\n\r]*')
ESCAPED = re.compile(said.ESCAPED)


def no_number(text):
    raise ValueError('%s is no number of JSON' % text)


class Repeated(Exception):
    """A member that stands twice in an object."""


def once(pairs):
    """The members of an object, each once."""
    held = dict(pairs)
    if len(held) < len(pairs):
        (again, _), *_ = Counter(name for name, _ in pairs).most_common(1)
        raise Repeated(again)
    return held


DECODER = json.JSONDecoder(parse_constant=no_number)
STRICT = json.JSONDecoder(parse_constant=no_number, object_pairs_hook=once)


def see_whole(source, text, start, end, lines=0):
    """Stops at half of a pair of surrogates in a part of a text behind so many lines: it would be no sign."""
    for found in ESCAPED.finditer(text, start, end):
        if found.group(1):
            line = lines + text.count('\n', 0, found.start()) + 1
            raise fault(source.name, said.HALF % found.group(), 'line %d' % line)


@contextmanager
def reading(source, lines=lambda: 0):
    """Stops where a source is no JSON; its text is behind so many lines."""
    try:
        yield
    except Repeated as wrong:
        raise fault(source.name, said.TWICE % spelled(wrong.args[0])) from None
    except json.JSONDecodeError as wrong:
        line = 'line %d' % (lines() + wrong.lineno)
        raise fault(source.name, said.NO_JSON % wrong.msg, line) from None
    except (ValueError, RecursionError) as wrong:
        raise fault(source.name, said.NO_JSON % wrong) from None


def is_open(wrong):
    """Whether what is no JSON could be so with more text behind it."""
    return wrong.msg.startswith('Unterminated') or wrong.pos + UNSURE > len(wrong.doc)


# What stands in a text behind white space from an index, and the index behind it.

def sign_at(signs, text, place):
    place = WHITE.match(text, place).end()
    sign = text[place:place + 1]
    if not sign or sign not in signs:
        raise json.JSONDecodeError('Expecting %s' % ' or '.join(signs), text, place)
    return sign, place + 1


def name_at(text, place):
    return scanstring(text, sign_at('"', text, place)[1])


def is_empty_at(text, place):
    """Whether an array ends where its first item could begin."""
    place = WHITE.match(text, place).end()
    if place == len(text):
        raise json.JSONDecodeError('Expecting value', text, place)
    is_empty = text[place] == ']'
    return is_empty, place + is_empty


def end_at(text, place):
    place = WHITE.match(text, place).end()
    if place < len(text):
        raise json.JSONDecodeError('Extra data', text, place)
    return None, place


class Window:
    """The text of a source, of which so much is held as a value needs. Its reader stands at an
    index, and behind so many lines that are no longer held."""

    def __init__(self, source):
        self.source, self.texts, self.is_whole = source, source.texts(), False
        self.text, self.place, self.lines = '', 0, 0

    def take(self, call):
        """What a call answers at the reader's index, once nothing that comes can change it."""
        while True:
            try:
                value, end = call(self.text, self.place)
            except json.JSONDecodeError as wrong:
                if self.is_whole or not is_open(wrong):
                    raise
            else:
                if self.is_whole or end + UNSURE <= len(self.text):
                    break
            self.read_on()
        self.see_size(end - self.place)
        see_whole(self.source, self.text, self.place, end, self.lines)
        self.place = end
        return value

    def see_size(self, size):
        if size > said.VALUE:
            line = self.lines + self.text.count('\n', 0, self.place) + 1
            raise fault(self.source.name, said.TOO_LARGE % said.VALUE, 'line %d' % line)

    def read_on(self):
        """Reads as much again as is held behind the reader, and lets the rest go."""
        held, size = [self.text[self.place:]], len(self.text) - self.place
        self.see_size(size)
        self.lines += self.text.count('\n', 0, self.place)
        wanted = min(2 * size, said.VALUE)
        for text in self.texts:
            held.append(text)
            size += len(text)
            if size > wanted:
                break
        else:
            self.is_whole = True
        self.text, self.place = ''.join(held), 0


class Document:
    """A source whose value is an object. `items` yields the index, the value and the text of each
    item of its array of a name. Once that is done, `rest` has the other members, and `is_there`
    says whether it has that array. DECODER takes the last of members of one name, as `cvr` does."""

    def __init__(self, source, name, decoder=DECODER):
        self.source, self.name, self.decoder = source, name, decoder
        self.rest, self.is_there, self.room = {}, False, said.VALUE

    def items(self):
        if self.source.size > said.TEXT:        # its records are counted once more, in its whole text
            raise fault(self.source.name, said.TOO_LARGE % said.TEXT)
        window = Window(self.source)
        with reading(self.source, lambda: window.lines):
            yield from self.members(window)

    def value_at(self, text, place):
        """A value with its text."""
        start = WHITE.match(text, place).end()
        value, end = self.decoder.raw_decode(text, start)
        return (value, text[start:end]), end

    def members(self, window):
        sign, seen = window.take(partial(sign_at, '{')), set()
        while sign != '}':
            name = window.take(name_at)
            window.take(partial(sign_at, ':'))
            if name in seen:
                raise Repeated(name)
            seen.add(name)
            if name == self.name:
                yield from self.array(window)
            else:
                self.rest[name], text = window.take(self.value_at)
                self.room -= len(text)
                if self.room < 0:
                    raise fault(self.source.name, said.TOO_LARGE % said.VALUE, spelled(name))
            sign = window.take(partial(sign_at, ',}'))
        window.take(end_at)
        self.is_there = self.name in seen

    def array(self, window):
        """The items of the array at which a window's reader stands."""
        sign, number = window.take(partial(sign_at, '[')), 0
        if window.take(is_empty_at):
            return
        while sign != ']':
            yield number, *window.take(self.value_at)
            sign, number = window.take(partial(sign_at, ',]')), number + 1


def value_in(source):
    """The value of a source that is read whole."""
    with reading(source):
        text = source.text(said.VALUE)
        see_whole(source, text, 0, len(text))
        return STRICT.decode(text)


# ---- reports of the standard

def record_of(source, number, value, text):
    """A record of a report, with its own text."""
    place = pointer('CVR', number)
    for name in ('CreatingDeviceId', 'UniqueId'):
        if not isinstance(value, dict) or name not in value:
            raise fault(source.name, said.UNNAMED % name, place)
        if not isinstance(value[name], str):
            raise fault(source.name, said.NO_NAME % name, place)
    return Record(source, place, value['CreatingDeviceId'], value['UniqueId'],
                  text.encode('utf-8'))


def see_frame(cvr, source, frame, above=''):
    """Stops where `cvr` doesn't accept a report without its records."""
    with definition.laid(definition.text_of(frame)) as path:
        done = program.started([cvr, 'check', '--', path])
    if done.returncode == 1:
        found = done.stderr.decode('utf-8', 'replace').strip().rpartition(': ')[2]
        raise fault(source.name, said.REFUSED % found.replace(' /', ' %s/' % above, 1))
    if done.returncode:
        raise program.Ended(done.returncode, done.stderr)


class Names:
    """Counts the records of reports in another way than they are gathered: by their class."""

    def __init__(self):
        self.count, self.names = 0, set()

    def take(self, value):
        if value.get('@type') == definition.RECORD:
            self.count += 1
            self.names.add((value.get('CreatingDeviceId'), value.get('UniqueId')))
            return None
        return value

    def of(self, sources):
        for source in sources:
            json.loads(source.text(), object_hook=self.take)
        return self.count, len(self.names)
