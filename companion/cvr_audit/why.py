"""cvr-audit why: each refused file in words, with what stands at the place of its fault."""
import json
import sys

from . import instead, page_faults, program, reading, written
from .compare import ABSENT, members
from .reading import spelled
from .terminal import in_a_line

MOST = 200          # characters of a value, or members of an object, that are shown
FORMS = 'text', 'json'
REPORT = 'CVR.CastVoteRecordReport'
FORM, AGREEMENT = 'E3', 'E5'
# what an item of each array is called
ITEMS = {
    'Election': 'election', 'Contest': 'contest', 'ContestSelection': 'selection',
    'Candidate': 'candidate', 'GpUnit': 'precinct or other unit', 'Party': 'party',
    'ReportingDevice': 'device', 'CVR': 'record', 'CVRSnapshot': 'snapshot',
    'CVRContest': 'contest', 'CVRContestSelection': 'selection', 'SelectionPosition': 'mark',
    'Annotation': 'note of an adjudicator',
}


class Number(str):
    """A number as it is spelled in a file."""


def value_of(path):
    """The value of a file, in which numbers are as they are spelled; None of one that is no JSON."""
    with open(path, encoding='utf-8') as file:
        try:
            return json.load(file, parse_int=Number, parse_float=Number)
        except (ValueError, RecursionError):
            return None


def steps_in(path):
    """The steps of a JSON Pointer."""
    return [it.replace('~1', '/').replace('~0', '~') for it in path.split('/')[1:]]


def steps_of(place):
    """The steps of a path, as a log line has it."""
    return steps_in(json.loads('"%s"' % place))


def at(value, steps):
    """What stands at the end of steps: (whether something does, the value)."""
    for step in steps:
        if isinstance(value, list) and step.isdigit() and int(step) < len(value):
            value = value[int(step)]
        elif isinstance(value, dict) and step in value:
            value = value[step]
        else:
            return False, None
    return True, value


def where(steps):
    """A place in words: members, and the items that have them, numbered from 1."""
    items, rest = [], steps[2:] if len(steps) > 2 and steps[0] == 'Election' else list(steps)
    while len(rest) > 1 and rest[0] in ITEMS and rest[1].isdigit():
        items.append('%s %d' % (ITEMS[rest[0]], int(rest[1]) + 1))
        rest = rest[2:]
    said = ' of '.join(it for it in ('/'.join(rest), ', '.join(items)) if it)
    return cut(said) or page_faults.WHOLE


def cut(text):
    return text if len(text) <= MOST else text[:MOST] + '…'


def shown(value):
    """A value, cut: of an object or an array what is in it."""
    if isinstance(value, dict):
        return cut('an object with ' + ', '.join(map(spelled, list(value)[:MOST]))) if value else '{}'
    if isinstance(value, list):
        return 'an array of %d items' % len(value)
    return cut(value if isinstance(value, Number) else spelled(value))


def record_of(value, steps):
    """The names of the record in which a place is, as far as it has them."""
    if steps[:1] != ['CVR'] or len(steps) < 2:
        return None
    names = [at(value, steps[:2] + [it])[1] for it in ('CreatingDeviceId', 'UniqueId')]
    return [it if type(it) is str else None for it in names]


def difference(path, report, steps):
    """The first place in which an object differs from that of the definition, with both values there; where
    the definition has no such object, that is its id."""
    one = at(reading.report(path), steps)[1]
    other = next((it for it in report.get(steps[0], []) if it['@id'] == one['@id']), None)
    if other is None:
        return reading.pointer(*steps, '@id'), spelled(one['@id']), ABSENT
    where, texts = next(members(one, other, reading.pointer(*steps)))
    return where, *map(cut, texts)


def is_report(value):
    return isinstance(value, dict) and value.get('@type') == REPORT


def told(path, fault, report):
    """What is said of a refused file, beside the definition's value."""
    code = fault.split(' ', 1)[0]
    place, rule = page_faults.place_in(fault)
    means, advice = page_faults.in_words(fault)
    made = {'file': path, 'code': code, 'rule': rule, 'path': None, 'where': None, 'record': None,
            'value': None, 'around': None, 'definition': None, 'seems': None, 'kind': None,
            'means': means, 'do': advice}
    value = value_of(path) if code not in ('E1', 'E2') else None
    if code == 'E2' or code == FORM and not is_report(value):
        made['seems'], advice, made['kind'] = instead.seems(path, code != 'E2')
        made['do'] = advice or made['do']
    if value is None or not place:
        return made
    steps = steps_of(place) if place.startswith('/') else []
    made['path'], made['record'] = reading.pointer(*steps), record_of(value, steps)
    is_there, found = at(value, steps)
    made['value'] = shown(found) if is_there else ABSENT
    made['around'] = None if is_there else shown(at(value, steps[:-1])[1])
    if code == AGREEMENT:
        made['path'], made['value'], made['definition'] = difference(path, report, steps)
    made['where'] = where(steps_in(made['path']))
    return made


def refused_by(words):
    """The files, and each that is refused with its fault; DEF alone, where it is refused."""
    try:
        files = program.Files(program.find(), words.definition, words.files, sys.stderr)
    except program.Ended as end:
        fault, _ = program.line_of(words.definition, b': ', end.log, 0)
        if end.status != 1 or not fault:
            raise
        return None, [(words.definition, fault.decode('utf-8'))]
    return files, list(files.refused())


def lines_of(made):
    """The lines on a file, for a reader."""
    place = [it for it in (made['path'], made['rule']) if it is not None]
    yield 'refused', ' '.join([spelled(made['file']), made['code'], *map(str, place)])
    yield 'means', made['means']
    for name in 'where', 'record', 'value', 'around', 'definition', 'seems', 'kind':
        held = made[name]
        if held is not None:
            yield name, ' '.join(map(spelled, held)) if name == 'record' else held
    yield 'do', made['do']


def run(words):
    """The text, and whether a file is refused."""
    files, refused = refused_by(words)
    made = [told(path, fault, files and files.report) for path, fault in refused]
    if files:
        files.see_unchanged()
    if words.form == 'json':
        return written.text_of({'schema': 'cvr-audit why 1', 'refused': made}), bool(made)
    return ''.join(in_a_line('%s %s' % it) + '\n' for one in made for it in lines_of(one)), bool(made)
