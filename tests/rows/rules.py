#!/usr/bin/env python3
"""rules.py: the rules of docs/FORMAT.md, read from its tables, and the fault that they give a file.

It is a second reading of the format, beside the definitions and the code: slow, short and in another language.
members.py takes the answers of its rows from it; changes.py changes it rule by rule and reports changes that no row
notices."""
import copy
import itertools
import json
import os
import re
from datetime import date

TOP = os.path.dirname(os.path.dirname(os.path.dirname(os.path.abspath(__file__))))
FORMAT = os.path.join(TOP, 'docs', 'FORMAT.md')
# A date-time as `jiff` reads it, with an offset.
MOMENT = re.compile(r'((?P<sign>[+-])00)?(?P<year>\d{4})(?P<dash>-?)(?P<month>\d\d)(?P=dash)(?P<day>\d\d)[Tt ]'
                    r'(?P<hour>\d\d)((?P<colon>:?)(?P<minute>\d\d)((?P=colon)(?P<second>\d\d)([.,](?P<fraction>\d{1,9}))?)?)?'
                    r'([Zz]|[+-](?P<off>\d\d)((?P<mark>:?)(?P<offm>\d\d)((?P=mark)(?P<offs>\d\d)'
                    r'([.,](?P<tenth>\d)\d{0,8})?)?)?)', re.ASCII)
NUMBERS = 'year', 'month', 'day', 'hour', 'minute', 'second', 'off', 'offm', 'offs', 'tenth'
FIRST_SECOND, LAST_SECOND = -377705023201, 253402207200     # since 1970: the range of instants in `jiff`
CYCLE = 146097              # the days of 400 years
TEXT = re.compile(r'"(?:[^"\\]|\\.)*"', re.S)
STEPS = {ord('['): 1, ord('{'): 1, ord(']'): -1, ord('}'): -1}
NO_BRACKETS = bytes(set(range(256)) - set(STEPS))


class Fault(Exception):
    """The fault of a refused file, as a log line has it."""


class Bad:
    """A number that isn't whole."""


class Rules:
    """The tables and bounds of the format, as data."""

    def __init__(self):
        with open(FORMAT, encoding='utf-8') as file:
            text = file.read()
        self.lists = dict(self.enumerations(part_of(text, 'Enumerations')), **{'1.0.0': ['1.0.0']})
        self.classes = dict(self.tables(part_of(text, 'Class tables')))
        self.references = dict(self.targets(part_of(text, 'References')))
        self.walked = {name: list(table) for name, table in self.classes.items()}
        self.agreeing = ['Election', 'GpUnit', 'Party']
        self.is_read_otherwise = False
        self.most_bytes, self.most_nested, self.most_count = 67108864, 127, 4294967295
        self.least_whole, self.most_whole = -9223372036854775808, 18446744073709551615
        self.is_moment = is_moment

    @staticmethod
    def enumerations(text):
        rows = lines_of(text.replace('| Enumeration | Text | Meaning |', ''), r'(\w+) \| ([\w-]+) \| .*')
        for name, found in itertools.groupby(rows, key=lambda row: row[0]):
            yield name, [row[1] for row in found]

    @staticmethod
    def tables(text):
        """The table of each class: whether a member is required, its kind, and the rule against repeats or 0."""
        for part in text.split('\n### ')[1:]:
            head, _, rest = part.partition('\n')
            rows = lines_of(rest.replace('| Member | | Kind | Repeats |', ''), r'`([^`]+)` \| ([RO]) \| (.*?) \|(?: rule (\d+))?')
            for name in head.split(', '):
                yield name, {member: [need == 'R', kind_of(kind), int(rule or 0)]
                             for member, need, kind, rule in sorted(rows, key=lambda row: in_bytes(row[0]))}

    @staticmethod
    def targets(text):
        for members, named in lines_of(text.replace('| Member | Names |', ''), r'(`.*?`) \| (.*?)'):
            for name, member in re.findall(r'`(\w+)\.(\w+)`', members):
                yield (name, member), re.search(r'ReportingDevice|GpUnit|Party|Candidate|Election$|CVRSnapshot|contest|selection', named).group()

    def copy(self):
        return copy.deepcopy(self)


def lines_of(text, pattern):
    """What a pattern finds in each line of a table."""
    found = [re.fullmatch(r'\| %s \|' % pattern, line) for line in text.splitlines() if line[:2] == '| ']
    if None in found:
        raise ValueError('docs/FORMAT.md has a line that is read by no pattern')
    return [one.groups() for one in found]


def part_of(text, head):
    return text.split('\n## %s\n' % head)[1].split('\n## ')[0]


def split_at_commas(text):
    """The parts of a text between its commas outside brackets."""
    parts, depth = [''], 0
    for sign in text:
        depth += (sign == '(') - (sign == ')')
        if sign == ',' and not depth:
            parts.append('')
        else:
            parts[-1] += sign
    return [part.strip() for part in parts]


def kind_of(text):
    """A kind as [word, ..]: `listed` with its list's name, `classes` with their names, `array` with kind, least and
    most."""
    word, _, rest = text.partition('(')
    parts = split_at_commas(rest[:-1]) if rest else []
    if word == 'listed':
        return ['listed', parts[0].strip('`')]
    if word == 'classes':
        return ['classes', parts]
    if word == 'array':
        return ['array', kind_of(parts[0]), int(parts[1]) if parts[1:] else 0, int(parts[2]) if parts[2:] else None]
    return [word]


# ---- from the bytes to the value

def no_json(*_):
    raise Fault('E2')


def is_deeper(data, most):
    """Whether arrays and objects are nested deeper than `most`; brackets in texts don't count."""
    if data.count(b'[') + data.count(b'{') <= most:
        return False
    signs = re.sub(rb'"(?:[^"\\]|\\.)*"?', b'', data, flags=re.S).translate(None, NO_BRACKETS)
    return any(depth > most for depth in itertools.accumulate(map(STEPS.get, signs)))


def read(rules, data):
    """The value of a file's bytes; each of its numbers is whole."""
    if len(data) > rules.most_bytes:
        raise Fault('E1')
    bad = []

    def integer(text):
        return int(text) if text != '-0' and rules.least_whole <= int(text) <= rules.most_whole else fraction(text)

    def fraction(text):
        if abs(float(text)) == float('inf'):
            no_json()
        bad.append(text)
        return Bad()

    try:
        if is_deeper(data, rules.most_nested):
            no_json()
        value = json.loads(data.decode('utf-8'), parse_int=integer, parse_float=fraction, parse_constant=no_json)
        for text in TEXT.findall(data.decode('utf-8')) if b'\\u' in data else ():
            json.loads(text).encode('utf-8')        # half a surrogate pair is no text, even in an overridden member
    except (ValueError, RecursionError):
        raise Fault('E2') from None
    if bad:
        see_numbers(value, ())
    return value


# ---- the form

def told(code, path, rule=None):
    """The fault at a path, which is given as its names and indices."""
    path = ''.join('/' + str(name).replace('~', '~0').replace('/', '~1') for name in path)
    path = json.dumps(path, ensure_ascii=False)[1:-1]
    return Fault('%s %s%s' % (code, path, ' %d' % rule if rule else ''))


def in_bytes(name):
    return name.encode('utf-8')


def see_numbers(value, path):
    """Stops at the first number that isn't whole."""
    if isinstance(value, Bad):
        raise told('E3', path, 14)
    names = sorted(value, key=in_bytes) if isinstance(value, dict) else range(len(value)) if isinstance(value, list) else ()
    for name in names:
        see_numbers(value[name], path + (name,))


def numbers_of(text):
    """The numbers of a date-time with an offset, 0 for one that is left out; None for any other text."""
    found = MOMENT.fullmatch(text)
    if not found or found['sign'] == '-' and found['year'] == '0000':
        return None
    part = {name: int(found[name] or 0) for name in NUMBERS}
    part['nanoseconds'] = int((found['fraction'] or '0').ljust(9, '0'))
    return dict(part, year=-part['year'] if found['sign'] == '-' else part['year'])


def offset_of(part):
    """The seconds of an offset, rounded."""
    return part['off'] * 3600 + part['offm'] * 60 + part['offs'] + (part['tenth'] >= 5)


def instant(text):
    """The nanoseconds of a date-time with an offset, counted from the same day for all."""
    part = numbers_of(text)
    days = date(part['year'] % 400 + 400, part['month'], part['day']).toordinal() + part['year'] // 400 * CYCLE
    clock = part['hour'] * 3600 + part['minute'] * 60 + min(part['second'], 59)
    return (days * 86400 + clock + (1 if is_behind(text) else -1) * offset_of(part)) * 10 ** 9 + part['nanoseconds']


def is_behind(text):
    """Whether the offset of a date-time is behind UTC."""
    return '-' in re.split('[Tt ]', text)[1]


def is_moment(text):
    part = numbers_of(text)
    if not part:
        return False
    leap = part['year'] % 4 == 0 and (part['year'] % 100 != 0 or part['year'] % 400 == 0)
    days = [31, 29 if leap else 28, 31, 30, 31, 30, 31, 31, 30, 31, 30, 31]
    return (1 <= part['month'] <= 12 and 1 <= part['day'] <= days[part['month'] - 1] and part['hour'] < 24
            and part['minute'] < 60 and part['second'] <= 60
            and part['offm'] < 60 and part['offs'] < 60 and offset_of(part) < 26 * 3600
            and FIRST_SECOND <= (instant(text) - instant('1970-01-01T00:00:00Z')) // 10 ** 9 <= LAST_SECOND)


def is_number(value):
    return isinstance(value, int) and not isinstance(value, bool)


def is_text(value):
    return isinstance(value, str)


KIND_OF = {'text': is_text, 'name': is_text, 'listed': is_text, 'moment': is_text, 'count': is_number, 'whole': is_number,
           'truth': lambda it: isinstance(it, bool), 'array': lambda it: isinstance(it, list)}


def rule_of(rules, value, kind):
    """The rule that a value of the right JSON kind breaks by itself, or 0."""
    word = kind[0]
    if word == 'array':
        return 8 if len(value) < kind[2] else 9 if kind[3] is not None and len(value) > kind[3] else 0
    broken = {'name': (6, lambda: value == ''), 'listed': (4, lambda: value not in rules.lists[kind[1]]),
              'count': (7, lambda: not 0 <= value <= rules.most_count), 'moment': (11, lambda: not rules.is_moment(value))}
    return broken[word][0] if word in broken and broken[word][1]() else 0


def see(rules, value, kind, path, repeated=0):
    """Stops at the first fault of a value that has to be of a kind. `repeated`: rule 12 or 13, which repeated ids in it
    break, or 0."""
    if kind[0] == 'fractional':
        raise told('E3', path, 10)
    if kind[0] == 'classes':
        return see_object(rules, value, kind[1], path)
    rule = rule_of(rules, value, kind) if KIND_OF[kind[0]](value) else 3
    if rule:
        raise told('E3', path, rule)
    if kind[0] == 'array':
        see_items(rules, value, kind[1], path, repeated)


def see_items(rules, items, kind, path, repeated):
    name, seen = {0: None, 12: '@id', 13: 'ContestId'}[repeated], set()
    for place, item in enumerate(items):
        text = item.get(name) if isinstance(item, dict) else None
        if kind[0] == 'classes':
            see_object(rules, item, kind[1], path + (place,), (name, repeated) if is_text(text) and text in seen else None)
        else:
            see(rules, item, kind, path + (place,))
        seen |= {text} if is_text(text) else set()


def see_object(rules, value, classes, path, again=None):
    """`again`: the member whose text an earlier item also has, and the rule that this breaks."""
    if not isinstance(value, dict):
        raise told('E3', path, 1)
    stated = value.get('@type')
    rule = 2 if '@type' not in value else 3 if not is_text(stated) else 5 if stated[:4] != 'CVR.' or stated[4:] not in classes else 0
    if rule:
        raise told('E3', path + ('@type',), rule)
    table = rules.classes[stated[4:]]
    for member in sorted(set(table) | {again[0]}, key=in_bytes) if again else table:
        row = table.get(member)
        if row and member in value:
            see(rules, value[member], row[1], path + (member,), row[2])
        elif row and row[0]:
            raise told('E3', path + (member,), 2)
        if again and member == again[0]:
            raise told('E3', path + (member,), again[1])


# ---- references and agreement

def items_of(value, member):
    return value.get(member, [])


class Scope:
    """What can be named in a report, by the word that `Rules.targets` has for it."""

    def __init__(self, report):
        election = (items_of(report, 'Election') or [{}])[0]
        contests = items_of(election, 'Contest')
        held = {name: items_of(report, name) for name in ('ReportingDevice', 'GpUnit', 'Party', 'Election')}
        held.update({'Candidate': items_of(election, 'Candidate'), 'contest': contests})
        held['any selection'] = [it for contest in contests for it in items_of(contest, 'ContestSelection')]
        held['any CVRSnapshot'] = [it for cvr in items_of(report, 'CVR') for it in items_of(cvr, 'CVRSnapshot')]
        self.ids = {name: {it['@id'] for it in items} for name, items in held.items()}
        self.selections = {it['@id']: {inner['@id'] for inner in items_of(it, 'ContestSelection')} for it in contests}

    def under(self, value, name):
        """The scope inside an object of a class."""
        inner = copy.copy(self)
        if name == 'CVR':
            inner.ids = dict(self.ids, CVRSnapshot={it['@id'] for it in items_of(value, 'CVRSnapshot')})
        if name == 'CVRContest':
            inner.ids = dict(self.ids, selection=self.selections.get(value['ContestId']))
        return inner


def see_references(rules, value, scope, path):
    """Stops at the first text that names nothing."""
    name = value['@type'][4:]
    scope = scope.under(value, name) if name in ('CVR', 'CVRContest') else scope
    for member in rules.walked[name]:
        part, at = value.get(member), path + (member,)
        known = scope.ids[rules.references[name, member]] if (name, member) in rules.references else None
        for text, where in ((it, at + (place,)) for place, it in enumerate(part)) if isinstance(part, list) else [(part, at)]:
            if known is not None and member in value and text not in known:
                raise told('E4', where)
            if isinstance(text, dict):
                see_references(rules, text, scope, where)


def spelled(value):
    return json.dumps(value, sort_keys=True, ensure_ascii=False)


def see_agreement(rules, report, definition):
    """Stops at the first object that isn't the definition's."""
    for member in rules.agreeing:
        known = {item['@id']: spelled(item) for item in items_of(definition, member)}
        for place, item in enumerate(items_of(report, member)):
            if known.get(item['@id']) != spelled(item):
                raise told('E5', (member, place))


def fault_in(rules, value, definition=None):
    """The first fault of a file's value, or the one with which it wasn't read, as a log line has it, or None. Beside a
    definition's value it may be a fault of agreement."""
    if isinstance(value, Fault):
        return str(value)
    try:
        see(rules, value, ['classes', ['CastVoteRecordReport']], ())
        see_references(rules, value, Scope(value), ())
        if definition is not None:
            see_agreement(rules, value, definition)
    except Fault as fault:
        return str(fault)
    return None
