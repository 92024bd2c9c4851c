#!/usr/bin/env python3
"""printed_changes.py [-v]

Which changes of what is printed does no row notice? What is printed is what docs/FORMAT.md says, as printed.py reads
it. First it has to give each row's output, log and status as the row states them. Then one of its rules is changed at a
time: an order, a part of a line or of a volume, which body of a name is shown, which record stands in a volume, what
counts, what is escaped, which cause is reported first, what a step is and does, what is printed of an office. A row
notices a change where its answer is no longer the one that it states. With -v each change is printed with the row that
notices it. Which files are accepted is left to changes.py; rows of more than a megabyte are left out.

The last line is `printed changes: N noticed, M not`; the status is 0 only where M is 0 and N is not."""
import itertools
import json
import multiprocessing
import os
import re
import sys

sys.dont_write_bytecode = True
HERE = os.path.dirname(os.path.abspath(__file__))
sys.path.insert(0, HERE)
import changes                # noqa: E402
import printed                # noqa: E402
import rules as format_rules  # noqa: E402
import run as rows            # noqa: E402 (all of them stand beside this file)


class Row:
    """A row's answer, and what its files are read as; in a row with a step that has no step's form, no file is read."""

    def __init__(self, held, row, short):
        self.name, self.words, self.is_full = row['name'], row['words'], row.get('full', False)
        self.stated = rows.spelled(row['out'], short), rows.spelled(row['err'], short), row['status']
        known = held.value(RULES, held.paths[0]) if held else {}
        fault = changes.fault_in(RULES, known, None) if held else None
        self.definition = fault or known
        read = [(path, held.value(RULES, path)) for path in held.paths[1:]] if held and not fault else []
        self.files = [(path, changes.fault_in(RULES, value, known) or value) for path, value in read]

    def answer(self, texts):
        return printed.answer(texts, self.words, self.definition, self.files, self.is_full)

    def notices(self, texts):
        """Whether the answer differs, or there is none, since a changed rule may not fit the files."""
        try:
            return self.answer(texts) != self.stated
        except (AttributeError, IndexError, KeyError, TypeError, ValueError):
            return True


RULES = format_rules.Rules()


def asked():
    every = rows.all_rows()
    held = ((changes.Row(*it), it) for it in every if changes.is_asked(*it[1:]))
    steps = [Row(None, row, short) for _, row, short in every
             if row['words'][:1] == ['drill'] and rows.spelled(row['err'], short).endswith(': L3\n')]
    return [Row(files, *it[1:]) for files, it in held if files.size <= changes.LONG] + steps


# ---- changes: a name, and what is done to the rules

def sets(**rules):
    """A change that replaces rules."""
    return lambda texts: vars(texts).update(rules)


def method(name, other):
    """A change of a method. The other one gets the rules, the method as it is, and the method's arguments."""
    def change(texts):
        held = getattr(texts, name)
        setattr(texts, name, lambda *given: other(texts, held, *given))
    return change


def lists_changed(name, held):
    """Each list without one part of a list, or with two neighbours exchanged."""
    for place, part in enumerate(held):
        yield '%s lacks %s' % (name, part), held[:place] + held[place + 1:]
    for place in range(len(held) - 1):
        yield '%s has %s after %s' % (name, held[place], held[place + 1]), held[:place] + [held[place + 1], held[place]] + held[place + 2:]


def in_units_of_utf16(text):
    return text.encode('utf-16-be')


def by_letters(text):
    return text.lower().encode('utf-8'), text


def by_length(text):
    return len(text.encode('utf-8')), text


def by_numbers(text):
    return [(bool(number), int(number or 0), other) for other, number in re.findall(r'([^\d]+)|(\d+)', text)]


def turned(text):
    return [-byte for byte in text.encode('utf-8')] + [1]


ORDERS = {'units of UTF-16': in_units_of_utf16, 'letters, great and small alike': by_letters, 'length': by_length, 'numbers in it': by_numbers,
          'bytes, turned': turned, 'the order in which they come': lambda _: 0}


def set_order(name, order):
    def change(texts):
        texts.orders[name] = order
    return change


def changes_of_orders():
    for name in printed.Texts().orders:
        for other, order in ORDERS.items():
            yield 'order of %s is by %s' % (name, other), set_order(name, order)
    yield 'records are in order of UniqueId first', method('record_key', lambda texts, held, name: held(name)[::-1])
    yield 'a missing unit or batch comes last', method('nothing_first', lambda texts, held, text, order: (text is None, held(text, order)))
    yield 'a missing unit or batch is as an empty one', method('nothing_first', lambda texts, held, text, order: held(text or '', order))
    for name, other in lists_changed('the key of a row', printed.Texts.row_order):
        yield name, sets(row_order=other)
    yield 'contests of rows are in order of id', method('row_key', lambda texts, held, place, known: held(place, sorted(known)))


def changes_of_choosing():
    for other in itertools.permutations(printed.Texts.types):
        if list(other) != printed.Texts.types:
            yield 'Types, least first: ' + ' '.join(other), sets(types=list(other))
    for name, other in lists_changed('choosing', printed.Texts.choosing):
        yield name, sets(choosing=other)
    for name, other in (('the first', lambda every: every[0]), ('the last', lambda every: every[-1]), ('the least', min)):
        yield 'of several annotations %s counts' % name, method(
            'moment_of', lambda texts, held, stamps, other=other: other([format_rules.instant(it) for it in stamps]) if stamps else printed.NEVER)
    for name, unit in (('seconds', 10 ** 9), ('thousandths', 10 ** 6), ('millionths', 10 ** 3)):
        yield 'moments are held by whole ' + name, method('moment_of', lambda texts, held, stamps, unit=unit: held(stamps) // unit if stamps else held(stamps))
    yield 'moments are held by their texts', method('moment_of', lambda texts, held, stamps: max(stamps, default=''))
    yield 'offsets don\'t matter', method('moment_of', lambda texts, held, stamps: held([it[:19] + 'Z' for it in stamps]))
    yield 'second 60 is a second after 59', method('moment_of', lambda texts, held, stamps: held(stamps) + 10 ** 9 * any(':60Z' in it for it in stamps))
    for name, form, other in (('seconds of an offset don\'t matter', r'([+-]\d\d:\d\d):\d\d$', r'\1'), ('an offset without a colon is zero', r'[+-]\d{4}$', 'Z'),
                              ('a fraction after a comma doesn\'t matter', r',\d+', ''),
                              ('an offset is cut to seconds', r'([+-]\d\d:\d\d:\d\d)\.\d+$', r'\1'),
                              ('an offset is rounded up', r'([+-]\d\d:\d\d:\d\d)\.\d+$', r'\1.5')):
        yield name, method('moment_of', lambda texts, held, stamps, form=form, other=other: held([re.sub(form, other, it) for it in stamps]))
    yield 'no moment is the greatest', method('moment_of', lambda texts, held, stamps: held(stamps) if stamps else float('inf'))
    yield 'no moment is that of 1970', method('moment_of', lambda texts, held, stamps: held(stamps or ['1970-01-01T00:00:00Z']))
    for kind in ('device body', 'header body', 'snapshot'):
        yield 'of a %s the least body is the first' % kind, method('greatest_first', lambda texts, held, bodies, key, kind=kind: (
            held(bodies, key)[::-1] if (key == texts.key) == (kind == 'snapshot') and (kind == 'snapshot' or key == texts.orders[kind]) else held(bodies, key)))


def recorded(name, change):
    """A change of the records of a file, before they are taken in."""
    def other(texts, held, records, report):
        held(records, dict(report, CVR=change(report.get('CVR', []))))
    return name, method('take_records', other)


def changes_of_holding():
    lacking = printed.Texts.lacking
    for name in lacking:
        yield 'a header has ' + name, sets(lacking=[it for it in lacking if it != name])
    for name in ['@type', 'x'] + sorted(RULES.classes['CVR']):
        if name not in lacking:
            yield 'a header lacks ' + name, sets(lacking=lacking + [name])
    for name in sorted(set(RULES.classes['CVRSnapshot']) | {'@type', 'vxNote'}):
        if name not in ('@id', 'Type'):
            yield 'a snapshot lacks ' + name, method('take_records', lambda texts, held, records, report, name=name: held(
                records, without(report, name)))
    yield 'the definition\'s records are taken', method('reports', lambda texts, held, known, files: ([known] + files, [known] + files))
    yield 'the definition\'s devices are not held', method('reports', lambda texts, held, known, files: (files, files))
    yield 'devices of files are not held', method('reports', lambda texts, held, known, files: ([known], files))
    yield 'the last file alone is held', method('reports', lambda texts, held, known, files: held(known, files[-1:]))
    yield 'the first file alone is held', method('reports', lambda texts, held, known, files: held(known, files[:1]))
    yield recorded('the first CVR of a file alone is taken', lambda cvrs: cvrs[:1])
    yield recorded('the last CVR of a file alone is taken', lambda cvrs: cvrs[-1:])
    yield recorded('the first snapshot of a CVR alone is taken', lambda cvrs: [dict(it, CVRSnapshot=it['CVRSnapshot'][:1]) for it in cvrs])
    yield recorded('the current snapshot of a CVR alone is taken', lambda cvrs: [
        dict(it, CVRSnapshot=[one for one in it['CVRSnapshot'] if one['@id'] == it['CurrentSnapshotId']]) for it in cvrs])
    yield 'a record is a UniqueId alone', method('record_name', lambda texts, held, cvr: ('', cvr['UniqueId']))
    yield 'a record is a device alone', method('record_name', lambda texts, held, cvr: (cvr['CreatingDeviceId'], ''))
    yield 'a record is its unit too', method('record_name', lambda texts, held, cvr: (
        cvr['CreatingDeviceId'], cvr['UniqueId'] + cvr.get('BallotStyleUnitId', '')))
    yield 'a later body of a record takes the place of the earlier', replacing(lambda kept, body: [body])
    yield 'the first body of a name stays', replacing(lambda kept, body: kept or [body])
    yield 'equal bodies are held twice', replacing(lambda kept, body: kept + [body])


def without(report, name):
    cvrs = [dict(it, CVRSnapshot=[{key: part for key, part in one.items() if key != name} for one in it['CVRSnapshot']]) for it in report.get('CVR', [])]
    return dict(report, CVR=cvrs)


def replacing(keep):
    """A change of which bodies are kept when a name gets one more."""
    def change(texts):
        def put(held, name, body):
            held[name] = keep(held.get(name, []), body)
        texts.put = put
    return change


def changes_of_texts():
    yield 'members stand as the file has them', method('compact', lambda texts, held, value: json.dumps(value, ensure_ascii=False, separators=(',', ':')))
    yield 'a space stands after colons and commas', method('compact', lambda texts, held, value: json.dumps(value, ensure_ascii=False, sort_keys=True))
    yield 'names are printed as they are', method('spelled', lambda texts, held, text: '"%s"' % text if isinstance(text, str) else held(text))
    yield 'letters beyond ASCII are escaped', method('spelled', lambda texts, held, text: json.dumps(text))
    for what, sign, other in (('a slash', '/', '\\/'), ('DEL', '\x7f', '\\u007f'), ('U+2028', '\u2028', '\\u2028'), ('a tab', '\\t', '\\u0009'),
                              ('a line feed', '\\n', '\\u000a'), ('a form feed', '\\f', '\\u000c'), ('a backspace', '\\b', '\\u0008'),
                              ('a carriage return', '\\r', '\\u000d'), ('a control character', '\\u001f', '\\u001F')):
        yield '%s is escaped otherwise' % what, method('spelled', lambda texts, held, text, sign=sign, other=other: held(text).replace(sign, other))
    yield 'lines end with a return and a feed', sets(line_end='\r\n')
    yield 'lines have no end', sets(line_end='')
    yield 'a tab stands between parts', sets(gap='\t')
    for name, other in lists_changed('a line of currents', printed.Texts.current_line):
        yield name, sets(current_line=other)
    yield 'currents has the least of a record', method('current', lambda texts, held, record: json.loads(min(
        (bodies[-1] for name, bodies in record.items() if name is not None), key=texts.key)))
    yield 'check counts records', method('checked', lambda texts, held, path, report: texts.line([path, len(set(map(texts.record_name, report.get('CVR', []))))]))
    yield 'check prints the number alone', method('checked', lambda texts, held, path, report: texts.line([len(report.get('CVR', []))]))
    yield 'check prints the path alone', method('checked', lambda texts, held, path, report: texts.line([path]))
    yield 'check prints the path as a JSON string', method('checked', lambda texts, held, path, report: held(texts.spelled(path), report))
    yield 'check prints a path\'s last part', method('checked', lambda texts, held, path, report: held(os.path.basename(path), report))


def changes_of_conflicts():
    for name, other in lists_changed('conflicts', printed.Texts.conflict_kinds):
        if ' lacks ' in name:
            yield name, sets(conflict_kinds=other)
    for number in (1, 3):
        yield 'a conflict has %d bodies or more' % number, method('least_conflict', lambda texts, held, number=number: number)
    yield 'conflicts come after the number of volumes', method('conflicts', lambda texts, held, office: list(held(office))[::-1])
    yield 'records come before devices', method('conflicts', lambda texts, held, office: sorted(held(office), key=lambda line: (
        line.startswith('volumes'), line.startswith('device'))))
    yield 'headers come after snapshots', method('conflicts', lambda texts, held, office: headers_last(list(held(office))))
    for name, number in (('the sum of their bodies', sum), ('the number of names', len), ('the least number of bodies', lambda counts: min(counts or [1])),
                         ('at least 2', lambda counts: max([2] + counts)), ('0 of an empty office', lambda counts: max(counts, default=0)),
                         ('one more', lambda counts: max([1] + counts) + 1)):
        yield 'volumes: ' + name, method('volumes', lambda texts, held, office, number=number: number(office.counts()))
    yield 'volumes are those of devices', method('volumes', lambda texts, held, office: max(map(len, office.devices.values())))
    yield 'volumes are those of records', method('volumes', lambda texts, held, office: max([1] + [len(it) for names in office.records.values() for it in names.values()]))
    yield 'volumes are those of headers', method('volumes', lambda texts, held, office: max([1] + [len(names[None]) for names in office.records.values()]))


def headers_last(lines):
    """The lines of conflicts, with the line of each record's header after those of its snapshots."""
    def of(line):
        return re.match(r'("(?:[^"\\]|\\.)*" "(?:[^"\\]|\\.)*" )?', line).group()
    groups = [list(group) for _, group in itertools.groupby(lines, of)]
    return [line for group in groups for line in sorted(group, key=lambda line: bool(of(line)) and ' header ' in line)]


def changes_of_tally():
    states = [(allocable, indication) for allocable in (None, 'yes', 'no', 'unknown') for indication in ('yes', 'no', 'unknown')]
    for state in states:
        for name in ('counting', 'pending'):
            yield '%s is changed at IsAllocable %s, HasIndication %s' % ((name,) + state), sets(**{name: getattr(printed.Texts, name) ^ {state}})
    for name, other in lists_changed('the columns', printed.Texts.columns):
        yield name, sets(columns=other)
    yield 'a position gives one vote', method('votes', lambda texts, held, position: 1)
    yield 'votes are of 32 bits', method('sum_of', lambda texts, held, positions, states: held(positions, states) % 2 ** 32)
    yield 'the first position of a selection counts alone', method('positions', lambda texts, held, selections: [it['SelectionPosition'][0] for it in selections])
    yield 'the first contest selection of an id counts alone', method('positions', lambda texts, held, selections: held(selections[:1]))
    yield 'the first contest counts alone', method('counted', lambda texts, held, record: held(record)[:1])
    yield 'every snapshot counts', method('counted', lambda texts, held, record: [
        contest for name, bodies in record.items() if name is not None for body in bodies for contest in json.loads(body).get('CVRContest', [])])
    yield 'a record counts in the row of its least header', method('unit_and_batch', lambda texts, held, record: held({None: record[None][::-1]}))
    yield 'units are put together', method('unit_and_batch', lambda texts, held, record: (None, held(record)[1]))
    yield 'batches are put together', method('unit_and_batch', lambda texts, held, record: (held(record)[0], None))
    yield 'a missing batch is an empty one', method('unit_and_batch', lambda texts, held, record: (held(record)[0], held(record)[1] or ''))
    yield 'a missing unit is an empty one', method('unit_and_batch', lambda texts, held, record: (held(record)[0] or '', held(record)[1]))
    yield 'selections are in order of id', method('selections', lambda texts, held, known: {name: sorted(every) for name, every in held(known).items()})
    yield 'selections are in turned order', method('selections', lambda texts, held, known: {name: every[::-1] for name, every in held(known).items()})
    yield 'each contest has a row for each record', method('counted', lambda texts, held, record: held(record) or [{'ContestId': 'mayor'}])
    for name in printed.Texts.stated.values():
        yield '%s absent is 1' % name, method('sums', lambda texts, held, contest, known, name=name: held(dict({name: 1}, **contest), known))
    yield 'TotalNumberVotes is added up', method('sums', lambda texts, held, contest, known: held(with_totals(contest), known))
    yield 'a row of zeros stays for each header', method('rows', rows_of_every_header)
    yield 'ballots are CVRs that were read', method('rows', lambda texts, held, known, office: {
        place: [row[0] + sum(len(bodies) - 1 for names in office.records.values() for bodies in names.values())] + row[1:]
        for place, row in held(known, office).items()})


def with_totals(contest):
    selections = [dict(it, SelectionPosition=[dict(it['SelectionPosition'][0], NumberVotes=it['TotalNumberVotes'])]) if 'TotalNumberVotes' in it else it
                  for it in contest.get('CVRContestSelection', [])]
    return dict(contest, CVRContestSelection=selections)


def rows_of_every_header(texts, held, known, office):
    """The rows, with rows of zeros where a record stood under an earlier header."""
    rows_held = held(known, office)
    for record in office.records.values():
        for body in record[None]:
            for contest in texts.counted(record):
                width = len(texts.columns) + len(texts.selections(known)[contest['ContestId']])
                rows_held.setdefault((contest['ContestId'],) + texts.unit_and_batch({None: [body]}), [0] * width)
    return rows_held


def member_set(name, change):
    """A change of one member of a written volume."""
    return method('volume', lambda texts, held, *given: texts.compact(
        {key: change(part) if key == name else part for key, part in json.loads(held(*given)).items()}))


def changes_of_volumes():
    members = printed.Texts.members
    for name in members:
        yield 'a volume lacks ' + name, sets(members=[it for it in members if it != name])
    for name in printed.Texts.may_lack:
        yield 'a volume has an empty ' + name, sets(may_lack=[it for it in printed.Texts.may_lack if it != name])
    for name, other in (('@type', 'CastVoteRecordReport'), ('@type', 'CVR.Report'), ('Version', '1.0'), ('ReportType', []), ('ReportType', ['other']),
                        ('ReportType', 'aggregated'), ('GeneratedDate', '2024-11-06T08:00:00Z'), ('ReportGeneratingDeviceIds', ['desk'])):
        yield '%s of a volume is %s' % (name, other), member_set(name, lambda _, other=other: other)
    yield 'a volume names all devices as its makers', method('volume', lambda texts, held, known, office, date, device, i: held(
        known, office, date, device, i).replace('"ReportGeneratingDeviceIds":[%s]' % texts.spelled(device), '"ReportGeneratingDeviceIds":%s' % texts.compact(
            list(office.devices))))
    yield 'a line feed stands after a volume', method('volume', lambda texts, held, *given: held(*given) + '\n')
    yield 'Election is an object and no list', member_set('Election', lambda every: every[0])
    for name in ('GpUnit', 'Party'):
        yield '%s is as the definition has it' % name, method('of_definition', lambda texts, held, known, member, order, name=name: (
            known.get(member, []) if member == name else held(known, member, order)))
    for name, other in (('the first', lambda bodies, i: bodies[0]), ('the last', lambda bodies, i: bodies[-1]),
                        ('the first where there are fewer', lambda bodies, i: bodies[i - 1] if i <= len(bodies) else bodies[0]),
                        ('the one after', lambda bodies, i: bodies[min(i + 1, len(bodies)) - 1]), ('the one before', lambda bodies, i: bodies[max(0, min(i, len(bodies)) - 2)]),
                        ('one counted round', lambda bodies, i: bodies[(i - 1) % len(bodies)])):
        yield 'of a name is shown: ' + name, method('shown', lambda texts, held, bodies, i, other=other: json.loads(other(bodies, i)))
    for name, other in (('every record', lambda record, i: True), ('no record', lambda record, i: False),
                        ('a record of which all names have as many', lambda record, i: all(len(bodies) >= i for bodies in record.values())),
                        ('a record with as many headers', lambda record, i: len(record[None]) >= i),
                        ('a record with as many bodies of a snapshot', lambda record, i: any(len(record[name]) >= i for name in record if name is not None)),
                        ('a record with more', lambda record, i: any(len(bodies) > i for bodies in record.values())),
                        ('a record with one less', lambda record, i: any(len(bodies) >= i - 1 for bodies in record.values())),
                        ('a record with as many bodies in all', lambda record, i: sum(map(len, record.values())) >= i),
                        ('a record with exactly as many', lambda record, i: max(map(len, record.values())) == i),
                        ('a record with as many of its current snapshot', lambda record, i: len(record[max((name for name in record if name is not None), key=lambda name: record[name])]) >= i)):
        yield 'in a volume stands: ' + name, method('stands', lambda texts, held, record, i, other=other: other(record, i))
    yield from changes_of_shown_records()


def changes_of_shown_records():
    def shown_if(keep):
        """A change: a volume shows only these snapshots of a record."""
        return method('shown_record', lambda texts, held, record, i: held({name: record[name] for name in record if name is None or keep(texts, record, name, i)}, i))
    yield 'the current snapshot alone is shown', shown_if(lambda texts, record, name, i: name == texts.current(record)['@id'])
    yield 'snapshots with fewer bodies are not shown', shown_if(lambda texts, record, name, i: len(record[name]) >= i)
    yield 'the called current snapshot is that of the office', method('shown_current', lambda texts, held, record, every: texts.current(record)['@id'])
    yield 'the called current snapshot is the first', method('shown_current', lambda texts, held, record, every: every[0]['@id'])
    yield 'the called current snapshot is the last', method('shown_current', lambda texts, held, record, every: every[-1]['@id'])
    yield 'the called current snapshot is the least', method('shown_current', lambda texts, held, record, every: min(
        every, key=lambda it: texts.key(texts.compact(it)))['@id'])
    yield 'the called current snapshot is the greatest text', method('shown_current', lambda texts, held, record, every: max(every, key=texts.compact)['@id'])
    for name in ('CVRSnapshot', 'CurrentSnapshotId'):
        yield 'a written record lacks ' + name, method('shown_record', lambda texts, held, record, i, name=name: {
            key: part for key, part in held(record, i).items() if key != name})
    yield 'a written record has a member that no table lists', method('shown_record', lambda texts, held, record, i: dict(held(record, i), vx=1))
    yield 'unlisted members of a record are left out', method('shown_record', lambda texts, held, record, i: {
        key: part for key, part in held(record, i).items() if key in RULES.classes['CVR'] or key == '@type'})
    yield 'the first record alone is written', method('shown_records', lambda texts, held, office, i: held(office, i)[:1])
    yield 'records are written in turned order', method('shown_records', lambda texts, held, office, i: held(office, i)[::-1])
    yield 'devices of records alone are written', method('shown_devices', lambda texts, held, known, office, i: [
        it for it in held(known, office, i) if it['@id'] in [name[0] for name in office.records]])
    yield 'the definition\'s devices alone are written', method('shown_devices', lambda texts, held, known, office, i: [
        it for it in held(known, office, i) if it['@id'] in [one['@id'] for one in known['ReportingDevice']]])
    yield 'devices with fewer bodies are not written', method('shown_devices', lambda texts, held, known, office, i: [
        texts.shown(bodies, i) for bodies in office.devices.values() if len(bodies) >= i])
    yield 'devices are written as the definition has them', method('shown_devices', lambda texts, held, known, office, i: known['ReportingDevice'])
    yield 'each volume has the first body of a device', method('shown_devices', lambda texts, held, known, office, i: held(known, office, 1))


def changes_of_causes():
    for other in itertools.permutations(printed.Texts.causes):
        if list(other) != printed.Texts.causes:
            yield 'causes are tried in the order: ' + ' '.join(other), sets(causes=list(other))
    for name in printed.Texts.causes:
        yield 'no cause is ' + name, sets(causes=[it for it in printed.Texts.causes if it != name])
    yield 'a zone in brackets is taken', method('is_moment', lambda texts, held, text: held(text.split('[')[0]))
    yield 'a date without a time is taken', method('is_moment', lambda texts, held, text: held(text) or held(text + 'T00:00:00Z'))
    yield 'a date without an offset is taken', method('is_moment', lambda texts, held, text: held(text) or held(text + 'Z'))
    yield 'a date in Z alone is taken', method('is_moment', lambda texts, held, text: held(text) and text[-1] in 'zZ')
    yield 'spaces about a date are taken', method('is_moment', lambda texts, held, text: held(text.strip()))
    yield 'any device of the office is taken', method('is_device', lambda texts, held, known, office, device: device in office.devices)
    yield 'a device of a record is wanted', method('is_device', lambda texts, held, known, office, device: held(known, office, device) and (
        not office.records or device in ['desk'] + [name[0] for name in office.records]))
    yield 'a device is held by its letters', method('is_device', lambda texts, held, known, office, device: held(known, office, device.lower().strip()))
    yield 'a unit of the definition is taken', method('is_device', lambda texts, held, known, office, device: held(known, office, device) or device in [
        it['@id'] for it in known['GpUnit']])
    yield 'an empty device is taken', method('is_device', lambda texts, held, known, office, device: not device or held(known, office, device))
    yield 'one volume more is taken', method('is_volume', lambda texts, held, office, i: i <= texts.volumes(office) + 1)
    yield 'the last volume is not taken', method('is_volume', lambda texts, held, office, i: i < texts.volumes(office))
    yield 'the number of volumes is not told', method('cause', lambda texts, held, *given: re.sub(r'V1 \d+', 'V1', held(*given)))
    yield 'the number that was asked for is printed', method('cause', lambda texts, held, known, office, date, device, i: re.sub(
        r'V1 \d+', 'V1 %d' % i, held(known, office, date, device, i)))


# Other forms of a step.
STEPS = {
    'a number of ten digits is taken': ('{1,9}', '{1,10}'),
    'a number of nine digits is not taken': ('{1,9}', '{1,8}'),
    'a number of no digits is taken': ('{1,9}', '{0,9}'),
    'a number of two digits is not taken': ('{1,9}', '{1}'),
    'a number may have a sign': ('[0-9]{1,9}', '[+-]?[0-9]{1,9}'),
    'a number may have spaces about it': ('[0-9]{1,9}', ' *[0-9]{1,9} *'),
    'a number may be a fraction': ('[0-9]{1,9}', r'[0-9]{1,9}(?:\.[0-9]+)?'),
    'a number may have digits beyond ASCII': ('[0-9]', r'\d'),
    'a number may be hexadecimal': ('[0-9]{1,9}', '(?:0x)?[0-9]{1,9}'),
    'a number may begin with no zero': ('[0-9]{1,9}', '(?:0|[1-9][0-9]{0,8})'),
    'there is no number 0': ('[0-9]{1,9}', '(?=0*[1-9])[0-9]{1,9}'),
    'a path may be empty': ('.+', '.*'),
    'a path has two signs at least': ('.+', '..+'),
    'a path has no equals sign': ('.+', '[^=]+'),
    'a path has no greater-than sign': ('.+', '[^>]+'),
    'a path has no line feed': ('.+', r'[^\n]+'),
    'a path has no space': ('.+', '[^ ]+'),
    'a path has no quote': ('.+', '[^\'"]+'),
    'a path begins with no hyphen': ('.+', '[^-].*'),
    'a path is of ASCII': ('.+', r'[\0-\x7f]+'),
    'a step may be a number alone': ('=(?P<path>.+)', '(?:=(?P<path>.+))?'),
    'a step may be no number': ('=(?P<path>.+)', '=(?P<path>.+)|.*'),
    'a colon stands for the equals sign too': ('=', '[=:]'),
    'a less-than sign stands for the greater-than sign too': ('>(?P<t', '[<>](?P<t'),
    'a comma stands for the greater-than sign too': ('>(?P<t', '[>,](?P<t'),
    'an exchange may have a third office': ('(?P<taker>[0-9]{1,9})', '(?P<taker>[0-9]{1,9})(?:>[0-9]{1,9})?'),
    'a word may stand before a step': ('(?P<office>', '(?:a )?(?P<office>'),
}


def changes_of_steps():
    for name, (old, new) in STEPS.items():
        yield 'steps: ' + name, sets(step=re.compile(printed.STEP.pattern.replace(old, new), re.S))
    yield 'steps: the last one without a form is printed', method('first_bad', lambda texts, held, steps: held(steps[::-1]))
    yield 'steps: one without a form is passed over', method('first_bad', lambda texts, held, steps: None)
    for name, other in (('offices count from 0', lambda number, offices: 0 <= number < offices), ('office 0 is one more', lambda number, offices: number <= offices),
                        ('there is one office more', lambda number, offices: 1 <= number <= offices + 1), ('the last office is none', lambda number, offices: 1 <= number < offices),
                        ('every number is an office', lambda number, offices: True), ('no number is an office', lambda number, offices: False),
                        ('the first office is none', lambda number, offices: 1 < number <= offices)):
        yield 'steps: ' + name, method('is_office', lambda texts, held, number, offices, other=other: other(number, offices))
    yield 'steps: the fault of a file comes before N1', method('refusal', lambda texts, held, step, place, offices, files: (
        files[place][1] if place is not None and isinstance(files[place][1], str) else held(step, place, offices, files)))
    yield 'steps: N1 of an import alone is reported', method('refusal', lambda texts, held, step, place, offices, files: held(step, place, offices, files) if step['path'] else None)
    yield 'steps: N1 of an exchange alone is reported', method('refusal', lambda texts, held, step, place, offices, files: (
        None if held(step, place, offices, files) == 'N1' and step['path'] else held(step, place, offices, files)))
    for name in ('giver', 'taker'):
        yield 'steps: N1 of a %s is not told' % name, method('refusal', lambda texts, held, step, place, offices, files, name=name: (
            held(dict(step.groupdict(), **{name: None}), place, offices, files)))
    yield 'steps: an exchange of an office with itself is refused', method('refusal', lambda texts, held, step, place, offices, files: (
        'N1' if step['giver'] and int(step['giver']) == int(step['taker']) else held(step, place, offices, files)))
    yield 'steps: the fault of a file is reported without its path', method('refusal', lambda texts, held, *given: (held(*given) or '').split(' ')[0] or None)
    yield 'steps: a path is reported for a step', method('told_step', lambda texts, held, text, step: step['path'] or text)
    yield 'steps: a number is reported for a step', method('told_step', lambda texts, held, text, step: text.split('=')[0])


def changes_of_play():
    for name, order in (('in turned order', lambda every: every[::-1]), ('imports first', lambda every: sorted(every, key=lambda it: it[2] is None)),
                        ('exchanges first', lambda every: sorted(every, key=lambda it: it[2] is not None)), ('by office', lambda every: sorted(every, key=lambda it: it[0])),
                        ('the last one not', lambda every: every[:-1]), ('the first one not', lambda every: every[1:]), ('twice', lambda every: every + every),
                        ('each text once', lambda every: [it for place, it in enumerate(every) if it[0] not in [other for other, _, _ in every[:place]]])):
        yield 'steps are played: ' + name, method('placed', lambda texts, held, steps, order=order: order(held(steps)))
    yield 'a drill ends at the first refusal', method('goes_on', lambda texts, held, log: not log)
    yield 'a refused step is played', method('played_unless', lambda texts, held, reached, step, place, fault: held(reached, step, place, None))
    yield 'each import has the first file', method('imported', lambda texts, held, reached, office, place: held(reached, office, 0))
    yield 'a file is taken in by every office', method('imported', lambda texts, held, reached, office, place: [one | {place} for one in reached])
    yield 'a file is taken in by the first office', method('imported', lambda texts, held, reached, office, place: held(reached, 1, place))
    yield 'a file is taken in by the office after', method('imported', lambda texts, held, reached, office, place: held(reached, office + 1, place))
    yield 'a file takes the place of those before', method('imported', lambda texts, held, reached, office, place: held(
        [one if number != office else set() for number, one in enumerate(reached, 1)], office, place))
    yield 'an office takes in one file', method('imported', lambda texts, held, reached, office, place: held(reached, office, place) if not reached[office - 1] else reached)
    yield 'nothing is taken in', method('imported', lambda texts, held, reached, office, place: reached)
    yield 'nothing is exchanged', method('exchanged', lambda texts, held, reached, giver, taker: reached)
    yield 'an exchange goes the other way', method('exchanged', lambda texts, held, reached, giver, taker: held(reached, taker, giver))
    yield 'an exchange goes both ways', method('exchanged', lambda texts, held, reached, giver, taker: held(held(reached, giver, taker), taker, giver))
    yield 'an exchange leads on', method('exchanged', lambda texts, held, reached, giver, taker: [
        one | reached[giver - 1] if one == reached[taker - 1] else one for one in held(reached, giver, taker)])
    yield 'an exchange goes to all', method('exchanged', lambda texts, held, reached, giver, taker: [one | reached[giver - 1] for one in reached])
    yield 'an exchange empties the giver', method('exchanged', lambda texts, held, reached, giver, taker: [
        one if number != giver or giver == taker else set() for number, one in enumerate(held(reached, giver, taker), 1)])
    yield 'an exchange empties the giver, itself too', method('exchanged', lambda texts, held, reached, giver, taker: [
        one if number != giver else set() for number, one in enumerate(held(reached, giver, taker), 1)])
    yield 'the taker holds what the giver does', method('exchanged', lambda texts, held, reached, giver, taker: [
        reached[giver - 1] if number == taker else one for number, one in enumerate(reached, 1)])
    for name, part in (('last', max), ('first', min)):
        yield 'an exchange passes on the %s file alone' % name, method('exchanged', lambda texts, held, reached, giver, taker, part=part: [
            one | ({part(reached[giver - 1])} if reached[giver - 1] else set()) if number == taker else one for number, one in enumerate(reached, 1)])
    yield 'an exchange passes on what the giver took in itself', own_alone


def own_alone(texts):
    """A change: an office doesn't hand on what others handed to it."""
    own = {}

    def imported(reached, office, place):
        own.setdefault(office, set()).add(place)
        return [one | {place} if number == office else one for number, one in enumerate(reached, 1)]

    def play(held):
        def played(*given):
            own.clear()
            return held(*given)
        return played
    texts.imported, texts.play = imported, play(texts.play)
    texts.exchanged = lambda reached, giver, taker: [one | own.get(giver, set()) if number == taker else one for number, one in enumerate(reached, 1)]


def changes_of_offices():
    for name, other in lists_changed('the line of an office', printed.Texts.office_line):
        yield name, sets(office_line=other)
    for name, other in (('names', lambda texts, office: len(office.counts())), ('bodies of records', lambda texts, office: sum(office.counts()) - sum(map(len, office.devices.values()))),
                        ('snapshots', lambda texts, office: sum(len(bodies) for names in office.records.values() for name, bodies in names.items() if name is not None)),
                        ('names of records, bodies of devices', lambda texts, office: sum(map(len, office.devices.values())) + sum(map(len, office.records.values()))),
                        ('bodies of records, names of devices', lambda texts, office: sum(office.counts()) - sum(map(len, office.devices.values())) + len(office.devices)),
                        ('what is current', lambda texts, office: len(office.devices) + 2 * len(office.records)), ('records', lambda texts, office: len(office.records))):
        yield 'facts are ' + name, method('facts', lambda texts, held, office, other=other: other(texts, office))
    yield 'facts are those beyond the definition\'s devices', method('facts', lambda texts, held, office: held(office) - 3)
    for name, other in (('headers', lambda office: sum(len(names[None]) for names in office.records.values())),
                        ('snapshot ids', lambda office: sum(len(names) - 1 for names in office.records.values())), ('facts', lambda office: sum(office.counts())),
                        ('devices of records', lambda office: len({name[0] for name in office.records})), ('devices', lambda office: len(office.devices))):
        yield 'records are ' + name, method('record_count', lambda texts, held, office, other=other: other(office))
    for name, other in (('number of facts', lambda texts, office: sum(office.counts())), ('number of records', lambda texts, office: len(office.records)),
                        ('records\' names', lambda texts, office: set(office.records)), ('records', lambda texts, office: office.records), ('devices', lambda texts, office: office.devices),
                        ('current snapshots', lambda texts, office: {name: texts.current(record) for name, record in office.records.items()}),
                        ('headers', lambda texts, office: {name: record[None] for name, record in office.records.items()}),
                        ('names', lambda texts, office: (set(office.devices), {name: set(record) for name, record in office.records.items()})),
                        ('number of facts and records', lambda texts, office: (sum(office.counts()), len(office.records)))):
        yield 'offices are the same by their ' + name, method('is_same', lambda texts, held, one, two, other=other: other(texts, one) == other(texts, two))
    yield 'offices are the same in any case', method('is_same', lambda texts, held, one, two: True)
    yield 'an office is the same as itself alone', method('is_same', lambda texts, held, one, two: one is two)
    yield 'the greatest office that is the same is printed', method('least_same', lambda texts, held, every, office: len(every) + 1 - held(every[::-1], office))
    yield 'offices that are the same count from 0', method('least_same', lambda texts, held, every, office: held(every, office) - 1)
    yield 'the first office is not looked at', method('least_same', lambda texts, held, every, office: 1 if office is every[0] else 1 + held(every[1:], office))
    for name, other in (('in turned order', lambda lines: lines[::-1]), ('but the last', lambda lines: lines[:-1]), ('but the first', lambda lines: lines[1:]),
                        ('that hold records', lambda lines: [line for line in lines if ' records 0 ' not in line]), ('one for the same', lambda lines: [
                            line for line in lines if line.split()[1] == line.split()[-1]])):
        yield 'the lines of offices: ' + name, method('office_lines', lambda texts, held, every, other=other: other(held(every)))
    yield 'offices are numbered from 0', method('office_lines', lambda texts, held, every: [
        re.sub(r'^(office )(\d+)', lambda found: found.group(1) + str(int(found.group(2)) - 1), line) for line in held(every)])


FAMILIES = (changes_of_orders, changes_of_choosing, changes_of_holding, changes_of_texts, changes_of_conflicts, changes_of_tally, changes_of_volumes,
            changes_of_causes, changes_of_steps, changes_of_play, changes_of_offices)


def read_otherwise(held):
    """How many rows state another answer than the rules give. Prints each."""
    wrong = 0
    for row in held:
        answer = row.answer(printed.Texts())
        if answer != row.stated:
            wrong += 1
            print('READ OTHERWISE %s: %r, stated %r' % (row.name, answer, row.stated))
    return wrong


def by_place(place):
    return notice(place)


def main():
    held, every = asked(), [change for family in FAMILIES for change in family()]
    wrong, noticed = read_otherwise(held), 0

    global notice                       # the pool's processes are copies of this one, and have it too

    def notice(place):
        texts = printed.Texts()
        every[place][1](texts)
        return every[place][0], next((row.name for row in held if row.notices(texts)), None)

    with multiprocessing.get_context('fork').Pool(len(os.sched_getaffinity(0))) as pool:
        for name, row in pool.imap(by_place, range(0 if wrong else len(every)), 4):
            noticed, wrong = noticed + bool(row), wrong + (not row)
            if not row or '-v' in sys.argv[1:]:
                print('%s: %s' % (name, row or 'NO ROW NOTICES'), flush=True)
    print('printed changes: %d noticed, %d not' % (noticed, wrong))
    sys.exit(0 if noticed and not wrong else 1)


if __name__ == '__main__':
    main()
