"""ways.py: slips that examples/many-machines/tally.py could have. Each changes a text that stands
once in it, and one of the random sets of files has to find it."""
import importlib.util
import os
import sys
import tempfile
from collections import namedtuple

sys.dont_write_bytecode = True
TOP = os.path.dirname(os.path.dirname(os.path.dirname(os.path.abspath(__file__))))
SCRIPT = os.path.join(TOP, 'examples', 'many-machines', 'tally.py')
MOST = 250          # sets that may pass before a slip counts as not found

Way = namedtuple('Way', 'name old new')
WAYS = [
    # ---- names
    Way('knows_records_by_their_device', 'digest(device, text_of(it)) for device',
        'digest(device, b"") for device'),
    Way('forgets_letters_spelled_by_codes', 'if data.find(b\'\\\\\') >= 0 and CODED.search(data):',
        'if False:'),
    Way('takes_one_device_of_several', 'if len(devices) > 1:',
        'devices = set(sorted(devices)[:1])\n    if False:'),
    Way('takes_a_name_as_it_is_spelled', "return json.loads(b'\"%s\"' % inside).encode('utf-8')",
        'return inside'),
    Way('takes_no_space_around_a_colon', "rb'[ \\t\\n\\r]*'", "rb''"),
    # ---- which files stay whole
    Way('splits_no_file', 'if not near[place] & held:', 'if True:'),
    Way('groups_files_that_bridge', 'if len(met) == 1 and', 'if'),
    Way('forgets_the_last_file', 'for place, it in enumerate(scans):\n        for name',
        'for place, it in enumerate(scans[:-1]):\n        for name'),
    # ---- splitting
    Way('splits_before_it_checks', 'if status:\n        return log.decode(\'utf-8\'), []', ''),
    Way('takes_the_first_of_two_members',
        'found = items_of(text, place, decode)\n            place = found[1] + 1',
        'found = found or items_of(text, place, decode)\n'
        '            place = decode(text, place)[1]'),
    Way('leaves_a_record_out', 'for name, start, stop in records:',
        'for name, start, stop in records[1:] or records:'),
    Way('puts_records_anywhere', 'home.get(name, name % parts)', '0'),
    Way('puts_records_of_no_whole_file_by_file', 'home.get(name, name % parts)',
        'home.get(name, len(home) % parts)'),
    Way('takes_any_member_for_records', "name == 'CVR' and text[place] == '['", "name == 'CVR'"),
    Way('prints_a_piece_anew', "append(text[start:stop])",
        "append(json.dumps(json.loads(text[start:stop]), indent=4))"),
    # ---- parts
    Way('forgets_pieces', 'over(task, part.files + part.pieces)', 'over(task, part.files)'),
    Way('forgets_a_part', 'for it in answers], accepted',
        'for it in answers[:-1] or answers], accepted'),
    Way('forgets_files_of_a_part', 'over(task, part.files + part.pieces)',
        'over(task, part.files[:1] + part.pieces)'),
    Way('tells_the_log_of_split_files_first', 'logs[place] for place in range(len(files))',
        'logs[place] for place in sorted(logs, key=lambda it: (it in home, it))'),
    Way('hides_refused_files', "[2] if status else b''", "[2] if False else b''"),
    Way('ends_well_where_a_file_is_refused', 'return int(bool(log)), text, log',
        'return 0, text, log'),
    # ---- putting together
    Way('keeps_one_row_of_a_key', 'rows[row][0] if len(rows[row]) == 1 else',
        'rows[row][0] if True else'),
    Way('adds_no_votes', "str(sum(map(int, it))).encode() if it[0][:1] != b'\"' else it[0]",
        "it[0]"),
    Way('orders_contests_by_name', '[contests[contest]]', '[contest]'),
    Way('puts_none_last', 'it is not None, it or', 'it is None, it or'),
    Way('orders_rows_as_they_are_spelled', 'it if it is None else text_of(it)', 'it'),
    Way('orders_records_as_they_are_spelled', 'list(map(text_of, NAME.match(it).groups()))',
        'list(NAME.match(it).groups())'),
    Way('leaves_records_by_part',
        'sorted(lines, key=lambda it: list(map(text_of, NAME.match(it).groups())))', 'lines'),
    Way('takes_devices_from_a_part', 'return conflicts(texts, devices)',
        'return conflicts(texts, texts[0])'),
    Way('empties_refused_files', 'in sorted(logs) if not logs[place]]', 'in sorted(logs)]'),
    Way('counts_volumes_of_devices_alone', 'for it in texts + [devices]', 'for it in [devices]'),
    Way('counts_volumes_of_records_alone', 'for it in texts + [devices]', 'for it in texts'),
]


def script(path=SCRIPT):
    """The script, or a changed copy of it, as a module."""
    place = importlib.util.spec_from_file_location('tally', path)
    module = importlib.util.module_from_spec(place)
    place.loader.exec_module(module)
    return module


def changed(way):
    """The script with a slip."""
    with open(SCRIPT, encoding='utf-8') as file:
        text = file.read()
    if text.count(way.old) != 1:
        raise ValueError('its text stands %d times there, not once' % text.count(way.old))
    with tempfile.TemporaryDirectory() as folder:
        path = os.path.join(folder, 'tally.py')
        with open(path, 'w', encoding='utf-8') as file:
            file.write(text.replace(way.old, way.new))
        return script(path)


def unfound(way, passes):
    """What is wrong with a slip, or nothing: `passes` says whether the script passes the set of a
    number."""
    try:
        module = changed(way)
    except ValueError as fault:
        return str(fault)
    return 'no set finds it' if all(passes(module, n) for n in range(MOST)) else ''
