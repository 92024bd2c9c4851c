#!/usr/bin/env python3
"""windows.py FOLDER

Reads documents of JSON with the companion in a folder, which holds no more of a text than a value needs: here a few bytes
at a time. Items, their texts and the other members have to be those that Python's reader finds in the whole text; and what
is no JSON, or isn't a document with such an array, is refused. Documents are random, and some are cut or have another sign.
The last line is `windows: N right, M wrong`."""
import io
import json
import random
import sys

sys.dont_write_bytecode = True      # beside the companion
TRIES = 4000
WORDS = ['true', 'false', 'null', '0', '-0', '17', '-2.5', '1e5', '1E+10', '3.25e-7', '123456789012345678901234567890', '""', '"a\\n\\"b\\\\"',
         '"\\ud83d\\ude00"', '"é😀"', '"]}, {["', '[]', '{}']
BLANKS = ['', '', '', ' ', '\n', '\t \r\n']
SIGNS = '{}[]",:0e.-t\\ u'


def value(chance, depth=3):
    """The text of a value."""
    kind, blank = chance.randrange(4 if depth else 2), chance.choice(BLANKS)
    if kind < 2:
        return blank + chance.choice(WORDS) + chance.choice(BLANKS)
    some = [value(chance, depth - 1) for _ in range(chance.randrange(4))]
    if kind == 2:
        return blank + '[' + ','.join(some) + ']'
    return blank + '{' + ','.join('%s"%d"%s:%s' % (blank, place, blank, it) for place, it in enumerate(some)) + '}' + blank


def document(chance):
    """The text of a document, which may be none."""
    items = ','.join(value(chance) for _ in range(chance.randrange(5)))
    members = ['"%s":%s' % (name, value(chance)) for name in ('a', 'b', 'Sessions ')[:chance.randrange(4)]]
    members.insert(chance.randint(0, len(members)), ' "Sessions" : [%s]' % items)
    text = '{' + ','.join(members) + '}' + chance.choice(BLANKS)
    place, kind = chance.randrange(len(text)), chance.randrange(6)
    return text[:place] if kind == 0 else text[:place] + chance.choice(SIGNS) + text[place + 1:] if kind == 1 else text


def found(gather_json, program, source):
    """The items, with their values by their texts, and the other members; None where it is refused."""
    its = gather_json.Document(source, 'Sessions', gather_json.STRICT)
    try:
        items = [(number, held, json.loads(text)) for number, held, text in its.items()]
    except program.Ended:
        return None
    return (items, its.rest) if its.is_there else None


def wanted(gather_json, text):
    try:
        held = json.loads(text, object_pairs_hook=gather_json.once, parse_constant=gather_json.no_number)
        json.dumps(held, ensure_ascii=False).encode('utf-8')        # half a sign is none
        items = held.pop('Sessions')
    except (ValueError, AttributeError, KeyError, TypeError, gather_json.Repeated):
        return None
    return ([(number, it, it) for number, it in enumerate(items)], held) if isinstance(items, list) else None


def main():
    sys.path.insert(0, sys.argv[1])
    from cvr_audit import gather_json, gather_source, program
    chance, wrong, right = random.Random(1), 0, 0
    for _ in range(TRIES):
        text, gather_source.PIECE = document(chance), chance.choice([1, 2, 3, 5, 8, 13])
        data = text.encode('utf-8')
        source = gather_source.Source('file', len(data), lambda held=data: io.BytesIO(held))
        if found(gather_json, program, source) == wanted(gather_json, text):
            right += 1
        else:
            wrong += 1
            print('WRONG window of %d: %.300r' % (gather_source.PIECE, text))
    print('windows: %d right, %d wrong' % (right, wrong))
    sys.exit(1 if wrong or not right else 0)


if __name__ == '__main__':
    main()
