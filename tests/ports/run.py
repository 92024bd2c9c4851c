#!/usr/bin/env python3
"""run.py [--texts N] [--seed N] [--peer PROGRAM]

Compares what the kit's libraries `json`, `serde_json`, `fast_float` and `jiff` make of texts with second readings in
Python: its own `json`, with the limits that FORMAT states, `float` and the C library's `strtod`, and the moments of
tests/rows/rules.py. The program of ports.rt.txt prints what the libraries make of each text; `rt` proves and builds it first.
The texts are those of kept.txt, and then random changes of them and random texts. With --peer a program as that of
peer/ (`cargo build --release --offline` there), which is Rust with the real `serde_json` and `json`, has to print the
same values. A difference is printed with the smallest text that shows it. One seed gives the same texts everywhere.

The line before the last counts the texts of each kind, and of how many a library reads a value. The last line is
`ports: N right, M wrong`; the status is 0 only where M is 0 and N is not."""
import argparse
import ast
import collections
import ctypes
import json
import os
import random
import re
import shutil
import struct
import subprocess
import sys
import tempfile

sys.dont_write_bytecode = True
HERE = os.path.dirname(os.path.abspath(__file__))
sys.path.insert(0, os.path.join(os.path.dirname(HERE), 'rows'))
import rules  # noqa: E402 (it stands in rows/)

CRATES = 'ports: serde_json json fast_float jiff hex\n'
BLOCK = 20000           # texts in one run of the program
SECONDS = 600           # of such a run; to prove and build the program, beside other proofs, may take five times as long
VALUE_DEPTH, TEXT_DEPTH = 127, 128      # how deep `serde_json` reads, and `json`
FLOAT = re.compile(rb'[+-]?(inf|infinity|nan|(\d+\.?\d*|\.\d+)(e[+-]?\d+)?)', re.I)
NUMERAL = re.compile(rb'(\d+)(\.\d+)?([eE][+-]?\d+)?')
STRTOD = ctypes.CDLL(None).strtod
STRTOD.restype, STRTOD.argtypes = ctypes.c_double, [ctypes.c_char_p, ctypes.c_void_p]
DAY_ONE = rules.instant('1970-01-01T00:00:00Z')
PIECES = {
    'J': [b'{', b'}', b'[', b']', b',', b':', b'"', b'\\', b'"a"', b'"a":', b'null', b'true', b'false', b'0', b'-0', b'-', b'1', b'.5',
          b'e5', b'E+', b'1e308', b'1e309', b'18446744073709551615', b'18446744073709551616', b'-9223372036854775808',
          b'-9223372036854775809', b'\\ud800', b'\\udc00', b'\\ud83d\\ude00', b'\\u0000', b'\\n', b'\\/', b'\\x', b'\xc3\xa9',
          b'\xe2\x82\xac', b'\xf0\x9f\x98\x80', b'\xed\xa0\x80', b'\xff', b'\xef\xbb\xbf', b' ', b'\t', b'\n', b'\r', b'\x0b', b'\x00',
          b'\x1f', b'\x7f', b'[' * 126, b']' * 126, b'[[', b']]', b'{"a":' * 100, b'}' * 100, b'//', b'NaN', b'Infinity', b'01', b'1.', b'+1'],
    'F': [b'0', b'1', b'9', b'5', b'.', b'e', b'E', b'+', b'-', b'00', b'e308', b'e-324', b'e-323', b'17976931348623157', b'4.9',
          b'9007199254740993', b'2.2250738585072011', b'18446744073709551616', b'9223372036854775808', b'inf', b'nan', b'_', b' ', b'0' * 30,
          b'5' * 40, b'1e', b'x'],
    'T': [b'2024', b'-', b'0', b'1', b'2', b'9', b'T', b't', b' ', b':', b'Z', b'z', b'+', b'.', b',', b'24', b'59', b'60', b'61', b'00',
          b'02-29', b'02-30', b'25', b'-000001', b'+009999', b'-009999', b'9999-12-30T22:00:00Z', b'-05:00', b'[UTC]', b'999999999', b'W', b'366',
          b'20241106', b'\xe2\x88\x92'],
}


# ---- second readings: whether what ports/ prints of a text is right

def no_json(*_):
    raise ValueError


def members(pairs):
    """The members of an object; of two of one name the last counts."""
    return sorted(dict(pairs).items(), key=lambda it: it[0].encode('utf-8')), 'object'


def value_of(text, pairs=members):
    """A JSON text's value, printed so that no two values have one print, and whether all its numbers are floats or
    whole numbers of 64 bits; else ValueError."""
    large = []

    def whole(word):
        value = int(word)
        return value if -2 ** 63 <= value < 2 ** 64 and word != '-0' else fraction(word)

    def fraction(word):
        value = float(word)
        large.extend([word] if abs(value) == float('inf') else [])
        return value

    value = json.loads(text, parse_int=whole, parse_float=fraction, parse_constant=no_json, object_pairs_hook=pairs)
    for held in rules.TEXT.findall(text) if '\\u' in text else ():
        json.loads(held).encode('utf-8')        # half a surrogate pair is no text, even in an overridden member
    return repr(value), not large


def json_is_right(data, line):
    valid, _, told = line.partition(' ')
    try:
        value, fits = value_of(data.decode('utf-8'))
    except (ValueError, RecursionError):
        return line == 'false -'
    if not fits or rules.is_deeper(data, VALUE_DEPTH):
        return told == '-' and valid == ('false' if rules.is_deeper(data, TEXT_DEPTH) else 'true')
    return valid == 'true' and told != '-' and value_of(told, lambda it: (it, 'object')) == (value, True)


def bits_of(value):
    return str(struct.unpack('>Q', struct.pack('>d', value))[0])


def float_is_right(data, line):
    told, unsigned, signed = line.split(' ')
    if not FLOAT.fullmatch(data):
        return told == '-'
    value = float(data)
    if value != value:
        return told == 'nan'
    found = NUMERAL.fullmatch(data)
    if found:
        number = int(data) if found.lastindex == 1 else 2 ** 64
        wanted = str(number) if number < 2 ** 64 else '-', str(-number) if number <= 2 ** 63 else '-'
        if wanted != (unsigned, signed):
            return False
    return told == bits_of(value) == bits_of(STRTOD(data, None))


def moment_is_right(data, line):
    """A moment with a `[` isn't compared: FORMAT refuses it, whatever `jiff` reads."""
    try:
        text = data.decode('utf-8')
    except ValueError:
        return line == '-'
    if '[' in text:
        return True
    return line == (str(rules.instant(text) - DAY_ONE) if rules.is_moment(text) else '-')


IS_RIGHT = {'J': json_is_right, 'F': float_is_right, 'T': moment_is_right}


# ---- texts

def kept():
    """The texts of kept.txt: a letter, and what Python prints of the bytes between quotes."""
    with open(os.path.join(HERE, 'kept.txt'), encoding='ascii') as file:
        return [(line[0], ast.literal_eval(line[2:])) for line in file]


def random_text(chance, kind):
    return b''.join(chance.choices(PIECES[kind], k=chance.randint(1, 12)))


def change(chance, kind, data):
    """A text with a slice replaced by one of the pieces, by itself twice, or by nothing."""
    start = chance.randrange(len(data) + 1)
    stop = min(len(data), start + int(chance.expovariate(0.5)))
    way = chance.random()
    new = chance.choice(PIECES[kind]) if way < 0.6 else data[start:stop] * 2 if way < 0.7 else b''
    return data[:start] + new + data[stop:]


def texts(chance, base):
    """Random texts without an end."""
    while True:
        kind, data = chance.choice(base)
        if chance.random() < 0.1:
            data = random_text(chance, kind)
        for _ in range(chance.choice([1, 1, 1, 2, 3])):
            data = change(chance, kind, data)
        yield kind, data


# ---- programs

def told(program, held):
    """What a program prints of each text; else the end."""
    given = b''.join(b'%s %s\n' % (kind.encode('ascii'), data.hex().encode('ascii')) for kind, data in held)
    done = subprocess.run([program], input=given, stdout=subprocess.PIPE, check=True, timeout=SECONDS)
    lines = done.stdout.decode('utf-8').split('\n')[:-1]
    if len(lines) != len(held):
        raise ValueError('%s prints %d lines for %d texts' % (program, len(lines), len(held)))
    return lines


def printed(programs, held):
    """The texts, each with what the programs print of it."""
    return list(zip(held, zip(*(told(program, held) for program in programs))))


def wrong(pairs):
    """Which of the texts are read otherwise, and what is printed of them."""
    return [(text, lines) for text, lines in pairs
            if not IS_RIGHT[text[0]](text[1], lines[0]) or len(lines) > 1 and not is_same(*text, *lines)]


def is_taken(kind, line):
    """Whether the library reads a value, of JSON `serde_json`."""
    return line.split(' ')[kind == 'J'] != '-'


def is_same(kind, data, line, other):
    """Whether both programs say the same. The real `json` nests deeper, and takes U+000B and U+000C for spaces; Debian
    has no `jiff`; and floats of one value have several texts."""
    if kind != 'J':
        return kind == 'T' or line.split(' ')[0] == other
    (valid, _, text), (other_valid, _, other) = line.partition(' '), other.partition(' ')
    has_own = b'\x0b' in data or b'\x0c' in data or rules.is_deeper(data, TEXT_DEPTH)
    has_same = text == other or '-' not in (text, other) and value_of(text) == value_of(other)
    return has_same and (valid == other_valid or has_own)


def smallest(programs, text):
    """The same for a text from which no byte can be taken."""
    while True:
        kind, data = text
        less = [(kind, data[:place] + data[place + size:]) for size in (16, 4, 1) for place in range(len(data) + 1 - size)]
        found = wrong(printed(programs, less)) if less else []
        if not found:
            return wrong(printed(programs, [text]))[0]
        text = min(found, key=lambda it: len(it[0][1]))[0]


def built(folder):
    """The program, which `rt` proves and builds in a folder of its own, since the repository has one list of crates."""
    os.makedirs(os.path.join(folder, 'ports', 'src'))
    shutil.copy(os.path.join(HERE, 'ports.rt.txt'), os.path.join(folder, 'ports', 'src', 'main.rt'))
    with open(os.path.join(folder, 'crates.txt'), 'w', encoding='utf-8') as file:
        file.write(CRATES)
    done = subprocess.run(['rt', 'run', 'ports'], cwd=os.path.join(folder, 'ports'), stdin=subprocess.DEVNULL,
                          stdout=subprocess.PIPE, stderr=subprocess.STDOUT, timeout=5 * SECONDS)
    if done.returncode:
        raise ValueError(done.stdout.decode('utf-8', 'replace')[-2000:])
    return os.path.join(folder, 'ports', 'out', 'ports')


def blocks(words):
    """Lists of texts: those that are kept, and then random ones, as many as the words say."""
    base, chance = kept(), random.Random(words.seed)
    yield base
    held = texts(chance, base)
    for left in range(words.texts, 0, -BLOCK):
        yield [next(held) for _ in range(min(BLOCK, left))]


def main():
    words = argparse.ArgumentParser(usage=__doc__)
    words.add_argument('--texts', type=int, default=200000)
    words.add_argument('--seed', type=int, default=1)
    words.add_argument('--peer')
    words = words.parse_args()
    with tempfile.TemporaryDirectory() as folder:
        compare(words, [built(folder)] + [words.peer] * bool(words.peer))


def compare(words, programs):
    """Compares what the programs print of texts, says what differs, and ends with the status."""
    right, shown, counts, taken = 0, [], collections.Counter(), collections.Counter()
    for held in blocks(words):
        pairs = printed(programs, held)
        found = wrong(pairs)
        right += len(held) - len(found)
        counts.update(kind for kind, _ in held)
        taken.update(kind for (kind, _), lines in pairs if is_taken(kind, lines[0]))
        shown += found
        if found and len(shown) < 100:
            for (kind, data), lines in {it[0]: it for it in [smallest(programs, text) for text, _ in found[:5]]}.values():
                print('WRONG: %s %r: %s' % (kind, data, lines))
    print(', '.join('%s: %d, of which %d are taken' % (kind, counts[kind], taken[kind]) for kind in sorted(counts)))
    print('ports: %d right, %d wrong' % (right, len(shown)))
    sys.exit(0 if right and not shown else 1)


if __name__ == '__main__':
    main()
