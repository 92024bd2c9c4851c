#!/usr/bin/env python3
"""at_scale.py --cvr PATH [--tenth WORD]

Tries the program where a limit that no other test reaches could stand: a list of 100,000 paths, a file of 150,000
records, a drill of 64 offices and 10,000 steps, and a line of 60 MB. What it prints, its log and its status have to be
those of printed.py. Of the list that reads each file once, since a repeated one brings nothing new, and of the many
records, which differ only in their names, one. With --tenth it tries one of these four.

The last line is `scale: N right, M wrong`; the status is 0 only where M is 0 and N is not."""
import json
import os
import random
import re
import sys
import tempfile

sys.dont_write_bytecode = True
sys.path.insert(0, os.path.dirname(os.path.dirname(os.path.abspath(__file__))))
import printed          # noqa: E402
import random_files     # noqa: E402
import tenth            # noqa: E402 (they stand here and in tests/)

PATHS, RECORDS, OFFICES, STEPS, LETTERS = 100_000, 150_000, 64, 10_000, 60_000_000
SMALL = ['f2.json', 'f6.json', 'f8.json', 'f11.json']


def named(names):
    """A report whose records have these names, and all else of the one in f2.json."""
    report = json.loads(random_files.VECTORS['f2.json'])
    report['CVR'] = [dict(report['CVR'][0], UniqueId=name) for name in names]
    return report


class Trial:
    """The program in a folder, and what was right and wrong."""

    def __init__(self, cvr, folder):
        self.cvr, self.folder, self.right, self.wrong, self.values = cvr, folder, 0, 0, {}
        for name in ['def.json', *SMALL]:
            self.add(name, json.loads(random_files.VECTORS[name]))

    def put(self, name, data):
        with open(os.path.join(self.folder, name), 'wb') as file:
            file.write(data)

    def add(self, name, report):
        """A file, which is valid."""
        self.put(name, json.dumps(report, ensure_ascii=False, separators=(',', ':')).encode('utf-8'))
        self.values[name] = report

    def answer(self, words):
        """What a run of these words has to print."""
        held = [(path, self.values[path]) for path in printed.paths(words)[1:]]
        return printed.answer(printed.Texts(), words, self.values['def.json'], held)

    def see(self, words, wanted):
        got = random_files.run(self.cvr, words, self.folder)
        if got == wanted:
            self.right += 1
            return
        self.wrong += 1
        print('WRONG %.80s: %.300r, expected %.300r' % (' '.join(words), got, wanted), flush=True)


def see_list(trial):
    paths = [SMALL[place % len(SMALL)] for place in range(PATHS)]
    trial.put('list', '\n'.join(paths).encode())
    trial.see(['tally', 'def.json', '--files-from', 'list'], trial.answer(['tally', 'def.json', *SMALL]))
    trial.see(['check', 'def.json', '--files-from', 'list'], trial.answer(['check', 'def.json', *paths]))


def see_records(trial):
    names = ['%06d' % place for place in range(RECORDS)]
    trial.add('one', named(names[:1]))
    trial.add('many', named(names))
    trial.see(['check', 'def.json', 'many'], trial.answer(['check', 'def.json', 'many']))
    line, log, status = trial.answer(['currents', 'def.json', 'one'])
    trial.see(['currents', 'def.json', 'many'], (''.join(line.replace(names[0], name) for name in names), log, status))
    rows, log, status = trial.answer(['tally', 'def.json', 'one'])
    rows = re.sub(r'(?<= )\d+(?=[ \n])', lambda number: '%d' % (RECORDS * int(number.group())), rows)
    trial.see(['tally', 'def.json', 'many'], (rows, log, status))


def steps(chance):
    """Steps of a drill: each office imports a file, and then they exchange what they hold."""
    for place in range(OFFICES):
        yield '%d=%s' % (place + 1, chance.choice(SMALL))
    for _ in range(STEPS - OFFICES):
        yield '%d>%d' % (chance.randint(1, OFFICES), chance.randint(1, OFFICES))


def see_drill(trial):
    words = ['drill', 'def.json', '%d' % OFFICES, *steps(random.Random(1))]
    trial.see(words, trial.answer(words))


def see_line(trial):
    trial.add('long', named(['é' * (LETTERS // 2)]))
    words = ['currents', 'def.json', 'long']
    trial.see(words, trial.answer(words))


def main():
    words = tenth.words().parse_args()
    with tempfile.TemporaryDirectory() as folder:
        trial = Trial(words.cvr, folder)
        for see in tenth.chosen(words.tenth, [see_list, see_records, see_drill, see_line], lambda it: it.__name__):
            see(trial)
    print('scale: %d right, %d wrong' % (trial.right, trial.wrong))
    sys.exit(0 if trial.right and not trial.wrong else 1)


if __name__ == '__main__':
    main()
