#!/usr/bin/env python3
"""called.py [--rows] WORD..

A peer for compare.py: answers the words of cvr by the package for Python, over the library that LIBCVR names. With --rows
it reads what `tally` or `currents` prints into rows of Python, and prints these."""
import json
import os
import sys

sys.dont_write_bytecode = True
sys.path.insert(0, os.path.join(os.path.dirname(os.path.dirname(os.path.abspath(__file__))), 'python'))
import cvr      # noqa: E402 (it stands there)


def printed(*parts):
    """A line, in which texts are JSON strings."""
    return ' '.join(json.dumps(part, ensure_ascii=False) for part in parts)


def of_tally(row):
    """The line of a row of the tally."""
    return printed(row.contest, row.unit, row.batch, *row.numbers, *(part for vote in row.votes.items() for part in vote))


def of_current(row):
    """The line of a current snapshot."""
    return printed(row.device, row.record, row.snapshot) + ' ' + row.type


def main():
    words = sys.argv[1:]
    if words[:1] == ['--rows']:
        rows, line = {'tally': (cvr.tally, of_tally), 'currents': (cvr.currents, of_current)}[words[1]]
        sys.stdout.writelines(line(row) + '\n' for row in rows(words[2], words[3:]))
        return
    result = cvr.run(words, filter(os.path.isfile, words))
    sys.stdout.buffer.write(result.text)
    sys.stderr.buffer.write(result.log)
    sys.exit(result.status)


if __name__ == '__main__':
    main()
