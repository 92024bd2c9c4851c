#!/usr/bin/env python3
"""cost.py --cvr PATH [--figures]

What `cvr check` and `cvr tally` cost, by counts that come out the same on a busy machine: the instructions that they
take for 8 MB of an invented county (bench/gen.py), as callgrind counts them; and over 40 MB of it the memory that they
get along with, by a limit on their address space, beyond which they would end in `memory`. Each may take a tenth more
than is noted here. A proof doesn't see what a run costs.

--figures prints what to note. The last line is `cost: N right, M wrong`; the status is 0 only where M is 0 and N is
not. Where there is no valgrind, a line `left out` says so, and only memory is tried."""
import glob
import os
import re
import resource
import shutil
import subprocess
import sys
import tempfile

sys.dont_write_bytecode = True
TOP = os.path.dirname(os.path.dirname(os.path.abspath(__file__)))
sys.path[:0] = [os.path.join(TOP, 'tests'), os.path.join(TOP, 'bench')]
import gen      # noqa: E402
import tenth    # noqa: E402 (they stand there)

COUNTED, HELD = 1600, 8000      # the records of the reports: 8 MB and 40 MB
NOTED = {       # of a command the instructions for 8 MB, and the KiB with which 40 MB are read
    'check': (289_550_965, 11_764),
    'tally': (417_205_784, 69_264),
}
ROOM = 1.1


def words_of(cvr, command, folder):
    """The words of a command over the reports in a folder, beside their definition."""
    definition = os.path.join(folder, 'definition.json')
    return [cvr, command, definition, *sorted(set(glob.glob(folder + '/*.json')) - {definition})]


def instructions(words):
    """How many instructions a command takes; it has to end with status 0."""
    ran = subprocess.run(['valgrind', '--tool=callgrind', '--callgrind-out-file=/dev/null', *words], stdin=subprocess.DEVNULL,
                         stdout=subprocess.DEVNULL, stderr=subprocess.PIPE, text=True, timeout=tenth.SECONDS)
    found = re.search(r'Collected : (\d+)', ran.stderr)
    if ran.returncode or not found:
        raise SystemExit('cost: %s ended with status %d: %s' % (' '.join(words[:2]), ran.returncode, ran.stderr[-300:]))
    return int(found.group(1))


def is_enough(words, size):
    """Whether a command ends with status 0 where its address space has this many KiB."""
    def limit():
        resource.setrlimit(resource.RLIMIT_AS, (1024 * size, 1024 * size))

    ran = subprocess.run(words, stdin=subprocess.DEVNULL, stdout=subprocess.DEVNULL, stderr=subprocess.DEVNULL, preexec_fn=limit,
                         timeout=tenth.SECONDS)
    return ran.returncode == 0


def least(words):
    """The least KiB that are enough."""
    low, high = 0, 1 << 22
    while low + 1 < high:
        middle = (low + high) // 2
        low, high = (low, middle) if is_enough(words, middle) else (middle, high)
    return high


def tell_figures(cvr, small, large):
    for command in NOTED:
        print('    %r: (%d, %d),' % (command, instructions(words_of(cvr, command, small)), least(words_of(cvr, command, large))))


def tried(cvr, small, large):
    """Yields of each count whether it is right, and a line on it."""
    has_valgrind = shutil.which('valgrind')
    if not has_valgrind:
        tenth.leave_out('instructions', 'valgrind is not there')
    for command, (steps, size) in NOTED.items():
        if has_valgrind:
            count = instructions(words_of(cvr, command, small))
            yield count <= ROOM * steps, '%s: %d instructions, %.3f of the %d that are noted' % (command, count, count / steps, steps)
        yield is_enough(words_of(cvr, command, large), int(ROOM * size)), '%s: within %d KiB' % (command, ROOM * size)


def main():
    words = tenth.words()
    words.add_argument('--figures', action='store_true')
    words = words.parse_args()
    right = wrong = 0
    with tempfile.TemporaryDirectory() as folder:
        small, large = os.path.join(folder, 'small'), os.path.join(folder, 'large')
        for place, amount in (small, COUNTED), (large, HELD):
            os.mkdir(place)
            gen.records(place, amount, 1)
        if words.figures:
            sys.exit(tell_figures(words.cvr, small, large))
        for is_right, line in tried(words.cvr, small, large):
            right, wrong = right + is_right, wrong + (not is_right)
            print('%s%s' % ('' if is_right else 'WRONG ', line), flush=True)
    print('cost: %d right, %d wrong' % (right, wrong))
    sys.exit(0 if right and not wrong else 1)


if __name__ == '__main__':
    main()
