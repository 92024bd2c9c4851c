#!/usr/bin/env python3
"""start.py

Does what README's Start says, in this checkout, as somebody new would: `./cvr`, then `./test`, `./cvr` again,
`./prove`, and `./cvr` once more, which has to print the same tally each time, and to build nothing after the first; and
`git status` has to see the checkout as it was. Then the other order in a clone of its own, without a release, over what
is proved by then: `./test` with some of its parts, `./cvr`, `rt ci`, `./cvr`, `./test`. In that clone `rt ci` also has
to stop at each kind of file at which `./test` says that it does, and the program has to run all the same.

The last lines are `start: N right, M wrong`, which speaks of these calls alone, and the sum with what `./test` and
`./prove` counted, `N passed, M failed`. The status is 0 only where M is 0 and N is not."""
import os
import re
import shutil
import subprocess
import sys
import tempfile
import time

sys.dont_write_bytecode = True
TOP = os.path.dirname(os.path.dirname(os.path.abspath(__file__)))
sys.path.insert(0, TOP + '/tests')
import parts    # noqa: E402 (it stands there)

SECONDS = 5     # in which `./cvr` answers where it builds nothing, also on a busy machine
SOME = 'build', 'rows'      # of the parts of `./test`
# Files at which `rt ci` stops, and what they hold; None stands for a link.
STRAYS = {'out/src/lib.rt': '', 'docs/Words.antt': '', 'out/link': None, 'tests/BUILD.bazel': '', 'out/crates.txt': '', 'out/copy/.git/HEAD': '',
          'crates/cvr/data/link': None}


class Start:
    def __init__(self):
        self.right, self.wrong, self.passed, self.failed, self.tally = 0, 0, 0, 0, None

    def see(self, what, is_right):
        self.right, self.wrong = self.right + bool(is_right), self.wrong + (not is_right)
        print('%s %s' % ('right:' if is_right else 'WRONG', what), flush=True)

    def first(self, top, is_built=True):
        """Runs README's first command; where the program `is_built`, it has to answer at once, and to say nothing else."""
        start = time.time()
        done = subprocess.run(command(), cwd=top, stdin=subprocess.DEVNULL, stdout=subprocess.PIPE, stderr=subprocess.PIPE if is_built else None)
        seconds, self.tally = time.time() - start, self.tally or done.stdout
        self.see('./cvr, after %.1f s' % seconds, done.returncode == 0 and done.stdout == self.tally and is_of_readme(done.stdout.decode('utf-8'))
                 and (not is_built or not done.stderr and seconds < SECONDS))

    def run(self, top, *words):
        """Runs `./test` or `./prove`, and adds up what it counts."""
        process, last = subprocess.Popen(words, cwd=top, stdin=subprocess.DEVNULL, stdout=subprocess.PIPE), ''
        for line in process.stdout:
            last = line.decode('utf-8', 'replace').rstrip()
            print(last, flush=True)
        found = re.fullmatch(r'(\d+) passed, (\d+) failed', last)
        passed, failed = map(int, found.groups()) if found else (0, 1)
        self.passed, self.failed = self.passed + passed, self.failed + failed
        self.see(' '.join(words), process.wait() == 0 and found)

    def other_order(self, top):
        subprocess.run(['git', 'clone', '-q', TOP, top], check=True)
        shutil.rmtree(top + '/dist')
        self.run(top, './test', *SOME)
        self.first(top)
        self.run(top, 'rt', 'ci')
        self.first(top)
        self.stray(top)
        self.first(top)
        self.run(top, './test', *SOME)

    def stray(self, top):
        """Tries that `rt ci` stops at the files at which `./test` says so, and at no other."""
        self.see('nothing is left at which `rt ci` stops', not parts.strays(top))
        for path, text in STRAYS.items():
            place = os.path.join(top, path)
            os.makedirs(os.path.dirname(place), exist_ok=True)
            if text is None:
                os.symlink('nowhere', place)
            else:
                open(place, 'w').close()
            done = subprocess.run(['rt', 'ci'], cwd=top, stdin=subprocess.DEVNULL, stdout=subprocess.PIPE, stderr=subprocess.STDOUT, text=True)
            self.see('`rt ci` stops at ' + path, done.returncode and '0 passed, 1 failed' in done.stdout and parts.strays(top))
            os.remove(place)
            if path.endswith('HEAD'):
                os.rmdir(os.path.dirname(place))


def readme():
    with open(TOP + '/README.md', encoding='utf-8') as file:
        return file.read()


def command():
    """README's first command."""
    return re.search(r'^    (\./cvr tally .*)$', readme(), re.M).group(1).split()


def is_of_readme(text):
    """Whether a tally has the lines that README shows of it."""
    shown = re.findall(r'^"council" .*$', readme(), re.M)
    return len(shown) == 3 and set(shown) <= set(text.splitlines())


def seen(top):
    """What git sees in a checkout."""
    return subprocess.run(['git', 'status', '--porcelain'], cwd=top, stdout=subprocess.PIPE, check=True).stdout


def main():
    start, before = Start(), seen(TOP)
    start.first(TOP, is_built=False)
    start.run(TOP, './test')
    start.first(TOP)
    start.run(TOP, './prove')
    start.first(TOP)
    start.see('git sees the checkout as it was', seen(TOP) == before)
    with tempfile.TemporaryDirectory(prefix='start-') as room:
        start.other_order(room + '/a clone')
    print('start: %d right, %d wrong' % (start.right, start.wrong))
    print('%d passed, %d failed' % (start.passed + start.right, start.failed + start.wrong))
    sys.exit(0 if start.passed and not start.failed + start.wrong else 1)


if __name__ == '__main__':
    main()
