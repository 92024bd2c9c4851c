#!/usr/bin/env python3
"""page.py --cvr PATH [--tenth WORD] [--companion FOLDER] [--masks] [--picture PNG]

Tests `cvr-audit page`. The county of examples/: its two pages are compared line by line with
page/county.txt, but for columns that it doesn't name, and page/public.txt, which were written by hand.
Sets of files (page_sets.py): odd names, 60 units and 2,000, 300 contests, no record, nothing but refused
files, one ballot a file, and contests and units of random sizes. For each, on pages for offices and for
the public, it tests

- every number, compared with what `cvr` prints (page_numbers.py);
- what a reader can work out of the numbers that are withheld, also by trying what each file could be
  (page_masks.py);
- that a page for the public withholds what the rule does; which selections this is, by hand
  (page_order.py); and what follows from the rule: by a solver (page_ranges.py), and by trying all tables
  of small counties (page_tables.py);
- the tree of heads, the heads of tables, that nothing is fetched or run, and that `tidy` reads the
  page as HTML5 (page_form.py);
- how Chromium shows it in a wide and a narrow window, and prints it (page_views.py).

It also tests that the page names the kit by the PROVENANCE of an installed program, and what a second
program counted.

Beside that the slips of page_ways.py: each is made in a copy, and the county or the sets have to find
it. With --companion the copy in that folder is tested, without a browser and without the largest sets,
until something is wrong; with --masks WHAT only a part of what the rule withholds: `order`, `tables` or
`ranges`. Where a tool isn't
there a line `left out` says so. With --tenth a tenth of the sets and of the slips are tried. --picture
writes the picture that README shows.
The last line is `page: N right, M wrong`; the status is 0 only where M is 0 and N is not."""
import hashlib
import itertools
import json
import os
import random
import re
import shutil
import subprocess
import sys
import tempfile
import threading
from concurrent.futures import ThreadPoolExecutor
from operator import attrgetter, itemgetter

sys.dont_write_bytecode = True
HERE = os.path.dirname(os.path.abspath(__file__))
TOP = os.path.dirname(os.path.dirname(HERE))
sys.path[:0] = [HERE, os.path.dirname(HERE), os.path.join(TOP, 'tests', 'rows')]
import companion     # noqa: E402
import journal       # noqa: E402
import page_form     # noqa: E402
import page_masks    # noqa: E402
import page_numbers  # noqa: E402 (it needs printed of rows/)
import page_order    # noqa: E402
import page_ranges   # noqa: E402
import page_sets     # noqa: E402
import page_tables   # noqa: E402
import page_text     # noqa: E402
import page_views    # noqa: E402
import page_ways     # noqa: E402
import tenth         # noqa: E402 (these stand beside this file and in tests/)

COUNTY = os.path.join(TOP, 'examples', 'county')
FILES = ['scan.json', 'adjudicated.json', 'corrected.json', 'damaged.json']
REFUSED = 'damaged.json: E3 /CVR/0/UniqueId 2\n'
PROVENANCE = 'cvr 1.0.0 was made so:\n\nversion       1.0.0\nkit           kit-1 logic 2\nnative        a\nlinux-x86_64  '
MADE = '1730930400'         # 2024-11-06T22:00:00Z
RANKS = """table: Selections by rank
Selection | Rank 1 | Rank 2 | Rank 3
Ada ada | 10 | 10 | 0
Bob bob | 10 | 0 | 10
Cyd cyd | 10 | 10 | 0
"""                         # of page_sets.ranked()
SCORES = """table: Selections by rank
Selection | No rank
Low low | 0
High high | 30
"""
WRITE_INS = ["""### Mayor mayor
Ballots: 513
table: Selections
Selection | Votes
Ann ann | 266
Bob bob | *
Write-in mayor-1 | *
Write-in mayor-2 | *
### Sheriff sheriff
Ballots: 513
table: Selections
Selection | Votes
Dan dan | 463
Eve eve | 24
Write-in sheriff-1 | *
Write-in sheriff-2 | *
### Clerk clerk
Ballots: 513
table: Selections
Selection | Votes
Cyd cyd | *
Write-in clerk-1 | *
%s
""" % page_numbers.LEADER, """### Mayor mayor
table: By unit
Unit | Ann ann
Unit 0 u0 | 150
Unit 1 u1 | 116
Sum | 266
### Sheriff sheriff
table: By unit
Unit | Dan dan
Unit 0 u0 | 230
Unit 1 u1 | 233
Sum | 463
### Clerk clerk
Withheld.
""", """### Coroner coroner
Ballots: 513
table: Selections
Selection | Votes
Fay fay | 120
Gus gus | *
Write-in coroner-1 | *
Write-in coroner-2 | *
"""]                        # of page_sets.write_ins()
TOO_MANY = ['Votes and unassigned come to 7, with overvotes, undervotes and pending to 7, and the ballots have 6: too many.\n', ' 3 2: School board (board)\n']
COUNTS = """Contest | cvr: ballots | cvr: votes | cvr-audit: ballots | cvr-audit: votes | second: ballots | second: votes
County Council council | 4 | 2 | 4 | 2 | 4 | 2
Measure 1: parks parks | 4 | 3 | 4 | 3 | 4 | 3""".splitlines()
LARGE, BYTES = 3000, 250000     # ballots, and the bytes that their page may have
NO_ROUNDS = 'The votes of this contest are ranks or scores: they stand by rank, and no rounds are computed.'
SECONDS = 1800      # which a slip may take beside proofs
SIDE_BY_SIDE = 4
SHOWN = 9           # what is printed of what is wrong with one thing
SETS, FEW = 40, 8   # random ones, and those with which a slip is tried


class Found(Exception):
    """Something is wrong with a copy."""


class Trial:
    """A companion and a program that are tested. Of a copy the first wrong thing is enough."""

    def __init__(self, cvr, folder, is_seen=True):
        self.cvr, self.companion, self.is_seen = cvr, folder, is_seen
        self.right, self.wrong, self.lock = 0, 0, threading.Lock()
        self.package = companion.package_in(folder)

    def see(self, what, wrong):
        """Counts a thing that was tested, and prints what is wrong with it."""
        with self.lock:
            self.right, self.wrong = self.right + (not wrong), self.wrong + bool(wrong)
            for line in wrong[:SHOWN]:
                print('WRONG %s: %s' % (what, line))
        if wrong and not self.is_seen:
            raise Found

    def page(self, folder, definition, files, *words, cvr=None):
        """(page, log, status) of the words."""
        script = os.path.join(self.companion, 'cvr-audit')
        return run(folder, *companion.PYTHON, script, 'page', definition, *files, *words,
                   CVR=cvr or self.cvr, SOURCE_DATE_EPOCH=MADE)

    def printed(self, folder, *words):
        """What a command of `cvr` prints, and its status."""
        out, _, status = run(folder, self.cvr, *words)
        return out, status


def run(folder, *words, **variables):
    """(output, log, status) of a run in a folder."""
    done = subprocess.run(words, cwd=folder, env=dict(os.environ, **variables),
                          stdin=subprocess.DEVNULL, stdout=subprocess.PIPE, stderr=subprocess.PIPE,
                          timeout=SECONDS)
    return done.stdout.decode('utf-8'), done.stderr.decode('utf-8', 'replace'), done.returncode


# ---- the county

def digest_of(name, trial, folder):
    """The SHA-256 of a file, of a program, or of the tally."""
    if name == 'cvr-audit':
        return journal.sum_of_companion(trial.companion)
    if name == 'tally':
        data = trial.printed(folder, 'tally', 'definition.json', *FILES)[0].encode('utf-8')
    else:
        with open(trial.cvr if name == 'cvr' else os.path.join(folder, name), 'rb') as file:
            data = file.read()
    return hashlib.sha256(data).hexdigest()


def filled(text, trial, folder):
    """A text written by hand, with what can't be written by hand: digests, the version, and advice."""
    advice = trial.package.advice.ADVICE
    text = text.replace('{version}', trial.printed(folder, '--version')[0].split('\n')[0])
    text = text.replace('{audit version}', 'cvr-audit ' + trial.package.VERSION)
    text = re.sub(r'\{digest of (.*?)\}', lambda it: digest_of(it.group(1), trial, folder), text)
    return re.sub(r'\{(\w+)\}', lambda it: advice[it.group(1)], text)


def see_county(trial, folder):
    for name in os.listdir(COUNTY):
        shutil.copy(os.path.join(COUNTY, name), folder)
    for name, more in (('county', []), ('public', ['--public'])):
        with open(os.path.join(HERE, 'page', name + '.txt'), encoding='utf-8') as file:
            wanted = filled(file.read(), trial, folder)
        # a column that the county's text doesn't name is compared by page_numbers.py alone
        hidden = [it for it in page_numbers.COLUMNS if not more and '\n%s: ' % it not in wanted]
        words = FILES + ['--manifest', 'manifest.csv'] + more
        text, log, status = trial.page(folder, 'definition.json', words)
        wrong = list(differences(list(page_text.lines(page_text.read(text), hidden)), wanted.splitlines()))
        wrong += ['status %d, log %r' % (status, log)] * ((status, log) != (1, REFUSED))
        wrong += list(page_form.wrong_of(page_text.read(text), text))
        trial.see('county, %s' % name, wrong)
        with open(os.path.join(folder, name + '.html'), 'w', encoding='utf-8') as file:
            file.write(text)


def see_kit(trial, folder):
    """An installed program, beside the PROVENANCE of it or of another one, and the kit that the page of a
    county names."""
    cvr, digest = os.path.join(folder, 'top/bin/cvr'), digest_of('cvr', trial, folder)
    provenance = os.path.join(folder, 'top/share/doc/cvr/PROVENANCE')
    for path in (cvr, provenance):
        os.makedirs(os.path.dirname(path))
    shutil.copy(trial.cvr, cvr)
    for program, kit in (None, ''), (digest, ', kit kit-1 logic 2'), ('0' * 64, ''):
        if program:
            with open(provenance, 'w', encoding='utf-8') as file:
                file.write(PROVENANCE + program + '\n')
        text, _, _ = trial.page(folder, 'definition.json', [], cvr=cvr)
        said = [it for it in page_text.lines(page_text.read(text)) if it.startswith('By: ')]
        wanted = filled('By: {version}, SHA-256 {digest of cvr}' + kit, trial, folder)
        trial.see('the kit of %s' % program, list(differences(said, [wanted])))


def see_second(trial, folder):
    """The page of a second program, which counts the same, beside the others."""
    text, _, _ = trial.page(folder, 'definition.json', ['scan.json', '--second', trial.cvr])
    said = list(page_text.lines(page_text.read(text)))
    wanted = [filled('And by: {version}, SHA-256 {digest of cvr}', trial, folder), *COUNTS]
    trial.see('a second program', ['%r is not there' % it for it in wanted if it not in said])


def see_public(trial, what, made, wanted):
    """Tests that the page of a set for the public has these lines."""
    see_lines(trial, what, made, wanted, words=['--public'])


def see_lines(trial, what, made, wanted, absent=(), words=('--test',)):
    """Tests that the page of a set has these lines, and none of the others. Reports of a test beside others are meant."""
    held = page_sets.texts_of(made)
    with tempfile.TemporaryDirectory() as folder:
        for path, data in held.items():
            with open(os.path.join(folder, path), 'wb') as file:
                file.write(data)
        text, log, status = trial.page(folder, 'def.json', [it for it in held if it != 'def.json'], *words)
    lines = ''.join(it + '\n' for it in page_text.lines(page_text.read(text)))
    wrong = ['status %d: %s' % (status, log)] * bool(status)
    wrong += ['%r is not there' % it for it in wanted if it not in lines]
    trial.see(what, wrong + ['%r is there' % it for it in absent if it in lines])


def of_a_test(made):
    """A set whose first three files alone are left; two of these are of a test, of which one lacks ballots."""
    definition, files = made
    said = [{}, {'OtherReportType': 'Test'}, {'OtherReportType': 'test,incomplete'}]
    return definition, {path: dict(it, **more) for (path, it), more in zip(files.items(), said)}


def see_large(trial, count):
    """Tests that the page of a county of thousands of ballots in many files is small, and begins with its votes."""
    held, what = page_sets.texts_of(page_sets.machines(count, most=50)), '{:,} ballots'.format(count)
    see_set(trial, what, held, False)
    with tempfile.TemporaryDirectory() as folder:
        for path, data in held.items():
            with open(os.path.join(folder, path), 'wb') as file:
                file.write(data)
        path = os.path.join(folder, 'page.html')
        trial.page(folder, 'def.json', [it for it in held if it != 'def.json'], '-o', path)
        size = os.path.getsize(path)
        trial.see(what + ': bytes', ['%d bytes' % size] * (size > BYTES))
        page_views.see_large(trial, path, what)


def picture(trial, folder, to):
    """Writes the picture of the county's page, without what is wrong in the county."""
    words = FILES[:2] + ['--manifest', 'manifest.csv', '-o', 'picture.html']
    trial.page(folder, 'definition.json', words)
    page_views.picture(os.path.join(folder, 'picture.html'), to)


def differences(got, wanted):
    for place, (a, b) in enumerate(zip(got, wanted), 1):
        if a != b:
            yield 'line %d\n    got      %r\n    expected %r' % (place, a, b)
    if len(got) != len(wanted):
        yield '%d lines, not %d' % (len(got), len(wanted))


# ---- sets

def sets(words):
    """The sets, by name: what makes the bytes of their files by name; those that take longest first."""
    texts, definition = page_sets.texts_of, page_sets.many_contests(2)[0]
    if not words.companion:
        yield '300 contests', lambda: texts(page_sets.many_contests())
        yield '2,000 units', lambda: texts(page_sets.many_units())
    yield 'odd names', lambda: texts(page_sets.odd())
    yield 'ranks', lambda: texts(page_sets.ranked(24))
    yield '60 units', lambda: texts(page_sets.many_units(60))
    yield 'small units', lambda: texts(page_sets.small_units())
    yield 'several votes', lambda: texts(page_sets.several_votes())
    yield 'no record', lambda: texts((definition, {}))
    yield 'a ballot of DEF', lambda: page_sets.one_each(is_in_definition=True)[0]
    refused = {'a.json': dict(definition, Version='2.0.0')}
    yield 'refused files', lambda: dict(texts((definition, refused)), **{'b.json': b'{', 'c.json': b'\xff'})
    for seed in range(1, 1 + (FEW if words.companion else SETS)):
        yield 'set %d' % seed, lambda seed=seed: texts(page_sets.uneven(random.Random(seed)))


def counts_of(trial, folder, files):
    """The records of DEF and of each file, by `cvr check`; None of a refused one."""
    text, _ = trial.printed(folder, 'check', '--', 'def.json', 'def.json', *files)
    held = dict(line.rsplit(' ', 1) for line in text.splitlines())
    return [held.get(name) for name in ['def.json'] + files]


def see_set(trial, name, held, is_public, possible=()):
    """Tests a page of a set, and how it looks where the set has a name of its own. A reader of it may try
    what each file could be."""
    files, definition = [it for it in held if it != 'def.json'], json.loads(held['def.json'])
    with tempfile.TemporaryDirectory() as folder:
        for path, data in held.items():
            with open(os.path.join(folder, path), 'wb') as file:
                file.write(data)
        text, status = trial.printed(folder, 'tally', '--', 'def.json', *files)
        tally, counts = page_numbers.Tally(text, definition), counts_of(trial, folder, files)
        what, path = name + ' for the public' * is_public, os.path.join(folder, 'page.html')
        text, log, got = trial.page(folder, 'def.json', files, *['--public'] * is_public)
        wrong = ['status %d: %s' % (got, log)] * (got != status)
        trial.see(what, wrong + list(set_wrong(trial, text, tally, counts, is_public, possible)))
        with open(path, 'w', encoding='utf-8') as file:
            file.write(text)
        if trial.is_seen and not name.startswith('set '):
            page_views.see(trial, path, what)


def set_wrong(trial, text, tally, counts, is_public, possible):
    """What is wrong with a page of a set, as lines."""
    yield from page_form.wrong_of(page_text.read(text), text)
    try:
        wrong, equations, votes, masks = page_numbers.wrong_of(text, tally, counts, is_public)
    except (IndexError, KeyError, StopIteration, ValueError) as fault:
        yield 'the numbers can\'t be read: %s' % fault
        return
    yield from page_masks.wrong_of(equations, votes, page_masks.tried(text, possible))
    yield from wrong
    yield from mask_wrong(trial, tally, masks)
    if votes and not is_public:
        yield 'a number is withheld'


def mask_wrong(trial, tally, masks):
    """Whether a page for the public withholds what the rule withholds, as lines. What follows from
    it is tested by page_tables.py and page_ranges.py."""
    end = page_numbers.END
    contests = [{unit: numbers[:1] + numbers[end:] for unit, numbers in tally.sums(key, 0).items()}
                for key in tally.contests]
    singles = [tally.allowed[key] == 1 and key not in tally.ranked for key in tally.contests]
    write_ins = [{place for place, one in enumerate(it) if one.get('IsWriteIn')} for it in tally.contests.values()]
    rule = trial.package.page_masking.masks(contests, singles, write_ins)
    for key, held, mask, wanted in zip(tally.contests, contests, masks, rule):
        if key in tally.ranked:         # of which a page for the public shows the ballots alone
            mask, wanted = (*mask[:2], set(), set(), set()), (*wanted[:2], set(), set(), set())
        *mask, units = map(plain, mask)
        *wanted, wanted_units = map(plain, wanted)
        has_table = any(len(wanted[3]) < len(numbers) - 1 for numbers in held.values())
        if held and (mask != wanted or has_table and units != wanted_units):
            yield '%s, %s withheld, not %s, %s' % (mask, units, wanted, wanted_units)


def plain(part):
    return part if isinstance(part, bool) else set(part)


# ---- slips

def see_way(trial, way):
    """Tests a copy with a slip, which has to be found."""
    with tempfile.TemporaryDirectory() as folder:
        copy = companion.made(folder, way)
        words = [sys.executable, os.path.abspath(__file__), '--cvr', trial.cvr, '--companion', copy]
        words += ['--masks', way.seen] * (way.seen in page_ways.MASKED)
        out, log, status = run(folder, *words)
    lines = [line for line in out.splitlines() if line.startswith('WRONG ') and way.seen in line]
    is_broken = any(it in out + log for it in ('Error', 'Traceback'))
    return [] if status == 1 and lines and not is_broken else ['nothing finds it: %s' % log]


def see_own(trial, words):
    """Tests the pages of the county."""
    with tempfile.TemporaryDirectory() as folder:
        see_county(trial, folder)
        see_kit(trial, folder)
        see_second(trial, folder)
        for name in ('county', 'public') if trial.is_seen else ():
            page_views.see(trial, os.path.join(folder, name + '.html'), name)
        if words.picture:
            picture(trial, folder, words.picture)


def pages(trial, words):
    """What is tested in a browser too: a function beside the trial, and what else it takes. The files of
    one ballot are first, so that a slip which these have to find is found by them."""
    held, possible = page_sets.one_each()
    yield see_set, 'one ballot a file', held, True, possible
    yield see_own, words
    if not words.companion:
        yield see_large, LARGE
    yield see_lines, 'ranks', page_sets.ranked(), [RANKS, SCORES, NO_ROUNDS], ['| 60\n', 'come to 60', ' | 60 |']
    yield see_lines, 'a test', of_a_test(page_sets.machines(9, most=3)), ['TEST: 2 of 3 reports are of a test\nINCOMPLETE: 1 of 3 reports lack ballots\nTEST INCOMPLETE\n']
    yield see_lines, 'too many votes', page_sets.too_many(), TOO_MANY
    yield see_public, 'write-ins', page_sets.write_ins(), WRITE_INS
    yield see_set, 'set of write-ins', page_sets.texts_of(page_sets.write_ins()), True
    yield see_lines, 'machines', page_sets.machines(9), ['## Adjudications\nNone.\n']
    for name, made in tenth.chosen(words.tenth, sets(words), itemgetter(0)):
        held = made()
        yield see_set, name, held, False
        yield see_set, name, held, True


def see_masks(trial, words):
    """Tests what the rule withholds, and what follows from it."""
    rule = trial.package.page_masking
    if words.masks in (None, 'order'):
        trial.see('order', list(page_order.wrong_of(rule)))
    if words.masks in (None, 'tables'):
        trial.see('tables', list(itertools.islice(page_tables.wrong_of(rule, trial.is_seen), SHOWN)))
    ranges = page_ranges.wrong_of(rule) if words.masks in (None, 'ranges') else []
    if ranges is None:
        tenth.leave_out('the ranges of withheld numbers, and slips that these find', 'glpsol is not there')
    else:
        trial.see('ranges', ranges)


def see_all(trial, words):
    """Tests everything but the slips: pages of the companion side by side, since most of the time
    is the browsers'; those of a copy in turn, up to the first that finds its slip."""
    if words.masks:
        return see_masks(trial, words)
    trial.see('masks', list(page_masks.judged()))
    trial.see('style', list(page_form.style_wrong(trial.package.page_style.style_of('Election'))))
    with ThreadPoolExecutor(page_views.BROWSERS) as pool:
        each = pool.map if trial.is_seen else map
        for _ in each(lambda it: it[0](trial, *it[1:]), pages(trial, words)):
            pass
    see_masks(trial, words)


def main():
    words = tenth.words()
    words.add_argument('--companion', help='a folder with a copy of the companion')
    words.add_argument('--masks', choices=page_ways.MASKED, help='test only a part of what is withheld')
    words.add_argument('--picture', help='write the picture of the county that README shows')
    words = words.parse_args()
    trial = Trial(words.cvr, os.path.abspath(words.companion or companion.compiled()), not words.companion)
    ways = [] if words.companion else tenth.chosen(words.tenth, filter(page_ways.can_be_found, page_ways.WAYS), attrgetter('name'))
    with ThreadPoolExecutor(min(SIDE_BY_SIDE, len(os.sched_getaffinity(0)))) as pool:
        tries = pool.map(lambda way: see_way(trial, way), ways)     # they begin at once
        try:
            see_all(trial, words)
        except Found:
            pass
        for way, wrong in zip(ways, tries):
            trial.see('way %s' % way.name, wrong)
    print('page: %d right, %d wrong' % (trial.right, trial.wrong))
    sys.exit(0 if trial.right and not trial.wrong else 1)


if __name__ == '__main__':
    main()
