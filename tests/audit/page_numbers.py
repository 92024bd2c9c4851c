"""page_numbers.py: every number of a page, compared with what `cvr` prints.

The page is read back from its tables. A number that none of them accounts for is wrong, too."""
import json
import re

import page_text
import printed

WORD = re.compile(r'"(?:[^"\\]|\\.)*"|[^ ]+')
COLUMNS = [it.capitalize() for it in printed.Texts.columns]
END = len(COLUMNS)
HIDDEN = '*'
LEADER = ('The votes of its leader are withheld, too. To show them, add up more units first: make one page of the files '
          'of all of them.')
RANKED = 'borda', 'range', 'rcv'
MAY_LACK = [COLUMNS.index(it) for it in ('Overvotes', 'Undervotes')]    # where no file states them
WARNINGS = ['File refused', 'No file', 'The definition is among the files', 'Records in the definition',
            'Two headers of a record (unit, batch, style)', 'Two texts of a snapshot (a reading of a ballot)',
            'Another snapshot (reading) is named as current', 'One record several times in a file',
            'One ballot twice', 'Batch', 'More votes on a ballot than it has', 'Several votes of a ballot for one',
            'Too many votes', 'Sum', 'Waiting', 'Pending', 'Unassigned', 'Contest without a record',
            'Record without a contest', 'Decided without a name or a moment', 'Decided by nobody',
            'Later than its files', 'Two texts of a device', 'Ranks or scores', 'Not stated',
            'Fewer records than the files have', 'Adjudicated records']
MEASURES = 'CVR.BallotMeasureContest', 'CVR.RetentionContest'       # which allow one vote, where they state nothing
COUNTED = ['Contest', 'cvr: ballots', 'cvr: votes', 'cvr-audit: ballots', 'cvr-audit: votes']
ODD = '\x00\x07\x85\ufffe'      # the characters of page_sets.py that HTML can't have


class Tally:
    """The rows of a printed tally, by contest: (unit, batch) and the numbers of each."""

    def __init__(self, text, definition):
        contests = definition['Election'][0]['Contest']
        self.contests = {it['@id']: it.get('ContestSelection', []) for it in contests}
        self.allowed = {it['@id']: it.get('VotesAllowed', 1 if it['@type'] in MEASURES else None) for it in contests}
        self.ranked = {it['@id'] for it in contests if it.get('VoteVariation') in RANKED}
        self.rows = {key: [] for key in self.contests}
        for line in text.split('\n')[:-1]:
            words = WORD.findall(line)
            contest, unit, batch = map(json.loads, words[:3])
            self.rows[contest].append(((unit, batch), list(printed.row_of(words).values())))

    def sums(self, contest, place=None):
        """The sums of the numbers of a contest, by unit (0), by batch (1) or all of them, in the
        order in which they stand."""
        held = {}
        for names, numbers in self.rows[contest]:
            held.setdefault(None if place is None else names[place], []).append(numbers)
        order = sorted(held, key=lambda it: (it is not None, it or ''))
        return {key: list(map(sum, zip(*held[key]))) for key in order}

    def total(self, contest):
        return self.sums(contest).get(None, [0] * (END + len(self.contests[contest])))


class Held:
    """A page whose numbers are read one by one."""

    def __init__(self, text, tally, is_public):
        self.page, self.tally, self.is_public = page_text.read(text), tally, is_public
        self.sections, self.wrong, self.seen = page_text.sections(self.page), [], set()
        self.equations, self.votes = [], {}     # of what is withheld, for page_masks.py
        self.masks = {}         # of each contest, as the page shows it, for page_masking.py

    def see(self, what, cell, number, may_hide=False):
        """Compares a cell with a number; answers whether the number is shown."""
        text = cell.text().replace(',', '')
        self.seen.add(id(cell))
        if text == HIDDEN and may_hide and self.is_public:
            return False
        if text != str(number):
            self.wrong.append('%s: %r in place of %s' % (what, text, number))
        return True

    # ---- by contest

    def see_contests(self):
        parts = [it for it in self.sections['contests'].all('div')
                 if it.attributes.get('class') == 'contest']
        if len(parts) != len(self.tally.contests):
            self.wrong.append('%d contests' % len(parts))
        for part, key in zip(parts, self.tally.contests):
            self.see_contest(part, key)

    def see_contest(self, part, key):
        numbers = self.tally.total(key)
        tables = list(part.all('table'))
        if self.is_public:
            self.see_leader(part, key)
        if self.is_public and not tables and not list(part.all('dl')):
            every = {*range(len(numbers) - END)}
            self.masks[key] = True, True, every, every, {*self.tally.sums(key, 0)}
            return
        if self.is_public and numbers[0] < 10:
            self.wrong.append('%s: numbers of fewer than ten ballots' % key)
        terms = dict(zip((it.text() for it in part.all('dt')), part.all('dd')))
        for place, column in enumerate(COLUMNS if not self.is_public else COLUMNS[:1]):
            is_stated = terms[column].text() != 'not stated'
            if is_stated or place not in MAY_LACK or numbers[place]:
                is_loose = not self.see('%s %s' % (key, column), terms[column], numbers[place], True)
        self.masks[key] = [False, is_loose, set(), {*range(len(numbers) - END)}, set()]
        if key in self.tally.ranked:
            self.see_ranks(tables, key, numbers[END:])
            return
        self.see_votes(tables[0], key, numbers[0], numbers[END:])
        if tables[1:]:
            self.wrong.append('%s: a table of ranks' % key)
        if not self.is_public:
            self.see_sums(list(part.all('p'))[-1].text(), key, numbers)

    def see_leader(self, part, key):
        """What shows the votes of the leader is said where those of every selection are withheld, and nowhere else,
        so that it doesn't say whose votes are the most."""
        rows = [row for table in part.all('table') for row in page_text.rows(table)[1:]]
        is_said = any(it.text() == LEADER for it in part.all('p'))
        is_withheld = all(row[1].text() == HIDDEN for row in rows) and key not in self.tally.ranked
        if is_said != (is_withheld or not list(part.all('dl'))):
            self.wrong.append('%s: what shows its leader is %ssaid' % (key, '' if is_said else 'not '))

    def see_votes(self, table, key, ballots, votes):
        """The votes, beside bars and with per cents, unless some are withheld."""
        (head, *rows), shown = page_text.rows(table), 0
        hidden = [place for place, row in enumerate(rows[:len(votes)]) if row[1].text() == HIDDEN]
        most = max([it for place, it in enumerate(votes) if place not in hidden], default=0)
        self.masks[key][2].update(hidden)
        for place, (row, number) in enumerate(zip(rows, votes)):
            name = (key, place)
            if self.see('%s votes' % (name,), row[1], number, True):
                shown += number
                self.see_bar(name, row[1], number, most)
            elif list(row[1].all('span')):
                self.wrong.append('%s: a bar of votes that are withheld' % (name,))
            if len(head) > 2:
                self.see_share(name, row[2], number, sum(votes), hidden)
        if (len(head) > 2) == bool(hidden):
            self.wrong.append('%s: columns %s' % (key, [it.text() for it in head]))
        if not hidden:
            self.see('%s counted' % key, rows[len(votes)][1], sum(votes))
        self.spare(key, hidden, votes, ballots * (self.tally.allowed[key] or 1) - shown)

    def see_ranks(self, tables, key, votes):
        """The votes of each selection by rank come to its votes, and no sum of them is shown; none at all for
        the public."""
        if self.is_public:
            self.wrong += ['%s: a table of ranks for the public' % key] * bool(tables)
            return
        sums = [0] * len(votes)
        for table in tables:
            head, *rows = page_text.rows(table)
            for place, row in enumerate(rows):
                self.seen |= set(map(id, row))
                sums[place] += sum(int(it.text().replace(',', '')) for it in row[1:])
        if sums != votes or any(not re.match('Rank -?[0-9]|No rank', it.text()) for table in tables
                                for it in page_text.rows(table)[0][1:]):
            self.wrong.append('%s: by rank %s, not %s' % (key, sums, votes))

    def see_sums(self, text, key, numbers):
        """The sentence on whether the numbers add up to the ballots."""
        held, ballots = dict(zip(COLUMNS, numbers)), numbers[0]
        allowed, counted = self.tally.allowed[key], sum(numbers[END:]) + held['Unassigned']
        found = [int(it.replace(',', '')) for it in re.findall(r'[0-9][0-9,]*', text)]
        total = counted + held['Overvotes'] + held['Undervotes'] + held['Pending']
        if not allowed:
            wanted, is_well = [], 'does not say' in text
        elif allowed > 1:
            wanted, is_well = [counted, total, ballots * allowed], counted <= ballots * allowed
            is_well = is_well == (not text.endswith(': too many.'))
        else:
            wanted = [total, ballots]
            is_well = (total == ballots) == text.endswith(': the same.')
        if found != wanted or not is_well:
            self.wrong.append('%s: %s' % (key, text))

    def see_bar(self, name, cell, number, most):
        bars = [it.attributes for it in cell.all('span') if it.attributes['class'] == 'bar']
        width = 'width: %.1f%%' % (100 * number / most) if most else 'width: 0'
        if [it['style'] for it in bars] != [width]:
            self.wrong.append('%s: a bar with %s' % (name, bars))

    def see_share(self, name, cell, number, counted, hidden):
        text = cell.text()
        self.seen.add(id(cell))
        if hidden:
            self.wrong.append('%s: per cent beside votes that are withheld' % (name,))
        elif counted and not -counted < 2 * counted * tenths(text) - 2000 * number <= counted:
            self.wrong.append('%s: %s per cent of %d' % (name, text, counted))
        elif not counted and text != '–':
            self.wrong.append('%s: %s per cent of nothing' % (name, text))

    def spare(self, key, hidden, votes, left):
        """Notes the equation of a contest's withheld votes and what its ballots leave open."""
        if hidden and not self.masks[key][1]:
            names = [(key, place) for place in hidden]
            self.votes.update((name, votes[name[1]]) for name in names)
            self.equations.append((dict.fromkeys(names + [(key, 'open')], 1), max(left, 0)))

    # ---- by unit and by batch

    def see_units(self):
        parts = [it for it in self.sections['units'].parts if getattr(it, 'tag', '') == 'div']
        for part, key in zip(parts, self.tally.contests):
            for what, place in (('unit', 0), ('batch', 1)):
                found = [it for it in part.all('table')
                         if next(it.all('caption')).text() == 'By ' + what]
                columns = [column for table in found for column in self.columns_of(table, key)]
                self.see_columns(key, columns, place)
                for table in found:
                    self.see_table(table, key, self.tally.sums(key, place))

    def columns_of(self, table, key):
        """The places of a table's numbers, by the heads of its columns."""
        ids = [clean(it['@id'] if len(it['@id']) <= 40 else it['@id'][:39] + '…')
               for it in self.tally.contests[key]]
        for head in page_text.rows(table)[0][1:]:
            code = next(head.all('code'), None)
            yield END + ids.index(code.text()) if code else COLUMNS.index(head.text())

    def see_columns(self, key, columns, place):
        """Every column has to be there once; on a page for the public, those of the votes that are shown."""
        numbers = self.tally.total(key)
        if self.is_public:
            self.masks[key][3].difference_update(it - END for it in columns)
            hidden = self.masks[key][2]
            wanted = [] if place else \
                [it for it in range(END, len(numbers)) if it in columns and it - END not in hidden]
        else:
            end = END if key in self.tally.ranked else len(numbers)
            wanted = [it for it in range(end if self.tally.rows[key] else 0)
                      if it not in MAY_LACK or it in columns or numbers[it]]
        if columns != wanted:
            self.wrong.append('%s: columns %s, not %s' % (key, columns, wanted))

    def see_table(self, table, key, sums):
        head, *rows = page_text.rows(table)
        columns = list(self.columns_of(table, key))
        if len(rows) != len(sums) + 1:
            self.wrong.append('%s: %d rows of %d' % (key, len(rows) - 1, len(sums)))
        for place, column in enumerate(columns, 1):
            hidden = {}
            for row, (name, numbers) in zip(rows, sums.items()):
                what = (key, name, column)
                if not self.see(what, row[place], numbers[column], True):
                    hidden[what] = numbers[column]
                elif self.is_public and numbers[column] < 10:
                    self.wrong.append('%s: %d votes are shown' % (what, numbers[column]))
            total = self.tally.total(key)[column]
            self.see('%s sum' % key, rows[-1][place], total)
            if hidden:
                self.votes.update(hidden)
                self.masks[key][4].update(name for _, name, _ in hidden)
                shown = total - sum(hidden.values())
                self.equations.append((dict.fromkeys(hidden, 1), total - shown))

    # ---- files and batches

    def see_inputs(self, records):
        """The records of DEF and of each file in order; None for a refused one."""
        if self.is_public:
            self.see_counts(records[0])
            return
        table = next(self.sections['inputs'].all('table'))
        rows = page_text.rows(table)[1:]
        if len(rows) != len(records):
            self.wrong.append('%d inputs' % len(rows))
        for row, number in zip(rows, records):
            self.seen.add(id(row[2]))
            self.see('records', row[3], '' if number is None else number)

    def see_counts(self, own):
        """On a page for the public: DEF, by its SHA-256 only if it has no records."""
        digest = '#' if own == '0' else 'withheld, since it has records'
        wanted = ['## Inputs', 'Definition: SHA-256 ' + digest, 'The records of the definition (DEF) are not counted.']
        lines = [re.sub('[0-9a-f]{64}', '#', it) for it in page_text.lines(self.sections['inputs'])]
        if lines != wanted:
            self.wrong.append('inputs: %s' % lines[:4])

    def see_head(self, records):
        """The files and, except for the public, the records; the kinds of the warnings."""
        head = next(self.page.all('header'))
        said = dict(it.split(': ', 1) for it in page_text.lines(head) if ': ' in it)
        refused = records[1:].count(None)
        counts = len(records) - 1, len(records) - 1 - refused, refused
        if said['Files'] != '{:,} given, {:,} accepted, {:,} refused'.format(*counts):
            self.wrong.append('files: ' + said['Files'])
        found = sum(int(it) for it in records[1:] if it)
        records = said.get('Records', '').split(' counted, ')
        if self.is_public != (records == ['']) or \
                records[1:] not in ([], ['{:,} in the files'.format(found)]):
            self.wrong.append('records: %s' % records)
        strong = [it.text() for it in self.sections['warnings'].all('strong')]
        kinds = [it if self.is_public else it.rsplit(' ', 1)[0] for it in said['Warnings'].split(', ')]
        if kinds != strong and (strong or said['Warnings'] != 'None'):
            self.wrong.append('warnings: %s' % said['Warnings'])

    def see_warnings(self):
        """Each kind of the warnings stands once, and always at the same place among the others, so that
        their order says nothing."""
        kinds = [it.text() for it in self.sections['warnings'].all('strong')]
        if kinds != [it for it in WARNINGS if it in kinds]:
            self.wrong.append('warnings: %s' % kinds)

    def see_batches(self, sizes):
        """The records of each batch, where there is a manifest."""
        for table in self.sections['batches'].all('table'):
            rows = page_text.rows(table)[1:]
            for row in rows[:-1]:
                key = row[0].text()
                self.see('batch ' + key, row[3], sizes.get(key, 0))
            self.see('batches', rows[-1][3], sum(sizes.values()))
            self.seen |= {id(row[place]) for row in rows for place in (1, 2, 4, 5)}

    def see_programs(self):
        """The ballots and votes of each contest by each program; none of them for the public."""
        found = [it for it in self.sections['signature'].all('table')]
        if len(found) != (not self.is_public):
            self.wrong.append('%d tables of counts' % len(found))
        for table in found:
            head, *rows = page_text.rows(table)
            if [it.text() for it in head] != COUNTED or len(rows) != len(self.tally.contests):
                self.wrong.append('counts: %d rows below %s' % (len(rows), [it.text() for it in head]))
            for row, key in zip(rows, self.tally.contests):
                numbers = self.tally.total(key)
                votes = '–' if key in self.tally.ranked else sum(numbers[END:])
                for cell, number in zip(row[1:], [numbers[0], votes] * 2):
                    self.see('count of %s' % key, cell, number)

    def left(self):
        """The numbers that were compared with nothing."""
        cells = [it for it in self.page.all('td') if re.fullmatch(r'[0-9][0-9,.]*', it.text())]
        return [it.text() for it in cells if id(it) not in self.seen and not list(it.all('code'))]


def tenths(text):
    """A number with one decimal, in tenths."""
    if not re.fullmatch(r'[0-9]+\.[0-9]', text):
        raise ValueError('%r has not one decimal' % text)
    return int(text.replace('.', ''))


def clean(text):
    """A text as a page shows it: characters that HTML can't have are spelled as in JSON."""
    shown = ''.join('\\u%04x' % ord(it) if it in ODD else it for it in text)
    return re.sub(r'\s+', ' ', shown).strip()


def wrong_of(text, tally, records, is_public=False, sizes=None):
    """What is wrong with the numbers of a page, as lines; and what it withholds, also as masks."""
    held = Held(text, tally, is_public)
    held.see_inputs(records)
    held.see_head(records)
    held.see_warnings()
    held.see_contests()
    held.see_units()
    held.see_batches(sizes or {})
    held.see_programs()
    held.wrong += ['%s stands in no text of cvr' % it for it in held.left()]
    masks = [tuple(held.masks[key]) for key in tally.contests] if is_public else []
    return held.wrong, held.equations, held.votes, masks
