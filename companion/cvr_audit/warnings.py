"""cvr-audit warnings: a line for each thing that needs a person before the tally is used."""
from . import bodies, counting, notes, page_names, reading
from .advice import ADVICE, FEW, FOLDED, KNOWN, counts_of, line_of, names_in
from .excess import allowed_of
from .manifest import Sizes, has_devices, manifest_in
from .reading import spelled


class Seen:
    """What was seen in the records: the sizes of batches, the names with each BallotAuditId, the
    names of records without a contest, the texts of each name in conflict, each as its value with the
    paths of the files that have it, and what is said by every command."""

    def __init__(self, files):
        self.notes = notes.Notes(files)
        self.sizes, self.ballots, self.empty = Sizes(), {}, []
        self.texts = {}

    def take(self, record):
        """Notes a record of volume 1."""
        self.notes.take(record)
        self.sizes.take(record)
        ballot = record.get('BallotAuditId')
        if ballot is not None:
            self.ballots.setdefault(ballot, []).append(reading.name_of(record))
        if not reading.current_of(record).get('CVRContest'):
            self.empty.append(reading.name_of(record))


def see(files, seen):
    """Notes what there is to see in the files' records, and of the names in conflict."""
    conflicts, texts = bodies.conflicts_of(files), {}
    volume = files.volume(1)
    for record in volume:
        seen.take(record)
        texts.update(conflicts.of({'ReportingDevice': [], 'CVR': [record]}))
    texts.update(conflicts.of(volume.rest))
    files.each_report(seen.notes.take_file)
    for name in sorted(texts, key=lambda it: (bodies.KINDS.index(it[0]), it)):
        paths = conflicts.paths[name]
        seen.texts[name] = [(value, [*paths[text]]) for text, value in texts[name].items()]


def conflict_lines(texts):
    """A line for each name in conflict, with the paths of each of its texts."""
    for (kind, *parts), held in texts.items():
        line = list(map(spelled, parts))
        for number, (_, paths) in enumerate(held, 1):
            line += ['text %d' % number, *map(spelled, paths)]
        yield kind, line


def row_lines(row, numbers, most):
    """The lines for a row, where a ballot has at most so many votes, or None where that isn't known."""
    held, (counted, total) = counting.parts(numbers)[0], counting.come_to(numbers)
    name, ballots = list(map(spelled, row)), held['ballots']
    for column in ('pending', 'unassigned'):
        if held[column]:
            yield column, [*name, str(held[column])]
    if most and counted > ballots * most:
        yield 'votes', [*name, str(counted), str(ballots * most)]
    elif most == 1 and total != ballots:
        yield 'sum', [*name, str(total), str(ballots)]


def contest_lines(selections, rows, is_stated):
    """The lines for contests that no record has, and for numbers that no file states."""
    shown = {row[0] for row in rows}
    for contest in selections:
        if contest not in shown:
            yield 'contest', [spelled(contest)]
            continue
        for column in counting.WANTED:
            if not is_stated(contest, column):
                yield 'unstated', [spelled(contest), counting.STATED[column]]


def manifest_lines(path, sizes):
    """A line for each batch that has another number of ballots in the manifest; where there are more
    sheets than ballots, with their number."""
    expected = manifest_in(path)
    found, is_whole = sizes.by(expected), has_devices(expected)
    for name in sorted({*expected, *found}, key=lambda it: list(map(counting.nothing_first, it))):
        wanted, (ballots, records) = expected.get(name, '-'), found.get(name, (0, 0))
        if wanted != ballots:
            numbers = [wanted, ballots] + ['records', records] * (records != ballots)
            yield 'batch', [*map(spelled, name[not is_whole:]), *map(str, numbers)]


def ballot_lines(ballots):
    for ballot, names in sorted(ballots.items()):
        if len(names) > 1:
            yield 'ballot', [spelled(ballot), *(spelled(part) for name in names for part in name)]


def all_in(files, manifest, seen):
    """Each warning as its kind and its parts. Notes in `seen` what is seen in the records."""
    yield from (('refused', [spelled(path), fault]) for path, fault in files.refused())
    see(files, seen)
    yield from seen.notes.lines()
    yield from conflict_lines(seen.texts)
    rows, allowed = counting.rows_in(files.tally()), allowed_of(files.report)
    is_ranked = seen.notes.ranks.is_ranked      # whose votes of all ranks stand in a row
    for row, numbers in rows.items():
        yield from row_lines(row, numbers, None if is_ranked(row[0]) else allowed.get(row[0]))
    yield from contest_lines(counting.selections_of(files.report), rows, seen.notes.is_stated)
    yield from (('record', list(map(spelled, name))) for name in seen.empty)
    yield from manifest_lines(manifest, seen.sizes) if manifest else ()
    yield from ballot_lines(seen.ballots)


def found_in(files, manifest, seen):
    """Each warning as its kind and its parts, by importance."""
    places = {kind: place for place, kind in enumerate(ADVICE)}
    return sorted(all_in(files, manifest, seen), key=lambda it: places[it[0]])


def by_kind(found):
    """The parts of the warnings of each kind."""
    held = {}
    for kind, parts in found:
        held.setdefault(kind, []).append(parts)
    return held


def folded(kind, lines, origins):
    """The line in place of many of one kind: their number, and each file with that of its lines, or the
    number of the files where these are many."""
    counts = counts_of(kind, lines, origins)
    files = [it for path, count in counts.items() for it in (spelled(path), count)]
    files = files if len(counts) <= FEW else ['files', len(counts)]
    return 'folded %s: %s%s\n' % (' '.join(map(str, [kind, len(lines), *files])), ADVICE[kind], FOLDED)


def run(files, words):
    """The text, and whether something needs a person."""
    seen, names, text = Seen(files), page_names.Names(files.report), []
    held = by_kind(found_in(files, words.manifest, seen))
    for kind, lines in held.items():
        if len(lines) > FEW and not words.all:
            text.append(folded(kind, lines, seen.notes.origins))
        else:
            text += [line_of(kind, it, names_in(kind, it, names)) for it in lines]
    return ''.join(text), any(kind not in KNOWN for kind in held)
