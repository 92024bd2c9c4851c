"""cvr-audit without: what each file does to the tally, which is counted with it and without it."""
from . import counting, notes, program, recount
from .reading import spelled


def rows_of(files, said=None):
    """The rows of the tally of files, counted again. What else is said of the records is noted."""
    count = recount.Recount(files)
    for record in files.volume(1):
        count.take(record)
        if said:
            said.take(record)
    return count.see()


def rows_without(files, path):
    """The rows of the tally of all accepted files but one."""
    others = [it for it, _ in files.accepted if it != path]
    return rows_of(program.Files(files.program, files.definition, others, files.progress.log))


def lines_of(kind, both, selections):
    """A line for each column of a row that is another number without the file."""
    for row in counting.in_order({*both[0], *both[1]}, selections):
        columns = counting.columns_of(row[0], selections)
        numbers = (rows.get(row, [0] * len(columns)) for rows in both)
        for column, one, other in zip(columns, *numbers):
            if one != other:
                yield [kind, counting.named(row), column, str(one), str(other)]


def run(files, words):
    """The text, and whether there is something to look at."""
    said, selections, lines = notes.Notes(files), counting.selections_of(files.report), []
    rows = rows_of(files, said)
    files.each_report(said.take_file)
    files.notes = said.text()
    for path, count in files.accepted:
        both = rows, rows_without(files, path)
        lines.append(['file', spelled(path), str(count)])
        sums = [counting.added(rows, lambda row: row[:1]) for rows in both]
        lines += lines_of('sum', sums, selections)
        lines += lines_of('row', both, selections)
    return ''.join(' '.join(it) + '\n' for it in lines), False
