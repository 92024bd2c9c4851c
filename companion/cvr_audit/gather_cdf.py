"""Reports of the standard, as they are or longer than `cvr` reads them."""
from . import definition
from .gather_json import Document, Names, record_of, see_frame
from .gather_undone import Named

CLASS = b'"CVR.'       # of a report or, where its records stand first, of one of these
# of VxSuite: such a report without its records, and others without what it has
OTHERS = 'metadata.json', 'cast-vote-record-report.json', '.layout.json'


def fits(source):
    is_json = source.base.endswith('.json') and not source.base.endswith(OTHERS)
    return is_json and CLASS in source.head()


def stays(source):
    return False


def read(sources, out, cvr, words):
    """Adds the records; answers the definition."""
    union, out.named = definition.Union(), Named()
    for source in filter(fits, sources):
        document = Document(source, 'CVR')
        for number, value, text in document.items():
            out.add(record_of(source, number, value, text), may_repeat=True)
            out.named.take(source, number, value)
        frame = dict(document.rest, CVR=[])
        see_frame(cvr, source, frame)
        union.take(source.name, frame)
        out.take_report(source.name, frame)
    return union.report()


def count(sources):
    """The number of records, and of their names, of which files may have one several times."""
    return Names().of(filter(fits, sources))
