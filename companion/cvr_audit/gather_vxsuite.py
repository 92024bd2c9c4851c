"""The export of VxSuite 4: a folder with metadata.json and a folder for each ballot."""
import os
from collections import Counter

from . import definition
from . import gather_said as said
from .gather_json import Document, record_of, see_frame, value_in
from .gather_said import BATCHES, CLOSED, FRAME, METADATA, REJECTED, REPORT, TEST_FOLDER
from .gather_source import fault
from .reading import pointer, spelled


def is_rejected(source):
    """Whether a source is in the folder of a ballot that the scanner gave back."""
    return os.path.basename(source.folder).startswith(REJECTED)


def is_report(source):
    return source.base == REPORT and not is_rejected(source)


def fits(source):
    return source.is_of('vxsuite')


def stays(source):
    """Whether a source is one that records name, and that stays where it is: an image, or its
    layout, beside a record."""
    return source.base.endswith(said.IMAGES) and not is_rejected(source)


def frame_in(source, held, out, cvr, is_test):
    """What an export says of its election. Members that aren't known are named."""
    frame = held.get(FRAME) if isinstance(held, dict) else None
    if not isinstance(frame, dict):
        raise fault(source.name, said.NO_FRAME)
    if frame.get('CVR'):
        raise fault(source.name, said.OWN_RECORDS)
    for name in sorted({*held} - {FRAME, *said.LEFT}):
        out.note(said.LEFT_OUT % (source.name, spelled(name)))
    frame = dict(frame, CVR=[])
    see_frame(cvr, source, frame, '/' + FRAME)
    see_test(source, frame, out, is_test)
    return frame


def see_test(source, frame, out, is_meant):
    """Notes whether an export is of a test. The name of its folder may say so, too."""
    out.take_report(source.name, frame)
    folders = source.folder.replace(os.sep, '/').split('/')
    is_named = any(it.upper().startswith(TEST_FOLDER) for it in folders)
    if is_named and source.name not in out.reports.tests and not is_meant:
        raise fault(source.name, said.MISNAMED % TEST_FOLDER)


def see_closed(source, held, out):
    """Stops where ballots may follow. A central scanner says nothing of polls."""
    is_closed = held.get(CLOSED, True)
    if type(is_closed) is not bool:
        raise fault(source.name, said.NO_TRUTH)
    if not is_closed:
        out.lack(source.name, said.STILL_OPEN)


def batches_in(source, held, out):
    """The number of sheets that an export states of each batch; None where it states none."""
    if BATCHES not in held:
        out.lack(source.name, said.NO_BATCHES)
        return None
    stated = {}
    for place, batch in enumerate(held[BATCHES] if isinstance(held[BATCHES], list) else [None]):
        name = batch.get('id') if isinstance(batch, dict) else None
        if not isinstance(name, str) or name in stated or type(batch.get('sheetCount')) is not int:
            raise fault(source.name, said.NO_BATCH, pointer(BATCHES, place))
        stated[name] = batch['sheetCount']
    return stated


def see_ballots(exports, sources):
    """Stops at a ballot without a report: part of the export is missing."""
    held = {it.folder for it in sources if is_report(it)}
    for source in sources:
        is_ballot = source.folder not in exports and os.path.dirname(source.folder) in exports
        if is_ballot and source.folder not in held and not is_rejected(source):
            raise fault(source.folder, said.NO_REPORT)


def read(sources, out, cvr, words):
    """Adds the records; answers the definition."""
    union, reports = definition.Union(), list(filter(is_report, sources))
    exports = {it.folder: (it, value_in(it)) for it in sources if it.base == METADATA}
    for source, held in exports.values():
        union.take(source.name, frame_in(source, held, out, cvr, words.test))
    see_ballots(exports, sources)
    came = {folder: Counter() for folder in exports}
    for source in reports:
        if os.path.dirname(source.folder) not in came:
            raise fault(source.name, said.NO_METADATA)
        came[os.path.dirname(source.folder)][read_report(source, out)] += 1
    for folder, (source, held) in exports.items():
        see_closed(source, held, out)
        out.see_batches(source.name, batches_in(source, held, out), came[folder], '/' + BATCHES)
    return union.report()


def read_report(source, out):
    """Adds the only record of a report; answers its batch."""
    document = Document(source, 'CVR')
    records = [(record_of(source, *it), it[1].get('BatchId')) for it in document.items()]
    if len(records) != 1 or document.rest:
        raise fault(source.name, said.NO_ONE_RECORD)
    (record, batch), = records
    out.add(record)
    return batch if isinstance(batch, str) else None        # `cvr` refuses another kind


def count(sources):
    """The number of records and of names, counted in another way: one for each folder."""
    folders = {it.folder for it in sources if is_report(it)}
    return len(folders), len(folders)
