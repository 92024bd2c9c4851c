"""cvr in Python: the proved program as a library, over files or bytes.

    import cvr
    for row in cvr.tally('definition.json', ['scan.json']):
        print(row.contest, row.ballots, row.votes)

Each of `tally`, `currents`, `conflicts`, `check` and `merge` makes an `Office` of a definition, has it take in one file
after the other, and asks it. An office that you make holds what it took in, for as long as it is needed. `File` says what
a definition or a file may be. What is refused is raised as `Fault`, with its code, path and rule; what can't be read as
`OSError`. `run` raises nothing of the kind, and gives text, log and status as the program does. Calls may run in several
threads. The words that are used here are those of the program's glossary."""
import ctypes
import functools
import json
import os
import re
from contextlib import contextmanager
from typing import (Any, Callable, Dict, Iterable, Iterator, List, Mapping, NamedTuple, NoReturn, Optional, Protocol,
                    Sequence, Tuple, Union, runtime_checkable)

from ._library import (DONE, GREATEST, LIBRARY, NO_DEVICE, NO_INPUT, NO_OFFICE, NO_VOLUME, NOT_MOMENT, OTHER_DEFINITION,
                       REFUSED, Brought, Handle, Result, call, home, reading, text_of)
from ._words import CODES, RULES

__all__ = ['Conflict', 'Conflicts', 'Current', 'Fault', 'File', 'Office', 'Receipt', 'Result', 'Row', 'Votes', 'check',
           'columns', 'conflicts', 'currents', 'merge', 'run', 'tally', 'vote_columns']


@runtime_checkable
class Readable(Protocol):
    """A file object, of which `read()` gives the bytes."""
    def read(self) -> bytes: ...


Name = Union[str, bytes]
Path = Union[Name, 'os.PathLike[str]', 'os.PathLike[bytes]']
File = Union[Path, Readable, Tuple[Path, Union[bytes, bytearray, memoryview, Readable]]]
"""A definition, or another file: its path; a file object, whose `read` gives bytes and which stays open; or a pair of a name
and its bytes, or a file object. The name of a file object is its `name`, where that is a text, and else its class."""

BUFFERS = bytes, bytearray, memoryview
LONGEST = 67108864      # bytes of a file that may be accepted
SHORT = 1 << 16         # bytes for which memory is taken before it is known how many there are
DECODER = json.JSONDecoder()
MERGE_CODES = {NOT_MOMENT: 'H1', NO_DEVICE: 'H2', NO_VOLUME: 'V1'}
CONTROLS = re.compile('[\x00-\x1f\x7f-\x9f\u2028-\u202e\u2066-\u2069\ud800-\udfff]')


class Fault(Exception):
    """Why there is no result: the first refusal. As a text it is the line that the program logs, with control characters
    escaped. It can be pickled, so it comes out of another process as it is.

    `file` is the refused file, by the path or name that was given, or `merge`. `code` is one of docs/FAULTS.md. `path` is
    where the fault is in the file, a JSON Pointer, and `rule` the broken rule's number, both only of some codes; `volumes`
    is how many there are, of V1. `words` is what the code means, and what to do. `status` is the program's."""
    status = REFUSED

    def __init__(self, file: Name, code: str, path: Optional[str] = None, rule: Optional[int] = None,
                 volumes: Optional[int] = None):
        super().__init__(file, code, path, rule, volumes)
        self.file, self.code, self.path, self.rule, self.volumes = file, code, path, rule, volumes
        what, advice = CODES[code]
        self.words = '%s. %s' % (what if rule is None else '%s: %s' % (what, RULES[rule]), advice)

    def __str__(self) -> str:
        path = None if self.path is None else json.dumps(self.path, ensure_ascii=False)[1:-1]
        parts = [str(it) for it in (self.code, path, self.rule, self.volumes) if it is not None]
        line = '%s: %s' % (os.fsdecode(self.file), ' '.join(parts))
        return CONTROLS.sub(lambda it: it.group().encode('unicode_escape').decode(), line)


class Votes(Mapping[str, int]):
    """The votes by selection, in the definition's order. They can't be changed, and equal a dict of the same."""
    __slots__ = ('_votes',)

    def __init__(self, votes: Mapping[str, int]):
        self._votes = dict(votes)

    def __getitem__(self, selection: str) -> int:
        return self._votes[selection]

    def __iter__(self) -> Iterator[str]:
        return iter(self._votes)

    def __len__(self) -> int:
        return len(self._votes)

    def __hash__(self) -> int:
        return hash(frozenset(self._votes.items()))

    def __repr__(self) -> str:
        return repr(self._votes)


class Row(NamedTuple):
    """A row of the tally: the numbers of a contest for the records of a unit and a batch. `votes` has the ids of the
    contest's selections in the definition's order."""
    contest: str
    unit: Optional[str]
    batch: Optional[str]
    ballots: int
    overvotes: int
    undervotes: int
    write_ins: int
    pending: int
    unassigned: int
    votes: Votes

    @property
    def numbers(self) -> List[int]:
        """The numbers in the columns, in the order in which they are printed."""
        return list(self[3:-1])     # all that stands between what a row is of and its votes


class Current(NamedTuple):
    """A record's name, and the id and the type of its current snapshot."""
    device: str
    record: str
    snapshot: str
    type: str


class Conflict(NamedTuple):
    """A name with several bodies: that of a device, of the header of a record, or of one of its snapshots."""
    kind: str
    device: str
    record: Optional[str]
    snapshot: Optional[str]
    bodies: int


class Conflicts(NamedTuple):
    """The names with several bodies, and how many volumes show all of them."""
    names: Tuple[Conflict, ...]
    volumes: int


class Receipt(NamedTuple):
    """What an import brought: the cast vote records of the file, and how many facts were new."""
    cvrs: int
    new_facts: int


def columns(rows: Iterable[Row]) -> Dict[str, List[Any]]:
    """The rows of a tally as lists by name, without the votes: an entry a row. A table of pandas or pyarrow takes them."""
    rows = list(rows)
    return {name: [getattr(row, name) for row in rows] for name in Row._fields[:-1]}


def vote_columns(rows: Iterable[Row]) -> Dict[str, List[Any]]:
    """The votes of a tally as lists by name: an entry for each selection of a row, so of a contest, a unit and a batch."""
    entries = [(*row[:3], *pair) for row in rows for pair in row.votes.items()]
    return {name: [it[place] for it in entries] for place, name in enumerate((*Row._fields[:3], 'selection', 'votes'))}


def _whole(file: Readable) -> bytes:
    """What a file object gives."""
    found = file.read()
    if not isinstance(found, bytes):
        raise TypeError('a file object has to give bytes, as one that is opened with mode "rb", not %s' % type(found).__name__)
    return found


def _is_pair(file: object) -> bool:
    return isinstance(file, tuple) and len(file) == 2 and isinstance(file[1], (*BUFFERS, Readable))


def _given(file: File) -> Tuple[Name, bytes]:
    """A file's name and its bytes. Of a longer file than any that is accepted it reads no more than shows that."""
    if isinstance(file, tuple):
        if not _is_pair(file):
            raise TypeError('a pair has to be a name, and bytes or a file object')
        name, data = file
        return os.fspath(name), _whole(data) if isinstance(data, Readable) else bytes(data)
    if isinstance(file, Readable):
        known = getattr(file, 'name', None)
        return known if isinstance(known, (str, bytes)) else type(file).__name__, _whole(file)
    path = os.fspath(file)
    with open(path, 'rb') as opened:
        start = opened.read(SHORT)
        return path, start if len(start) < SHORT else start + opened.read(LONGEST + 1 - SHORT)


def _listed(files: Iterable[File]) -> Iterable[File]:
    """Several files, none of which is read yet. Of one by itself the letters, lines or parts would be taken for files."""
    if _is_pair(files) or isinstance(files, (str, *BUFFERS, os.PathLike, Readable)):
        raise TypeError('one file was given in place of several: give a list, [file]')
    return files


def _spelled(name: Name) -> bytes:
    """The bytes of a word or name, whatever the locale: those of a path, in UTF-8 or not, are as the system has them."""
    return name if isinstance(name, bytes) else name.encode('utf-8', 'surrogateescape')


def run(words: Sequence[str], files: Iterable[File] = ()) -> Result:
    """What the program prints and logs for the words after its name, and its status, over these files alone: a word names
    a file by its path or name. All files are held at once. `ValueError` where a word isn't UTF-8, or a name has half a pair of
    surrogates."""
    given = [(_spelled(name), data) for name, data in map(_given, _listed(files))]
    result = call([_spelled(word) for word in words], given)
    if result.status == NO_INPUT:
        raise ValueError('a word is not UTF-8')
    return result


__version__ = run(['--version']).text.decode().split()[1]


@contextmanager
def _holding(definition: File, files: Iterable[File]) -> Iterator['Office']:
    """An office of all these files, which are read one after the other."""
    files = _listed(files)
    with Office(definition) as office:
        for file in files:
            office.import_file(file)
        yield office


def tally(definition: File, files: Iterable[File]) -> List[Row]:
    """The rows of the tally, in the order in which they are printed. Raises `Fault` where anything is refused."""
    with _holding(definition, files) as office:
        return office.tally()


def currents(definition: File, files: Iterable[File]) -> List[Current]:
    """The current snapshot of each record, by name. Raises `Fault` where anything is refused."""
    with _holding(definition, files) as office:
        return office.currents()


def conflicts(definition: File, files: Iterable[File]) -> Conflicts:
    """The names with several bodies, and how many volumes show them. Raises `Fault` where anything is refused."""
    with _holding(definition, files) as office:
        return office.conflicts()


def check(definition: File, files: Iterable[File]) -> Dict[Name, int]:
    """How many cast vote records each file has, by its path or name; of files with one name, their sum. Raises `Fault` where
    one is refused."""
    counts: Dict[Name, int] = {}
    files = _listed(files)
    with Office(definition) as office:
        for name, data in map(_given, files):
            counts[name] = counts.get(name, 0) + office.import_file((name, data)).cvrs
    return counts


def merge(definition: File, date: str, device: str, volume: int, files: Iterable[File]) -> bytes:
    """The volume with this number of what the files hold, under a date and a device: the bytes of a report. Raises `Fault`
    where anything is refused: first of all a file, and then the date, the device and the number."""
    with _holding(definition, files) as office:
        return office.volume(date, device, volume)


def _lines(text: str) -> List[List[Any]]:
    return [_parts(line) for line in text.split('\n')[:-1]]


def _parts(line: str) -> List[Optional[str]]:
    """The parts of a printed line: texts of JSON strings, `None` of null, and other words as they stand."""
    found: List[Optional[str]] = []
    while line:
        if line[0] == '"':
            part, end = DECODER.raw_decode(line)
        else:
            end = (line + ' ').index(' ')
            part = None if line[:end] == 'null' else line[:end]
        found.append(part)
        line = line[end + 1:]
    return found


def _row(contest: str, unit: Optional[str], batch: Optional[str], *numbers: str) -> Row:
    count = len(Row._fields) - 4
    votes = dict(zip(numbers[count::2], map(int, numbers[count + 1::2])))
    return Row._make([contest, unit, batch, *map(int, numbers[:count]), Votes(votes)])


def _conflict(parts: List[str]) -> Conflict:
    if len(parts) == 3 and parts[0] == 'device':
        return Conflict('device', parts[1], None, None, int(parts[2]))
    kind = parts[2]
    return Conflict(kind, parts[0], parts[1], parts[3] if kind == 'snapshot' else None, int(parts[-1]))


class Office:
    """An office, which holds what it took in beside one definition, until it is closed.

        with cvr.Office('definition.json') as office:
            office.import_file('scan.json')
            print(office.tally())

    The order of the files makes no difference, and a file that comes twice counts once. `tally`, `currents` and `conflicts`
    answer what the functions with these names answer for all files, and `volume` what `merge` does; its length is the number
    of its records. What is refused is raised as `Fault`, and changes nothing. Only the thread that made an office may use
    it (`RuntimeError`), and not once it is closed (`ValueError`). It can't be copied or pickled (`TypeError`)."""

    _definition: Name = ''      # until it is read

    def __init__(self, definition: File):
        self._handle, self._home = Handle(), home()
        self._definition = self._read(LIBRARY.cvr_office_new, definition)

    def import_file(self, file: File) -> Receipt:
        """Takes in a file. `Fault` where it is refused, and then the office is as it was."""
        brought = Brought()
        self._read(LIBRARY.cvr_office_import, file, ctypes.byref(brought))
        return Receipt(brought.cvrs, brought.new_facts)

    def join(self, other: 'Office') -> int:
        """Takes in what another office holds, which stays as it is, and answers how many facts were new. `ValueError` where
        the definitions differ, devices aside, and then it is as it was."""
        if other is self:
            return 0
        found = ctypes.c_size_t()
        self._done(LIBRARY.cvr_office_join(self._own(), other._own(), ctypes.byref(found)))
        return found.value

    def tally(self) -> List[Row]:
        """The rows of the tally."""
        return [_row(*parts) for parts in _lines(self._text(LIBRARY.cvr_office_tally))]

    def currents(self) -> List[Current]:
        """The current snapshot of each record, by name."""
        return [Current(*parts) for parts in _lines(self._text(LIBRARY.cvr_office_currents))]

    def conflicts(self) -> Conflicts:
        """The names with several bodies, and how many volumes show them."""
        *names, (_, volumes) = _lines(self._text(LIBRARY.cvr_office_conflicts))
        return Conflicts(tuple(map(_conflict, names)), int(volumes))

    def volume(self, date: str, device: str, number: int) -> bytes:
        """The volume with this number, under a date and a device: the bytes of a report. `Fault` with H1, H2 or V1 where
        there is none; `ValueError` where the number is below 1."""
        if number < 1:
            raise ValueError('volumes are numbered from 1')
        words = [part for word in (date.encode(), device.encode()) for part in (word, len(word))]
        status, text = text_of(LIBRARY.cvr_office_volume, self._own(), *words, min(number, GREATEST))
        if status in MERGE_CODES:
            volumes = self.conflicts().volumes if status == NO_VOLUME else None
            raise Fault('merge', MERGE_CODES[status], volumes=volumes)
        self._done(status)
        return text

    def close(self) -> None:
        """Frees what the office holds. It can't be used afterwards, but closed once more."""
        LIBRARY.cvr_office_free(self._own())

    def __enter__(self) -> 'Office':
        return self

    def __exit__(self, *_: object) -> None:
        self.close()

    def __len__(self) -> int:
        return self._text(LIBRARY.cvr_office_currents).count('\n')

    def __repr__(self) -> str:
        return '<cvr.Office of %r%s>' % (self._definition, '' if self._handle.office else ', closed')

    def __reduce_ex__(self, _: object) -> NoReturn:
        raise TypeError("an office can't be copied or pickled: make another one, which may join it")

    def __del__(self) -> None:
        if hasattr(self, '_home'):
            self._home.drop(self._handle)

    def _own(self) -> Handle:
        if self._home is not home():
            raise RuntimeError('another thread made this office')
        return self._handle

    def _read(self, function: Callable[..., int], file: File, *more: object) -> Name:
        """Has a call read a file, and answers its name."""
        handle, (name, data) = self._own(), _given(file)
        status, path, refusal = reading(functools.partial(function, handle), data, *more)
        if status == REFUSED:
            has_path = refusal.code >= 3        # E3, E4, E5
            raise Fault(name, 'E%d' % refusal.code, path.decode() if has_path else None, refusal.rule or None)
        self._done(status)
        return name

    def _text(self, function: Callable[..., int]) -> str:
        status, text = text_of(function, self._own())
        self._done(status)
        return text.decode()

    @staticmethod
    def _done(status: int) -> None:
        """Raises what the status of a call means, where it wasn't done."""
        if status == OTHER_DEFINITION:
            raise ValueError('the offices have different definitions')
        if status == NO_OFFICE:
            raise ValueError('the office is closed')
        if status != DONE:
            raise MemoryError('out of memory')
