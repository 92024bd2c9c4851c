"""The calls of the library, by ctypes."""
import ctypes
import ctypes.util
import os
import threading
from typing import Callable, Iterable, List, NamedTuple, Tuple

HERE = os.path.dirname(os.path.abspath(__file__))
NAMES = 'libcvr.so', 'cvr.dll'
DONE, REFUSED, MEMORY, NO_INPUT, NO_ROOM, NO_OFFICE, OTHER_DEFINITION = 0, 1, 4, 5, 6, 7, 8
NOT_MOMENT, NO_DEVICE, NO_VOLUME = 9, 10, 11
GREATEST = ctypes.c_size_t(-1).value
PATH = 1 << 10      # the room for a path at first


class Sizes(ctypes.Structure):
    """CvrSizes of cvr.h."""
    _fields_ = [('text', ctypes.c_size_t), ('log', ctypes.c_size_t)]


class Handle(ctypes.Structure):
    """CvrOffice of cvr.h."""
    _fields_ = [('office', ctypes.c_void_p)]


class Refusal(ctypes.Structure):
    """CvrRefusal of cvr.h."""
    _fields_ = [('code', ctypes.c_uint8), ('rule', ctypes.c_uint8), ('path', ctypes.c_size_t)]


class Brought(ctypes.Structure):
    """CvrReceipt of cvr.h."""
    _fields_ = [('cvrs', ctypes.c_size_t), ('new_facts', ctypes.c_size_t)]


class Result(NamedTuple):
    """What a run printed, what it logged, and its status."""
    text: bytes
    log: bytes
    status: int


def find() -> str:
    """Where the library is: what LIBCVR names, or beside this package, or where the system has it."""
    beside = [os.path.join(HERE, name) for name in NAMES]
    paths = [os.environ.get('LIBCVR')] + [path for path in beside if os.path.exists(path)] + [ctypes.util.find_library('cvr')]
    found = next((path for path in paths if path), None)
    if not found:
        raise ImportError('libcvr is not here: put it into %s, or name it in LIBCVR' % HERE)
    return found


BYTES, OFFICE, SIZE = [ctypes.c_void_p, ctypes.c_size_t], ctypes.POINTER(Handle), ctypes.POINTER(ctypes.c_size_t)
TYPES = {
    'call': [*BYTES, *BYTES, ctypes.c_size_t, *BYTES, *BYTES, ctypes.POINTER(Sizes)],
    'office_new': [OFFICE, *BYTES, *BYTES, ctypes.POINTER(Refusal)],
    'office_import': [OFFICE, *BYTES, ctypes.POINTER(Brought), *BYTES, ctypes.POINTER(Refusal)],
    'office_join': [OFFICE, OFFICE, SIZE],
    'office_tally': [OFFICE, *BYTES, SIZE],
    'office_currents': [OFFICE, *BYTES, SIZE],
    'office_conflicts': [OFFICE, *BYTES, SIZE],
    'office_volume': [OFFICE, *BYTES, *BYTES, ctypes.c_size_t, *BYTES, SIZE],
    'office_free': [OFFICE],
}


def load() -> ctypes.CDLL:
    """The library, with the types of its calls."""
    library = ctypes.CDLL(find())
    for name, types in TYPES.items():
        function = getattr(library, 'cvr_' + name)
        function.argtypes, function.restype = types, None if name == 'office_free' else ctypes.c_uint8
    return library


LIBRARY = load()


class Home:
    """The offices of a thread, which alone calls them: those that were joined share facts, by counts that are not made for
    several threads. One that another thread drops is handed back, and freed at the next call of its own thread or when
    that ends; of a thread that has ended, whoever drops an office frees it, one at a time."""
    _free, _turn = staticmethod(LIBRARY.cvr_office_free), threading.RLock()     # held here, since names go first at exit

    def __init__(self) -> None:
        self._dropped: List[Handle] = []
        self._has_ended = False

    def drop(self, handle: Handle) -> None:
        """Takes an office that nothing uses any more. It is handed over first: else a thread that ends would miss it."""
        self._dropped.append(handle)
        if self._has_ended or getattr(THREAD, 'home', None) is self:
            self.free()

    def free(self) -> None:
        """Frees what was handed back."""
        if self._dropped:
            with self._turn:        # by all homes, and once more by whoever has it, since any line may collect an office
                while self._dropped:
                    self._free(self._dropped.pop())

    def end(self) -> None:
        """Frees what was handed back when the thread ends."""
        self._has_ended = True
        self.free()


class End:
    """What only the variables of a thread hold, so that it goes when the thread ends."""

    def __init__(self, home: Home):
        self._home = home

    def __del__(self) -> None:
        self._home.end()


THREAD = threading.local()


def home() -> Home:
    """That of this thread. What was handed back to it is freed."""
    if not hasattr(THREAD, 'home'):
        THREAD.home = Home()
        THREAD.end = End(THREAD.home)
    found: Home = THREAD.home
    found.free()
    return found


def ends_of(pieces: List[bytes]) -> 'ctypes.Array[ctypes.c_size_t]':
    """Where each piece ends in the input, with one number more, so that there is a place even for no pieces."""
    ends, end = (ctypes.c_size_t * (len(pieces) + 1))(), 0
    for place, piece in enumerate(pieces):
        end += len(piece)
        ends[place] = end
    return ends


def call(words: List[bytes], files: Iterable[Tuple[bytes, bytes]]) -> Result:
    """One call over words and files, and a second where the text or the log needs more room."""
    pieces = words + [part for file in files for part in file]
    given, ends, sizes = b''.join(pieces), ends_of(pieces), Sizes()
    rooms = [max(1, len(given))] * 2
    while True:
        text, log = (ctypes.create_string_buffer(room) for room in rooms)
        status = LIBRARY.cvr_call(given, len(given), ends, len(pieces), len(words),
                                  text, rooms[0], log, rooms[1], ctypes.byref(sizes))
        if status != NO_ROOM:
            return Result(memoryview(text)[:sizes.text].tobytes(), memoryview(log)[:sizes.log].tobytes(), status)
        rooms = [max(1, sizes.text), max(1, sizes.log)]


def reading(function: Callable[..., int], given: bytes, *more: object) -> Tuple[int, bytes, Refusal]:
    """The status of a call that reads a file, and where it is refused the path and the refusal; the path is asked for once
    more where its room is too short."""
    room, refusal = PATH, Refusal()
    while True:
        path = ctypes.create_string_buffer(room)
        status = function(given, len(given), *more, path, room, ctypes.byref(refusal))
        if status != REFUSED or refusal.path <= room:
            return status, path.raw[:refusal.path], refusal
        room = refusal.path


def text_of(function: Callable[..., int], *given: object) -> Tuple[int, bytes]:
    """The status of a call that prints what an office holds, and the text."""
    room, size = PATH, ctypes.c_size_t()
    while True:
        text = ctypes.create_string_buffer(room)
        status = function(*given, text, room, ctypes.byref(size))
        if status != NO_ROOM:
            return status, memoryview(text)[:size.value].tobytes() if status == DONE else b''
        room = size.value
