"""What `gather` reads: files, and those in folders and ZIPs, as one list of sources."""
import codecs
import errno
import hashlib
import io
import os
import re
import stat
import zipfile
import zlib
from itertools import chain, zip_longest

from . import gather_said as said
from .program import ended

REFUSED = 1                 # the status where a source is refused
PIECE = 1 << 20             # bytes that are read at once
CHANGED = 'it was changed while it was read'
FORMULA = tuple('=+-@＝＋－＠')
PACKED = b'PK\x03\x04'
OF_A_MAC = re.compile(said.OF_A_MAC, re.S)
DAMAGE = zipfile.BadZipFile, zlib.error, EOFError, NotImplementedError, RuntimeError


def fault(name, text, place=None):
    """The end of a run over a source that isn't as it should be, with the place there."""
    return ended(REFUSED, ': '.join(it for it in (name, place, text) if it))


class Source:
    """A file of what was given. `name` is its path, with that of its ZIP before it, and `digest` the
    SHA-256 of what was read of it, once it was read. A folder without files has a name that ends
    with `/`. `device` is what --device names it."""

    def __init__(self, name, size, opened):
        self.name, self.size, self.opened, self.digest = name, size, opened, None
        self.device = None
        self.folder, self.base = os.path.split(name)

    def file(self):
        try:
            return io.BufferedReader(self.opened())
        except DAMAGE:
            raise self.damaged() from None

    def damaged(self):
        return fault(self.name, said.DAMAGED)

    def head(self):
        """The first bytes; they aren't noted as read."""
        if not self.opened:
            return b''
        try:
            with self.file() as file:
                return file.read(said.HEAD)
        except DAMAGE:
            raise self.damaged() from None

    def is_named_as(self, kind):
        """Whether its name is as those of a kind of export."""
        return re.fullmatch(said.FORMS[kind][0], self.base, re.S) is not None

    def is_of(self, kind):
        """Whether it is of a kind of export, by its name and its first bytes."""
        texts = said.FORMS[kind][1]
        return self.is_named_as(kind) and all(it.encode() in self.head() for it in texts)

    def lines(self):
        """The lines, as bytes with their ends; one that is too long to be held, in parts."""
        return self.parts(lambda file: iter(lambda: file.readline(said.TREE), b''))

    def parts(self, cut):
        """The parts into which an open file is cut, and their SHA-256 as `digest` at the end."""
        digest = hashlib.sha256()
        try:
            with self.file() as file:
                for part in cut(file):
                    digest.update(part)
                    yield part
        except DAMAGE:
            raise self.damaged() from None
        if self.digest not in (None, digest.hexdigest()):
            raise fault(self.name, CHANGED)
        self.digest = digest.hexdigest()

    def pieces(self):
        """The bytes, in pieces."""
        return self.parts(lambda file: iter(lambda: file.read(PIECE), b''))

    def data(self, most=said.TEXT):
        """All bytes, if they aren't too many."""
        held = bytearray()
        for piece in self.pieces():
            held += piece
            if len(held) > most:
                raise fault(self.name, said.TOO_LARGE % most)
        return held

    def texts(self):
        """The text, in pieces."""
        decoder, lines = codecs.getincrementaldecoder('utf-8-sig')(), 0
        for piece in chain(self.pieces(), [b'']):
            try:
                yield decoder.decode(piece, not piece)
            except UnicodeDecodeError as wrong:
                raise self.no_text(wrong.object, wrong.start, lines) from None
            lines += piece.count(b'\n')

    def no_text(self, data, place, lines=0):
        """The end at a place that is no text, behind so many lines."""
        return fault(self.name, said.NO_TEXT, 'line %d' % (lines + data.count(b'\n', 0, place) + 1))

    def text(self, most=said.TEXT):
        """The whole text, if its bytes aren't too many."""
        data = self.data(most)
        try:
            return data.decode('utf-8-sig')
        except UnicodeDecodeError as wrong:
            raise self.no_text(data, wrong.start) from None


def opened(path, name, held):
    """A file of the system, if it is the one that was looked at: a link may have taken its place."""
    try:
        file = open(path, 'rb', buffering=0, opener=lambda it, flags: os.open(it, flags | getattr(os, 'O_NOFOLLOW', 0)))
    except OSError as wrong:
        raise fault(name, CHANGED) if wrong.errno == errno.ELOOP else wrong from None
    if not os.path.samestat(os.fstat(file.fileno()), held):
        file.close()
        raise fault(name, CHANGED)
    return file


def file_source(path, name):
    """A file of the system. A link may lead out of a folder, and a pipe can't be read twice."""
    held = os.lstat(path)
    if not stat.S_ISREG(held.st_mode):
        raise fault(name, 'it is no regular file: a link may lead out of the folder, and a pipe '
                          'can be read only once')
    return Source(name, held.st_size, lambda: opened(path, name, held))


def raised(wrong):
    raise wrong


def in_folder(path):
    """The files below a folder, and the folders without any."""
    for folder, folders, names in os.walk(path, onerror=raised):
        for name in folders:
            if os.path.islink(os.path.join(folder, name)):
                raise fault(os.path.join(folder, name), 'it is a link, which may lead out of the '
                                                        'folder')
        if not folders and not names:
            yield Source(os.path.join(folder, ''), 0, None)
        for name in names:
            yield file_source(os.path.join(folder, name), os.path.join(folder, name))


def is_inside(name):
    """Whether the name of a file in a ZIP leads to no place outside."""
    parts = name.split('/')
    return not name.startswith('/') and '..' not in parts and ':' not in parts[0]


def see_entry(path, entry):
    """Stops at a file of a ZIP that isn't plain, or may be a bomb."""
    name = '%s/%s' % (path, entry.filename)
    if '\\' in entry.filename:
        raise fault(name, said.BACKSLASH)
    if not is_inside(entry.filename):
        raise fault(name, said.OUTSIDE)
    if stat.S_ISLNK(entry.external_attr >> 16):
        raise fault(name, said.LINK)
    if entry.flag_bits & 1:
        raise fault(name, said.ENCRYPTED)
    if entry.compress_type not in (zipfile.ZIP_STORED, zipfile.ZIP_DEFLATED):
        raise fault(name, said.PACKED)
    size, packed = entry.file_size, entry.compress_size
    if size > said.LONGEST or size > said.FREE and size > said.DENSEST * packed:
        raise fault(name, said.TOO_LONG % size)


def in_zip(path):
    """The files of a ZIP, and its folders without any."""
    try:
        archive = zipfile.ZipFile(path)
    except DAMAGE:
        raise fault(path, said.CUT_OFF) from None
    entries, names = archive.infolist(), set()
    for entry in entries:
        see_entry(path, entry)
        if entry.filename in names:
            raise fault('%s/%s' % (path, entry.filename), said.AGAIN)
        names.add(entry.filename)
    if sum(it.file_size for it in entries) > said.WHOLE:
        raise fault(path, said.TOO_MUCH % said.WHOLE)
    filled = {it[:place + 1] for it in names for place, sign in enumerate(it[:-1]) if sign == '/'}
    for entry in entries:
        name = '%s/%s' % (path, entry.filename)
        if not entry.is_dir() and not OF_A_MAC.fullmatch(entry.filename):
            yield Source(name, entry.file_size, lambda entry=entry: archive.open(entry))
        elif entry.is_dir() and entry.filename not in filled:
            yield Source(name, 0, None)


def named(path):
    """A path, as another that doesn't begin as a formula of a spreadsheet does."""
    return os.path.join('.', path) if path.startswith(FORMULA) else path


def is_zip(path):
    with open(path, 'rb') as file:
        return file.read(len(PACKED)) == PACKED


def sources_in(paths, devices=()):
    """The sources of what was given, by name, with a device for each path where there are some."""
    held = {}
    for path, device in zip_longest(map(named, paths), devices or ()):
        if os.path.isdir(path):
            found = in_folder(path)
        else:
            found = [file_source(os.path.realpath(path), path)]
            found = in_zip(path) if is_zip(path) else found
        for source in found:
            if source.name != path and source.base.lower().endswith('.zip'):
                raise fault(source.name, said.WITHIN)
            if source.name in held:
                raise fault(source.name, 'it was given twice')
            source.device, held[source.name] = device, source
    return [held[name] for name in sorted(held)]
