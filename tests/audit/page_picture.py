"""page_picture.py: a PNG of few colours, a third the size of the one from a browser."""
import struct
import zlib

SIGNATURE = b'\x89PNG\r\n\x1a\n'
STEP = 17           # between the sixteen values that a colour component keeps


def chunks(data):
    """The chunks of a PNG by kind; those of one kind joined."""
    held, place = {}, len(SIGNATURE)
    while place < len(data):
        length, kind = struct.unpack('>I4s', data[place:place + 8])
        held[kind] = held.get(kind, b'') + data[place + 8:place + 8 + length]
        place += length + 12
    return held


def chunk(kind, data):
    return struct.pack('>I', len(data)) + kind + data + struct.pack('>I', zlib.crc32(kind + data))


def foreseen(left, above, corner):
    """Of three neighbours of a byte, the one nearest to left + above - corner (Paeth)."""
    guess = left + above - corner
    return min((left, above, corner), key=lambda it: abs(guess - it))


def unfiltered(kind, line, before):
    """A line of red, green and blue values before its filter; `before` is the line above it."""
    line = bytearray(line)
    for place in range(len(line)):
        left, above = line[place - 3] if place > 2 else 0, before[place]
        corner = before[place - 3] if place > 2 else 0
        line[place] = (line[place] + (0, left, above, (left + above) // 2,
                                      foreseen(left, above, corner))[kind]) & 255
    return line


def lines(width, height, data):
    before = bytearray(3 * width)
    for place in range(0, height * (3 * width + 1), 3 * width + 1):
        before = unfiltered(data[place], data[place + 1:place + 1 + 3 * width], before)
        yield before


def smaller(data):
    """The picture of a PNG without transparency, with a palette of its colours."""
    parts = chunks(data)
    width, height, depth, kind = struct.unpack('>IIBB', parts[b'IHDR'][:10])
    if (depth, kind) != (8, 2):
        raise ValueError('a PNG of kind %d with %d bits' % (kind, depth))
    colours, image = {}, bytearray()
    for line in lines(width, height, zlib.decompress(parts[b'IDAT'])):
        line = bytes((it + STEP // 2) // STEP * STEP for it in line)
        image.append(0)
        for place in range(0, len(line), 3):
            image.append(colours.setdefault(line[place:place + 3], len(colours)))
    head = struct.pack('>IIBBBBB', width, height, 8, 3, 0, 0, 0)
    return SIGNATURE + chunk(b'IHDR', head) + chunk(b'PLTE', b''.join(colours)) \
        + chunk(b'IDAT', zlib.compress(bytes(image), 9)) + chunk(b'IEND', b'')
