'use strict'
// What is read: files, and those in a ZIP, by the rules of cvr-audit gather. RULES has its limits and sentences
// (companion/cvr_audit/gather_said.py). A source has its path, its size, and its file; one in a ZIP also how it is packed
// there; a folder without files has a path that ends with / and no file.

// Why a source is refused: its path, the place there, and what is wrong.
class Unfit extends Error {
  constructor(path, said, place) {
    super([path, place, said].filter(it => it).join(': '))
  }
}

// Texts in the order of their UTF-8 bytes: with each of 16 bits that is half of a sign behind all others.
const inBytes = it => it.replace(/[\ud800-\uffff]/g, one => String.fromCharCode(one.charCodeAt(0) + (one < '\ue000' ? 0x2000 : -0x800)))
const byText = (a, b) => (a = inBytes(a), b = inBytes(b), a < b ? -1 : a > b ? 1 : 0)
const baseOf = path => path.slice(path.lastIndexOf('/') + 1)
const folderOf = path => path.slice(0, Math.max(0, path.lastIndexOf('/')))
const filled = (text, ...values) => text.replace(/%[sd]/g, () => values.shift())

const view = async (file, from, to) => new DataView(await file.slice(from, to).arrayBuffer())
const signs = (its, from, count) => new TextDecoder().decode(new Uint8Array(its.buffer, its.byteOffset + from, count))

// ---- the list of a ZIP

const ZIP = 'PK\x03\x04', ENTRY = 0x02014b50, LAST = 0x06054b50, LOCATOR = 0x07064b50, WIDE = 0xffffffff
const STORED = 0, DEFLATED = 8

async function isZip(file) {
  const head = await view(file, 0, ZIP.length)
  return signs(head, 0, head.byteLength) === ZIP
}

// Where the list begins, how many bytes it has, and by how much the places in it are short, as something stands before it.
async function listOf(file) {
  const from = Math.max(0, file.size - 65557 - 20), end = await view(file, from, file.size)
  let at = end.byteLength - 22
  while (at >= 0 && end.getUint32(at, true) !== LAST) at--
  if (at < 0) throw new RangeError('no list')
  if (at < 20 || end.getUint32(at - 20, true) !== LOCATOR) {
    const size = end.getUint32(at + 12, true), begin = from + at - size
    return {begin, size, short: begin - end.getUint32(at + 16, true)}
  }
  const wide = await view(file, from + at - 76, from + at - 20), size = Number(wide.getBigUint64(40, true)), begin = from + at - 76 - size
  return {begin, size, short: begin - Number(wide.getBigUint64(48, true))}
}

// The sizes and the place of a file of the list, of which those of 64 bits stand behind its name.
function wideIn(list, at, name, more, values) {
  for (let from = at + name, to = from + more; from + 4 <= to; from += 4 + list.getUint16(from + 2, true)) {
    if (list.getUint16(from, true) !== 1) continue
    let place = from + 4
    return values.map(it => it === WIDE ? Number(list.getBigUint64((place += 8) - 8, true)) : it)
  }
  return values
}

function* entriesIn(list, short) {
  for (let at = 0; at < list.byteLength;) {
    if (list.getUint32(at, true) !== ENTRY) throw new RangeError('no entry')
    const [flags, method] = [8, 10].map(it => list.getUint16(at + it, true)), [name, more, note] = [28, 30, 32].map(it => list.getUint16(at + it, true))
    const [size, count, place] = wideIn(list, at + 46, name, more, [24, 20, 42].map(it => list.getUint32(at + it, true)))
    yield {name: signs(list, at + 46, name), flags, method, size, count, place: place + short, sum: list.getUint32(at + 16, true),
      mode: list.getUint32(at + 38, true) >>> 16}
    at += 46 + name + more + note
  }
}

// Stops at a file of a ZIP that isn't plain, or may be a bomb.
function seeEntry(path, {name, flags, method, size, count, mode}) {
  const stop = said => { throw new Unfit(`${path}/${name}`, said) }, parts = name.split('/')
  if (name.includes('\\')) stop(RULES.BACKSLASH)
  if (name.startsWith('/') || parts.includes('..') || parts[0].includes(':')) stop(RULES.OUTSIDE)
  if ((mode & 0o170000) === 0o120000) stop(RULES.LINK)
  if (flags & 1) stop(RULES.ENCRYPTED)
  if (method !== STORED && method !== DEFLATED) stop(RULES.PACKED)
  if (size > RULES.LONGEST || size > RULES.FREE && size > RULES.DENSEST * count) stop(filled(RULES.TOO_LONG, size))
}

// The sources in a ZIP.
async function sourcesIn(path, file) {
  let entries
  try {
    const {begin, size, short} = await listOf(file)
    entries = [...entriesIn(await view(file, begin, begin + size), short)]
  } catch (fault) {
    throw fault instanceof RangeError ? new Unfit(path, RULES.CUT_OFF) : fault
  }
  const names = new Set(), folders = new Set()
  for (const it of entries) {
    seeEntry(path, it)
    if (names.has(it.name)) throw new Unfit(`${path}/${it.name}`, RULES.AGAIN)
    names.add(it.name)
    for (let above = folderOf(it.name.slice(0, -1)); above; above = folderOf(above)) folders.add(above + '/')
  }
  if (entries.reduce((sum, it) => sum + it.size, 0) > RULES.WHOLE) throw new Unfit(path, filled(RULES.TOO_MUCH, RULES.WHOLE))
  const isOfMac = new RegExp(`^(?:${RULES.OF_A_MAC})$`, 's')
  return entries.filter(it => it.name.endsWith('/') ? !folders.has(it.name) : !isOfMac.test(it.name))
    .map(it => ({path: `${path}/${it.name}`, size: it.size, file: it.name.endsWith('/') ? null : file, packed: it}))
}

// ---- the bytes of a source

// A piece of a ZIP that is read at once: where it begins there, and its bytes.
const pieceOf = async (file, from, to) => ({from, bytes: new Uint8Array(await file.slice(from, to).arrayBuffer())})

// Bytes of a ZIP: from a piece of it, where that has them.
async function between(file, from, to, piece) {
  const its = piece && from >= piece.from && to <= piece.from + piece.bytes.length ? piece : await pieceOf(file, from, to)
  return its.bytes.subarray(from - its.from, to - its.from)
}

// What a file of a ZIP has, as a stream of gzip, of which a browser checks the length and the sum. It is fed from memory,
// unless it is long: a stream of each small file would take a browser most of the time.
async function gzipOf(path, file, {name, method, size, count, place, sum}, piece) {
  const bytes = await between(file, place, place + 30 + new TextEncoder().encode(name).length, piece), head = new DataView(bytes.buffer, bytes.byteOffset, bytes.length)
  if (bytes.length < 30 || signs(bytes, 0, 4) !== ZIP || signs(bytes, 30, bytes.length - 30) !== name) throw new Unfit(path, RULES.DAMAGED)
  const from = place + 30 + head.getUint16(26, true) + head.getUint16(28, true), is_long = count > SPAN
  const packed = is_long ? file.slice(from, from + count) : await between(file, from, from + count, piece)
  const parts = [Uint8Array.of(31, 139, 8, 0, 0, 0, 0, 0, 0, 255), ...method === DEFLATED ? [packed] : blocksOf(packed, count), new Uint8Array(new Uint32Array([sum, size]).buffer)]
  return is_long ? new Blob(parts).stream().pipeThrough(new DecompressionStream('gzip')) : unpackedOf(parts)
}

// The stream of what parts in memory are packed of; its reader hears of what is wrong with them.
function unpackedOf(parts) {
  const {readable, writable} = new DecompressionStream('gzip'), writer = writable.getWriter()
  for (const it of parts) writer.write(it).catch(() => {})
  writer.close().catch(() => {})
  return readable
}

// Bytes that aren't packed, as blocks that a stream of gzip may have.
function* blocksOf(bytes, size) {
  const most = 65535
  for (let at = 0; at === 0 || at < size; at += most) {
    const count = Math.min(most, size - at)
    yield Uint8Array.of(at + count === size ? 1 : 0, count & 255, count >> 8, ~count & 255, (~count >> 8) & 255)
    yield bytes.slice(at, at + count)
  }
}

// The first bytes of a source, at most so many. A piece of its ZIP may have them packed.
async function bytesOf({path, file, size, packed}, most, piece = null) {
  const wanted = Math.min(size, most)
  if (!packed) {
    const bytes = new Uint8Array(await file.slice(0, most).arrayBuffer())
    if (bytes.length !== wanted) throw new Error('its size is another than it was')
    return bytes
  }
  const bytes = new Uint8Array(wanted)
  let at = 0
  try {
    for await (const part of piecesOf(await gzipOf(path, file, packed, piece))) {
      if (at + part.length > size) throw new RangeError('it is longer')
      bytes.set(part.subarray(0, wanted - at), at)
      if ((at += part.length) >= wanted && wanted < size) return bytes
    }
  } catch (fault) {
    throw fault instanceof Unfit ? fault : new Unfit(path, RULES.DAMAGED)
  }
  return bytes
}

// The parts of a stream; Safari has no other way to go over them.
async function* piecesOf(stream) {
  const reader = stream.getReader()
  try {
    for (let part; !(part = await reader.read()).done;) yield part.value
  } finally {
    reader.cancel().catch(() => {})
  }
}

// ---- many sources

const TOGETHER = 64             // sources that are read at once, since each has a browser wait
const SPAN = 2 ** 22            // bytes of a ZIP that are read at once, and of files
const GAP = 2 ** 16             // bytes between two files of a ZIP that are read in vain
const UNPACKED = 2 ** 24        // bytes of the files in such a span

// Where the bytes of a source stand: in its ZIP, up to the name and what else stands before them there; else behind the last one's.
function spanOf({packed, size}, last) {
  if (!packed) return {from: last, to: last + size}
  return {from: packed.place, to: packed.place + 30 + 3 * packed.name.length + 256 + packed.count}
}

// Sources of one ZIP, or of none, in groups that are read at once.
function* groupsIn(file, sources) {
  let group = null
  for (const it of sources) {
    const {from, to} = spanOf(it, group?.to ?? 0)
    if (!group || group.sources.length === TOGETHER || from < group.from || from > group.to + GAP || to > group.from + SPAN || group.size + it.size > UNPACKED) {
      if (group) yield group
      group = {file, from, to, size: 0, sources: []}
    }
    group.sources.push(it)
    group.to = Math.max(group.to, to)
    group.size += it.size
  }
  yield group
}

// Sources in such groups, those of a ZIP in the order of their places there, or as they are.
function groupsOf(sources, by_place = true) {
  const held = grouped(sources, it => it.packed ? it.file : null)
  return [...held].flatMap(([file, its]) => [...groupsIn(file, file && by_place ? its.sort((a, b) => a.packed.place - b.packed.place) : its)])
}

// What a call makes of each source of groups, or why it can't. The call is given a source, and a piece of its ZIP or null.
async function* settledOf(groups, call) {
  for (const {file, from, to, sources} of groups) {
    const piece = file && to - from <= SPAN ? await pieceOf(file, from, to).catch(() => null) : null
    const all = await Promise.allSettled(sources.map(it => call(it, piece)))
    for (const [at, it] of all.entries()) yield [sources[at], it]
  }
}
