/* cvr in JavaScript: the proved program as a library, over files or bytes, in browsers and in Node.

     import {tally} from './cvr.mjs'
     for (const row of await tally('definition.json', ['scan.json'])) console.log(row.contest, row.ballots, row.votes)

   cvr.d.mts has the types, and says what each call answers. cvr.wasm has to stand beside this file, or `load` says where
   it is. */

// ---- the module

const DONE = 0, REFUSED = 1, MEMORY = 4, NO_INPUT = 5, NO_ROOM = 6, NO_OFFICE = 7, OTHER_DEFINITION = 8
const MERGE_CODES = {9: 'H1', 10: 'H2', 11: 'V1'}
const LONGEST = 67108864        // bytes of a file that may be accepted
const WORD = 8                  // bytes of a number, and of an address
const ROOM = 1 << 16            // bytes for a text at first

let decoder                     // made where it is needed: an engine without a browser has none
const encode = text => new TextEncoder().encode(text)
const decode = bytes => (decoder ??= new TextDecoder('utf-8', {ignoreBOM: true})).decode(bytes)

const noMemory = () => new RangeError('out of memory')

// The module in a memory of its own. Its calls are the proved ones, those of cvr.h with others for cvr_office_join and
// cvr_office_free; what they are given are places in that memory, and lengths.
export class Module {
  #exports
  #lost = null          // why a call was cut off: nothing in the memory can be used since

  constructor(compiled) {
    this.#exports = new WebAssembly.Instance(compiled, {}).exports
  }

  get isLost() {
    return this.#lost !== null
  }

  // How many bytes the memory has, and how many of these are in use.
  get size() {
    return this.#exports.memory.buffer.byteLength
  }

  get used() {
    return Number(this.#exports.cvr_used())
  }

  // The place of so many new bytes.
  take(count) {
    const place = Number(this.#call('cvr_malloc', [count]))
    if (!place) throw noMemory()
    return place
  }

  free(...places) {
    for (const it of places) this.#call('cvr_free', [it])
  }

  // Bytes, and numbers of 64 bits, where they stand: until the memory grows.
  bytes(place, count) {
    return new Uint8Array(this.#exports.memory.buffer, place, count)
  }

  numbers(place, count) {
    return new BigUint64Array(this.#exports.memory.buffer, place, count)
  }

  // The status of a call by its name.
  call(name, ...given) {
    return Number(this.#call(name, given) ?? DONE) & 255
  }

  // What a function answers that is given rooms of so many bytes; these are free behind it.
  using(counts, how) {
    const places = []
    try {
      for (const it of counts) places.push(this.take(it))
      return how(...places)
    } finally {
      if (!this.isLost) this.free(...places)
    }
  }

  #call(name, given) {
    if (this.isLost) throw new Error('the memory of cvr is lost, since a call was cut off', {cause: this.#lost})
    const its = this.#exports[name], numbers = given.map(BigInt)
    if (its?.length !== numbers.length) throw new TypeError(`cvr.wasm has no ${name} of ${numbers.length} numbers`)
    try {
      return its(...numbers)
    } catch (fault) {
      this.#lost = fault        // first, since what follows is cut off, too, where the stack ran over
      const said = this.#said()
      if (!said) throw fault
      this.#lost = null
      throw new Error(said)
    }
  }

  // Why a call was refused that changed nothing, or null.
  #said() {
    const place = Number(this.#exports.cvr_said()), words = place ? new Uint8Array(this.#exports.memory.buffer, place) : null
    return words && decode(words.subarray(0, words.indexOf(0)))
  }
}

// Files in the memory of a module, one behind the other, over which commands run. Each has a path and a size, which is at most
// that of its bytes; `runs` are the words of all commands.
export class Files {
  constructor(module, files, runs) {
    this.module = module
    this.paths = files.map(it => encode(it.path))
    this.room = Math.max(...runs.map(words => encode(words.join('')).length))       // of the words, before the files
    this.size = files.reduce((sum, it, at) => sum + this.paths[at].length + Math.min(it.size, LONGEST + 1), 0)
    this.ends = []
    this.place = module.take(this.room + this.size)
  }

  // Puts the bytes of the next file behind those before it.
  put(bytes) {
    for (const piece of [this.paths[this.ends.length / 2], bytes]) {
      const start = this.ends.at(-1) ?? 0
      this.module.bytes(this.place + this.room + start, piece.length).set(piece)
      this.ends.push(start + piece.length)
    }
  }

  end() {
    if (!this.module.isLost) this.module.free(this.place)
  }

  // The bytes of a file, where they stand.
  bytes(at) {
    return this.module.bytes(this.place + this.room + this.ends[2 * at], this.ends[2 * at + 1] - this.ends[2 * at])
  }

  // Runs a command: its words stand before the files, and end where these begin. A volume may be as long as all files.
  run(words) {
    const pieces = words.map(encode), ends = [], room = Math.max(1 << 20, words[0] === 'merge' ? this.size : this.size >> 4)
    const count = pieces.reduce((sum, it) => (ends.push(sum + it.length), sum + it.length), 0), from = this.place + this.room - count
    pieces.forEach((it, at) => this.module.bytes(from + ends[at] - it.length, it.length).set(it))
    const all = [...ends, ...this.ends.map(it => it + count)]
    return this.module.using([WORD * all.length, 2 * WORD], (table, sizes) => {
      this.module.numbers(table, all.length).set(all.map(BigInt))
      return this.#answered([from, count + this.size, table, all.length, words.length], sizes, room, ROOM)
    })
  }

  // One call, and a second where the text or the log needs more room.
  #answered(given, sizes, ...rooms) {
    for (;;) {
      const {status, lengths, text, log} = this.module.using(rooms, (text, log) => {
        const status = this.module.call('cvr_call', ...given, text, rooms[0], log, rooms[1], sizes)
        const lengths = Array.from(this.module.numbers(sizes, 2), Number)
        const [printed, logged] = [text, log].map((it, at) => this.module.bytes(it, Math.min(lengths[at], rooms[at])).slice())
        return {status, lengths, text: printed, log: decode(logged)}
      })
      if (status !== NO_ROOM) return {status, text, log}
      rooms = rooms.map((it, at) => Math.max(it, lengths[at]))
    }
  }
}

// ---- what is refused

const CONTROLS = /[\0-\x1f\x7f-\x9f\u2028-\u202e\u2066-\u2069]/g
const escaped = code => code < 256 ? `\\x${code.toString(16).padStart(2, '0')}` : `\\u${code.toString(16)}`
const shown = text => text.replace(CONTROLS, it => ({'\t': '\\t', '\n': '\\n', '\r': '\\r'})[it] ?? escaped(it.charCodeAt()))

export class Fault extends Error {
  constructor(file, code, {path = null, rule = null, volumes = null} = {}) {
    const parts = [code, path === null ? null : JSON.stringify(path).slice(1, -1), rule, volumes].filter(it => it !== null)
    const [what, todo] = CODES[code]
    super(shown(`${file}: ${parts.join(' ')}`))
    Object.defineProperty(this, 'message', {enumerable: true})
    Object.assign(this, {file, code, path, rule, volumes, words: `${what}${rule === null ? '' : `: ${RULES[rule]}`}. ${todo}`, status: REFUSED})
  }
}
Object.defineProperty(Fault.prototype, 'name', {value: 'Fault', configurable: true, writable: true})

// ---- what is printed

// Whether an odd number of backslashes stands before a quote, which is then one of its text.
function isOfText(line, quote) {
  let from = quote
  while (line[from - 1] === '\\') from--
  return (quote - from) % 2 === 1
}

// Where a part of a line ends. A text may be too long for a regular expression.
function endOf(line, at) {
  const is_text = line[at] === '"'
  let end = at
  do end = line.indexOf(is_text ? '"' : ' ', end + 1)
  while (end >= 0 && is_text && isOfText(line, end))
  return end < 0 ? line.length : end + is_text
}

const partOf = word => word[0] === '"' ? JSON.parse(word) : word === 'null' ? null : /^\d+$/.test(word) ? BigInt(word) : word

// The parts of a printed line: texts, numbers as BigInt, null, and other words as they are.
export function parts(line) {
  const found = []
  for (let at = 0, end; at < line.length; at = end + 1) found.push(partOf(line.slice(at, end = endOf(line, at))))
  return found
}

// The parts of each line of a text, which may be longer than a string.
function linesOf(bytes) {
  const found = []
  for (let at = 0, end; at < bytes.length; at = end + 1) found.push(parts(decode(bytes.subarray(at, end = bytes.indexOf(10, at)))))
  return found
}

// A number that JavaScript has exactly.
function exact(number) {
  if (number > Number.MAX_SAFE_INTEGER) throw new RangeError(`${number} is above 2 ** 53 - 1: run(['tally', ..]) prints it`)
  return Number(number)
}

const OF = ['contest', 'unit', 'batch'], NUMBERS = ['ballots', 'overvotes', 'undervotes', 'writeIns', 'pending', 'unassigned']

// The votes by selection, which change no more, and are an object in JSON.
class Votes extends Map {
  constructor(pairs) {
    super()
    for (const pair of pairs) super.set(...pair)
    for (const name of ['set', 'delete', 'clear']) Object.defineProperty(this, name, {value() { throw new TypeError('votes do not change') }})
  }

  toJSON() {
    return Object.fromEntries(this)
  }
}

function rowOf(line) {
  const [numbers, votes] = [line.slice(3, 3 + NUMBERS.length).map(exact), line.slice(3 + NUMBERS.length)], row = {}
  OF.forEach((name, at) => { row[name] = line[at] })
  NUMBERS.forEach((name, at) => { row[name] = numbers[at] })
  row.votes = new Votes(votes.flatMap((it, at) => at % 2 ? [] : [[it, exact(votes[at + 1])]]))
  return Object.freeze(row)
}

const currentOf = ([device, record, snapshot, type]) => Object.freeze({device, record, snapshot, type})

// A name with several bodies: that of a device, whose line begins with that word, of a header, or of a snapshot.
function conflictOf(line) {
  const bodies = exact(line.at(-1)), [device, record, kind, snapshot] = line
  if (line.length === 3) return Object.freeze({kind: 'device', device: line[1], record: null, snapshot: null, bodies})
  return Object.freeze({kind, device, record, snapshot: kind === 'snapshot' ? snapshot : null, bodies})
}

export function columns(rows) {
  const all = [...rows]
  return Object.fromEntries([...OF, ...NUMBERS].map(name => [name, all.map(it => it[name])]))
}

export function voteColumns(rows) {
  const all = [...rows].flatMap(row => [...row.votes].map(([selection, votes]) => ({...row, selection, votes})))
  return Object.fromEntries([...OF, 'selection', 'votes'].map(name => [name, all.map(it => it[name])]))
}

// ---- what is given

const tagOf = it => Object.prototype.toString.call(it)       // also of what is of another window
const isBytes = it => tagOf(it) === '[object ArrayBuffer]' || ArrayBuffer.isView(it)
const isBlob = it => ['[object Blob]', '[object File]'].includes(tagOf(it))
const isPath = it => typeof it === 'string' || it instanceof URL
const isPair = it => Array.isArray(it) && it.length === 2 && isPath(it[0]) && (isBytes(it[1]) || isBlob(it[1]))

// A name or a word as it is given. Half a pair of surrogates has no bytes in UTF-8.
function wellFormed(text) {
  if (typeof text !== 'string') throw new TypeError('a word has to be a string')
  if (/\p{Surrogate}/u.test(text)) throw new TypeError('a name or a word has half a pair of surrogates')
  return text
}

// The bytes of what is given. Of a longer file than any that is accepted no more than shows that.
function viewOf(data) {
  const whole = ArrayBuffer.isView(data) ? new Uint8Array(data.buffer, data.byteOffset, data.byteLength) : new Uint8Array(data)
  return whole.subarray(0, LONGEST + 1)
}

const bytesIn = async blob => new Uint8Array(await blob.slice(0, LONGEST + 1).arrayBuffer())

const isNode = Boolean(globalThis.process?.versions?.node)
const NODE = 'node:fs'          // by a variable, since tools that pack pages look for what is named at `import`

// The bytes of a file: at once where its size is known, and may be right.
async function bytesAt(path) {
  if (!isNode) throw new TypeError('a path is read in Node alone: give a File, or a pair of a name and bytes')
  const {createReadStream, promises} = await import(NODE), {size} = await promises.stat(path), pieces = []
  if (size > 0 && size <= LONGEST) return promises.readFile(path)
  for await (const it of createReadStream(path, {end: LONGEST})) pieces.push(it)
  return new Uint8Array(await new Blob(pieces).arrayBuffer())
}

// The name of a file that is held as bytes, and these.
const heldIn = file => isPair(file) && isBytes(file[1]) ? [wellFormed(String(file[0])), viewOf(file[1])] : null

// The name of a file, and its bytes.
async function nameAndBytes(file) {
  if (isPair(file)) return heldIn(file) ?? [wellFormed(String(file[0])), await bytesIn(file[1])]
  if (isBlob(file) && typeof file.name === 'string') return [wellFormed(file.name), await bytesIn(file)]
  if (isPath(file)) return [wellFormed(String(file)), await bytesAt(file)]
  throw new TypeError('a file has to be a path, a File, or a pair of a name, and bytes or a Blob')
}

// Several files, none of which is read yet. Of one by itself the letters or parts would be taken for files.
function severalOf(files) {
  const isOne = isPath(files) || isBytes(files) || isBlob(files) || isPair(files)
  if (isOne || !(files?.[Symbol.iterator] || files?.[Symbol.asyncIterator])) throw new TypeError('several files have to be given, as [file]')
  return files
}

// ---- the functions

let compiled = null             // a promise of the module
let current = null              // it, in the memory that all offices share

async function compiledOf(source) {
  const given = await source, its = given instanceof WebAssembly.Module ? given : await WebAssembly.compile(given)
  if (!WebAssembly.Module.exports(its).some(it => it.name === 'cvr_said')) throw new TypeError('this is not cvr.wasm, or an older one')
  return its
}

export async function load(source) {
  const its = compiled = compiledOf(source)
  current = null
  await its.catch(fault => {
    if (compiled === its) compiled = null
    throw fault
  })
}

// The module, in a new memory where the last one is lost.
async function working() {
  if (!compiled) await load(fromBeside())
  const its = await compiled
  if (!current || current.isLost) current = new Module(its)
  return current
}

export async function run(words, files = []) {
  if (typeof words === 'string') throw new TypeError("words have to be given as ['tally', ..]")
  const all = [...words].map(wellFormed), held = []
  for await (const it of severalOf(files)) held.push(await nameAndBytes(it))
  const its = new Files(await working(), held.map(([path, bytes]) => ({path, size: bytes.length})), [all])
  try {
    for (const [, bytes] of held) its.put(bytes)
    return Object.freeze(its.run(all))
  } finally {
    its.end()
  }
}

export async function version() {
  return decode((await run(['--version'])).text).trim().split(' ')[1]
}

// Stops where this is no number of a volume.
function seeNumber(number) {
  if (typeof number !== 'number') throw new TypeError('a volume has a number')
  if (!Number.isSafeInteger(number) || number < 1) throw new RangeError(`volumes are numbered from 1, in whole numbers: ${number}`)
}

async function holding(definition, files, how) {
  const all = severalOf(files), office = await Office.of(definition)
  try {
    for await (const it of all) await office.importFile(it)
    return how(office)
  } finally {
    office.close()
  }
}

export const tally = (definition, files) => holding(definition, files, it => it.tally())
export const currents = (definition, files) => holding(definition, files, it => it.currents())
export const conflicts = (definition, files) => holding(definition, files, it => it.conflicts())

export async function merge(definition, date, device, volume, files) {
  seeNumber(volume)
  return holding(definition, files, it => it.volume(date, device, volume))
}

export async function check(definition, files) {
  const all = severalOf(files), office = await Office.of(definition), counts = new Map()
  try {
    for await (const it of all) {
      const [name, bytes] = await nameAndBytes(it)
      counts.set(name, (counts.get(name) ?? 0) + (await office.importFile([name, bytes])).cvrs)
    }
    return counts
  } finally {
    office.close()
  }
}

// ---- offices

const MAKING = Symbol('making an office')
// Frees an office that was dropped without `close`.
const dropped = new FinalizationRegistry(({module, place}) => { if (!module.isLost) freeOffice(module, place) })

function freeOffice(module, place) {
  module.call('cvr_office_drop', place)
  module.free(place)
}

// The handle of a new office in a module, which has none yet.
function newHandle(module) {
  const place = module.take(WORD)
  module.bytes(place, WORD).fill(0)
  return place
}

export class Office {
  #module
  #place        // of its handle; null once it is closed

  static async of(definition) {
    const [name, bytes] = await nameAndBytes(definition), module = await working(), office = new Office(MAKING, module)
    try {
      office.#reading('cvr_office_new', name, bytes)
      return office
    } catch (fault) {
      office.close()
      throw fault
    }
  }

  constructor(making, module) {
    if (making !== MAKING) throw new TypeError('Office.of(definition) makes an office')
    this.#module = module
    this.#place = newHandle(module)
    dropped.register(this, {module, place: this.#place}, this)
  }

  async importFile(file) {
    this.#own()
    return Object.freeze(this.#importing(...heldIn(file) ?? await nameAndBytes(file)))
  }

  join(other) {
    if (!(other instanceof Office)) throw new TypeError('an office joins an office')
    const ours = this.#own(), theirs = other.#own()
    if (this.#module !== other.#module) throw new Error('the offices are not in one memory, since load() was called between them')
    return this.#module.using([WORD], found => {
      const status = ours === theirs ? this.#module.call('cvr_office_join_itself', ours, found) : this.#module.call('cvr_office_join_other', ours, theirs, found)
      this.#done(status)
      return exact(this.#module.numbers(found, 1)[0])
    })
  }

  tally() {
    return this.#lines('cvr_office_tally').map(rowOf)
  }

  currents() {
    return this.#lines('cvr_office_currents').map(currentOf)
  }

  conflicts() {
    const lines = this.#lines('cvr_office_conflicts'), [, volumes] = lines.pop()
    return Object.freeze({names: Object.freeze(lines.map(conflictOf)), volumes: exact(volumes)})
  }

  volume(date, device, number) {
    seeNumber(number)
    const words = [date, device].map(it => encode(wellFormed(it)))
    const {status, bytes} = this.#module.using(words.map(it => it.length), (...places) => {
      words.forEach((it, at) => this.#module.bytes(places[at], it.length).set(it))
      return this.#printed('cvr_office_volume', ...places.flatMap((it, at) => [it, words[at].length]), number)
    })
    const code = MERGE_CODES[status]
    if (code) throw new Fault('merge', code, {volumes: code === 'V1' ? this.conflicts().volumes : null})
    this.#done(status)
    return bytes
  }

  // How many records it holds.
  get size() {
    return this.#lines('cvr_office_currents').length
  }

  close() {
    if (this.#place === null) return
    dropped.unregister(this)
    if (!this.#module.isLost) freeOffice(this.#module, this.#place)
    this.#place = null
  }

  #own() {
    if (this.#place === null) throw new Error('the office is closed')
    return this.#place
  }

  // Has a call read a file. The path of a fault is asked for once more where its room is too short.
  #reading(call, file, bytes, ...more) {
    const module = this.#module, own = this.#own()
    for (let room = ROOM; ;) {
      const said = module.using([bytes.length, room, 2 * WORD], (given, path, refusal) => {
        module.bytes(given, bytes.length).set(bytes)
        const status = module.call(call, own, given, bytes.length, ...more, path, room, refusal)
        const [code, rule] = module.bytes(refusal, 2), length = Number(module.numbers(refusal, 2)[1])
        return {status, code, rule, length, path: status === REFUSED && length <= room ? decode(module.bytes(path, length)) : null}
      })
      if (said.status !== REFUSED) return this.#done(said.status)
      if (said.path !== null) throw new Fault(file, `E${said.code}`, {path: said.code < 3 ? null : said.path, rule: said.rule || null})
      room = said.length
    }
  }

  #importing(file, bytes) {
    return this.#module.using([2 * WORD], receipt => {
      this.#reading('cvr_office_import', file, bytes, receipt)
      const [cvrs, newFacts] = Array.from(this.#module.numbers(receipt, 2), exact)
      return {cvrs, newFacts}
    })
  }

  // The status of a call that prints what it holds, and what it printed; once more where the room was too short.
  #printed(call, ...given) {
    const module = this.#module, own = this.#own()
    for (let room = ROOM; ;) {
      const said = module.using([room, WORD], (text, size) => {
        const status = module.call(call, own, ...given, text, room, size), length = Number(module.numbers(size, 1)[0])
        return {status, length, bytes: status === DONE ? module.bytes(text, length).slice() : null}
      })
      if (said.status !== NO_ROOM) return said
      room = said.length
    }
  }

  // The lines that a call prints.
  #lines(call) {
    const {status, bytes} = this.#printed(call)
    this.#done(status)
    return linesOf(bytes)
  }

  // Throws what the status of a call means, where it wasn't done.
  #done(status) {
    if (status === MEMORY) throw noMemory()
    if (status === OTHER_DEFINITION) throw new Error('the offices have different definitions')
    if (status !== DONE) throw new Error(`cvr answers ${status}`)
  }
}

// ---- words: made by tools/codes from docs/FAULTS.md

const CODES = {
  "E1": [
    "The file is longer than 67,108,864 bytes",
    "Have the tool that wrote it write several files."
  ],
  "E2": [
    "The file is no JSON text",
    "Look whether it was cut off, or is of another kind, as XML; take away a byte order mark."
  ],
  "E3": [
    "The file does not have the form of a report",
    "Have it mended by the maker of the tool that wrote it, and exported again."
  ],
  "E4": [
    "A text of it has to be the id of something in the file, and is not",
    "Look the id up in the file, and have it exported again."
  ],
  "E5": [
    "Its election, a unit or a party of it is not the definition's",
    "Was it exported under another version of the election? Use the definition that it was made under, or have it exported again."
  ],
  "H1": [
    "DATE of merge is no date-time with an offset, or names a zone in brackets",
    "Write it as 2024-11-06T08:00:00Z or 2024-11-06T03:00:00-05:00."
  ],
  "H2": [
    "The definition has no ReportingDevice with DEVICE as its @id",
    "Name one of the definition's devices; one that only files have doesn't do."
  ],
  "V1": [
    "There are fewer volumes than VOLUME; how many stands after it, as conflicts ends with",
    "Ask for a volume from 1 to that number."
  ]
}
const RULES = {
  "1": "an object is needed",
  "2": "a required member is absent",
  "3": "a value is of another kind",
  "4": "a text is none of those listed",
  "5": "an object of another class stands there",
  "6": "a name is empty",
  "7": "a count is out of range",
  "8": "an array has too few items",
  "9": "an array has too many items",
  "10": "fractional votes are not counted",
  "11": "a text is no date and time with an offset",
  "12": "an id stands twice",
  "13": "a contest stands twice in a snapshot",
  "14": "a number is not whole"
}

// ---- beside this file

// The bytes of cvr.wasm.
async function fromBeside() {
  const url = new URL('cvr.wasm', import.meta.url)
  if (isNode) return (await import(NODE)).promises.readFile(url)
  const found = await fetch(url)
  if (!found.ok) throw new Error(`there is no ${url}: ${found.status}`)
  return found.arrayBuffer()
}
