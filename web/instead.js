'use strict'
// What a source that is no report seems to be, as companion/cvr_audit/instead.py sees it: by the same beginnings and in the same
// sentences, which RULES has. No document, so that the worker has it, too. A source is as in zip.js.

const LOOKED = 4096         // bytes that are looked at
const DEEP = 1000           // parts of JSON in one another, of which the reader of cvr-audit takes no more
const PIECE = 1 << 20
const WORD = /^(?:true|false|null|NaN|-?Infinity|-?(?:0|[1-9]\d*)(?:\.\d+)?(?:[eE][+-]?\d+)?)$/
const CUT_WORD = /^(?:-|tr?u?|fa?l?s?|nu?l?)$/
const ESCAPED = [...'"\\/bfnrt'].map(it => it.charCodeAt(0))     // behind a backslash
// The files in a ZIP that show what it is.
const INSIDE = [[/\/word\/document\.xml$/, 'document'], [/\/xl\/workbook\.xml$/, 'zip']]

const isBlank = sign => sign === 32 || sign >= 9 && sign <= 13
const isOpening = sign => sign === OBJECT || sign === ARRAY
const isDigit = sign => sign >= 48 && sign <= 57
const isHex = sign => isDigit(sign) || (sign | 32) >= 97 && (sign | 32) <= 102
const isOfWord = sign => isDigit(sign) || (sign | 32) >= 97 && (sign | 32) <= 122 || sign === 43 || sign === 45 || sign === 46 || sign === 95
const latin = bytes => String.fromCharCode(...bytes)

// By its first bytes; JSON may be whole or not.
function beginningOf(bytes) {
  const from = bytes.findIndex(it => !isBlank(it)), head = latin(from < LOOKED ? bytes.subarray(0, LOOKED) : bytes.subarray(from, from + LOOKED))
  return RULES.BEGINNINGS.find(([, form]) => new RegExp(`^(?:${form})`).test(head))?.[0] ?? 'unknown'
}

// ---- whether JSON is whole

// Whether bytes end within a sign of UTF-8 ('cut'), or have something else there ('damaged'); null where they are a text.
function faultOfSigns(bytes) {
  const decoder = new TextDecoder('utf-8', {fatal: true})
  let fault = 'damaged'
  try {
    for (let at = 0; at < bytes.length; at += PIECE) decoder.decode(bytes.subarray(at, at + PIECE), {stream: true})
    fault = 'cut'
    decoder.decode()
  } catch {
    return fault
  }
  return null
}

// The place behind an escape that begins at a place; what is wrong with it instead.
function behindEscape(bytes, at) {
  if (ESCAPED.includes(bytes[at + 1])) return at + 2
  let end = at + 2
  while (end < at + 6 && isHex(bytes[end])) end++
  return (bytes[at + 1] === 0x75 && end === at + 6) ? end : end >= bytes.length ? 'cut' : 'damaged'
}

// The same of a text.
function behindQuoted(bytes, at) {
  for (at++; at < bytes.length;) {
    if (bytes[at] === QUOTE) return at + 1
    if (bytes[at] < 32) return 'damaged'
    at = bytes[at] === BACKSLASH ? behindEscape(bytes, at) : at + 1
    if (typeof at === 'string') return at
  }
  return 'cut'
}

// The same of a number or a word. Most numbers are digits that begin with another one than 0.
function behindWord(bytes, at) {
  let end = at
  while (isDigit(bytes[end])) end++
  if (end > at && (bytes[at] !== 48 || end === at + 1) && !isOfWord(bytes[end])) return end
  while (isOfWord(bytes[end])) end++
  const word = latin(bytes.subarray(at, Math.min(end, at + LOOKED)))
  if (end - at > LOOKED || WORD.test(word)) return end
  return end === bytes.length && CUT_WORD.test(word) ? 'cut' : 'damaged'
}

// What may come next in JSON.
class Whole {
  constructor(bytes) {
    this.bytes = bytes
    this.open = []          // of each part that is open whether it is an object
    this.awaits = 'value'
  }

  // Takes what stands at a place; answers the place behind it, or what is wrong.
  take(at) {
    const sign = this.bytes[at], {awaits} = this
    if (sign === (this.open.at(-1) ? 0x7d : 0x5d) && ['comma', 'first name', 'first value'].includes(awaits)) return this.closes(at)
    if (awaits === 'comma' || awaits === 'colon') return this.goesOn(at, awaits === 'colon' ? COLON : COMMA)
    if (awaits.endsWith('name')) return sign === QUOTE ? (this.awaits = 'colon', behindQuoted(this.bytes, at)) : 'damaged'
    if (awaits === 'end') return 'damaged'
    if (isOpening(sign)) {
      this.awaits = sign === OBJECT ? 'first name' : 'first value'
      return this.open.push(sign === OBJECT) > DEEP ? 'json' : at + 1
    }
    this.awaits = this.open.length ? 'comma' : 'end'
    return sign === QUOTE ? behindQuoted(this.bytes, at) : behindWord(this.bytes, at)
  }

  closes(at) {
    this.open.pop()
    this.awaits = this.open.length ? 'comma' : 'end'
    return at + 1
  }

  goesOn(at, wanted) {
    if (this.bytes[at] !== wanted) return 'damaged'
    this.awaits = wanted === COMMA && this.open.at(-1) ? 'name' : 'value'
    return at + 1
  }
}

// Whether JSON is whole, ends too soon or is damaged. Where its parts are nested too deep, it counts as whole.
function kindOfJson(bytes) {
  const fault = faultOfSigns(bytes), whole = new Whole(bytes)
  if (fault) return fault
  for (let at = 0; ;) {
    while (bytes[at] === 32 || bytes[at] === 9 || bytes[at] === 10 || bytes[at] === 13) at++
    if (at >= bytes.length) return whole.awaits === 'end' ? 'json' : 'cut'
    at = whole.take(at)
    if (typeof at === 'string') return at
  }
}

// ---- what is said of it

const isNamedAs = (path, form) => new RegExp(`^(?:${form})$`, 's').test(baseOf(path))

// The only kind of export to which a source belongs.
function exportOf(path, bytes) {
  const named = Object.entries(RULES.FORMS).filter(([, [form]]) => isNamedAs(path, form))
  const head = named.length ? new TextDecoder().decode(bytes.subarray(0, RULES.HEAD)) : ''
  const kinds = named.filter(([, [, texts]]) => texts.every(it => head.includes(it)))
  return kinds.length === 1 ? kinds[0][0] : null
}

// What bytes seem to be, what to do, which may be null, and the kind of the export. `is_json` says whether cvr takes them for JSON.
function seemsOf(path, bytes, is_json, is_whole = true) {
  const begins = INSIDE.find(([form]) => form.test(path))?.[1] ?? beginningOf(bytes), kind = begins === 'json' && is_whole ? kindOfJson(bytes) : begins
  const [seems, advice] = RULES.INSTEAD[kind !== 'json' ? kind : !is_json ? 'strange' : baseOf(path) === RULES.REPORT ? 'ballot' : kind]
  const of_export = exportOf(path, bytes)
  return {seems, todo: of_export ? RULES.INSTEAD.gather[0] : advice, kind: of_export}
}

// The command that makes reports of what a source belongs to.
const gatherOf = path => commandOf(['cvr-audit', 'gather', path.split('/')[0], '-o', 'gathered'])

// What a source seems to be, and what to do, by its first bytes: in sentences; and the kind of export, or null.
async function seenAs(source, piece = null) {
  if (!source.file) return {seems: RULES.INSTEAD.nothing[0], todo: RULES.INSTEAD.nothing[1]}
  const is_named = /\.json$/i.test(source.path) || Object.values(RULES.FORMS).some(([form]) => isNamedAs(source.path, form))
  const bytes = await bytesOf(source, is_named ? RULES.HEAD : LOOKED, piece), {seems, todo, kind} = seemsOf(source.path, bytes, true, bytes.length === source.size)
  return kind ? {seems: `${seems} ${filled(RULES.OF_MAKER, RULES.MAKERS[kind])}`, todo: `${todo} ${gatherOf(source.path)}`, kind} : {seems, todo: todo ?? '', kind}
}
