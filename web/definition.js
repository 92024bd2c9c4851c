'use strict'
// Which of the files is the definition, by what they have; and a definition made of reports, by the rules of cvr-audit definition
// and of the same bytes.

const REPORT_TYPE = '"CVR.CastVoteRecordReport"'
const HAS_RECORDS = 'records', HAS_NONE = 'none', NO_REPORT = 'other'       // a report with records, or without; or no whole report
const NUMBERED = 'a member here has a number for its name; make the definition with cvr-audit definition'
const APART = 'No definition can be made of these files, since they disagree; choose one of them as the definition, or leave out those that are of another election: '

// ---- the members of a text

const textBetween = (bytes, from, to) => new TextDecoder().decode(bytes.subarray(from, to))

// The members of the object that a text of JSON is: the name of each in its quotes, and where its value begins; where that ends is
// known once the next one is asked for. Behind the last one stands one without a name, where the text goes so far.
function* membersIn(bytes) {
  let depth = 0, name = null, its = null
  for (let at = 0; at < bytes.length; at++) {
    const sign = bytes[at]
    if (sign === QUOTE) {
      const end = behindText(bytes, at)
      if (depth === 1) name = textBetween(bytes, at, end)
      at = end - 1
    } else if (sign === COLON && depth === 1) yield its = {name, from: behindBlanks(bytes, at + 1), to: null}
    else if (sign === OBJECT || sign === ARRAY) depth++
    else if (sign === COMMA || sign === OBJECT_END || sign === ARRAY_END) {
      if (depth === 1 && its) its.to = at
      if (sign !== COMMA && --depth === 0) yield {name: null, from: at, to: at}
    }
  }
}

// Whether a member is the records; its name may be written with escapes.
const isOfRecords = ({name}) => name === '"CVR"' || /\\/.test(name) && /^"(?:C|\\u0043)(?:V|\\u0056)(?:R|\\u0052)"$/.test(name)

// What a text has, or its beginning.
function contentOf(bytes) {
  let is_report = false, last = null
  for (const it of membersIn(bytes)) {
    const first = isOfRecords(it) && bytes[it.from] === ARRAY ? bytes[behindBlanks(bytes, it.from + 1)] : undefined
    if (first !== undefined && first !== ARRAY_END) return HAS_RECORDS
    is_report ||= it.name === '"@type"' && textBetween(bytes, it.from, it.from + REPORT_TYPE.length) === REPORT_TYPE
    last = it
  }
  return is_report && last.name === null ? HAS_NONE : NO_REPORT
}

// What a source has; most say so in their first bytes.
async function contentIn(source, piece) {
  const content = contentOf(await bytesOf(source, RULES.HEAD, piece))
  return content === HAS_RECORDS || source.size <= RULES.HEAD ? content : contentOf(await bytesOf(source, HELD, piece))
}

// The text of a report without its records.
function frameText(bytes) {
  let text = '', from = 0
  for (const it of [...membersIn(bytes)].filter(isOfRecords)) {
    text += textBetween(bytes, from, it.from) + '[]'
    from = it.to
  }
  return text + textBetween(bytes, from)
}

// ---- a definition that is made

// The report that a text is without its records. JavaScript puts members whose names are numbers before others.
function frameOf(path, bytes) {
  const text = frameText(bytes)
  if (/"\d+"\s*:/.test(text)) throw new Unfit(path, NUMBERED)
  return valueOf(text)
}

// What cvr finds wrong with a file alone, or null.
function faultIn(module, source, bytes) {
  const words = ['check', '--', source.path], held = new cvr.Files(module, [source], [words])
  held.put(bytes)
  const answer = held.run(words)
  held.end()
  if (answer.status > 1) throw failure(answer)
  return answer.status ? judged([source.path], '', answer.log)[0].fault : null
}

// Adds what a report says of its election; stops where that differs from the ones before.
function takeFrame(union, path, frame) {
  try {
    union.take(path, frame)
  } catch (fault) {
    throw fault instanceof Unfit ? new Unfit(null, APART + fault.message) : fault
  }
}

// The definition that reports give; null where cvr refuses each of them. Of each file what is wrong with it, and its sum.
async function madeOf(files, compiled, tell) {
  const module = new cvr.Module(compiled), union = new Union(), said = new Reports(), states = [], sums = []
  for await (const [it, {value, reason}] of settledOf(groupsOf(files, false), bytesAndSum)) {
    tell(it.path, `Reading ${sums.length + 1} of ${files.length} for a definition: ${it.path}`)
    if (reason) throw reason
    const fault = faultIn(module, it, value.bytes), frame = fault ? null : frameOf(it.path, value.bytes)
    states.push(fault ? {fault, why: whyOf(it.path, fault, value.bytes)} : {})
    sums.push(value.sum)
    if (frame) said.take(it.path, frame)
    if (frame) takeFrame(union, it.path, frame)
  }
  if (said.mixed()) throw new Unfit(null, said.mixed())
  return {states, sums, made: union.election ? new Blob([textOfReport({...union.report(), ...said.members()})]) : null}
}

// The definition of files: the one that is named, or the only file, or the only one without a record; or else one that is made.
async function definitionOf(files, named, compiled, tell) {
  const asked = named === null ? files : files.filter(it => it.path === named), contents = new Map()
  tell(null, 'Reading the files for a definition')
  for await (const [it, {value, reason}] of settledOf(groupsOf(asked), contentIn)) {
    tell(it.path, null)
    if (reason) throw reason
    contents.set(it.path, value)
  }
  const without = asked.filter(it => contents.get(it.path) === HAS_NONE), its = asked.length === 1 ? asked[0] : without.length === 1 ? without[0] : null
  if (its) return {path: its.path, has_records: contents.get(its.path) === HAS_RECORDS}
  return {path: null, without: without.length, ...await madeOf(files, compiled, tell)}
}
