'use strict'
// Makes an export of VxSuite into files for cvr, by the rules of cvr-audit gather and of the same bytes. RULES has its names,
// limits and sentences (companion/cvr_audit/gather_said.py).

const NUMBER = 'a number here has a point, an exponent or more than 15 digits; gather the export with cvr-audit'
const own = (it, name) => Object.hasOwn(it, name) ? it[name] : undefined

// ---- JSON

// The places where two values differ, each with the texts of both there.
function* differences(one, other, place) {
  const isPair = isObject(one) && isObject(other), both = isPair || Array.isArray(one) && Array.isArray(other)
  const texts = both ? [] : [one, other].map(it => it === undefined ? '-' : compact(it))
  if (texts[0] !== texts[1]) yield [place, ...texts]
  const steps = isPair ? [...new Set([...Object.keys(one), ...Object.keys(other)])].sort(byText) : both ? [...(one.length > other.length ? one : other).keys()] : []
  for (const it of steps) yield* differences(own(one, it), own(other, it), place + pointed(it))
}

// The first line that isn't UTF-8.
function lineOf(bytes) {
  for (let line = 1, from = 0; ; line++) {
    const end = bytes.indexOf(10, from)
    try {
      new TextDecoder('utf-8', {fatal: true}).decode(bytes.subarray(from, end < 0 ? bytes.length : end))
    } catch (fault) {
      return line
    }
    if (end < 0) return line
    from = end + 1
  }
}

// The text of a source. It has no half of a pair of surrogates, which would be no sign.
async function textOf(source, piece) {
  const bytes = await bytesOf(source, source.size, piece)
  let text
  try {
    text = new TextDecoder('utf-8', {fatal: true}).decode(bytes)
  } catch (fault) {
    throw new Unfit(source.path, RULES.NO_TEXT, `line ${lineOf(bytes)}`)
  }
  for (const it of text.matchAll(new RegExp(RULES.ESCAPED, 'g')))
    if (it[1]) throw new Unfit(source.path, filled(RULES.HALF, it[0]), `line ${text.slice(0, it.index).split('\n').length}`)
  return text
}

function parsed(path, text) {
  try {
    return JSON.parse(text)
  } catch (fault) {
    throw new Unfit(path, filled(RULES.NO_JSON, fault.message))
  }
}

// Stops at a member that stands twice in an object, and at a number that JavaScript would write otherwise.
function seeMembers(path, text) {
  const held = []         // of each open object the names of its members
  for (const [token, colon] of text.matchAll(/"(?:[^"\\]|\\.)*"(\s*:)?|[{}]|-?\d[^\s,\]}]*/g)) {
    if (token === '{') held.push(new Set())
    else if (token === '}') held.pop()
    else if (colon) {
      const name = JSON.parse(token.slice(0, -colon.length))
      if (held.at(-1).has(name)) throw new Unfit(path, filled(RULES.TWICE, spelled(name)))
      held.at(-1).add(name)
    } else if (token[0] !== '"' && !/^-?\d{1,15}$/.test(token)) throw new Unfit(path, NUMBER)
  }
}

// ---- the election

// What the reports that were taken say of their election.
class Union {
  constructor() {
    this.election = null
    this.dates = []
    this.makers = new Set()
    this.held = new Map(RULES.KINDS.map(kind => [kind, new Map()]))       // by id: the object, and the path of its report
  }

  take(path, report) {
    this.election ??= {value: report.Election, path}
    this.seeSame('/Election', path, report.Election, this.election)
    this.dates.push(report.GeneratedDate)
    for (const it of report.ReportGeneratingDeviceIds) this.makers.add(it)
    for (const [kind, held] of this.held) for (const [at, one] of (report[kind] ?? []).entries()) {
      const first = held.get(one['@id'])
      if (first && kind !== 'ReportingDevice') this.seeSame(`/${kind}/${at}`, path, one, first)
      if (!first || byText(compact(one), compact(first.value)) > 0) held.set(one['@id'], {value: one, path})
    }
  }

  seeSame(place, path, value, first) {
    for (const [where, old, found] of differences(first.value, value, place)) throw new Unfit(where, `${first.path} ${old}, ${path} ${found}`)
  }

  // The definition: objects in the order of their ids.
  report() {
    const made = {'@type': 'CVR.CastVoteRecordReport', Version: '1.0.0', Notes: RULES.NOTES, GeneratedDate: this.dates.sort(byText)[0],
      ReportGeneratingDeviceIds: [...this.makers].sort(byText)}
    for (const [kind, held] of this.held) if (held.size || kind !== 'Party') made[kind] = [...held.keys()].sort(byText).map(it => held.get(it).value)
    return {...made, Election: this.election.value, CVR: []}
  }
}

const textOfReport = report => JSON.stringify(report, (_, it) => typeof it === 'bigint' ? JSON.rawJSON(`${it}`) : it, 1) + '\n'

// Stops where cvr doesn't accept a report without its records.
async function seeFrame(compiled, path, frame) {
  const text = new Blob([textOfReport(frame)]), words = ['check', '--', 'definition.json']
  const held = new cvr.Files(new cvr.Module(compiled), [{path: 'definition.json', size: text.size}], [words])
  held.put(new Uint8Array(await text.arrayBuffer()))
  const answer = held.run(words)
  if (answer.status === 1) throw new Unfit(path, filled(RULES.REFUSED, answer.log.trim().split(': ').at(-1).replace(' /', ` /${RULES.FRAME}/`)))
  if (answer.status) throw failure(answer)
}

// What an export says of itself; JSON that is whole, and no member of it twice.
async function metadataIn(source) {
  const text = await textOf(source), held = parsed(source.path, text)
  seeMembers(source.path, text)
  return held
}

async function frameIn(source, held, compiled, notes, reports) {
  const frame = isObject(held) ? own(held, RULES.FRAME) : null
  if (!isObject(frame)) throw new Unfit(source.path, RULES.NO_FRAME)
  if (!['null', '[]', '{}', '0', '""', 'false'].includes(compact(own(frame, 'CVR') ?? null))) throw new Unfit(source.path, RULES.OWN_RECORDS)
  for (const name of Object.keys(held).sort(byText))
    if (name !== RULES.FRAME && !RULES.LEFT.includes(name)) notes.push(filled(RULES.LEFT_OUT, source.path, spelled(name)))
  const its = {...frame, CVR: []}
  await seeFrame(compiled, source.path, its)
  reports.take(source.path, its)
  if (its.OtherReportType && ![reports.tests, reports.parts].some(it => it.has(source.path))) notes.push(filled(RULES.OTHER_TYPE, source.path, spelled(its.OtherReportType)))
  if (folderOf(source.path).split('/').some(it => it.toUpperCase().startsWith(RULES.TEST_FOLDER)) && !reports.tests.has(source.path)) throw new Unfit(source.path, filled(RULES.MISNAMED, RULES.TEST_FOLDER))
  return its
}

// ---- what has to be there

const lacks = (path, said, place) => { throw new Unfit(path, said + RULES.GO_ON, place) }

// Stops where ballots may follow. A central scanner says nothing of polls.
function seeClosed(path, held) {
  const isClosed = own(held, RULES.CLOSED) ?? (Object.hasOwn(held, RULES.CLOSED) ? null : true)
  if (typeof isClosed !== 'boolean') throw new Unfit(path, RULES.NO_TRUTH)
  if (!isClosed) lacks(path, RULES.STILL_OPEN)
}

// The number of sheets that an export states of each batch.
function batchesIn(path, held) {
  if (!Object.hasOwn(held, RULES.BATCHES)) lacks(path, RULES.NO_BATCHES)
  const stated = new Map(), batches = Array.isArray(held[RULES.BATCHES]) ? held[RULES.BATCHES] : [null]
  for (const [at, it] of batches.entries()) {
    const name = isObject(it) ? own(it, 'id') : null
    if (typeof name !== 'string' || stated.has(name) || typeof own(it, 'sheetCount') !== 'number') throw new Unfit(path, RULES.NO_BATCH, `/${RULES.BATCHES}/${at}`)
    stated.set(name, it.sheetCount)
  }
  return stated
}

// Stops at the first batch of which another number of ballots is stated than came.
function seeBatches(path, stated, came) {
  const stop = (said, name, ...numbers) => lacks(path, filled(said, spelled(name), ...numbers), `/${RULES.BATCHES}`)
  for (const [name, number] of stated) if (number !== (came.get(name) ?? 0)) stop(RULES.OTHER_COUNT, name, number, came.get(name) ?? 0)
  for (const [name, number] of came) if (!stated.has(name)) stop(RULES.UNLISTED, name, number)
}

// ---- the records

const isRejected = folder => baseOf(folder).startsWith(RULES.REJECTED)

// Stops at a ballot without a report: part of the export is missing.
function seeBallots(exports, sources, held) {
  for (const it of sources) {
    const its = folderOf(it.path)
    if (!exports.has(its) && exports.has(folderOf(its)) && !held.has(its) && !isRejected(its)) throw new Unfit(its, RULES.NO_REPORT)
  }
}

const ONE_MEMBER = /^[ \t\r\n]*\{[ \t\r\n]*("(?:[^"\\]|\\.)*")[ \t\r\n]*:[ \t\r\n]*\[([^]*)\][ \t\r\n]*\}[ \t\r\n]*$/

// The only record of a report, and its text; null where that isn't all that the report has.
function onlyRecord(text) {
  const [, name, its] = ONE_MEMBER.exec(text) ?? []
  try {
    return its && JSON.parse(name) === 'CVR' ? {record: JSON.parse(its), text: its.trim()} : null
  } catch (fault) {       // more than one record, or more than one member, or no JSON
    return null
  }
}

// The only record of a report: the bytes of its own text.
async function recordIn(source, piece) {
  const text = await textOf(source, piece), its = onlyRecord(text), stop = (said, place) => { throw new Unfit(source.path, said, place) }
  if (!its) {
    parsed(source.path, text)
    stop(RULES.NO_ONE_RECORD)
  }
  const {record} = its, batch = own(record, 'BatchId')
  for (const name of ['CreatingDeviceId', 'UniqueId']) {
    if (!isObject(record) || !Object.hasOwn(record, name)) stop(filled(RULES.UNNAMED, name), '/CVR/0')
    if (typeof record[name] !== 'string') stop(filled(RULES.NO_NAME, name), '/CVR/0')
  }
  return {bytes: new TextEncoder().encode(its.text), name: nameOf(record).map(spelled).join(' '), batch: typeof batch === 'string' ? batch : null}
}

// The records in files, each behind those before it.
class Records {
  constructor() {
    this.files = []         // of each the texts of its records, and the paths of their sources
    this.names = new Map()
    this.room = 0
  }

  add(path, {bytes, name}) {
    const count = bytes.length + 2
    if (this.names.has(name)) throw new Unfit(path, filled(RULES.ELSEWHERE, name, this.names.get(name), '/CVR/0'), '/CVR/0')
    this.names.set(name, path)
    if (count > this.room) {
      this.room = RULES.MOST - RULES.ROOM - RULES.BEGINNING.length
      if (count > this.room) throw new Unfit(path, RULES.LONG_RECORD, '/CVR/0')
      this.files.push({parts: [RULES.BEGINNING, bytes], paths: [path]})
    } else {
      this.files.at(-1).parts.push(',\n', bytes)
      this.files.at(-1).paths.push(path)
    }
    this.room -= count
  }

  ended(report, name) {
    const {'@type': _, CVR: __, ...rest} = report, tail = new TextEncoder().encode('\n],' + compact(rest).slice(1))
    if (tail.length > RULES.ROOM) throw new Unfit(name, filled(RULES.LONG_ELECTION, RULES.ROOM))
    return this.files.map(it => new Blob([...it.parts, tail]))
  }
}

// ---- the export

const isRead = path => baseOf(path) === RULES.METADATA || baseOf(path) === RULES.REPORT && !isRejected(folderOf(path))
const isLeft = ({path}) => !isRead(path) && !(RULES.IMAGES.some(it => path.endsWith(it)) && !isRejected(folderOf(path)))

// What each report has, or why it is refused, by its path.
async function recordsIn(reports, tell) {
  const held = new Map()
  for await (const [{path}, it] of settledOf(groupsOf(reports), recordIn)) {
    if (held.size % TOGETHER === 0) tell(path, `Reading ballot ${held.size + 1} of ${reports.length}`)
    held.set(path, it)
  }
  return held
}

// The definition and the files of records that an export gives; how many records it has, counted by folders; what is left out;
// and of each file of records the sources of these.
async function gathered(sources, compiled, tell) {
  const all = sources.sort((a, b) => byText(a.path, b.path)), root = all[0].path.split('/')[0], notes = [], union = new Union(), out = new Records()
  const of = name => all.filter(it => baseOf(it.path) === name), reports = of(RULES.REPORT).filter(it => isRead(it.path)), held = new Set(reports.map(it => folderOf(it.path)))
  const saids = new Map(), came = new Map(of(RULES.METADATA).map(it => [folderOf(it.path), new Map()])), said = new Reports()
  for (const it of of(RULES.METADATA)) {
    tell(it.path, 'Reading ' + it.path)
    saids.set(it.path, await metadataIn(it))
  }
  for (const it of of(RULES.METADATA)) union.take(it.path, await frameIn(it, saids.get(it.path), compiled, notes, said))
  seeBallots(came, all, held)
  const records = await recordsIn(reports, tell)
  for (const {path} of reports) {
    tell(path, null)
    const batches = came.get(folderOf(folderOf(path))), {reason, value} = records.get(path)
    if (!batches) throw new Unfit(path, RULES.NO_METADATA)
    if (reason) throw reason
    out.add(path, value)
    batches.set(value.batch, (batches.get(value.batch) ?? 0) + 1)
  }
  for (const [path, it] of saids) {
    seeClosed(path, it)
    seeBatches(path, batchesIn(path, it), came.get(folderOf(path)))
  }
  if (said.mixed()) throw new Unfit(null, said.mixed())
  const report = {...union.report(), ...said.members()}
  if (!reports.length) throw new Unfit(root, filled(RULES.NO_RECORD, 'vxsuite'))
  if (!report.Election[0].Contest.length) throw new Unfit(root, RULES.NO_CONTEST)
  const blobs = [new Blob([textOfReport(report)]), ...out.ended(report, root)]
  const files = blobs.map((it, at) => ({path: at ? `gathered/records-${at}.json` : 'gathered/definition.json', file: it, size: it.size}))
  return {files, count: held.size, left: all.filter(isLeft).map(it => it.path), notes, places: out.files.map(it => it.paths)}
}
