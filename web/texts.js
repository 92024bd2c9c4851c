'use strict'
// What cvr prints and logs, as values; and the definition's names. Numbers are BigInt: a sum may be longer than 53 bits.

const COLUMNS = ['Ballots', 'Overvotes', 'Undervotes', 'Write-ins', 'Pending', 'Unassigned']
const RANKED = ['borda', 'range', 'rcv'], ABSENT = '-'
const ONE = ['CVR.BallotMeasureContest', 'CVR.RetentionContest']        // of one vote, where nothing states how many
const SEVERAL = ['cumulative', ...RANKED]       // in which one selection may have several votes of a ballot
const FAULT = /^(?:E[126]|E3 .* \d+|E[45] .*|K[12]|memory)$/

function linesOf(text) {
  return text.split('\n').slice(0, -1)
}

// All that has a key together, by that key, in the order in which the keys first stand.
function grouped(values, key) {
  const held = new Map()
  for (const it of values) held.has(key(it)) ? held.get(key(it)).push(it) : held.set(key(it), [it])
  return held
}

// The rows of `cvr tally`: contest, unit, batch, then the numbers of the columns and of the selections.
function rowsOf(text) {
  return linesOf(text).map(cvr.parts).map(([contest, unit, batch, ...rest]) => {
    const votes = rest.slice(COLUMNS.length)
    return {contest, unit, batch, selections: votes.filter((_, at) => at % 2 === 0),
      numbers: [...rest.slice(0, COLUMNS.length), ...votes.filter((_, at) => at % 2 === 1)]}
  })
}

// What `cvr conflicts` prints: each name, its kind first, and how many texts it has. The last line has the number of volumes.
function conflictsIn(text) {
  return linesOf(text).slice(0, -1).map(line => {
    const parts = cvr.parts(line), count = Number(parts.pop())
    return {name: line.startsWith('device ') ? parts : [parts[2], parts[0], parts[1], ...parts.slice(3)], count}
  })
}

// The sums of the numbers of rows, by what a row has at a member; the keys in the order in which they first stand.
function sumsBy(rows, member) {
  const sums = new Map()
  for (const row of rows) {
    const held = sums.get(row[member])
    sums.set(row[member], held ? held.map((it, at) => it + row.numbers[at]) : row.numbers)
  }
  return sums
}

// Of each path in its order what `cvr check` prints, or logs: the number of its records, or its fault.
function judged(paths, text, log) {
  let printed = 0, logged = 0
  return paths.map(path => {
    const records = text.startsWith(path + ' ', printed) && /^\d+(?=\n)/.exec(text.slice(printed + path.length + 1))
    if (records) {
      printed += path.length + records[0].length + 2
      return {records: BigInt(records[0])}
    }
    const fault = log.startsWith(path + ': ', logged) ? log.slice(logged + path.length + 2, log.indexOf('\n', logged + path.length)) : ''
    if (!FAULT.test(fault)) return {}
    logged += path.length + fault.length + 3
    return {fault}
  })
}

// A text as it is shown: of a long one the beginning.
const SHORT = 500, shortOf = it => it.length > SHORT ? it.slice(0, SHORT) + '…' : it

// The code of a fault, its place, and its rule, as far as it has them.
function partsOfFault(fault) {
  const [code, ...rest] = fault.split(' '), rule = code === 'E3' ? rest.pop() : null
  return {code, rule, place: rest.join(' ')}
}

// What the fault of a file means, and what to do, in the sentences of cvr-audit.
function inWords(fault, faults) {
  const {code, rule, place} = partsOfFault(fault), [what, todo] = faults.codes[code]
  const said = [rule && faults.rules[rule], shortOf(place) || (rule && faults.whole)].filter(it => it).join(', at ')
  return {code, meaning: (said ? `${what}: ${said}` : what) + '.', todo}
}

// Whether the votes of a contest are ranks or scores.
const isRanked = (its, greatest) => RANKED.includes(its?.VoteVariation) || greatest?.get(its?.['@id']) > 1

// The words of a command, as a shell takes them.
function commandOf(words) {
  return words.map(it => /^[\w@%+=:,./-]+$/.test(it) ? it : `'${it.replace(/'/g, `'"'"'`)}'`).join(' ')
}

// ---- JSON

const QUOTE = 0x22, COMMA = 0x2c, COLON = 0x3a, ARRAY = 0x5b, BACKSLASH = 0x5c, ARRAY_END = 0x5d, OBJECT = 0x7b, OBJECT_END = 0x7d     // as bytes

const LONG = /[:,[]\s*-?\d{16}/      // where a number may be too long for JavaScript; perhaps in a text

// A value of a file that cvr accepts. Numbers are whole there, and one that JavaScript would round is a BigInt.
function valueOf(text) {
  const exact = (_, it, {source}) => typeof it === 'number' && !Number.isSafeInteger(it) ? BigInt(source) : it
  return JSON.parse(text, LONG.test(text) ? exact : null)
}

const isNumber = it => typeof it === 'number' || typeof it === 'bigint'

// How many votes a ballot has in a contest, where the definition says so.
function allowedOf(contest) {
  const most = 'VotesAllowed' in contest ? contest.VotesAllowed : ONE.includes(contest['@type']) ? 1 : null
  return isNumber(most) && most > 0 ? BigInt(most) : undefined
}
const spelled = it => typeof it === 'bigint' ? `${it}` : JSON.stringify(it)
const isObject = it => it !== null && typeof it === 'object' && !Array.isArray(it)
const pointed = step => '/' + String(step).replace(/~/g, '~0').replace(/\//g, '~1')       // a step of a JSON Pointer

// A value as its compact text, the members in the order of their names.
function compact(it) {
  if (Array.isArray(it)) return `[${it.map(compact).join(',')}]`
  return isObject(it) ? `{${Object.keys(it).sort(byText).map(name => `${spelled(name)}:${compact(it[name])}`).join(',')}}` : spelled(it)
}

// ---- what reports say of themselves

// By its OtherReportType whether a report is of a test, or lacks ballots.
const saidIn = report => (typeof report.OtherReportType === 'string' ? report.OtherReportType : '').toLowerCase().match(/[a-z]+/g) ?? []

// Reports by path: all, those of a test, and those that lack ballots. RULES has the sentences.
class Reports {
  constructor() {
    this.all = new Set()
    this.tests = new Set()
    this.parts = new Set()
  }

  take(path, report) {
    const words = saidIn(report)
    this.all.add(path)
    if (words.some(it => RULES.TESTS.some(one => it.startsWith(one)))) this.tests.add(path)
    if (words.includes(RULES.INCOMPLETE)) this.parts.add(path)
  }

  // What is wrong where some are of a test and others aren't, or null.
  mixed() {
    const others = [...this.all].filter(it => !this.tests.has(it))
    return this.tests.size && others.length ? filled(RULES.MIXED, [...this.tests][0], others[0], this.tests.size, others.length) : null
  }

  lines() {
    return [[RULES.OF_A_TEST, this.tests], [RULES.NOT_WHOLE, this.parts]].filter(([, some]) => some.size).map(([said, some]) => filled(said, some.size, this.all.size))
  }

  members() {
    const words = [...this.tests.size ? [RULES.TESTS[0]] : [], ...this.parts.size ? [RULES.INCOMPLETE] : []]
    return words.length ? {ReportType: ['other'], OtherReportType: words.join(',')} : {}
  }
}

// ---- the definition's names

const textIn = (value, member) => typeof value[member] === 'string' && value[member] ? value[member] : null
const textsIn = (value, member) => Array.isArray(value[member]) ? value[member].filter(it => typeof it === 'string') : []
const byId = values => new Map((values ?? []).map(it => [it['@id'], it]))

class Names {
  constructor(report) {
    this.its = report.Election[0]
    this.election = textIn(this.its, 'Name') ?? this.its['@id']
    this.units = byId(report.GpUnit)
    this.parties = byId(report.Party)
    this.candidates = byId(this.its.Candidate)
    this.contests = byId(this.its.Contest)
  }

  named(all, key) {
    return all.has(key) ? textIn(all.get(key), 'Name') : null
  }

  parties_of(keys) {
    return [...new Set(keys)].map(it => this.named(this.parties, it) ?? it)
  }

  // The name of a selection, and the names of its parties.
  selection(its) {
    const held = textsIn(its, 'CandidateIds').filter(it => this.candidates.has(it))
    const parties = held.map(it => this.candidates.get(it).PartyId).filter(it => it)
    const names = its['@type'] === 'CVR.PartySelection' ? this.parties_of(textsIn(its, 'PartyIds')) : held.map(it => this.named(this.candidates, it) ?? it)
    const name = textIn(its, 'Selection') ?? (names.join(' / ') || textIn(its, 'Name'))
    const title = its.IsWriteIn === true ? (name ? 'Write-in: ' + name : 'Write-in') : name
    return {name: title || null, more: this.parties_of([...parties, ...textsIn(its, 'EndorsementPartyIds')]).join(', ')}
  }
}
