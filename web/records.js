'use strict'
// What the records say, once cvr has read them; in the worker, since these may be many: warnings, by the rules of cvr-audit,
// each its kind and its parts as cvr-audit prints them; and all texts of what is in conflict.

const NEEDS = 'needs-adjudication', STATED = ['Overvotes', 'Undervotes']
const nameOf = it => [it.CreatingDeviceId, it.UniqueId]

// What stands several times, by its key: each key with all that has it.
function several(values, key) {
  return [...grouped(values, key)].filter(([, its]) => its.length > 1).sort(([a], [b]) => byText(a, b))
}

// ---- volume 1 of `cvr merge`

const HEAD = '{"@type":"CVR.CastVoteRecordReport","CVR":['       // where it has records

// Its records, one after the other; `rest` is the report without them, once they are read.
class Volume {
  constructor(bytes) {
    this.bytes = bytes
    this.rest = null
  }

  text(from, to) {
    return new TextDecoder().decode(this.bytes.subarray(from, to))
  }

  *records() {
    const has_records = this.text(0, HEAD.length) === HEAD
    let at = has_records ? HEAD.length : 0
    while (this.bytes[at] !== (has_records ? 0x5d : 0x7b)) {        // ] behind the last one
      const end = this.behind(at)
      yield valueOf(this.text(at, end))
      at = end + (this.bytes[end] === 0x2c)
    }
    this.rest = valueOf((has_records ? '{"CVR":[' : '') + this.text(at))
  }

  // The place behind the object that begins at a place.
  behind(at) {
    for (let depth = 0, is_quoted = false; at < this.bytes.length; at++) {
      const sign = this.bytes[at]
      if (is_quoted) {
        if (sign === 0x5c) at++
        else is_quoted = sign !== 0x22
      } else if (sign === 0x22) is_quoted = true
      else if (sign === 0x7b) depth++
      else if (sign === 0x7d && !--depth) return at + 1
    }
    throw new Error('volume 1 ends in a record')
  }
}

// ---- the records that count

const DAYS = 146097n        // of 400 years, after which the calendar is the same

// The nanoseconds of a moment, counted from a day that is the same for all; RULES has its form.
function instant(text) {
  const [, sign, years, month, day, hours, minutes, rest, part, side, ...offset] = new RegExp(`^(?:${RULES.MOMENT})$`).exec(text)
  const seconds = (hours, minutes, rest) => BigInt(3600 * (hours ?? 0) + 60 * (minutes ?? 0) + Math.min(rest ?? 0, 59))     // the 60th counts as the 59th
  const year = sign === '-00' ? -years : +years, days = BigInt(Date.UTC(400 + (year % 400 + 400) % 400, month - 1, day) / 86400000) + BigInt(Math.floor(year / 400)) * DAYS
  const shift = seconds(...offset)
  return (86400n * days + seconds(hours, minutes, rest) - (side === '-' ? -shift : shift)) * 10n ** 9n + BigInt((part ?? '').padEnd(9, '0'))
}

const isUnknown = it => it.HasIndication === 'unknown' && (it.IsAllocable ?? 'unknown') === 'unknown'
const waits = it => (it.Status ?? []).includes(NEEDS) || it.SelectionPosition.some(isUnknown)

// The contests in which a snapshot waits for a person; null where it doesn't wait.
function waitingIn(snapshot) {
  const held = (snapshot.CVRContest ?? []).filter(it => (it.CVRContestSelection ?? []).some(waits)).map(it => it.ContestId)
  return held.length || (snapshot.Status ?? []).includes(NEEDS) ? held : null
}

// The contests of a snapshot, each with the Ranks of its positions.
function ranksIn(snapshot) {
  return (snapshot.CVRContest ?? []).map(it => [it.ContestId, (it.CVRContestSelection ?? []).flatMap(chosen =>
    chosen.SelectionPosition.map(one => one.Rank ?? chosen.Rank).filter(rank => rank !== undefined))])
}

// ---- what a contest of a snapshot adds to the tally

const counts = it => (it.IsAllocable ?? it.HasIndication) === 'yes', isPending = it => it.HasIndication === 'yes' && it.IsAllocable === 'unknown'
const sumOf = values => values.reduce((a, b) => a + b, 0n)

// Each position of a contest: its selection, or null; its Rank, or null; its votes where they count, and where they are pending.
function positionsOf(contest) {
  return (contest.CVRContestSelection ?? []).flatMap(it => it.SelectionPosition.map(one => {
    const votes = BigInt(one.NumberVotes)
    return {selection: it.ContestSelectionId ?? null, rank: one.Rank ?? it.Rank ?? null, votes: counts(one) ? votes : 0n, pending: isPending(one) ? votes : 0n}
  }))
}

// The votes of a contest by selection; null stands for none.
function votesOf(contest) {
  const held = new Map()
  for (const {selection, votes} of positionsOf(contest)) held.set(selection, (held.get(selection) ?? 0n) + votes)
  return held
}

// What a contest adds to the columns, and to the votes of each selection.
function addedBy(contest) {
  const votes = votesOf(contest), columns = {overvotes: contest.Overvotes ?? 0, undervotes: contest.Undervotes ?? 0, 'write-ins': contest.WriteIns ?? 0,
    pending: sumOf(positionsOf(contest).map(one => one.pending)), unassigned: votes.get(null) ?? 0n}
  votes.delete(null)
  return {columns, votes}
}

// Of a snapshot what each contest adds, without what is 0; ABSENT for one that it doesn't have.
function readingsOf(snapshot, contests) {
  const held = new Map((snapshot.CVRContest ?? []).map(it => [it.ContestId, it]))
  return [...contests.keys()].map(key => {
    const it = held.get(key)
    if (!it) return ABSENT
    const {columns, votes} = addedBy(it)
    return compact(Object.fromEntries([...Object.entries(columns), ...votes].filter(([, number]) => BigInt(number))))
  })
}

// Where the names of records stand in the parts of a line, behind its kind.
const RECORDS = {exceeds: 2, doubled: 3, waiting: 1, record: 1, ballot: 2}

// Whether a person or a moment stands with a snapshot. A machine's own one has neither, whatever its Type.
const isAdjudication = it => (it.Annotation ?? []).some(one => one.AdjudicatorName?.length || one.TimeStamp !== undefined)

const oneMore = (counts, key) => counts.set(key, (counts.get(key) ?? 0) + 1)

// The records that count: by unit, device, batch and BallotSheetId; by the Type of their current snapshots; and how many of
// these are adjudications.
class Ballots {
  constructor() {
    this.sizes = new Map()
    this.types = new Map()
    this.adjudicated = 0
  }

  take(record, current) {
    const group = spelled([record.BallotStyleUnitId ?? null, record.CreatingDeviceId, record.BatchId ?? null])
    if (!this.sizes.has(group)) this.sizes.set(group, new Map())
    oneMore(this.sizes.get(group), record.BallotSheetId ?? null)
    oneMore(this.types, current.Type)
    this.adjudicated += isAdjudication(current)
  }
}

// What the ballots with a contest add up to on each device: the numbers of a row of the tally. Also how many of them have
// overvotes or undervotes, and how many count by an adjudication.
class Marked {
  constructor(contest) {
    this.selections = (contest.ContestSelection ?? []).map(it => it['@id'])
    this.devices = new Map()
    this.having = new Map(STATED.map(it => [it, 0]))
    this.adjudicated = 0
  }

  take(device, contest, {columns, votes}, is_adjudicated) {
    const added = [1, ...Object.values(columns), ...this.selections.map(it => votes.get(it) ?? 0)], held = this.devices.get(device) ?? added.map(() => 0n)
    this.devices.set(device, held.map((it, at) => it + BigInt(added[at])))
    for (const it of STATED) if (contest[it] > 0) oneMore(this.having, it)
    this.adjudicated += is_adjudicated
  }
}

// Of a current snapshot: its id; the latest moment that stands with it; whether one does, and nobody's name, or neither; which
// files have the record, and which of them have the snapshot.
function originOf(current) {
  const notes = current.Annotation ?? [], moments = notes.filter(it => it.TimeStamp !== undefined).map(it => instant(it.TimeStamp))
  const has_name = notes.some(it => (it.AdjudicatorName ?? []).some(name => name))
  return {id: current['@id'], moment: moments.reduce((a, b) => a === null || b > a ? b : a, null), is_unnamed: moments.length > 0 && !has_name,
    is_unsigned: !moments.length && !has_name, files: [], having: []}
}

// What volume 1 says of the records, and then each file: their number, warnings of them, the greatest Rank of each contest and
// its votes by Rank, which contests have which number stated, and what the ballots add up to.
class Seen {
  constructor(conflicts, contests) {
    this.conflicts = conflicts
    this.contests = contests
    this.records = new Map()
    this.made = new Map()       // of each file its moment
    this.stated = new Set()
    this.greatest = new Map()
    this.ranks = new Map()
    this.excess = new Map([...contests.keys()].map(it => [it, []]))
    this.undone = []
    this.waiting = []
    this.empty = []
    this.audited = []       // each BallotAuditId with the name of its record
    this.ballots = new Ballots()
    this.marked = new Map([...contests].map(([key, it]) => [key, new Marked(it)]))
  }

  take(record) {
    const current = record.CVRSnapshot.find(it => it['@id'] === record.CurrentSnapshotId), name = nameOf(record), contests = waitingIn(current)
    this.records.set(spelled(name), originOf(current))
    if (contests) this.waiting.push(['waiting', ...[...name, ...contests].map(spelled)])
    if (!current.CVRContest?.length) this.empty.push(['record', ...name.map(spelled)])
    if (record.BallotAuditId !== undefined) this.audited.push([record.BallotAuditId, name])
    for (const [contest, ranks] of ranksIn(current)) for (const it of ranks) if (!(it <= this.greatest.get(contest))) this.greatest.set(contest, it)
    for (const it of record.CVRSnapshot) this.takeStated(it)
    this.ballots.take(record, current)
    for (const it of current.CVRContest ?? []) {
      const added = addedBy(it)
      this.marked.get(it.ContestId).take(record.CreatingDeviceId, it, added, isAdjudication(current))
      this.takeVotes(it, added, name.map(spelled))
    }
    this.conflicts.shows({CVR: [record]})
  }

  // Notes the votes of a contest: by rank, and as lines where no ballot has so many, in all or for one selection.
  takeVotes(contest, {columns, votes}, name) {
    const key = contest.ContestId, its = this.contests.get(key), counted = sumOf([...votes.values(), columns.unassigned]), by_rank = this.ranks.get(key) ?? new Map()
    const most = allowedOf(its)
    if (counted > most) this.excess.get(key).push(['exceeds', spelled(key), ...name, counted, most])
    for (const it of SEVERAL.includes(its.VoteVariation) ? [] : its.ContestSelection ?? [])
      if (it.IsWriteIn !== true && votes.get(it['@id']) > 1n) this.excess.get(key).push(['doubled', spelled(key), spelled(it['@id']), ...name, votes.get(it['@id'])])
    for (const {selection, rank, votes} of positionsOf(contest)) {
      const held = by_rank.get(rank) ?? new Map()
      if (votes) by_rank.set(rank, held.set(selection, (held.get(selection) ?? 0n) + votes))
    }
    this.ranks.set(key, by_rank)
  }

  // Notes a record of a file that names another of its snapshots as the current one than the one that counts.
  takeUndone(path, record, id) {
    const held = new Map(record.CVRSnapshot.map(it => [it['@id'], it])), named = record.CurrentSnapshotId
    if (named === id || !held.has(id)) return
    const [a, b] = [named, id].map(it => readingsOf(held.get(it), this.contests))
    const differ = [...this.contests.keys()].flatMap((key, at) => a[at] === b[at] ? [] : [spelled(key), a[at], b[at]])
    this.undone.push(['undone', ...[path, ...nameOf(record), named, id].map(spelled), ...differ])
  }

  takeStated(snapshot) {
    for (const it of snapshot.CVRContest ?? []) for (const name of STATED) if (it[name] !== undefined) this.stated.add(spelled([it.ContestId, name]))
  }

  // Whether a record of a file has the snapshot that counts: of one without a conflict all texts are the same.
  stands(record, {id}) {
    const taken = this.conflicts.firstOf(['snapshot', ...nameOf(record), id])
    return record.CVRSnapshot.some(it => it['@id'] === id && (taken === null || compact(it) === taken))
  }

  takeFile(path, report) {
    const files = new Set(), having = new Set()
    for (const it of report.CVR ?? []) {
      const held = this.records.get(spelled(nameOf(it)))
      files.add(held)
      this.takeUndone(path, it, held.id)
      if (this.stands(it, held)) having.add(held)
    }
    for (const it of files) it.files.push(path)
    for (const it of having) it.having.push(path)
    this.made.set(path, instant(report.GeneratedDate))
  }

  // What is said of the files that have the snapshot that counts: each kind and file with the number of records.
  decided() {
    const counts = {decides: new Map(), unsigned: new Map(), nobody: new Map(), later: new Map()}
    for (const {files, having, is_unnamed, is_unsigned, moment} of this.records.values()) {
      const decides = files.length > having.length, kinds = {decides, unsigned: decides && is_unsigned, nobody: is_unnamed, later: moment !== null && having.every(it => moment > this.made.get(it))}
      for (const path of having) for (const kind in kinds) if (kinds[kind]) counts[kind].set(path, (counts[kind].get(path) ?? 0) + 1)
    }
    return Object.entries(counts).flatMap(([kind, its]) => [...this.made.keys()].filter(it => its.has(it)).map(it => [kind, spelled(it), its.get(it)]))
  }

  ended() {
    const twice = several(this.audited, it => it[0]).map(([ballot, its]) => ['ballot', spelled(ballot), ...its.flatMap(it => it[1]).map(spelled)])
    for (const it of this.conflicts.ended()) if (it.name[0] === 'snapshot') for (const {value} of it.texts) this.takeStated(value)
    const excess = [...this.excess].flatMap(([key, its]) => isRanked(this.contests.get(key), this.greatest) ? [] : its)
    const lines = [...this.decided(), ...this.undone, ...excess, ...this.waiting, ...this.empty, ...twice]
    return {count: this.records.size, greatest: this.greatest, ranks: this.ranks, stated: this.stated, ballots: this.ballots, marked: this.marked, lines, files: this.filesOf(lines)}
  }

  // Of each kind of lines about records the files that have these, each with the number of the lines.
  filesOf(lines) {
    const held = {}
    for (const it of lines) for (const path of RECORDS[it[0]] ? this.records.get(spelled(it.slice(RECORDS[it[0]]).slice(0, 2).map(JSON.parse))).files : []) {
      held[it[0]] ??= new Map()
      held[it[0]].set(path, (held[it[0]].get(path) ?? 0) + 1)
    }
    return held
  }
}

// ---- what is in conflict

// Each fact of a report: its kind and name, the value whose text is its body, and whether it is a current snapshot.
function* factsOf(report) {
  for (const it of report.ReportingDevice ?? []) yield [['device', it['@id']], it, true]
  for (const it of report.CVR ?? []) {
    const {CVRSnapshot: snapshots, CurrentSnapshotId: current, ...header} = it
    yield [['header', ...nameOf(it)], header, true]
    for (const one of snapshots) yield [['snapshot', ...nameOf(it), one['@id']], one, one['@id'] === current]
  }
}

// The texts of each name in conflict, and the paths of the files that have each.
class Conflicts {
  constructor(its) {
    this.held = new Map(its.map(it => [spelled(it.name), {...it, first: null, is_current: false, texts: new Map()}]))
  }

  *those(report) {
    if (this.held.size) for (const [name, value, is_current] of factsOf(report)) if (this.held.has(spelled(name))) yield [this.held.get(spelled(name)), value, is_current]
  }

  // The text of a name that cvr takes; null where the name has one text.
  firstOf(name) {
    return this.held.size ? this.held.get(spelled(name))?.first ?? null : null
  }

  // Notes a part of volume 1: its texts are the ones that cvr takes.
  shows(report) {
    for (const [it, value, is_current] of this.those(report)) Object.assign(it, {first: compact(value), is_current})
  }

  take(path, report) {
    for (const [{texts}, value] of this.those(report)) {
      const text = compact(value), held = texts.get(text) ?? {value, paths: []}
      if (!held.paths.includes(path)) held.paths.push(path)
      texts.set(text, held)
    }
  }

  // Each name with its texts: first the one of volume 1, then the others, the greatest first.
  ended() {
    if ([...this.held.values()].some(it => it.texts.size !== it.count)) throw new Error('the files have other texts than cvr conflicts counts')
    return [...this.held.values()].map(({name, first, is_current, texts}) => ({name, is_current, is_known: first !== null,
      texts: [...texts].sort(([a], [b]) => a === first ? -1 : b === first ? 1 : byText(b, a)).map(([, it]) => it)}))
  }
}

// The records of a report that stand in it several times.
function repeatedIn(report) {
  return several((report.CVR ?? []).map(nameOf), spelled).map(([, its]) => [its[0].map(spelled).join(' '), its.length])
}

// What the records say, from what `cvr check` and `cvr conflicts` print, and from volume 1, if there is one. `read` gives the
// bytes of a file.
function looked(paths, read, check, printed, volume) {
  const states = judged(paths, check.text, check.log), conflicts = new Conflicts(conflictsIn(printed))
  const seen = volume ? new Seen(conflicts, byId(valueOf(new TextDecoder().decode(read(0))).Election[0].Contest)) : null
  for (const it of volume?.records() ?? []) seen.take(it)
  const said = new Reports()
  conflicts.shows(volume ? {ReportingDevice: volume.rest.ReportingDevice} : {})
  const repeated = paths.map((path, at) => {
    if (states[at].records === undefined) return []
    const report = valueOf(new TextDecoder().decode(read(at)))
    if (at || saidIn(report).length) said.take(path, report)
    conflicts.take(path, at ? report : {ReportingDevice: report.ReportingDevice})
    if (at) seen?.takeFile(path, report)
    return repeatedIn(report)
  })
  tellWhy(paths, states, read)
  return {states, repeated, said: {mixed: said.mixed(), lines: said.lines()}, seen: seen?.ended() ?? null, disagreements: shownBeside(conflicts.ended()), volumes: Number(/\d+\n$/.exec(printed)?.[0] ?? 0)}
}
