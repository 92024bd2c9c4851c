'use strict'
// What the page shows of the ballots, and of the contests. Each number of a contest is one that cvr printed, or a sum of these;
// what records.js counts besides stands by device, and has to come to the same sums.

const WIDEST = 10       // columns of numbers in one table, as a sheet of paper has room for

const counted = number => number.toLocaleString('en')
const cell = said => element('td', {className: 'number'}, said)

// A sentence of cvr-audit with numbers and words in the places that it has for them.
const placed = (said, ...values) => said.replace(/\{(:,)?\}/g, (_, is_number) => is_number ? counted(values.shift()) : values.shift())

const coded = key => text('code', text('bdi', key === '' ? '""' : key))
const unitNamed = (names, key) => key === null ? 'no unit' : named(names.named(names.units, key), key)
const batchNamed = key => key === null ? 'no batch' : coded(key)

// ---- the ballots

const SHEETS = 'Some records have a BallotSheetId, which is taken for the number of a sheet in its ballot: a line has as many ballots as records of the sheet '
  + 'that it has most often.'
const ADJUDICATED = 'Each record counts once. One is adjudicated where an AdjudicatorName or a TimeStamp stands with the snapshot that counts; others of Type '
  + 'modified are a machine\'s.'
const AS_SAID = ['Batches with as many ballots as the manifest says', 'With another number', 'In the manifest alone', 'In the records alone']

// A table of groups of ballots: the cells of their names, their ballots, and their records where a ballot has several.
function groupTable(caption, heads, groups, cellsOf, more) {
  const rows = groups.map(([names, ballots, records]) => [...cellsOf(names), BigInt(ballots), ...more ? [BigInt(records)] : []])
  const sums = [1, 2].map(at => BigInt(groups.reduce((sum, it) => sum + it[at], 0))).slice(0, more ? 2 : 1)
  return folded(caption, rows.length, table(caption, [...heads, 'Ballots', ...more ? ['Records'] : []], rows, ['Sum', ...heads.slice(1).map(() => ''), ...sums]))
}

// Which of AS_SAID a batch is.
const kindOf = ({wanted, ballots, records}) => wanted === null ? 3 : wanted === BigInt(ballots) ? 0 : records ? 1 : 2

// A batch of a manifest and of the records: its devices, the ballots of both and what they differ by, and its records.
function besideCells([[device, batch], {wanted, ballots, records, devices}]) {
  const its = devices.length ? devices : device === null ? [] : [device]
  const shown = wanted === null ? ['not there', BigInt(ballots), ''] : [wanted, BigInt(ballots), BigInt(ballots) - wanted]
  return [batchNamed(batch), text('span', ...its.sort(byText).flatMap(it => [coded(it), ' '])), ...shown, BigInt(records)]
}

// The manifest beside the records: first what differs, then all batches.
function besideManifest({path, sum, batches}, sizes) {
  const its = batchesBeside(batches, sizes), other = its.filter(([, it]) => kindOf(it)), kinds = its.map(([, it]) => kindOf(it))
  const counts = AS_SAID.map((words, kind) => `${words}: ${counted(kinds.filter(it => it === kind).length)}.`), heads = ['Batch', 'Device', 'Manifest', 'Ballots', 'Difference', 'Records']
  const [wanted, ballots, records] = ['wanted', 'ballots', 'records'].map(member => its.reduce((all, [, it]) => all + BigInt(it[member] ?? 0), 0n))
  return [text('p', 'Manifest ', coded(path), ', SHA-256 ', text('code', sum), '.'), text('p', counts.join(' ')),
    other.length ? folded('Batches that differ', other.length, table('Batches that differ', heads, other.map(besideCells))) : null,
    folded('All batches', its.length, table('Batches of the manifest and of the records', heads, its.map(besideCells), ['Sum', '', wanted, ballots, '', records]))]
}

// The precincts of the definition that no record has.
function withoutBallots(names, units) {
  const held = new Set(units), its = [...names.units].filter(([key, it]) => /precinct$/.test(it.Type) && !held.has(key))
  return its.length ? text('p', 'Precincts without a ballot: ', ...its.flatMap(([key], at) => [at ? ', ' : '', unitNamed(names, key)]), '.') : null
}

function ballotsOf(names, {seen, unseen, manifest}) {
  const beside = manifest ? ' or compared with the manifest' : ''
  if (!seen) return section('Ballots', text('p', text('strong', unseen), `, so no record was looked at, and no ballots are counted here by unit, batch or device${beside}.`))
  const {sizes, types, adjudicated} = seen.ballots, by = namesOf => ballotsBy(sizes, namesOf).sort(byNames), units = by(unit => [unit])
  const [[, ballots, records] = [, 0, 0]] = by(() => []), more = ballots !== records
  const of_batches = () => groupTable('Ballots by batch', ['Batch', 'Device'], by((_, device, batch) => [batch, device]), ([batch, device]) => [batchNamed(batch), coded(device)], more)
  return section('Ballots', listed([['Ballots', counted(ballots)], ...more ? [['Records', counted(records)]] : [], ['Adjudicated', counted(adjudicated)],
    ['Snapshots', [...types].sort(([a], [b]) => byText(a, b)).map(([type, count]) => `${type} ${counted(count)}`).join(', ')]]),
    text('p', ADJUDICATED), more ? text('p', SHEETS) : null,
    groupTable('Ballots by unit', ['Unit'], units, ([unit]) => [unitNamed(names, unit)], more), withoutBallots(names, units.map(([[unit]]) => unit)),
    ...manifest ? besideManifest(manifest, sizes) : [of_batches(), text('p', 'No batch manifest was given to compare with.')],
    groupTable('Ballots by device', ['Device'], by((_, device) => [device]), ([device]) => [coded(device)], more))
}

// ---- by contest

// A cell with votes, beside a bar in proportion to the most votes in the contest; none of no votes.
function barred(votes, most) {
  if (!votes) return number(votes)
  const bar = element('span', {className: 'bar', ariaHidden: 'true'}, '\u00a0')
  bar.style.width = `${Number(votes * 1000n / most) / 10}%`
  return element('td', {className: 'number'}, element('span', {className: 'track'}, bar), counted(votes))
}

// Per cent to one decimal, half rounded up.
function share(votes, whole) {
  if (!whole) return '–'
  const tenths = (2000n * votes + whole) / (2n * whole)
  return `${tenths / 10n}.${tenths % 10n}`
}

// The votes of each selection by rank; without a rank first.
function rankTable(caption, selections, held) {
  const ranks = [...held.keys()].sort((a, b) => a === null ? -1 : b === null ? 1 : a < b ? -1 : 1)
  const rows = selections.map(it => [named(it.name, it.key, it.more), ...ranks.map(rank => held.get(rank).get(it.key) ?? 0n)])
  return table(caption, ['Selection', ...ranks.map(it => it === null ? 'No rank' : `Rank ${it}`)], rows)
}

// The votes of each selection, with the per cent of all votes and of the ballots.
function voteTable(caption, selections, votes, ballots) {
  const most = votes.reduce((a, b) => a > b ? a : b, 0n), all = votes.reduce((a, b) => a + b, 0n)
  const rows = selections.map((it, place) => [named(it.name, it.key, it.more), barred(votes[place], most), ...[all, ballots].map(whole => cell(share(votes[place], whole)))])
  return table(caption, ['Selection', 'Votes', '% of votes', '% of ballots'], rows, ['All selections', all, '', ''])
}

// Whether the sums come to the ballots, in the sentences of cvr-audit page.
function comeTo(sums, allowed) {
  const [ballots, overvotes, undervotes, , pending, ...votes] = sums, all = votes.reduce((a, b) => a + b, 0n), total = all + overvotes + undervotes + pending
  if (allowed === undefined) return HELD.sums.UNKNOWN
  if (allowed > 1n) return placed(HELD.sums.ALLOWED, all, total, ballots * allowed, all > ballots * allowed ? ': too many' : '')
  return placed(HELD.sums.SUMS, total, ballots, total === ballots ? 'the same' : 'not the same')
}

// Stops where the records come to other sums of a contest than cvr printed.
function seeSame(key, sums, devices) {
  const found = [...devices.values()].reduce((a, b) => a.map((it, at) => it + b[at]), sums.map(() => 0n))
  if (String(found) !== String(sums)) throw {fault: 'program', said: `the records don't come to what cvr tally prints of ${key}`}
}

// A contest: its rows of the tally, their sums, its selections, and what records.js saw of its ballots, if it did.
function contestOf(names, key, rows, seen) {
  const its = names.contests.get(key), held = byId(its?.ContestSelection), selections = rows[0].selections.map(it => ({key: it, ...names.selection(held.get(it) ?? {})}))
  const sums = sumsBy(rows, 'contest').get(key), shown = shownBy(seen), name = its && textIn(its, 'Name'), marked = seen?.marked.get(key)
  if (marked) seeSame(key, sums, marked.devices)
  return {key, rows, selections, sums, marked, ranks: seen?.ranks.get(key), is_ranked: isRanked(its, seen?.greatest), allowed: allowedOf(its),
    shown: numbers => numbers.map((it, at) => shown(key, at, it)), title: () => text('h3', named(name, key)),
    caption: said => text('span', said, ': ', text('bdi', name || key))}
}

// The other numbers of a contest, and on how many ballots overvotes and undervotes are.
function othersOf({sums, shown, marked}) {
  return shown(sums).slice(1, COLUMNS.length).map((number, place) => {
    const name = COLUMNS[place + 1], having = number ? marked?.having.get(name) : 0
    return [name, counted(number) + (having ? `, on ${counted(having)} ${having === 1 ? 'ballot' : 'ballots'}` : '')]
  })
}

function contestPart(it) {
  const ranks = () => text('div', text('p', 'The votes of this contest are ranks or scores: they stand by rank, and no rounds are computed.'),
    it.ranks ? rankTable(it.caption('Selections by rank'), it.selections, it.ranks) : text('p', 'No rank was looked at.'))
  return element('div', {className: 'contest'}, it.title(), listed([['Ballots', counted(it.sums[0])], ...it.marked ? [['Adjudicated', counted(it.marked.adjudicated)]] : []]),
    it.is_ranked ? ranks() : voteTable(it.caption('Selections'), it.selections, it.sums.slice(COLUMNS.length), it.sums[0]), listed(othersOf(it)),
    it.is_ranked ? null : text('p', comeTo(it.sums, it.allowed)))
}

function contests(its) {
  return section('Contests', its.length ? text('p', 'Per cents have one decimal, and half of one is rounded up.') : null, ...its.map(contestPart))
}

// ---- by unit, batch and device

// The tables of a contest by a member of its rows, as wide as a sheet of paper; ranks are not added up.
function parted(it, what, sums, nameOf) {
  const end = it.is_ranked ? COLUMNS.length : undefined, shown = numbers => it.shown(numbers).slice(0, end)
  const heads = [...COLUMNS, ...it.selections.map(one => one.name ?? one.key)].slice(0, end), starts = [...heads.keys()].filter(at => at % WIDEST === 0)
  const lines = [...sums].map(([key, numbers]) => [key, shown(numbers)]), foot = shown(it.sums)
  return folded('By ' + what, lines.length, text('div', ...starts.map(from => table(it.caption('By ' + what), [what, ...heads.slice(from, from + WIDEST)],
    lines.map(([key, numbers]) => [nameOf(key), ...numbers.slice(from, from + WIDEST)]), ['Sum', ...foot.slice(from, from + WIDEST)]))))
}

function dividedParts(names, it) {
  const devices = it.marked && [...it.marked.devices].sort(([a], [b]) => byText(a, b))
  return [it.title(), it.is_ranked ? text('p', 'Ranks are not added up: they stand above, by rank, and not by unit.') : '', parted(it, 'unit', sumsBy(it.rows, 'unit'), key => unitNamed(names, key)), parted(it, 'batch', sumsBy(it.rows, 'batch'), batchNamed),
    devices ? parted(it, 'device', devices, coded) : text('p', 'No record was looked at, so nothing stands by device.')]
}

const OPENED = 1000     // numbers in a line of each contest: with more, all lines are folded, since what is open takes much memory

function divided(names, its) {
  const shown = section('By unit, batch and device', ...its.flatMap(it => dividedParts(names, it)))
  if (its.reduce((sum, it) => sum + it.sums.length, 0) > OPENED) for (const it of shown.querySelectorAll('details')) it.open = false
  return shown
}
