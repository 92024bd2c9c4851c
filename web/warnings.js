'use strict'
// Warnings of what cvr printed, and of what records.js saw, by the rules of cvr-audit: each its kind, and its parts as
// cvr-audit prints them.

// Of the files: refused ones, how the definition is used, and records that count as one.
function* fileWarnings(files, states, sums, repeated, seen) {
  const accepted = [...files.keys()].filter(it => it > 0 && states[it].records !== undefined)
  for (const [at, {fault}] of states.entries()) if (at > 0 && fault) yield ['refused', spelled(files[at].path), fault]
  if (sums[0] && sums.indexOf(sums[0], 1) > 0) yield ['among', spelled(files[0].path)]
  else if (states[0].records) yield ['definition', spelled(files[0].path), states[0].records]
  for (const at of accepted) for (const parts of repeated[at]) yield ['repeated', spelled(files[at].path), ...parts]
  if (!seen) return
  const all = accepted.reduce((sum, at) => sum + Number(states[at].records), 0), again = accepted.flatMap(at => repeated[at]).reduce((sum, [, count]) => sum + count - 1, 0)
  if (all > seen.count) yield ['counted', all, seen.count, 'again', again, 'elsewhere', all - seen.count - again]
}

// Of the rows of the tally, with how many votes a ballot has in each contest but those of ranks, of which a row has all.
function* rowWarnings(rows, allowed) {
  for (const {contest, unit, batch, numbers} of rows) {
    const [ballots, overvotes, undervotes, , pending, unassigned] = numbers, most = allowed.get(contest)
    const name = [contest, unit, batch].map(spelled)
    const counted = numbers.slice(COLUMNS.length).reduce((a, b) => a + b, unassigned), total = counted + overvotes + undervotes + pending
    if (pending) yield ['pending', ...name, pending]
    if (unassigned) yield ['unassigned', ...name, unassigned]
    if (most && counted > ballots * most) yield ['votes', ...name, counted, ballots * most]
    else if (most === 1n && total !== ballots) yield ['sum', ...name, total, ballots]
  }
}

// Of the definition's contests: those of ranks, those that no row has, and the numbers that no file states.
function* contestWarnings(contests, rows, seen) {
  const shown = new Set(rows.map(it => it.contest))
  for (const it of contests) {
    const key = it['@id'], greatest = seen?.greatest.get(key)
    if (isRanked(it, seen?.greatest)) yield ['ranked', spelled(key), it.VoteVariation ?? ABSENT, greatest ?? ABSENT]
    if (!shown.has(key)) yield ['contest', spelled(key)]
    else for (const name of seen ? ['Overvotes', 'Undervotes'] : []) if (!seen.stated.has(spelled([key, name]))) yield ['unstated', spelled(key), name]
  }
}

function warningsOf({files, states, sums, repeated, seen, manifest}, contests, rows) {
  const batches = manifest && seen ? batchWarnings(manifest.batches, seen.ballots.sizes) : []
  const allowed = new Map(contests.map(it => [it['@id'], isRanked(it, seen?.greatest) ? undefined : allowedOf(it)]))
  return [...fileWarnings(files, states, sums, repeated, seen), ...rowWarnings(rows, allowed), ...contestWarnings(contests, rows, seen), ...seen?.lines ?? [], ...batches]
}

// ---- names, and files

const OF_ROWS = ['votes', 'sum', 'pending', 'unassigned'], OF_CONTESTS = [...OF_ROWS, 'exceeds', 'doubled', 'contest', 'unstated', 'ranked']
const OF_FILES = ['refused', 'undone', 'repeated', 'unsigned', 'nobody', 'later', 'decides']       // which begin with a path

// The names of what a warning has ids of: its contests, and a unit or a selection.
function namesIn(names, [kind, ...parts]) {
  if (!['waiting', 'undone', ...OF_CONTESTS].includes(kind)) return ''
  const ids = parts.map(it => typeof it === 'string' && it[0] === '"' ? JSON.parse(it) : null)
  const contests = kind === 'waiting' ? ids.slice(2) : kind === 'undone' ? ids.slice(5).filter((_, at) => at % 3 === 0) : OF_CONTESTS.includes(kind) ? ids.slice(0, 1) : []
  const held = contests.map(it => [textIn(names.contests.get(it), 'Name'), it])
  if (OF_ROWS.includes(kind) && ids[1] !== null) held.push([names.named(names.units, ids[1]), ids[1]])
  if (kind === 'doubled') held.push([names.selection(byId(names.contests.get(ids[0]).ContestSelection).get(ids[1])).name, ids[1]])
  return held.filter(([name]) => name).map(([name, key]) => `${name} (${key})`).join(', ')
}

// The files that warnings of a kind are about, each with their number.
function filesIn(kind, its, seen) {
  if (!OF_FILES.includes(kind)) return [...seen?.files[kind] ?? []]
  return [...grouped(its, it => JSON.parse(it[1]))].map(([path, them]) => [path, them.length])
}

// A number of a row as it is shown: of the overvotes or undervotes of a contest whether a file states them.
function shownBy(seen) {
  return (contest, at, number) => {
    const name = ['Overvotes', 'Undervotes'].find(it => it === COLUMNS[at])
    if (!name || number) return number
    return !seen ? 'not looked at' : seen.stated.has(spelled([contest, name])) ? number : 'not stated'
  }
}
