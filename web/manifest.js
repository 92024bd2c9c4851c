'use strict'
// A batch manifest, which is read by the rules of cvr-audit (companion/cvr_audit/manifest.py), and the ballots of the records
// beside it.

let manifest = null     // what was given: its path, its SHA-256, and the ballots of each batch by device, or null, and batch

const FIRST_LINES = 1 << 16     // bytes by which a manifest is recognised

// The cells of each line of CSV, as Python's csv reads them; an empty line has none.
function* cellsOf(text) {
  const one = /(?:"([^"]*(?:""[^"]*)*)"?)?([^,\r\n]*)(,|\r\n?|\n|$)/y
  let cells = []
  for (let is_more = text !== ''; is_more;) {
    const [whole, quoted, plain, end] = one.exec(text)
    cells.push((quoted ?? '').replace(/""/g, '"') + plain)
    is_more = end === ',' || one.lastIndex < text.length
    if (end !== ',') {
      yield cells.length === 1 && whole === end ? [] : cells
      cells = []
    }
  }
}

const isNumbered = cells => [2, 3].includes(cells.length) && /\p{Nd}/u.test(cells.at(-1))
const isHeading = cells => [2, 3].includes(cells.length) && !isNumbered(cells)

// The ballots of each batch, by the text of its device, or null, and of its own name.
function manifestIn(text, path) {
  const held = new Map()
  let place = 0, width = null
  for (const cells of cellsOf(text)) {
    place++
    if (!cells.length || place === 1 && isHeading(cells)) continue
    const name = spelled([cells.at(-3) ?? null, cells.at(-2) ?? null]), last = cells.at(-1)
    if (![2, 3].includes(cells.length) || ![null, cells.length].includes(width) || held.has(name)) throw new Unfit(null, filled(RULES.FORM, path, place))
    if (!/^[\t-\r\x1c-\x20]*[0-9]+[\t-\r\x1c-\x20]*$/.test(last)) throw new Unfit(null, filled(RULES.MARKED, path, place, last))
    if (last.trim().length > 18) throw new Unfit(null, filled(RULES.LONG, path, place))
    held.set(name, BigInt(last.replace(/[^0-9]/g, '')))
    width = cells.length
  }
  return held
}

// Whether a source is a manifest, by its first line, and the next one where the first has headings. Of what is given only CSV
// is looked at; a manifest of another name can be chosen as one.
async function isManifest(source) {
  if (!source.file || !/\.(csv|txt)$/i.test(source.path)) return false
  const lines = cellsOf(new TextDecoder().decode(await bytesOf(source, FIRST_LINES))), first = lines.next().value ?? []
  return isNumbered(first) || isHeading(first) && isNumbered(lines.next().value ?? [])
}

// Reads the manifests among sources, and answers the others.
async function withoutManifests(sources) {
  const others = []
  for (const it of sources) {
    if (await isManifest(it)) await giveManifest(it)
    else others.push(it)
  }
  return others
}

// Reads a manifest in the place of the one before.
async function giveManifest(source) {
  const bytes = await bytesOf(source, source.size)
  let text
  try {
    text = new TextDecoder('utf-8', {fatal: true}).decode(bytes)
  } catch (fault) {
    throw new Unfit(null, filled(RULES.NO_CSV, source.path))
  }
  const before = manifest && manifest.path !== source.path ? ` in the place of ${manifest.path}` : ''
  manifest = {path: source.path, sum: await hex(bytes), batches: manifestIn(text, source.path), before}
}

const manifestSaid = () => manifest ? ` Manifest ${manifest.path}${manifest.before}: ${manifest.batches.size.toLocaleString('en')} batches.` : ''

// ---- the ballots of the records

const byName = ([a], [b]) => a === b ? 0 : a === null ? -1 : b === null ? 1 : byText(a, b)
const byNames = ([[a, b]], [[c, d]]) => byName([a], [c]) || byName([b], [d])

// The ballots and the records of groups, by the names that a call gives a unit, a device and a batch. A BallotSheetId is taken
// for the number of a sheet in its ballot, so a group has as many ballots as records of one sheet.
function ballotsBy(sizes, namesOf) {
  const held = new Map()
  for (const [group, sheets] of sizes) {
    const key = spelled(namesOf(...JSON.parse(group)))
    if (!held.has(key)) held.set(key, new Map())
    for (const [sheet, count] of sheets) held.get(key).set(sheet, (held.get(key).get(sheet) ?? 0) + count)
  }
  return [...held].map(([key, sheets]) => [JSON.parse(key), ...sizeOf(sheets)])
}

// Ballots and records, by the records of each sheet; null stands for those of which no sheet is known.
function sizeOf(sheets) {
  const counts = [...sheets].filter(([sheet]) => sheet !== null).map(([, count]) => count)
  return [counts.reduce((a, b) => Math.max(a, b), 0) + (sheets.get(null) ?? 0), [...sheets.values()].reduce((a, b) => a + b, 0)]
}

// Each batch by device, or null where the manifest names none, and batch: the ballots that the manifest has, or null; its
// ballots, its records, and its devices.
function batchesBeside(wanted, sizes) {
  const has_devices = [...wanted.keys()].some(it => JSON.parse(it)[0] !== null)
  const held = new Map([...wanted].map(([key, count]) => [key, {wanted: count, ballots: 0, records: 0, devices: []}]))
  for (const [[device, batch], ballots, records] of ballotsBy(sizes, (_, device, batch) => [device, batch])) {
    const key = spelled([has_devices ? device : null, batch]), it = held.get(key) ?? {wanted: null, ballots: 0, records: 0, devices: []}
    held.set(key, {...it, ballots: it.ballots + ballots, records: it.records + records, devices: [...it.devices, device]})
  }
  return [...held].map(([key, it]) => [JSON.parse(key), it]).sort(byNames)
}

// The warnings of the batches that have another number of ballots in the manifest.
function* batchWarnings(wanted, sizes) {
  for (const [[device, batch], {wanted: count, ballots, records}] of batchesBeside(wanted, sizes)) {
    const names = (device === null ? [batch] : [device, batch]).map(spelled)
    if (count !== BigInt(ballots)) yield ['batch', ...names, count ?? ABSENT, ballots, ...records === ballots ? [] : ['records', records]]
  }
}
