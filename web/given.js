'use strict'
// What was given: which files are tallied, which aren't and why, and the list in which each can be removed.

const sources = []              // all that was given, with what is in a ZIP
let files = [], others = [], is_export = false       // of these what is tallied, or the whole export; and the rest
const twins = new Map()         // names that have a number behind them, each with the name that an earlier one has

const given = (path, file) => ({path, file, size: file.size})
const empty = path => ({path: path + '/', file: null, size: 0})      // a folder without files
const rootOf = path => path.split('/', 1)[0]
const isBelow = it => it.path.includes('/'), isJson = it => /\.json$/i.test(it.path), byPath = (a, b) => byText(a.path, b.path)
const countedAs = (count, one, more = one + 's') => `${count.toLocaleString('en')} ${count === 1 ? one : more}`

// ---- names

// Gives what has the name of an earlier file, folder or ZIP a number behind that name.
function apart(more) {
  const held = new Set(sources.map(it => rootOf(it.path))), folders = new Map(), last = new Map()
  const free = name => {
    let now = name
    for (let number = last.get(name) ?? 2; held.has(now); last.set(name, ++number)) now = `${name} (${number})`
    if (now !== name) twins.set(now, name)
    held.add(now)
    return now
  }
  return more.map(it => {
    const root = rootOf(it.path), now = isBelow(it) ? folders.get(root) ?? free(root) : free(root)
    if (isBelow(it)) folders.set(root, now)
    return {...it, path: now + it.path.slice(root.length)}
  })
}

// What a command can't say of names that were numbered here.
function twinsSaid() {
  const roots = new Set(sources.map(it => rootOf(it.path))), its = [...twins].filter(([now]) => roots.has(now)), more = its.length - FEW
  const said = its.slice(0, FEW).map(([now, name]) => `Another ${name} was given before: "${now}" stands for the later one, so give that this name before you run the command.`)
  return more > 0 ? [...said, `So do ${countedAs(more, 'more name')} with a number behind it.`] : said
}

// ---- what is taken

// What is given, with the files of a ZIP in its place.
async function opened(more) {
  const found = []
  for (const it of more) {
    const is_zip = it.file && !isBelow(it) && await isZip(it.file)
    for (const one of is_zip ? (await sourcesIn(it.path, it.file)).sort(byPath) : [it]) {
      if (isBelow(one) && /\.zip$/i.test(one.path)) throw new Unfit(one.path, RULES.WITHIN)
      found.push(one)
    }
  }
  return found
}

// Whether a source stands at the head of an export of VxSuite.
async function isOfExport(it) {
  return it.file && baseOf(it.path) === RULES.METADATA && (await headOf(it)).includes(RULES.FRAME)
}

// Adds to what was given; of an export all is taken, else of a folder or a ZIP what may be a report.
async function add(more) {
  stale()
  at('tally').disabled = true
  say('Reading what was given')
  const found = await withoutManifests(await opened(apart(more))), heads = await Promise.all(found.map(isOfExport))
  for (const [place, it] of found.entries()) sources.push({...it, is_head: heads[place]})
  await settle()
}

// Of a folder or a ZIP only what may be a report is taken.
const isTaken = it => is_export || it.file && (!isBelow(it) || isJson(it))

// Sees anew what is tallied, once something was added or removed, and says so.
async function settle() {
  is_export = sources.some(it => it.is_head)
  files = is_export ? sources : sources.filter(isTaken)
  others = is_export ? [] : sources.filter(it => it.file && !isTaken(it))
  offer()
  const some = is_export ? `An export of VxSuite: ${files.length} files.` : `${files.length} files.`, left = leftLines().length
  say((sources.length && !files.length ? await nothingSaid() : left ? `${some} ${countedAs(left, 'other')} will not be in the tally: the list has ${left === 1 ? 'it' : 'them'}.` : some) + manifestSaid(),
    left || sources.length && !files.length)
}

// Fills what is chosen from, and says why there is nothing to tally.
function offer() {
  const its = at('definition'), before = its.value
  its.replaceChildren(element('option', {value: ''}, 'by content'), ...(is_export ? [] : files).map(it => element('option', {value: it.path}, it.path)))
  its.value = files.some(it => it.path === before) ? before : ''
  its.parentElement.hidden = is_export
  at('tally').disabled = !files.length
  at('why').textContent = files.length ? '' : sources.length ? 'Nothing that can be tallied was given.' : 'No file was given yet.'
  drawList()
}

// ---- what isn't taken

const REPORT_CLASS = 'CVR.CastVoteRecordReport'
const ENDING = 'Its name does not end in .json, and of a folder or a ZIP only such files are taken.'
const SEARCHED = 100        // files of a folder or a ZIP of which none is taken, in which an export is looked for

const headOf = async (source, piece) => new TextDecoder().decode(await bytesOf(source, RULES.HEAD, piece))

// What can be made of exports that the page doesn't read, by the makers' names.
const gatherSaid = root => `cvr-audit gather makes files for this page of exports of ${[...new Set(Object.values(RULES.MAKERS).map(it => it.split(',')[0]))].sort().join(', ')}: ${gatherOf(root)}`

// Why a source isn't taken, and whether it may have records.
async function reasonOf(source, piece) {
  try {
    return await reasonIn(source, piece)
  } catch (fault) {
    return {reason: `It can't be read: ${fault.message}.`, holds: true}
  }
}

async function reasonIn(source, piece) {
  if (RULES.IMAGES.some(it => source.path.endsWith(it))) return {reason: ENDING, holds: false}
  const {seems, todo, kind} = await seenAs(source, piece), said = `${seems} ${todo}`.trim()
  if (kind) return {reason: said, holds: true}
  if ((await headOf(source, piece)).includes(REPORT_CLASS)) return {reason: `It seems to be a report. ${isJson(source) ? 'Tally it with the files that were made of the export.' : ENDING + ' Rename it, or choose it by itself.'}`, holds: true}
  return {reason: isJson(source) ? said : `${ENDING} ${said}`, holds: false}
}

// The same of a folder or a ZIP of which no file is taken: by the first one that seems to have records, or else the first.
async function rootReason(root, some) {
  const inside = some.find(it => INSIDE.some(([form]) => form.test(it.path)))
  if (inside) return {reason: Object.values(await seenAs(inside)).filter(it => it).join(' '), holds: false}
  let first = null
  for (const it of some.slice(0, SEARCHED)) {
    const its = await reasonOf(it)
    if (!first || its.holds) first = {reason: `It has ${countedAs(some.length, 'file')}, and none whose name ends in .json. ${it.path}: ${its.reason}`, holds: its.holds}
    if (its.holds) break
  }
  return first.holds ? first : {...first, reason: `${first.reason} ${gatherSaid(root)}`}
}

// The same of many sources, each with its path, in their order.
async function reasonsOf(some, call) {
  const held = new Map()
  for await (const [{path}, {value}] of settledOf(groupsOf([...some]), call)) held.set(path, {path, ...value})
  return some.map(it => held.get(it.path))
}

// All that was given and isn't taken, each with its path.
async function outside() {
  const taken = new Set(files.map(it => rootOf(it.path))), found = []
  for (const [root, some] of grouped(others, it => rootOf(it.path)))
    found.push(taken.has(root) ? await reasonsOf(some, reasonOf) : [{path: root, ...await rootReason(root, some)}])
  return found.flat()
}

// Of an export what is left out.
function outsideExport(left) {
  const paths = new Set(left), isRejected = it => folderOf(it.path).split('/').some(one => one.startsWith(RULES.REJECTED))
  return reasonsOf(sources.filter(it => paths.has(it.path)), async (it, piece) =>
    isRejected(it) ? {reason: 'It is of a sheet that the scanner rejected.', holds: false} : it.file ? reasonOf(it, piece) : {reason: 'It is a folder without files.', holds: false})
}

// What was given of which nothing can be tallied, and what to do.
async function nothingSaid() {
  const its = await outside(), said = its.slice(0, FEW).map(it => `${it.path}: ${it.reason}`), more = its.length > FEW ? [`And ${countedAs(its.length - FEW, 'other')}.`] : []
  return ['Nothing that was given can be tallied.', ...its.length ? said : ['There is no file in it.'], ...more].join(' ')
}

// ---- the list

// The lines of the list: each file; of an export, or of a folder or a ZIP of which nothing is taken, the whole.
function listLines() {
  const isWhole = some => is_export || !some.some(isTaken)
  return [...grouped(sources, it => rootOf(it.path))].flatMap(([root, some]) => isWhole(some) ? [[root, some]] : some.map(it => [it.path, [it]]))
}

// Those of which nothing is taken.
const leftLines = () => listLines().filter(([, some]) => !some.some(isTaken) && some.some(it => it.file))

// Draws the list where it is open: it may be long.
function drawList() {
  const its = at('list'), [summary, list] = its.children
  its.hidden = !sources.length
  summary.textContent = is_export ? countedAs(listLines().length, 'export, folder or ZIP', 'exports, folders or ZIPs') :
    countedAs(listLines().length, 'file') + (others.length ? `, ${leftLines().length} of them not taken` : '')
  list.replaceChildren(...its.open ? listLines().map(([path, some]) => lineOf(path, some)) : [])
}

function lineOf(path, some) {
  const remove = element('button', {type: 'button', ariaLabel: 'Remove ' + path, onclick: () => removed(remove.parentElement, some)}, 'Remove')
  return text('li', text('code', text('bdi', path)), some.length > 1 ? `: ${countedAs(some.length, 'file')}` : null, some.some(isTaken) ? ' ' : text('strong', ' not taken '), remove)
}

// Removes what a line has; the focus goes to the next one.
async function removed(line, some) {
  const gone = new Set(some), left = sources.filter(it => !gone.has(it)), place = [...line.parentElement.children].indexOf(line)
  stale()
  sources.length = 0
  for (const it of left) sources.push(it)
  await settle()
  const buttons = at('list').querySelectorAll('button')
  ;(buttons[Math.min(place, buttons.length - 1)] ?? at('files')).focus()
}
