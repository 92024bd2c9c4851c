'use strict'
// The page: gives files to the worker, and shows what cvr answers. Each text goes in as text, never as markup.

const at = id => document.getElementById(id)
const HELD = JSON.parse(at('held').textContent)         // of the tool: the sentences of FAULTS, and the example
const own = '<!DOCTYPE html>' + document.documentElement.outerHTML      // before anything of it changes: the file's text
const RULES = HELD.rules        // of cvr-audit gather
const TITLE = document.title
let compiled, own_sums, working = null

function element(tag, more, ...parts) {
  const its = document.createElement(tag)
  for (const [name, value] of Object.entries(more ?? {})) its[name] = value
  its.append(...parts.filter(it => it !== null && it !== undefined))
  return its
}

const text = (tag, ...parts) => element(tag, null, ...parts)
const ENGLISH = new Intl.NumberFormat('en'), number = value => element('td', {className: 'number'}, ENGLISH.format(value))     // made once, since that takes long
const hex = async bytes => [...new Uint8Array(await crypto.subtle.digest('SHA-256', bytes))].map(it => it.toString(16).padStart(2, '0')).join('')
const say = (said, is_bad) => { at('state').textContent = said; at('state').className = is_bad ? 'bad' : '' }

// ---- the worker

// Has a new worker read files and run commands, or look for the definition, or gather an export, and ends it then; so nothing of
// one run reaches the next.
function work(given, asked) {
  const url = URL.createObjectURL(new Blob([at('worker').textContent], {type: 'text/javascript'})), worker = new Worker(url)
  const done = new Promise((answer, refuse) => {
    worker.onmessage = ({data}) => data.step ? say(data.step) : data.fault ? refuse(data) : answer(data)
    worker.onerror = it => refuse({fault: 'program', said: it.message})
    worker.postMessage({compiled, files: given, ...asked, rules: RULES})
  }).finally(() => { worker.terminate(); URL.revokeObjectURL(url) })
  return {done, worker}
}

const FAULTS = {
  memory: () => `This browser refused memory. ${HELD.faults.codes.memory[1]} Nothing is shown.`,
  file: ({path, said}) => `${path} can't be read (${said}). Was it changed or moved since? Remove all files, and give them again.`,
  unfit: ({said}) => `${said}. Nothing is shown.`,
  program: ({said}) => `The program stopped: ${said}. Nothing is shown.`,
  field: ({field, said}) => (at(field + '-said').textContent = ` ${said} `, `${said} Nothing is saved.`),
}

// ---- the start

async function unpacked(packed) {
  const bytes = Uint8Array.from(atob(packed), it => it.charCodeAt(0))
  return new Uint8Array(await new Response(new Blob([bytes]).stream().pipeThrough(new DecompressionStream('gzip'))).arrayBuffer())
}

// Tallies the example that the page carries. It works only where that gives the text that it has to.
async function start() {
  if (!globalThis.crypto?.subtle) throw new Error('it has no SHA-256 here; open the page from a disk, or by https')
  const module = await unpacked(at('module').textContent)
  compiled = await WebAssembly.compile(module)
  own_sums = {module: await hex(module), page: await hex(new TextEncoder().encode(own))}
  const example = Object.entries(HELD.example).map(([path, it]) => given(path, new Blob([it])))
  const {answers: [version, tally]} = await work(example, {runs: [['--version'], ['tally', ...Object.keys(HELD.example)]]}).done
  if (tally.sum !== HELD.sum) throw new Error('it gives another tally of its own example than it has to')
  at('version').textContent = HELD.version = new TextDecoder().decode(version.text).trim()
  at('give').hidden = false
  say('The page has tallied its own example rightly. It waits for files.')
}

// ---- files

let before = Promise.resolve()  // what was given before, which is added first

// Adds what a call finds, and says why it can't.
function take(call) {
  const found = (async () => call())()
  before = before.then(async () => {
    try {
      await add(await found)
    } catch (fault) {
      offer()
      say(`What was given can't be read: ${fault instanceof Unfit ? fault.message : fault}. Nothing of it is added.`, true)
    }
  })
}

// The files below what was dropped, each with its path. On a page from a disk Chromium opens no folder by its entry, and
// other browsers have no handles.
async function* belowHandle(it, path) {
  if (it.kind === 'file') yield given(path, await it.getFile())
  else {
    let is_empty = true
    for await (const [name, one] of it.entries()) {
      is_empty = false
      yield* belowHandle(one, `${path}/${name}`)
    }
    if (is_empty) yield empty(path)
  }
}

async function* belowEntry(it) {
  const asked = (its, call) => new Promise((done, refuse) => its[call](done, refuse))
  if (it.isFile) {
    yield given(it.fullPath.slice(1), await asked(it, 'file'))
    return
  }
  const reader = it.createReader(), all = []
  for (let more; (more = await asked(reader, 'readEntries')).length;) all.push(...more)
  if (!all.length) yield empty(it.fullPath.slice(1))
  for (const one of all) yield* belowEntry(one)
}

async function dropped(event) {
  const items = [...event.dataTransfer.items].filter(it => it.kind === 'file'), found = []
  const asked = items.map(it => it.getAsFileSystemHandle ? it.getAsFileSystemHandle() : it.webkitGetAsEntry())    // later there is nothing to ask
  for (const it of await Promise.all(asked)) for await (const one of it.kind ? belowHandle(it, it.name) : belowEntry(it)) found.push(one)
  return found.sort(byPath)
}

// ---- a tally

const DATE = '1970-01-01T00:00:00Z'     // of a volume that nobody keeps

// Stops where cvr refuses what was gathered, or reads another number of records than the export has.
function seeGathered({files, places, count}, states, seen) {
  const place = states.findIndex(it => it.fault), records = states.slice(1).reduce((sum, it) => sum + (it.records ?? 0n), 0n)
  if (place >= 0) {
    const record = place ? /\/CVR\/(\d+)/.exec(states[place].fault) : null, found = states[place].fault.replace(record?.[0] ?? '', '')
    const where = record ? `${places[place - 1][record[1]]}: /CVR/0` : files[place].path, {meaning, todo} = inWords(found, HELD.faults)
    throw {fault: 'unfit', said: `${where}: ${filled(RULES.REFUSED, found)}. ${meaning} ${todo}`}
  }
  if (records !== BigInt(count) || seen && seen.count !== count)
    throw {fault: 'unfit', said: `cvr reads ${records} records with ${seen?.count ?? 'unknown'} names, and the export has ${count}`}
}

// What the command line makes of the same files.
function commandsOf({made, definition, files}) {
  const tally = commandOf(['cvr', 'tally', '--', ...files.map(it => it.path)]), roots = [...new Set(sources.map(it => rootOf(it.path)))]
  if (made) return `${commandOf(['cvr-audit', 'gather', ...roots, '-o', 'gathered'])}\n${tally}`
  return definition.used ? `${commandOf(['cvr-audit', 'definition', '-o', files[0].path, '--', ...definition.used])}\n${tally}` : tally
}

const run = (its, asked) => (working = work(its, asked)).done

// ---- the definition

const MADE = 'made-definition.json'

// The files, the definition first, and why that is the one; its records count, so a file of records stands twice. Without one all files
// are refused.
async function withDefinition() {
  const named = at('definition').value || null, its = await run(files, {named})
  if (its.path === null) return withMade(its)
  const first = files.find(it => it.path === its.path), rest = files.filter(it => it !== first)
  const why = named !== null ? 'it was chosen' : files.length > 1 ? 'it is the only file without a record' : 'it is the only file'
  const records = its.has_records ? ' Its records are counted, as those of a file.' : ''
  return {files: [first, ...its.has_records ? [first] : [], ...rest], definition: {said: `Definition: ${its.path}, since ${why}.${records}`, counts: its.has_records}}
}

function withMade({states, sums, made, without}) {
  const few = without ? `${without} reports are without a record` : 'no report is without a record', used = files.filter((_, at) => !states[at].fault).map(it => it.path)
  if (!made) return {files, definition: {said: 'Each file was refused, so none is the definition.'}, refused: {states, sums}}
  const held = new Set(files.map(it => it.path)), names = [MADE, ...files.map((_, at) => `${at + 2}-${MADE}`)], path = names.find(it => !held.has(it))
  return {files: [given(path, made), ...files], definition: {used, said: `Definition: ${path}, made of ${countedAs(used.length, 'report')} as cvr-audit definition makes it, since ${few}.`}}
}

// Shows that something runs, and says why it stops.
async function busily(act) {
  busy(true)
  say('Starting')
  try {
    await act()
  } catch (fault) {
    say(fault.fault ? FAULTS[fault.fault](fault) : String(fault), true)
  }
  busy(false)
}

// Saves a volume of `cvr merge`, of the files that were tallied.
async function saveVolume({files, sums, volumes}, date, device, number) {
  if (!isVolume(number, volumes)) throw volumeFault('', number, volumes)
  const paths = files.map(it => it.path), words = ['merge', '--', paths[0], date, device, number, ...paths.slice(1)]
  const {answers: [{text, log}], sums: now} = await run(files, {runs: [words]}), changed = paths.find((_, at) => sums[at] !== now[at])
  if (changed) throw {fault: 'file', path: changed, said: 'it is another than was tallied'}
  if (!text.length) throw volumeFault(log, number, volumes)
  save(`volume-${number}.json`, text, 'application/json')
  say('Saved, as by: ' + commandOf(['cvr', ...words]))
}

// Runs the commands over files, of which the first is the definition; answers what they say.
async function answerOf({files, made, definition}) {
  const paths = files.map(it => it.path), words = task => [task, '--', ...paths]
  const its = await run(files, {runs: [['check', '--', paths[0], ...paths], words('tally'), words('conflicts'),
    ['merge', '--', paths[0], DATE, null, '1', ...paths.slice(1)]]})
  const {first, states, said, answers, seen} = its, failed = answers.find(it => it.status > 1)
  if (failed) throw {fault: failed.status === 4 ? 'memory' : 'program', said: failed.log}
  if (said.mixed) throw {fault: 'unfit', said: said.mixed}
  if (states[0].records && !definition.counts) throw {fault: 'program', said: 'the definition has records that were not counted'}
  if (made) seeGathered(made, states, seen)
  return {...its, tally: {...answers[1], text: new TextDecoder().decode(answers[1].text), bytes: answers[1].text}, report: first === null ? null : valueOf(first)}
}

// What isn't in a tally: of the files those that were refused, and the rest of what was given.
function outOf({states, files}, rest) {
  const refused = []
  for (const [at, it] of states.entries()) {
    if (!it.fault) continue
    refused.push({path: files[at].path, reason: inALine(stateOf(it, files[at].path, false))})
  }
  return [...refused, ...rest.map(({path, reason}) => ({path, reason}))]
}

// The lines that say that a tally isn't whole.
function incompleteIn({states, refused}, rest) {
  const some = refused ? states : states.slice(1), count = some.filter(it => it.fault).length, held = rest.filter(it => it.holds).length
  return [...count ? [`INCOMPLETE: ${count} of ${countedAs(some.length, 'file')} ${count === 1 ? 'was' : 'were'} refused`] : [],
    ...held ? [`INCOMPLETE: ${countedAs(held, 'file')} that ${held === 1 ? 'seems' : 'seem'} to have records ${held === 1 ? 'is' : 'are'} not in this tally`] : []]
}

// Why there is no tally, or null.
function lackOf({states, refused, report}) {
  if (!refused && !report) return 'The definition was refused'
  const some = refused ? states : states.slice(1)
  return some.every(it => it.fault) ? some.length ? 'Each file was refused' : 'Only a definition was given' : null
}

// All that is shown of what was given.
async function wholeAnswer(stopped) {
  const gathered = is_export ? await run(sources, {}) : null
  const its = gathered ? {files: gathered.files, made: gathered, definition: {said: null}} : await withDefinition()
  const rest = gathered ? await outsideExport(gathered.left) : await outside()
  await stopped()
  const answer = {...its, ...its.refused ? {...its.refused, said: {lines: []}, report: null} : await answerOf(its)}
  const incomplete = incompleteIn(answer, rest)
  answer.said.lines.unshift(...incomplete)
  const out = outOf(answer, rest)
  await stopped()
  return {...answer, out, incomplete, lack: lackOf(answer), command: answer.refused ? null : commandsOf(its), twins: twinsSaid(), manifest}
}

let turn = 0        // of the tally that runs, or ran last

async function tally() {
  const now = ++turn, stopped = () => now === turn ? null : new Promise(() => {})        // a tally that was cancelled goes on no more
  stale()
  await busily(async () => {
    at('cancel').focus()
    const answer = await wholeAnswer(stopped), {incomplete, lack} = answer
    show(answer)
    say([...incomplete, ...lack ? [lack + ', so there is no tally'] : incomplete.length ? [] : ['Done']].map(it => it + '.').join(' '), incomplete.length || lack)
  })
  const head = at('answer').querySelector('h1')
  ;(head ?? at('tally')).focus({preventScroll: true})
  head?.parentElement.scrollIntoView({block: 'nearest'})
}

// Takes away a result that isn't of what is given now.
function stale() {
  at('answer').replaceChildren()
  document.title = TITLE
}

function busy(is_busy) {
  at('give').hidden = is_busy
  at('cancel').hidden = !is_busy
}

function cancel() {
  working.worker.terminate()
  turn++
  busy(false)
  say('Cancelled. Nothing is shown.')
  at('tally').focus()
}

// A field is emptied, so that the same files can be chosen again.
function chosen({target}, pathOf) {
  const found = [...target.files].map(it => given(pathOf(it), it))
  target.value = ''
  return found
}

at('files').onchange = event => take(() => chosen(event, it => it.name))
at('folder').onchange = event => take(() => chosen(event, it => it.webkitRelativePath).sort(byPath))
at('manifest').onchange = event => take(async () => { say('Reading the manifest'); await giveManifest(...chosen(event, it => it.name)); return [] })
at('drop').ondragover = event => { event.preventDefault(); at('drop').className = 'over' }
at('drop').ondragleave = () => { at('drop').className = '' }
at('drop').ondrop = event => { event.preventDefault(); at('drop').className = ''; take(() => dropped(event)) }
at('tally').onclick = tally
at('cancel').onclick = cancel
at('clear').onclick = () => { sources.length = 0; manifest = null; twins.clear(); take(() => []) }
at('definition').onchange = () => { stale(); settle() }
at('list').ontoggle = drawList
start().catch(fault => say(`This page can't work in this browser: ${fault.fault ? FAULTS[fault.fault](fault) : fault.message}`, true))
