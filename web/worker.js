'use strict'
// Reads files into the module's memory, one after the other, and then runs commands over them.

const HELD = 67108865           // the most bytes that cvr reads of a file
const WHOLE = 2 ** 32           // bytes that a module's memory can have
const NO_DEVICE = 'The definition has no device', NO_ROOM = 'Memory does not suffice to look at all records, as cvr-audit warnings does'
let RULES                       // of the page: what cvr-audit gather goes by

async function digest(bytes) {
  const sum = new Uint8Array(await crypto.subtle.digest('SHA-256', bytes))
  return [...sum].map(it => it.toString(16).padStart(2, '0')).join('')
}

// The bytes of a file, and their SHA-256, where cvr reads it whole.
async function bytesAndSum(source, piece) {
  const bytes = await bytesOf(source, HELD, piece)
  return {bytes, sum: source.size < HELD ? await digest(bytes) : null}
}

// Volume 1 by a command over files in memory; null where it has no text, or where memory lacks: cvr then holds it twice
// besides the rest.
function volumeOf(held, words) {
  if (held.module.size + 2 * held.size > WHOLE) return null
  try {
    const {status, text} = held.run(words)
    return status > 1 || !text.length ? null : new Volume(text)
  } catch (fault) {
    if (!isOfMemory(fault)) throw fault
    return null
  }
}

// The commands: null among their words stands for the first device of the definition, which `cvr merge` needs. Where that
// has none, such a command is left out.
async function withDevice(runs, definition) {
  let device
  try {
    device = JSON.parse(frameText(await bytesOf(definition, HELD))).ReportingDevice[0]['@id']
  } catch (fault) {
    return runs.filter(words => !words.includes(null))
  }
  return runs.map(words => words.map(it => it ?? device))
}

// Reads files; tells which, and answers the sum of each by its path.
async function readTo(held, groups, tell) {
  const sums = new Map(), count = held.paths.length
  for await (const [it, {value, reason}] of settledOf(groups, bytesAndSum)) {
    tell(it.path, `Reading ${sums.size + 1} of ${count}: ${it.path}`)
    if (reason) throw reason
    held.put(value.bytes)
    sums.set(it.path, value.sum)
  }
  return sums
}

// Reads, and runs each of the commands; tells each step, and why it stops. Of the files the first is the definition; where its
// records count, it stands twice, and is read once. Answers also the definition without its records, of each file its sum, and
// what the records say; or why no current snapshot was looked at.
async function answered(compiled, files, runs, tell) {
  const groups = groupsOf([...new Map(files.map(it => [it.path, it])).values()]), order = groups.flatMap(it => it.sources)
  const all = await withDevice(runs, files[0]), held = new cvr.Files(new cvr.Module(compiled), order, all), answers = []
  const looks = all.some(([task]) => task === 'conflicts')     // at the records; then volume 1 is for that alone
  const by_path = await readTo(held, groups, tell), sums = files.map(it => by_path.get(it.path)), places = new Map(order.map((it, at) => [it.path, at]))
  const read = at => held.bytes(places.get(files[at].path))
  let volume = null
  for (const words of all) {
    tell(null, `Running cvr ${words[0]}`)
    if (words[0] === 'merge' && looks) volume = volumeOf(held, words)
    else answers.push(held.run(words))
  }
  for (const it of answers) it.sum = await digest(it.text)
  const [check, conflicts] = ['check', 'conflicts'].map(it => answers[all.findIndex(([task]) => task === it)])
  if (!looks || answers.some(it => it.status > 1)) return {answers, sums}
  tell(null, 'Reading the records once more')
  const printed = its => new TextDecoder().decode(its.text), unseen = volume ? null : all.length < runs.length ? NO_DEVICE : NO_ROOM
  const its = looked(files.map(it => it.path), read, {...check, text: printed(check)}, printed(conflicts), volume)
  return {first: its.states[0].records === undefined ? null : frameText(read(0)), sums, answers, unseen, ...its}
}

const isOfMemory = fault => fault instanceof RangeError

// What a run means that has no answer.
const failure = ({status, log}) => status === 4 ? new RangeError('out of memory') : new Error(log)

// What a fault is: that of a source, want of memory, that of the file that is read, or that of the program.
function faultOf(fault, path) {
  if (fault instanceof Unfit) return {fault: 'unfit', said: fault.message}
  return {fault: isOfMemory(fault) ? 'memory' : path === null ? 'program' : 'file', path, said: String(fault)}
}

// Runs commands over files; or answers their definition, the one that is named, if one is; or gathers an export.
function done({compiled, files, runs, named}, tell) {
  if (runs) return answered(compiled, files, runs, tell)
  return named === undefined ? gathered(files, compiled, tell) : definitionOf(files, named, compiled, tell)
}

onmessage = async ({data}) => {
  let path = null
  const tell = (now, step) => { path = now; if (step) postMessage({step}) }
  RULES = data.rules
  try {
    postMessage(await done(data, tell))
  } catch (fault) {
    postMessage(faultOf(fault, path))
  }
}
