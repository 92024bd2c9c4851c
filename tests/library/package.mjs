/* node --expose-gc package.mjs MODULE: tries the package for JavaScript at this path, with cvr.wasm beside it, on the examples of
   a county. The answers are those of the program over the same files, or follow from FORMAT; package_rows.py has those of the
   rows. The last line is `javascript: N right, M wrong`; as one that is wrong also counts a part that doesn't come to its end. */
import fs from 'node:fs'
import os from 'node:os'
import path from 'node:path'
import {fileURLToPath, pathToFileURL} from 'node:url'
import {Worker} from 'node:worker_threads'

// Each memory that the package makes is kept; with `feign` a call of one answers in the place of its own.
const made = [], Made = WebAssembly.Instance, feigned = {}
WebAssembly.Instance = class {
  constructor(...given) {
    const {exports} = new Made(...given)
    this.exports = {...exports, cvr_office_tally: (handle, text, room, size) => (feigned.tally ?? exports.cvr_office_tally)(handle, text, room, size)}
    made.push(this.exports)
  }
}

const TOP = path.dirname(path.dirname(path.dirname(fileURLToPath(import.meta.url)))), own = path.resolve(process.argv[2])
const cvr = await import(pathToFileURL(own))
const [DEFINITION, SCAN, ADJUDICATED, CORRECTED, DAMAGED] = ['definition', 'scan', 'adjudicated', 'corrected', 'damaged'].map(it => path.join(TOP, 'examples/county', it + '.json'))
const MOMENT = '2024-11-06T08:00:00Z', DEVICE = 'scanner-1', LONG = 67108865
const held = fs.readFileSync, text = bytes => new TextDecoder('utf-8', {ignoreBOM: true}).decode(bytes)
const spelled = it => JSON.stringify(it, function (name, it) { return this[name] instanceof Map ? [...this[name]] : it })
const same = (a, b) => spelled(a) === spelled(b)

// What a call throws, or its promise; null where it doesn't.
async function refused(call, ...given) {
  try {
    await call(...given)
  } catch (fault) {
    return fault
  }
  return null
}

function changed(file, old, by) {
  const before = held(file, 'utf-8'), after = before.replaceAll(old, by)
  if (after === before) throw new Error('nothing is changed')
  return ['changed', new TextEncoder().encode(after)]
}

const pair = (name, text) => [name, new TextEncoder().encode(text)]
const linesOf = ({text: its}) => text(its).split('\n').slice(0, -1)

// A file for each code with which a file can be refused.
const faulty = () => [['E1', ['long', new Uint8Array(LONG).fill(32)]], ['E2', ['cut', held(SCAN).subarray(0, -20)]], ['E3', changed(SCAN, '"UniqueId"', '"Unique"')],
  ['E4', changed(SCAN, '"ContestSelectionId": "council-', '"ContestSelectionId": "nobody-')], ['E5', changed(SCAN, '"Name": "', '"Name": "Not ')]]

async function* of_rows() {
  const rows = await cvr.tally(DEFINITION, [SCAN, ADJUDICATED]), lines = linesOf(await cvr.run(['tally', DEFINITION, SCAN, ADJUDICATED], [DEFINITION, SCAN, ADJUDICATED]))
  yield ['there is a row for each line', rows.length === lines.length && rows.length > 0]
  const quoted = it => it === null ? 'null' : `"${it}"`
  for (const [at, it] of rows.entries()) {
    const numbers = [it.ballots, it.overvotes, it.undervotes, it.writeIns, it.pending, it.unassigned], votes = [...it.votes].map(([name, count]) => `${quoted(name)} ${count}`)
    yield ['a row is its line', [...[it.contest, it.unit, it.batch].map(quoted), ...numbers, ...votes].join(' ') === lines[at]]
    yield ['it can not be changed', Object.isFrozen(it) && it.votes instanceof Map && await refused(() => it.votes.set('a', 1)) instanceof TypeError]
    yield ['it has its votes in JSON', same(JSON.parse(JSON.stringify(it)).votes, Object.fromEntries(it.votes))]
  }
  const table = cvr.columns(rows.values()), votes = cvr.voteColumns(rows.values())
  yield ['columns are the parts of rows', same(Object.keys(table), Object.keys(rows[0]).slice(0, -1)) && Object.entries(table).every(([name, all]) => same(all, rows.map(it => it[name])))]
  yield ['those of votes are theirs', same(Object.keys(votes), ['contest', 'unit', 'batch', 'selection', 'votes'])]
  yield ['an entry a selection', same(votes.contest.map((_, at) => Object.values(votes).map(it => it[at])),
    rows.flatMap(it => [...it.votes].map(one => [it.contest, it.unit, it.batch, ...one])))]
  yield ['no rows have empty columns', same(Object.values({...cvr.columns([]), ...cvr.voteColumns([])}), Array(11).fill([]))]
}

async function* of_commands() {
  const currents = await cvr.currents(DEFINITION, [SCAN]), counts = await cvr.check(DEFINITION, [SCAN, ['a', held(SCAN)], ['b', held(SCAN)], ['a', held(SCAN)]]), count = currents.length
  yield ['each record has a current snapshot', count > 0 && same(counts, new Map([[SCAN, count], ['a', 2 * count], ['b', count]]))]
  yield ['they are the lines', same(currents.map(it => `"${it.device}" "${it.record}" "${it.snapshot}" ${it.type}`), linesOf(await cvr.run(['currents', DEFINITION, SCAN], [DEFINITION, SCAN])))]
  const three = [SCAN, ADJUDICATED, CORRECTED], conflicts = await cvr.conflicts(DEFINITION, three), lines = linesOf(await cvr.run(['conflicts', DEFINITION, ...three], [DEFINITION, ...three]))
  const spelled = it => it.kind === 'device' ? `device "${it.device}" ${it.bodies}` : `"${it.device}" "${it.record}" ${it.kind}${it.snapshot === null ? '' : ` "${it.snapshot}"`} ${it.bodies}`
  yield ['conflicts are the lines', same([...conflicts.names.map(spelled), `volumes ${conflicts.volumes}`], lines) && new Set(conflicts.names.map(it => it.kind)).size === 3]
  yield ['they can not be changed', [conflicts, conflicts.names, conflicts.names[0], currents[0]].every(Object.isFrozen)]
  const volume = await cvr.merge(DEFINITION, MOMENT, DEVICE, 1, [SCAN])
  yield ['a volume is its text', text(volume) === text((await cvr.run(['merge', DEFINITION, MOMENT, DEVICE, '1', SCAN], [DEFINITION, SCAN])).text) && volume.length > 1000]
  yield ['the version is the program\'s', text((await cvr.run(['--version'])).text) === `cvr ${await cvr.version()}\n`]
  yield ['no words are refused', (await cvr.run([])).status === 2]
  yield ['a file that is not given is missing', same(await cvr.run(['tally', 'a', 'b']), {status: 3, text: new Uint8Array(), log: 'a: K1\n'})]
  yield ['a log begins as it does', (await cvr.run(['tally', '\ufeffa', 'b'])).log === '\ufeffa: K1\n']
  const many = Array.from({length: 2000}, (_, at) => pair(`${at}`.repeat(99), ''))
  yield ['a long log is whole', (await cvr.run(['check', DEFINITION, ...many.map(([name]) => name)], [DEFINITION, ...many])).log === many.map(([name]) => `${name}: E2\n`).join('')]
}

async function* of_faults() {
  const faults = []
  for (const [, file] of faulty()) faults.push(await refused(cvr.tally, DEFINITION, [file]))
  for (const words of [['never', 'none', 9], [MOMENT, 'none', 9], [MOMENT, DEVICE, 9]]) faults.push(await refused(cvr.merge, DEFINITION, ...words, [SCAN]))
  yield ['these are all codes', same(faults.map(it => it.code), ['E1', 'E2', 'E3', 'E4', 'E5', 'H1', 'H2', 'V1'])]
  yield ['each is a fault', faults.every(it => it instanceof cvr.Fault && it instanceof Error && it.name === 'Fault' && it.status === 1)]
  for (const [at, [, file]] of faulty().entries()) yield ['each has the line of the log', faults[at].message + '\n' === (await cvr.run(['check', DEFINITION, file[0]], [DEFINITION, file])).log]
  yield ['a path only where one stands', same(faults.map(it => it.path === null), [true, true, false, false, false, true, true, true])]
  yield ['a rule is of E3', same(faults.map(it => it.rule), [null, null, 2, null, null, null, null, null])]
  yield ['of V1 it has how many there are', same([faults[7].message, faults[7].volumes, faults[6].volumes], ['merge: V1 1', 1, null])]
  const document = held(path.join(TOP, 'docs/FAULTS.md'), 'utf-8').replaceAll('`', '')
  yield ['each has words of FAULTS', faults.every(it => it.code === 'E3' || it.words.split('. ').every(part => document.includes(part)))]
  yield ['those of a rule are with it', faults[2].words.startsWith('The file does not have the form of a report: a required member is absent. ')]
  yield ['its parts can be sent on', same(structuredClone({...faults[2]}), {...faults[2]}) && same([faults[2].file, JSON.parse(JSON.stringify(faults[2])).message], ['changed', faults[2].message])]
  yield ['the definition comes first', (await refused(cvr.tally, pair('d', '{}'), [DAMAGED])).file === 'd']
  yield ['then the files in order', (await refused(cvr.check, DEFINITION, [pair('b', ''), pair('a', '')])).file === 'b']
  yield ['then what follows', (await refused(cvr.merge, DEFINITION, 'never', 'none', 1, [SCAN, DAMAGED])).file === DAMAGED]
  for (const name of ['good.json: E1\nevil.json', 'a: E3 /x 1', '', 'merge', '\u202e\x1b[2J']) {
    const fault = await refused(cvr.tally, DEFINITION, [['good.json', held(SCAN)], pair(name, '[]')])
    yield ['it blames the file that was given', same([fault.file, fault.code, fault.path, fault.rule], [name, 'E3', '', 1]) && /: E3 {2}1$/.test(fault.message)]
    yield ['on one line', !/[\0-\x1f\x7f-\x9f\u2028-\u202e]/.test(fault.message)]
  }
  const fault = await refused(cvr.tally, DEFINITION, [pair('a\nb\x7f', '{"b\\n/\\u009b":0.5}')])
  yield ['controls are escaped', same([fault.path, fault.message], ['/b\n~1\x9b', 'a\\nb\\x7f: E3 /b\\n~1\\x9b 14'])]
  const long = await refused(cvr.tally, DEFINITION, [pair('a', `{"${'b'.repeat(100000)}":0.5}`)])
  yield ['a long path is whole', long.path === '/' + 'b'.repeat(100000)]
}

async function* of_files() {
  const wanted = await cvr.tally(DEFINITION, [SCAN]), bytes = held(SCAN), apart = new Uint8Array(bytes.length + 7)
  apart.set(bytes, 5)
  const part = apart.subarray(5, 5 + bytes.length), buffer = part.slice().buffer
  const ways = [pathToFileURL(SCAN), ['a', bytes], ['a', part], ['a', buffer], ['a', new DataView(buffer)], ['a', new Blob([bytes])], [pathToFileURL('/a'), part]]
  if (globalThis.File) ways.push(new File([bytes], 'a'))
  for (const way of ways) yield ['a file may be given so', same(await cvr.tally(DEFINITION, new Set([way])), wanted)]
  yield ['a definition, too', same(await cvr.tally(['d', new Blob([held(DEFINITION)])], [SCAN]), wanted)]
  for (const odd of [null, 0, {}, ['a'], ['a', 'text'], [0, bytes], bytes, new Blob([bytes])]) yield ['what has no name or no bytes is refused', await refused(cvr.tally, DEFINITION, [odd]) instanceof TypeError]
  for (const one of [SCAN, pathToFileURL(SCAN), ['a', bytes], bytes, new Blob([bytes]), null, 7])
    for (const call of [it => cvr.tally(DEFINITION, it), it => cvr.check(DEFINITION, it), it => cvr.run(['check'], it)]) {
      const fault = await refused(call, one)
      yield ['one file is not several', fault instanceof TypeError && fault.message.includes('[file]')]
    }
  for (const [words, files] of [['check', []], [['check', 7], []], [['\ud800'], []], [['check'], [['\udc00', bytes]]]]) yield ['a word has to be a text in UTF-8', await refused(cvr.run, words, files) instanceof TypeError]
  yield ['a missing file is a fault of the system', (await refused(cvr.tally, DEFINITION, ['/none.json'])).code === 'ENOENT']
  const folder = fs.mkdtempSync(path.join(os.tmpdir(), 'cvr-')), sparse = path.join(folder, 'long.json')
  fs.closeSync(fs.openSync(sparse, 'w'))
  fs.truncateSync(sparse, 2 ** 36)
  yield ['of a long file no more is read than shows that', (await refused(cvr.tally, DEFINITION, [sparse])).code === 'E1']
  fs.rmSync(folder, {recursive: true})
  const done = []
  async function* files(bytes) {
    for (const name of 'ab') {
      done.push('asked')
      yield [name, {__proto__: Blob.prototype, slice: () => (done.push('read'), new Blob([bytes]))}]
    }
  }
  await cvr.tally(DEFINITION, files(bytes))
  yield ['files are read one after the other', same(done.splice(0), ['asked', 'read', 'asked', 'read'])]
  await refused(cvr.tally, DEFINITION, files(''))
  yield ['and none after one that is refused', same(done, ['asked', 'read'])]
}

async function* of_offices() {
  const [office, other] = [await cvr.Office.of(DEFINITION), await cvr.Office.of(DEFINITION)]
  const first = await office.importFile(SCAN), again = await office.importFile(SCAN)
  yield ['a receipt has the records', first.cvrs === office.size && first.cvrs > 0 && Object.isFrozen(first)]
  yield ['a file once more brings nothing', first.newFacts > 0 && same(again, {cvrs: first.cvrs, newFacts: 0})]
  yield ['an office tallies', same(office.tally(), await cvr.tally(DEFINITION, [SCAN]))]
  for (const [code, file] of faulty()) yield ['a file is refused', (await refused(it => office.importFile(it), file)).code === code]
  yield ['and changes nothing', same(office.tally(), await cvr.tally(DEFINITION, [SCAN]))]
  await other.importFile(ADJUDICATED)
  const joined = other.join(office)
  yield ['it joins another', joined > 0 && joined <= first.newFacts && other.join(office) === 0]
  yield ['and then has its currents', same(other.currents(), await cvr.currents(DEFINITION, [SCAN, ADJUDICATED]))]
  await other.importFile(CORRECTED)
  yield ['and conflicts', same(other.conflicts(), await cvr.conflicts(DEFINITION, [SCAN, ADJUDICATED, CORRECTED]))]
  yield ['an office joins itself', office.join(office) === 0 && same(office.tally(), await cvr.tally(DEFINITION, [SCAN]))]
  yield ['nothing else is joined', await refused(() => office.join({})) instanceof TypeError]
  yield ['it gives a volume', text(office.volume(MOMENT, DEVICE, 1)) === text(await cvr.merge(DEFINITION, MOMENT, DEVICE, 1, [SCAN]))]
  for (const number of [0, -1, 1.5, NaN, 2 ** 53]) yield ['volumes are numbered from 1', await refused(() => office.volume(MOMENT, DEVICE, number)) instanceof RangeError]
  for (const number of ['1', 1n, undefined]) yield ['by a number', await refused(cvr.merge, DEFINITION, MOMENT, DEVICE, number, ['/none.json']) instanceof TypeError]
  yield ['however great the number', (await refused(() => office.volume(MOMENT, DEVICE, 2 ** 40))).message === 'merge: V1 1']
  yield ['a date is a word', await refused(() => office.volume('\ud800', DEVICE, 1)) instanceof TypeError]
  const foreign = await cvr.Office.of(changed(DEFINITION, '"Name": "', '"Name": "Not '))
  yield ['but none of another definition', /different definitions/.test(await refused(() => office.join(foreign)))]
  foreign.close()
  foreign.close()
  for (const call of [() => foreign.tally(), () => foreign.size, () => foreign.join(office), () => office.join(foreign), () => foreign.importFile(SCAN), () => foreign.volume(MOMENT, DEVICE, 1)])
    yield ['a closed one has nothing', /closed/.test(await refused(call))]
  const reused = held(SCAN), count = office.currents().length, taken = office.importFile(['a', reused])
  reused.fill(0)
  yield ['bytes may change once they are given', (await taken).cvrs === count]
  const late = office.importFile(CORRECTED)
  office.close()
  yield ['one that is closed meanwhile takes in nothing', /closed/.test(await refused(() => late))]
  yield ['a call makes an office', await refused(() => new cvr.Office()) instanceof TypeError]
  other.close()
}

async function* of_numbers() {
  const office = await cvr.Office.of(DEFINITION)
  for (const [number, is_right] of [[2n ** 53n - 1n, true], [2n ** 53n, false]]) {
    const line = new TextEncoder().encode(`"a" null null ${number} 0 0 0 0 0 "b" 1\n`)
    feigned.tally = (_, place, room, size) => {
      new Uint8Array(made.at(-1).memory.buffer, Number(place)).set(line)
      new BigUint64Array(made.at(-1).memory.buffer, Number(size), 1)[0] = BigInt(line.length)
      return 0
    }
    const fault = await refused(() => office.tally())
    yield ['a number is exact, or refused', is_right ? !fault && office.tally()[0].ballots === Number(number) : fault instanceof RangeError]
  }
  delete feigned.tally
  yield ['of none, and of one that is long', same(cvr.parts(''), []) && cvr.parts(`"${'a'.repeat(2e7)}\\\\" 1`)[1] === 1n && await refused(() => cvr.parts('"a')) instanceof SyntaxError]
  yield ['the parts of a line', same(cvr.parts('"a \\" b" null 12 modified').map(String), ['a " b', 'null', '12', 'modified']) && cvr.parts('null 12')[0] === null && cvr.parts('12')[0] === 12n]
  office.close()
}

const used = () => Number(made.at(-1).cvr_used())

async function* of_memory() {
  const before = used()
  await cvr.tally(DEFINITION, [SCAN])
  await refused(cvr.tally, DEFINITION, [DAMAGED])
  await refused(cvr.tally, pair('d', '{}'), [])
  await refused(cvr.merge, DEFINITION, 'never', DEVICE, 1, [SCAN])
  await cvr.run(['tally', DEFINITION, SCAN], [DEFINITION, SCAN])
  yield ['nothing stays in memory', used() === before]
  await (async () => { for (let left = 30; left; left--) await (await cvr.Office.of(DEFINITION)).importFile(SCAN) })()
  const most = used()
  for (let turns = 50; turns && used() > before; turns--) {
    gc()
    await new Promise(done => setTimeout(done, 10))
  }
  yield ['an office that is dropped is freed', most > before && used() === before]
  const office = await cvr.Office.of(DEFINITION), module = new cvr.Module(await WebAssembly.compile(held(path.join(path.dirname(own), 'cvr.wasm'))))
  const place = module.take(8), memories = made.length
  for (const wrong of [0, 8, place + 16, 2 ** 32 - 16]) yield ['what was not taken is not freed', /^Error: cvr_free: /.test(await refused(() => module.free(wrong)))]
  module.free(place)
  yield ['nor a second time, and all goes on', /^Error: cvr_free: /.test(await refused(() => module.free(place))) && module.used === 0 && !module.isLost]
  for (const call of [() => module.take(1.5), () => module.take(), () => module.call('nope'), () => module.call('cvr_call', 1)]) yield ['a wrong call is none', await refused(call) !== null && !module.isLost]
  yield ['a memory has no more than 4 GiB', await refused(() => module.take(2 ** 33)) instanceof RangeError && !module.isLost]
  yield ['a call that is cut off', await refused(() => module.call('cvr_office_tally', 2 ** 32 - 8, 0, 0, 0)) instanceof WebAssembly.RuntimeError && module.isLost]
  yield ['loses its memory', /lost/.test(await refused(() => module.take(8)))]
  let is_whole = true
  const deep = left => left ? deep(left - 1) : office.tally(), lost = () => refused(() => office.tally()).then(it => /lost/.test(it))
  for (let turns = 9; turns; turns--)       // the engine changes how deep it comes
    for (let low = 0, high = 2 ** 18; high - low > 1 && !await lost();) {
      const left = (low + high) >> 1, fault = await refused(() => deep(left))
      fault ? high = left : low = left
      is_whole &&= await lost() || !await refused(() => office.tally())
    }
  yield ['where the stack runs over, an office is lost', await lost()]
  yield ['or whole', is_whole]
  office.close()
  yield ['and what follows has another memory', (await cvr.tally(DEFINITION, [SCAN])).length > 0 && made.length === memories + 1]
  const old = await cvr.Office.of(DEFINITION)
  await cvr.load(held(path.join(path.dirname(own), 'cvr.wasm')))
  const next = await cvr.Office.of(DEFINITION)
  yield ['offices of two memories do not join', /one memory/.test(await refused(() => next.join(old))) && old.tally().length === 0]
  const empty = new Uint8Array([0, 97, 115, 109, 1, 0, 0, 0])
  yield ['nor is one of another kind taken', await refused(cvr.load, empty) instanceof TypeError]
  let fail
  const failing = refused(cvr.load, new Promise((_, no) => { fail = no }))
  await cvr.load(held(path.join(path.dirname(own), 'cvr.wasm')))
  const before_late = await cvr.Office.of(DEFINITION)
  fail(new Error('late'))
  yield ['a module that fails later takes no other one away', /late/.test(await failing) && before_late.join(await cvr.Office.of(DEFINITION)) === 0]
  yield ['what is no module is refused', await refused(cvr.load, new Uint8Array(9)) instanceof WebAssembly.CompileError && (await cvr.version()).length > 4]
  for (const it of [old, next]) it.close()
}

// In a thread of its own the package has a memory of its own.
async function* of_threads() {
  const script = `import('${pathToFileURL(own)}').then(async cvr => require('node:worker_threads').parentPort.postMessage(await cvr.tally(...require('node:worker_threads').workerData)))`
  const answers = await Promise.all([1, 2].map(() => new Promise((done, fail) => new Worker(script, {eval: true, workerData: [DEFINITION, [SCAN]]}).on('message', done).on('error', fail))))
  yield ['threads answer, and rows can be sent on', same(answers, Array(2).fill(await cvr.tally(DEFINITION, [SCAN])))]
}

async function* of_types() {
  const declared = [...held(path.join(TOP, 'javascript/cvr.d.mts'), 'utf-8').matchAll(/^export (?:class|function) (\w+)/gm)].map(it => it[1])
  yield ['all names have types', same(Object.keys(cvr).sort(), declared.sort())]
}

let right = 0, wrong = 0
for (const part of [of_rows, of_commands, of_faults, of_files, of_offices, of_numbers, of_memory, of_threads, of_types]) {
  try {
    for await (const [name, is_right] of part()) {
      is_right ? right++ : wrong++
      if (!is_right) console.log('WRONG: not so: ' + name)
    }
  } catch (fault) {
    wrong++
    console.log(`WRONG: ${part.name} does not come to its end: ${fault.stack}`)
  }
}
console.log(`javascript: ${right} right, ${wrong} wrong`)
process.exit(wrong ? 1 : 0)
