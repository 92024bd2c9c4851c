// node --wasm-max-mem-pages=64 refuse.mjs MODULE FILE ..: the package for JavaScript over these files where memory is short: it
// answers rightly, or that memory was refused, and then the same module answers rightly once there is memory again.
import fs from 'node:fs'
import path from 'node:path'
import {Files, Module} from '../../javascript/cvr.mjs'

const [file, ...paths] = process.argv.slice(2), compiled = new WebAssembly.Module(fs.readFileSync(file))
const bytes = paths.map(it => fs.readFileSync(it)), files = paths.map((it, at) => ({path: path.basename(it), size: bytes[at].length}))
const words = ['tally', '--', ...files.map(it => it.path)]
const EACH = 4096, STEP = 7
let right = 0, wrong = 0

function tell(is_right, what) {
  is_right ? right++ : wrong++
  if (!is_right) console.log('WRONG: not so: ' + what)
}

// The answer of a module; null where memory was refused.
function answered(module) {
  try {
    const held = new Files(module, files, [words])
    for (const it of bytes) held.put(it)
    const {status, text, log} = held.run(words)
    return status === 4 ? null : `${status} ${log}${new TextDecoder().decode(text)}`
  } catch (fault) {
    if (!(fault instanceof RangeError)) throw fault
    return null
  }
}

// A module whose memory is full, and the blocks that fill it.
function full() {
  const module = new Module(compiled), blocks = []
  try {
    for (;;) blocks.push(module.take(EACH))
  } catch (fault) {
    return {module, blocks}
  }
}

const whole = answered(new Module(compiled)), most = full().blocks.length
let refused = 0, done = 0
tell(whole?.startsWith('0 "'), 'the files have a tally')
for (let freed = 0; freed < most; freed += STEP) {
  const {module, blocks} = full()
  module.free(...blocks.splice(-freed || blocks.length))
  const answer = answered(module)
  answer === null ? refused++ : done++
  if (answer !== null && answer !== whole) tell(false, `with ${freed} blocks there is the same answer or none`)
  module.free(...blocks)
  if (answered(module) !== whole) tell(false, `after ${freed} blocks the module answers as before`)
}
tell(refused > 9 && done > 9, `memory was refused (${refused} times) and sufficed (${done} times)`)
console.log(`refuse: ${right} right, ${wrong} wrong`)
process.exit(wrong || !right ? 1 : 0)
