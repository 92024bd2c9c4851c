// node serve.mjs MODULE SOCKET: calls the module with what ask.c sends, and answers what the call leaves.
import fs from 'node:fs'
import net from 'node:net'
import {Module} from '../../javascript/cvr.mjs'

const [file, socket] = process.argv.slice(2), compiled = new WebAssembly.Module(fs.readFileSync(file))
const imported = WebAssembly.Module.imports(compiled)
if (imported.length) throw new Error('the module imports ' + JSON.stringify(imported))
const its = new Module(compiled)
const HEAD = 5                  // numbers: the lengths of the input, the ends and both rooms, and how many words there are

// Answers a call: the status, the sizes and both rooms. What was sent are the head, the sizes, and the arrays of the call.
function answered(sent) {
  const [input, ends, words, text, log] = Array.from({length: HEAD}, (_, at) => Number(sent.readBigUInt64LE(8 * at)))
  const counts = [16, 8 * ends, text, log, input]
  const answer = its.using(counts, (...places) => {
    let from = 8 * HEAD
    for (const [at, count] of counts.entries()) its.bytes(places[at], count).set(sent.subarray(from, from += count))
    const [sizes, table, text_room, log_room, bytes] = places
    const status = its.call('cvr_call', bytes, input, table, ends, words, text_room, text, log_room, log, sizes)
    return Buffer.concat([Buffer.from([status]), ...[[sizes, 16], [text_room, text], [log_room, log]].map(it => Buffer.from(its.bytes(...it)))])
  })
  if (its.used) throw new Error(`a call kept ${its.used} bytes`)
  return answer
}

net.createServer({allowHalfOpen: true}, asked => {
  const parts = []
  asked.on('data', it => parts.push(it))
  asked.on('end', () => asked.end(answered(Buffer.concat(parts))))
}).listen(socket)
