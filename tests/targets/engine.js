'use strict'
// jsc SCRIPT .. engine.js -- MODULE NAME ..: prints the tally of files in the folder in which it runs, by the module and
// the scripts of the page's worker, in the engine of Safari. That has no means of its own here to encode texts.
const [file, ...names] = globalThis.arguments
const ROOM = 1 << 20, LONG_NUMBER = '18446744073709551615'
const bytesAt = path => new Uint8Array(read(path, 'binary'))
const utf8 = text => Uint8Array.from(unescape(encodeURIComponent(text)), it => it.charCodeAt(0))
const decoded = bytes => decodeURIComponent(escape(String.fromCharCode(...bytes)))

const its = new cvr.Module(new WebAssembly.Module(bytesAt(file))), words = ['tally', '--', ...names]
const pieces = [...words.map(utf8), ...names.flatMap(it => [utf8(it), bytesAt(it)])], ends = []
for (const it of pieces) ends.push(it.length + (ends.at(-1) ?? 0))

// The place in the module's memory of these bytes.
function put(bytes) {
  const place = its.take(bytes.length)
  its.bytes(place, bytes.length).set(bytes)
  return place
}

const input = put(pieces.flatMap(it => [...it])), table = put(new Uint8Array(BigUint64Array.from(ends, BigInt).buffer)), sizes = its.take(16)
const [text, log] = [0, 0].map(() => its.take(ROOM)), status = its.call('cvr_call', input, ends.at(-1), table, ends.length, words.length, text, ROOM, log, ROOM, sizes)
if (status || compact(valueOf(`[${LONG_NUMBER}]`)) !== `[${LONG_NUMBER}]`) throw new Error(`status ${status}, or numbers are rounded`)
print(decoded(its.bytes(text, Number(its.numbers(sizes, 2)[0]))).trimEnd())
