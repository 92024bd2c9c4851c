/* node rows.mjs MODULE: for each line of standard input, a folder and the words of a command, a line with its text, the first line
   that is logged, and its status, as the functions of the package for JavaScript at this path answer. */
import path from 'node:path'
import {createInterface} from 'node:readline'
import {pathToFileURL} from 'node:url'

const cvr = await import(pathToFileURL(path.resolve(process.argv[2])))

const quoted = (...texts) => texts.map(it => it === null ? 'null' : JSON.stringify(it))
const line = (...parts) => parts.join(' ') + '\n'

function conflict({kind, device, record, snapshot, bodies}) {
  return kind === 'device' ? line(kind, ...quoted(device), bodies) : line(...quoted(device, record), kind, ...snapshot === null ? [] : quoted(snapshot), bodies)
}

function row({contest, unit, batch, votes, ...numbers}) {
  return line(...quoted(contest, unit, batch), ...Object.values(numbers), ...[...votes].flatMap(([name, count]) => [...quoted(name), count]))
}

// The text of a command, from what its function answers.
async function spelled(command, definition, ...words) {
  if (command === 'merge') return new TextDecoder().decode(await cvr.merge(definition, words[0], words[1], Number(words[2]), words.slice(3)))
  const found = await cvr[command](definition, words)
  if (command === 'check') return words.map(it => `${it} ${found.get(it) / words.filter(one => one === it).length}\n`).join('')
  if (command === 'currents') return found.map(it => line(...quoted(it.device, it.record, it.snapshot), it.type)).join('')
  return command === 'conflicts' ? found.names.map(conflict).join('') + line('volumes', found.volumes) : found.map(row).join('')
}

for await (const asked of createInterface({input: process.stdin})) {
  const {folder, words} = JSON.parse(asked)
  process.chdir(folder)
  const answer = await spelled(...words).then(text => [text, '', 0], fault => {
    if (fault instanceof cvr.Fault) return ['', `${fault.message}\n`, fault.status]
    if (fault.syscall) return ['', '', 3]
    return [String(fault.stack), '', -1]
  })
  console.log(JSON.stringify(answer))
}
