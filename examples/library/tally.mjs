// node tally.mjs DEFINITION FILE ..: prints the tally of files by the library, as `cvr tally` does.
import {Fault, tally} from '../../dist/cvr.mjs'

const [definition, ...files] = process.argv.slice(2), quoted = it => JSON.stringify(it)
try {
  for (const {contest, unit, batch, votes, ...numbers} of await tally(definition, files))
    console.log(quoted(contest), quoted(unit), quoted(batch), ...Object.values(numbers), ...[...votes].flatMap(([selection, count]) => [quoted(selection), count]))
} catch (fault) {
  if (!(fault instanceof Fault)) throw fault
  console.error(`${fault.message}\n${fault.words}`)
  process.exitCode = fault.status
}
