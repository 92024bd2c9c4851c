// Uses of the package for JavaScript, as its types allow them, and such as they don't: for tsc --strict.
import {Fault, Files, Module, Office, check, columns, conflicts, currents, load, merge, parts, run, tally, version, voteColumns} from './cvr.mjs'
import type {Conflict, CvrFile, Receipt, Row} from './cvr.mjs'

async function* streamed(files: File[]): AsyncIterable<CvrFile> {
  for (const it of files) yield it
}

export async function used(files: File[], bytes: Uint8Array, compiled: WebAssembly.Module) {
  const rows: Row[] = await tally('definition.json', [new URL('file:///scan.json'), ['scan', bytes], ...files])
  const votes: number | undefined = rows[0].votes.get('parks-yes')
  const units: (string | null)[] = rows.map(it => it.unit)
  const counts: Map<string, number> = await check(files[0], streamed(files))
  const its: readonly Conflict[] = (await conflicts(files[0], files)).names
  const volume: Uint8Array = await merge('definition.json', '2024-11-06T08:00:00Z', 'scanner-1', 1, ['scan.json'])
  const office: Office = await Office.of(['definition', bytes.buffer])
  const receipt: Receipt = await office.importFile('scan.json')
  const joined: number = office.join(office)
  await load(compiled)
  await load(fetch('cvr.wasm').then(it => it.arrayBuffer()))
  const module = new Module(compiled), held = new Files(module, [{path: 'a', size: 1}], [['check', 'a', 'a']])
  const status: number = held.run(['check', 'a', 'a']).status + module.using([8, 8], (one, other) => one - other)
  const part: string | bigint | null = parts('"a" 1')[0]
  const text: string = await version() + (await run(['--version'])).log + (await currents('a', ['b']))[0].device
  const table: Record<string, (string | number | null)[]> = {...columns(rows), ...voteColumns(rows)}
  return [votes, units, counts, its, volume, receipt, joined, status, part, text, table, office.size]
}

export function told(fault: unknown): string {
  return fault instanceof Fault ? `${fault.file} ${fault.code} ${fault.path ?? ''} ${fault.rule ?? 0} ${fault.words} ${fault.message}` : ''
}

export async function misused(rows: Row[], office: Office) {
  // @ts-expect-error: one file is not several
  await tally('definition.json', 7)
  // @ts-expect-error: bytes have no name
  await tally('definition.json', [new Uint8Array()])
  // @ts-expect-error: a row can't be changed
  rows[0].ballots = 1
  // @ts-expect-error: nor can its votes
  rows[0].votes.set('a', 1)
  // @ts-expect-error: an office is made by a call
  new Office()
  // @ts-expect-error: its tally waits for nothing
  office.tally().then()
}
