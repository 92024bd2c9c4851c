/** cvr in JavaScript: the proved program as a library, over files or bytes.
 *
 * Each of `tally`, `currents`, `conflicts`, `check` and `merge` makes an `Office` of a definition, has it take in one file
 * after the other, and asks it. What is refused is thrown as `Fault`. What can't be read is thrown as the system has it;
 * refused memory, and a number that JavaScript would round, as `RangeError`; what is no file or word, as `TypeError`. Bytes
 * that are given are not to change until the promise is settled. Types need the libraries `es2020` and `dom`. */

/** A name, and what a file has. */
export type Pair = readonly [name: string | URL, data: ArrayBuffer | ArrayBufferView | Blob]

/** A definition, or another file: in Node a path; a `File`, whose name is its `name`; or a pair. */
export type CvrFile = string | URL | File | Pair

/** Several files, which are read one after the other. */
export type CvrFiles = Iterable<CvrFile> | AsyncIterable<CvrFile>

/** A row of the tally: the numbers of a contest for the records of a unit and a batch. */
export interface Row {
  readonly contest: string
  readonly unit: string | null
  readonly batch: string | null
  readonly ballots: number
  readonly overvotes: number
  readonly undervotes: number
  readonly writeIns: number
  readonly pending: number
  readonly unassigned: number
  /** By the ids of the contest's selections, in the definition's order; an object in JSON. */
  readonly votes: ReadonlyMap<string, number>
}

/** A record's name, and the id and the type of its current snapshot. */
export interface Current {
  readonly device: string
  readonly record: string
  readonly snapshot: string
  readonly type: string
}

/** A name with several bodies: that of a device, of the header of a record, or of one of its snapshots. */
export interface Conflict {
  readonly kind: 'device' | 'header' | 'snapshot'
  readonly device: string
  readonly record: string | null
  readonly snapshot: string | null
  readonly bodies: number
}

/** The names with several bodies, and how many volumes show all of them. */
export interface Conflicts {
  readonly names: readonly Conflict[]
  readonly volumes: number
}

/** What an import brought: the cast vote records of the file, and how many facts were new. */
export interface Receipt {
  readonly cvrs: number
  readonly newFacts: number
}

/** What a run printed, what it logged, and its status, as the program's. */
export interface Result {
  readonly text: Uint8Array
  readonly log: string
  readonly status: number
}

/** Why there is no result: the first refusal. `message` is the line that the program logs, with control characters escaped.
 * `{...fault}` has all of it, for `postMessage`; so has JSON. */
export class Fault extends Error {
  private constructor()
  /** The name or path of the refused file, or `merge`. */
  readonly file: string
  /** One of docs/FAULTS.md: E1 to E5, H1, H2 or V1. */
  readonly code: string
  /** Where the fault is in the file, a JSON Pointer: of E3, E4 and E5. */
  readonly path: string | null
  /** The number of the broken rule: of E3. */
  readonly rule: number | null
  /** How many volumes there are: of V1. */
  readonly volumes: number | null
  /** What the code means, and what to do. */
  readonly words: string
  readonly status: 1
}

/** The rows of the tally, in the order in which they are printed. */
export function tally(definition: CvrFile, files: CvrFiles): Promise<Row[]>

/** The current snapshot of each record, by name. */
export function currents(definition: CvrFile, files: CvrFiles): Promise<Current[]>

/** The names with several bodies, and how many volumes show them. */
export function conflicts(definition: CvrFile, files: CvrFiles): Promise<Conflicts>

/** How many cast vote records each file has, by its name or path; of files with one name, their sum. */
export function check(definition: CvrFile, files: CvrFiles): Promise<Map<string, number>>

/** The volume with this number of what the files hold, under a date and a device: the bytes of a report. */
export function merge(definition: CvrFile, date: string, device: string, volume: number, files: CvrFiles): Promise<Uint8Array>

/** The numbers of a tally as lists by name: an entry a row. */
export function columns(rows: Iterable<Row>): Record<string, (string | number | null)[]>

/** The votes of a tally as lists by name: an entry for each selection of a row. */
export function voteColumns(rows: Iterable<Row>): Record<string, (string | number | null)[]>

/** What the program prints and logs for the words after its name, and its status, over these files alone: a word names a file
 * by its path or name. All files are held at once. */
export function run(words: Iterable<string>, files?: CvrFiles): Promise<Result>

/** The version of the program. */
export function version(): Promise<string>

/** Says what the module is, before it is needed: its bytes, or as WebAssembly compiled it. Else it is `cvr.wasm` beside
 * `cvr.mjs`. What is made afterwards has a new memory. */
export function load(source: BufferSource | WebAssembly.Module | Promise<BufferSource | WebAssembly.Module>): Promise<void>

/** The parts of a line that the program prints: texts, numbers, null, and other words as they are. */
export function parts(line: string): (string | bigint | null)[]

/** An office, which holds what it took in beside one definition, until it is closed. The order of the files makes no
 * difference, and a file that comes twice counts once. What is refused is thrown as `Fault`, and changes nothing. A closed
 * office throws an `Error`. All offices share one memory, which never shrinks, of at most 4 GiB. One that is dropped without
 * `close` is freed some time after the engine sees that nothing uses it. */
export class Office {
  static of(definition: CvrFile): Promise<Office>
  private constructor()

  /** Takes in a file. Bytes are taken in before it returns, and may change then. */
  importFile(file: CvrFile): Promise<Receipt>

  /** Takes in what another office holds, which stays as it is, and answers how many facts were new. An `Error` where the
   * definitions differ, devices aside, and then it is as it was. */
  join(other: Office): number

  tally(): Row[]
  currents(): Current[]
  conflicts(): Conflicts

  /** The volume with this number, under a date and a device. A `Fault` with H1, H2 or V1 where there is none; a `RangeError`
   * where the number is below 1 or isn't whole. */
  volume(date: string, device: string, number: number): Uint8Array

  /** How many records it holds. */
  readonly size: number

  /** Frees it. It can be closed once more. */
  close(): void
}

/** The module in a memory of its own, for calls as cvr.h has them: by places in that memory, and lengths. After a call that
 * was cut off, as where the stack ran over, it is lost. */
export class Module {
  constructor(compiled: WebAssembly.Module)
  readonly isLost: boolean
  /** How many bytes the memory has, and how many are in use. */
  readonly size: number
  readonly used: number
  /** The place of so many new bytes. */
  take(count: number): number
  /** Frees what was taken. An `Error` where a place wasn't, or is free already; then nothing is changed. */
  free(...places: number[]): void
  /** Bytes, and numbers of 64 bits, where they stand: until the memory grows. */
  bytes(place: number, count: number): Uint8Array
  numbers(place: number, count: number): BigUint64Array
  /** The status of a call by its name. A `TypeError`, before it is called, where it has not these numbers. */
  call(name: string, ...given: (number | bigint)[]): number
  /** What a function answers that is given rooms of so many bytes, which are freed then. */
  using<T>(counts: readonly number[], how: (...places: number[]) => T): T
}

/** Files in the memory of a module, over which commands run without being given them again. `runs` are the words of all these
 * commands; `put` gives the bytes of one file after the other, of no more than its size. */
export class Files {
  constructor(module: Module, files: readonly { readonly path: string, readonly size: number }[], runs: readonly (readonly string[])[])
  put(bytes: Uint8Array): void
  run(words: readonly string[]): Result
  bytes(at: number): Uint8Array
  end(): void
}
