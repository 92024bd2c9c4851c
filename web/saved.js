'use strict'
// What the page saves and prints. Each of these says first what isn't in the tally, or its name does.

function save(name, bytes, type) {
  const url = URL.createObjectURL(new Blob([bytes], {type})), link = element('a', {href: url, download: name})
  link.click()
  setTimeout(() => URL.revokeObjectURL(url), 60000)
}

function button(said, act) {
  return element('button', {type: 'button', onclick: act}, said)
}

const VOLUME = 'All records as a report for another office (a volume; where files contradict each other, there are several): '

// What a volume of `cvr merge` needs besides the files: a date, one of the definition's devices, and its number.
function volumeOf(answer) {
  const devices = answer.report.ReportingDevice.map(it => it['@id'])
  if (!devices.length) return null
  const date = element('input', {id: 'date', value: new Date().toISOString().replace(/\.\d+/, ''), size: 22}), device = element('select', {id: 'device'}, ...devices.map(it => element('option', {value: it}, it)))
  const number = element('input', {id: 'number', type: 'number', min: 1, max: answer.volumes, value: 1})
  const [ofNumber, ofDate] = ['number-said', 'date-said'].map(id => element('strong', {id, role: 'alert'}))
  const saved = () => {
    ofNumber.textContent = ofDate.textContent = ''
    busily(() => saveVolume(answer, date.value, device.value, number.value))
  }
  return element('p', {className: 'ours'}, VOLUME, text('label', 'Volume ', number), ofNumber, ` of ${answer.volumes}, `, text('label', 'at ', date), ofDate, ' ', text('label', 'by the device ', device), ' ',
    button('Save the volume', saved))
}

const isVolume = (number, volumes) => /^\d+$/.test(number) && number >= 1 && number <= volumes

// Why there is no volume: of a field what is allowed in it, or else what the program says.
function volumeFault(log, number, volumes) {
  if (!isVolume(number, volumes)) return {fault: 'field', field: 'number', said: `The volume has to be a number from 1 to ${volumes}.`}
  if (/(?:^|\n)merge: H1\n$/.test(log)) return {fault: 'field', field: 'date', said: `The date has to be a date and time with its offset from UTC. ${HELD.faults.codes.H1[1]}`}
  return {fault: 'program', said: log.trim()}
}

// The buttons that save: what each says, the name of the file, its type, and its parts.
function savingOf(answer, rows) {
  const saving = [['Save the text', 'tally.txt', 'text/plain', () => [answer.tally.bytes]],
    ['Save the totals as CSV', 'tally.csv', 'text/csv', () => ['\ufeff', ...csvOf(answer, rows)]],
    ['Save the totals as JSON', 'totals.json', 'application/json', () => [totalsOf(answer, rows)]],
    ['Save this page', 'tally.html', 'text/html', () => [pageOf()]]]
  return saving.flatMap(([said, name, type, partsOf]) => [button(said, () => save(markedName(name, answer), new Blob(partsOf()), type)), ' '])
}

function signature(answer, rows) {
  const {tally} = answer
  return section('Signature', text('p', 'SHA-256 of the text that cvr tally prints: ', element('code', {id: 'sum'}, tally.sum)),
    element('p', {className: 'ours'}, ...savingOf(answer, rows), button('Print', () => print())), volumeOf(answer),
    element('div', {className: 'sign'}, ...['Made by', 'Checked by', 'Place and date'].map(it => text('p', it))),
    element('details', {className: 'ours'}, text('summary', 'The text'), element('pre', {id: 'text'}, tally.text)))
}

// ---- what isn't in the tally

const NOT_IN = 'NOT IN THE TALLY'

// What stands above the numbers: what the reports say of themselves, what is out, and which contests are of ranks.
function saidOf({said, out, seen}, names, keys) {
  const ranked = [...keys].filter(key => isRanked(names.contests.get(key), seen?.greatest)).map(key => `RANKED: ${key}: ${HELD.advice.ranked}`)
  return [...said.lines, ...out.map(({path, reason}) => `${NOT_IN}: ${path}: ${reason}`), ...ranked]
}

// The name of a file that is saved: before its end it has test, incomplete, or both, where these are said.
function markedName(name, {said}) {
  const words = new Set(said.lines.map(it => it.split(':')[0].toLowerCase()))
  return name.replace('.', ['', ...words].join('-') + '.')
}

// ---- CSV

// A cell: a text that a spreadsheet would take for a formula begins with an apostrophe.
function csvCell(it) {
  const said = typeof it === 'string' && it && RULES.FORMULAS.includes(it[0]) ? "'" + it : String(it ?? '')
  return said === '' && it !== null || /[,"\r\n]/.test(said) ? `"${said.replace(/"/g, '""')}"` : said
}

const csvLine = cells => cells.map(csvCell).join(',') + '\r\n'

// A contest with its numbers, and its selections with their votes, as `cvr-audit totals --format csv` prints them; before these
// what they are the sum of, or which row of the tally has them, and its unit and batch.
function contestLines(names, its, where, numbers, shown) {
  const {'@id': key, ContestSelection: selections = []} = its, votes = numbers.slice(COLUMNS.length), columns = numbers.slice(0, COLUMNS.length)
  const head = [...where, key, textIn(its, 'Name')], all = votes.reduce((a, b) => a + b, 0n)
  return [[...head, null, null, all, ...columns.map((it, at) => shown(key, at, it))],
    ...selections.map((it, at) => [...head, it['@id'], names.selection(it).name, votes[at], ...columns.map(() => null)])].map(csvLine).join('')
}

// The lines: what is said first, the sums of each contest, and then the rows of the tally.
function* csvOf(answer, rows) {
  const names = new Names(answer.report), shown = shownBy(answer.seen), sums = sumsBy(rows, 'contest')
  for (const it of saidOf(answer, names, sums.keys())) yield csvLine([it])
  yield csvLine(['of', 'BallotStyleUnitId', 'unit', 'BatchId', 'ContestId', 'contest', 'ContestSelectionId', 'selection', 'votes', ...COLUMNS.map(it => it.toLowerCase())])
  for (const [key, numbers] of sums) yield contestLines(names, names.contests.get(key), ['sum', null, null, null], numbers, shown)
  for (const {contest, unit, batch, numbers} of rows)
    yield contestLines(names, names.contests.get(contest), ['row', unit, unit === null ? null : names.named(names.units, unit), batch], numbers, shown)
}

// ---- JSON

const MOST_WHOLE = 2n ** 53n        // the greatest number that a reader of floating-point numbers keeps whole
const whole = it => it > MOST_WHOLE ? String(it) : Number(it)

// What `cvr-audit totals --format json` prints; where something isn't in the tally, `said` has it, too.
function totalsOf(answer, rows) {
  const {report, seen} = answer, names = new Names(report), shown = shownBy(seen), sums = sumsBy(rows, 'contest'), said = saidOf(answer, names, sums.keys())
  const totals = [...sums].map(([key, numbers]) => {
    const its = names.contests.get(key), votes = numbers.slice(COLUMNS.length), columns = COLUMNS.map((it, at) => [it.toLowerCase(), shown(key, at, numbers[at])])
    const selections = (its.ContestSelection ?? []).map((it, at) => ({id: it['@id'], name: names.selection(it).name, votes: whole(votes[at])}))
    return {contest: {id: key, name: textIn(its, 'Name')}, ...Object.fromEntries(columns.map(([name, it]) => [name, typeof it === 'string' ? null : whole(it)])),
      votes: whole(votes.reduce((a, b) => a + b, 0n)), selections}
  })
  return JSON.stringify({schema: 'cvr-audit totals 1', by: null, ...said.length ? {said} : {}, totals}, null, 1) + '\n'
}

// ---- the page, and paper

const NAMED = 60        // characters of the election's name in a margin
const UNSHOWN = /[\0-\x08\x0b-\x1f\x7f-\x9f\ufdd0-\ufdef\ufffe\uffff]/g     // which HTML can't have
let margin = ''         // the rule that puts the election and the day into the margin of each sheet

// A text in a string of CSS, in which only letters and digits of ASCII stand as they are: a space behind an escape would end it.
const quoted = it => [...it].map(one => /[A-Za-z0-9]/.test(one) ? one : '\\' + one.codePointAt(0).toString(16).padStart(6, '0')).join('')

// Has each sheet of paper name the election, and the day on which it was made; by a line where a browser prints no margin boxes.
function setMargin(election) {
  const sheet = document.styleSheets[0], name = [...election].length > NAMED ? [...election].slice(0, NAMED - 1).join('') + '…' : election
  const said = `${name}, made ${new Date().toLocaleDateString('sv')}`        // as 2024-11-05
  if (margin) sheet.deleteRule(sheet.cssRules.length - 1)
  margin = `@page { @bottom-center { content: '${quoted(said)}' } }`
  sheet.insertRule(margin, sheet.cssRules.length)
  if (!sheet.cssRules[sheet.cssRules.length - 1].cssText.includes('bottom-center')) at('answer').append(element('p', {className: 'margin', ariaHidden: 'true'}, said))
}

// What is shown, as a page of its own without buttons and scripts, which fetches nothing.
function pageOf() {
  const page = document.documentElement.cloneNode(), its = document.head.cloneNode(true), body = at('answer').cloneNode(true)
  for (const it of body.querySelectorAll('.ours, button, input, select')) it.remove()
  its.querySelector('[http-equiv]').content = "default-src 'none'; style-src 'unsafe-inline'"
  its.querySelector('style').append(margin)
  page.append(its, text('body', body))
  return `<!DOCTYPE html>${page.outerHTML}\n`.replace(UNSHOWN, it => '\\u' + it.charCodeAt(0).toString(16).padStart(4, '0'))
}
