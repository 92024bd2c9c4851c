'use strict'
// What the page shows of an answer of cvr. Each number is one that cvr printed, or a sum of these.

const MANY = 12         // a table with more lines is folded

function table(caption, heads, rows, foot) {
  const head = text('thead', text('tr', ...heads.map(it => element('th', {scope: 'col'}, it))))
  const line = ([first, ...cells]) => text('tr', element('th', {scope: 'row'}, first),
    ...cells.map(it => typeof it === 'bigint' ? number(it) : it instanceof HTMLTableCellElement ? it : text('td', it)))
  return element('div', {className: 'wide'}, text('table', text('caption', caption), head, text('tbody', ...rows.map(line)),
    foot ? text('tfoot', line(foot)) : null))
}

function folded(caption, count, its) {
  return element('details', {open: count <= MANY}, text('summary', `${caption}: ${countedAs(count, 'line')}`), its)
}

function listed(pairs) {
  return text('dl', ...pairs.flatMap(([term, ...said]) => [text('dt', term), text('dd', ...said)]))
}

// A name with its id beside it; the id alone where there is no name.
function named(name, key, more) {
  const id = text('code', text('bdi', key))
  return name ? text('span', text('bdi', name), more ? text('small', ' ', text('bdi', more)) : null, ' ', id) : id
}

function section(title, ...parts) {
  return text('section', text('h2', title), ...parts)
}

// ---- what was given

// What cvr-audit why has of the place of a fault, and as what it stands here.
const PLACED = {where: 'Where', path: 'Path', record: 'Record', value: 'There stands', around: 'Around it', definition: 'In the definition'}

function stateOf(state, path, is_definition) {
  if (!state.fault) return state.records === undefined ? 'not read, since the definition was refused' : is_definition ? 'definition; its records are not counted' : 'accepted'
  const {code, meaning, todo} = inWords(state.fault, HELD.faults), {why} = state
  const said = (name, ...its) => element('span', {className: name}, ...its), line = (name, ...its) => element('li', {className: name}, ...its)
  const shown = it => it === ABSENT ? 'nothing' : text('code', text('bdi', shortOf(it)))
  const lines = Object.entries(PLACED).filter(([name]) => why[name]).map(([name, title]) => line(name, `${title}: `, shown(why[name])))
  const maker = why.kind ? line('kind', filled(RULES.OF_MAKER, RULES.MAKERS[why.kind]), ' ', text('code', text('bdi', gatherOf(path)))) : null
  return element('div', {className: 'bad'}, text('strong', `refused, ${code}. `), said('means', meaning), why.seems ? said('seems', ' ', why.seems) : null,
    text('ul', ...lines, maker), said('do', why.todo ?? todo))
}

// The text of a state, without what stands at the place of its fault.
const inALine = state => [...state.childNodes].map(it => (it.tagName === 'UL' ? it.querySelector('.kind') : it)?.textContent.trim()).filter(it => it).join(' ')

function inputs({files, states, sums, refused, definition}) {
  const state = place => !place && definition.counts && !states[0].fault ? 'definition; its records are counted in the next line' : stateOf(states[place], files[place].path, !place && !refused)
  const rows = files.map((it, place) => [text('code', text('bdi', it.path)), text('code', sums[place] ?? 'not read whole'), BigInt(it.size), states[place].records ?? '', state(place)])
  const heads = ['File', 'SHA-256', 'Bytes', 'Records', 'State'], its = table('Definition and files', heads, rows)
  its.className = 'wide inputs'
  for (const row of its.querySelectorAll('tbody tr')) [...row.cells].forEach((cell, place) => { cell.dataset.head = heads[place] })      // for a narrow window
  return section('Inputs', its)
}

// What was given and isn't in the tally.
function notIn(out) {
  return out.length ? section('Not in this tally', folded('Not in this tally', out.length, element('ul', {className: 'out'}, ...out.map(({path, reason}) =>
    text('li', text('code', text('bdi', path)), ': ', text('bdi', reason)))))) : ''
}

// What became of an export.
function gatheredOf({files, count, left, notes}) {
  const lines = [...left.map(it => 'left out ' + spelled(it)), ...notes.map(it => 'note: ' + it)]
  return section('Export', text('p', `VxSuite's export of ${count.toLocaleString('en')} ballots was made into these files, by the rules of cvr-audit gather.`),
    text('p', ...files.flatMap(it => [button('Save ' + baseOf(it.path), () => save(baseOf(it.path), it.file, 'application/json')), ' '])),
    lines.length ? folded('Not in them', lines.length, element('ul', {className: 'places'}, ...lines.map(it => text('li', text('code', text('bdi', it)))))) : null)
}

const FEW = 10, MOST = 200      // more places of one kind are folded, and more than the most left out

// The places of warnings of a kind, with names; where they are many, behind their number in each file.
function placesOf(names, kind, its, seen) {
  const lines = element('ul', {className: 'places'}, ...its.slice(0, MOST).map(it => {
    const said = namesIn(names, it)
    const line = it.slice(1).join(' ')
    return text('li', text('code', text('bdi', kind === 'refused' ? shortOf(line) : line)), said ? ': ' : null, said ? text('bdi', said) : null)
  }))
  if (its.length <= FEW) return lines
  const counts = filesIn(kind, its, seen)
  const files = counts.length > FEW ? `${counts.length.toLocaleString('en')} files` : counts.map(([path, count]) => `${path} ${count.toLocaleString('en')}`).join(', ')
  return element('details', {className: 'shut'}, text('summary', `${its.length.toLocaleString('en')} cases${files ? ': ' + files : ''}`),
    its.length > MOST ? text('p', `The first ${MOST}: cvr-audit warnings --all prints all.`) : null, lines)
}

function warnings(names, lines, {seen, unseen}) {
  const kinds = Object.entries(HELD.kinds).map(([kind, title]) => [kind, title, lines.filter(it => it[0] === kind)]).filter(it => it[2].length)
  const said = kinds.map(([kind, title, its]) => text('li', text('strong', title), `: ${HELD.advice[kind]} `, placesOf(names, kind, its, seen), kind === 'refused' ? text('p', 'Inputs, below, says why.') : null))
  return section('Warnings', unseen ? text('p', text('strong', unseen), ', so no current snapshot was looked at.') : null,
    said.length ? element('ul', {className: 'warnings'}, ...said) : text('p', unseen ? 'No others.' : 'None.'))
}

// ---- the whole answer

// Why the definition is the one that it is; one that was made can be saved.
function definedBy({definition, files}) {
  return definition.said ? text('p', text('bdi', definition.said), ' ', definition.used ? element('span', {className: 'ours'}, button('Save the definition', () => save(files[0].path, files[0].file, 'application/json'))) : null) : null
}

// A long command isn't printed, since Inputs has its files. Without one there was nothing to run.
function head(title, {command, files, definition, twins}) {
  const sum = it => text('code', it)
  return text('header', element('p', {className: 'unofficial'}, 'UNOFFICIAL'), element('h1', {tabIndex: -1}, text('bdi', title)), definedBy({definition, files}),
    listed([['Made', new Date().toString()], ['By', `${HELD.version}, in a browser`], ['Proved program', 'SHA-256 of its module ', sum(own_sums.module)], ['Page', 'SHA-256 ', sum(own_sums.page)],
      ...command === null ? [] : [['Command', files.length > MANY + 1 ? element('details', {className: 'shut'}, text('summary', `cvr tally of ${(files.length - 1).toLocaleString('en')} files, as Inputs has them`), text('pre', command)) : text('pre', command)]]]), ...twins.map(it => text('p', text('bdi', it))))
}

// What isn't whole, and what the reports say of themselves: above all else, and on each printed sheet.
function saidBy({said: {lines}}) {
  const sheet = element('p', {className: 'sheet', ariaHidden: 'true'}, [...new Set(lines.map(it => it.split(':')[0]))].join(' '))
  return lines.length ? [...lines.map(it => element('p', {className: 'said'}, it)), sheet] : []
}

function show(answer) {
  const {report, tally, lack, out} = answer, above = [...saidBy(answer), head(lack ? 'No tally' : new Names(report).election, answer), notIn(out)]
  if (lack) return at('answer').replaceChildren(...above, inputs(answer))
  const names = new Names(report), rows = rowsOf(tally.text)
  const held = grouped(rows, it => it.contest), its = [...held].map(([key, rows]) => contestOf(names, key, rows, answer.seen))
  const missing = [...names.contests.keys()].filter(it => !held.has(it))
  at('answer').replaceChildren(...above, answer.made ? gatheredOf(answer.made) : '', warnings(names, warningsOf(answer, [...names.contests.values()], rows), answer),
    conflictsOf(answer), ballotsOf(names, answer), contests(its), text('p', text('small', HELD.numbers)),
    missing.length ? text('p', 'No record has these contests: ', missing.join(', '), '.') : '', divided(names, its), inputs(answer), signature(answer, rows))
  document.title = 'UNOFFICIAL: ' + names.election
  setMargin(names.election)
}
