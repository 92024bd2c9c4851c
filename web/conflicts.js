'use strict'
// What the files contradict each other about, as members.js has it: which text of each name cvr takes, and where the texts differ.

// Which text is taken, and by which rule.
function ruleOf({name: [kind], is_current, is_known, has_types, has_moments}) {
  if (!is_known) return 'Which of them cvr takes isn\'t known here, since no current snapshot was looked at.'
  const rule = has_moments ? 'by its latest TimeStamp, or, where these are one moment, by its bytes' : 'by its bytes'
  return HELD.taken[kind === 'snapshot' && !is_current ? 'other' : kind].replace('{}', has_types ? 'by its Type' : rule)
}

const codes = texts => text('span', ...texts.flatMap((it, at) => [at ? ' ' : null, text('code', text('bdi', it))]))
const withCounts = (said, ...counts) => said.replace(/\{:,\}/g, () => counts.shift().toLocaleString('en'))

// The members that differ, side by side.
function differing({paths, differ}) {
  const cell = it => it === null ? '' : text('mark', text('code', text('bdi', it)))
  const rows = differ.rows.map(([place, ...texts]) => [text('code', text('bdi', place)), ...texts.map(cell)])
  return table('Texts side by side', ['Member', ...paths.map((_, at) => `Text ${at + 1}`)], [['Files', ...paths.map(codes)], ...rows])
}

// The members that are the same, which are made once someone asks for them.
function alike({same}) {
  const code = it => text('code', text('bdi', it)), what = same.count > same.rows.length ? `The first ${same.rows.length} of them` : 'Members that are the same'
  const made = () => table(what, ['Member', 'Each text'], same.rows.map(it => it.map(code)))
  const its = element('details', {className: 'shut'}, text('summary', `Members that are the same: ${same.count.toLocaleString('en')}`))
  its.addEventListener('toggle', () => its.append(made()), {once: true})
  return same.count ? its : null
}

function beside(it) {
  const {name: [kind, ...names], differ} = it
  return element('div', {className: 'conflict'}, text('h3', HELD.titles[kind], ' ', codes(names)), text('p', ruleOf(it)), differ.count > differ.rows.length ? text('p', withCounts(HELD.left, differ.rows.length, differ.count)) : null,
    folded('Members that differ', differ.rows.length, differing(it)), alike(it))
}

function conflictsOf({disagreements}) {
  if (!disagreements.length) return section('Conflicts', text('p', HELD.conflicts[1]))
  const rows = disagreements.map(({name: [kind, ...names], count}) => [kind, text('code', text('bdi', names.join(' '))), BigInt(count)])
  const shown = disagreements.filter(it => it.paths)
  return section('Conflicts', text('p', HELD.conflicts[0]),
    folded('Conflicts', rows.length, table('Names with several texts', ['What', 'Name', 'Texts'], rows)), ...shown.map(beside),
    rows.length > shown.length ? text('p', `The first ${shown.length} stand side by side: cvr-audit page shows all.`) : null)
}
