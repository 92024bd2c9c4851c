'use strict'
// The texts of a name in conflict side by side: the members that differ, and those that are the same. In the worker: the texts
// are gone through together, once, and of long ones no more is made than is shown.

const BESIDE = 200          // conflicts that stand side by side
const MEMBERS = 500         // members of a conflict that are shown, of either sort
const LETTERS = 500         // letters of a text or a place that are shown

// ---- going through values together

function hasParts(it) {
  if (Array.isArray(it)) return it.length > 0
  for (const _ in isObject(it) ? it : {}) return true
  return false
}

// The numbers or names of the parts of values, in their order.
function* stepsOf(values) {
  if (values.every(Array.isArray)) for (let step = 0, count = Math.max(...values.map(it => it.length)); step < count; step++) yield step
  else yield* [...new Set(values.flatMap(it => Object.keys(it)))].sort(byText)
}

// Goes over the places where a value has a text, a number or an empty part: `take` is given the way there, each step with the
// way above it, and what each value has there; undefined where it has nothing, or parts. To see whether it has parts takes as
// long as it has names, so that is done once.
function through(values, way, take) {
  const parts = values.map(it => hasParts(it) ? it : null), here = values.map((it, at) => parts[at] ? undefined : it)
  if (here.some(it => it !== undefined)) take(way, here)
  for (const step of stepsOf(parts.filter(it => it)))
    through(parts.map(it => it && Object.hasOwn(it, step) ? it[step] : undefined), {step, above: way}, take)
}

// ---- what is shown

// The end of a JSON Pointer, with names cut.
function endOf(way) {
  let path = ''
  for (; way && path.length < LETTERS; way = way.above) path = pointed(shortOf(String(way.step))) + path
  return (way ? '…' : '') + path
}

// How many letters are the same at the beginning of texts.
function commonIn([first, ...others]) {
  let count = 0
  while (count < first.length && others.every(it => it[count] === first[count])) count++
  return count
}

// The text of each value, null where there is none; of long ones the part in which they differ.
function textsOf(values) {
  const texts = values.filter(it => typeof it === 'string'), from = texts.some(it => it.length > LETTERS) ? Math.max(0, commonIn(texts) - 20) : 0
  return values.map(it => it === undefined ? null : typeof it !== 'string' || it.length <= LETTERS ? compact(it) :
    (from ? '…' : '') + spelled(it.slice(from, from + LETTERS)) + (from + LETTERS < it.length ? '…' : ''))
}

const isAlike = (one, other) => one === other || isPart(one) && isPart(other) && compact(one) === compact(other)      // parts are empty here
const isPart = it => typeof it === 'object' && it !== null

// The members of texts: of those that differ and of those that are the same the number, and the first ones.
function membersOf(values) {
  const differ = {count: 0, rows: []}, same = {count: 0, rows: []}
  through(values, null, (way, here) => {
    const is_same = here.every(it => isAlike(it, here[0])), sort = is_same ? same : differ
    if (sort.count++ < MEMBERS) sort.rows.push([endOf(way), ...textsOf(is_same ? here.slice(0, 1) : here)])
  })
  return {differ, same}
}

// Conflicts as the page shows them: each name with the number of its texts; of the first ones also the members, the files of each
// text, and whether the texts have several Types or moments.
function shownBeside(conflicts) {
  const several = (texts, valueOf) => new Set(texts.map(it => compact(valueOf(it.value)))).size > 1
  return conflicts.map(({name, is_current, is_known, texts}, at) => ({name, is_current, is_known, count: texts.length, ...at < BESIDE && {
    paths: texts.map(it => it.paths), has_types: several(texts, it => it.Type ?? null),
    has_moments: several(texts, it => (it.Annotation ?? []).map(one => one.TimeStamp ?? null)), ...membersOf(texts.map(it => it.value))}}))
}
