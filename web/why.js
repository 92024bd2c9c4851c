'use strict'
// Why a file is refused, as cvr-audit why says it: what stands at the place of its fault, and in the definition. In the worker,
// which has the bytes: these are gone through, and no value is made but of what is shown. cvr took them for JSON.

const SHOWN = 200           // letters of a value that are shown
const A_REPORT = 'CVR.CastVoteRecordReport'

// ---- places in JSON

function behindBlanks(bytes, at) {
  while (isBlank(bytes[at])) at++
  return at
}

function behindText(bytes, at) {
  for (at++; at < bytes.length && bytes[at] !== QUOTE; at++) if (bytes[at] === BACKSLASH) at++
  return at + 1
}

// The place behind the value that begins at a place.
function behindValue(bytes, at) {
  if (bytes[at] === QUOTE) return behindText(bytes, at)
  if (!isOpening(bytes[at])) {
    while (at < bytes.length && bytes[at] !== COMMA && !isBlank(bytes[at]) && (bytes[at] | 32) !== 0x7d) at++
    return at
  }
  for (let depth = 0; at < bytes.length;) {
    const sign = bytes[at]
    if (sign === QUOTE) {
      at = behindText(bytes, at)
      continue
    }
    at++
    if (isOpening(sign)) depth++
    else if ((sign | 32) === 0x7d && !--depth) return at        // ] and }
  }
  return at
}

const textAt = (bytes, at, end) => JSON.parse(new TextDecoder().decode(bytes.subarray(at, end)))

// Goes over the parts of the value at a place: `take` is given the place of each, and its number, or where its name begins and
// ends, and answers the place behind it. Answers the place behind all.
function throughParts(bytes, at, take) {
  const is_object = bytes[at] === OBJECT, last = is_object ? 0x7d : 0x5d
  at = behindBlanks(bytes, at + 1)
  for (let step = 0; at < bytes.length && bytes[at] !== last; step++) {
    const end = is_object ? behindText(bytes, at) : at, place = is_object ? behindBlanks(bytes, behindBlanks(bytes, end) + 1) : at
    at = behindBlanks(bytes, take(place, is_object ? at : step, end))
    if (bytes[at] === COMMA) at = behindBlanks(bytes, at + 1)
  }
  return at + 1
}

const encoded = text => new TextEncoder().encode(text)

// Whether the name that begins and ends at places stands before (below 0), or behind (above 0) another one, in bytes. Of most
// names the first bytes show it, so that no text is made of them.
function orderOf(bytes, at, end, name) {
  for (let place = at + 1; place < end - 1; place++) {
    if (bytes[place] === BACKSLASH) return byText(textAt(bytes, at, end), new TextDecoder().decode(name))
    const differ = bytes[place] - (name[place - at - 1] ?? -1)
    if (differ) return differ
  }
  return end - at - 2 - name.length
}

// The places on the way from a value, its own first, as far as the steps lead; and the place behind it. Of members of one name the
// last one counts.
function walked(bytes, at, steps) {
  if (!steps.length || !isOpening(bytes[at])) return {way: [at], end: behindValue(bytes, at)}
  const number = bytes[at] === ARRAY ? Number(steps[0]) : null, name = encoded(steps[0])
  let inner = {way: []}
  const end = throughParts(bytes, at, (place, step, last) => {
    if (number === null ? orderOf(bytes, step, last, name) : step !== number) return behindValue(bytes, place)
    inner = walked(bytes, place, steps.slice(1))
    return inner.end
  })
  return {way: [at, ...inner.way], end}
}

const wayTo = (bytes, steps, at = 0) => walked(bytes, behindBlanks(bytes, at), steps).way

// ---- what stands there

function cut(text) {
  const signs = [...text.slice(0, 2 * SHOWN + 2)]
  return signs.length <= SHOWN ? text : signs.slice(0, SHOWN).join('') + '…'
}

// The beginning of a text, of as many signs or escapes as can be shown.
function shortAt(bytes, at) {
  let end = at + 1
  for (let count = 0; bytes[end] !== QUOTE && count < 2 * SHOWN + 2; count++) {
    if (bytes[end] === BACKSLASH) end += bytes[end + 1] === 0x75 ? 6 : 2
    else do end++; while ((bytes[end] & 0xc0) === 0x80)
  }
  return JSON.parse(new TextDecoder().decode(bytes.subarray(at, end)) + '"')
}

// The names of the members of an object, as many as can be shown.
function namesAt(bytes, at) {
  const names = new Set()
  let room = SHOWN
  throughParts(bytes, at, (place, name, end) => {
    if (room >= 0) {
      names.add(shortAt(bytes, name))
      room -= end - name
    }
    return behindValue(bytes, place)
  })
  return [...names]
}

// A value, cut: of an object or an array what is in it.
function shownAt(bytes, at) {
  if (bytes[at] === QUOTE) return cut(spelled(shortAt(bytes, at)))
  if (!isOpening(bytes[at])) return cut(latin(bytes.subarray(at, Math.min(behindValue(bytes, at), at + 2 * SHOWN))))
  if (bytes[at] === OBJECT) {
    const names = namesAt(bytes, at)
    return names.length ? cut('an object with ' + names.map(spelled).join(', ')) : '{}'
  }
  let count = 0
  throughParts(bytes, at, place => (count++, behindValue(bytes, place)))
  return `an array of ${count} items`
}

// ---- the fault

const stepsIn = path => path.split('/').slice(1).map(it => it.replace(/~1/g, '/').replace(/~0/g, '~'))

// A place in words: members, and the items that have them, numbered from 1.
function where(steps) {
  const items = []
  let rest = steps.length > 2 && steps[0] === 'Election' ? steps.slice(2) : steps
  while (rest.length > 1 && Object.hasOwn(RULES.ITEMS, rest[0]) && /^\d+$/.test(rest[1])) {
    items.push(`${RULES.ITEMS[rest[0]]} ${Number(rest[1]) + 1}`)
    rest = rest.slice(2)
  }
  return cut([rest.join('/'), items.join(', ')].filter(it => it).join(' of ')) || RULES.WHOLE_FILE
}

// The names of the record at a place, as far as it has them.
function recordAt(bytes, at) {
  return ['CreatingDeviceId', 'UniqueId'].map(name => {
    const place = wayTo(bytes, [name], at)[1]
    return bytes[place] === QUOTE ? cut(spelled(shortAt(bytes, place))) : 'null'
  }).join(' ')
}

// The compact text of a value; of a long object or array what is in it.
function compactAt(bytes, at) {
  const end = behindValue(bytes, at)
  return isOpening(bytes[at]) && end - at > PIECE ? shownAt(bytes, at) : compact(valueOf(new TextDecoder().decode(bytes.subarray(at, end))))
}

// The first place in which the value at a place differs from one of the definition, with the texts of both; null where none does.
function differenceAt(bytes, at, value) {
  if (bytes[at] === OBJECT && isObject(value)) return differenceInObject(bytes, at, value)
  if (bytes[at] === ARRAY && Array.isArray(value)) return differenceInArray(bytes, at, value)
  const texts = [compactAt(bytes, at), compact(value)]
  return texts[0] === texts[1] ? null : ['', ...texts]
}

// Where names in their order have the one that begins and ends at places, or below 0.
function indexOf(names, bytes, at, end) {
  let from = 0, to = names.length
  while (from < to) {
    const middle = from + to >> 1, order = orderOf(bytes, at, end, names[middle])
    if (!order) return middle
    if (order < 0) to = middle
    else from = middle + 1
  }
  return -1
}

// Of members that the definition lacks, however many, only the first by name is held.
function differenceInObject(bytes, at, value) {
  const names = Object.keys(value).sort(byText), known = names.map(encoded), places = []
  let lacked = null
  throughParts(bytes, at, (place, name, end) => {
    const index = indexOf(known, bytes, name, end)
    if (index >= 0) places[index] = place
    const order = index >= 0 ? 1 : lacked ? orderOf(bytes, name, end, lacked.name) : -1
    if (order < 0) lacked = {name: encoded(textAt(bytes, name, end)), place}
    else if (!order) lacked.place = place
    return behindValue(bytes, place)
  })
  const other = lacked && new TextDecoder().decode(lacked.name)
  for (const name of [...names, ...lacked ? [other] : []].sort(byText)) {
    const place = places[names.indexOf(name)]
    const found = name === other ? ['', compactAt(bytes, lacked.place), ABSENT] :
      place === undefined ? ['', ABSENT, compact(value[name])] : differenceAt(bytes, place, value[name])
    if (found) return [pointed(name) + found[0], ...found.slice(1)]
  }
  return null
}

function differenceInArray(bytes, at, value) {
  let found = null, count = 0
  throughParts(bytes, at, (place, step) => {
    const its = found ? null : step < value.length ? differenceAt(bytes, place, value[step]) : ['', compactAt(bytes, place), ABSENT]
    if (its) found = [pointed(step) + its[0], ...its.slice(1)]
    count++
    return behindValue(bytes, place)
  })
  return found ?? (count < value.length ? [pointed(count), ABSENT, compact(value[count])] : null)
}

// The same of an object and the definition's object of its id, which may not be there.
function disagreement(bytes, at, steps, definition) {
  const path = steps.map(pointed).join(''), id = shortAt(bytes, wayTo(bytes, ['@id'], at)[1]), other = (definition[steps[0]] ?? []).find(it => it['@id'] === id)
  const [below, ...texts] = other ? differenceAt(bytes, at, other) : [pointed('@id'), spelled(id), ABSENT]
  return [path + below, ...texts]
}

// What cvr-audit why says of a place, where a file has one.
function placeOf(code, place, bytes, definition) {
  const steps = place ? stepsIn(JSON.parse(`"${place}"`)) : [], way = wayTo(bytes, steps), is_there = way.length > steps.length
  const record = steps[0] === 'CVR' && way.length > 2 ? recordAt(bytes, way[2]) : null
  if (code !== 'E5') {
    const around = !is_there && way.length === steps.length ? shownAt(bytes, way.at(-1)) : null
    return {path: steps.map(pointed).join(''), where: where(steps), record, value: is_there ? shownAt(bytes, way.at(-1)) : ABSENT, around}
  }
  const [path, value, wanted] = disagreement(bytes, way.at(-1), steps, definition())
  return {path, where: where(stepsIn(path)), record, value: cut(value), definition: cut(wanted)}
}

function whyOf(path, fault, bytes, definition) {
  const {code, place} = partsOfFault(fault)
  if (code === 'E1') return {}
  if (code === 'E2') return seemsOf(path, bytes, false)
  const [, type] = code === 'E3' ? wayTo(bytes, ['@type']) : [], is_report = code !== 'E3' || bytes[type] === QUOTE && shortAt(bytes, type) === A_REPORT
  return {...is_report ? {} : seemsOf(path, bytes, true), ...placeOf(code, place, bytes, definition)}
}

// Notes in the state of each refused file why it is.
function tellWhy(paths, states, read) {
  let definition = null
  const ofDefinition = () => definition ??= valueOf(new TextDecoder().decode(read(0)))
  for (const [at, state] of states.entries()) if (state.fault) state.why = whyOf(paths[at], state.fault, read(at), ofDefinition)
}
