// The answer on one text: the verdict, the text with its parts or its wrong places, what the rules require, the record,
// and what the browser's own URL makes of it.
import { BaseRefused } from '../urlcheck.js'
import { button, byId, counted, element, plural } from './elements.js'
import { DRAWN_FAULTS, PARTS, drawnText, shownText } from './drawing.js'

/** For a longer text, in UTF-16 units, only the first fault is asked for: all of them take too long for each key. */
const LONGEST_FOR_FAULTS = 200_000

/**
 * Checks a text, and gives all that the page says of it.
 * @returns {{ kind: 'valid' | 'refused' | 'base' | 'unchecked', [more: string]: unknown }}
 */
export function checkText(urlcheck, text, base, profile) {
  const options = { base: base === '' ? null : base, profile }
  try {
    const answer = urlcheck.check(text, options)
    if (answer.valid) return { kind: 'valid', answer, resolved: urlcheck.resolve(text, options) }
    const isLong = text.length > LONGEST_FOR_FAULTS
    if (isLong) return { kind: 'refused', isLong, faults: [answer] }
    const faults = urlcheck.violations(text, options)
    return { kind: 'refused', isLong, faults, instead: insteadOf(urlcheck, text, options) }
  } catch (error) {
    if (error instanceof BaseRefused) return { kind: 'base', faults: urlcheck.violations(base, { profile }) }
    if (error instanceof RangeError) return { kind: 'unchecked', message: 'out of memory: the text is too large' }
    if (error instanceof TypeError) return { kind: 'unchecked', message: error.message }
    throw error
  }
}

/** What a refused text is mended to. It is null if there is none, or no memory for it. */
function insteadOf(urlcheck, text, options) {
  try {
    const mended = urlcheck.mend(text, options)
    return mended !== null && 'text' in mended ? mended : null
  } catch (error) {
    if (error instanceof RangeError) return null
    throw error
  }
}

/** What the browser's own parser makes of the text, or null if it refuses it. */
function browsersUrl(text, base) {
  try {
    return base === '' ? new URL(text) : new URL(text, base)
  } catch {
    return null
  }
}

/** The verdict in a line. What is wrong is below it, by each rule. */
function verdictLine(said) {
  if (said.kind === 'valid') return ['good', 'Valid', 'a valid URL string']
  if (said.kind === 'unchecked') return ['bad', 'Not checked', said.message]
  const where = `at place ${counted(said.faults[0].place)}`
  if (said.kind === 'base') return ['bad', 'Base refused', where]
  const more = said.faults.length - 1
  return ['bad', 'Refused', more > 0 ? `${where}, and ${plural(more, 'more violation', 'more violations')}` : where]
}

/** Shows the verdict: a sign in the colour of its kind, the word, and what is to be added. */
function showVerdict(said) {
  const [kind, word, rest] = verdictLine(said)
  const line = byId('verdict')
  line.className = `verdict ${kind}`
  line.replaceChildren(
    // (readers of the page hear the word; the sign says the same to the eye)
    element('span', { class: 'sign', 'aria-hidden': 'true' }, kind === 'good' ? '✓' : '✕'),
    element('strong', {}, word), ' ', element('span', { class: 'rest' }, rest))
}

/** The names of the parts that a valid text has, in their colours. */
function legend(answer) {
  const list = element('ul', { class: 'legend', 'aria-label': 'Parts of the text' })
  for (const part of PARTS) {
    if (answer[part] === null) continue
    const [start, end] = answer.ranges[part]
    list.append(element('li', { class: part },
      element('span', { class: 'name' }, part),
      element('span', { class: 'range' }, start === end ? `empty at ${start}` : `${start}–${end}`)))
  }
  return list
}

/** How a mended text differs from the refused one. */
const KINDS = {
  same: 'a second parser reads both as the same URL',
  escaped: 'some code points are percent-encoded, and nothing else',
  changed: 'look whether this is what was meant'
}

/** What a mended text is called that isn't offered, in the words that the reports of the library have, too. */
const NAMED_AS = {
  same: 'the same URL, written validly, is ',
  escaped: 'the same text, percent-encoded, is ',
  changed: 'a valid URL string that is near it is '
}

/** What a refused text is mended to, which a button tries. */
function insteadLine({ text, kind, isOffered }, base, onTry) {
  return element('p', { class: 'instead', 'data-kind': kind },
    element('span', { class: 'hint' }, isOffered ? 'write instead ' : NAMED_AS[kind]),
    button(shownText(text, -1), () => onTry(text, base), { class: 'try', title: 'try this text' }),
    element('span', { class: 'hint' }, ` ${KINDS[kind]}`))
}

/** Shows the text, or the base if that is refused, with its parts or its wrong places, and what to write instead. */
function showDrawn(text, base, said, onTry) {
  const card = byId('drawn')
  card.hidden = said.kind === 'unchecked'
  if (card.hidden) return
  const isBase = said.kind === 'base'
  const title = isBase ? 'The base, and where it is wrong' : said.kind === 'valid' ? 'The parts' : 'Where it is wrong'
  const drawn = drawnText(isBase ? base : text, said.answer?.ranges, said.faults ?? [])
  const below = [said.answer && legend(said.answer), said.instead && insteadLine(said.instead, base, onTry)]
  card.replaceChildren(element('h2', {}, title), drawn, ...below.filter(part => part))
}

/** A rule's example: a text that violates it, and the valid one that was meant; a button tries each. */
function example({ text, base, mended }, onTry) {
  const tried = word => button(word, () => onTry(word, base ?? ''), { class: 'mono try', title: 'try this text' })
  return element('p', { class: 'rule-example' },
    element('span', { class: 'hint' }, 'wrong '), tried(text), ' ',
    element('span', { class: 'hint' }, 'meant '), tried(mended),
    base === null ? null : element('span', { class: 'hint' }, ` against ${base}`))
}

/** The most faults that are listed, and places of those that share a sentence: more would make the page slow. */
const TOLD_FAULTS = 1000
const NAMED_PLACES = 12

/** The faults that share a sentence, in the order of the first of each, with their numbers in the drawn text. */
function bySentence(urlcheck, text, faults, profile) {
  const found = new Map()
  faults.slice(0, TOLD_FAULTS).forEach((fault, at) => {
    const { rule, place } = fault
    const sentence = urlcheck.message(text, fault, { profile, wording: 'none' })
    const key = `${rule} ${sentence}`
    if (!found.has(key)) found.set(key, { rule, sentence, numbers: [], places: [] })
    found.get(key).numbers.push(at + 1)
    found.get(key).places.push(place)
  })
  return [...found.values()]
}

/** The first few of a list, and how many more there are. */
function firstOf(list) {
  return { first: list.slice(0, NAMED_PLACES), more: Math.max(0, list.length - NAMED_PLACES) }
}

/** The number of a fault, as it is drawn in the text. */
function numberMark(number) {
  return element('span', { class: 'number', 'aria-hidden': 'true' }, String(number))
}

/** The faults that share a sentence: where they are, what the rule requires, and an example. */
function faultItem(urlcheck, { rule, sentence, numbers, places }, onTry) {
  const { requires, section, example: shown } = urlcheck.explain(rule)
  const { first, more } = firstOf(places)
  const named = `${first.length > 1 ? 'places' : 'place'} ${first.map(counted).join(', ')}`
  return element('li', { class: 'fault card' },
    element('p', { class: 'fault-head' },
      ...firstOf(numbers).first.map(numberMark),
      element('strong', {}, sentence)),
    element('p', { class: 'fault-place' },
      element('code', {}, rule), ` at ${named}${more ? ` and ${counted(more)} more` : ''}`),
    element('p', { class: 'asks' }, requires, ' ', element('span', { class: 'hint' }, `URL Standard, section ${section}`)),
    example(shown, onTry))
}

/** Shows the faults of the text, and what of them isn't shown. */
function showFaults(urlcheck, text, profile, said, onTry) {
  const faults = said.faults ?? []
  const parts = []
  if (faults.length) {
    parts.push(element('ol', { class: 'faults', 'aria-label': 'Violations' },
      ...bySentence(urlcheck, text, faults, profile).map(found => faultItem(urlcheck, found, onTry))))
  }
  if (faults.length > TOLD_FAULTS) {
    parts.push(element('p', { class: 'hint' }, `The first ${counted(TOLD_FAULTS)} violations are told.`))
  }
  if (faults.length > DRAWN_FAULTS) {
    parts.push(element('p', { class: 'hint' }, `The first ${DRAWN_FAULTS} violations are marked in the text.`))
  }
  if (said.isLong) parts.push(element('p', { class: 'hint' }, 'Of a text so long the first violation alone is shown.'))
  byId('faults').replaceChildren(...parts)
}

/** The values of a record in the rows of the comparison. */
function recordRows(resolved) {
  if (!resolved?.valid) return null
  const { scheme, host, port, segments, opaquePath, query, fragment } = resolved.record
  return {
    'as text': resolved.text,
    scheme,
    host: host && host.text,
    kind: host && host.kind !== 'empty' ? host.kind : null,
    port,
    path: segments ? segments.map(segment => `/${segment}`).join('') : opaquePath,
    query,
    fragment
  }
}

/** The values of the browser's URL in the same rows, without the delimiters that its properties have. */
function browserRows(url) {
  if (url === null) return null
  const orNone = word => (word === '' ? null : word)
  return {
    'as text': url.href,
    scheme: url.protocol.slice(0, -1),
    host: orNone(url.hostname),
    port: orNone(url.port),
    path: url.pathname,
    query: orNone(url.search.slice(1)),
    fragment: orNone(url.hash.slice(1))
  }
}

/** At most this many units of a value are shown. */
const LONGEST_VALUE = 2000

/** A value in a row of the comparison. On narrow windows `data-column` takes the place of the head (see tables.css). */
function cell(column, rows, name) {
  const common = { role: 'cell', 'data-column': column }
  const made = (attributes, ...children) => element('td', { ...common, ...attributes }, ...children)
  const value = rows[name]
  if (value === null) return made({ class: 'none' }, 'none')
  if (value === '') return made({ class: 'none' }, 'empty')
  const shown = value.length > LONGEST_VALUE ? `${value.slice(0, LONGEST_VALUE)} …` : value
  const kind = name === 'host' && rows.kind ? element('span', { class: 'kind' }, rows.kind) : null
  return made({}, element('span', {}, element('span', { class: 'mono', dir: 'ltr', translate: 'no' }, shown), kind))
}

/** A table of what is there of the two. */
function comparisonTable(ours, theirs) {
  const names = ['as text', 'scheme', 'host', 'port', 'path', 'query', 'fragment']
  const columns = [['record', ours], ['new URL()', theirs]].filter(([, rows]) => rows !== null)
  const row = name => element('tr', { role: 'row' },
    element('th', { scope: 'row', role: 'rowheader' }, name),
    ...columns.map(([column, rows]) => cell(column, rows, name)))
  return element('div', { class: 'scrolled', tabindex: '0', role: 'region', 'aria-label': 'Record and URL' },
    element('table', { class: 'comparison', role: 'table' },
      element('thead', { role: 'rowgroup' }, element('tr', { role: 'row' },
        element('td', { role: 'cell' }),
        ...columns.map(([column]) => element('th', { scope: 'col', role: 'columnheader' }, column)))),
      element('tbody', { role: 'rowgroup' }, ...names.map(row))))
}

/** Shows the record next to what the browser makes of the text. */
function showComparison(text, base, said) {
  const card = byId('comparison')
  card.hidden = said.kind === 'unchecked'
  if (card.hidden) return
  const ours = recordRows(said.resolved)
  const theirs = browserRows(browsersUrl(text, base))
  card.replaceChildren(
    element('h2', {}, 'The record, beside this browser’s URL'),
    element('p', { class: 'note' }, noteOn(ours, theirs)),
    ...(ours || theirs ? [comparisonTable(ours, theirs)] : []))
}

/** What the two have in common, in a sentence. */
function noteOn(ours, theirs) {
  if (ours === null) {
    const browsers = theirs === null ? 'the browser refuses it too' : 'the browser silently makes a URL of it'
    return `There is no record, since the text isn’t valid; ${browsers}.`
  }
  if (theirs === null) return 'The browser refuses this text: they differ.'
  const isSame = ours['as text'] === theirs['as text']
  return isSame ? 'Both are the same.' : 'The browser makes another URL of it: they differ.'
}

/** Shows the report on a text. */
export function showText(urlcheck, { text, base, profile }, onTry) {
  const said = checkText(urlcheck, text, base, profile)
  showVerdict(said)
  showDrawn(text, base, said, onTry)
  showFaults(urlcheck, said.kind === 'base' ? base : text, profile, said, onTry)
  showComparison(text, base, said)
}
