// Draws a text: its parts in their colours, the wrong places numbered, and what can't be seen by its number.
import { element } from './elements.js'

/** At most this many units of a text are drawn, and of its faults: more elements would make the page slow. */
export const DRAWN_UNITS = 3000
export const DRAWN_FAULTS = 100

/** The parts, in their order. */
export const PARTS = ['scheme', 'host', 'port', 'path', 'query', 'fragment']

// Controls, what turns the direction of a text, what fonts draw as nothing, and spaces and separators but the plain space.
const UNSEEN = /[\p{Cc}\p{Cf}\p{Zl}\p{Zp}\p{Cs}\p{Cn}\p{Co}\p{Default_Ignorable_Code_Point}]|(?! )\p{Zs}/u

/** How a code point is shown that can't be seen. */
function nameOf(point) {
  return `U+${point.codePointAt(0).toString(16).toUpperCase().padStart(4, '0')}`
}

/** A code point that is at a wrong place, or can't be seen. */
function shownPoint(point, isWrong) {
  if (UNSEEN.test(point)) return element('span', { class: 'unseen' }, nameOf(point))
  if (point === ' ' && isWrong) return element('span', { class: 'space', title: 'a space' }, '␣')
  return point
}

/** Appends the code points of a text: runs that are seen as they are, and the others by their numbers. */
function appendPoints(parent, text) {
  let run = ''
  for (const point of text) {
    const shown = shownPoint(point, false)
    if (typeof shown === 'string') run += shown
    else {
      if (run) parent.append(run)
      run = ''
      parent.append(shown)
    }
  }
  if (run) parent.append(run)
}

/** The index, or the one before it if it is within a surrogate pair: half a pair can't be drawn. */
function between(text, index) {
  return (text.charCodeAt(index) & 0xfc00) === 0xdc00 ? index - 1 : index
}

/** The part in which an index is, or none. */
function partAt(ranges, index) {
  if (!ranges) return undefined
  return PARTS.find(part => ranges[part] && ranges[part][0] <= index && index < ranges[part][1])
}

/** The places where what is drawn changes, in order: ends of parts and places of faults. */
function edgesOf(text, end, ranges, faults) {
  const edges = new Set([0, end])
  for (const part of PARTS) {
    for (const edge of ranges?.[part] ?? []) if (edge < end) edges.add(edge)
  }
  for (const { index } of faults) {
    if (index >= end) continue
    edges.add(index)
    edges.add(Math.min(end, index + String.fromCodePoint(text.codePointAt(index)).length))
  }
  return [...edges].sort((one, other) => one - other)
}

/** The empty place at a text's end. */
function endPoint() {
  return element('span', { class: 'point' }, element('span', { class: 'unseen' }, 'end'))
}

/** The mark of the faults at a place: the code point there, or an empty place at the text's end, and their numbers. */
function mark(point, numbers) {
  return element('span', { class: 'wrong' },
    point === undefined ? endPoint() : element('span', { class: 'point' }, shownPoint(point, true)),
    element('span', { class: 'number', 'aria-hidden': 'true' }, numbers.join(',')))
}

/**
 * The numbers of the faults at each index.
 * @returns {Map<number, number[]>}
 */
function numbersByIndex(faults) {
  const numbers = new Map()
  faults.forEach(({ index }, at) => numbers.set(index, [...(numbers.get(index) ?? []), at + 1]))
  return numbers
}

/**
 * A text as an element.
 * @param {string} text
 * @param {object | null} ranges of the parts of a valid text
 * @param {{ index: number }[]} faults of one that isn't
 */
export function drawnText(text, ranges, faults) {
  const drawn = element('div', { class: 'drawn mono', dir: 'ltr', translate: 'no' })
  const end = between(text, Math.min(text.length, DRAWN_UNITS))
  const numbers = numbersByIndex(faults.slice(0, DRAWN_FAULTS))
  const edges = edgesOf(text, end, ranges, faults.slice(0, DRAWN_FAULTS))
  for (let at = 0; at + 1 < edges.length; at++) {
    const [start, stop] = [edges[at], edges[at + 1]]
    const piece = text.slice(start, stop)
    if (numbers.has(start)) {
      drawn.append(mark(piece, numbers.get(start)))
      continue
    }
    const part = partAt(ranges, start)
    const run = element('span', part ? { class: `part ${part}`, title: part } : { class: 'delimiter' })
    appendPoints(run, piece)
    drawn.append(run)
  }
  if (end === text.length && numbers.has(end)) drawn.append(mark(undefined, numbers.get(end)))
  if (end < text.length) {
    drawn.append(element('span', { class: 'more' }, ` … and ${(text.length - end).toLocaleString('en')} more units`))
  }
  return drawn
}

/** The units of a text in a row of a report, and those before the wrong place. */
const SHOWN_UNITS = 300
const SHOWN_BEFORE = 200

/** A text in a row of a report, with the code point at its wrong place marked; below 0 there is no such place. */
export function shownText(text, index) {
  const shown = element('span', { class: 'shown mono', dir: 'ltr', translate: 'no' })
  const start = between(text, index > SHOWN_UNITS ? index - SHOWN_BEFORE : 0)
  const end = between(text, Math.min(text.length, start + SHOWN_UNITS))
  const point = index >= 0 && index < end ? String.fromCodePoint(text.codePointAt(index)) : ''
  if (start > 0) shown.append('… ')
  appendPoints(shown, text.slice(start, index < 0 ? end : Math.min(index, end)))
  if (point) {
    shown.append(element('span', { class: 'point' }, shownPoint(point, true)))
    appendPoints(shown, text.slice(index + point.length, end))
  } else if (index === text.length) shown.append(endPoint())
  if (end < text.length) shown.append(' …')
  return shown
}
