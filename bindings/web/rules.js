// What the library knows of its rules, and the names that it gives.
import { LINE_NO_UTF8, LINE_TOO_LONG } from './layout.js'

/** @typedef {import('./urlcheck.js').Explanation} Explanation */
/** @typedef {import('./urlcheck.js').LineRule} LineRule */
/** @typedef {import('./urlcheck.js').RuleName} RuleName */

// What a text of the library is: see `urlcheck_text` of include/urlcheck.h.
export const RULE_NAME = 0
export const FORMAT_NAME = 8
export const UNIT_NAME = 9
const RULE_SENTENCE = 1
const RULE_REQUIRES = 3
const RULE_SECTION = 4
const EXAMPLE_BASE = 5
const EXAMPLE = 6
const EXAMPLE_MENDED = 7

/**
 * The numbers of the rules of lines that aren't checked.
 * @type {ReadonlyMap<LineRule, number>}
 */
export const LINE_RULES = new Map([['not-utf8', LINE_NO_UTF8], ['line-too-long', LINE_TOO_LONG]])

/**
 * The names that the library gives by number, from a first number on.
 * @param {import('./memory.js').Room} room
 * @param {number} what they are names of
 * @param {number} first
 * @returns {string[]}
 */
export function namesOf(room, what, first) {
  const names = []
  for (let number = first, length; (length = room.exports.text(what, number)) !== 0; number++) names.push(room.out(length))
  return names
}

/**
 * What is known of a rule.
 * @param {import('./memory.js').Room} room
 * @param {RuleName} rule
 * @param {number} number
 * @returns {Explanation}
 */
export function explanationOf(room, rule, number) {
  /** @param {number} what */
  const said = what => room.out(room.exports.text(what, number))
  const base = said(EXAMPLE_BASE)
  return Object.freeze({
    rule,
    sentence: said(RULE_SENTENCE),
    requires: said(RULE_REQUIRES),
    section: said(RULE_SECTION),
    example: Object.freeze({
      text: said(EXAMPLE),
      base: base === '' ? null : base,
      place: room.exports.example_place(number),
      mended: said(EXAMPLE_MENDED)
    })
  })
}
