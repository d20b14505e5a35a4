/**
 * The checker of valid URL strings (WHATWG URL Standard, sections 3.4 and 4.3) for JavaScript: `urlcheck.wasm`, made of
 * proved code, and this module, which puts texts into its memory and reads its answers. docs/JAVASCRIPT.md says more.
 *
 *     import { load } from './urlcheck.js'
 *     const urlcheck = await load()
 *     const answer = urlcheck.check('https://example.com/a b')
 *     if (!answer.valid) console.log(answer.index, answer.rule, urlcheck.explain(answer.rule).sentence)
 *
 * @module
 */
import {
  BASE_REFUSED, BYTE_PLACE, FAULT_BYTE_PLACE, FAULT_PLACE, FAULT_WORDS, IS_OFFERED, IS_SAME, LENGTH, MEMORY, MENDED,
  MEND_KIND, PLACE, REFUSED, RULE, VERDICT
} from './layout.js'
import { checkedLines } from './lines.js'
import { Room } from './memory.js'
import { CheckedBase, profileNumber, readingOf, stopForBase, stopUnlessOptions, wordingNumber } from './options.js'
import { ResolvedText, UnitWalker, ValidText } from './parts.js'
import { Report, wholeNumber } from './reports.js'
import { FORMAT_NAME, LINE_RULES, RULE_NAME, UNIT_NAME, explanationOf, namesOf } from './rules.js'
import { moduleOf } from './source.js'

/** @typedef {import('./urlcheck.js').Options} Options */
/** @typedef {import('./urlcheck.js').BaseOptions} BaseOptions */
/** @typedef {import('./urlcheck.js').Base} Base */
/** @typedef {import('./urlcheck.js').Valid} Valid */
/** @typedef {import('./urlcheck.js').Refused} Refused */
/** @typedef {import('./urlcheck.js').Resolved} Resolved */
/** @typedef {import('./urlcheck.js').Mended} Mended */
/** @typedef {import('./urlcheck.js').MendKind} MendKind */
/** @typedef {import('./urlcheck.js').Explanation} Explanation */
/** @typedef {import('./urlcheck.js').Source} Source */
/** @typedef {import('./urlcheck.js').RuleName} RuleName */
/** @typedef {import('./urlcheck.js').LineRule} LineRule */
/** @typedef {import('./urlcheck.js').Violation} Violation */
/** @typedef {import('./urlcheck.js').ViolationLike} ViolationLike */
/** @typedef {import('./urlcheck.js').Many} Many */
/** @typedef {import('./urlcheck.js').ReportFormat} ReportFormat */
/** @typedef {import('./urlcheck.js').ColumnUnit} ColumnUnit */
/** @typedef {import('./urlcheck.js').MessageOptions} MessageOptions */
/** @typedef {import('./urlcheck.js').Wording} Wording */

/**
 * How a mended text differs from the refused one, by the numbers of `urlcheck_mend_kind` from 1.
 * @type {MendKind[]}
 */
const MEND_KINDS = ['same', 'escaped', 'changed']

/**
 * The number of a kind of mended text.
 * @param {unknown} kind
 * @returns {number}
 */
function kindNumber(kind) {
  const at = MEND_KINDS.indexOf(/** @type {MendKind} */ (kind))
  if (at < 0) throw new TypeError("the kind has to be 'same', 'escaped' or 'changed'")
  return at + 1
}

/**
 * Whether it is a `Uint8Array`, of this realm or another one, as of a frame or of Node's `vm`.
 * @param {unknown} it
 * @returns {it is Uint8Array}
 */
function isBytes(it) {
  return ArrayBuffer.isView(it) && Object.prototype.toString.call(it) === '[object Uint8Array]'
}

/** The base, checked by itself, violates a rule; the text isn't checked. */
export class BaseRefused extends Error {
  /**
   * @param {RuleName} rule the violated rule
   * @param {number} place where, in code points from 0
   * @param {number} index where, in UTF-16 units: an index of the base's string
   * @param {string} why what is wrong there
   */
  constructor(rule, place, index, why) {
    super(`the base is refused at place ${place}: ${why} [${rule}]`)
    this.name = 'BaseRefused'
    this.rule = rule
    this.place = place
    this.index = index
  }
}

/** A checker: one instance of the module. Several may exist side by side. */
class Checker {
  #room
  /** @type {Map<RuleName, Explanation>} */
  #explained = new Map()

  /** @param {WebAssembly.Instance} instance */
  constructor(instance) {
    const exports = /** @type {import('./memory.js').Exports} */ (/** @type {unknown} */ (instance.exports))
    this.#room = new Room(exports)
    /** The names of the rules, in the order of their numbers. */
    this.rules = Object.freeze(/** @type {RuleName[]} */ (namesOf(this.#room, RULE_NAME, 1)))
    /** The names of the formats of reports, and of the units of their columns, in the order of their numbers. */
    this.formats = Object.freeze(/** @type {ReportFormat[]} */ (namesOf(this.#room, FORMAT_NAME, 0)))
    this.units = Object.freeze(/** @type {ColumnUnit[]} */ (namesOf(this.#room, UNIT_NAME, 0)))
    const version = exports.version()
    /** The version of the library. */
    this.version = `${Math.floor(version / 10000)}.${Math.floor(version / 100) % 100}.${version % 100}`
  }

  /**
   * Whether a text is a valid URL string, alone or against a base, which is checked by itself under the same profile.
   * @param {string} text
   * @param {Options} [options]
   * @returns {Valid | Refused}
   * @throws {BaseRefused} if the base isn't valid by itself
   * @throws {TypeError} where a text isn't a string or has a lone surrogate, or no profile has the name
   * @throws {RangeError} if there is no memory for the text; the next call works
   */
  check(text, options) {
    const room = this.#room
    const { base, profile } = readingOf(options)
    const length = room.put(text)
    room.check(length, profile, this.#hold(base, profile))
    if (this.#isRefused(base)) return this.#refused(text, length)
    return new ValidText(text, room.answer, length === text.length)
  }

  /**
   * Whether a text is a valid URL string, without its parts: the fastest call.
   * @param {string} text
   * @param {Options} [options]
   * @returns {boolean}
   * @throws what `check` throws
   */
  isValid(text, options) {
    const room = this.#room
    const { base, profile } = readingOf(options)
    const length = room.put(text)
    room.check(length, profile, this.#hold(base, profile))
    return !this.#isRefused(base)
  }

  /**
   * A base that is checked once, for many texts: the other calls take it in place of its text.
   * @param {string} text
   * @param {BaseOptions} [options]
   * @returns {Base}
   * @throws what `check` throws of its base
   */
  base(text, options) {
    stopUnlessOptions(options)
    const profile = options?.profile
    const number = profileNumber(profile)
    if (typeof text !== 'string') stopForBase(text)
    this.#hold(text, number)
    return new CheckedBase(text, profile ?? 'standard')
  }

  /**
   * All that is wrong with a text, by place and at one place by the rule's number; nothing if it is valid.
   * @param {string} text
   * @param {Options} [options]
   * @returns {Violation[]}
   * @throws what `check` throws
   */
  violations(text, options) {
    const room = this.#room
    const { base, profile } = readingOf(options)
    const length = room.put(text)
    room.exports.faults(length, profile, this.#hold(base, profile))
    return this.#isRefused(base) ? this.#violations(text, length) : []
  }

  /**
   * The record of the URL that a valid text denotes, and its text.
   * @param {string} text
   * @param {Options} [options]
   * @returns {Resolved | Refused}
   * @throws what `check` throws
   */
  resolve(text, options) {
    const room = this.#room
    const { base, profile } = readingOf(options)
    const length = room.put(text)
    room.resolve(length, profile, room.putBase(base))
    if (this.#isRefused(base)) return this.#refused(text, length)
    const { answer } = room
    // (most links are written as their URLs are, and one string does for both)
    return new ResolvedText(answer[IS_SAME] === 1 ? text : room.out(answer[LENGTH]), answer)
  }

  /**
   * What to write in place of a refused text: a valid one made of it by local edits, which keep all else.
   * @param {string} text
   * @param {Options} [options]
   * @returns {Mended | Refused | null} nothing if the text is valid; its refusal where the edits give no valid text
   * @throws what `check` throws
   */
  mend(text, options) {
    const room = this.#room
    const { base, profile } = readingOf(options)
    const length = room.put(text)
    room.exports.mend(length, profile, room.putBase(base))
    room.look()
    const { answer } = room
    if (answer[VERDICT] !== MENDED) return this.#isRefused(base) ? this.#refused(text, length) : null
    const isOffered = answer[IS_OFFERED] === 1
    return { text: room.out(answer[LENGTH]), kind: MEND_KINDS[answer[MEND_KIND] - 1], isOffered }
  }

  /**
   * What a rule says and asks, where the URL Standard says it, and an example.
   * @param {RuleName} rule
   * @returns {Explanation}
   * @throws {TypeError} if no rule has the name
   */
  explain(rule) {
    const known = this.#explained.get(rule)
    if (known !== undefined) return known
    const explanation = explanationOf(this.#room, rule, this.#numberOf(rule))
    this.#explained.set(rule, explanation)
    return explanation
  }

  /**
   * The sentence on a violation of a text: what a report for compilers has after `error: `.
   * @param {string} text
   * @param {ViolationLike} violation such as a violation, or a refusal
   * @param {MessageOptions} [options] by whose profile, and against whose base, it was checked
   * @returns {string}
   * @throws {BaseRefused} if the base isn't valid by itself
   * @throws {TypeError} where a text is no string or has a lone surrogate, or no rule, profile or wording has the name
   * @throws {RangeError} if the place is after the end of the text, or there is no memory for the sentence
   */
  message(text, { rule, place }, options) {
    const room = this.#room
    const { base, profile } = readingOf(options)
    const wording = wordingNumber(options?.wording)
    const number = this.#numberOfAny(rule)
    const at = wholeNumber(place, 'place', 0)
    const length = room.put(text)
    room.exports.message(length, profile, this.#hold(base, profile), wording, number, at)
    return room.writtenText()
  }

  /**
   * A report, as `urlcheck lint` writes it.
   * @param {ReportFormat} format
   * @param {ColumnUnit} [unit] what its columns count; without one the first that the format takes
   * @param {Wording} [wording] how its sentences name a profile and a base
   * @returns {Report}
   * @throws {TypeError} if no format, unit or wording has the name, or the format has no word for the unit
   */
  report(format, unit, wording) {
    const one = this.formats.indexOf(format)
    if (one < 0) throw new TypeError(`no format has the name ${String(format)}`)
    const takes = (/** @type {number} */ number) => this.#room.exports.takes_unit(one, number) !== 0
    const other = unit === undefined ? this.units.findIndex((_, number) => takes(number)) : this.units.indexOf(unit)
    if (other < 0) throw new TypeError(`no unit has the name ${String(unit)}`)
    if (!takes(other)) throw new TypeError(`the format ${format} has no word for ${String(unit)}`)
    const hold = this.#hold.bind(this)
    const numbers = { ofRule: this.#numberOfAny, ofKind: kindNumber, hold }
    return new Report(this.#room, numbers, one, other, wordingNumber(wording))
  }

  /**
   * Checks the lines of bytes by few calls of the module. A line ends with LF, and one CR before that isn't part of it;
   * an empty one is passed over.
   * @param {Uint8Array} lines in UTF-8
   * @param {Options} [options]
   * @returns {Many}
   * @throws {TypeError} if the lines aren't a `Uint8Array`, and what else `check` throws of its options
   * @throws {RangeError} if there is no memory for a line; the next call works
   */
  checkMany(lines, options) {
    const { base, profile } = readingOf(options)
    if (!isBytes(lines)) throw new TypeError("the lines aren't a Uint8Array")
    return checkedLines(this.#room, this.rules, lines, profile, this.#hold(base, profile))
  }

  /**
   * The number of a rule.
   * @param {unknown} rule
   * @returns {number}
   */
  #numberOf(rule) {
    const number = this.rules.indexOf(/** @type {RuleName} */ (rule)) + 1
    if (number === 0) throw new TypeError(`no rule has the name ${String(rule)}`)
    return number
  }

  /**
   * The number of a rule of texts or of lines.
   * @param {unknown} rule
   * @returns {number}
   */
  #numberOfAny = rule => LINE_RULES.get(/** @type {LineRule} */ (rule)) ?? this.#numberOf(rule)

  /**
   * Has the module hold the base, if there is one, and gives whether one is held.
   * @param {string | undefined} base
   * @param {number} profile
   * @returns {number} 1 or 0
   */
  #hold(base, profile) {
    if (base === undefined) return 0
    if (!this.#room.hold(base, profile)) this.#isRefused(base)
    return 1
  }

  /**
   * Whether the text is refused and not valid. Throws where the call has said neither.
   * @param {string | undefined} base
   * @returns {boolean}
   */
  #isRefused(base) {
    const room = this.#room
    room.look()
    const verdict = room.answer[VERDICT]
    if (verdict <= REFUSED) return verdict === REFUSED
    if (verdict === MEMORY) room.stopForMemory()
    if (verdict !== BASE_REFUSED || base === undefined) throw new Error(`urlcheck.wasm answers ${verdict}`)
    const { rule, place, index } = this.#violation(base, -1)
    throw new BaseRefused(rule, place, index, rule === 'no-scheme' ? 'it has no scheme' : this.explain(rule).sentence)
  }

  /**
   * The violation that a call has found of a text.
   * @param {string} text
   * @param {number} length of its UTF-8
   * @returns {Violation}
   */
  #violation(text, length) {
    const { answer } = this.#room
    const byte = answer[BYTE_PLACE]
    const index = length === text.length ? byte : new UnitWalker(text).indexOf(byte)
    return { rule: this.rules[answer[RULE] - 1], place: answer[PLACE], index }
  }

  /**
   * The refusal that a call has found of a text.
   * @param {string} text
   * @param {number} length of its UTF-8
   * @returns {Refused}
   */
  #refused(text, length) {
    return { valid: false, ...this.#violation(text, length) }
  }

  /**
   * The violations that a call has written, at `out_at`. They come by their places, so one walk finds all indices.
   * @param {string} text
   * @param {number} length of its UTF-8, which is the text's length if it is ASCII
   * @returns {Violation[]}
   */
  #violations(text, length) {
    const { answer, exports } = this.#room
    const walker = new UnitWalker(text)
    const isAscii = length === text.length
    const found = []
    const words = new Uint32Array(exports.memory.buffer, exports.out_at() >>> 0, answer[LENGTH] * FAULT_WORDS)
    for (let at = 0; at < words.length; at += FAULT_WORDS) {
      const byte = words[at + FAULT_BYTE_PLACE]
      const index = isAscii ? byte : walker.indexOf(byte)
      found.push({ rule: this.rules[words[at] - 1], place: words[at + FAULT_PLACE], index })
    }
    return found
  }
}

/**
 * Loads the module and gives a checker. Without a source it is the `urlcheck.wasm` next to this file.
 * @param {Source} [source] the module, its bytes, or its address, which may be relative to this file
 * @returns {Promise<Checker>}
 */
export async function load(source = new URL('./urlcheck.wasm', import.meta.url)) {
  return new Checker(await WebAssembly.instantiate(await moduleOf(source), {}))
}
