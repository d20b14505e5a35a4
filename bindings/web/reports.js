// Reports, as `urlcheck lint` writes them: the library writes each piece of one.
import { encoded } from './memory.js'
import { readingOf } from './options.js'

/** @typedef {import('./urlcheck.js').Completion} Completion */
/** @typedef {import('./urlcheck.js').Diagnostic} Diagnostic */
/** @typedef {import('./urlcheck.js').ReportFormat} ReportFormat */
/** @typedef {import('./urlcheck.js').ColumnUnit} ColumnUnit */

/**
 * How a run over files has ended, by the numbers of `urlcheck_completion`.
 * @type {Completion[]}
 */
const COMPLETIONS = ['whole', 'unread', 'stopped']
/** The greatest number that the module takes: its numbers have 32 bits. */
const MOST = 0xffffffff

/**
 * What a report asks of its checker.
 * @typedef {object} Numbers
 * @property {(rule: unknown) => number} ofRule
 * @property {(kind: unknown) => number} ofKind
 * @property {(base: string | undefined, profile: number) => number} hold whether a base is held now
 */

/**
 * A number as the module takes it. Any other would be cut to 32 bits on the way, and so mean something else.
 * @param {unknown} number
 * @param {string} name what it is called in a refusal
 * @param {number} least
 * @returns {number}
 */
export function wholeNumber(number, name, least) {
  if (Number.isInteger(number) && Number(number) >= least && Number(number) <= MOST) return Number(number)
  throw new RangeError(`the ${name} is no whole number from ${least} to ${MOST}`)
}

/** A report in a format: its pieces are given one by one, in their order. */
export class Report {
  #room
  #numbers
  #format
  #unit
  #wording
  #isFirst = true

  /**
   * @param {import('./memory.js').Room} room
   * @param {Numbers} numbers
   * @param {number} format
   * @param {number} unit
   * @param {number} wording
   */
  constructor(room, numbers, format, unit, wording) {
    this.#room = room
    this.#numbers = numbers
    this.#format = format
    this.#unit = unit
    this.#wording = wording
    /** Whether its diagnostics say what to write in place of a text. */
    this.showsMended = room.exports.shows_mended(format) === 1
  }

  /**
   * What is written before all else.
   * @returns {string}
   */
  begin() {
    this.#room.exports.report_begin(this.#format, this.#unit)
    return this.#room.writtenText()
  }

  /**
   * What is written before the diagnostics of a file.
   * @param {string} file its name
   * @returns {string}
   * @throws {TypeError} if the name has a lone surrogate
   */
  fileBegin(file) {
    const name = encoded(file, 'name of the file')
    this.#room.putInBase(name)
    this.#room.exports.report_file_begin(this.#format, name.length)
    return this.#room.writtenText()
  }

  /**
   * What is reported of a violation.
   * @param {Diagnostic} told
   * @returns {string}
   * @throws {BaseRefused} if the base isn't valid by itself
   * @throws {TypeError} where a text has a lone surrogate, or no rule, kind or profile has the name
   * @throws {RangeError} if the place is after the end of the text, or the line or a column isn't from 1 to
   *   4294967295; or there is no memory for it
   */
  diagnostic({ file, line, column = 1, text, rule, place, profile, base, mended }) {
    const room = this.#room
    const name = encoded(file, 'name of the file')
    const instead = encoded(mended?.text ?? '', 'mended text')
    const number = this.#numbers.ofRule(rule)
    const at = wholeNumber(place, 'place', 0)
    const where = [wholeNumber(line, 'line', 1), wholeNumber(column, 'column', 1)]
    const kind = mended ? this.#numbers.ofKind(mended.kind) : 0
    const isOffered = mended?.isOffered ? 1 : 0
    const by = readingOf({ base, profile })
    const length = room.put(text)
    const isHeld = this.#numbers.hold(by.base, by.profile)
    room.putInBase(name, instead)
    // (the module reads the sentence where `message` leaves it, so nothing may be called between the two, and a getter of
    // what was given may call the checker)
    room.exports.message(length, by.profile, isHeld, this.#wording, number, at)
    room.stopUnlessWritten()
    room.exports.diagnostic(this.#format, this.#unit, this.#isFirst ? 1 : 0, number, at, where[0], where[1], length,
      name.length, kind, isOffered, instead.length)
    const written = room.writtenText()
    this.#isFirst = false
    return written
  }

  /**
   * What is written after the diagnostics of a file.
   * @returns {string}
   */
  fileEnd() {
    this.#room.exports.report_file_end(this.#format)
    return this.#room.writtenText()
  }

  /**
   * What is written after all else.
   * @param {Completion} [completion] how the run over the files has ended
   * @returns {string}
   * @throws {TypeError} if no completion has the name
   */
  end(completion = 'whole') {
    const number = COMPLETIONS.indexOf(completion)
    if (number < 0) throw new TypeError("the completion has to be 'whole', 'unread' or 'stopped'")
    this.#room.exports.report_end(this.#format, number)
    return this.#room.writtenText()
  }
}
