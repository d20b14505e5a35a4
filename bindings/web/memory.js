// The memory of the module: texts go in as UTF-8, and answers come out as words of 32 bits.
import { ANSWER_WORDS, DONE, LENGTH, MEMORY, NO_COLUMN, NO_PLACE, VERDICT } from './layout.js'

/**
 * What the module exports: the functions of module/glue.c, lines.c and reports.c. A base is held where `prepare` has
 * checked it last; the base of `resolve` and `mend` is the text in its room, or none if its length is below 0.
 * @typedef {object} Exports
 * @property {WebAssembly.Memory} memory
 * @property {(textBytes: number, baseBytes: number) => number} make_rooms
 * @property {() => number} text_at
 * @property {() => number} base_at
 * @property {() => number} answer_at
 * @property {() => number} out_at
 * @property {(baseLength: number, profile: number) => void} prepare
 * @property {(length: number, profile: number, isHeld: number) => void} check
 * @property {(length: number, profile: number, isHeld: number) => void} faults
 * @property {(length: number, profile: number, baseLength: number) => void} resolve
 * @property {(length: number, profile: number, baseLength: number) => void} mend
 * @property {(length: number, from: number, profile: number, isHeld: number) => void} check_lines
 * @property {(format: number, unit: number) => void} report_begin
 * @property {(format: number, fileLength: number) => void} report_file_begin
 * @property {(format: number) => void} report_file_end
 * @property {(format: number, completion: number) => void} report_end
 * @property {(length: number, profile: number, isHeld: number, wording: number, rule: number, place: number) => void} message
 * @property {(format: number, unit: number, isFirst: number, rule: number, place: number, line: number, column: number,
 *   length: number, fileLength: number, kind: number, isOffered: number, fixLength: number) => void} diagnostic
 * @property {(format: number) => number} shows_mended
 * @property {(format: number, unit: number) => number} takes_unit
 * @property {(what: number, number: number) => number} text
 * @property {(rule: number) => number} example_place
 * @property {() => number} version
 */

/** A text of at most this many UTF-16 units fits into its room without being measured: each has at most three bytes. */
const SHORT = 512
/** The room that holds any such text, and the one above which it is given up with the next call. */
const SMALL_ROOM = 3 * SHORT
const LARGE_ROOM = 1 << 20

const encoder = new TextEncoder()
// A mended text may begin with U+FEFF, which isn't a mark of an order of bytes then.
const decoder = new TextDecoder('utf-8', { ignoreBOM: true })
const LONE_SURROGATE = /\p{Cs}/u

/**
 * Throws if a text has a lone surrogate, which has no form in UTF-8: the encoder silently writes another code point.
 * @param {string} text
 * @param {string} name what the text is called in a refusal
 * @throws {TypeError} if the text has a lone surrogate
 */
function stopAtLoneSurrogate(text, name) {
  const at = text.search(LONE_SURROGATE)
  if (at >= 0) throw new TypeError(`the ${name} has a lone surrogate at index ${at}`)
}

/**
 * The UTF-8 of a text.
 * @param {string} text
 * @param {string} name what the text is called in a refusal
 * @returns {Uint8Array}
 * @throws {TypeError} if it isn't a string, or has a lone surrogate
 */
export function encoded(text, name) {
  if (typeof text !== 'string') throw new TypeError(`the ${name} is no string`)
  const bytes = encoder.encode(text)
  if (bytes.length !== text.length) stopAtLoneSurrogate(text, name)
  return bytes
}

/** The module's memory: texts go in, answers come out. */
export class Room {
  /** @param {Exports} exports */
  constructor(exports) {
    this.exports = exports
    // An export is looked up once, since each look takes as long as a short call.
    this.check = exports.check
    this.resolve = exports.resolve
    this.textRoom = this.baseRoom = 0
    /** The answer, in words of 32 bits. */
    this.answer = new Uint32Array(0)
    /** The rooms of the text and of the base. */
    this.text = this.base = new Uint8Array(0)
    this.isLarge = false
    /** The text that is in the room of the base, if one is known to be there, and the length of what is there. */
    this.baseText = /** @type {string | undefined} */ ('')
    this.baseLength = 0
    /** The base that the module holds, if it holds one, and its profile. */
    this.heldText = /** @type {string | undefined} */ (undefined)
    this.heldProfile = 0
    this.layOut(SMALL_ROOM, SMALL_ROOM)
  }

  /** Sees the memory again if it has grown: what was seen of it has then no elements. */
  look() {
    if (this.answer.length !== 0) return
    const { memory, text_at, base_at, answer_at } = this.exports
    // (an address from 2 GiB on comes out of the module as a number below 0)
    this.answer = new Uint32Array(memory.buffer, answer_at() >>> 0, ANSWER_WORDS)
    this.text = new Uint8Array(memory.buffer, text_at() >>> 0, this.textRoom)
    this.base = new Uint8Array(memory.buffer, base_at() >>> 0, this.baseRoom)
  }

  /**
   * Makes rooms of this many bytes. A text that is in its room stays there.
   * @param {number} textRoom
   * @param {number} baseRoom
   */
  layOut(textRoom, baseRoom) {
    if (!this.exports.make_rooms(textRoom, baseRoom)) this.stopForMemory()
    this.textRoom = textRoom
    this.baseRoom = baseRoom
    this.isLarge = textRoom > LARGE_ROOM || baseRoom > LARGE_ROOM
    this.baseText = ''
    this.baseLength = 0
    this.answer = new Uint32Array(0)
    this.look()
  }

  /**
   * Gives up large rooms, so that the next call finds all of the memory.
   * @returns {never}
   */
  stopForMemory() {
    if (this.textRoom > SMALL_ROOM || this.baseRoom > SMALL_ROOM) this.layOut(SMALL_ROOM, SMALL_ROOM)
    throw new RangeError('out of memory')
  }

  /**
   * Puts a text into its room, before the base is put into its own.
   * @param {string} text
   * @returns {number} the length of its UTF-8
   */
  put(text) {
    if (typeof text !== 'string' || text.length > SHORT || this.isLarge) return this.putBytes(encoded(text, 'text'))
    this.look()
    const { written } = encoder.encodeInto(text, this.text)
    if (written !== text.length) stopAtLoneSurrogate(text, 'text')
    return /** @type {number} */ (written)
  }

  /**
   * Puts bytes into the room of the text.
   * @param {Uint8Array} bytes
   * @returns {number} their length
   */
  putBytes(bytes) {
    if (bytes.length > this.textRoom || this.isLarge) this.layOut(Math.max(SMALL_ROOM, bytes.length), SMALL_ROOM)
    this.look()
    this.text.set(bytes)
    return bytes.length
  }

  /**
   * Puts a base into its room, unless it is there.
   * @param {string | undefined} base
   * @returns {number} the length of its UTF-8, or -1 if there is none
   */
  putBase(base) {
    if (base === undefined) return -1
    if (base !== this.baseText) {
      this.putInBase(encoded(base, 'base'))
      this.baseText = base
    }
    return this.baseLength
  }

  /**
   * Puts bytes into the room of the base.
   * @param {...Uint8Array} parts
   */
  putInBase(...parts) {
    const length = parts.reduce((sum, part) => sum + part.length, 0)
    if (length > this.baseRoom) this.layOut(this.textRoom, length)
    this.look()
    let at = 0
    for (const part of parts) {
      this.base.set(part, at)
      at += part.length
    }
    // (these bytes need not be a base's, so no base is known to be in the room, and the empty one isn't)
    this.baseText = undefined
    this.baseLength = length
  }

  /**
   * Has the module hold a base, which is checked unless it is held.
   * @param {string} base
   * @param {number} profile
   * @returns {boolean} whether it is held; otherwise the answer says why not
   */
  hold(base, profile) {
    if (base === this.heldText && profile === this.heldProfile) return true
    this.heldText = undefined
    this.exports.prepare(this.putBase(base), profile)
    this.look()
    if (this.answer[VERDICT] !== 0) return false
    this.heldText = base
    this.heldProfile = profile
    return true
  }

  /**
   * What a call has written.
   * @param {number} length
   * @returns {string}
   */
  out(length) {
    const { memory, out_at } = this.exports
    return decoder.decode(new Uint8Array(memory.buffer, out_at() >>> 0, length))
  }

  /**
   * Stops if a call has written no text.
   * @throws {RangeError} if there is no memory for it
   */
  stopUnlessWritten() {
    this.look()
    const verdict = this.answer[VERDICT]
    if (verdict === MEMORY) this.stopForMemory()
    if (verdict === NO_PLACE) throw new RangeError('the place is after the end of the text')
    if (verdict === NO_COLUMN) throw new RangeError('a column is above 4294967295')
    if (verdict !== DONE) throw new Error(`urlcheck.wasm answers ${verdict}`)
  }

  /**
   * The text that a call has written.
   * @returns {string}
   * @throws what `stopUnlessWritten` throws
   */
  writtenText() {
    this.stopUnlessWritten()
    return this.out(this.answer[LENGTH])
  }
}
