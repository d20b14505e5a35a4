// The parts of a valid text and of a URL, and the indices of the caller's string.
import {
  FRAGMENT_END, HOST_END, HOST_KIND, OPAQUE_PATH, PATH_END, PATH_START, PORT_END, QUERY_END, SCHEME_END
} from './layout.js'

/** @typedef {import('./urlcheck.js').Parts} Parts */
/** @typedef {import('./urlcheck.js').Range} Range */
/** @typedef {import('./urlcheck.js').UrlRecord} UrlRecord */
/** @typedef {NonNullable<UrlRecord['host']>['kind']} HostKind */

/**
 * The kinds of hosts, by the numbers of `urlcheck_host` from 1.
 * @type {HostKind[]}
 */
const HOST_KINDS = ['domain', 'ipv4', 'ipv6', 'opaque', 'empty']

/** Walks through a text, and finds the index of the unit at which a byte of its UTF-8 begins. */
export class UnitWalker {
  /** @param {string} text */
  constructor(text) {
    this.text = text
    this.unit = 0
    this.byte = 0
  }

  /**
   * The index of a byte. Lengths are counted in UTF-8; a pair of surrogates is one code point of four bytes.
   * @param {number} byte where a code point begins, or the text's end; not before the byte that was asked last
   * @returns {number}
   */
  indexOf(byte) {
    while (this.byte < byte) {
      const unit = this.text.charCodeAt(this.unit)
      if (unit < 0x80) this.byte += 1
      else if (unit < 0x800) this.byte += 2
      else if ((unit & 0xf800) !== 0xd800) this.byte += 3
      else {
        this.byte += 4
        this.unit += 1
      }
      this.unit += 1
    }
    return this.unit
  }
}

/**
 * A valid text, whose parts are cut out of it when they are asked for: most callers ask for few of them. The ends are
 * indices, and below 0 if the text lacks the part.
 */
export class ValidText {
  #text
  #schemeEnd
  #hostEnd
  #portEnd
  #pathStart
  #pathEnd
  #queryEnd
  #fragmentEnd

  /**
   * @param {string} text
   * @param {Uint32Array} answer of the call that has told where its parts end
   * @param {boolean} isAscii
   */
  constructor(text, answer, isAscii) {
    /** @type {true} */
    this.valid = true
    this.#text = text
    // (`| 0` makes the module's 0xffffffff, of a part that isn't there, -1)
    this.#schemeEnd = answer[SCHEME_END] | 0
    this.#hostEnd = answer[HOST_END] | 0
    this.#portEnd = answer[PORT_END] | 0
    this.#pathStart = answer[PATH_START]
    this.#pathEnd = answer[PATH_END]
    this.#queryEnd = answer[QUERY_END] | 0
    this.#fragmentEnd = answer[FRAGMENT_END] | 0
    if (!isAscii) this.#countUnits()
  }

  /** Makes the ends, which are in bytes, indices of units. */
  #countUnits() {
    const walker = new UnitWalker(this.#text)
    this.#schemeEnd = this.#schemeEnd < 0 ? -1 : walker.indexOf(this.#schemeEnd)
    this.#hostEnd = this.#hostEnd < 0 ? -1 : walker.indexOf(this.#hostEnd)
    this.#portEnd = this.#portEnd < 0 ? -1 : walker.indexOf(this.#portEnd)
    this.#pathStart = walker.indexOf(this.#pathStart)
    this.#pathEnd = walker.indexOf(this.#pathEnd)
    this.#queryEnd = this.#queryEnd < 0 ? -1 : walker.indexOf(this.#queryEnd)
    this.#fragmentEnd = this.#fragmentEnd < 0 ? -1 : walker.indexOf(this.#fragmentEnd)
  }

  /**
   * A part, or null if its end says that the text lacks it.
   * @param {number} start
   * @param {number} end
   * @returns {string | null}
   */
  #cut(start, end) {
    return end < 0 ? null : this.#text.slice(start, end)
  }

  get scheme() {
    return this.#cut(0, this.#schemeEnd)
  }

  // (`//` is before a host, after the `:` of a scheme or at the text's start)
  get host() {
    return this.#cut(this.#schemeEnd + 3, this.#hostEnd)
  }

  get port() {
    return this.#cut(this.#hostEnd + 1, this.#portEnd)
  }

  get path() {
    return this.#text.slice(this.#pathStart, this.#pathEnd)
  }

  get query() {
    return this.#cut(this.#pathEnd + 1, this.#queryEnd)
  }

  get fragment() {
    return this.#cut(Math.max(this.#pathEnd, this.#queryEnd) + 1, this.#fragmentEnd)
  }

  get ranges() {
    /** @type {(start: number, end: number) => Range | null} */
    const range = (start, end) => (end < 0 ? null : [start, end])
    return {
      scheme: range(0, this.#schemeEnd),
      host: range(this.#schemeEnd + 3, this.#hostEnd),
      port: range(this.#hostEnd + 1, this.#portEnd),
      path: /** @type {Range} */ ([this.#pathStart, this.#pathEnd]),
      query: range(this.#pathEnd + 1, this.#queryEnd),
      fragment: range(Math.max(this.#pathEnd, this.#queryEnd) + 1, this.#fragmentEnd)
    }
  }

  /** @returns {Parts} */
  toJSON() {
    const { valid, scheme, host, port, path, query, fragment, ranges } = this
    return { valid, scheme, host, port, path, query, fragment, ranges }
  }

  /** What Node shows of it. */
  [Symbol.for('nodejs.util.inspect.custom')]() {
    return this.toJSON()
  }
}

/** The URL that a valid text denotes, by its text, which is ASCII. */
export class ResolvedText {
  #parts
  #hostKind
  #isOpaque

  /**
   * @param {string} text
   * @param {Uint32Array} answer of the call that has written the text
   */
  constructor(text, answer) {
    /** @type {true} */
    this.valid = true
    /** The text of the record. */
    this.text = text
    this.#parts = new ValidText(text, answer, true)
    this.#hostKind = answer[HOST_KIND]
    this.#isOpaque = answer[OPAQUE_PATH] === 1
  }

  /** @returns {UrlRecord} */
  get record() {
    const { scheme, host, port, path, query, fragment } = this.#parts
    return {
      scheme: /** @type {string} */ (scheme),
      host: host === null ? null : { kind: HOST_KINDS[this.#hostKind - 1], text: host },
      port,
      query,
      fragment,
      segments: this.#isOpaque ? null : path.split('/').slice(1),
      opaquePath: this.#isOpaque ? path : null
    }
  }

  toJSON() {
    const { valid, text, record } = this
    return { valid, text, record }
  }

  /** What Node shows of it. */
  [Symbol.for('nodejs.util.inspect.custom')]() {
    return this.toJSON()
  }
}
