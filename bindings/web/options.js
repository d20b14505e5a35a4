// How a text is checked: the options of a call, and a base that was checked before.

/** @typedef {import('./urlcheck.js').Options} Options */
/** @typedef {import('./urlcheck.js').Profile} Profile */
/** @typedef {import('./urlcheck.js').Wording} Wording */

/** A base that was checked, and is valid: the calls of a checker take it in place of its text. */
export class CheckedBase {
  #isChecked = true

  /**
   * @param {string} text
   * @param {Profile} profile
   */
  constructor(text, profile) {
    /** The base's text. */
    this.text = text
    /** By which the base was checked, and by which texts are checked against it. */
    this.profile = profile
    Object.freeze(this)
  }

  /**
   * @param {unknown} it
   * @returns {it is CheckedBase}
   */
  static is(it) {
    return typeof it === 'object' && it !== null && #isChecked in it
  }
}

/**
 * The number of a profile, as `urlcheck_profile` of include/urlcheck.h has it.
 * @param {unknown} profile
 * @returns {number}
 */
export function profileNumber(profile) {
  if (profile === undefined || profile === 'standard') return 0
  if (profile === 'wide') return 1
  if (profile === 'parser') return 2
  throw new TypeError("the profile has to be 'standard', 'wide' or 'parser'")
}

/**
 * How a sentence names a profile and a base, by the numbers of `urlcheck_wording`.
 * @type {Wording[]}
 */
const WORDINGS = ['options', 'arguments', 'sql', 'none']

/**
 * The number of a wording.
 * @param {unknown} wording
 * @returns {number}
 */
export function wordingNumber(wording = 'arguments') {
  const number = WORDINGS.indexOf(/** @type {Wording} */ (wording))
  if (number < 0) throw new TypeError("the wording has to be 'arguments', 'options', 'sql' or 'none'")
  return number
}

/** The options that calls take. */
const NAMES = ['base', 'profile', 'wording']

/**
 * Throws if something else is given in place of the options, such as a string or a base, or an option that no call
 * takes: it would silently be ignored.
 * @param {unknown} options
 */
export function stopUnlessOptions(options) {
  if (options == null) return
  if (typeof options !== 'object') throw new TypeError("the options aren't an object, such as { base: text, profile: name }")
  if (CheckedBase.is(options)) throw new TypeError('a base is in the place of the options: write { base }')
  for (const name in options) {
    if (!NAMES.includes(name)) throw new TypeError(`there is no option ${name}, but base, profile and wording`)
  }
}

/**
 * Throws for a base that is neither a string nor what `base` gave.
 * @param {unknown} base which isn't a string
 * @returns {never}
 */
export function stopForBase(base) {
  // (a copy of what `base` gave, as from another thread, has lost what was checked)
  const isObject = typeof base === 'object' && base !== null
  throw new TypeError(isObject ? 'the base is neither a string nor what `base` gave' : 'the base is no string')
}

/**
 * How a text is checked.
 * @typedef {object} Reading
 * @property {string | undefined} base the text of the base, if there is one
 * @property {number} profile its number
 */

/**
 * How a call without options checks: one object for all of them, since most calls have none.
 * @type {Readonly<Reading>}
 */
const ALONE = Object.freeze({ base: undefined, profile: 0 })

/**
 * How the options ask for a text to be checked. A base that was checked before brings its profile with it.
 * @param {Options | undefined} options
 * @returns {Readonly<Reading>}
 */
export function readingOf(options) {
  if (options === undefined) return ALONE
  stopUnlessOptions(options)
  const base = options?.base ?? undefined
  const profile = profileNumber(options?.profile)
  if (base === undefined || typeof base === 'string') return { base, profile }
  if (!CheckedBase.is(base)) stopForBase(base)
  const number = profileNumber(base.profile)
  if (options?.profile === undefined || profile === number) return { base: base.text, profile: number }
  throw new TypeError(`the base was checked by the ${base.profile} profile, and another one is given for the text`)
}
