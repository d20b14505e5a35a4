/**
 * The checker of valid URL strings (WHATWG URL Standard, sections 3.4 and 4.3), alone or against a base.
 *
 * An index counts UTF-16 units of the caller's string, from 0, and a place counts code points. A range is two indices,
 * the second after the part's end, as for `slice`.
 */

/**
 * Loads the module and returns a checker. The default source is the `urlcheck.wasm` next to `urlcheck.js`.
 * @param source the module, its bytes, a response that has them, or its address, which may be relative to `urlcheck.js`
 */
export function load(source?: Source): Promise<Checker>

/** Where the module comes from. */
export type Source = string | URL | BufferSource | Response | WebAssembly.Module

/** A checker: one instance of the module. Several may exist side by side, each with its own memory. */
export interface Checker {
  /**
   * Whether a text is a valid URL string, alone or against a base, which is checked under the same profile.
   * @throws {BaseRefused} if the base isn't valid
   * @throws {TypeError} if a text isn't a string or has a lone surrogate, the options aren't an object, or no profile
   *   has the name
   * @throws {RangeError} if there is no memory for the text; the next call works
   */
  check(text: string, options?: Options): Valid | Refused

  /**
   * Whether a text is a valid URL string: the fastest call.
   * @throws what `check` throws
   */
  isValid(text: string, options?: Options): boolean

  /**
   * A base that is checked once, for many texts: the other calls accept it in place of its text, and use its profile.
   * @throws what `check` throws about its base
   */
  base(text: string, options?: BaseOptions): Base

  /**
   * All violations of a text, by place and at one place by the rule's number; none if it is valid.
   * @throws what `check` throws
   */
  violations(text: string, options?: Options): Violation[]

  /**
   * The record of the URL that a valid text denotes, and its text.
   * @throws what `check` throws
   */
  resolve(text: string, options?: Options): Resolved | Refused

  /**
   * What to write in place of a refused text: a valid text, from which it differs by local edits. It is null if the
   * text is valid, and the text's refusal if there is no such text: `'text' in answer` tells them apart.
   * @throws what `check` throws
   */
  mend(text: string, options?: Options): Mended | Refused | null

  /**
   * The sentence of a rule, what it requires, its section of the URL Standard, and an example.
   * @throws {TypeError} if no rule has the name
   */
  explain(rule: RuleName): Explanation

  /**
   * Checks lines, with one call of the module for each mebibyte. A line ends with LF, and one CR before that isn't part
   * of it. An empty line is skipped, as by `urlcheck lint`.
   * @param lines the bytes, in UTF-8; a line that isn't UTF-8 is refused
   * @throws {TypeError} if the lines aren't a `Uint8Array`, and what `check` throws about its options
   * @throws {RangeError} if there is no memory for a line; the next call works
   */
  checkMany(lines: Uint8Array, options?: Options): Many

  /**
   * The sentence on a violation of a text, as `urlcheck lint` writes it after `error: `, in a wording of your choice. It
   * names a wider profile only if that accepts the text against the same base.
   * @param violation such as one of `violations`, or a refusal
   * @param options the profile under which the text was checked, and the wording
   * @throws {TypeError} if a text isn't a string or has a lone surrogate, or no rule, profile or wording has the name
   * @throws {RangeError} if the place is after the end of the text, or there is no memory
   */
  message(text: string, violation: ViolationLike, options?: MessageOptions): string

  /**
   * A report in pieces, as `urlcheck lint` writes it: `begin`, for each file `fileBegin`, its diagnostics and
   * `fileEnd`, and then `end`.
   * @param unit what its columns count; by default code points, and in `rdjson` bytes
   * @param wording how its sentences name a profile and a base; `'options'` as by `urlcheck lint`
   * @throws {TypeError} if no format, unit or wording has the name, or the format can't count the unit
   */
  report(format: ReportFormat, unit?: ColumnUnit, wording?: Wording): Report

  /** The names of the rules, in the order of their numbers. */
  readonly rules: readonly RuleName[]

  /** The names of the formats of reports, in the order of their numbers. */
  readonly formats: readonly ReportFormat[]

  /** The names of what columns count, in the order of their numbers. */
  readonly units: readonly ColumnUnit[]

  /** The version of the library. */
  readonly version: string
}

/** How a text is checked. */
export interface Options {
  /** The base: its text, or a base that was checked before, or none. */
  base?: string | Base | null | undefined
  /**
   * The profile under which the text and the base are checked. The default is the profile of a base that was checked
   * before, or otherwise the standard one. A profile other than such a base's causes a `TypeError`.
   */
  profile?: Profile | undefined
}

/** How a text was checked, and how a sentence on it is worded. */
export interface MessageOptions extends Options {
  /** How the sentence names a profile and a base; by default `'arguments'`. */
  wording?: Wording | undefined
}

/**
 * How a sentence names a profile and a base. `arguments`: as an argument of a call, `profile='wide'`. `options`: as on a
 * command line, `--profile wide`. `sql`: as in a statement of SQL, `profile 'wide'`. `none`: it names neither.
 */
export type Wording = 'arguments' | 'options' | 'sql' | 'none'

/** How a base is checked. */
export interface BaseOptions {
  /** The profile; by default the standard one. */
  profile?: Profile | undefined
}

/**
 * A base that was checked and is valid, made by `base` of a checker. It is a value like a string: it keeps nothing in
 * the memory of the module, so there is nothing to free, it never changes, and any checker of its thread accepts it. A
 * copy of it isn't a base, so send a worker its text and its profile. A checker keeps the last base, even one that was
 * given as text, and checks it again only after another one.
 */
export interface Base {
  /** The base's text. */
  readonly text: string
  /** The profile under which the base was checked, and texts are checked against it. */
  readonly profile: Profile
}

/**
 * `standard`: the URL Standard's valid URL strings. `wide`: also `_` and hyphens anywhere in domains, and any segments
 * after an authority. `parser`: each text that the Standard's parser accepts without a validation error, and no other.
 * Each accepts whatever the one before it accepts.
 */
export type Profile = 'standard' | 'wide' | 'parser'

/** The names of the rules. */
export type RuleName =
  | 'no-scheme'
  | 'opaque-base'
  | 'two-slashes'
  | 'host-missing'
  | 'host-domain'
  | 'host-number'
  | 'host-ipv6'
  | 'host-code-point'
  | 'port-digit'
  | 'port-range'
  | 'first-segment-empty'
  | 'drive-after-host'
  | 'code-point'
  | 'percent'

/** The rules of lines that aren't checked: one that isn't UTF-8, and one with more bytes than `urlcheck lint` reads. */
export type LineRule = 'not-utf8' | 'line-too-long'

/** The answer of `checkMany`. */
export interface Many {
  /** How many lines there are, with the empty ones. */
  lines: number
  /** How many of them were checked: those that aren't empty. */
  judged: number
  /** The lines that aren't valid, in their order. */
  refused: RefusedLine[]
}

/** A line that isn't valid. */
export interface RefusedLine {
  /** Its number, from 1. */
  line: number
  /** The beginning of its text, in bytes: `lines.subarray(start, end)` is the text. */
  start: number
  /** The end of its text, in bytes. */
  end: number
  rule: RuleName | 'not-utf8'
  /** The first wrong place, in code points of the line's text; if it isn't UTF-8, the first wrong byte's place. */
  place: number
  /** The same place, in bytes of the line's text. */
  byte: number
}

/** A rule that a text violates, or why a line isn't checked, and where. */
export interface ViolationLike {
  rule: RuleName | LineRule
  /** In code points. */
  place: number
}

/** The formats of reports, as `urlcheck lint --format` names them. */
export type ReportFormat = 'gnu' | 'caret' | 'json' | 'github' | 'sarif' | 'checkstyle' | 'junit' | 'gitlab' | 'rdjson'

/** What columns count, as `urlcheck lint --columns` names it. */
export type ColumnUnit = 'code-points' | 'bytes' | 'utf16' | 'screen'

/** How a run over files ended: whole, with a file that wasn't read to its end, or before the last one's end. */
export type Completion = 'whole' | 'unread' | 'stopped'

/** A report, piece by piece; each call returns a piece of its text, which may be empty. */
export interface Report {
  /** Whether its diagnostics say what to write in place of a text. */
  readonly showsMended: boolean
  /** The beginning of the report. */
  begin(): string
  /**
   * The text before the diagnostics of a file.
   * @param file its name
   * @throws {TypeError} if the name has a lone surrogate
   */
  fileBegin(file: string): string
  /**
   * The report on a violation.
   * @throws {TypeError} if a text has a lone surrogate, or no rule, kind or profile has the name
   * @throws {RangeError} if the place is after the end of the text, the line or a column isn't from 1 to
   *   4294967295, or there is no memory
   */
  diagnostic(told: Diagnostic): string
  /** The text after the diagnostics of a file. */
  fileEnd(): string
  /**
   * The end of the report.
   * @throws {TypeError} if no completion has the name
   */
  end(completion?: Completion): string
}

/** A violation of a text in a file. */
export interface Diagnostic extends ViolationLike {
  /** The name of the file. */
  file: string
  /** The line that has the text, from 1. */
  line: number
  /** The column in which the text begins, from 1; by default 1. */
  column?: number | undefined
  text: string
  /** The profile under which the text was checked; by default the standard one. */
  profile?: Profile | undefined
  /** The base against which it was checked, if it was. */
  base?: string | Base | null | undefined
  /** What a program may write in place of the text, or nothing. */
  mended?: Mended | null | undefined
}

/** The index of a part's beginning, and the index after its end. */
export type Range = [start: number, end: number]

/**
 * A valid URL string. Its parts are taken out of the text when you ask for them. `toJSON` returns all of them as a
 * plain object, which you can send to a worker or spread.
 */
export interface Valid extends Parts {
  toJSON(): Parts
}

/** The parts of a valid text: slices of it without their delimiters, or null if the text lacks the part. */
export interface Parts {
  valid: true
  scheme: string | null
  host: string | null
  port: string | null
  /** The path is always there, though it may be empty. */
  path: string
  query: string | null
  fragment: string | null
  ranges: Ranges
}

/** Where the parts of a valid text are in it. */
export interface Ranges {
  scheme: Range | null
  host: Range | null
  port: Range | null
  path: Range
  query: Range | null
  fragment: Range | null
}

/** A rule that a text violates, and where. */
export interface Violation {
  rule: RuleName
  /** In code points. */
  place: number
  /** In UTF-16 units. */
  index: number
}

/** The first violation of a text that isn't valid. */
export interface Refused extends Violation {
  valid: false
}

/** A valid URL string in place of a refused text. */
export interface Mended {
  text: string
  kind: MendKind
  /** Whether reports offer it: if not, its author may have meant another one. */
  isOffered: boolean
}

/**
 * How a mended text differs from the refused one. `same`: a second parser reads both as the same URL. `escaped`: it
 * doesn't, but only some code points were percent-encoded. `changed`: neither; check that the text is what was meant.
 */
export type MendKind = 'same' | 'escaped' | 'changed'

/** The URL that a valid text denotes. */
export interface Resolved {
  readonly valid: true
  /** The record's text, like `href` of an engine's `URL`: only ASCII. */
  readonly text: string
  /** The record, which is made each time that you ask for it. */
  readonly record: UrlRecord
  /** All of it as a plain object, which you can send to a worker. */
  toJSON(): { valid: true; text: string; record: UrlRecord }
}

/** The parts of a record, as its text has them. */
export interface UrlRecord {
  scheme: string
  /** The host, or null without `//`, as in `mailto:a`; `empty` is a host between `//` and `/`, as in `file:///a`. */
  host: { kind: 'domain' | 'ipv4' | 'ipv6' | 'opaque' | 'empty'; text: string } | null
  /** The port, or null if there is none or it is the scheme's own. */
  port: string | null
  /** The path, or null if it is opaque. */
  segments: string[] | null
  opaquePath: string | null
  query: string | null
  fragment: string | null
}

/** An explanation of a rule. */
export interface Explanation {
  readonly rule: RuleName
  /** What is wrong at the place of a violation. */
  readonly sentence: string
  /** What the rule requires. */
  readonly requires: string
  /** The section of the URL Standard that requires it. */
  readonly section: string
  /** A text that violates the rule, with the base that it is read against, the place, and a valid text that was meant. */
  readonly example: Example
}

/** A text that violates a rule. */
export interface Example {
  readonly text: string
  readonly base: string | null
  readonly place: number
  readonly mended: string
}

/** The base violates a rule; the text wasn't checked. */
export class BaseRefused extends Error {
  constructor(rule: RuleName, place: number, index: number, why: string)
  readonly rule: RuleName
  readonly place: number
  readonly index: number
}
