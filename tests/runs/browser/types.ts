// A caller in TypeScript, as strictly as the compiler can: it is compiled and not run.
import { BaseRefused, load } from './urlcheck.js'
import type { Base, Checker, Diagnostic, Explanation, MendKind, Parts, Profile, Range, Refused } from './urlcheck.js'
import type { Many, RefusedLine, Report, Resolved, RuleName, Valid, Violation, Wording } from './urlcheck.js'
import type * as Wanted from './urlcheck.js'
import * as written from './written.js'

const urlcheck: Checker = await load()
const other: Checker = await load(new URL('./urlcheck.wasm', import.meta.url))
const third: Checker = await load(new Uint8Array([0, 97, 115, 109]))

const answer: Valid | Refused = urlcheck.check('https://example.com/a?q')
if (answer.valid) {
  const parts: (string | null)[] = [answer.scheme, answer.host, answer.port, answer.query, answer.fragment]
  const path: string = answer.path
  const [start, end]: Range = answer.ranges.path
  const all: Parts = answer.toJSON()
  console.log(all.valid)
  console.log(parts, path, start, end)
} else {
  const rule: RuleName = answer.rule
  const explained: Explanation = other.explain(rule)
  console.log(answer.place, answer.index, explained.sentence, explained.example.mended)
}

const profile: Profile = 'wide'
const violations: Violation[] = urlcheck.violations('x', { base: 'http://h/', profile })
const resolved: Resolved | Refused = third.resolve('x', { base: null })
if (resolved.valid) console.log(resolved.text, resolved.record.host?.kind, resolved.record.segments?.length)
console.log(violations.map(({ rule, index }) => `${rule} ${index}`), urlcheck.rules.length, urlcheck.version)

const isValid: boolean = urlcheck.isValid('x', { base: 'http://h/' })
const mended = urlcheck.mend('http://h/a b')
if (mended !== null && 'text' in mended) {
  const kind: MendKind = mended.kind
  const isOffered: boolean = mended.isOffered
  console.log(isValid, kind, mended.text, isOffered)
} else if (mended !== null) console.log(mended.rule, mended.index)

const profiles: Record<Profile, number> = { standard: 0, wide: 1, parser: 2 }
console.log(profiles, urlcheck.isValid('urn:a b', { profile: 'parser' }))

const base: Base = urlcheck.base('http://h/', { profile })
const below: Valid | Refused = urlcheck.check('x', { base })
console.log(base.text, base.profile, below.valid, other.violations('x', { base }).length)
console.log(third.resolve('x', { base, profile: base.profile }).valid)

const many: Many = urlcheck.checkMany(new TextEncoder().encode('urn:a\nx'), { base, profile })
const lines: RefusedLine[] = many.refused
console.log(many.lines - many.judged, lines.map(({ line, start, end, byte }) => [line, start, end, byte]))

const wording: Wording = 'none'
const report: Report = urlcheck.report('sarif', 'utf16', wording)
console.log(urlcheck.message('x', violations[0], { profile, wording }), JSON.stringify(urlcheck.resolve('urn:a')))
const told: Diagnostic = { file: 'a.txt', line: 1, text: 'x', rule: 'not-utf8', place: 0, mended: null }
console.log(report.begin() + report.fileBegin('a.txt') + report.diagnostic(told) + report.fileEnd() + report.end())
console.log(urlcheck.message('x', violations[0]), urlcheck.formats.length, urlcheck.units.length, report.showsMended)

try {
  urlcheck.check('x', { base: ':' })
} catch (error) {
  if (error instanceof BaseRefused) console.log(error.rule, error.place, error.index)
}

// @ts-expect-error: a format has one of these names
urlcheck.report('text')
// @ts-expect-error: lines are bytes
urlcheck.checkMany('urn:a')
// @ts-expect-error: a wording has one of four names
urlcheck.report('gnu', 'bytes', 'Options')
// @ts-expect-error: a profile has one of three names
urlcheck.check('x', { profile: 'Wide' })
// @ts-expect-error: a text is a string
urlcheck.check(1)
// @ts-expect-error: a base doesn't change
base.text = 'urn:a'
// @ts-expect-error: a base has no base of its own
urlcheck.base('x', { base })
// @ts-expect-error: no rule has this name
urlcheck.explain('no-rule')
// @ts-expect-error: a valid text has nothing to write instead
urlcheck.mend('x').text
// @ts-expect-error: a refused text has no parts
urlcheck.check('x').path

// What urlcheck.js gives out, by its own comments, is what urlcheck.d.ts says of it.
const same: typeof Wanted = written
console.log(same)
