// What calls from JavaScript cost, compared with the engine's own URL, in one run: the least of so many rounds, each of them some
// passes over the links of standard input, one per line, and over what is after their authorities, which is checked
// against a base. It fails when a call takes more than so many times what another one takes, or where a valid text
// doesn't parse. See bench/browser.sh. Usage: node bench/browser.mjs FOLDER ROUNDS <LINKS, FOLDER being one that
// tools/build-page has made.
import { readFileSync } from 'node:fs'
import { resolve } from 'node:path'
import { pathToFileURL } from 'node:url'

const [folder, rounds] = [process.argv[2], Number(process.argv[3])]
const { load } = await import(pathToFileURL(resolve(folder, 'urlcheck.js')).href)
const urlcheck = await load()
const links = readFileSync(0, 'utf8').split('\n').filter(link => link !== '')
const references = links.map(link => link.replace(/^[^:]*:\/\/[^/?#]*/, '')).filter(reference => reference !== '')
const base = 'https://example.com/guide/index.html'
const held = urlcheck.base(base)
// A pass is short, so that other work of the machine comes between as rarely as can be.
const PASSES = Math.max(1, Math.round(1_000 / links.length))
const WARMING = 100

const lines = new TextEncoder().encode(`${links.join('\n')}\n`)

/** Whether the engine makes a URL of the text. */
function hrefOf(text) {
  try {
    return new URL(text).href !== ''
  } catch {
    return false
  }
}

/** The calls on links, and the calls on references; in each group all checks say the same about a text. */
const groups = [
  [links, {
    'URL.canParse': text => URL.canParse(text),
    check: text => urlcheck.check(text).valid,
    isValid: text => urlcheck.isValid(text)
  }],
  [links, {
    'new URL().href': hrefOf,
    'resolve().text': text => (urlcheck.resolve(text).text ?? '') !== ''
  }],
  [references, {
    'URL.canParse with a base': text => URL.canParse(text, base),
    'check with a base': text => urlcheck.check(text, { base: held }).valid,
    'check with its text': text => urlcheck.check(text, { base }).valid
  }]
]

/** Which call takes at most so many times what another one takes. */
const BOUNDS = [
  ['isValid', 'URL.canParse', 1.2],
  ['check', 'URL.canParse', 1.4],
  ['checkMany, a line', 'URL.canParse', 0.7],
  ['resolve().text', 'new URL().href', 2],
  ['check with a base', 'URL.canParse with a base', 1.4],
  ['check with its text', 'check with a base', 1.1]
]

/** The nanoseconds that a check takes for a text. */
function timed(texts, call) {
  let taken = 0
  const start = process.hrtime.bigint()
  for (let pass = 0; pass < PASSES; pass++) for (const text of texts) if (call(text)) taken++
  const cost = Number(process.hrtime.bigint() - start) / PASSES / texts.length
  return taken === 0 ? NaN : cost
}

/** The nanoseconds that a line takes where all of them are checked by one call. */
function timedLines() {
  const start = process.hrtime.bigint()
  let judged = 0
  for (let pass = 0; pass < PASSES; pass++) judged += urlcheck.checkMany(lines).judged
  return Number(process.hrtime.bigint() - start) / judged
}

const least = {}
for (let round = -WARMING; round < rounds; round++) {
  for (const [texts, calls] of groups) {
    for (const [name, call] of Object.entries(calls)) {
      const cost = timed(texts, call)
      if (round >= 0) least[name] = Math.min(least[name] ?? Infinity, cost)
    }
  }
  const cost = timedLines()
  if (round >= 0) least['checkMany, a line'] = Math.min(least['checkMany, a line'] ?? Infinity, cost)
}

let failed = 0
for (const [texts, calls] of groups) {
  const [parses, ...ours] = Object.values(calls)
  const units = texts.reduce((sum, text) => sum + text.length, 0) / texts.length
  const isWrong = text => new Set(ours.map(call => call(text))).size > 1 || (ours[0](text) && !parses(text))
  const wrong = texts.filter(isWrong)
  console.log(`${texts.length} texts of ${units.toFixed(0)} units, least of ${rounds} rounds: ` +
    Object.keys(calls).map(name => `${name} ${least[name].toFixed(0)} ns`).join(', '))
  if (wrong.length !== 0) console.log(`FAILED: ${wrong.length} texts have two verdicts, or are valid and don't parse`)
  failed += wrong.length
}
const valid = links.filter(link => urlcheck.isValid(link)).length
const { judged, refused } = urlcheck.checkMany(lines)
console.log(`${judged} lines of bytes: ${least['checkMany, a line'].toFixed(0)} ns a line`)
if (judged !== links.length || judged - refused.length !== valid) {
  console.log('FAILED: the lines of bytes have other verdicts')
  failed++
}
for (const [name, other, most] of BOUNDS) {
  const times = least[name] / least[other]
  console.log(`${name}: ${times.toFixed(2)} times ${other}`)
  if (times <= most) continue
  console.log(`FAILED: at most ${most} times is wanted`)
  failed++
}
process.exit(failed === 0 ? 0 : 1)
