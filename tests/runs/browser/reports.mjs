// Holds the reports of a checker, in each format and unit, and what it finds of lines, to what the program's `lint` writes
// of the same list, byte for byte: the texts of the cases of answers.py and lines that aren't texts, in each profile,
// and against a base. Usage: node reports.mjs FOLDER CASES PROGRAM
import { spawnSync } from 'node:child_process'
import { mkdtempSync, readFileSync, rmSync, writeFileSync } from 'node:fs'
import { tmpdir } from 'node:os'
import { join, resolve } from 'node:path'
import { pathToFileURL } from 'node:url'

const [folder, cases, program] = process.argv.slice(2).map(it => resolve(it))
const { load } = await import(pathToFileURL(join(folder, 'urlcheck.js')).href)
const urlcheck = await load()
const decoder = new TextDecoder('utf-8', { ignoreBOM: true })

/** Lines that aren't texts, or end otherwise than most. */
const ODD = ['', '\r', 'urn:a\r', 'x\ry', '\u00e9\u65e5\u{1f600}\t^\t%', 'http://\u05d0_b/'].map(it => Buffer.from(it))
ODD.push(Buffer.from([0xff, 0xfe]), Buffer.from([0x68, 0xc2, 0xad, 0xe6, 0x97, 0x20, 0xff]), Buffer.from([0xed, 0xa0, 0x80]))

const texts = JSON.parse(readFileSync(cases, 'utf8')).map(it => it.text).filter(it => !it.includes('\n'))
const bytes = Buffer.concat([...texts.map(it => Buffer.from(it)), ...ODD].flatMap(it => [it, Buffer.from('\n')]))

/** What the checker says of the list in a format. */
function reported(name, format, unit, options) {
  const report = urlcheck.report(format, unit, 'options')
  const pieces = [report.begin(), report.fileBegin(name)]
  for (const { line, start, end, rule, place } of urlcheck.checkMany(bytes, options).refused) {
    const text = decoder.decode(bytes.subarray(start, end))
    const mended = report.showsMended && rule !== 'not-utf8' ? urlcheck.mend(text, options) : null
    const told = { file: name, line, text, rule, place, ...options }
    pieces.push(report.diagnostic({ ...told, mended: mended && 'text' in mended ? mended : null }))
  }
  return [...pieces, report.fileEnd(), report.end()].join('')
}

/** The sentences of lint's report for compilers are the checker's on each line, under the profile of the options. */
function areSentencesOf(report, options) {
  const wanted = report.split('\n').filter(line => line !== '').map(line => line.replace(/^.*?: error: (.*) \[[a-z0-9-]+\]$/s, '$1'))
  const found = urlcheck.checkMany(bytes, options).refused.map(({ start, end, rule, place }) =>
    urlcheck.message(decoder.decode(bytes.subarray(start, end)), { rule, place }, { ...options, wording: 'options' }))
  return wanted.length > 100 && wanted.length === found.length && wanted.every((line, at) => line === found[at])
}

const room = mkdtempSync(join(tmpdir(), 'reports'))
let [compared, failed] = [0, 0]
try {
  writeFileSync(join(room, 'list \u00e9.txt'), bytes)
  for (const format of urlcheck.formats) {
    for (const unit of urlcheck.units) {
      const words = ['lint', '--format', format, '--columns', unit, '--profile']
      for (const [profile, base] of [['standard', null], ['wide', null], ['standard', 'http://h/a/b'], ['parser', 'http://h/a/b']]) {
        const more = base === null ? [] : [`--base=${base}`]
        const ended = spawnSync(program, [...words, profile, ...more, 'list \u00e9.txt'], { cwd: room, maxBuffer: 1 << 28 })
        let said
        try {
          said = reported('list \u00e9.txt', format, unit, { profile, base })
        } catch (error) {
          // (a format without a word for the unit is refused by both)
          said = error instanceof TypeError && ended.status === 2 ? ended.stdout.toString() : String(error)
        }
        compared++
        if (format === 'gnu' && !areSentencesOf(ended.stdout.toString(), { profile, base })) {
          console.log(`FAILED: the sentences by the profile ${profile}`)
          failed++
        }
        if (said === ended.stdout.toString() && (ended.status === 2 || said.length > 1000)) continue
        const [one, other] = [said.split('\n'), ended.stdout.toString().split('\n')]
        const at = one.findIndex((line, number) => line !== other[number])
        console.log(`FAILED: ${format} ${unit} ${profile}: ${String(one[at]).slice(0, 200)} | ${String(other[at]).slice(0, 200)}`)
        failed++
      }
    }
  }
} finally {
  rmSync(room, { recursive: true })
}
console.log(`browser: ${compared - failed} of ${compared} reports on ${texts.length + ODD.length} lines are those of lint`)
process.exit(failed === 0 && compared > 0 ? 0 : 1)
