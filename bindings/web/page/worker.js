// Checks the lines of a list, or the links of a document, apart from the page, so that the page answers meanwhile.
//
// The page sends `check` with a source, and then `stop`, `rows` and `download` for the job with the same number. The
// worker sends `progress`, `done` or `failed`, and what was asked for.
import { BaseRefused, load } from '../urlcheck.js'
import { piecesOf } from './pieces.js'

/** Lines are checked for so long, in milliseconds, before messages are read, and progress is told so often. */
const TURN = 20
const TELLING = 100
/** The links that are checked between two looks at the time, and the diagnostics in a piece of a file. */
const LINKS = 1000
const JOINED = 10_000

/** The types of the files of reports, by their formats; other reports are plain text. */
const JSON_TYPE = 'application/json'
const XML_TYPE = 'application/xml'
const TYPES = {
  json: JSON_TYPE, sarif: JSON_TYPE, gitlab: JSON_TYPE, rdjson: JSON_TYPE, checkstyle: XML_TYPE, junit: XML_TYPE
}

const loading = load()
const decoder = new TextDecoder('utf-8', { ignoreBOM: true })
let job = null

/** Waits until messages have been read. */
function messagesAreRead() {
  return new Promise(done => setTimeout(done, 0))
}

/** One check of a source: what was found so far, from which rows and files are made when the page asks for them. */
class Job {
  constructor({ number, source, name, base, profile }) {
    this.number = number
    this.source = source
    this.name = name
    this.base = base
    this.profile = profile
    this.isStopped = false
    this.lines = 0
    this.count = 0
    this.rows = []
    this.counts = new Map()
    this.done = 0
  }

  /** Has the checker, once it is loaded. A base is checked once, before anything else: it throws if it is refused. */
  begin(urlcheck) {
    const { base, profile } = this
    this.urlcheck = urlcheck
    this.options = { base: base === '' ? null : urlcheck.base(base, { profile }), profile }
  }

  /** How much there is to check: links, or bytes of a file. */
  total() {
    return this.source.kind === 'links' ? this.source.links.length : this.source.file.size
  }

  /** Takes a refused text: its number, by which rule and where, and an index of the wrong code point or -1. */
  refuse(row) {
    this.rows.push(row)
    this.counts.set(row.rule, (this.counts.get(row.rule) ?? 0) + 1)
  }

  /** Checks the lines of a piece of a list. */
  takeLines({ bytes, isTooLong }) {
    if (isTooLong) {
      this.count++
      this.refuse({ number: ++this.lines, rule: 'line-too-long', place: 0, index: -1, text: '' })
      return
    }
    const { lines, judged, refused } = this.urlcheck.checkMany(bytes, this.options)
    for (const { line, start, end, rule, place, byte } of refused) {
      const text = decoder.decode(bytes.subarray(start, end))
      const index = decoder.decode(bytes.subarray(start, start + byte)).length
      this.refuse({ number: this.lines + line, rule, place, index, text })
    }
    this.lines += lines
    this.count += judged
  }

  /** Checks some links of a document; an empty one isn't passed over. */
  takeLinks(links) {
    for (const { text, where } of links) {
      this.count++
      const answer = this.urlcheck.check(text, this.options)
      if (answer.valid) continue
      this.refuse({ number: this.count, rule: answer.rule, place: answer.place, index: answer.index, text, where })
    }
  }

  /** Checks the source piece by piece, and gives how far it is after each. */
  async *checkedPieces() {
    const { kind, file, links } = this.source
    if (kind === 'links') {
      for (let at = 0; at < links.length; at += LINKS) {
        this.takeLinks(links.slice(at, at + LINKS))
        yield Math.min(links.length, at + LINKS)
      }
      return
    }
    for await (const piece of piecesOf(file)) {
      this.takeLines(piece)
      yield piece.done
    }
  }

  /** Checks the source, and between its pieces reads messages, one of which may stop it, and tells how far it is. */
  async run() {
    let [turn, told] = [performance.now(), performance.now()]
    for await (const done of this.checkedPieces()) {
      // (a job may have been stopped before the module was loaded)
      if (this.isStopped) return
      this.done = done
      if (performance.now() - turn < TURN) continue
      if (performance.now() - told > TELLING) {
        this.tell('progress')
        told = performance.now()
      }
      await messagesAreRead()
      if (this.isStopped) return
      turn = performance.now()
    }
    this.done = this.total()
  }

  /** Tells the page how far the job is. */
  tell(kind, more = {}) {
    postMessage({ kind, number: this.number, done: this.done, total: this.total(), count: this.count,
      refused: this.rows.length, counts: [...this.counts], ...more })
  }

  /** Some of the refused texts, each with the sentence on it. */
  told(from, count) {
    const options = { ...this.options, wording: 'none' }
    return this.rows.slice(from, from + count)
      .map(row => ({ ...row, sentence: this.urlcheck.message(row.text, row, options) }))
  }

  /** What to write in place of a refused text, or nothing. */
  mended({ rule, text }) {
    if (!this.urlcheck.rules.includes(rule)) return null
    const mended = this.urlcheck.mend(text, this.options)
    return mended !== null && 'text' in mended ? mended : null
  }

  /** The report in pieces. The links of a document are the lines of a list of their own. */
  *pieces(format) {
    const report = this.urlcheck.report(format, undefined, 'none')
    const file = this.source.kind === 'links' ? `${this.name}.links` : this.name
    const { profile } = this.options
    yield report.begin()
    yield report.fileBegin(file)
    for (const row of this.rows) {
      const { number: line, rule, place, text } = row
      const mended = report.showsMended ? this.mended(row) : null
      yield report.diagnostic({ file, line, text, rule, place, profile, mended })
    }
    yield report.fileEnd()
    yield report.end(this.isStopped ? 'stopped' : 'whole')
  }

  /** The report as a file. */
  file(format) {
    const parts = []
    let part = []
    for (const piece of this.pieces(format)) {
      if (part.push(piece) < JOINED) continue
      parts.push(part.join(''))
      part = []
    }
    return new Blob([...parts, part.join('')], { type: TYPES[format] ?? 'text/plain' })
  }
}

/** Begins a job in place of the one before, and tells the page how it ended. */
async function checkAsked(asked) {
  if (job) job.isStopped = true
  // (what the page sends while the module loads is about this one)
  const mine = job = new Job(asked)
  try {
    mine.begin(await loading)
    if (!mine.isStopped) await mine.run()
    mine.tell('done', { isStopped: mine.isStopped })
  } catch (error) {
    const { rule, place, message } = error
    const base = error instanceof BaseRefused ? { rule, place } : null
    postMessage({ kind: 'failed', number: asked.number, message, base })
  }
}

onmessage = ({ data }) => {
  if (data.kind === 'check') checkAsked(data)
  if (!job || data.number !== job.number) return
  if (data.kind === 'stop') job.isStopped = true
  if (data.kind === 'rows') {
    postMessage({ kind: 'rows', number: job.number, from: data.from, rows: job.told(data.from, data.count) })
  }
  if (data.kind === 'download') {
    postMessage({ kind: 'file', number: job.number, format: data.format, blob: job.file(data.format) })
  }
}
