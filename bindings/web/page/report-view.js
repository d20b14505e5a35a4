// The report on a list or on the links of a document: progress, counts by rule as a bar chart, the refused lines,
// downloads.
import { button, counted, element, plural } from './elements.js'
import { shownText } from './drawing.js'

/** This many refused lines are shown at first, and with each further press. */
const ROWS = 100

/** What the page calls a format, unless by its own name, and the ending of its file's name, unless that is `txt`. */
const NAMES = {
  gnu: 'lines', caret: 'lines with carets', json: 'JSON', github: 'GitHub', sarif: 'SARIF', junit: 'JUnit', gitlab: 'GitLab',
  rdjson: 'reviewdog'
}
const ENDS = { json: 'json', sarif: 'sarif', checkstyle: 'xml', junit: 'xml', gitlab: 'json', rdjson: 'json' }

/** Gives a file to the browser, to be kept. */
function download(blob, name) {
  const link = element('a', { href: URL.createObjectURL(blob), download: name })
  link.click()
  setTimeout(() => URL.revokeObjectURL(link.href), 60_000)
}

/** The report's part of the page. What it asks of the worker, and what the worker sends, is said in worker.js. */
export class ReportView {
  /**
   * @param {HTMLElement} section where the report is
   * @param {import('../urlcheck.js').Checker} urlcheck
   */
  constructor(section, urlcheck) {
    this.section = section
    this.urlcheck = urlcheck
    this.number = 0
    this.worker = null
  }

  /** Starts the worker, with the first report. */
  started() {
    if (this.worker) return
    this.worker = new Worker(new URL('worker.js', import.meta.url), { type: 'module' })
    this.worker.onmessage = ({ data }) => this.take(data)
    this.worker.onerror = () => this.say('bad', 'The worker failed', 'this browser may be too old for it')
  }

  /** Sends the worker a message about the report that is shown. */
  ask(kind, more = {}) {
    this.worker.postMessage({ kind, number: this.number, ...more })
  }

  /** Checks the lines of a source; `note` says where they come from. */
  check(source, { name, base, profile, unit, note }) {
    this.number++
    this.unit = unit
    this.base = base
    this.profile = profile
    this.shown = 0
    this.refused = 0
    this.isAsked = false
    this.build(note)
    this.started()
    this.ask('check', { source, name, base, profile })
  }

  /** Says why a source can't be checked, in place of a report. */
  refuse(message, note) {
    this.clear()
    this.unit = 'link'
    this.build(note)
    this.showFailure({ message })
  }

  /** Takes the report away, and stops its job. */
  clear() {
    if (this.worker) this.ask('stop')
    this.number++
    this.section.hidden = true
    this.section.replaceChildren()
  }

  /** Makes the elements of a report, empty and most of them hidden, for the messages of the worker to fill. */
  build(note) {
    this.line = element('p', { class: 'verdict busy', role: 'status' }, 'Checking …')
    this.progress = element('progress', { max: '1', value: '0', 'aria-label': 'Progress' })
    this.stop = button('Stop', () => this.ask('stop'), { class: 'button' })
    this.running = element('div', { class: 'running' }, this.progress, this.stop)
    this.chart = element('div', { class: 'card', hidden: '' })
    this.table = element('tbody', { role: 'rowgroup' })
    this.more = button('Show more', () => this.askRows(), { class: 'button', hidden: '' })
    this.downloads = element('div', { class: 'downloads', hidden: '' },
      element('span', { class: 'hint' }, 'Download the refused ones as'),
      ...this.urlcheck.formats.map(format => this.downloadButton(format)))
    const head = element('tr', { role: 'row' }, ...[this.unit, 'column', 'what is wrong', 'text'].map(name =>
      element('th', { scope: 'col', role: 'columnheader' }, name)))
    this.rows = element('div', { class: 'card', hidden: '' },
      element('h2', {}, 'Refused'),
      this.downloads,
      element('div', { class: 'scrolled', tabindex: '0', role: 'region', 'aria-label': 'Refused' },
        element('table', { class: 'rows', role: 'table' }, element('thead', { role: 'rowgroup' }, head), this.table)),
      this.more)
    const notes = note ? [element('p', { class: 'hint note' }, ...note)] : []
    this.section.replaceChildren(this.line, ...notes, this.running, this.chart, this.rows)
    this.section.hidden = false
  }

  /** A button that downloads the refused lines in a format. */
  downloadButton(format) {
    const attributes = { class: 'button', 'data-format': format }
    return button(NAMES[format] ?? format, () => this.ask('download', { format }), attributes)
  }

  /** Takes a message of the worker; messages of an older report are passed over. */
  take(message) {
    if (message.number !== this.number) return
    if (message.kind === 'progress') this.showProgress(message)
    if (message.kind === 'done') this.showEnd(message)
    if (message.kind === 'rows') this.showRows(message)
    if (message.kind === 'file') download(message.blob, `urlcheck.${ENDS[message.format] ?? 'txt'}`)
    if (message.kind === 'failed') this.showFailure(message)
  }

  /** The line above the report: a sign by its kind, a word, and the rest. */
  say(kind, word, rest) {
    const sign = { good: '✓', bad: '✕', busy: '…' }[kind]
    this.line.className = `verdict ${kind}`
    this.line.replaceChildren(element('span', { class: 'sign', 'aria-hidden': 'true' }, sign),
      element('strong', {}, word), ' ', element('span', { class: 'rest' }, rest))
  }

  /** How many lines or links were checked, and how many of them are refused. */
  countsText({ count, refused }) {
    return `${plural(count, this.unit, `${this.unit}s`)}, ${counted(refused)} refused`
  }

  /** Shows how far the job is, and the first refused lines as soon as there are some. */
  showProgress(message) {
    this.progress.value = message.total ? message.done / message.total : 1
    this.say('busy', `${Math.floor(100 * this.progress.value)} %`, this.countsText(message))
    this.showChart(message)
    this.refused = message.refused
    if (this.shown === 0 && this.refused > 0 && !this.isAsked) this.askRows()
  }

  /** Shows how the job ended: only then may the refused lines be downloaded. */
  showEnd(message) {
    this.running.remove()
    this.refused = message.refused
    const kind = message.isStopped ? 'busy' : message.refused ? 'bad' : 'good'
    const word = message.isStopped ? 'Stopped' : message.refused ? 'Refused' : 'Valid'
    this.say(kind, word, this.countsText(message))
    this.showChart(message)
    this.downloads.hidden = message.refused === 0
    if (this.shown < Math.min(ROWS, this.refused)) this.askRows()
    this.showMore()
  }

  /** Shows why nothing was checked: the base is refused, or the worker failed. */
  showFailure({ message, base }) {
    this.running.remove()
    if (!base) {
      this.say('bad', 'Not checked', message)
      return
    }
    const sentence = this.urlcheck.message(this.base, base, { profile: this.profile, wording: 'none' })
    this.say('bad', 'Base refused', `${sentence}, at place ${counted(base.place)}`)
  }

  /** The counts by rule, as bars whose length is the count. */
  showChart({ counts, refused }) {
    this.chart.hidden = counts.length === 0
    if (this.chart.hidden) return
    const sorted = [...counts].sort((one, other) => other[1] - one[1])
    const most = sorted[0][1]
    const rows = sorted.map(([rule, count]) => {
      const bar = element('span', { class: 'bar' })
      bar.style.width = `${Math.max(1, (100 * count) / most)}%`
      return element('tr', {},
        element('th', { scope: 'row' }, element('code', {}, rule)),
        element('td', { class: 'count' }, counted(count)),
        element('td', { class: 'bars', 'aria-hidden': 'true' }, bar))
    })
    this.chart.replaceChildren(element('h2', {}, 'By rule'),
      element('table', { class: 'chart' },
        element('caption', { class: 'hint' }, `${counted(refused)} refused, by the first violated rule`),
        element('tbody', {}, ...rows)))
  }

  /** Asks the worker for the next rows. */
  askRows() {
    this.isAsked = true
    this.ask('rows', { from: this.shown, count: ROWS })
  }

  /** Appends rows. Those that aren't the next ones were asked for twice, and are passed over. */
  showRows({ from, rows }) {
    this.isAsked = false
    if (from !== this.shown) return
    this.rows.hidden = false
    this.shown += rows.length
    this.table.append(...rows.map(({ number, place, index, rule, sentence, text, where }) =>
      element('tr', { role: 'row' },
        element('td', { class: 'count', role: 'cell', 'data-column': this.unit }, counted(number)),
        element('td', { class: 'count', role: 'cell', 'data-column': 'column' }, counted(place + 1)),
        element('td', { role: 'cell' }, sentence, ' ', element('code', {}, rule)),
        element('td', { role: 'cell' }, where ? element('span', { class: 'where' }, where) : null,
          shownText(text, index)))))
    this.showMore()
  }

  /** Shows the button for more rows, with how many are left. */
  showMore() {
    const left = this.refused - this.shown
    this.more.hidden = left <= 0
    this.more.textContent = `Show more (${counted(left)} left)`
  }
}
