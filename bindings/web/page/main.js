// The page: its fields, its views and its address. Each key checks again; nothing waits for a button.
import { load } from '../urlcheck.js'
import { byId, element } from './elements.js'
import { textOf } from './encodings.js'
import { linksOf } from './links.js'
import { fileOf } from './pieces.js'
import { ReportView } from './report-view.js'
import { FIRST_TEXT, addressOf, readState } from './state.js'
import { showText } from './text-view.js'

/** A pasted list of more units is checked as a file is, and not put into the field, which would make the page slow. */
const LONGEST_IN_FIELD = 500_000
/** So long, in milliseconds, the page waits for the next key before it checks a list or writes its address. */
const LIST_PAUSE = 250
const ADDRESS_PAUSE = 250

/** What the hint below the profiles says of each. */
const PROFILES = {
  standard: 'The URL Standard’s valid URL strings.',
  wide: 'Also _ and hyphens anywhere in domains, and any segments after an authority.',
  parser: 'Each text that the Standard’s parser accepts without a validation error, and no other.'
}

// (the module loads while the fields are filled)
const loading = load()
const state = readState()
/** A list or a document that was dropped, chosen or pasted: its name, and its file, or the document's text, or why it has none. */
const given = { list: null, html: null }
/** The checker and the report on a list, once the module is loaded. */
let urlcheck = null
let report = null
/** The timers of `later`, by name. */
const waiting = new Map()

/** Does something once no other call with the same name has come for a while. */
function later(name, pause, action) {
  clearTimeout(waiting.get(name))
  waiting.set(name, setTimeout(action, pause))
}

/** Writes the state into the address; not with each key, since browsers limit how often that may be done. */
function showAddress() {
  later('address', ADDRESS_PAUSE, () => history.replaceState(null, '', addressOf(state)))
}

/** Puts the state into the fields. */
function fillFields() {
  byId('text').value = state.text
  byId('list').value = state.list
  byId('base').value = state.base
  document.querySelector(`input[name=profile][value=${state.profile}]`).checked = true
}

/** Shows the fields and the answer of the view, and hides the others. */
function showView() {
  for (const part of document.querySelectorAll('[data-view]')) {
    const isShown = part.dataset.view.split(' ').includes(state.view)
    if (part.localName !== 'a') part.hidden = !isShown
    else if (isShown) part.setAttribute('aria-current', 'page')
    else part.removeAttribute('aria-current')
  }
  byId('profile-hint').textContent = PROFILES[state.profile]
}

/** Puts a text and a base into the fields, and checks them: what a button with an example does. */
function tryText(text, base) {
  state.text = text
  state.base = base
  fillFields()
  check()
  byId('text').focus()
}

/** Checks the list in the field, or the one that was given as a file. */
function checkList() {
  const { profile, base } = state
  if (!given.list && state.list.trim() === '') return report.clear()
  const { name, file } = given.list ?? { name: 'list.txt', file: fileOf(state.list) }
  report.check({ kind: 'file', file }, { name, base, profile, unit: 'line', note: given.list && [name] })
}

/** The base of a document: the one that it names, read against the page's base field. */
function baseOf(named) {
  if (named === null) return { base: state.base, note: state.base === '' ? 'no base' : `base ${state.base}` }
  const options = { base: state.base === '' ? null : state.base, profile: state.profile }
  const resolved = urlcheck.resolve(named, options)
  if (resolved.valid) return { base: resolved.text, note: `base ${resolved.text}, which it names` }
  return { base: state.base, note: `its base ${named} is refused (${resolved.rule}), so the base below is taken` }
}

/** Checks the links of the document that was given. */
function checkHtml() {
  if (!given.html) return report.clear()
  if (given.html.problem) return report.refuse(given.html.problem, [given.html.name])
  const { base: named, links } = linksOf(given.html.text)
  let read
  try {
    read = baseOf(named)
  } catch {
    read = { base: state.base, note: 'its base can’t be read' }
  }
  report.check({ kind: 'links', links }, { name: given.html.name, base: read.base, profile: state.profile, unit: 'link',
    note: [given.html.name, ' · ', read.note] })
}

/** Checks what the view shows. */
function check() {
  showView()
  showAddress()
  // (what was waited for in another view is not to be shown in this one)
  clearTimeout(waiting.get('list'))
  if (!urlcheck) return
  if (state.view === 'text') showText(urlcheck, state, tryText)
  if (state.view === 'list') later('list', LIST_PAUSE, checkList)
  if (state.view === 'html') later('list', LIST_PAUSE, checkHtml)
}

/** Takes a list as a file: it isn't in the field. */
function takeList(name, file) {
  given.list = { name, file }
  state.view = 'list'
  state.list = ''
  fillFields()
  check()
}

/** Takes a file as what it is: a document by its name or type, or in the view of documents; otherwise a list. */
async function takeFile(file, view) {
  const isHtml = /\.x?html?$/i.test(file.name) || file.type === 'text/html'
  if (view === 'html' || (isHtml && view !== 'list')) {
    given.html = { name: file.name, ...await textOf(file) }
    state.view = 'html'
    check()
  } else takeList(file.name, file)
}

/** Reads the address, as after a link or a step back. */
function readAddress() {
  const next = readState()
  if (addressOf(state) === location.hash) return
  state.view = next.view
  state.base = next.base
  state.profile = next.profile
  if (next.text !== null) state.text = next.text
  if (next.list !== null) {
    state.list = next.list
    given.list = null
  }
  fillFields()
  check()
}

/** Has the fields check with each change. */
function listenToFields() {
  byId('input').addEventListener('submit', event => event.preventDefault())
  byId('text').addEventListener('input', () => {
    state.text = byId('text').value
    byId('example').value = ''
    check()
  })
  byId('base').addEventListener('input', () => {
    state.base = byId('base').value
    check()
  })
  byId('list').addEventListener('input', () => {
    state.list = byId('list').value
    given.list = null
    check()
  })
  byId('list').addEventListener('paste', event => {
    const text = event.clipboardData.getData('text/plain')
    if (text.length <= LONGEST_IN_FIELD) return
    event.preventDefault()
    // (what is in the field already stays part of the list)
    const { value, selectionStart, selectionEnd } = byId('list')
    takeList('the pasted list', fileOf(value.slice(0, selectionStart) + text + value.slice(selectionEnd)))
  })
  for (const choice of document.querySelectorAll('input[name=profile]')) {
    choice.addEventListener('change', () => {
      state.profile = choice.value
      check()
    })
  }
}

/** Has the links between the views change the view, without loading the page again. */
function listenToViews() {
  for (const link of document.querySelectorAll('nav a')) {
    link.addEventListener('click', event => {
      if (event.ctrlKey || event.metaKey || event.shiftKey) return
      event.preventDefault()
      if (state.view === link.dataset.view) return
      if (report) report.clear()
      state.view = link.dataset.view
      check()
    })
  }
  addEventListener('hashchange', readAddress)
}

/** Has files be taken that are chosen, or dropped anywhere on the page. */
function listenToFiles() {
  for (const view of ['list', 'html']) {
    byId(`${view}-file`).addEventListener('change', ({ target }) => {
      if (target.files[0]) takeFile(target.files[0], view)
      target.value = ''
    })
  }
  addEventListener('dragover', event => {
    event.preventDefault()
    document.body.classList.add('dragging')
  })
  addEventListener('dragleave', event => {
    if (!event.relatedTarget) document.body.classList.remove('dragging')
  })
  addEventListener('drop', event => {
    event.preventDefault()
    document.body.classList.remove('dragging')
    const file = event.dataTransfer.files[0]
    if (file) takeFile(file, state.view)
  })
}

/** Examples to choose from: valid texts, and one for each rule. */
function fillExamples() {
  const choice = byId('example')
  const examples = [
    ['valid, with all parts', 'https://user.example:8080/docs/../guide?x=\'y\'#é', ''],
    ['valid, an opaque path', 'urn:isbn:0451450523', ''],
    ['valid against a base', '../x?q', 'https://example.com/a/b'],
    ['several violations', 'http://a_b:x/ %4?^', ''],
    ['hidden controls', 'https://example.com/\u202Egpj.exe\u2066', '']
  ]
  for (const rule of urlcheck.rules) {
    const { example } = urlcheck.explain(rule)
    examples.push([rule, example.text, example.base ?? ''])
  }
  examples.forEach(([name], at) => choice.append(element('option', { value: String(at) }, name)))
  choice.addEventListener('change', () => {
    if (choice.value === '') return
    const [, text, base] = examples[Number(choice.value)]
    tryText(text, base)
    choice.focus()
  })
}

state.text ??= FIRST_TEXT
state.list ??= ''
fillFields()
showView()
listenToFields()
listenToViews()
listenToFiles()
try {
  urlcheck = await loading
  report = new ReportView(byId('report'), urlcheck)
  byId('version').textContent = `Version ${urlcheck.version}.`
  fillExamples()
  check()
  // (for who measures how soon the page answers)
  performance.mark('urlcheck-first-answer')
} catch (error) {
  byId('verdict').className = 'verdict bad'
  byId('verdict').textContent = `The checker can’t be loaded: ${error.message}`
}
