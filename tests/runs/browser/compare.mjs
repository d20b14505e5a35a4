// Holds a checker's answers to what the program says of the same cases (see answers.py), and its answers against a base
// that is checked once to those against the base's text. Runs under Node and in a browser.

/** The lines that `urlcheck check` prints of a record. */
function recordLines({ scheme, host, port, segments, opaquePath, query, fragment }) {
  const lines = ['valid', `scheme ${scheme}`]
  if (host !== null) lines.push(host.kind === 'empty' ? 'host empty' : `host ${host.kind} ${host.text}`)
  if (port !== null) lines.push(`port ${port}`)
  if (opaquePath !== null) lines.push(`opaque ${opaquePath}`)
  for (const segment of segments ?? []) lines.push(`segment ${segment}`)
  if (query !== null) lines.push(`query ${query}`)
  if (fragment !== null) lines.push(`fragment ${fragment}`)
  return lines
}

/** Status, output and standard error of the program, as the checker's answer has them. */
function ended(status, lines, error = '') {
  return { status, out: lines.map(line => `${line}\n`).join(''), error }
}

function refusedLine({ place, rule }) {
  return `refused ${place} ${rule}`
}

function mendEnded(mended) {
  if (mended === null) return ended(0, ['valid'])
  if ('text' in mended) return ended(0, [`mended ${mended.kind}`, mended.text])
  return ended(1, ['none', refusedLine(mended)])
}

/** What the program would print of the checker's answers: for the first refusal, for all, and what to write instead. */
function answered(urlcheck, text, options) {
  try {
    const resolved = urlcheck.resolve(text, options)
    const mend = mendEnded(urlcheck.mend(text, options))
    if (resolved.valid) {
      const valid = ended(0, recordLines(resolved.record))
      return { first: valid, all: valid, mend }
    }
    return {
      first: ended(1, [refusedLine(resolved)]),
      all: ended(1, urlcheck.violations(text, options).map(refusedLine)),
      mend
    }
  } catch (error) {
    if (error.name !== 'BaseRefused') throw error
    const refused = ended(2, [], `base refused ${error.place} ${error.rule}\n`)
    return { first: refused, all: refused, mend: refused }
  }
}

/** What is wrong with the answer of `check`: its parts give the text again, and its ranges the parts. */
function faultOfCheck(urlcheck, text, options) {
  let answer
  try {
    answer = urlcheck.check(text, options)
  } catch (error) {
    return error.name === 'BaseRefused' ? null : `check throws ${error}`
  }
  const first = urlcheck.violations(text, options)[0]
  if (urlcheck.isValid(text, options) !== answer.valid) return 'check and isValid differ'
  if (!answer.valid) {
    const index = [...text].slice(0, answer.place).join('').length
    if (answer.index !== index) return `the index ${answer.index} isn't the place ${answer.place}`
    const isFirst = first && first.place === answer.place && first.rule === answer.rule && first.index === index
    return isFirst ? null : 'check and violations differ'
  }
  if (first) return 'a valid text has violations'
  const { scheme, host, port, path, query, fragment, ranges } = answer
  const part = (front, word) => (word === null ? '' : front + word)
  const again = (scheme === null ? '' : `${scheme}:`) + part('//', host) + part(':', port) + path + part('?', query) +
    part('#', fragment)
  if (again !== text) return `the parts give ${again}`
  for (const [name, range] of Object.entries(ranges)) {
    if ((range === null ? null : text.slice(...range)) !== answer[name]) return `another range of ${name}`
  }
  return null
}

/** Whether the vectors' own wish is met, where they have one by this profile. */
function isWanted(wanted, urlcheck, text, options) {
  if (wanted === null || options.profile !== wanted[0]) return true
  const [, other] = wanted
  const answer = urlcheck.resolve(text, options)
  if (typeof other === 'string') return answer.valid && answer.text === other
  return !answer.valid && answer.place === other[0] && answer.rule === other[1]
}

/** What differs on one text. */
function differencesOf(urlcheck, text, options, wanted, said) {
  const found = []
  const ours = answered(urlcheck, text, options)
  for (const which of ['first', 'all', 'mend']) {
    const [is, wants] = [ours[which], said[which]].map(ending => JSON.stringify(ending))
    if (is !== wants) found.push(`${is.slice(0, 300)}, and not ${wants.slice(0, 300)}`)
  }
  const fault = faultOfCheck(urlcheck, text, options)
  if (fault) found.push(fault)
  if (!isWanted(wanted, urlcheck, text, options)) found.push('not what the vectors want')
  return found
}

/** The profiles, by which each case is checked. */
const PROFILES = ['standard', 'wide', 'parser']

/** The calls of a checker with each base held: it is checked once, and taken again after calls with other ones. */
function holding(urlcheck) {
  const bases = Object.fromEntries(PROFILES.map(profile => [profile, new Map()]))
  const held = ({ base, profile }) => {
    if (!bases[profile].has(base)) bases[profile].set(base, urlcheck.base(base, { profile }))
    return { base: bases[profile].get(base) }
  }
  return {
    check: (text, options) => urlcheck.check(text, held(options)),
    isValid: (text, options) => urlcheck.isValid(text, held(options)),
    violations: (text, options) => urlcheck.violations(text, held(options)),
    resolve: (text, options) => urlcheck.resolve(text, held(options)),
    mend: (text, options) => urlcheck.mend(text, held(options))
  }
}

/** Bases of each kind that a verdict tells apart. */
const BASES = ['ftp://h/', 'http://h/a', 'https://h:1/', 'file:///C:/d', 'file://h/a', 'foo:/a', 'foo://h/a',
  'foo:///a', 'urn:a']

/** What differs on a text between each of these bases as its text and held. */
function differencesOfHeld(urlcheck, withHeld, text, profile) {
  const found = []
  for (const base of BASES) {
    for (const call of ['check', 'isValid', 'violations']) {
      const [is, wants] = [withHeld, urlcheck].map(checker => JSON.stringify(checker[call](text, { base, profile })))
      if (is !== wants) found.push(`${call} against ${base}: ${is.slice(0, 300)}, and not ${wants.slice(0, 300)}`)
    }
  }
  return found
}

/** So many differences are enough. */
const MOST = 10

/** The first differences between a checker and the program, and how many answers were compared. */
export function differences(urlcheck, cases) {
  const withHeld = holding(urlcheck)
  const found = []
  let compared = 0
  const compare = (what, answers, differing) => {
    if (found.length >= MOST) return
    const where = JSON.stringify(what).slice(0, 300)
    compared += answers
    try {
      found.push(...differing().map(it => `${where}: ${it}`))
    } catch (error) {
      found.push(`${where}: it throws ${error}`)
    }
  }
  for (const { text, base, wanted, said } of cases) {
    for (const profile of PROFILES) {
      const differing = checker => () => differencesOf(checker, text, { base, profile }, wanted, said[profile])
      compare({ text, base, profile }, 3, differing(urlcheck))
      if (base !== null) compare({ text, held: base, profile }, 3, differing(withHeld))
      compare({ text, profile }, 3 * BASES.length, () => differencesOfHeld(urlcheck, withHeld, text, profile))
    }
  }
  return { compared, count: found.length, found: found.slice(0, MOST) }
}
