// What callers of urlcheck.js see: refusals by their types, out of memory and the call after it, memory that doesn't
// grow with the number of calls, instances next to each other, a thread of its own, and each way to give the module.
// Usage: node calls.mjs FOLDER
import assert from 'node:assert/strict'
import { once } from 'node:events'
import { cpSync, mkdtempSync, readFileSync, readdirSync, rmSync } from 'node:fs'
import { createServer } from 'node:http'
import { tmpdir } from 'node:os'
import { join, resolve } from 'node:path'
import { pathToFileURL } from 'node:url'
import { runInNewContext } from 'node:vm'
import { Worker } from 'node:worker_threads'
import { limited } from './limited.mjs'

const folder = resolve(process.argv[2])
const { BaseRefused, load } = await import(pathToFileURL(join(folder, 'urlcheck.js')).href)
const bytes = readFileSync(join(folder, 'urlcheck.wasm'))
const { version } = JSON.parse(readFileSync(join(folder, 'package.json'), 'utf8'))

/** A checker, and the memory of its instance. */
async function withMemory(source) {
  const { instantiate } = WebAssembly
  let memory
  WebAssembly.instantiate = async (...words) => {
    const made = await instantiate(...words)
    memory = (made.instance ?? made).exports.memory
    return made
  }
  try {
    return { urlcheck: await load(source), memory }
  } finally {
    WebAssembly.instantiate = instantiate
  }
}

/** A checker whose module answers 77, which no call of liburlcheck does. */
async function answering77() {
  const { instantiate } = WebAssembly
  WebAssembly.instantiate = async (...words) => {
    const { exports } = await instantiate(...words)
    const answer = () => { new Uint32Array(exports.memory.buffer, exports.answer_at() >>> 0, 1)[0] = 77 }
    return { exports: { ...exports, check: answer, check_lines: answer, report_end: answer } }
  }
  try {
    return await load(bytes)
  } finally {
    WebAssembly.instantiate = instantiate
  }
}

/** The calls that check a text. */
const CALLS = ['check', 'isValid', 'violations', 'resolve', 'mend']

const tests = {
  async 'each way to give the module'() {
    const compiled = await WebAssembly.compile(bytes)
    const buffer = bytes.buffer.slice(bytes.byteOffset, bytes.byteOffset + bytes.length)
    for (const source of [undefined, bytes, buffer, compiled, './urlcheck.wasm',
      pathToFileURL(join(folder, 'urlcheck.wasm')), new Response(bytes),
      new Response(bytes, { headers: { 'content-type': 'application/wasm' } })]) {
      assert.equal((await load(source)).check('urn:a').valid, true)
    }
    await assert.rejects(load('./missing.wasm'))
    await assert.rejects(load(new Uint8Array([1, 2, 3])), WebAssembly.CompileError)
  },

  async 'the module asks for nothing'() {
    assert.deepEqual(WebAssembly.Module.imports(await WebAssembly.compile(bytes)), [])
  },

  async 'parts and ranges'() {
    const urlcheck = await load()
    const answer = urlcheck.check('HTTP://\u00e9.example:80/\u{1f600}/b?\u65e5#\u{1f600}')
    const { valid, scheme, host, port, path, query, fragment } = answer
    assert.deepEqual({ valid, scheme, host, port, path, query, fragment }, { valid: true, scheme: 'HTTP',
      host: '\u00e9.example', port: '80', path: '/\u{1f600}/b', query: '\u65e5', fragment: '\u{1f600}' })
    assert.deepEqual(answer.ranges, { scheme: [0, 4], host: [7, 16], port: [17, 19], path: [19, 24], query: [25, 26],
      fragment: [27, 29] })
    assert.deepEqual(JSON.parse(JSON.stringify(urlcheck.check('urn:'))), { valid: true, scheme: 'urn', host: null,
      port: null, path: '', query: null, fragment: null,
      ranges: { scheme: [0, 3], host: null, port: null, path: [4, 4], query: null, fragment: null } })
    assert.deepEqual(structuredClone(urlcheck.check('urn:').toJSON()), urlcheck.check('urn:').toJSON())
    assert.deepEqual(urlcheck.check('http://h/\u{1f600} '), { valid: false, rule: 'code-point', place: 10, index: 11 })
  },

  async 'refused arguments'() {
    const urlcheck = await load()
    for (const text of ['\ud800', 'a\udc00b', '\ud800\ud800\udc00', `${'a'.repeat(5000)}\udbff`, '\u00e9\ud83d']) {
      for (const call of CALLS) {
        assert.throws(() => urlcheck[call](text), { name: 'TypeError', message: /the text has a lone surrogate at/ })
        assert.throws(() => urlcheck[call]('a', { base: text }), { name: 'TypeError', message: /the base has a lone/ })
      }
    }
    assert.throws(() => urlcheck.check('ab\ud800'), /at index 2$/)
    for (const profile of ['', 'Wide', 'standard ', 'parsers', 0, 1, 2, null, {}, Symbol('wide'), 'toString']) {
      assert.throws(() => urlcheck.check('urn:a', { profile }), TypeError)
    }
    for (const text of [undefined, null, 1, {}, new String('urn:a'), ['urn:a']]) {
      assert.throws(() => urlcheck.check(text), TypeError)
      if (text != null) assert.throws(() => urlcheck.check('urn:a', { base: text }), TypeError)
    }
    for (const rule of ['', 'no-rule', 'toString', '__proto__', undefined, Symbol('percent')]) {
      assert.throws(() => urlcheck.explain(rule), TypeError)
    }
    assert.equal(urlcheck.check('a', { base: 'urn:a/' }).valid, false)
    assert.equal(urlcheck.check('http://a_b/', { base: null, profile: 'wide' }).valid, true)
    assert.equal(urlcheck.check('http://a_b/', { base: undefined, profile: undefined }).valid, false)
  },

  async 'the sentences of errors'() {
    const [urlcheck, other] = [await load(), await answering77()]
    const { urlcheck: small } = await withMemory(limited(bytes, 4))
    const [held, report, whole] = [urlcheck.base('http://h/'), urlcheck.report('gnu'), 'no whole number from']
    const told = wrong => report.diagnostic({ file: 'a', line: 1, text: 'a b', rule: 'code-point', place: 1, ...wrong })
    const errors = {
      TypeError: [
        [() => urlcheck.check(1), 'the text is no string'],
        [() => urlcheck.check('ab\ud800'), 'the text has a lone surrogate at index 2'],
        [() => urlcheck.check('a', { base: 1 }), 'the base is no string'],
        [() => urlcheck.check('a', { base: '\ud800' }), 'the base has a lone surrogate at index 0'],
        [() => urlcheck.check('a', { base: {} }), 'the base is neither a string nor what `base` gave'],
        [() => urlcheck.check('a', { profile: 'Wide' }), "the profile has to be 'standard', 'wide' or 'parser'"],
        [() => urlcheck.check('a', 'http://h/'), "the options aren't an object, such as { base: text, profile: name }"],
        [() => urlcheck.check('a', held), 'a base is in the place of the options: write { base }'],
        [() => urlcheck.check('a', { bas: 'a:' }), 'there is no option bas, but base, profile and wording'],
        [() => urlcheck.check('a', { base: held, profile: 'wide' }),
          'the base was checked by the standard profile, and another one is given for the text'],
        [() => urlcheck.message('a', { rule: 'percent', place: 0 }, { wording: 'x' }),
          "the wording has to be 'arguments', 'options', 'sql' or 'none'"],
        [() => urlcheck.checkMany('a'), "the lines aren't a Uint8Array"],
        [() => urlcheck.explain('x'), 'no rule has the name x'],
        [() => urlcheck.report('xml'), 'no format has the name xml'],
        [() => urlcheck.report('gnu', 'inches'), 'no unit has the name inches'],
        [() => urlcheck.report('sarif', 'bytes'), 'the format sarif has no word for bytes'],
        [() => report.end('ended'), "the completion has to be 'whole', 'unread' or 'stopped'"],
        [() => report.fileBegin(1), 'the name of the file is no string'],
        [() => told({ file: '\ud800' }), 'the name of the file has a lone surrogate at index 0'],
        [() => told({ mended: { text: 1, kind: 'same' } }), 'the mended text is no string'],
        [() => told({ mended: { text: 'a', kind: 'x' } }), "the kind has to be 'same', 'escaped' or 'changed'"]
      ],
      RangeError: [
        [() => urlcheck.message('a', { rule: 'percent', place: 2 }), 'the place is after the end of the text'],
        [() => told({ place: -1 }), `the place is ${whole} 0 to 4294967295`],
        [() => told({ line: 0 }), `the line is ${whole} 1 to 4294967295`],
        [() => told({ column: 1.5 }), `the column is ${whole} 1 to 4294967295`],
        [() => told({ column: 2 ** 32 - 1 }), 'a column is above 4294967295'],
        [() => small.check('x'.repeat(1_000_000)), 'out of memory']
      ],
      BaseRefused: [
        [() => urlcheck.check('a', { base: 'a' }), 'the base is refused at place 0: it has no scheme [no-scheme]']
      ],
      Error: [
        [() => other.check('a:'), 'urlcheck.wasm answers 77'],
        [() => other.checkMany(new Uint8Array([97])), 'urlcheck.wasm answers 77'],
        [() => other.report('gnu').end(), 'urlcheck.wasm answers 77']
      ]
    }
    for (const [name, calls] of Object.entries(errors)) {
      for (const [call, message] of calls) assert.throws(call, { name, message })
    }
    const server = createServer((_, answer) => answer.writeHead(404).end()).listen(0, '127.0.0.1')
    await once(server, 'listening')
    const address = `http://127.0.0.1:${server.address().port}/urlcheck.wasm`
    await assert.rejects(load(address), { name: 'Error', message: `${address} isn't there: 404` })
    server.close()
  },

  async 'each profile takes more'() {
    const urlcheck = await load()
    const profiles = ['standard', 'wide', 'parser']
    const takes = { 'http://h/': 3, 'http://a_b/': 2, 'http://h//a': 2, 'http://a%2Db/': 1, 'http://1.2.3/': 1,
      'urn:a b': 1, 'file://?q': 1, 'file://h/C:/x': 1, 'urn:a ': 0, 'http://256/': 0, 'http://a%2Fb/': 0 }
    for (const [text, count] of Object.entries(takes)) {
      const taken = profiles.filter(profile => urlcheck.isValid(text, { profile }))
      assert.deepEqual(taken, profiles.slice(3 - count), text)
    }
    const profile = 'parser'
    assert.deepEqual(urlcheck.check('http://%31.2/a', { profile }).ranges.host, [7, 12])
    assert.equal(urlcheck.resolve('http://%31.2/a', { profile }).text, 'http://1.0.0.2/a')
    assert.equal(urlcheck.resolve('urn:a ?q', { profile }).record.opaquePath, 'a%20')
    const base = urlcheck.base('file://h/C:/a', { profile })
    assert.equal(urlcheck.resolve('/x', { base }).text, 'file://h/C:/x')
    assert.deepEqual(urlcheck.violations('//C:/x', { base }), [{ rule: 'host-domain', place: 2, index: 2 }])
    assert.throws(() => urlcheck.base('http://256/', { profile }), { name: 'BaseRefused', rule: 'host-number' })
    assert.throws(() => urlcheck.base('//h'), { message: 'the base is refused at place 0: it has no scheme [no-scheme]' })
  },

  async 'a refused base'() {
    const urlcheck = await load()
    for (const call of CALLS) {
      assert.throws(() => urlcheck[call]('x', { base: 'http://h/\u{1f600} ' }), error => {
        assert.ok(error instanceof BaseRefused && error instanceof Error)
        assert.deepEqual([error.rule, error.place, error.index], ['code-point', 10, 11])
        assert.equal(error.message, 'the base is refused at place 10: this code point is not allowed in a URL [code-point]')
        return true
      })
    }
  },

  async 'a base that is checked once'() {
    const { urlcheck, memory } = await withMemory(bytes)
    const [plain, file, opaque] = ['http://h/a/b?q', 'file:///C:/x', 'urn:a'].map(text => urlcheck.base(text))
    // Another base takes the place of the one that is held, and so does a name that is written where its text was.
    for (const [base, valid] of [['http://h/', true], ['urn:a', false], ['http://h/', true]]) {
      assert.equal(urlcheck.check('x', { base }).valid, valid)
    }
    for (const step of [() => '', () => urlcheck.report('checkstyle').fileBegin('http://other/c/')]) {
      step()
      assert.equal(urlcheck.resolve('x', { base: 'http://h/a/b' }).text, 'http://h/a/x')
    }
    const wide = urlcheck.base('http://a_b/', { profile: 'wide' })
    assert.deepEqual({ ...plain }, { text: 'http://h/a/b?q', profile: 'standard' })
    assert.deepEqual({ ...wide }, { text: 'http://a_b/', profile: 'wide' })
    const answers = checker => {
      assert.equal(checker.check('x', { base: plain }).path, 'x')
      assert.equal(checker.check('x', { base: opaque }).rule, 'opaque-base')
      assert.equal(checker.check('//h:80/', { base: plain }).port, '80')
      assert.equal(checker.check('//h:80/', { base: file }).valid, false)
      assert.equal(checker.check('//c_d/', { base: wide }).host, 'c_d')
      assert.equal(checker.check('//c_d/', { base: wide, profile: 'wide' }).host, 'c_d')
      assert.equal(checker.check('//c_d/', { base: plain, profile: 'standard' }).rule, 'host-domain')
      assert.deepEqual(checker.violations('x^', { base: opaque }).map(fault => fault.rule), ['opaque-base', 'code-point'])
      assert.deepEqual(checker.violations('x^', { base: plain }), [{ rule: 'code-point', place: 1, index: 1 }])
      assert.equal(checker.resolve('../x', { base: plain }).text, 'http://h/x')
      assert.equal(checker.resolve('y', { base: wide }).text, 'http://a_b/y')
      assert.equal(checker.check('x').rule, 'no-scheme')
    }
    answers(urlcheck)
    answers(await load())
    // Other bases, and a memory that grows, leave it as it is.
    const before = memory.buffer.byteLength
    for (let made = 0; made < 20_000; made++) assert.equal(urlcheck.base(`urn:${made}`).text, `urn:${made}`)
    assert.equal(memory.buffer.byteLength, before)
    assert.equal(urlcheck.check(`/${'a'.repeat(3_000_000)}\u00e9`, { base: plain }).path.length, 3_000_002)
    assert.ok(memory.buffer.byteLength > before)
    answers(urlcheck)
    const long = urlcheck.base(`http://h/${'b'.repeat(6_000_000)}`)
    answers(urlcheck)
    assert.equal(urlcheck.violations(`${' '.repeat(300_000)}`, { base: long }).length, 300_000)
    answers(urlcheck)
    assert.equal(urlcheck.resolve('../x', { base: long }).text, 'http://h/x')
    assert.throws(() => { 'use strict'; plain.text = 'urn:b' }, TypeError)
  },

  async 'a base that is refused, or is none'() {
    const urlcheck = await load()
    const held = urlcheck.base('http://h/')
    const thrown = call => {
      try {
        call()
      } catch (error) {
        const { name, message, rule, place, index } = error
        return { name, message, rule, place, index, is: error instanceof BaseRefused }
      }
    }
    const wrong = ['', 'x', 'http://h/\u{1f600} ', 'http://a_b/', '//h', '\ud800', `${'a'.repeat(5000)}\udbff`, 1, {},
      new String('urn:a'), ['urn:a'], Symbol('urn:a'), structuredClone(held), Object.create(held)]
    for (const base of wrong) {
      const asText = thrown(() => urlcheck.check('x', { base }))
      assert.ok(asText, String(base))
      assert.deepEqual(thrown(() => urlcheck.base(base)), asText)
      assert.equal(urlcheck.check('x', { base: held }).valid, true)
    }
    for (const base of [undefined, null, held]) assert.throws(() => urlcheck.base(base), TypeError)
    const copied = { name: 'TypeError', message: 'the base is neither a string nor what `base` gave' }
    for (const base of [structuredClone(held), {}]) assert.throws(() => urlcheck.check('x', { base }), copied)
    for (const options of ['http://h/', 'wide', 2, true]) {
      const wrong = { name: 'TypeError', message: /^the options aren.t an object/ }
      assert.throws(() => urlcheck.base('urn:a', options), wrong)
      for (const call of CALLS) assert.throws(() => urlcheck[call]('urn:a', options), wrong)
    }
    for (const call of [...CALLS, 'base']) {
      assert.throws(() => urlcheck[call]('urn:a', held), { name: 'TypeError', message: /^a base is in the place/ })
    }
    assert.throws(() => urlcheck.base('urn:a', { profile: 'Wide' }), TypeError)
    for (const call of CALLS) {
      for (const [profile, message] of [['wide', /by the standard profile/], ['Wide', /^the profile has to be 'standard'/]]) {
        assert.throws(() => urlcheck[call]('x', { base: held, profile }), { name: 'TypeError', message })
      }
    }
  },

  async 'a base of another module, or of one that is gone'() {
    const [urlcheck, other] = await Promise.all([load(), load()])
    const base = other.base('http://h/a')
    assert.equal(urlcheck.resolve('x', { base }).text, 'http://h/x')
    const held = await load().then(it => it.base('http://gone/a'))
    globalThis.gc?.()
    assert.equal(urlcheck.resolve('x', { base: held }).text, 'http://gone/x')
    // One that another copy of the scripts made was checked by what isn't known here.
    const copy = mkdtempSync(join(tmpdir(), 'urlcheck'))
    try {
      cpSync(folder, copy, { recursive: true })
      const { load: loadCopy } = await import(pathToFileURL(join(copy, 'urlcheck.js')).href)
      const foreign = (await loadCopy()).base('http://h/a')
      for (const call of CALLS) {
        assert.throws(() => urlcheck[call]('x', { base: foreign }), { name: 'TypeError', message: /neither a string nor/ })
      }
    } finally {
      rmSync(copy, { recursive: true })
    }
  },

  async 'a NUL within'() {
    const urlcheck = await load()
    const refused = { valid: false, rule: 'code-point', place: 10, index: 11 }
    for (const text of ['http://h/\u{1f600}\0', 'http://h/\u{1f600}\0b']) {
      assert.deepEqual(urlcheck.check(text), refused)
      assert.deepEqual(urlcheck.resolve(text), refused)
      assert.deepEqual(urlcheck.violations(text), [{ rule: 'code-point', place: 10, index: 11 }])
      assert.equal(urlcheck.isValid(text), false)
    }
    assert.throws(() => urlcheck.check('x', { base: 'http://h/\0' }), { name: 'BaseRefused', place: 9 })
    const lines = new TextEncoder().encode('urn:a\0b\nurn:a\n')
    assert.deepEqual(urlcheck.checkMany(lines).refused.map(it => [it.line, it.place]), [[1, 5]])
    const report = urlcheck.report('json')
    const told = { file: 'a\0b', line: 1, text: 'urn:a\0b', rule: 'code-point', place: 5 }
    assert.equal(JSON.parse(report.diagnostic(told)).file, 'a\0b')
  },

  async 'what is told of a URL'() {
    const urlcheck = await load()
    const resolved = urlcheck.resolve('HTTP://\u00e9.example:8080/a/../b?q#f')
    const record = { scheme: 'http', host: { kind: 'domain', text: 'xn--9ca.example' }, port: '8080', query: 'q', fragment: 'f',
      segments: ['b'], opaquePath: null }
    const text = 'http://xn--9ca.example:8080/b?q#f'
    assert.deepEqual(JSON.parse(JSON.stringify(resolved)), { valid: true, text, record })
    // A call after it changes nothing of it, and what is written as its URL is stays the caller's text.
    urlcheck.resolve('urn:other')
    assert.deepEqual(resolved.record, record)
    for (const same of ['http://h/a?b#c', 'urn:a', 'file:///x', 'http://[::1]:8080/', 'web+x:/.//a']) {
      assert.equal(urlcheck.resolve(same).text, same)
      assert.equal(new URL(same).href, same)
    }
    assert.deepEqual(urlcheck.resolve('web+x:/.//a').record.segments, ['', 'a'])
    assert.equal(urlcheck.resolve('http://h').text, 'http://h/')
    assert.equal(urlcheck.resolve('http://h/\u00e9').text, 'http://h/%C3%A9')
  },

  async 'what to write instead'() {
    const urlcheck = await load()
    const base = urlcheck.base('http://h/a')
    assert.equal(urlcheck.mend('http://h/'), null)
    assert.deepEqual(urlcheck.mend('http://h/\u{1f600} b'), { text: 'http://h/\u{1f600}%20b', kind: 'same', isOffered: true })
    assert.deepEqual(urlcheck.mend('http://h/100%'), { text: 'http://h/100%25', kind: 'escaped', isOffered: true })
    const { isOffered, ...changed } = urlcheck.mend('http:a', { base })
    assert.deepEqual(changed, { text: 'http://a', kind: 'changed' })
    assert.equal(typeof isOffered, 'boolean')
    assert.deepEqual(urlcheck.mend('\ufeff b', { base }), { text: '\ufeff%20b', kind: 'same', isOffered: true })
    // (of two slashes one may have been meant)
    assert.equal(urlcheck.mend('http://h//a').isOffered, false)
    assert.deepEqual(urlcheck.mend('\u{1f600}'), { valid: false, rule: 'no-scheme', place: 0, index: 0 })
    assert.deepEqual(urlcheck.mend('http://\u{1f600}@h:x/'), urlcheck.check('http://\u{1f600}@h:x/'))
    const long = 'http://h/'.padEnd(100_000, ' ')
    assert.equal(urlcheck.mend(`${long}x`).text, `http://h/${'%20'.repeat(long.length - 9)}x`)
    assert.equal(urlcheck.check('http://h/\u00e9').path, '/\u00e9')
  },

  async 'what is known of the rules'() {
    const urlcheck = await load()
    assert.equal(urlcheck.version, version)
    assert.ok(urlcheck.rules.length > 0)
    for (const rule of urlcheck.rules) {
      const { rule: name, sentence, requires, section, example } = urlcheck.explain(rule)
      assert.equal(name, rule)
      for (const text of [sentence, requires, section]) assert.ok(text.length > 2)
      const options = { base: example.base }
      const refused = urlcheck.check(example.text, options)
      assert.deepEqual([refused.valid, refused.rule, refused.place], [false, rule, example.place])
      assert.equal(urlcheck.check(example.mended, options).valid, true)
    }
  },

  async 'the lines of bytes'() {
    const urlcheck = await load()
    const bytes = text => new TextEncoder().encode(text)
    const list = 'http://h/\r\nx\n\n\r\nhttp://h/\u00e9 b\nurn:a\r'
    const row = (line, start, end, rule, place, byte) => ({ line, start, end, rule, place, byte })
    const spaced = row(5, 16, 29, 'code-point', 10, 11)
    assert.deepEqual(urlcheck.checkMany(bytes(list)), { lines: 6, judged: 4,
      refused: [row(2, 11, 12, 'no-scheme', 0, 0), spaced, row(6, 30, 36, 'code-point', 5, 5)] })
    const base = urlcheck.base('http://k/')
    for (const it of [base, 'http://k/']) {
      assert.deepEqual(urlcheck.checkMany(bytes(list), { base: it }), { lines: 6, judged: 4,
        refused: [spaced, row(6, 30, 36, 'code-point', 5, 5)] })
      assert.deepEqual(urlcheck.checkMany(bytes('\n\r\nx'), { base: it }), { lines: 3, judged: 1, refused: [] })
    }
    assert.deepEqual(urlcheck.checkMany(Uint8Array.of(0x61, 0x3a, 0xc3, 0xa9, 0xff, 10, 10)), { lines: 2, judged: 1,
      refused: [row(1, 0, 5, 'not-utf8', 3, 4)] })
    assert.deepEqual(urlcheck.checkMany(bytes('')), { lines: 0, judged: 0, refused: [] })
    assert.equal(urlcheck.checkMany(bytes('http://a_b/'), { profile: 'wide' }).refused.length, 0)
    assert.equal(urlcheck.checkMany(bytes('//a_b/'), { base: urlcheck.base('urn://h', { profile: 'wide' }) }).lines, 1)
    assert.equal(urlcheck.checkMany(bytes(`\n${list}`).subarray(1)).lines, 6)
    for (const wrong of ['urn:a', undefined, [1], new ArrayBuffer(1), new Uint16Array(1)]) {
      assert.throws(() => urlcheck.checkMany(wrong), { name: 'TypeError', message: "the lines aren't a Uint8Array" })
    }
    assert.throws(() => urlcheck.checkMany(bytes('x'), { base: 'x' }), BaseRefused)
    assert.throws(() => urlcheck.checkMany(bytes('x'), { profile: 'Wide' }), TypeError)
    const elsewhere = runInNewContext('Uint8Array.of(120, 10)')
    assert.deepEqual(urlcheck.checkMany(elsewhere).refused.map(it => it.rule), ['no-scheme'])
  },

  async 'a base after what a report has put into its room'() {
    const urlcheck = await load()
    const report = urlcheck.report('checkstyle')
    for (const name of ['http://h/a/b', 'x']) {
      report.fileBegin(name)
      for (const call of CALLS) assert.throws(() => urlcheck[call]('../x', { base: '' }), BaseRefused, call)
      assert.throws(() => urlcheck.base(''), BaseRefused)
      assert.equal(urlcheck.resolve('../x', { base: 'http://k/a/' }).text, 'http://k/x')
    }
  },

  async 'what is read of a diagnostic is read before it is told'() {
    const urlcheck = await load()
    const told = { file: 'a', line: 1, text: 'http://h/ b', rule: 'code-point', place: 9 }
    const mended = { text: 'http://h/%20b', kind: 'same', isOffered: true }
    const disturbed = { ...mended, get isOffered() { urlcheck.check('http://zzz/b'); return true } }
    const [wanted, found] = [mended, disturbed].map(it => urlcheck.report('json').diagnostic({ ...told, mended: it }))
    assert.equal(found, wanted)
  },

  async 'options that no call takes'() {
    const urlcheck = await load()
    for (const options of [{ Profile: 'wide' }, { base: 'http://h/', strict: true }]) {
      for (const call of CALLS) assert.throws(() => urlcheck[call]('urn:a', options), { name: 'TypeError', message: /no option/ })
    }
  },

  async 'many lines, and long ones'() {
    const { urlcheck, memory } = await withMemory(bytes)
    // More refused lines than one call has rows for, over more than a mebibyte, and a longer line among them.
    const lines = Array.from({ length: 30_000 }, (_, at) => (at % 3 === 0 ? `http://b\u00fccher${at}.example/` : `http://h/${at} x`))
    lines[15_000] = `http://h/${'a'.repeat(3_000_000)}`
    const list = new TextEncoder().encode(lines.join('\n'))
    for (const options of [undefined, { base: urlcheck.base('urn:a') }]) {
      const { lines: count, judged, refused } = urlcheck.checkMany(list, options)
      assert.deepEqual([count, judged], [lines.length, lines.length])
      const wanted = lines.flatMap((text, at) => (urlcheck.isValid(text) ? [] : [[at + 1, text]]))
      const decoder = new TextDecoder()
      assert.equal(wanted.length, 20_000)
      assert.deepEqual(refused.map(it => [it.line, decoder.decode(list.subarray(it.start, it.end))]), wanted)
    }
    assert.ok(memory.buffer.byteLength < 40_000_000)
    const { urlcheck: small } = await withMemory(limited(bytes, 4))
    const idn = new TextEncoder().encode('http://b\u00fccher.example/\n'.repeat(3000))
    assert.deepEqual(small.checkMany(idn), { lines: 3000, judged: 3000, refused: [] })
    assert.throws(() => small.checkMany(list), { name: 'RangeError', message: /out of memory/ })
    assert.deepEqual(small.checkMany(idn), { lines: 3000, judged: 3000, refused: [] })
  },

  async 'messages and reports'() {
    const urlcheck = await load()
    const refused = urlcheck.check('http://h/\u{1f600} ')
    assert.equal(urlcheck.message('http://h/\u{1f600} ', refused), 'U+0020 SPACE is not allowed in a URL')
    assert.notEqual(urlcheck.message('http://a_b/', { rule: 'host-domain', place: 7 }), urlcheck.explain('host-domain').sentence)
    assert.equal(urlcheck.message('', { rule: 'line-too-long', place: 0 }), 'this line has more than 65536 bytes')
    const taken = { arguments: "profile='wide'", options: '--profile wide', sql: "profile 'wide'", none: null }
    for (const [wording, name] of Object.entries(taken)) {
      const sentence = `U+005F LOW LINE is not allowed in a domain${name === null ? '' : `; ${name} allows it`}`
      const options = { wording }
      assert.equal(urlcheck.message('http://a_b/', { rule: 'host-domain', place: 8 }, options), sentence)
      const told = { file: 'a', line: 1, text: 'http://a_b/', rule: 'host-domain', place: 8 }
      assert.equal(JSON.parse(urlcheck.report('json', undefined, wording).diagnostic(told)).message, sentence)
    }
    assert.ok(urlcheck.message('http://a_b/', { rule: 'host-domain', place: 8 }).endsWith("; profile='wide' allows it"))
    const base = urlcheck.base('http://h/')
    assert.ok(urlcheck.message('//a_b/', { rule: 'host-domain', place: 3 }, { base }).endsWith("; profile='wide' allows it"))
    assert.ok(urlcheck.message('//a_b/', { rule: 'host-domain', place: 3 }).endsWith('a domain'))
    assert.throws(() => urlcheck.message('//a_b/', { rule: 'host-domain', place: 3 }, { base: 'h i' }), { name: 'BaseRefused' })
    for (const wording of ['', 'Options', null, 0, 4, 'toString']) {
      assert.throws(() => urlcheck.message('a', { rule: 'percent', place: 0 }, { wording }), { name: 'TypeError', message: /wording/ })
      assert.throws(() => urlcheck.report('gnu', undefined, wording), { name: 'TypeError', message: /wording/ })
    }
    assert.throws(() => urlcheck.message('a', { rule: 'percent', place: 2 }), { name: 'RangeError', message: /after the end/ })
    for (const place of [-1, 0.5, NaN, '0', undefined, 2 ** 32]) {
      assert.throws(() => urlcheck.message('a', { rule: 'percent', place }), { name: 'RangeError', message: /no whole number/ })
    }
    for (const rule of ['', 'memory', undefined, 'toString', 1]) {
      assert.throws(() => urlcheck.message('a', { rule, place: 0 }), { name: 'TypeError', message: /no rule has/ })
      assert.throws(() => urlcheck.report(rule), { name: 'TypeError', message: /no format has/ })
      assert.throws(() => urlcheck.report('gnu', rule ?? null), { name: 'TypeError', message: /no unit has/ })
    }
    assert.throws(() => urlcheck.report('sarif', 'bytes'), { name: 'TypeError', message: /no word for bytes/ })
    const types = readFileSync(join(folder, 'urlcheck.d.ts'), 'utf8')
    const named = [...types.matchAll(/^export type (ReportFormat|ColumnUnit) = (.*)$/gm)].flatMap(it => it[2].split(' | '))
    assert.deepEqual(named, [...urlcheck.formats, ...urlcheck.units].map(it => `'${it}'`))
    const report = urlcheck.report('gnu', 'bytes')
    const told = { file: 'a\u00e9', line: 7, column: 5, text: '\u00e9 ', rule: 'code-point', place: 1 }
    const line = 'a\u00e9:7:7: error: U+0020 SPACE is not allowed in a URL [code-point]\n'
    assert.equal(report.diagnostic(told), line)
    for (const [wrong, name] of [[{ line: 0 }, 'RangeError'], [{ line: 2 ** 32 + 1 }, 'RangeError'],
      [{ column: 2 ** 32 }, 'RangeError'], [{ place: 3 }, 'RangeError'],
      [{ column: 2 ** 32 - 1 }, 'RangeError'], [{ file: '\ud800' }, 'TypeError'], [{ text: '\ud800' }, 'TypeError'],
      [{ file: 1 }, 'TypeError'], [{ profile: 'Wide' }, 'TypeError'], [{ rule: 'x' }, 'TypeError'],
      [{ mended: { text: '\udc00', kind: 'same' } }, 'TypeError'], [{ mended: { text: 'a', kind: 'x' } }, 'TypeError']]) {
      assert.throws(() => report.diagnostic({ ...told, ...wrong }), { name }, JSON.stringify(wrong))
    }
    assert.throws(() => report.fileBegin('\ud800'), TypeError)
    assert.throws(() => report.end('ended'), TypeError)
    const junit = urlcheck.report('junit')
    assert.deepEqual([undefined, 'whole', 'unread', 'stopped'].map(it => junit.end(it).match(/can't be read|the run stopped/)?.[0]),
      [undefined, undefined, "can't be read", 'the run stopped'])
    assert.equal(report.diagnostic(told), line)
    // A comma is before each result of SARIF but the first, and a long text is written whole.
    const sarif = urlcheck.report('sarif')
    const text = `${'\u00e9'.repeat(5000)} `
    const pieces = [1, 2].map(() => sarif.diagnostic({ ...told, text, mended: { text: 'a'.repeat(9000), kind: 'changed', isOffered: true } }))
    assert.deepEqual(pieces.map(it => it.startsWith(',')), [false, true])
    assert.ok(pieces[0].includes('a'.repeat(9000)))
    assert.equal(JSON.parse(sarif.begin() + pieces.join('') + sarif.end('stopped')).runs[0].invocations[0].executionSuccessful, false)
  },

  async 'memory stays as it is'() {
    const { urlcheck, memory } = await withMemory(bytes)
    const calls = () => {
      urlcheck.resolve('http://b\u00fccher.example/\u00e9?q', { base: 'http://h/' })
      urlcheck.violations('http://h/ ^ ^ ^')
      urlcheck.mend('http://b\u00fccher.example/ ^')
      urlcheck.isValid('http://b\u00fccher.example/')
      urlcheck.check('http://b\u00fccher.example/')
    }
    calls()
    const before = memory.buffer.byteLength
    for (let call = 0; call < 20_000; call++) calls()
    assert.equal(memory.buffer.byteLength, before)
  },

  async 'a long text, and a short one after it'() {
    const { urlcheck, memory } = await withMemory(bytes)
    const long = `http://h/${'a'.repeat(3_000_000)}`
    assert.equal(urlcheck.check(long).ranges.path[1], long.length)
    assert.deepEqual(urlcheck.check(`${long}\u00e9 `), { valid: false, rule: 'code-point', place: long.length + 1,
      index: long.length + 1 })
    assert.equal(urlcheck.resolve(`${long}\u00e9`).text, `${long}%C3%A9`)
    assert.equal(urlcheck.violations(`http://h/${' '.repeat(100_000)}`).length, 100_000)
    const grown = memory.buffer.byteLength
    assert.equal(urlcheck.check('http://h/\u00e9').path, '/\u00e9')
    assert.equal(urlcheck.check('x', { base: long }).path, 'x')
    assert.equal(urlcheck.check(long, { base: long }).path.length, 3_000_001)
    assert.equal(urlcheck.resolve('http://h/a', { base: 'urn:a' }).text, 'http://h/a')
    assert.ok(memory.buffer.byteLength <= grown + long.length * 2)
  },

  async 'a length at each border of the rooms'() {
    const urlcheck = await load()
    for (const unit of ['a', '\u00e9', '\u65e5', '\u{1f600}']) {
      for (let length = 500; length < 530; length++) {
        const text = `http://h/${unit.repeat(length)}`
        assert.equal(urlcheck.check(text).ranges.path[1], text.length)
        assert.equal(urlcheck.check('x', { base: text }).path, 'x')
        assert.equal(urlcheck.check(text, { base: text }).path.length, text.length - 8)
        assert.equal(urlcheck.violations(`${text} `, { base: `${text}/` })[0].index, text.length)
      }
    }
  },

  async 'out of memory, and the next call works'() {
    const { urlcheck, memory } = await withMemory(limited(bytes, 4))
    const form = 'http://xn--bcher-kva.example/'
    const isShort = () => assert.equal(urlcheck.resolve('http://b\u00fccher.example/').text, form)
    const text = `http://h/${'\u00e9'.repeat(20_000)}`
    const held = urlcheck.base('http://h/\u00e9')
    isShort()
    for (let round = 0; round < 3; round++) {
      for (const call of CALLS) {
        const large = 'x'.repeat(1_000_000)
        assert.throws(() => urlcheck[call](large), { name: 'RangeError', message: /out of memory/ })
        isShort()
        assert.throws(() => urlcheck[call]('x', { base: large }), { name: 'RangeError', message: /out of memory/ })
        isShort()
        assert.throws(() => urlcheck[call](large, { base: held }), { name: 'RangeError', message: /out of memory/ })
        assert.equal(urlcheck.check('x', { base: held }).path, 'x')
      }
      assert.throws(() => urlcheck.base('x'.repeat(1_000_000)), { name: 'RangeError', message: /out of memory/ })
      assert.equal(urlcheck.check('x', { base: held }).path, 'x')
      // The base has room, and no record is made of it, which would have none.
      assert.equal(urlcheck.check('x', { base: urlcheck.base(text + text) }).path, 'x')
      assert.equal(urlcheck.check('x', { base: held }).path, 'x')
      // The text has room, but its record hasn't; its faults, of which there are many, haven't either.
      assert.equal(urlcheck.check(text).valid, true)
      assert.throws(() => urlcheck.resolve(text + text), RangeError)
      isShort()
      assert.throws(() => urlcheck.violations(`http://h/${'^'.repeat(100_000)}`), RangeError)
      isShort()
    }
    // The largest text that has room leaves none for its record; the room is given up then.
    let [least, most] = [0, 1_000_000]
    while (most - least > 1) {
      const middle = Math.floor((least + most) / 2)
      try {
        urlcheck.check(`http://h/${'a'.repeat(middle)}`)
        least = middle
      } catch {
        most = middle
      }
    }
    assert.throws(() => urlcheck.resolve(`http://h/${'a'.repeat(least)}`), RangeError)
    isShort()
    // A domain that needs memory is neither valid nor refused where there is none.
    assert.equal(urlcheck.isValid(`http://h/${'a'.repeat(least - 50)}`), true)
    for (const call of CALLS) {
      assert.throws(() => urlcheck[call](`http://b\u00fccher.example/${'a'.repeat(least - 50)}`), RangeError, call)
    }
    isShort()
    assert.ok(memory.buffer.byteLength > least)
  },

  async 'instances beside each other'() {
    const [one, other] = await Promise.all([load(), load()])
    const kept = one.check('http://one/a')
    assert.equal(other.check('http://other/bcd').path, '/bcd')
    assert.equal(one.violations('http://h/ ').length, 1)
    assert.equal(kept.host, 'one')
    assert.equal(kept.path, '/a')
  },

  async 'a thread of its own'() {
    const script = `
      import { load } from ${JSON.stringify(pathToFileURL(join(folder, 'urlcheck.js')).href)}
      import { parentPort } from 'node:worker_threads'
      const urlcheck = await load()
      parentPort.postMessage(urlcheck.check('http://h/a b'))`
    const worker = new Worker(new URL(`data:text/javascript,${encodeURIComponent(script)}`))
    const answer = await new Promise((yes, no) => worker.once('message', yes).once('error', no))
    assert.deepEqual(answer, { valid: false, rule: 'code-point', place: 10, index: 10 })
    await worker.terminate()
  },

  async 'no code from texts'() {
    const scripts = readdirSync(folder).filter(name => name.endsWith('.js'))
    assert.ok(scripts.length > 5)
    for (const name of scripts) {
      const script = readFileSync(join(folder, name), 'utf8')
      assert.doesNotMatch(script, /\beval\b|new Function|innerHTML|document\.write/)
    }
  }
}

let failed = 0
for (const [name, test] of Object.entries(tests)) {
  try {
    await test()
  } catch (error) {
    failed++
    console.log(`FAILED: ${name}: ${String(error.message).slice(0, 600)}`)
  }
}
console.log(`browser: ${Object.keys(tests).length - failed} of ${Object.keys(tests).length} tests of calls pass`)
process.exit(failed === 0 ? 0 : 1)
