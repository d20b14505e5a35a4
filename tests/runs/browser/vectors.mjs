// Compares the checker of a folder with the program, on the cases of answers.py: see compare.mjs.
// Usage: node vectors.mjs FOLDER CASES
import { readFileSync } from 'node:fs'
import { resolve } from 'node:path'
import { pathToFileURL } from 'node:url'
import { differences } from './compare.mjs'

const { load } = await import(pathToFileURL(resolve(process.argv[2], 'urlcheck.js')).href)
const cases = JSON.parse(readFileSync(process.argv[3], 'utf8'))
const { compared, count, found } = differences(await load(), cases)
for (const it of found) console.log(`FAILED: ${it}`)
console.log(`browser: ${cases.length} cases in three profiles under Node ${process.versions.node}, ` +
  `${compared} answers, ${count} differences`)
process.exit(count === 0 && cases.length > 0 ? 0 : 1)
