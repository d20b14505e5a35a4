// The module with a memory that may not grow beyond so many pages of 64 KiB, so that the engine refuses growth. Under
// Node as a command: node limited.mjs FROM PAGES TO, where PAGES is counted from the least that the module asks for.

const MEMORY_SECTION = 5

/** A number in the form of WebAssembly (LEB128), and the place after it. */
function numberAt(bytes, place) {
  let number = 0
  for (let shift = 0; ; shift += 7) {
    const byte = bytes[place++]
    number += (byte & 0x7f) * 2 ** shift
    if (byte < 0x80) return [number, place]
  }
}

function written(number) {
  const bytes = []
  do {
    bytes.push((number % 128) | (number >= 128 ? 0x80 : 0))
    number = Math.floor(number / 128)
  } while (number > 0)
  return bytes
}

/** The module's bytes with a memory of at most so many pages more than it begins with. */
export function limited(bytes, more) {
  let place = 8
  while (place < bytes.length) {
    const start = place
    const id = bytes[place]
    const [size, content] = numberAt(bytes, place + 1)
    if (id === MEMORY_SECTION) {
      const [least] = numberAt(bytes, content + 2)
      const section = [1, 1, ...written(least), ...written(least + more)]
      return new Uint8Array([...bytes.slice(0, start), id, ...written(section.length), ...section,
        ...bytes.slice(content + size)])
    }
    place = content + size
  }
  throw new Error('the module has no memory')
}

if (typeof process === 'object' && process.argv[1]?.endsWith('limited.mjs')) {
  const { readFileSync, writeFileSync } = await import('node:fs')
  writeFileSync(process.argv[4], limited(readFileSync(process.argv[2]), Number(process.argv[3])))
}
