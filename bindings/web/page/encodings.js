// The text of an HTML file, by the encoding that it names, as a browser finds it.

/** In so many bytes at its start a document names its encoding (HTML, section 4.2.5.4). */
const HEAD = 1024
/** The byte order marks, by the encodings that they name. */
const MARKS = [['utf-8', [0xef, 0xbb, 0xbf]], ['utf-16be', [0xfe, 0xff]], ['utf-16le', [0xff, 0xfe]]]
/** An element that names an encoding, by an attribute of its own or as a type of content. */
const NAMED = /<meta\s[^>]*?charset\s*=\s*["']?\s*([^\s"';>]+)/i

/** The encoding that the first bytes name; without a name it is UTF-8. */
function encodingOf(bytes) {
  const marked = MARKS.find(([, mark]) => mark.every((byte, at) => bytes[at] === byte))
  if (marked) return marked[0]
  const head = new TextDecoder('latin1').decode(bytes.subarray(0, HEAD))
  const name = NAMED.exec(head)?.[1] ?? 'utf-8'
  // (an element that could be read as ASCII can't be of UTF-16)
  return /^utf-16/i.test(name) ? 'utf-8' : name
}

/**
 * The text of a file, or why it can't be read.
 * @param {File} file
 * @returns {Promise<{ text: string } | { problem: string }>}
 */
export async function textOf(file) {
  let bytes
  try {
    bytes = new Uint8Array(await file.arrayBuffer())
  } catch (error) {
    return { problem: `the file can’t be read: ${error.message}` }
  }
  const encoding = encodingOf(bytes)
  try {
    return { text: new TextDecoder(encoding, { fatal: true }).decode(bytes) }
  } catch {
    return { problem: `the file isn’t in ${encoding}, which it ${encoding === 'utf-8' ? 'is read as' : 'names'}` }
  }
}
