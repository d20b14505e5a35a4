// A list, read piece by piece as `urlcheck lint` reads a file: each piece has whole lines, and a line with too many
// bytes is a piece of its own. A byte order mark at a file's start isn't a part of the first line. (The module cuts a
// piece into lines; here are only the ends of pieces, since the browser hands out a file bit by bit.)

/** A line has at most this many bytes, as in `urlcheck lint`, which reports a longer one and doesn't check it. */
export const LONGEST_LINE = 65536

const LF = 10
const CR = 13
const BYTE_ORDER_MARK = [0xef, 0xbb, 0xbf]

/** The bytes of one array and then of another. */
function joined(one, other) {
  if (one.length === 0) return other
  const whole = new Uint8Array(one.length + other.length)
  whole.set(one)
  whole.set(other, one.length)
  return whole
}

/** A file's first bytes without their byte order mark. */
function withoutMark(bytes) {
  return BYTE_ORDER_MARK.every((byte, at) => bytes[at] === byte) ? bytes.subarray(BYTE_ORDER_MARK.length) : bytes
}

/** Whether the line that begins there, and ends with an LF there or with the bytes, has too many bytes. */
function isTooLong(bytes, start, end) {
  const isClosed = end < bytes.length
  return end - start - (isClosed && bytes[end - 1] === CR ? 1 : 0) > LONGEST_LINE
}

/** Whole lines, and apart from them each one that is too long, of which nothing is kept. */
function* apart(bytes) {
  let kept = 0
  let start = 0
  while (start < bytes.length) {
    // The last line that begins before here isn't too long, unless it is the first one.
    const last = bytes.lastIndexOf(LF, start + LONGEST_LINE)
    if (last >= start) {
      start = last + 1
      continue
    }
    const next = bytes.indexOf(LF, start)
    const end = next === -1 ? bytes.length : next
    if (isTooLong(bytes, start, end)) {
      if (kept < start) yield { bytes: bytes.subarray(kept, start), isTooLong: false }
      yield { bytes: bytes.subarray(0, 0), isTooLong: true }
      kept = end + 1
    }
    start = end + 1
  }
  if (kept < bytes.length) yield { bytes: bytes.subarray(kept), isTooLong: false }
}

/** A text as a file: a lone surrogate becomes a byte that isn't UTF-8 either. */
export function fileOf(text) {
  return new Blob(text.split(/(\p{Cs})/u).map((part, at) => (at % 2 === 0 ? part : Uint8Array.of(0xff))))
}

/** The whole lines of a file, piece by piece: each with how many bytes were read up to its end. */
export async function* piecesOf(file) {
  const reader = file.stream().getReader()
  let rest = new Uint8Array(0)
  let [isLong, isFirst, done] = [false, true, 0]
  for (let piece = await reader.read(); !piece.done; piece = await reader.read()) {
    done += piece.value.length
    const last = piece.value.lastIndexOf(LF)
    if (last === -1) {
      rest = isLong ? rest : joined(rest, piece.value)
      // (a byte order mark, and a CR after which an LF may come, aren't part of the line)
      isLong ||= rest.length > LONGEST_LINE + BYTE_ORDER_MARK.length + 1
      if (isLong) rest = rest.subarray(0, 0)
      continue
    }
    const whole = joined(rest, piece.value.subarray(0, last + 1))
    const bytes = isFirst ? withoutMark(whole) : whole
    if (isLong) yield { bytes: whole.subarray(0, 0), isTooLong: true, done }
    for (const it of apart(isLong ? bytes.subarray(bytes.indexOf(LF) + 1) : bytes)) yield { ...it, done }
    isLong = isFirst = false
    rest = piece.value.slice(last + 1)
  }
  if (isLong) yield { bytes: rest, isTooLong: true, done }
  else for (const it of apart(isFirst ? withoutMark(rest) : rest)) yield { ...it, done }
}
