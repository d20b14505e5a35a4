// The lines of bytes, checked in one call of the module for each mebibyte of them.
import {
  DONE, EMPTY_LINES, LENGTH, LINES, MEMORY, NEXT_LINE, REFUSED, ROW_BYTE_PLACE, ROW_LENGTH, ROW_LINE, ROW_PLACE,
  ROW_RULE, ROW_START, ROW_VERDICT, ROW_WORDS, VERDICT
} from './layout.js'

/** @typedef {import('./urlcheck.js').Many} Many */
/** @typedef {import('./urlcheck.js').RefusedLine} RefusedLine */

const LF = 10
/** The most bytes that are handed to the module at once, so that its memory stays small for a list of any length. */
const PIECE = 1 << 20

/**
 * Returns the end of a piece of whole lines that begins there: so many bytes are checked at a time, or a longer line.
 * @param {Uint8Array} bytes
 * @param {number} start
 * @returns {number}
 */
function pieceEnd(bytes, start) {
  if (bytes.length - start <= PIECE) return bytes.length
  const last = bytes.lastIndexOf(LF, start + PIECE - 1)
  if (last >= start) return last + 1
  const next = bytes.indexOf(LF, start + PIECE)
  return next === -1 ? bytes.length : next + 1
}

/**
 * Adds what the module has found of a piece's lines.
 * @param {Many} many
 * @param {import('./memory.js').Room} room
 * @param {readonly (import('./urlcheck.js').RuleName)[]} names of the rules
 * @param {number} start where the piece begins
 */
function add(many, room, names, start) {
  const { answer, exports } = room
  const words = new Uint32Array(exports.memory.buffer, exports.out_at() >>> 0, answer[LENGTH] * ROW_WORDS)
  for (let at = 0; at < words.length; at += ROW_WORDS) {
    const from = start + words[at + ROW_START]
    many.refused.push({
      line: many.lines + words[at + ROW_LINE],
      start: from,
      end: from + words[at + ROW_LENGTH],
      rule: words[at + ROW_VERDICT] === REFUSED ? names[words[at + ROW_RULE] - 1] : 'not-utf8',
      place: words[at + ROW_PLACE],
      byte: words[at + ROW_BYTE_PLACE]
    })
  }
  many.lines += answer[LINES]
  many.judged += answer[LINES] - answer[EMPTY_LINES]
}

/**
 * Checks the lines of bytes, against the base that the module holds where `isHeld`.
 * @param {import('./memory.js').Room} room
 * @param {readonly (import('./urlcheck.js').RuleName)[]} names of the rules
 * @param {Uint8Array} bytes
 * @param {number} profile
 * @param {number} isHeld 1, or 0 if each line is checked by itself
 * @returns {Many}
 * @throws {RangeError} if there is no memory for a line
 */
export function checkedLines(room, names, bytes, profile, isHeld) {
  /** @type {Many} */
  const many = { lines: 0, judged: 0, refused: [] }
  for (let start = 0, end; start < bytes.length; start = end) {
    end = pieceEnd(bytes, start)
    const length = room.putBytes(bytes.subarray(start, end))
    for (let from = 0; from < length; from = room.answer[NEXT_LINE]) {
      room.exports.check_lines(length, from, profile, isHeld)
      room.look()
      const verdict = room.answer[VERDICT]
      if (verdict === MEMORY) room.stopForMemory()
      if (verdict !== DONE) throw new Error(`urlcheck.wasm answers ${verdict}`)
      add(many, room, names, start)
    }
  }
  return many
}
