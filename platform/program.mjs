#!/usr/bin/env node
// The program `urlcheck` under Node: program.wasm is all of it, and asks its system by the functions of WASI preview 1.
// This host gives those that it calls, over `node:fs`: it opens the files that the user may, with no list of folders.
import { closeSync, constants, fstatSync, openSync, readFileSync, readSync, writeSync } from 'node:fs'
import { argv, exit } from 'node:process'
import { setFlagsFromString } from 'node:v8'

// The engine compiles a function again, for speed, once it has run for long. The largest ones take a second, for which
// a short run would wait as it ends.
setFlagsFromString('--wasm-tiering-budget=50000000')

// The number of the first folder that a program is given: those before it are the streams.
const FIRST_FOLDER = 3
const FOLDERS = ['.', '/'] // what paths are relative to, for a program that asks which folders it is given

// WASI's numbers of the errors that this file names itself.
const NO_ERROR = 0, BAD_FILE = 8, INVALID = 28, IO = 29, NAME_TOO_LONG = 37, NO_SEEK = 70

// WASI's numbers of Node's errors.
/** @type {Record<string, number>} */
const ERRORS = {
  EACCES: 2, EAGAIN: 6, EBADF: BAD_FILE, EEXIST: 20, EFBIG: 22, EINTR: 27, EINVAL: INVALID, EIO: IO, EISDIR: 31, ELOOP: 32,
  EMFILE: 33, ENAMETOOLONG: NAME_TOO_LONG, ENFILE: 41, ENOENT: 44, ENOMEM: 48, ENOSPC: 51, ENOTDIR: 54, EPERM: 63,
  EPIPE: 64, EROFS: 69, ESPIPE: NO_SEEK,
}

// The arguments of the process in bytes, if there are some and the system tells them (Linux does).
/** @returns {Buffer[] | null} */
function ownArguments() {
  try {
    const words = readFileSync('/proc/self/cmdline', 'latin1').split('\0').slice(0, -1)
    return words.slice(2 - argv.length).map(word => Buffer.from(word, 'latin1'))
  } catch {
    return null
  }
}

/**
 * The arguments in bytes. Node has put U+FFFD in place of bytes that aren't UTF-8, and that is valid in a URL: another
 * text than the caller's would be checked. So if it is there the system is asked for the bytes, and where that doesn't tell
 * them it becomes a byte that no UTF-8 has, which the program refuses.
 */
function givenArguments() {
  const texts = argv.slice(2)
  const own = texts.some(text => text.includes('\ufffd')) ? ownArguments() : null
  if (own !== null) return own
  return texts.map(text => Buffer.concat(text.split('\ufffd').flatMap((part, at) => [Buffer.from(at ? [0xff] : []), Buffer.from(part)])))
}

const words = [Buffer.from('urlcheck'), ...givenArguments()].map(word => Buffer.concat([word, Buffer.from([0])]))

/** An open file: how far it was read or written, and whether the system's own place differs. */
class OpenFile {
  // `seeks` is whether it can be at another place.
  /** @param {number} file @param {boolean} seeks */
  constructor(file, seeks) {
    this.file = file
    this.seeks = seeks
    this.place = 0
    this.moved = false
  }

  /** Where the next bytes are read or written. */
  get next() {
    return this.moved ? this.place : null
  }
}

/** @type {Map<number, OpenFile>} */
const files = new Map([0, 1, 2].map(number => [number, new OpenFile(number, false)]))

// The memory of the program. It is looked at again each time, since a view of one that has grown is empty.
/** @type {WebAssembly.Memory} */
let memory
const view = () => new DataView(memory.buffer)

// Bytes of the memory. (An address from 2 GB on comes as a number below 0.)
/** @param {number} at @param {number} count */
const bytes = (at, count) => new Uint8Array(memory.buffer, at >>> 0, count >>> 0)

// Writes a number of 32 bits into the memory: how WASI answers.
/** @param {number} at @param {number} number */
const put = (at, number) => view().setUint32(at >>> 0, number, true)

// The one part of bytes that a read or a write names.
/** @param {number} at */
const part = at => bytes(view().getUint32(at >>> 0, true), view().getUint32((at >>> 0) + 4, true))

// How an action ends, by WASI's number. A pipe that has nothing yet, or is full, is tried again.
/** @param {() => number} action */
function ended(action) {
  for (;;) {
    try {
      return action()
    } catch (error) {
      const code = /** @type {{ code?: string }} */ (error).code ?? ''
      if (code !== 'EAGAIN') return ERRORS[code] ?? IO
      Atomics.wait(new Int32Array(new SharedArrayBuffer(4)), 0, 0, 2)
    }
  }
}

// What is done with an open file.
/** @param {number} number @param {(open: OpenFile) => number} action */
function over(number, action) {
  const open = files.get(number)
  return open === undefined ? BAD_FILE : ended(() => action(open))
}

// How many bytes were read.
/** @param {OpenFile} open @param {Uint8Array} into */
function read(open, into) {
  try {
    return readSync(open.file, into, 0, into.length, open.next)
  } catch (error) {
    // (so Node tells the end of a pipe on Windows)
    if (/** @type {{ code?: string }} */ (error).code === 'EOF') return 0
    throw error
  }
}

// The flags of an opening, as Node takes them, by WASI's: what rights are wanted, and whether to create the file, fail
// if it is there, empty it, or append to it.
/** @param {number} how @param {bigint} rights @param {number} flags */
function mode(how, rights, flags) {
  const reads = (rights & 2n) !== 0n, writes = (rights & 64n) !== 0n
  return (writes ? (reads ? constants.O_RDWR : constants.O_WRONLY) : constants.O_RDONLY) |
    (how & 1 ? constants.O_CREAT : 0) | (how & 4 ? constants.O_EXCL : 0) | (how & 8 ? constants.O_TRUNC : 0) |
    (flags & 1 ? constants.O_APPEND : 0)
}

/** The functions of WASI, by its names. Addresses and sizes are numbers of 32 bits. */
const system = {
  // How many arguments there are, and how many bytes they take together.
  /** @param {number} count @param {number} size */
  args_sizes_get(count, size) {
    put(count, words.length)
    put(size, words.reduce((sum, word) => sum + word.length, 0))
    return NO_ERROR
  },
  // The arguments one after another, and the address of each.
  /** @param {number} addresses @param {number} at */
  args_get(addresses, at) {
    for (const word of words) {
      put(addresses, at)
      bytes(at, word.length).set(word)
      addresses += 4
      at += word.length
    }
    return NO_ERROR
  },
  // What a given folder is: 0 says that it is a folder, and 1 is the length of its name.
  /** @param {number} folder @param {number} at */
  fd_prestat_get(folder, at) {
    if (FOLDERS[folder - FIRST_FOLDER] === undefined) return BAD_FILE
    put(at, 0)
    put(at + 4, 1)
    return NO_ERROR
  },
  // The name of a given folder, which has one byte.
  /** @param {number} folder @param {number} at @param {number} room */
  fd_prestat_dir_name(folder, at, room) {
    if (room < 1) return NAME_TOO_LONG
    bytes(at, 1).set(Buffer.from(FOLDERS[folder - FIRST_FOLDER] ?? ''))
    return NO_ERROR
  },
  /**
   * Opens a file below a given folder. Its number is above the numbers of all folders and open files.
   * @param {number} folder @param {number} _lookup @param {number} at @param {number} length @param {number} how
   * @param {bigint} rights @param {bigint} _inherited @param {number} flags @param {number} to
   */
  path_open(folder, _lookup, at, length, how, rights, _inherited, flags, to) {
    const root = FOLDERS[folder - FIRST_FOLDER] === '/' ? '/' : ''
    const path = Buffer.concat([Buffer.from(root), bytes(at, length)])
    return ended(() => {
      const file = openSync(path, mode(how, rights, flags))
      const number = Math.max(...files.keys(), FIRST_FOLDER + FOLDERS.length - 1) + 1
      files.set(number, new OpenFile(file, fstatSync(file).isFile()))
      put(to, number)
      return NO_ERROR
    })
  },
  /** @param {number} number */
  fd_close(number) {
    return over(number, open => {
      files.delete(number)
      closeSync(open.file)
      return NO_ERROR
    })
  },
  // Moves to a place in a file, from its start (0), from where it is (1) or from its end (2).
  /** @param {number} number @param {bigint} offset @param {number} from @param {number} at */
  fd_seek(number, offset, from, at) {
    return over(number, open => {
      if (!open.seeks) return NO_SEEK
      const place = [0, open.place, fstatSync(open.file).size][from] + Number(offset)
      if (place < 0) return INVALID
      open.place = place
      open.moved = true
      view().setBigUint64(at >>> 0, BigInt(place), true)
      return NO_ERROR
    })
  },
  // Reads into one part of the memory: the program never names several.
  /** @param {number} number @param {number} parts @param {number} _count @param {number} to */
  fd_read(number, parts, _count, to) {
    return over(number, open => {
      const count = read(open, part(parts))
      open.place += count
      put(to, count)
      return NO_ERROR
    })
  },
  /** @param {number} number @param {number} parts @param {number} _count @param {number} to */
  fd_write(number, parts, _count, to) {
    return over(number, open => {
      const from = part(parts)
      const count = writeSync(open.file, from, 0, from.length, open.next)
      open.place += count
      put(to, count)
      return NO_ERROR
    })
  },
  /** @param {number} status */
  proc_exit(status) {
    exit(status)
  },
}

const module = new WebAssembly.Module(readFileSync(new URL('program.wasm', import.meta.url)))
const { exports } = new WebAssembly.Instance(module, { wasi_snapshot_preview1: system })
memory = /** @type {WebAssembly.Memory} */ (exports.memory)
const start = /** @type {() => void} */ (exports._start)
start()
