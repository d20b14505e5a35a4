// What platform/program.mjs needs of Node, for a compiler without its declarations.
declare module 'node:fs' {
  export const constants: Record<'O_RDONLY' | 'O_WRONLY' | 'O_RDWR' | 'O_CREAT' | 'O_EXCL' | 'O_TRUNC' | 'O_APPEND', number>
  export function openSync(path: Uint8Array, flags: number): number
  export function closeSync(file: number): void
  export function fstatSync(file: number): { size: number; isFile(): boolean }
  export function readFileSync(path: string, encoding: 'latin1'): string
  export function readFileSync(path: URL): Uint8Array
  export function readSync(file: number, into: Uint8Array, offset: number, length: number, position: number | null): number
  export function writeSync(file: number, from: Uint8Array, offset: number, length: number, position: number | null): number
}
declare module 'node:process' {
  export const argv: string[]
  export function exit(status: number): never
}
declare module 'node:v8' {
  export function setFlagsFromString(flags: string): void
}
interface Buffer extends Uint8Array {}
declare const Buffer: {
  from(text: string, encoding?: 'latin1'): Buffer
  from(bytes: number[]): Buffer
  concat(parts: Uint8Array[]): Buffer
}
