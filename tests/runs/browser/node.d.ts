// What urlcheck.js needs of Node, for a compiler without its declarations.
declare module 'node:fs/promises' {
  export function readFile(path: URL): Promise<Uint8Array>
}
