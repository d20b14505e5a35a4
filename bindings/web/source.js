// The origin of `urlcheck.wasm`: the source that a caller gives to `load`, made a compiled module.

/** @typedef {import('./urlcheck.js').Source} Source */

/** The address of this file. (A bundler takes `new URL(name, import.meta.url)` for a file of its own, which a variable can't name.) */
const HERE = import.meta.url

/**
 * The bytes of a file, or an answer of a server that has them.
 * @param {URL} url
 * @returns {Promise<BufferSource | Response>}
 */
async function fetched(url) {
  if (url.protocol === 'file:') {
    const { readFile } = await import(/* webpackIgnore: true */ 'node:fs/promises')
    return readFile(url)
  }
  const response = await fetch(url)
  if (!response.ok) throw new Error(`${url} isn't there: ${response.status}`)
  return response
}

/**
 * Compiles a module. An answer is compiled while it arrives, which engines do only if the server names its type.
 * @param {BufferSource | Response} source
 * @returns {Promise<WebAssembly.Module>}
 */
async function compiled(source) {
  if (!(typeof Response === 'function' && source instanceof Response)) {
    return WebAssembly.compile(/** @type {BufferSource} */ (source))
  }
  const type = source.headers.get('content-type')
  if (type === 'application/wasm') return WebAssembly.compileStreaming(source)
  return WebAssembly.compile(await source.arrayBuffer())
}

/**
 * The module of a source.
 * @param {Source} source
 * @returns {Promise<WebAssembly.Module>}
 */
export async function moduleOf(source) {
  if (source instanceof WebAssembly.Module) return source
  const isAddress = typeof source === 'string' || source instanceof URL
  return compiled(isAddress ? await fetched(new URL(source, HERE)) : source)
}
