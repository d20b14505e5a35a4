// The links of an HTML file, taken by the browser's own parser into a document without scripts, that loads nothing:
// in the attributes that urlcheck-documents reads. It also reads style sheets and what refreshes a page.
import { candidates, lists, urls } from './attributes.js'

/** What is round an attribute's URL, if at all, and between several of them (HTML, sections 2.4.1 and 2.3.7). */
const SPACES = /[\t\n\f\r ]+/
const SPACE = '\t\n\f\r '
/** What ends a descriptor of an image candidate, or begins a part of one that no space and no comma ends. */
const BREAK = /[(,\t\n\f\r ]/g
/** A word that is a descriptor, or was perhaps to be one: a number, perhaps with a unit. */
const LIKE_DESCRIPTOR = /^(?:[-+]?[0-9.]+(?:e[-+]?[0-9]+)?[a-z]{0,2}|[wxh][0-9.]*)$/i

/** A text without what is of these code points at its end. (A pattern that ends with `$` would look from each of them on.) */
function withoutEnd(text, points) {
  let end = text.length
  while (end > 0 && points.includes(text[end - 1])) end--
  return text.slice(0, end)
}

/** A text without the spaces of HTML round it. */
function withoutSpaces(text) {
  let start = 0
  while (start < text.length && SPACE.includes(text[start])) start++
  return withoutEnd(text.slice(start), SPACE)
}

/** Whether a table of attributes has one of an element. */
function has(table, attribute, element) {
  const elements = table.get(attribute)
  return elements === '' || (elements !== undefined && elements.split(' ').includes(element))
}

/** Returns two ends: of the descriptors after a URL that ends there, and of the link if words of them belong to it. */
function candidateEnds(value, urlEnd) {
  let [at, start, end, isLink] = [urlEnd, urlEnd, urlEnd, true]
  for (;;) {
    BREAK.lastIndex = at
    const found = BREAK.exec(value)
    at = found ? found.index : value.length
    if (found && found[0] === '(') {
      at = value.indexOf(')', at) + 1 || value.length
      continue
    }
    if (isLink && start < at) {
      const word = value.slice(start, at)
      isLink = !word.endsWith(')') && !LIKE_DESCRIPTOR.test(word)
      if (isLink) end = at
    }
    if (!found || found[0] === ',') return { at, end }
    at = start = at + 1
  }
}

/**
 * The links of image candidates, as the HTML Standard parses a `srcset`. Words that aren't descriptors belong to the
 * link, as of `my photo.png 1x`: the Standard has no such candidate, and its author meant a URL with a space.
 */
function linksOfCandidates(value) {
  const links = []
  for (let at = 0; at < value.length;) {
    if (/[,\t\n\f\r ]/.test(value[at])) {
      at++
      continue
    }
    const start = at
    while (at < value.length && !/[\t\n\f\r ]/.test(value[at])) at++
    let end = start + withoutEnd(value.slice(start, at), ',').length
    if (end === at) ({ at, end } = candidateEnds(value, at))
    links.push(value.slice(start, end))
  }
  return links
}

/** The links of an attribute's value. */
function linksOfAttribute(element, attribute, value) {
  if (has(urls, attribute, element)) return [withoutSpaces(value)]
  if (has(lists, attribute, element)) return value.split(SPACES).filter(link => link !== '')
  if (has(candidates, attribute, element)) return linksOfCandidates(value)
  return []
}

/** The links of the elements below a root, in their order. What a template has is in a document of its own. */
function* linksBelow(root) {
  for (const found of root.querySelectorAll('*')) {
    const name = found.localName
    // (the base is what the links are read against, and is checked before them)
    for (const { name: attribute, value } of name === 'base' ? [] : found.attributes) {
      for (const text of linksOfAttribute(name, attribute, value)) yield { text, where: `${name} ${attribute}` }
    }
    if (name === 'template' && found.content) yield* linksBelow(found.content)
  }
}

/**
 * The links of a document in their order, and the base that it names, or null.
 * @param {string} html
 * @returns {{ base: string | null, links: { text: string, where: string }[] }}
 */
export function linksOf(html) {
  const parsed = new DOMParser().parseFromString(html, 'text/html')
  const named = parsed.querySelector('base[href]')
  return { base: named ? withoutSpaces(named.getAttribute('href')) : null, links: [...linksBelow(parsed)] }
}
