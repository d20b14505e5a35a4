// Elements of the page. Each text of a caller becomes a text node, so that none is ever read as markup.

/**
 * An element with attributes and children; a string is a text node.
 * @param {string} name
 * @param {Record<string, string>} [attributes]
 * @param {...(Node | string | null)} children
 */
export function element(name, attributes = {}, ...children) {
  const made = document.createElement(name)
  for (const [key, value] of Object.entries(attributes)) made.setAttribute(key, value)
  made.append(...children.filter(child => child !== null))
  return made
}

/** The element of the page with an identifier. */
export function byId(id) {
  return document.getElementById(id)
}

/** A button that does something. */
export function button(text, action, attributes = {}) {
  const made = element('button', { type: 'button', ...attributes }, text)
  made.addEventListener('click', action)
  return made
}

/** A number with its thousands parted. */
export function counted(number) {
  return number.toLocaleString('en')
}

/** `one` or `many`, after the number. */
export function plural(number, one, many) {
  return `${counted(number)} ${number === 1 ? one : many}`
}
