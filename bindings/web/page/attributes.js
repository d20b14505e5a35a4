// The attributes of HTML that hold links, each with its elements, or '' where every one may have it.
// tools/write-attributes makes this of its list.

/** The attributes whose value is a URL. */
export const urls = new Map([
  ['action', 'form'],
  ['cite', 'blockquote del ins q'],
  ['data', 'object'],
  ['formaction', 'button input'],
  ['href', ''],
  ['itemid', ''],
  ['manifest', 'html'],
  ['poster', 'video'],
  ['src', 'audio embed frame iframe image img input script source track video'],
  ['xlink:href', '']
])

/** The attributes whose value is a list of URLs with spaces between them. */
export const lists = new Map([
  ['itemtype', ''],
  ['ping', 'a area']
])

/** The attributes whose value is a list of image candidates. */
export const candidates = new Map([
  ['imagesrcset', 'link'],
  ['srcset', 'img source']
])
