// What the page shows, in its own address after `#`, so that a case can be sent as a link.

/** The views: one text, a list of links, or the links of a document. The first one is shown if the address has none. */
const VIEWS = ['text', 'list', 'html']
/** A text or list of more units isn't written into the address, which would be too long to send. */
const LONGEST = 4000

/** What an address can't have: a half of a surrogate pair, in whose place another code point would be sent. */
const LONE_SURROGATE = /\p{Cs}/u

/** Whether a text is sent with an address. */
function isSent(text) {
  return text.length <= LONGEST && !LONE_SURROGATE.test(text)
}

/** The names that an address may have for a profile; the first is meant if it has none. */
const PROFILES = ['standard', 'wide', 'parser']

/** What the page begins with. */
export const FIRST_TEXT = 'https://example.com/a b?x=100%&y=1#top'

/** The state that the address gives; `text` and `list` are null if it has none. */
export function readState() {
  const words = new URLSearchParams(location.hash.slice(1))
  const view = words.get('view')
  return {
    view: VIEWS.includes(view) ? view : 'text',
    text: words.get('text'),
    list: words.get('list'),
    base: words.get('base') ?? '',
    profile: PROFILES.find(profile => profile === words.get('profile')) ?? PROFILES[0]
  }
}

/** The address of a state, after `#`. */
export function addressOf({ view, text, list, base, profile }) {
  const words = new URLSearchParams({ view })
  if (view === 'text' && isSent(text)) words.set('text', text)
  if (view === 'list' && list && isSent(list)) words.set('list', list)
  if (base && isSent(base)) words.set('base', base)
  if (profile !== PROFILES[0]) words.set('profile', profile)
  return `#${words}`
}
