// Notes in window.wrong what goes wrong in a page that loads this first: errors of scripts and of what isn't loaded, what
// its policy forbids, and the messages of the console.
window.wrong = []
const note = (...words) => window.wrong.push(words.join(' '))
addEventListener('error', it => note('error:', it.message ?? it.target.outerHTML), true)
addEventListener('unhandledrejection', it => note('rejection:', it.reason))
document.addEventListener('securitypolicyviolation', it => note('policy:', it.violatedDirective, it.blockedURI))
for (const name of ['error', 'warn']) {
  const told = console[name]
  console[name] = (...words) => {
    note(`console.${name}:`, ...words)
    told.apply(console, words)
  }
}
