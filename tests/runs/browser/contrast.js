// The texts of the page whose contrast with what is after them is below 4.5 (WCAG 2, level AA).
const light = c => { const part = c.map(v => (v /= 255) <= 0.04045 ? v / 12.92 : ((v + 0.055) / 1.055) ** 2.4);
  return 0.2126 * part[0] + 0.7152 * part[1] + 0.0722 * part[2] }
const canvas = document.createElement('canvas').getContext('2d', { willReadFrequently: true })
const over = (colour, below) => { canvas.fillStyle = `rgb(${below})`; canvas.fillRect(0, 0, 1, 1)
  canvas.fillStyle = colour; canvas.fillRect(0, 0, 1, 1); return [...canvas.getImageData(0, 0, 1, 1).data].slice(0, 3) }
const white = [255, 255, 255]
const ground = it => over(getComputedStyle(it).backgroundColor, it.parentElement ? ground(it.parentElement) : white)
const found = []
for (const it of document.body.querySelectorAll('*')) {
  if (![...it.childNodes].some(node => node.nodeType === 3 && node.data.trim())) continue
  if (!it.getClientRects().length || it.localName === 'option' || it.localName === 'noscript') continue
  const below = ground(it)
  const [one, other] = [light(over(getComputedStyle(it).color, below)), light(below)].sort((a, b) => b - a)
  const ratio = (one + 0.05) / (other + 0.05)
  if (ratio < 4.5) found.push(`${it.localName}.${it.className} ${ratio.toFixed(2)} ${it.textContent.slice(0, 30)}`)
}
return found
