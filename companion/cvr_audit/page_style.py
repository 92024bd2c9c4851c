"""How the page looks: on a light or a dark screen of any width, in forced colours, and in print. No
meaning rests on colour alone."""

# each colour on a light ground, which paper always has, and on a dark one
COLOURS = {
    'ink': ('#1b1b1b', '#e8e8e8'), 'ground': ('#ffffff', '#16181b'), 'faint': ('#4a4a4a', '#b9bec5'),
    'head': ('#1f4e79', '#8ec3f2'), 'alarm': ('#7a1f1f', '#7a1f1f'), 'white': ('#ffffff', '#ffffff'),
    'box': ('#f2f4f7', '#23272d'), 'top': ('#e8edf3', '#2b3138'), 'line': ('#8c959f', '#6b747e'),
    'warn': ('#fff4d6', '#3a3016'), 'edge': ('#8a5a00', '#d9a441'), 'bar': ('#2f6ea5', '#5b9bd5'),
    'found': ('#ffe08a', '#5a4700'), 'red': ('#b00020', '#ff7b7b'),
}
RULES = '''
* { box-sizing: border-box }
html { font: 16px/1.45 system-ui, sans-serif; color: var(--ink); background: var(--ground);
  -webkit-print-color-adjust: exact; print-color-adjust: exact }
body { margin: 0 auto; max-width: 70rem; padding: 1rem }
h1, h2, h3, p, li, dt, dd, caption, summary, code, bdi { overflow-wrap: anywhere }
h1 { font-size: 1.7rem; line-height: 1.2; margin: .3rem 0 }
h2 { border-bottom: 2px solid var(--head); color: var(--head); font-size: 1.3rem;
  margin: 1.4rem 0 .4rem }
h3 { font-size: 1.05rem; margin: 1.4rem 0 .4rem }
small, code { color: var(--faint); font-size: .82rem }
code { font-family: ui-monospace, monospace }
a { color: var(--head) }
.unofficial { background: var(--alarm); color: var(--white); display: inline-block;
  font-weight: bold; letter-spacing: .1em; margin: 0; padding: .2rem .7rem }
.said { border: 3px solid var(--red); color: var(--red); font-size: 1.2rem; font-weight: bold;
  margin: .3rem 0; padding: .2rem .6rem }
.sheet { display: none }
nav ul { display: flex; flex-wrap: wrap; gap: .2rem 1.2rem; list-style: none; padding: 0 }
dl { display: grid; gap: .2rem .8rem; grid-template-columns: minmax(6rem, 10rem) 1fr;
  margin: .6rem 0 }
dt { font-weight: bold }
dd { margin: 0; min-width: 0 }
.summary { border: 2px solid var(--head); padding: .5rem .8rem }
pre { background: var(--box); margin: .3rem 0; padding: .5rem; white-space: pre-wrap;
  overflow-wrap: anywhere }
.warnings > li { background: var(--warn); border-left: 4px solid var(--edge); list-style: none;
  margin: .4rem 0; padding: .4rem .7rem }
.warnings { padding: 0 }
.places { columns: 15rem; margin: .2rem 0; padding-left: 1.2rem }
.places > li { break-inside: avoid }
.wide { overflow-x: auto; margin: .6rem 0 }
table { border-collapse: collapse; width: 100% }
caption { font-weight: bold; padding: .3rem 0; text-align: left }
th, td { border: 1px solid var(--line); padding: .25rem .45rem; text-align: left;
  vertical-align: top }
th, td { min-width: 4.5rem }
thead th { background: var(--top); font-weight: bold; vertical-align: bottom }
td ul { list-style: none; margin: 0; padding: 0 }
tbody th { font-weight: normal; min-width: 8rem }
td:has(code) { min-width: 7rem }
tfoot th, tfoot td { background: var(--box); font-weight: bold }
.number, .numbers td { font-variant-numeric: tabular-nums; text-align: right; white-space: nowrap;
  width: 6rem }
.number:has(.bar) { width: 45% }
.track { float: left; padding-top: .2rem; width: calc(100% - 5rem) }
.bar { background: var(--bar); border: 1px solid var(--bar); display: block; height: 1rem }
mark { background: var(--found); color: var(--ink) }
details { margin: .3rem 0 }
summary { cursor: pointer; font-weight: bold }
.sign { display: grid; gap: 2rem 1rem; grid-template-columns: repeat(auto-fit, minmax(14rem, 1fr));
  margin: 2.5rem 0 1rem }
.sign p { border-top: 1px solid var(--ink); margin: 0; padding-top: .2rem }
@media print {
  html { font-size: 9pt; line-height: 1.25 }
  table { font-size: 8pt; line-height: 1.15 }
  body { max-width: none; padding: 0 }
  nav { display: none }
  .sheet { color: var(--red); display: block; font-size: 13vw; font-weight: bold; left: 0; line-height: 1;
    margin: 0; opacity: .22; position: fixed; text-align: center; top: 35%; width: 100%; z-index: -1 }
  th, td { min-width: 0; padding: .05rem .3rem }
  tbody th { min-width: 7rem }
  thead th { min-width: 3.8rem }
  .number, .numbers td { width: auto }
  .wide { overflow: visible }
  thead { display: table-header-group }
  tfoot { display: table-row-group }
  tr, li, dt, dd, .sign p { break-inside: avoid }
  .warnings > li { break-inside: auto }
  h2, h3, caption, summary, thead { break-after: avoid }
  tbody > tr:first-child { break-before: avoid }
  details:not(.shut)::details-content { content-visibility: visible; block-size: auto }
}
'''
MARGINS = '''@page { margin: 12mm 14mm 15mm; font: 8pt system-ui, sans-serif;
  @bottom-left { content: 'UNOFFICIAL'; font-weight: bold }
  @bottom-center { content: '%s' }
  @bottom-right { content: counter(page) ' / ' counter(pages) } }
'''
NAMED = 60          # characters of the election's name in a margin


def colours(place):
    """The colours of a light (0) or dark (1) ground, as rules."""
    return ':root { %s }\n' % '; '.join('--%s: %s' % (name, pair[place])
                                        for name, pair in COLOURS.items())


def quoted(text):
    """A text in a string of CSS, in which only letters and digits of ASCII stand as they are: a space
    behind an escape would end it."""
    return ''.join(it if it.isascii() and it.isalnum() else '\\%06x' % ord(it) for it in text)


def style_of(election):
    """The style of a page; each sheet of paper names its election."""
    name = election if len(election) <= NAMED else election[:NAMED - 1] + '…'
    dark = '@media screen and (prefers-color-scheme: dark) {\n%s}\n' % colours(1)
    return '\n' + colours(0) + dark + RULES.lstrip('\n') + MARGINS % quoted(name)
