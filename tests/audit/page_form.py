"""page_form.py: the form of a page: heads and tables, that nothing runs or is fetched, its colours,
and HTML5 as `tidy` reads it."""
import re
import shutil
import subprocess

SECTIONS = ['warnings', 'contests', 'units', 'batches', 'conflicts', 'adjudications', 'inputs',
            'signature']
TAGS = set('html head meta title style body header nav main section h1 h2 h3 p ul li dl dt dd div '
           'span strong small code pre bdi mark a table caption thead tbody tfoot tr th td details '
           'summary'.split())
NAMED = re.compile(r'--(\w+): (#[0-9a-f]{6})')
COLOUR = r'(?<![\w-])(color|background): (#[0-9a-f]{6})'
LEAST = 4.5         # the contrast that WCAG 2 requires of text at level AA
BARS = 3            # and of what isn't text
UNSHOWN = re.compile('[\x00-\x09\x0b-\x1f\x7f-\x9f\ufffe\uffff]')
RULE = re.compile(r'([^{}]+)\{([^{}]*)\}')


def wrong_of(page, text):
    """What is wrong with the form of a page, as lines."""
    yield from heads_wrong(page)
    for table in page.all('table'):
        yield from table_wrong(table)
    tags = {it.tag for it in nodes(page)}
    if not tags <= TAGS:
        yield 'elements %s' % sorted(tags - TAGS)
    for node in nodes(page):
        for name, value in node.attributes.items():
            is_link = name == 'href' and value.startswith('#')
            if name.startswith('on') or name in ('src', 'srcset', 'href') and not is_link:
                yield '%s=%r' % (name, value)
    style = next(page.all('style')).text()
    if 'url(' in style or '@import' in style:
        yield 'the style fetches something'
    yield from margins_wrong(style, next(page.all('title')).text())
    yield from regions_wrong(page)
    if UNSHOWN.search(text):
        yield 'the sign %r' % UNSHOWN.search(text).group()
    yield from tidied(text)


def margins_wrong(style, title):
    """What is wrong with the election's name in the margins, as a browser reads it: an escape ends with a space."""
    found = re.search(r"@bottom-center \{ content: '([^']+)' \}", style)
    text = re.sub(r'\\([0-9a-f]{1,6})\s?', lambda it: chr(int(it.group(1), 16)), found.group(1)) if found else ''
    name = ' '.join(text.rstrip('…').split())
    if not name or not title.startswith('UNOFFICIAL: ' + name):
        yield 'the margins have %r' % text


def nodes(node):
    for part in node.parts:
        if hasattr(part, 'tag'):
            yield part
            yield from nodes(part)


def heads_wrong(page):
    """One h1, no head more than one step below the head before it, and links that lead to heads."""
    levels = [int(it.tag[1]) for it in page.all('h1', 'h2', 'h3', 'h4', 'h5', 'h6')]
    is_tree = all(b <= a + 1 for a, b in zip(levels, levels[1:]))
    if levels[:1] != [1] or levels.count(1) != 1 or not is_tree:
        yield 'heads %s' % levels[:30]
    ids = [it.attributes['id'] for it in page.all('h2')]
    if ids != [it for it in SECTIONS if it in ids]:
        yield 'sections %s' % ids
    if ['#' + it for it in ids] != [it.attributes['href'] for it in page.all('a')]:
        yield 'links %s' % [it.attributes['href'] for it in page.all('a')]


def regions_wrong(page):
    """Regions of contests whose names don't say of which."""
    parts = {next(it.all('h2')).attributes['id']: it for it in page.all('section')}
    for part in (it for key in ('contests', 'units') for it in parts[key].all('div')):
        label = part.attributes.get('aria-label')
        if label and not label.endswith(': ' + next(part.all('caption')).text()):
            yield 'the region %s' % label


def table_wrong(table):
    """A caption, a head of each column and of each row, and as many cells in each row."""
    if len(list(table.all('caption'))) != 1:
        yield 'a table without a caption'
    columns = len(list(next(table.all('thead')).all('th')))
    for row in table.all('tr'):
        cells = list(row.all('th', 'td'))
        is_head = all(it.tag == 'th' for it in cells)
        scopes = [it.attributes.get('scope') for it in cells if it.tag == 'th']
        wanted = ['col'] * columns if is_head and columns > 1 else ['row']
        if len(cells) != columns or scopes != wanted:
            yield 'a row of %d cells in %d columns, with %s' % (len(cells), columns, scopes)


def tidied(text):
    """What `tidy` says of the page."""
    if not shutil.which('tidy'):
        return
    done = subprocess.run(['tidy', '-q', '-e', '-utf8'], input=text.encode('utf-8'),
                          stdout=subprocess.PIPE, stderr=subprocess.PIPE, timeout=300)
    for line in done.stderr.decode('utf-8', 'replace').splitlines():
        yield 'tidy: ' + line


# ---- colours

def light(colour):
    """The relative luminance of a colour, as WCAG 2 defines it."""
    parts = [int(colour[place:place + 2], 16) / 255 for place in (1, 3, 5)]
    parts = [it / 12.92 if it <= 0.04045 else ((it + 0.055) / 1.055) ** 2.4 for it in parts]
    return 0.2126 * parts[0] + 0.7152 * parts[1] + 0.0722 * parts[2]


def contrast(one, other):
    a, b = sorted(map(light, (one, other)))
    return (b + 0.05) / (a + 0.05)


def style_wrong(style):
    """What is wrong with a style on a light and on a dark ground."""
    light_text, dark_text = style.split('@media screen and (prefers-color-scheme: dark)')
    dark_text, rest = dark_text.split('\n}', 1)
    held = [dict(NAMED.findall(it)) for it in (light_text, dark_text)]
    if held[0].keys() != held[1].keys() or held[0]['ground'] == held[1]['ground']:
        yield 'colours of one ground alone'
    for named in held:
        yield from colours_wrong(re.sub(r'var\(--(\w+)\)', lambda it: named[it.group(1)], rest))


def colours_wrong(style):
    """Colours of text too near to a ground: that of the same rule or, where a rule has a colour but no
    ground, any that a rule has alone, or the page's. And bars too near to the page's ground."""
    rules = {}
    for name, body in RULE.findall(style):
        rules.setdefault(name.strip(), {}).update(re.findall(COLOUR, body))
    html, bar = rules['html'], rules['.bar']
    pairs = [(it['color'], it['background']) for it in rules.values() if len(it) == 2]
    alone = [it for name, it in rules.items() if len(it) == 1 and name != '.bar']
    texts = [it['color'] for it in alone + [html] if 'color' in it]
    grounds = [it['background'] for it in alone + [html] if 'background' in it]
    pairs += [(text, ground) for text in texts for ground in grounds]
    for text, ground in pairs:
        if contrast(text, ground) < LEAST:
            yield '%s on %s: %.2f' % (text, ground, contrast(text, ground))
    if contrast(bar['background'], html['background']) < BARS:
        yield 'the bars'
    if [round(contrast(it, '#ffffff'), 2) for it in ('#000000', '#777777')] != [21, 4.48]:
        yield 'the contrast itself is worked out wrong'
    if len(pairs) < 10 or 'color' in re.sub(COLOUR + '|print-color-adjust', '', style):
        yield '%d pairs of colours, or one that is spelled otherwise' % len(pairs)
