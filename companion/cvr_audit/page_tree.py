"""Elements of HTML as a tree, so that no text of a file can become markup."""
import hashlib
import re
import xml.etree.ElementTree as ET

# characters that an HTML text can't have: controls, halves of surrogate pairs, and noncharacters
LAST = ''.join(chr(plane << 16 | last) for plane in range(17) for last in (0xfffe, 0xffff))
UNSHOWN = re.compile('[\x00-\x08\x0b-\x1f\x7f-\x9f\ud800-\udfff\ufdd0-\ufdef%s]' % LAST)

NUMBER = re.compile(r'\*?|–|[0-9]+\.[0-9]')        # spelled already, or in place of a number


LONG, KEPT = 2000, 500      # a longer text of a file is cut to so many characters
CUT = '{}… (cut: {:,} characters, SHA-256 {})'
OF_FILES = 'bdi', 'summary', 'title'        # the elements with texts of files


def cut(text):
    """A text of a file: a long one stands on a page many times, so that it is cut, and told apart from
    others by its SHA-256."""
    if len(text) <= LONG:
        return text
    digest = hashlib.sha256(text.encode('utf-8', 'surrogatepass')).hexdigest()
    return CUT.format(text[:KEPT], len(text), digest)


def shown(text):
    """A text in which each character that HTML can't have is spelled as an escape of JSON."""
    return UNSHOWN.sub(lambda found: '\\u%04x' % ord(found.group()), text)


def element(tag, *parts, **attributes):
    """An element of these parts: elements, texts and numbers. None is left out."""
    held = {name.rstrip('_').replace('_', '-'): shown(cut(str(value)))
            for name, value in attributes.items() if value is not None}
    made = ET.Element(tag, held)
    for part in parts:
        append(made, cut(part) if tag in OF_FILES and isinstance(part, str) else part)
    return made


def append(parent, part):
    if part is None:
        return
    if ET.iselement(part):
        parent.append(part)
        return
    text = shown(part) if isinstance(part, str) else '{:,}'.format(part)
    if len(parent):
        parent[-1].tail = (parent[-1].tail or '') + text
    else:
        parent.text = (parent.text or '') + text


def name(text):
    """A name. Its direction of writing changes nothing around it."""
    return element('bdi', text)


def code(text):
    """An id or another text of a file, as it is there."""
    return element('code', element('bdi', text or '""'))


def codes(texts):
    """Texts of a file, with a space after each."""
    parts = [part for text in texts for part in (code(text), ' ')]
    return element('span', *parts) if parts else ''


def section(key, title, *parts):
    return element('section', element('h2', title, id=key), *parts)


def listed(pairs):
    """Terms, each with its description."""
    parts = [(element('dt', term), element('dd', *said)) for term, *said in pairs]
    return element('dl', *(part for pair in parts for part in pair))


def is_number(part):
    return isinstance(part, int) or isinstance(part, str) and NUMBER.fullmatch(part) is not None


def cell(part, name='number'):
    """A cell of a table, which may be made already: numbers have a class, and are right-aligned."""
    if ET.iselement(part) and part.tag == 'td':
        return part
    return element('td', part, class_=name if is_number(part) else None)


def row_of(cells, name='number'):
    """A row. Its first cell is its head."""
    return element('tr', element('th', cells[0], scope='row'),
                   *(cell(it, name) for it in cells[1:]))


def table(caption, heads, rows, foot=None, of=None):
    """A table with the heads of its columns and its rows; a narrow window scrolls it sideways. What it
    is of, as a contest, stands in the name of that region."""
    head, rows = element('tr', *(element('th', it, scope='col') for it in heads)), list(rows)
    # a table of numbers alone has the class in their place, as it may have thousands
    is_plain = all(is_number(it) for row in rows for it in row[1:])
    name = None if is_plain else 'number'
    parts = [element('caption', caption), element('thead', head)]
    parts.append(element('tbody', *(row_of(it, name) for it in rows)))
    if foot:
        parts.append(element('tfoot', row_of(foot, name)))
    made = element('table', *parts, class_='numbers' if is_plain else None)
    return element('div', made, class_='wide', role='region', tabindex='0',
                   aria_label=caption if of is None else '%s: %s' % (of, caption))


def folded(is_many, summary, *parts, is_shut=False):
    """The parts, behind a line that unfolds them where they are many; in print, too, or there not."""
    if not is_many:
        return element('div', *parts)
    return element('details', element('summary', summary), *parts, class_='shut' if is_shut else None)


def text_of(root):
    """The document."""
    return '<!DOCTYPE html>\n%s\n' % ET.tostring(root, encoding='unicode', method='html')
