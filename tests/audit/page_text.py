"""page_text.py: a page as a tree, as lines of text, and as tables."""
import re
from html.parser import HTMLParser

VOID = 'meta', 'br', 'link', 'img'
LINES = 'h1', 'h2', 'h3', 'p', 'li', 'summary'
MARKS = {'h1': '# ', 'h2': '## ', 'h3': '### ', 'li': '- ', 'caption': 'table: ', 'summary': '+ '}


class Node:
    """An element. Its parts are elements and texts."""

    def __init__(self, tag, attributes):
        self.tag, self.attributes, self.parts = tag, dict(attributes), []

    def all(self, *tags):
        """The elements with these tags below this one, in their order."""
        for part in self.parts:
            if isinstance(part, Node):
                if part.tag in tags:
                    yield part
                yield from part.all(*tags)

    def text(self):
        """The text below, with one space for each run of white space."""
        return re.sub(r'\s+', ' ', self.raw()).strip()

    def raw(self):
        between = ' ' if self.tag in ('ul', 'dl', 'tr') else ''
        text = between.join(it if isinstance(it, str) else it.raw() for it in self.parts)
        return '«%s»' % text if self.tag == 'mark' else text

    def id_of(self):
        """The ids that stand below: the texts in `code`."""
        return [it.text() for it in self.all('code')]


class Reader(HTMLParser):
    """Reads a page that closes what it opens."""

    def __init__(self):
        super().__init__()
        self.open = [Node('', [])]

    def handle_starttag(self, tag, attributes):
        node = Node(tag, attributes)
        self.open[-1].parts.append(node)
        if tag not in VOID:
            self.open.append(node)

    def handle_endtag(self, tag):
        if self.open.pop().tag != tag:
            raise ValueError('</%s> closes another element' % tag)

    def handle_data(self, data):
        self.open[-1].parts.append(data)


def read(text):
    """The tree of a page."""
    reader = Reader()
    reader.feed(text)
    reader.close()
    if len(reader.open) != 1:
        raise ValueError('<%s> is not closed' % reader.open[-1].tag)
    return reader.open[0]


def lines(node, hidden=()):
    """The lines of text of a page, without its style: rows of tables with ` | ` between cells. What has
    a head of `hidden` is left out."""
    for part in node.parts:
        if not isinstance(part, Node) or part.tag in ('style', 'title'):
            continue
        if part.tag == 'table':
            heads = [it.text() for it in rows(part)[0]]
            left = [place for place, head in enumerate(heads) if head in hidden]
            if not left or len(left) + 1 < len(heads):
                yield MARKS['caption'] + next(part.all('caption')).text()
                for row in rows(part):
                    yield ' | '.join(it.text() for place, it in enumerate(row) if place not in left).rstrip()
        elif part.tag == 'dl':
            for term, said in zip(part.all('dt'), part.all('dd')):
                if term.text() not in hidden:
                    yield '%s: %s' % (term.text(), said.text())
        elif part.tag in LINES:
            yield MARKS.get(part.tag, '') + part.text()
        else:
            yield from lines(part, hidden)


def sections(page):
    """The sections of a page by the id of their heads."""
    return {next(it.all('h2')).attributes['id']: it for it in page.all('section')}


def rows(table):
    """The cells of each row of a table, as elements."""
    return [list(it.all('th', 'td')) for it in table.all('tr')]
