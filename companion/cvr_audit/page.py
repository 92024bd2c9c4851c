"""cvr-audit page: the tally as a page for a browser, with all else that a canvass looks at."""
from . import digests, page_contests, page_counts, page_inputs, page_records, page_said, page_summary, page_warnings
from .page_facts import Facts
from .page_style import style_of
from .page_tree import code, cut, element, section, shown, text_of

# no scripts, and nothing is fetched
POLICY = 'default-src \'none\'; style-src \'unsafe-inline\''
SIGNED = 'Made by', 'Checked by', 'Place and date'
WITHHELD = ('The SHA-256 of the text that cvr tally prints is on the whole page: with it, who '
            'tries all small numbers finds those that are withheld here.')


def signature(facts):
    """Lines to sign, and what is signed."""
    digest = digests.of(facts.tally.encode('utf-8'))
    said = ['SHA-256 of the text that cvr tally prints: ', code(digest)]
    return section('signature', 'Signature',
                   element('p', *([WITHHELD] if facts.is_public else said)),
                   None if facts.is_public else page_counts.counts(facts),
                   element('div', *(element('p', it) for it in SIGNED), class_='sign'))


def sections(facts):
    """The sections of the page, in their order."""
    contests = page_contests.contests_of(facts)
    yield page_warnings.warned(facts)
    yield page_contests.totals(facts, contests)
    yield page_contests.details(facts, contests)
    yield page_records.reconciliation(facts)
    if not facts.is_public:
        yield page_records.conflicts(facts)
        yield page_records.adjudications(facts)
    yield page_inputs.inputs(facts)
    yield signature(facts)


def contents(parts):
    """Links to the sections."""
    heads = [part.find('h2') for part in parts]
    links = [element('li', element('a', it.text, href='#' + it.get('id'))) for it in heads]
    return element('nav', element('ul', *links), aria_label='Sections')


def document(facts):
    parts = list(sections(facts))
    head = element('head', element('meta', charset='utf-8'),
                   element('meta', http_equiv='Content-Security-Policy', content=POLICY),
                   element('meta', name='viewport', content='width=device-width, initial-scale=1'),
                   element('title', 'UNOFFICIAL: ' + facts.names.election),
                   element('style', style_of(shown(cut(facts.names.election)))))
    body = element('body', *page_said.shown(facts.files.reports), page_summary.head(facts), contents(parts), element('main', *parts))
    return element('html', head, body, lang='en')


def run(files, words):
    """The page, and whether there is something to look at."""
    return text_of(document(Facts(files, words))), False
